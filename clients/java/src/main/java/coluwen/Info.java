package coluwen;

import java.util.Optional;

/** What depths can be had of mid-game positions: {@code sure} plies at each, {@code mostly} at most of them; and the version, where a site says it. */
public record Info(int grain, int sure, int mostly, Optional<String> version) {}
