package coluwen;

import java.time.Duration;
import java.util.List;
import java.util.Optional;

/**
 * What a search found: the score of the position, its first best move (none at depth 0 and in a finished game), and what is known of each
 * move in the order in which they were tried: the best one's value exactly, of most others a bound.
 */
public record Result(Position position, int depth, Score score, Optional<String> best, List<Entry> table, Duration taken) {
  static Result of(Position position, int depth, int value, String move, List<Answer.Entry> entries, long begun) {
    var ends = depth >= position.empties();
    var table = entries.stream().map(entry -> new Entry(entry.move(), new Score(entry.value(), entry.sign(), ends, position.side()))).toList();
    var best = Optional.of(move).filter(each -> !each.equals("-"));
    return new Result(position, depth, new Score(value, '=', ends, position.side()), best, table, Duration.ofNanos(System.nanoTime() - begun));
  }
}
