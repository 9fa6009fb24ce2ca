"""What a client of Python makes of a site: tokens, rates, INFO."""
from __future__ import annotations

import time

import coluwen
import pytest
from place import LEFT, LINES, SCHOOL, TOKEN, TOP, Answer, Site


def client(site: Site, **more: object) -> coluwen.Client:
    return coluwen.Client("127.0.0.1", site.plain, sessions=2, **more)  # type: ignore[arg-type]


def is_right(asked: coluwen.Client, at: int, wanted: list[Answer]) -> bool:
    depth, position = LINES[at].split(" ", 1)
    result = asked.analyse(position, int(depth))
    return ("DONE", result.score.value, result.best or "-") == wanted[at]


def test_a_token_that_nobody_has_is_told_at_once() -> None:
    with Site(terms=LEFT, more=SCHOOL) as site, client(site, token="guess") as asked:
        begun = time.monotonic()
        with pytest.raises(coluwen.Refused) as refused:
            asked.analyse(LINES[0].split(" ", 1)[1], 1)
        assert refused.value.number == 30 and time.monotonic() - begun < 5


def test_a_site_says_what_it_is(wanted: list[Answer]) -> None:
    with Site(terms=LEFT, more=SCHOOL) as site, client(site, token=TOKEN) as asked:
        info = asked.info()
        assert (info.grain, info.version) == (6, (TOP / "VERSION").read_text().strip()) and is_right(asked, 0, wanted)
        assert set(site.has()) == {"school"}


def test_a_rate_is_waited_out(wanted: list[Answer]) -> None:
    with Site(terms=[("rate = 10\nburst = 100", "rate = 1\nburst = 3")]) as site:
        begun = time.monotonic()
        for at in range(8):
            with client(site) as asked:
                assert is_right(asked, at, wanted)
        assert time.monotonic() - begun > 1, "the rate lets all through"
        assert 'reason="rate"} 0' not in site.get("/metrics")[1]
