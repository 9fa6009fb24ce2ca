"""HTTP for a site's customers: HAProxy ends TLS (deploy/web.cfg), and `coluwen-page --customers` is at the site who the token of a request says."""
from __future__ import annotations

import contextlib
import hashlib
import http.client
import json
import subprocess
import sys
import time
from collections.abc import Iterator
from typing import Any

from place import LINES, SCHOOL, SLOW, TOKEN, TOP, Answer, Site, ended_after, free_port, is_there, until

OTHER = "shop-token"
SHOP = f"""
[[customer]]
name = "shop"
token_sha256 = ["{hashlib.sha256(OTHER.encode()).hexdigest()}"]
sessions = 1
segments = 1024
nodes = 65536
rate = 100
burst = 1000
"""
# What is left for the guests beside the school and the shop.
LEFT = [("[guests.together]          # in each hall\nsessions = 64\nsegments = 65536\nnodes = 4194304", "[guests.together]\nsessions = 55\nsegments = 56320\nnodes = 3604480")]
OPEN = [at for at, line in enumerate(LINES) if line.count("-") > 20]  # whose values aren't the game's end
WORK = {"game": "f5d6c3d3c4f4f6f3e6e7d7c5b6d8c6b5", "depth": 10, "exact": "all", "steps": False}  # some seconds of one worker


@contextlib.contextmanager
def served(made: dict[str, str], terms: list[tuple[str, str]] | None = None) -> Iterator[Site]:
    """A site with two customers, HAProxy, and the page's server, which goes to the site by HAProxy's entrance without TLS."""
    with Site(made, terms=[*LEFT, *(terms or [])], more=SCHOOL + SHOP, page=free_port()) as site:
        words = [sys.executable, str(TOP / "clients/bin/coluwen-page"), "--customers", "--server", f"127.0.0.1:{site.clear}", "--port", str(site.page), "--sessions", "2", "--per-address", "768"]
        with site.log.open("a") as log, ended_after(subprocess.Popen(words, stdout=log, stderr=log)) as page:
            until(lambda: page.poll() is not None or is_there(site.page), 30, "the page's server listens")
            assert page.poll() is None, site.log.read_text()
            yield site


def asked(site: Site, token: str = "", question: Any = None, path: str = "/analyse", address: str = "127.9.0.1") -> http.client.HTTPSConnection:
    """A connection over TLS, by which a question was sent."""
    stream = http.client.HTTPSConnection("localhost", site.web, timeout=60, context=site.context(), source_address=(address, 0))
    headers = {"Content-Type": "application/json", **({"Authorization": f"Bearer {token}"} if token else {})}
    stream.request("POST" if question else "GET", path, json.dumps(question) if question else None, headers)
    return stream


def told(*words: Any, **more: Any) -> tuple[int, list[dict[str, Any]], dict[str, str]]:
    """The status, the lines and the head of what is answered."""
    with contextlib.closing(asked(*words, **more)) as stream:
        answer = stream.getresponse()
        return answer.status, [json.loads(line) for line in answer.read().splitlines() if line.strip()], dict(answer.getheaders())


def is_right(site: Site, token: str, at: int, wanted: list[Answer]) -> bool:
    """Whether a customer is told the right value of one of the trial's positions, at once."""
    depth, position = LINES[at].split(" ", 1)
    status, lines, _ = told(site, token, {"position": position, "depth": int(depth)})
    steps = [line for line in lines if line["kind"] == "step"]
    return status == 200 and lines[-1] == {"kind": "done"} and ("DONE", steps[-1]["score"]["points"], steps[-1]["best"]) == wanted[at]


def test_a_token_is_its_customer_at_the_site(made: dict[str, str], wanted: list[Answer]) -> None:
    with served(made) as site:
        assert not site.has()  # what the page's server had to learn it has learnt, and it holds nobody's place
        assert all(is_right(site, TOKEN, at, wanted) for at in OPEN[:8])
        assert set(site.has()) == {"school"}
        assert is_right(site, OTHER, OPEN[8], wanted) and set(site.has()) == {"school", "shop"}
        with contextlib.closing(asked(site, path="/openapi.json")) as stream:
            assert json.load(stream.getresponse()) == json.loads((TOP / "clients/python/src/coluwen/page/openapi.json").read_text())
        assert told(site, path="/about.json")[1][0]["depths"][-1] == 8
        status, (fault,), _ = told(site, path="/index.html")
        assert (status, fault["code"]) == (404, "path")


def test_without_a_token_that_the_site_knows(made: dict[str, str], wanted: list[Answer]) -> None:
    question = {"position": LINES[OPEN[0]].split(" ", 1)[1], "depth": 3}
    with served(made) as site:
        for token in ("", "guess", TOKEN + "x", TOKEN[:-1]):
            status, (fault,), head = told(site, token, question)
            assert (status, fault["code"], fault["number"], head["www-authenticate"]) == (401, "token", 30, "Bearer"), token
        assert not site.has()
        found = [told(site, f"guess{number}", question, address="127.9.0.2")[0] for number in range(80)]
        assert found[:50] == 50 * [401] and found[-1] == 429, found
        for number in range(60):  # beyond the rate that the page's server has at the site as a guest
            told(site, f"other{number}", question, address="127.9.0.3")
        assert all(is_right(site, token, at, wanted) for at, token in zip(OPEN, (TOKEN, OTHER)))


def test_one_customers_work_is_of_its_own_budget(made: dict[str, str], wanted: list[Answer]) -> None:
    """One whose work takes long has the one session that its budget allows, and waits for itself alone; who leaves gives the work up."""
    with served(made, SLOW) as site:
        assert is_right(site, OTHER, OPEN[0], wanted)
        streams = [asked(site, OTHER, WORK, address=f"127.9.0.{number}") for number in (1, 2)]
        answers = [stream.getresponse() for stream in streams]
        assert [answer.status for answer in answers] == [200, 200] and json.loads(answers[0].readline())["kind"] in ("searching", "waiting")
        begun = time.monotonic()
        assert all(is_right(site, TOKEN, at, wanted) for at in OPEN[1:7])
        assert time.monotonic() - begun < 10 and site.has()["shop"][0] == 1 and site.has()["school"][0] <= 2
        for answer, stream in zip(answers, streams):
            answer.close()
            stream.close()
        begun = time.monotonic()
        assert is_right(site, OTHER, OPEN[7], wanted) and time.monotonic() - begun < 25
