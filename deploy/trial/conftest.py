"""Trials of a site on loopback: `/usr/bin/python3 -m pytest deploy/trial` (-k WORD for some; --length 1 to 100 for longer ones). They need HAProxy and
openssl. The variable SITE names the program, else `./othello --ready-site` gives it; OTHELLO that of `othello`, whose values every value is
compared with."""
from __future__ import annotations

import pathlib
import sys

import pytest

sys.path[:0] = [str(pathlib.Path(__file__).resolve().parent), str(pathlib.Path(__file__).resolve().parents[2] / "clients/python/src")]
import place  # noqa: E402


def pytest_addoption(parser: pytest.Parser) -> None:
    parser.addoption("--length", type=int, default=1, help="how many times as long as the shortest trial")


@pytest.fixture
def length(request: pytest.FixtureRequest) -> int:
    return int(request.config.getoption("--length"))


@pytest.fixture(scope="session")
def wanted() -> list[place.Answer]:
    """What `othello solve` says of the trial's positions."""
    return place.solve(place.LINES)


@pytest.fixture(scope="session")
def made(tmp_path_factory: pytest.TempPathFactory) -> dict[str, str]:
    """An authority, and certificates of the host, of a customer and of a stranger."""
    return place.certificates(tmp_path_factory.mktemp("certificates"))
