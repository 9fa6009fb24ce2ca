"""`deploy/start`: a server that stays, without a file and with one, and its end."""
from __future__ import annotations

import os
import pathlib
import subprocess

import pytest
from place import SMALL, TOP, Answer, From, free_port, is_there, program, replaced


@pytest.fixture
def around(tmp_path: pathlib.Path) -> dict[str, str]:
    return {**os.environ, "XDG_STATE_HOME": str(tmp_path), "SITE": program("SITE", "--ready-site")}


def start(around: dict[str, str], *words: str) -> tuple[int, str]:
    """The status, and all that is said."""
    run = subprocess.run([TOP / "deploy/start", *words], env=around, stdout=subprocess.PIPE, stderr=subprocess.STDOUT, text=True, timeout=60)
    return run.returncode, run.stdout


def test_without_a_file(around: dict[str, str], wanted: list[Answer]) -> None:
    if is_there(4711):
        pytest.skip("port 4711 is taken")
    status, said = start(around)
    assert status == 0 and said.startswith("othello: 127.0.0.1:4711 is served, by process "), said
    try:
        with From("127.0.0.1", "127.0.0.1", 4711, *SMALL) as session:
            assert session.is_answered(1, wanted)
        assert start(around)[1].startswith("othello: 127.0.0.1:4711 is served already")
        assert start({**around, "XDG_STATE_HOME": "/nowhere"}) == (1, "othello: port 4711 is another program's\n")
    finally:
        status, said = start(around, "--stop")
    assert (status, said) == (0, "othello: the server at port 4711 has ended\n") and not is_there(4711)
    assert start(around, "--stop") == (0, "othello: no server was started at port 4711\n")


def test_with_a_file(around: dict[str, str], wanted: list[Answer], tmp_path: pathlib.Path) -> None:
    port, file = free_port(), tmp_path / "site.toml"
    moved = [('listen = "127.0.0.1:4720"', f'plain = "127.0.0.1:{port}"'), ("127.0.0.1:4719", f"127.0.0.1:{free_port()}"), ("/run/othello-site/control", f"{tmp_path}/control")]
    file.write_text(replaced((TOP / "deploy/site.toml").read_text(), moved))
    status, said = start(around, "--file", str(file))
    assert status == 0 and f"127.0.0.1:{port} is served" in said, said
    try:
        with From("127.0.0.1", "127.0.0.1", port, *SMALL) as session:
            assert session.is_answered(2, wanted)
        asked = subprocess.run([TOP / "deploy/operator", tmp_path / "control", "STATS"], capture_output=True, text=True)
        assert asked.returncode == 0 and asked.stdout.startswith("connections="), asked
        refused = subprocess.run([TOP / "deploy/operator", tmp_path / "control", "SOMETHING"], capture_output=True, text=True)
        assert refused.returncode == 1 and refused.stdout.startswith("ERR "), refused
    finally:
        assert start(around, "--stop", "--file", str(file))[0] == 0
    assert not is_there(port)
    file.write_text(file.read_text().replace("rate = 10\n", "rate = 0\n"))
    status, said = start(around, "--file", str(file))
    assert status == 2 and "rate" in said


def test_at_another_port(around: dict[str, str], wanted: list[Answer]) -> None:
    port = free_port()
    status, said = start(around, "--port", str(port))
    assert status == 0 and f"127.0.0.1:{port} is served, by" in said and f"--stop --port {port}`" in said, said
    try:
        with From("127.0.0.1", "127.0.0.1", port, *SMALL) as session:
            assert session.is_answered(1, wanted)
    finally:
        assert start(around, "--stop", f"--port={port}") == (0, f"othello: the server at port {port} has ended\n")


def test_the_port_that_clients_use(around: dict[str, str], wanted: list[Answer], tmp_path: pathlib.Path) -> None:
    """Where a file has a port for a proxy too, above or below it."""
    for order in (1, -1):
        plain, proxied, file = free_port(), free_port(), tmp_path / "two.toml"
        places = [f'listen = "127.0.0.1:{proxied}"\n', f'plain = "127.0.0.1:{plain}"\n'][::order]
        all_of_it = "sessions = 64\nsegments = 65536\nnodes = 4194304\n"
        file.write_text("".join(places) + f"[guests.each]\n{all_of_it}[guests.together]\n{all_of_it}")
        try:
            assert f"127.0.0.1:{plain} is served, by" in start(around, "--file", str(file))[1]
            with From("127.0.0.1", "127.0.0.1", plain, *SMALL) as session:
                assert session.is_answered(1, wanted)
        finally:
            assert start(around, "--stop", "--file", str(file))[0] == 0
    file.write_text(file.read_text().replace("plain", "# plain"))
    try:
        assert f"127.0.0.1:{proxied} is served to a proxy, by" in start(around, "--file", str(file))[1]
    finally:
        assert start(around, "--stop", "--file", str(file))[0] == 0


@pytest.mark.parametrize("words", [["--port", "0"], ["--port", "65536"], ["--port"], ["--port", "4712", "--file", "deploy/site.toml"], ["--file"], ["more"], ["--file", "/nothing"]])
def test_words_that_are_refused(around: dict[str, str], words: list[str]) -> None:
    assert start(around, *words)[0] == 2


def test_help(around: dict[str, str]) -> None:
    status, said = start(around, "--help")
    assert status == 0 and "usage: deploy/start" in said
