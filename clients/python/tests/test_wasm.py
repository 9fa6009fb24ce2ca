"""The page's module as a program, `clients/bin/othello-wasm`: it answers as `othello solve --ordered` does, and an engine takes it where nothing faster is there."""
from __future__ import annotations

import pathlib
import re
import shutil
import subprocess

import coluwen.engine
import pytest
from coluwen import Engine, Position, Unreachable
from coluwen.engine import programs_here

CLIENTS = pathlib.Path(__file__).resolve().parents[2]
MODULE = CLIENTS / "bin/othello-wasm"
ROWS = CLIENTS.parent / "crates/transcripts/data/worked.solve"
pytestmark = pytest.mark.skipif(not shutil.which("node"), reason="without node")


def told(data: bytes, *words: str) -> subprocess.CompletedProcess[bytes]:
    return subprocess.run([MODULE, *words], input=data, capture_output=True, timeout=60, check=False)


def test_worked_lines() -> None:
    """Each line of the text that a proved program plays, by `--ordered`."""
    found, spelled = [], {b"\\s": b" ", b"\\r": b"\r"}
    for part in ROWS.read_bytes().split(b"\n= ")[1:]:
        head, _, lines = part.partition(b"\n")
        if head.startswith(b"solve ") and b"ordered" in head:
            found += re.findall(rb"^>(?: (.*))?\n< (.*)$", lines, re.M)
    sent = [re.sub(rb"\\[sr]", lambda one: spelled[one[0]], line) for line, _ in found if not line.endswith(rb"\-")]
    wanted = [answer for line, answer in found if not line.endswith(rb"\-")]
    assert len(sent) > 25 and told(b"".join(line + b"\n" for line in sent), "solve", "--ordered").stdout.split(b"\n")[:-1] == wanted
    assert told(b"0 " + Position.opening().text.encode(), "solve").stdout == b"0 -\n"  # no LF ends the last line


def test_other_words_are_refused() -> None:
    assert [told(b"", *words).returncode for words in (("solve", "--grain", "2"), ("serve",), ())] == [2, 2, 2]
    assert re.fullmatch(rb"othello \d+[.]\d+[.]\d+\n", told(b"", "--version").stdout)


def test_an_engine_takes_it_before_a_program_that_isn_t_proved(tmp_path: pathlib.Path, monkeypatch: pytest.MonkeyPatch) -> None:
    """In a checkout: the proved program, else the module by node, else the slow one; without node that comes first."""
    folders = tmp_path / "clients/python/src/coluwen", tmp_path / "clients/bin", tmp_path / "crates/othello_server/out/unproved"
    for folder in folders:
        folder.mkdir(parents=True)
    for file in (folders[1] / "othello-wasm", folders[2] / "othello"):
        shutil.copy(MODULE, file)
    monkeypatch.setattr(coluwen.engine, "HERE", folders[0] / "engine.py")
    monkeypatch.setenv("PATH", str(pathlib.Path(shutil.which("node") or "").parent))
    assert [pathlib.Path(one).name for one in programs_here()] == ["othello-wasm", "othello"]
    shutil.copy(MODULE, folders[2].parent / "othello_server")
    assert pathlib.Path(programs_here()[0]).name == "othello_server"
    monkeypatch.setenv("PATH", str(tmp_path))
    assert [pathlib.Path(one).name for one in programs_here()] == ["othello_server", "othello"]


def test_an_engine_by_it(monkeypatch: pytest.MonkeyPatch) -> None:
    monkeypatch.delenv("COLUWEN_OTHELLO", raising=False)
    with Engine(2, program=str(MODULE)) as engine:
        found = engine.analyse(Position.opening(), 6)
        assert (found.score.value, found.best) == (0, "d3")
        assert [entry.score.value for entry in engine.analyse_all(Position.opening(), 3)] == [engine.analyse(Position.opening(), 3).score.value] * 4


def test_without_a_program_it_is_said_what_to_do(tmp_path: pathlib.Path, monkeypatch: pytest.MonkeyPatch) -> None:
    monkeypatch.setattr(coluwen.engine, "HERE", tmp_path / "coluwen/engine.py")
    monkeypatch.setenv("PATH", str(tmp_path))
    monkeypatch.delenv("COLUWEN_OTHELLO", raising=False)
    with pytest.raises(Unreachable, match="install node"):
        Engine()
