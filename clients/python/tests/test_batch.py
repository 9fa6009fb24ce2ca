"""coluwen-batch's summary and status, its comparisons and its plot."""
from __future__ import annotations

import pathlib
import re
import subprocess
import sys
import xml.etree.ElementTree

import pytest
from coluwen import FormatError, Position
from coluwen.tools import batch
from coluwen.tools.compare import Row, compare, rows_of
from coluwen.tools.plot import draw, time_bars, value_bars
from told import sound, told, value_of

OPENING = Position.opening().text


def run(*words: object) -> int:
    return batch.main([*map(str, words)])


def first(position: str) -> str:
    """What the server says is best."""
    return (*Position.parse(position).legal, "-")[0]


def test_a_row_that_is_spent(tmp_path: pathlib.Path, capsys: pytest.CaptureFixture[str]) -> None:
    """It is asked again with more; where that doesn't suffice the status is 3, and which grain would do is said."""
    results, positions = tmp_path / "r.csv", tmp_path / "p.obf"
    positions.write_text(f"{OPENING}; d3:+0;\n{Position.opening().play('f5')}; f6;\n")
    with told(sound(state=lambda depth, nodes: "DONE" if nodes == 65536 else "SPENT")) as server:
        assert run("--depth", 8, f"--server=127.0.0.1:{server.port}", results, positions) == 0
        assert "2 positions: 2 done, 0 spent, 0 at fault" in (said := capsys.readouterr().err) and "1 of 2 moves are among those expected (50.0 %)" in said
    results.unlink()
    with told(sound(state=lambda depth, nodes: "SPENT")) as server:
        assert run("--depth", 9, f"--server=127.0.0.1:{server.port}", results, positions) == 3
        said = capsys.readouterr().err
        assert "2 positions: 0 done, 2 spent, 0 at fault" in said and "depth 9 can't be had of 2 at this server's grain: a server of --grain 5 has it" in said
    assert [row[2] for row in batch.rows_of(results)] == ["SPENT", "SPENT"]


def test_rows_and_going_on(tmp_path: pathlib.Path, capsys: pytest.CaptureFixture[str]) -> None:
    """Each row has the value of its own position, in their order, faults among them; a run that was cut goes on behind its whole rows."""
    results, positions = tmp_path / "r.csv", tmp_path / "p.txt"
    position, asked = Position.opening(), []
    for _ in range(40):
        asked.append(position.text)
        position = position.play(position.legal[0])
    positions.write_text("".join(f"{one}\n" for one in asked[:20]) + f"13 {OPENING}\n5 {OPENING}Q\n" + "".join(f"3 {one}\n" for one in asked[20:]))
    with told(sound()) as server:
        assert run(f"--server=127.0.0.1:{server.port}", "--sessions", 3, "--plot", tmp_path / "p.svg", results, positions) == 3
        whole = results.read_bytes()
        rows = batch.rows_of(results)
        assert [row[:4] for row in rows[:20]] == [[one, "6", str(value_of(one)), first(one)] for one in asked[:20]]
        assert [[row[1], row[2][:6], row[3]] for row in rows[20:22]] == [["13", "ERR 27", ""], ["5", "ERR 24", ""]]
        assert [row[:4] for row in rows[22:]] == [[one, "3", str(value_of(one)), first(one)] for one in asked[20:]]
        assert sum(line.startswith("HELLO") for line in server.heard) <= 3 and (tmp_path / "p.svg").stat().st_size > 1000
        lines = whole.split(b"\n")
        results.write_bytes(b"\n".join(lines[:11]) + b"\n" + lines[11][:40])
        heard = len(server.heard)
        assert run(f"--server=127.0.0.1:{server.port}", results, positions) == 3
        assert [row[:4] for row in batch.rows_of(results)] == [row[:4] for row in rows] and sum(line.startswith("ASK") for line in server.heard[heard:]) == 30
        with pytest.raises(batch.Fault, match="row 1 of .* is of another position or depth"):
            run("--depth", 4, f"--server=127.0.0.1:{server.port}", results, positions)
    assert "10 positions were done earlier" in capsys.readouterr().err


def test_depths_that_are_unlike(tmp_path: pathlib.Path, capsys: pytest.CaptureFixture[str]) -> None:
    one, other = tmp_path / "a.csv", tmp_path / "b.csv"
    for path, depth in ((one, 4), (other, 6)):
        path.write_text(f"position,depth,value,move,milliseconds\n{OPENING},{depth},0,d3,5.0\n")
    assert not compare(str(one), str(other)) and "the depths are unlike" in capsys.readouterr().out
    assert batch.main(["--compare", str(one), str(one)]) == 0 and batch.main(["--compare", str(one), str(other)]) == 1


def test_all_at_fault(tmp_path: pathlib.Path, capsys: pytest.CaptureFixture[str]) -> None:
    results, positions = tmp_path / "r.csv", tmp_path / "p.txt"
    positions.write_text("nonsense\n" * 8)
    with told(sound()) as server:
        assert run(f"--server=127.0.0.1:{server.port}", results, positions) == 3
    assert "8 positions: 0 done, 0 spent, 8 at fault" in (said := capsys.readouterr().err) and "p.txt:1:1: " in said
    assert [row[2].split(": ")[0] for row in batch.rows_of(results)] == [f"ERR 21 {positions}:{line}:1" for line in range(1, 9)]


@pytest.mark.parametrize("is_piped", [False, True])
def test_no_line_ends_a_run(tmp_path: pathlib.Path, is_piped: bool) -> None:
    """Letters beyond Latin-1, bytes that are no UTF-8, quotes, commas, old line ends: each line at fault has a row that says where and why, and the run goes on behind
    any of them."""
    asked = [OPENING, "Übung 漢字", f"3 {OPENING}", "caf\xe9, \"x\"", f"13 {OPENING}", OPENING.replace("OX", "Oé"), "=1+1", "\x00", f"1 {OPENING}Q", f"2 {OPENING}"]
    data = b"\r".join(line.encode("latin-1" if line.startswith("caf") else "utf-8") for line in asked) + b"\r"
    (tmp_path / "p.txt").write_bytes(data)
    results = tmp_path / "r.csv"
    with told(sound()) as server:
        for count in (1, 4, 7, 10):
            words = [sys.executable, "-m", "coluwen.tools.batch", f"--server=127.0.0.1:{server.port}", results, *([] if is_piped else [tmp_path / "p.txt"])]
            ended = subprocess.run([*map(str, words)], input=data if is_piped else None, capture_output=True, check=False, timeout=100)
            assert ended.returncode == 3 and b"10 positions: 3 done, 0 spent, 7 at fault" in ended.stderr, ended.stderr
            rows = batch.rows_of(results)
            assert [row[2] for row in rows if row[3]] == [str(value_of(OPENING))] * 3
            where = "standard input" if is_piped else tmp_path / "p.txt"
            for number in (2, 4, 5, 6, 7, 8, 9):
                assert re.fullmatch(rf"ERR 2\d {re.escape(str(where))}:{number}(:\d+)?: .+", rows[number - 1][2]), rows[number - 1]
            results.write_bytes(b"".join(results.read_bytes().splitlines(keepends=True)[: count + 1]))  # it goes on from here
    assert "漢字" in rows[1][0] and rows[1][1] == "Übung"


def test_a_bad_problem_has_a_row(tmp_path: pathlib.Path) -> None:
    results, positions = tmp_path / "r.csv", tmp_path / "p.obf"
    positions.write_text(f"{OPENING}; d3:+0;\n{OPENING}; a1:+0;\n{OPENING}; c4:+0;\n")
    with told(sound()) as server:
        assert run(f"--server=127.0.0.1:{server.port}", results, positions) == 3
    assert [row[2][:5] for row in batch.rows_of(results)] == [str(value_of(OPENING)), "ERR 2", str(value_of(OPENING))] and f"{positions}:2:69: " in results.read_text()


def test_tables_of_others(tmp_path: pathlib.Path) -> None:
    """What pandas and Excel make of a table: numbers with points or commas, a mark, empty fields, other line ends and signs between fields."""
    ours, theirs = tmp_path / "ours.csv", tmp_path / "theirs.csv"
    after = Position.opening().play("d3").text
    ours.write_text(f"position,depth,value,move,milliseconds\n{OPENING},6,-4,d3,5.0\n{after},6,SPENT,,\n'--,x,ERR 21 a:1:1: what,,\n")
    for text in (f"\ufeffposition,depth,value,move,milliseconds\r\n{OPENING},6.0,-4.0,d3,5\r\n{after},6.0,SPENT,,\r\n--,x,ERR 21 b:9:1: what,,\r\n,,,,\r\n",
                 f"Position;Depth;Value;Move;Milliseconds\n{OPENING};6;-4,0;D3;5,5\n{after};6;SPENT;;\n--;x;ERR 21;;", f"value\tmove\tdepth\tposition\r-4.\td3\t6\t{OPENING.replace('-', '.')}\rSPENT\t\t6\t{after}\rERR 21\t\tx\t--\r"):  # fmt: skip
        theirs.write_bytes(text.encode())
        assert compare(str(ours), str(theirs)), text
        theirs.write_bytes(text.replace("-4", "-5").encode())
        assert not compare(str(ours), str(theirs)), text


def test_a_table_for_excel(tmp_path: pathlib.Path) -> None:
    """No field begins with what Excel takes for a formula, a mark says that it is UTF-8, and the run goes on behind it; --compare takes it."""
    results, plain, positions = tmp_path / "r.csv", tmp_path / "p.csv", tmp_path / "p.txt"
    positions.write_text(f"{OPENING}\n=1+1\n{OPENING.replace(' ', 'é')}\n{Position.opening().play('f5')}\n", encoding="utf-8")
    with told(sound(-7)) as server:
        for _ in range(2):
            assert run("--excel", f"--server=127.0.0.1:{server.port}", results, positions) == 3
            assert results.read_bytes()[:3] == b"\xef\xbb\xbf" and results.read_bytes().count(b"\n") == 5
            results.write_bytes(results.read_bytes().rpartition(b"\n.")[0] + b"\n....")
        assert run(f"--server=127.0.0.1:{server.port}", results, positions) == 3  # by the mark it is known
        assert run(f"--server=127.0.0.1:{server.port}", plain, positions) == 3
    fields = [field for row in batch.rows_of(results) for field in row]
    assert not [field for field in fields if re.match(r"[=+@-](?!\d+$|$)", field)]
    assert compare(str(results), str(plain))


def test_compare(tmp_path: pathlib.Path, capsys: pytest.CaptureFixture[str]) -> None:
    ours, theirs, expected = tmp_path / "ours.csv", tmp_path / "theirs.csv", tmp_path / "e.obf"
    end = "XO" + "-" * 62 + " X"
    ours.write_text(f"position,depth,value,move,milliseconds\n{OPENING},6,0,d3,5.0\n{end},2,6000,c1,1.0\n")
    theirs.write_text(f"Position,Best,Discs\n{OPENING.replace('X', '*')},D3,0.35\n{end},C1,+3\n")
    assert compare(str(ours), str(theirs)) and "2 positions in both, 0 with another" in capsys.readouterr().out
    theirs.write_text(f"position,move,discs\n{OPENING},c4,0\n{end},c1,2\n")
    assert not compare(str(ours), str(theirs)) and "2 positions in both, 2 with another" in capsys.readouterr().out
    expected.write_text(f"{OPENING}; f5; d3;\n{end}; c1:+3;\n")
    assert compare(str(ours), str(expected))
    expected.write_text(f"{OPENING}; f5;\n{end}; c1:+4;\n")
    assert not compare(str(ours), str(expected)) and "0 d3 and f5" in capsys.readouterr().out
    for text, line in (("a,b\n1,2\n", 1), (f"position,move,discs\n\n{OPENING},d3,x\n", 3), (f"position,move,discs\n{OPENING},d3,inf\n", 2), (f"position,move,milliseconds\n{OPENING},d3,x\n", 2), (f"position,move\n{OPENING}\n", 2)):
        theirs.write_text(text)
        with pytest.raises(FormatError, match=f"theirs.csv:{line}: "):
            rows_of(str(theirs))


def test_dask_by_debians_python(tmp_path: pathlib.Path, monkeypatch: pytest.MonkeyPatch) -> None:
    """Where this Python hasn't it, and isn't Debian's."""
    begun: list[object] = []
    monkeypatch.setattr(sys, "prefix", "/opt/python")
    monkeypatch.setattr(sys, "argv", ["coluwen-batch", "--dask", "tcp://127.0.0.1:1", "r.csv"])
    monkeypatch.setattr(batch.importlib.util, "find_spec", lambda name: None)
    monkeypatch.setattr(batch.os, "execve", lambda *words: begun.extend(words) or sys.exit(9))
    monkeypatch.setattr(batch, "DEBIAN", tmp_path)
    (tmp_path / "distributed").mkdir()
    with pytest.raises(SystemExit):
        batch.main(None)
    assert begun[:2] == ["/usr/bin/python3", ["/usr/bin/python3", "-m", "coluwen.tools.batch", "--dask", "tcp://127.0.0.1:1", "r.csv"]]
    assert pathlib.Path(begun[2]["PYTHONPATH"], "coluwen/tools/batch.py").is_file()  # type: ignore[index, call-overload]


def test_plot() -> None:
    rows = [Row(OPENING, "6", value, ("d3",), taken) for value, taken in (("0", 1.0), ("-1184", 3.0), ("1184", 3.5), ("6000", 100.0), ("-128000", 0.4))] + [Row(OPENING, "6", "SPENT", ("",))]
    xml.etree.ElementTree.fromstring(draw(rows, "a <title> & more"))
    assert time_bars([row.milliseconds for row in rows[:5]]) == [("0.25", 1), ("0.5", 0), ("1", 1), ("2", 2), ("4", 0), ("8", 0), ("16", 0), ("32", 0), ("64", 1)]
    assert sum(count for _, count in value_bars([0, -1184, 1184, 6000, -128000])) == 5
