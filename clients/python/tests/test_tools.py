"""The commands: what they say to boards and on terminals, and how they end, against servers that answer as they are told."""
from __future__ import annotations

import contextlib
import math
import pathlib
import re
import shutil
import subprocess
import sys
import time

import pytest
from coluwen import Client, FormatError, Position, formats
from coluwen.board import Board
from coluwen.errors import Refused
from coluwen.tools import lines, review
from coluwen.tools.gtp import Gtp
from coluwen.tools.match import GtpProgram, NBoardProgram, Outcome, Player, Sprt, Table, match, openings_of
from coluwen.tools.player import Player as Searcher
from told import sound, told, value_of

BIN = pathlib.Path(__file__).resolve().parents[2] / "bin"
OPENING = Position.opening()
COMMANDS = ("coluwen", "coluwen-batch", "coluwen-gtp", "coluwen-match", "coluwen-nboard", "coluwen-page", "coluwen-review")


def command(name: str, *words: object, stdin: str = "", **more: object) -> subprocess.CompletedProcess[str]:
    return subprocess.run([sys.executable, BIN / name, *map(str, words)], input=stdin, capture_output=True, text=True, timeout=50, check=False, **more)  # type: ignore[call-overload, no-any-return]


@pytest.mark.parametrize("name", COMMANDS)
def test_each_says_what_it_is(name: str) -> None:
    found = command(name, "--help")
    assert found.returncode == 0 and found.stdout.startswith(f"usage: {name}") and "--server" in found.stdout and not found.stderr
    assert set(re.findall(r"COLUWEN_[A-Z]+", found.stdout)) == {"COLUWEN_URL"}  # the variable that it heeds
    assert command(name, "--version").stdout.startswith(f"{name} (coluwen) 1.")
    wrong = command(name, "--no-such-option")
    assert wrong.returncode == 2 and "usage:" in wrong.stderr
    if shutil.which("help2man"):
        page = subprocess.run(["help2man", "-N", BIN / name], capture_output=True, text=True, check=False)
        assert page.returncode == 0 and f".TH {name.upper()}" in page.stdout


def test_nobody_is_there() -> None:
    for name, words in (("coluwen", ()), ("coluwen-gtp", ()), ("coluwen-nboard", ()), ("coluwen-review", ("f5",)), ("coluwen-batch", ("/tmp/none.csv",)), ("coluwen-page", ())):
        begun = time.monotonic()
        found = command(name, "--server", "127.0.0.1:1", "--silence", "0.4", *words)
        assert found.returncode == 1 and found.stderr.count("\n") == 1 and found.stderr.startswith(f"{name}: 127.0.0.1:1: ") and time.monotonic() - begun < 20, found


def test_lines() -> None:
    """In order, each with its own; what the server would refuse has its number, in the order of its tests."""
    after = OPENING.play("f5")
    asked = {f"3 {OPENING}": f"DONE {value_of(OPENING.text)} d3", f"04 {after}": f"DONE {value_of(after.text)} f4", "nonsense": "ERR 21", "x y": "ERR 23", f"13 {OPENING}": "ERR 27", f"3 {OPENING}X": "ERR 24",
             f"3 {OPENING.text.replace('O', 'Q', 1)}": "ERR 25", f"3 {OPENING.cells}XX": "ERR 26", f"3 {OPENING.cells} -": "ERR 26", "1" * 130: "ERR 22", "": "ERR 21", f"123456789 {OPENING}": "ERR 23",
             f"9 {OPENING}": "SPENT"}  # fmt: skip
    with told(sound(state=lambda depth, nodes: "SPENT" if depth > 8 else "DONE")) as server:
        found = command("coluwen", "--server", f"127.0.0.1:{server.port}", "--ahead", 4, stdin="\n".join(asked) + "\r\n")
        answers = found.stdout.split("\n")
        assert [answer[: len(wanted)] for answer, wanted in zip(answers, asked.values())] == list(asked.values()) and len(answers) == len(asked) + 1 and found.returncode == 3
        assert "line 13: depth 9 can't be had at this server's grain" in found.stderr and len([line for line in server.heard if line.startswith("HELLO")]) <= 4
        shown = command("coluwen", "--server", f"127.0.0.1:{server.port}", "--tables", stdin=f"2 {OPENING}\n")
        assert shown.returncode == 0 and f"*={value_of(OPENING.text)}" in shown.stdout and "<-1" in shown.stdout
    with pytest.raises(Refused):
        lines.question_of("3")


def test_lines_at_once() -> None:
    """An answer comes before the next line does."""
    with told(sound()) as server:
        process = subprocess.Popen([sys.executable, BIN / "coluwen", "--server", f"127.0.0.1:{server.port}"], stdin=subprocess.PIPE, stdout=subprocess.PIPE, text=True)
        assert process.stdin and process.stdout
        for _ in range(3):
            process.stdin.write(f"2 {OPENING}\n")
            process.stdin.flush()
            assert process.stdout.readline() == f"DONE {value_of(OPENING.text)} d3\n"
        process.stdin.close()
        assert process.wait(20) == 0


def test_gtp() -> None:
    with told(sound(5)) as server, Client("127.0.0.1", server.port) as client:
        gtp = Gtp(Searcher(client, 3))
        commands = ("1 protocol_version", "name", "boardsize 8", "play black f5", "play black d6", "play white d6", "genmove black", *["undo"] * 4, "final_score", "boardsize 9",
                    f"coluwen-position XO{'-' * 62} O", "genmove white", "genmove black", "showboard", "what", "", "known_command play", "coluwen-depth 0", "quit")  # fmt: skip
        said = [gtp.heard(line)[0] for line in commands]
        assert said[:6] == ["=1 2\n", "= Coluwen\n", "=\n", "=\n", "? illegal move\n", "=\n"] and said[7:13] == ["=\n", "=\n", "=\n", "? cannot undo\n", "? cannot score\n", "? unacceptable size\n"]
        assert said[6] == "= C3\n" and said[13:16] == ["=\n", "= PASS\n", "= C1\n"]
        assert said[17] == "? unknown command\n" and said[18] == "" and said[19] == "= true\n" and said[20].startswith("? ")
        position = Board.parse("X" * 63 + "- O")
        gtp.board = position
        assert gtp.heard("final_score")[0] == "= B+64\n"  # the empty square is the winner's


def gtp_of(gtp: Gtp, *commands: str) -> list[str]:
    return [gtp.heard(line)[0].removesuffix("\n") for line in commands]


def test_gtp_by_the_clock() -> None:
    """A move takes its part of the time, and is the deepest that was found in it; the clock goes on by itself, and wrong times are told."""
    with told(sound(state=lambda depth, nodes: "PENDING" if depth > 4 else "DONE")) as server, Client("127.0.0.1", server.port) as client:
        gtp = Gtp(Searcher(client, 8))
        assert gtp_of(gtp, "time_settings 24 0 0", "genmove b") == ["=", "= D3"] and gtp.last and gtp.last.depth == 4
        assert {line.split()[1] for line in server.heard if line.startswith("ASK")} == {"1", "2", "4", "5"}
        assert 22 < gtp.clocks["X"][0] < 23.8 and gtp.clocks["O"] == (24, 0) and gtp.time_for("O") == 0.9 * 24 / 29.5
        assert gtp_of(gtp, "time_left w 3 3") == ["="] and gtp.time_for("O") == 0.9 and gtp_of(gtp, "genmove w")[0].startswith("= ") and gtp.clocks["O"][1] == 2
        gtp_of(gtp, "time_settings 1 5 2")
        gtp.used("X", 2)
        assert gtp.clocks["X"] == (5, 2) and not gtp.used("X", 1) and gtp.clocks["X"] == (4, 1) and not gtp.used("X", 1) and gtp.clocks["X"] == (5, 2)
        assert gtp_of(gtp, "time_settings 0 5 0") == ["="] and gtp.time_for("X") is None
        for line in ("time_settings 1 2", "time_settings a 1 2", "time_settings 1 -1 2", "time_left b 5", "time_left", "time_left b x 1"):
            assert gtp_of(gtp, line)[0] == "? syntax error", line
        assert gtp_of(gtp, "time_left q 1 1", "komi x", "komi", "komi 0.5", "komi -3") == ["? invalid color", "? komi not a float", "? komi not a float", "=", "="]


def test_gtp_as_controllers_use_it(tmp_path: pathlib.Path) -> None:
    with told(sound(state=lambda depth, nodes: "DONE")) as server, Client("127.0.0.1", server.port) as client:
        gtp = Gtp(Searcher(client, 3))
        sgf = tmp_path / "g.sgf"
        sgf.write_text("(;GM[2]FF[4]SZ[8];B[f5];W[d6];B[c3])")
        assert gtp_of(gtp, f"loadsgf {sgf}") == ["="] and gtp.board.moves == ("f5", "d6", "c3")
        assert gtp_of(gtp, f"loadsgf {sgf} 2", "coluwen-position") == ["=", f"= {OPENING.play('f5')}"]
        sgf.write_text("(;GM[2];B[a1])")
        assert gtp_of(gtp, f"loadsgf {sgf}", "loadsgf /nowhere", "loadsgf", f"loadsgf {sgf} x")[0].startswith(f"? cannot load file: {sgf}:1:") and gtp.board.moves == ("f5",)
        assert gtp_of(gtp, "loadsgf", f"loadsgf {sgf} x") == ["? syntax error"] * 2
        assert gtp_of(gtp, "clear_board", "final_status_list alive", "final_status_list dead", "final_status_list seki", "final_status_list x") == ["=", "= D4 E4 D5 E5", "=", "=", "? invalid status"]
        assert {line.split("/")[2].split()[0] for line in gtp_of(gtp, "gogui-analyze_commands")[0].removeprefix("= ").split("\n")} <= set(gtp.commands)
        values = {move: -value_of(OPENING.play(move).text) for move in OPENING.legal}
        label, colour, text = gtp_of(gtp, "coluwen-values")[0].removeprefix("= ").split("\n")
        words = label.split()
        assert words[0] == "LABEL" and {square.lower(): int(value) for square, value in zip(words[1::2], words[2::2])} == values
        assert colour == f"COLOR green {max(values, key=lambda move: values[move]).upper()}" and text.startswith("TEXT ")


def test_nboard_with_pings_between() -> None:
    """As a board speaks: a ping before it asks, and behind each answer; what was asked before a ping is said no more after its pong."""
    with told(sound(3)) as server:
        process = subprocess.Popen([sys.executable, BIN / "coluwen-nboard", "--server", f"127.0.0.1:{server.port}"], stdin=subprocess.PIPE, stdout=subprocess.PIPE, text=True, bufsize=1)
        assert process.stdin and process.stdout

        def talk(said: str, last: str) -> list[str]:
            assert process.stdin and process.stdout
            process.stdin.write(said)
            found = [process.stdout.readline().rstrip("\n")]
            while not found[-1].startswith(last):
                found.append(process.stdout.readline().rstrip("\n"))
            return found

        assert talk("nboard 1\nset depth 2\nset game (;GM[Othello]BO[8 " + OPENING.cells + " *];)\nping 1\n", "pong") == ["set myname Coluwen", "pong 1"]
        assert [line.split()[:2] for line in talk("hint 1\n", "status")][:2] == [["search", "D3"], ["search", "D3"]]
        assert talk("ping 2\n", "pong") == ["pong 2"]
        assert talk("move D3//\nping 3\n", "pong") == ["pong 3"]
        assert talk("go\n", "===")[-1].startswith("=== C3/+0.03/")
        assert talk("ping 4\n", "pong")[-1] == "pong 4"
        hinted = talk("hint 2\nping 5\n", "pong")
        assert hinted[-1] == "pong 5" and talk("ping 6\n", "pong") == ["pong 6"]
        process.stdin.close()
        assert process.wait(20) == 0 and process.stdout.read() == ""


def conversation(server_port: int, said: str) -> list[str]:
    found = command("coluwen-nboard", "--server", f"127.0.0.1:{server_port}", "--depth", 2, stdin=said)
    assert found.returncode == 0, found
    return found.stdout.splitlines()


def test_nboard() -> None:
    with told(sound(-250)) as server:
        begun = OPENING.play("f5").play("d6").play("c3")
        legal = begun.legal
        told_of = conversation(server.port, "nboard 1\nset depth 2\nset game (;GM[Othello]BO[8 " + OPENING.cells + " *]B[F5]W[D6];)\nmove C3\nmove A1\nhint 2\n")
        assert told_of[0] == "set myname Coluwen" and "status a1: white can't play there" in told_of
        assert [line for line in told_of if line.startswith("search")] == [f"search {move} {at} 0 {depth}" + bound for depth in (1, 2) for move, at, bound in ((legal[0].upper(), "-2.50", ""), (legal[1].upper(), "-0.01", " at most"))]
        assert [line for line in told_of if line.startswith("nodestats")][0].startswith("nodestats 120 ")
        assert [line for line in conversation(server.port, "move F5\ngo\n") if line.startswith("===")][0].startswith("=== F4/-2.50/")
        asked = [line for line in server.heard if line.startswith("ASK")]
        assert f"ASK 1 {begun}" in asked and not [line for line in asked if line.startswith("ASK 3") and str(begun) in line]
        assert "status game 1:1: this is a game of Go" not in told_of
        wrong = conversation(server.port, "nboard 1\nset game (;GM[Go]B[F5];)\nset game nothing\nanalyze\n")
        assert sum("is a game of Go" in line or "no game begins" in line for line in wrong) == 2 and "analysis 0 -2.50" in wrong
        pong = conversation(server.port, "ping 7\nquit\n")
        assert pong == ["pong 7"]


def test_what_is_looked_for_is_stopped_by_a_ping() -> None:
    with told(sound(state=lambda depth, nodes: "PENDING" if depth > 2 else "DONE")) as server:
        process = subprocess.Popen([sys.executable, BIN / "coluwen-nboard", "--server", f"127.0.0.1:{server.port}", "--depth", "4"], stdin=subprocess.PIPE, stdout=subprocess.PIPE, text=True)
        assert process.stdin and process.stdout
        process.stdin.write("go\n")
        process.stdin.flush()
        while not any(line.startswith("ASK 4") for line in server.heard):
            time.sleep(0.01)
        process.stdin.write("ping 1\n")
        process.stdin.flush()
        while process.stdout.readline() != "pong 1\n":
            pass
        while not any(line.startswith("CANCEL") for line in server.heard):
            time.sleep(0.01)
        process.stdin.close()
        assert process.wait(20) == 0 and process.stdout.read() == ""


def test_review() -> None:
    """Values are those of the player who moves: of a move that of the position behind it, turned; the best one's is the position's own."""
    game = Board().push("f5").push("d6").push("c3")
    with told(sound()) as server, Client("127.0.0.1", server.port) as client:
        rows = list(review.review(client, game, 4))
        assert [(row.number, row.move) for row in rows] == [(1, "f5"), (2, "d6"), (3, "c3")] and not any(row.fault for row in rows)
        for row, (position, move) in zip(rows, game.positions()):
            assert row.value and row.best_value and row.value.value == -value_of(position.play(move).text) and row.best_value.value == value_of(position.text)
            assert row.lost == row.best_value.value - row.value.value and row.best == position.legal[0]
        asked = {line for line in server.heard if line.startswith("ASK")}
        assert {f"ASK 4 {position}" for position, _ in game.positions()} <= asked and f"ASK 3 {game.position}" in asked
        sgf = pathlib.Path(__file__).parent / "fixtures" / "quarry.sgf"
        whole = command("coluwen-review", "--server", f"127.0.0.1:{server.port}", "--depth", 2, "--file", sgf)
        assert whole.returncode == 0 and len(re.findall(r"(?m)^ *\d+ (?:black|white) ", whole.stdout)) == 60 and re.search(r"black: \d+ of \d+ moves were best; \d+ points", whole.stdout)
        headed = subprocess.run(f"{sys.executable} {BIN}/coluwen-review --server 127.0.0.1:{server.port} --depth 2 --file {sgf} | head -2", shell=True, capture_output=True, text=True, timeout=50, check=False)
        assert headed.stdout.count("\n") == 2 and not headed.stderr
        assert "are named" not in (wrong := command("coluwen-review", "--depth", 2, "f5a1").stderr) and wrong.startswith("coluwen-review: text:1:3: move 2")


def test_a_match_of_programs() -> None:
    """A game by the bridges themselves, as the referee speaks to them."""
    with told(sound(3)) as server:
        words = f"--server 127.0.0.1:{server.port} --depth 1"

        class First(Player):
            def move(self, board: Board) -> str:
                return board.legal[0]

        for kind, name in ((GtpProgram, "coluwen-gtp"), (NBoardProgram, "coluwen-nboard")):
            program = kind("one", f"{sys.executable} {BIN}/{name} {words}", 20)
            try:
                table, outcomes = match(lambda: contextlib.nullcontext((program, First("other"))), [Board().push("f5")], lambda text: None)  # noqa: B023
            finally:
                program.close()
            assert not any(outcome.fault for outcome in outcomes) and all(outcome.game.final().is_over for outcome in outcomes) and len(table.discs) == 2


def test_games_are_kept_as_they_end_whatever_names_are_in_them(tmp_path: pathlib.Path) -> None:
    """Each game is in the file when it has ended, in UTF-8; after each round (both colours of an opening) the score is told."""
    games, openings = tmp_path / "games.ggf", tmp_path / "openings"
    openings.write_text("f5d6c3d3\nf5f6e6f4\n")
    with told(sound()) as server:
        words = [sys.executable, BIN / "coluwen-match", f"--server=127.0.0.1:{server.port}", "--openings", openings, "--games", games, "黒=depth:1", "łódź=depth:2"]
        with subprocess.Popen([*map(str, words)], stdout=subprocess.PIPE, text=True, encoding="utf-8") as process:
            assert process.stdout
            for number, line in enumerate(process.stdout, 1):
                if re.match(r"[1-4]: ", line):
                    assert len(games.read_text(encoding="utf-8").splitlines()) >= int(line[0])
                if number == 3:
                    assert re.match(r"round 1: 黒 \d+\.\d% \+- [1-9]\d*\.\d% of 2 games; Elo ", line)
        assert process.returncode == 0
    kept = list(formats.strictly(formats.games(str(games))))
    assert [(game.black, game.white) for game in kept] == [("黒", "łódź"), ("łódź", "黒")] * 2


def test_what_was_played_is_kept_where_a_match_is_stopped(tmp_path: pathlib.Path) -> None:
    kept = []

    class First(Player):
        def move(self, board: Board) -> str:
            if kept and self.name == "one":
                raise KeyboardInterrupt
            return board.legal[0]

    with pytest.raises(KeyboardInterrupt):
        match(lambda: contextlib.nullcontext((First("one"), First("other"))), [Board().push("f5")], lambda text: None, 1, kept.append)
    assert len(kept) == 1 and kept[0].game.final().is_over


def test_an_engine_that_doesn_t_start_ends_the_match() -> None:
    """With a sentence, and not with games that are lost by 64; of both protocols, and where there is no such program."""
    for word in ("gtp:false", "nboard:false", "gtp:sh -c 'exit 3'"):
        found = command("coluwen-match", "--server", "127.0.0.1:1", word, "gtp:cat")
        assert found.returncode == 1 and found.stderr == f"coluwen-match: {word} doesn't start: it has ended\n" and not found.stdout
    assert "no-such-program" in command("coluwen-match", "--server", "127.0.0.1:1", "gtp:no-such-program", "gtp:cat").stderr


def test_a_match_that_goes_on(tmp_path: pathlib.Path) -> None:
    """Pairs that the file has aren't played again; a pair of which a game is missing is; the file of another match is refused."""
    games, openings = tmp_path / "games.ggf", tmp_path / "openings"
    openings.write_text("f5d6c3d3\nf5f6e6f4\nf5d6\n")
    with told(sound()) as server:
        words = ("coluwen-match", f"--server=127.0.0.1:{server.port}", "--openings", openings, "--games", games, "--resume")
        whole = command(*words, "one=depth:1", "other=depth:2")
        kept = games.read_text(encoding="utf-8").splitlines()
        assert whole.returncode == 0 and len(kept) == 6
        games.write_text("\n".join(kept[:3]) + "\n", encoding="utf-8")
        asked = len(server.heard)
        again = command(*words, "one=depth:1", "other=depth:2")
        assert again.returncode == 0 and again.stdout.splitlines()[-5:] == whole.stdout.splitlines()[-5:] and len(games.read_text(encoding="utf-8").splitlines()) == 6
        asked, before = len(server.heard), asked
        assert asked > before
        assert command(*words, "one=depth:1", "other=depth:2").returncode == 0 and len(server.heard) < asked + 10  # nothing but whether the server is there
        assert "games of another match" in command(*words, "two=depth:1", "other=depth:2").stderr


def table_of(*pairs: tuple[int, int]) -> Table:
    """A table of the first one's discs in pairs of games."""
    table = Table("one", "other")
    for first, second in pairs:
        table.add("X", Outcome(formats.Game(), first))
        table.add("O", Outcome(formats.Game(), -second))
    return table


def test_errors_and_a_sequential_test() -> None:
    """The error isn't 0 where each pair was shared, or one was played; the test counts pairs, and ends as its bounds say."""
    shared = table_of(*[(10, -10)] * 16)
    assert shared.score() == (0.5, pytest.approx(math.sqrt(0.125) / 16)) and "(" in shared.lines()[-1]
    assert table_of((2, 2)).score() == (1.0, pytest.approx(math.sqrt(0.125))) and "more than +105" in table_of((2, 2)).lines()[-1]
    sprt = Sprt.of("elo0=0,elo1=20")
    assert sprt == Sprt() and sprt.bounds == (pytest.approx(-2.944, abs=1e-3), pytest.approx(2.944, abs=1e-3))
    assert not sprt.is_over(Table("one", "other")) and "undecided" in sprt.verdict(table_of((2, 2)))
    won, lost = table_of(*[(8, 8), (8, -8)] * 30), table_of(*[(-8, -8), (8, -8)] * 30)
    assert won.score()[0] == 0.75 and "elo1=20 is accepted" in sprt.verdict(won) and "elo0=0 is accepted" in sprt.verdict(lost)
    low, high = 1 / (1 + 1), 1 / (1 + 10 ** (-20 / 400))
    assert won.llr(sprt) == pytest.approx((high - low) * (1.5 - low - high) / (2 * (60 * 0.0625 + 0.125) / 3600))
    for text in ("elo2=5", "elo0=5,elo1=5", "alpha=0", "beta=0.7", "x"):
        with pytest.raises(ValueError):
            Sprt.of(text)

    class First(Player):
        def move(self, board: Board) -> str:
            return board.legal[0]

    played = {at: list(outcomes) for at, outcomes in enumerate(zip(*[iter([Outcome(formats.Game(), 8), Outcome(formats.Game(), -8)])] * 2))}
    said: list[str] = []
    table, outcomes = match(lambda: contextlib.nullcontext((First("one"), First("other"))), [Board().push("f5")] * 90, said.append, 1, played={at: played[0] for at in range(90)}, sprt=sprt)
    assert len(outcomes) < 180 and "is accepted" in said[-1] and table.llr(sprt) > 2.94


def test_openings_of_the_files_that_people_have(tmp_path: pathlib.Path) -> None:
    game, other = "f5d6c3d3c4", "f5d6c3d3c4f4f6"
    for name, text, moves, wanted in (("o.txt", f"{game}\n# a comment\n{other}\n", 5, [game]), ("o.txt", f"{game}\n{other}\n", None, [game, other]), ("o.txt", f"1. f5 2. d6\n{OPENING.play('f5')}\n", 1, ["f5", ""]),
                                      ("o.obf", f"{OPENING.play('f5')}; d6;\n", 3, [""]), ("o.ggf", f"(;GM[Othello]BO[8 {OPENING.cells} *]B[F5]W[D6]B[C3];)", 2, ["f5d6"]), ("o.pgn", '[Event "x"]\n\n1. f5 d6 2. c3\n', 3, ["f5d6c3"])):  # fmt: skip
        (tmp_path / name).write_text(text)
        found = openings_of(str(tmp_path / name), moves)
        assert ["".join(board.moves) for board in found] == wanted
    (tmp_path / "o.txt").write_text(f"{game}\nf5a1\n")
    with pytest.raises(FormatError, match=r"o.txt:2:3: move 2, a1"):
        openings_of(str(tmp_path / "o.txt"))


def test_a_game_with_an_illegal_move_is_not_reviewed(tmp_path: pathlib.Path) -> None:
    """It says where, with status 1, and reviews no shorter game; another game of the file is reviewed."""
    games = tmp_path / "games"
    games.write_text("f5d6c3d3\nf5d6a1c3\nf5a1\nh8\n")
    with told(sound()) as server:
        for number, status, said in ((1, 0, ""), (2, 1, f"coluwen-review: {games}:2:5: move 3, a1: black can't play there\n"), (3, 1, f"coluwen-review: {games}:3:3: move 2, a1: white can't play there\n"),
                                     (4, 1, f"coluwen-review: {games} has 3 games\n")):  # fmt: skip
            found = command("coluwen-review", f"--server=127.0.0.1:{server.port}", "--depth", 1, "--file", games, "--game", number)
            assert (found.returncode, found.stderr) == (status, said) and (not status or not found.stdout)
        games.write_text("h8\n")
        found = command("coluwen-review", f"--server=127.0.0.1:{server.port}", "--file", games)
        assert (found.returncode, found.stderr) == (1, f"coluwen-review: {games}:1:1: move 1, h8: black can't play there\n")
