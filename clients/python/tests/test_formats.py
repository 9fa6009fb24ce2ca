"""The formats: what is written by hand from their descriptions, what their own writers write, and what can't be read, with its place."""
from __future__ import annotations

import json
import pathlib
import random
import re

import hypothesis
import hypothesis.strategies as st
import pytest
from coluwen import Board, FormatError, Position, formats
from coluwen.formats import ggf, obf, pgn, position, sgf, strictly, transcript, wthor

OPENING = Position.opening()
FFORUM = "--XXXXX--OOOXX-O-OOOXXOX-OXOXOXXOXXXOXXX--XOXOXX-XXXOOO--OOOOO-- X; G8:+18; H1:+12; % a comment; with a semicolon"


def random_game(seed: int) -> formats.Game:
    chance, board = random.Random(seed), Board()
    while not board.is_over:
        board = board.push(chance.choice(board.legal))
    return formats.Game(board.start, tuple(formats.Played(move) for move in board.moves), "one", "other", "a place")


def test_transcripts_of_each_form() -> None:
    passes = 0
    for seed in range(20):
        game = random_game(seed)
        passes += len(game.moves) - len(game.words())
        for form in ("plain", "spaced", "hyphens", "numbered", "capitals"):
            read = transcript.read(transcript.write(game, form))
            assert read.moves == game.moves  # a numbered text of 60 moves has all of them
            assert read.final() == game.final()
    assert passes > 5


def test_how_each_form_is_written() -> None:
    game = transcript.read("f5d6c3")
    written = [transcript.write(game, form) for form in ("plain", "spaced", "hyphens", "numbered", "capitals")]
    assert written == ["f5d6c3", "f5 d6 c3", "f5-d6-c3", "1. f5 2. d6 3. c3", "F5d6C3"]


@pytest.mark.parametrize("text", ["F5d6C3", "f5 d6 c3", "1. f5 2. d6 3. c3", "1. f5 d6 2. c3", "f5-d6-c3", "1) F5, 2) D6; 3) C3", "f5d6\nc3", "f5\r\nd6\tc3"])
def test_transcript_spellings(text: str) -> None:
    assert transcript.read(text).words() == ["f5", "d6", "c3"]


@pytest.mark.parametrize("text, place", [("f5d6x3", "1:5"), ("f5d6\nc3z9", "2:3"), ("f5 d6 5. c3", "1:7"), ("f5a1", "1:3"), ("f5pass", "1:3"), ("", "text"), ("f5 d6 c", "1:7")])
def test_transcript_faults(text: str, place: str) -> None:
    with pytest.raises(FormatError, match=re.escape(place)):
        transcript.read(text, None, formats.Place("", 1))


def test_a_transcript_that_begins_within_a_line() -> None:
    for text, place in (("f5x3", "a:2:7: "), ("f5\nx3", "a:3:1: ")):
        with pytest.raises(FormatError, match=place):
            transcript.read(text, None, formats.Place("a", 2, 5))


def test_a_transcript_from_another_start() -> None:
    start = Position.parse("XO" + "-" * 62 + "O")
    game = transcript.read("c1", start)
    assert [played.move for played in game.moves] == ["pass", "c1"]
    with pytest.raises(FormatError, match="the game is over"):
        transcript.read("c1 d1", start)


def test_obf() -> None:
    problems = list(strictly(obf.read(["% a head", "", FFORUM, "---------------------------OX------XO--------------------------- X;", OPENING.text + "; f5; d3;"], "a.obf")))
    assert [one.place.line for one in problems] == [3, 4, 5]
    assert problems[0].expected == (formats.Expected("g8", 18), formats.Expected("h1", 12)) and problems[0].best() == ("g8",)
    assert problems[0].comment == "a comment; with a semicolon" and problems[0].discs() == 18
    assert problems[1].expected == () and problems[2].best() == ("f5", "d3")
    again = list(strictly(obf.read(obf.write(problems).splitlines())))
    assert [(one.position, one.expected) for one in again] == [(one.position, one.expected) for one in problems]


@pytest.mark.parametrize("line, place", [(OPENING.text + "; a1:+2;", "x.obf:1:69"), (OPENING.text + "; f5:+99;", "x.obf:1:69"), (OPENING.text + ";  f5 d3;", "x.obf:1:70"), (OPENING.text[1:] + ";", "x.obf:1:66"),
                                         (OPENING.text.replace("O", "Q"), "x.obf:1:28")])  # fmt: skip
def test_obf_faults(line: str, place: str) -> None:
    with pytest.raises(FormatError, match=re.escape(place)):
        list(strictly(obf.read([line], "x.obf")))


def test_ggf() -> None:
    text = ("(;GM[Othello]PC[GGS/os]DT[2003.12.15_13:24:03.MST]PB[Saio1200]PW[Saio3000]RB[2197.01]RW[2199.72]TI[05:00//02:00]TY[8]RE[+0.000]"
            "BO[8 ---------------------------O*------*O--------------------------- *]B[d3//0.01]W[c3/-0.15/0.40]B[C4/1.20/2]W[c5];)")  # fmt: skip
    (game,) = strictly(ggf.read(text))
    assert (game.black, game.white, game.result, game.words()) == ("Saio1200", "Saio3000", 0.0, ["d3", "c3", "c4", "c5"])
    assert [(move.evaluation, move.seconds) for move in game.moves] == [(None, 0.01), (-0.15, 0.40), (1.20, 2.0), (None, None)]
    assert dict(game.tags)["TI"] == "05:00//02:00"
    assert [one.words() for one in strictly(ggf.read(f"2 {text}{text}\n{text}\n"))] == [game.words()] * 3
    for seed in range(10):
        played = random_game(seed)
        (again,) = strictly(ggf.read(ggf.write([played])))
        assert (again.moves, again.final(), again.black) == (played.moves, played.final(), "one")


@pytest.mark.parametrize("text, place", [("(;GM[Othello]B[d3]W[d3];)", "1:21"), ("(;GM[Chess]B[d3];)", "1:6"), ("(;GM[Othello]B[d3]", "1:19"), ("2 (;GM[Othello]B[d3];)", "1:23"), ("x", "1:1"),
                                         ("(;GM[Othello]BO[8 ---- *];)", "1:17"), ("(;GM[Othello]TY[10]B[d3];)", "1:17"), ("(;GM[Othello]\nB[d3]B[c3];)", "2:8")])  # fmt: skip
def test_ggf_faults(text: str, place: str) -> None:
    with pytest.raises(FormatError, match=place):
        list(strictly(ggf.read(text, "")))


def test_wthor() -> None:
    games = [random_game(seed) for seed in range(5)]
    players: list[str] = []
    tournaments: list[str] = []
    data = wthor.write(games, 2020, (2021, 3, 4), 22, players, tournaments)
    assert len(data) == 16 + 5 * 68 and data[4:8] == b"\5\0\0\0" and data[16 + 8] in (65, 56, 34, 43)  # d... a first move: ten times the row and the column
    read = list(strictly(wthor.read(data, "a.wtb", players, tournaments)))
    assert wthor.HEAD.unpack_from(data) == (20, 21, 3, 4, 5, 0, 2020, 8, 0, 22, 0)  # when it was made, games, names, their year, the board's size, a depth
    assert [(game.moves, game.black, game.white, game.event) for game in read] == [(game.moves, "one", "other", "a place") for game in games]
    assert all(game.result == sign(game) for game in read)
    other = data[: 16 + 6] + bytes([data[16 + 6] ^ 1]) + data[16 + 7 :]
    with pytest.raises(FormatError, match="a.wtb:23: game 1: black is said to have"):
        list(strictly(wthor.read(other, "a.wtb")))
    found = list(wthor.read(other, "a.wtb"))
    assert [one.words() for one in found if isinstance(one, formats.Game)] == [game.words() for game in games]  # a fault of one is its own
    assert [one.is_whole for one in found if isinstance(one, formats.Game)] == [False, True, True, True, True] and isinstance(found[1], FormatError)


def sign(game: formats.Game) -> float:
    final = game.final()
    discs = final.discs("X") - final.discs("O")
    return float(discs + final.empties * ((discs > 0) - (discs < 0)))


def test_wthor_by_hand() -> None:
    head = bytes([20, 21, 3, 4]) + (1).to_bytes(4, "little") + bytes(2) + (2020).to_bytes(2, "little") + bytes([8, 0, 22, 0])
    record = bytes([7, 0, 1, 0, 2, 0, 33, 34]) + bytes([56, 64, 33]) + bytes(57)
    (game,) = strictly(wthor.read(head + record, "hand.wtb"))
    assert (game.words(), game.black, game.white, game.event, game.theoretical) == (["f5", "d6", "c3"], "player 1", "player 2", "tournament 7", 34)
    for names, black, white in ((["one"], "player 1", "player 2"), (["one", "other"], "other", "player 2"), (["one", "other", "third"], "other", "third")):
        (game,) = strictly(wthor.read(head + record, "hand.wtb", names, names))
        assert (game.black, game.white, game.event) == (black, white, "tournament 7")
    for data, place in ((head + record[:-1], "hand.wtb:5:"), (head[:4] + b"\2" + head[5:] + record, "hand.wtb:5:"), (head[:10], "hand.wtb:11:"), (head[:12] + b"\x0a" + head[13:] + record, "hand.wtb:13:"),
                        (head + record[:8] + bytes([56, 11]) + bytes(58), "hand.wtb:26:"), (head + record[:8] + bytes([99]) + bytes(59), "hand.wtb:25:")):  # fmt: skip
        with pytest.raises(FormatError, match=re.escape(place)):
            list(strictly(wthor.read(data, "hand.wtb")))


def test_wthor_names(tmp_path: pathlib.Path) -> None:
    path = tmp_path / "a.jou"
    path.write_bytes(wthor.write_names(["Tamenori Hideshi", "Müller"], ".jou"))
    assert path.stat().st_size == 16 + 2 * 20 and wthor.read_names(str(path)) == ["Tamenori Hideshi", "Müller"]
    path.write_bytes(path.read_bytes()[:-1])
    with pytest.raises(FormatError):
        wthor.read_names(str(path))


def test_positions() -> None:
    assert position.read_line(f"6 {OPENING}").depth == 6 and position.read_line(OPENING.text.lower().replace("x", "*")).position == OPENING
    assert position.fen(OPENING) == "8/8/8/3OX3/3XO3/8/8/8 X"
    for seed in range(10):
        final = random_game(seed).final()
        assert position.read_fen(position.fen(final)).position == final
    for text, column in (("8/8/8/3OX3/3XO3/8/8 X", 20), ("8/8/8/3OX4/3XO3/8/8/8 X", 10), ("8/8/8/3OX3/3XO3/8/8/8", 23), ("8/8/8/3OQ3/3XO3/8/8/8 X", 9)):
        with pytest.raises(FormatError, match=f":{column}: "):
            position.read_fen(text, formats.Place("", 1))


def test_files(tmp_path: pathlib.Path) -> None:
    game = random_game(3)
    for name, data in (("a.ggf", ggf.write([game]).encode()), ("a.wtb", wthor.write([game], 2000)), ("a.txt", transcript.write(game, "numbered").encode()), ("b", ggf.write([game]).encode())):
        (tmp_path / name).write_bytes(data)
        assert [one.position for one in strictly(formats.problems(str(tmp_path / name)))] == [at for at, _ in game.positions()]
        assert [one.moves for one in strictly(formats.games(str(tmp_path / name)))] == [game.moves]
    (tmp_path / "mixed.txt").write_text(f"# a comment\n{OPENING}\n6 {OPENING}\n{FFORUM}\n8/8/8/3OX3/3XO3/8/8/8 X\nf5d6\n")
    found = list(strictly(formats.problems(str(tmp_path / "mixed.txt"))))
    assert [(one.place.line, one.depth) for one in found] == [(2, None), (3, 6), (4, None), (5, None), (6, None), (6, None)]
    (tmp_path / "bad.txt").write_text(f"{OPENING}\n{OPENING}X\n")
    with pytest.raises(FormatError, match=r"bad\.txt:2:1: "):
        list(strictly(formats.problems(str(tmp_path / "bad.txt"))))


# What isn't at fault is there beside what is.


def test_a_cut_ggf_keeps_its_moves() -> None:
    whole = "(;GM[Othello]PB[a]PW[b]RE[+4]B[f5]W[d6]B[c3]W[d3]B[c4];)"
    for at in range(len("(;GM[Othello]PB[a]PW[b]RE[+4]B[f5]"), len(whole)):
        found = list(ggf.read(whole[:at], "a.ggf"))
        games = [one for one in found if isinstance(one, formats.Game)]
        assert len(games) == 1 and not games[0].is_whole and games[0].words() == ["f5", "d6", "c3", "d3", "c4"][: whole[:at].count("]") - 4] and isinstance(found[-1], FormatError)
    found = list(ggf.read(f"{whole}\n(;GM[Othello]B[f5]W[f5];)\nrubbish {whole}{whole[:-10]}", "a.ggf"))
    assert [one.words() for one in found if isinstance(one, formats.Game)] == [["f5", "d6", "c3", "d3", "c4"], ["f5"], ["f5", "d6", "c3", "d3", "c4"], ["f5", "d6", "c3"]]
    assert [(one.line, one.column) for one in found if isinstance(one, FormatError)] == [(2, 21), (3, 1), (3, 109)]


def test_a_fault_of_one_line_is_its_own(tmp_path: pathlib.Path) -> None:
    path = tmp_path / "a.txt"
    path.write_text(f"f5d6c3\nf5d6z9\nf5f5\n{OPENING.text}\n")
    games = list(formats.games(str(path)))
    assert [one.words() for one in games if isinstance(one, formats.Game)] == [["f5", "d6", "c3"], ["f5", "d6"], ["f5"]]
    assert [one.line for one in games if isinstance(one, FormatError)] == [2, 3, 4]
    (tmp_path / "b.obf").write_text(f"{OPENING.text}; f5:+1;\n{OPENING.text}; a1:+1;\n{OPENING.text}; d3:+2;\n")
    found = list(formats.problems(str(tmp_path / "b.obf"), str(path)))
    assert [one.best() for one in found if isinstance(one, formats.Problem)][:2] == [("f5",), ("d3",)] and [one.line for one in found if isinstance(one, FormatError)] == [2, 2, 3]
    with pytest.raises(FormatError, match="b.obf:2:"):
        list(strictly(formats.problems(str(tmp_path / "b.obf"))))


def test_wthor_of_many_files(tmp_path: pathlib.Path) -> None:
    """Names lie beside them or are named; faults of a file and of its games are told, and all else is there."""
    games = [random_game(seed) for seed in range(40)]
    players, tournaments = list[str](), list[str]()
    for year in (2020, 2021):
        data = wthor.write(games, year, players=players, tournaments=tournaments)
        at = 16 + 68 * 7 + 6
        (tmp_path / f"WTH_{year}.wtb").write_bytes(data[:at] + bytes([(data[at] + 1) % 65]) + data[at + 1 :])
    (tmp_path / "WTHOR.JOU").write_bytes(wthor.write_names(players, ".jou"))
    (tmp_path / "WTHOR.TRN").write_bytes(wthor.write_names(tournaments, ".trn"))
    paths = [str(tmp_path / f"WTH_{year}.wtb") for year in (2020, 2021)]
    for found in (list(formats.games(*paths)), list(formats.games(*paths, str(tmp_path / "WTHOR.JOU"), str(tmp_path / "WTHOR.TRN")))):
        read = [one for one in found if isinstance(one, formats.Game)]
        assert [one.moves for one in read] == [one.moves for one in games] * 2 and {(one.black, one.white, one.event) for one in read} == {("one", "other", "a place")}
        assert [one.date for one in read] == ["2020"] * 40 + ["2021"] * 40 and [at for at, one in enumerate(read) if not one.is_whole] == [7, 47]
        assert sum(isinstance(one, FormatError) for one in found) == 2
    data = (tmp_path / "WTH_2020.wtb").read_bytes()
    found = list(wthor.read(data[:-30], "cut.wtb"))
    assert isinstance(found[0], FormatError) and "takes" not in str(found[0]) and sum(isinstance(one, formats.Game) for one in found) == 39


def test_wthor_is_replayed_as_the_rules_say() -> None:
    """Its own replay and `Board` agree on games with passes, and on each code that isn't a move."""
    head = wthor.head_for((2020, 1, 1), 1, size=8)

    def replayed(codes: bytes) -> formats.Game:
        found = next(wthor.read(head + bytes([0, 0, 0, 0, 0, 0, 32, 32]) + codes.ljust(60, b"\0")))
        assert isinstance(found, formats.Game)
        return found

    for seed in range(60):
        game = random_game(seed)
        codes = bytes(10 * int(word[1]) + "abcdefgh".index(word[0]) + 1 for word in game.words())
        assert replayed(codes).moves == game.moves
        position = OPENING
        for played in game.moves[:9]:
            legal = {10 * int(word[1]) + "abcdefgh".index(word[0]) + 1 for word in position.squares()}
            before = codes[: game.words().index(played.move)]
            assert {code for code in range(1, 256) if len(replayed(before + bytes([code])).moves) > len(before)} == legal
            position = position.play(played.move)


def test_sgf() -> None:
    (game,) = strictly(sgf.read("(;GM[2]FF[4]SZ[8]PB[one]PW[other]EV[a place]DT[2026-01-02]RE[B+12]C[a \\] in a comment];B[f5];W[d6];B[c3](;W[d3];B[c4])(;W[c5];B[c4]))"))
    assert game.words() == ["f5", "d6", "c3", "d3", "c4"] and (game.black, game.white, game.event, game.date, game.result) == ("one", "other", "a place", "2026-01-02", 12.0)
    assert dict(game.tags)["C"] == "a ] in a comment"
    (letters,) = strictly(sgf.read("(;GM[2];B[fe];W[df])"))
    assert letters.words() == ["f5", "d6"]
    (placed,) = strictly(sgf.read("(;GM[2]AE[a1:h8]AB[a1]AW[b1:c1]PL[W];W[];B[d1])"))
    assert placed.start.text == "XOO" + "-" * 61 + " O" and [one.move for one in placed.moves] == ["pass", "d1"] and placed.result is None
    for text, place, words in (("(;GM[1];B[aa])", "1:6", []), ("(;B[f5])", "1:1", []), ("(;GM[2]SZ[10];B[f5])", "1:11", []), ("(;GM[2];B[f5];W[a1])", "1:17", ["f5"]), ("(;GM[2];B[f5];W[i9])", "1:17", ["f5"]),
                               ("(;GM[2];B[f5];W[d6]", "1:20", ["f5", "d6"]), ("x", "1:1", []), ("(;GM[2]RE[W+3.5];W[f5])", "1:20", [])):  # fmt: skip
        found = list(sgf.read(text))
        assert [one.words() for one in found if isinstance(one, formats.Game)] in ([words], [] if not words else None) and str(found[-1]).startswith(f"text:{place}: ")
    assert [sgf.result_of(text) for text in ("B+2", "W+10", "w+2.5", "0", "Draw", "?", "")] == [2.0, -10.0, -2.5, 0.0, 0.0, None, None]
    assert [next(strictly(sgf.read(f"(;GM[2]PL[{word}];)"))).start.side for word in ("white", "W", "B", "black")] == ["O", "O", "X", "X"]


def test_pgn() -> None:
    text = '[Event "a \\\\"place\\\\""]\n[Black "one"]\n[White "other"]\n[Result "33-31"]\n[Round "2"]\n\n1. f5 d6 {a comment (1-0)} 2. c3 (2. c5) d3 ; more\n3. c4\n\n[Black "two"]\n[Result "1-0"]\n\nf5d6 1-0\n'.replace("\\\\", "\\")
    one, two = strictly(pgn.read(text))
    assert one.words() == ["f5", "d6", "c3", "d3", "c4"] and (one.black, one.white, one.event, one.result, one.tags) == ("one", "other", 'a "place"', 2.0, (("round", "2"),))
    assert two.words() == ["f5", "d6"] and two.result is None and two.black == "two"
    (begun,) = strictly(pgn.read('[FEN "8/8/8/3OX3/3XO3/8/8/8 X"]\n\n1. d3 33-31'))
    assert begun.words() == ["d3"] and begun.result == 2.0
    found = list(pgn.read('[Black "a"]\n\nf5 d6\nz9\n[Black "b"]\n\nf5\n'))
    assert [one.words() for one in found if isinstance(one, formats.Game)] == [["f5", "d6"], ["f5"]] and [str(one).split(" ")[0] for one in found if isinstance(one, FormatError)] == ["text:4:1:"]
    assert [str(one) for one in pgn.read('f5 [Black "a"]\n\nf5')][0].startswith("text:1:1: here is no head")
    assert [str(one) for one in pgn.read('[Black "a"]\n[FEN "8/7/8 X"]\n\nf5\n')] == ["text:2:10: row 2 has 7 cells"]


@pytest.mark.parametrize("text, result", [("f5d6c3 33-31", 2), ("f5d6c3 +2", 2), ("f5d6c3, W+10", -10), ("f5d6c3: 20:44", -24), ("f5d6c3 0", 0), ("F5D6C3 (B+4)", 4), ("f5d6c3", None), ("\uff26\uff15\uff44\uff16\u3000c3\u300033\uff0d31", 2)])
def test_a_score_behind_a_transcript(text: str, result: float | None) -> None:
    game = transcript.read(text)
    assert game.words() == ["f5", "d6", "c3"] and game.result == result


def test_a_score_that_is_wrong() -> None:
    game = random_game(4)
    black = game.final().final_discs("X")
    assert transcript.read(transcript.write(game) + f" {black:+d}").result == black
    *kept, fault = transcript.parts(transcript.write(game) + f" {black + 2:+d}", None, formats.Place("a", 3))
    assert isinstance(kept[0], formats.Game) and kept[0].moves == game.moves and not kept[0].is_whole and "a:3:" in str(fault) and "the score is said to be" in str(fault)


def test_boards() -> None:
    rows = [OPENING.cells[at : at + 8] for at in range(0, 64, 8)]
    spaced = "  a b c d e f g h\n" + "\n".join(f"{number} {' '.join(row)} {number}" for number, row in enumerate(rows, 1)) + "\n  a b c d e f g h\nwhite to move\n"
    text = "# a comment\n" + "\n".join(rows) + "\nO\n\n" + spaced + "f5d6\n" + "\n".join(rows).replace("X", "*") + "\n" + OPENING.drawn() + "\n"
    found = list(strictly(formats.problems_of(text.encode(), "a.txt")))
    assert [one.position.text for one in found] == [f"{OPENING.cells} O", f"{OPENING.cells} O", OPENING.text, OPENING.play("f5").text, OPENING.text, OPENING.text]
    assert [one.place.line for one in found] == [2, 13, 23, 23, 24, 33] and found[0].place == formats.Place("a.txt", 2, 1)
    assert [one.position.text for one in strictly(formats.problems_of(f"8 {' '.join(rows)} *\nBO[8 {OPENING.cells} O]".encode()))] == [OPENING.text, f"{OPENING.cells} O"]
    for blank, side in ((4, "O"), (5, "X")):  # who is to move stands within 12 lines, or not there
        found = position.read_board([*rows, *[""] * blank, "O"], 0)
        assert found and (found[0].position.text, found[1]) == (f"{OPENING.cells} {side}", 13 if blank == 4 else 12)


def test_japanese_bytes() -> None:
    text = "\uff26\uff15\uff24\uff16\uff23\uff13"
    for data in (text.encode(), text.encode("cp932"), b"\xef\xbb\xbf" + text.encode()):
        (game,) = strictly(formats.games_of(data))
        assert game.words() == ["f5", "d6", "c3"]
    assert formats.text_of("M\u00fcller".encode("latin-1")) == "M\u00fcller" == formats.text_of("M\u00fcller".encode())


@pytest.mark.parametrize("path", sorted((pathlib.Path(__file__).parent / "fixtures").glob("*.*")), ids=lambda path: path.name)
def test_fixtures(path: pathlib.Path) -> None:
    """A file of each kind: all of it is read, and its games end where their results say."""
    if path.suffix in (".jou", ".trn", ".md"):
        return
    problems = list(strictly(formats.problems(str(path))))
    assert problems
    if path.suffix != ".obf" and path.name != "boards.txt":
        games = list(strictly(formats.games(str(path))))
        assert games and all(one.is_whole for one in games) and sum(len(one.words()) for one in games) == len(problems)
        for game in games:
            assert game.result is None or not game.final().is_over or game.final().final_discs("X") == game.result


def test_small_things() -> None:
    assert transcript.narrow("\uff01\uff5e\u3000\u2212\u2010\u2013\u30fc\uff00\uff5f") == "!~ ----\uff00\uff5f"
    assert [wthor.black_discs(Position("X" * black + "O" * white + "-" * (64 - black - white))) for black, white in ((20, 20), (30, 20), (20, 30))] == [32, 44, 20]
    (fault,) = ggf.read("\n(;GM[Go]B[f5];)", "a")
    assert str(fault) == "a:2:6: this is a game of Go"
    for text, said in (("8/8/8/3OX3/3XO3/8/8 X", "1:20: the text ends in row 7 behind 8 cells"), ("8/8/8/3OX3/3XO3/8/8/8/8 X", "1:22: there are more than 8 rows"), ("7/8/8/3OX3/3XO3/8/8/8 X", "1:2: row 1 has 7 cells"),
                       ("8/8/8/3OX3/3XO3/8/8/8 Q", "1:23: 'Q' is no side to move")):
        with pytest.raises(FormatError, match=re.escape(said)):
            position.read_fen(text, formats.Place("", 1))
    assert [one.position for one in strictly(formats.read_line("(;GM[Othello]B[f5]W[d6];)", formats.Place("a", 7)))] == [OPENING, OPENING.play("f5")]
    assert [str(one) for one in formats.read_line("(;GM[Go];)", formats.Place("a", 7))] == ["a:7:6: this is a game of Go"]
    data = wthor.write([random_game(1), random_game(2)], 2020)
    first, second = strictly(wthor.read(data, "a.wtb"))
    assert [one.place.column for one in (first, second)] == [17, 85] and first.theoretical == (first.result or 0) / 2 + 32
    for discs, theoretical, faults in ((64, 64, 0), (65, 64, 1), (64, 65, 1)):
        cut = data[:4] + b"\1" + data[5:16] + bytes([0, 0, 0, 0, 0, 0, discs, theoretical]) + bytes([56, 64]) + bytes(58)
        assert sum(isinstance(one, FormatError) for one in wthor.read(cut)) == faults
    assert [str(one) for one in formats.games_of(b"x", "a.obf")] == ["a.obf: an .obf has positions, and no games"]
    assert [formats.kind_of(*one) for one in (("a.OBF", b""), ("a", b"2 (;GM[Othello]"), ("a", b"(;FF[4]GM[2]"), ("a", b'[Event "x"]'), ("a.wtb", b""), ("a", b"f5d6"), ("a.sgf", b""), ("a.pgn", b""))] == [
        "obf", "ggf", "sgf", "pgn", "wtb", "lines", "sgf", "pgn"]


def test_scores_have_64_discs_at_most() -> None:
    assert transcript.read("f5d6c3 +64").result == 64 and obf.read_line(f"{OPENING}; f5:-64;") == formats.Problem(OPENING, None, (formats.Expected("f5", -64),))
    for call in (lambda: transcript.read("f5d6c3 +65"), lambda: obf.read_line(f"{OPENING}; f5:-65;")):
        with pytest.raises(FormatError, match="a score of .65 discs"):
            call()


def test_one_game_of_ggf() -> None:
    game = "(;GM[Othello]B[f5];)"
    assert ggf.read_game(game).words() == ["f5"]
    for text, said in ((game + game, "2 games stand there"), ("", "0 games"), ("(;GM[Othello]B[a1];)", "move 1, a1")):
        with pytest.raises(FormatError, match=said):
            ggf.read_game(text)


def test_wthor_byte_by_byte() -> None:
    begun = transcript.read("f5d6c3 33-31")
    assert wthor.write_names(["A"], ".jou") == bytes([20, 0, 1, 1]) + bytes(4) + b"\1\0" + bytes(6) + b"A" + bytes(19)
    head = bytes([20, 0, 1, 1, 1]) + bytes(5) + (2020).to_bytes(2, "little") + bytes([8, 0, 0, 0])
    with pytest.raises(ValueError, match="from the opening alone"):
        wthor.write([transcript.read("d6", OPENING.play("f5"))], 2020)
    assert wthor.write([begun], 2020) == head + bytes([0, 0, 0, 0, 0, 0, 33, 33, 56, 64, 33]) + bytes(57)


# Whatever comes in, a reader gives games, problems and faults, and no other exception; what was written is read again.

TEXTS = st.one_of(st.text(max_size=80), st.text(alphabet="f5d6c3-XO; ().[]GMBW8\n+:%", max_size=120), st.text(alphabet="-XO .*\n", min_size=60, max_size=90))


@hypothesis.given(TEXTS, st.sampled_from(formats.KINDS))
def test_any_text_is_read_or_refused(text: str, kind: str) -> None:
    data = text.encode("utf-8", "surrogatepass")
    for found in (formats.problems_of(data, "any", kind), formats.games_of(data, "any", kind), formats.problems_of(data, "any")):
        for one in found:
            assert isinstance(one, (formats.Problem, formats.Game, FormatError))
            if isinstance(one, FormatError):
                assert one.file == "any" and one.text and (kind == "wtb" or one.line <= text.count("\n") + 2)
            elif isinstance(one, formats.Game):
                one.final()


@hypothesis.given(st.binary(max_size=200), st.integers(0, 3))
def test_any_bytes_of_a_wtb(data: bytes, games: int) -> None:
    head = bytes([20, 21, 3, 4]) + games.to_bytes(4, "little") + bytes(2) + (2020).to_bytes(2, "little") + bytes([8, 0, 22, 0])
    for one in [*wthor.read(data), *wthor.read(head + data)]:
        assert isinstance(one, (formats.Game, FormatError))


@hypothesis.given(st.integers(0, 10**6), st.integers(0, 60), st.sampled_from(["plain", "spaced", "hyphens", "numbered", "capitals"]))
def test_what_is_written_is_read(seed: int, length: int, form: str) -> None:
    whole = random_game(seed)
    game = formats.Game(whole.start, whole.moves[:length] or whole.moves[:1], "a", "b]c", "an event", "2026")
    while game.moves[-1].move == "pass":
        game = formats.Game(game.start, game.moves[:-1], "a", "b]c", "an event", "2026")
    (again,) = strictly(ggf.read(ggf.write([game])))
    assert again.moves == game.moves and (again.black, again.white, again.event) == ("a", "b)c", "an event")
    assert transcript.read(transcript.write(game, form)).moves == game.moves
    position_at = game.final()
    assert position.read_fen(position.fen(position_at)).position == position_at == Position.parse(position_at.text) == ggf.board_of(f"8 {position_at.cells} {position_at.side}")
    if not position_at.is_over:
        (problem,) = strictly(obf.read(obf.write([formats.Problem(position_at, None, tuple(formats.Expected(move, at) for at, move in enumerate(position_at.legal)))]).split("\n")))
        assert problem.position == position_at and [one.move for one in problem.expected] == list(position_at.legal)


def test_a_great_database() -> None:
    """Games are given one after another, and not when all are read."""
    data = wthor.write([random_game(seed) for seed in range(50)], 2020)
    many = data[:4] + (10_000).to_bytes(4, "little") + data[8:16] + data[16:] * 200
    found = wthor.read(many)
    assert isinstance(first := next(found), formats.Game) and first.place.column == 17
    assert sum(isinstance(one, formats.Game) for one in found) == 9_999


ROWS = [json.loads(line) for line in (pathlib.Path(__file__).resolve().parents[2] / "formats.jsonl").read_text(encoding="utf-8").splitlines()]


@pytest.mark.parametrize("row", ROWS, ids=lambda row: f"{row[0]}-{row[1][:12]!r}")
def test_the_rows_that_javascript_reads_too(row):
    kind, text, *wanted = row
    for named in (kind, None):
        shown = [str(one) if isinstance(one, FormatError) else {"start": one.start.text, "moves": "".join(played.move for played in one.moves), "black": one.black, "white": one.white, "event": one.event, "date": one.date, "result": one.result, "isWhole": one.is_whole}
                 for one in formats.games_of(text.encode(), "", named)]  # fmt: skip
        assert shown == [one if isinstance(one, str) else {"start": OPENING.text, "black": "", "white": "", "event": "", "date": "", "result": None, "isWhole": True, **one} for one in wanted]
