"""The rules, by known numbers, and what a board does."""
import contextlib
import copy
import pickle
import threading
import xml.etree.ElementTree
from collections.abc import Iterator

import hypothesis
import hypothesis.strategies as st
import pytest
from coluwen import SQUARES, Board, IllegalMove, Move, Position
from coluwen.tools.match import Player, Table, elo, elo_text, match, mean_and_error


def leaves(position: Position, depth: int) -> int:
    """The positions after so many moves, a pass being one."""
    moves = position.legal_moves()
    return 1 if depth == 0 or not moves else sum(leaves(position.play(move), depth - 1) for move in moves)


def test_numbers_of_leaves() -> None:
    """The known ones from the opening."""
    assert [leaves(Position.opening(), depth) for depth in range(6)] == [1, 4, 12, 56, 244, 1396]


def test_board() -> None:
    board = Board()
    for move in ("f5", "D6", "c3"):
        board = board.push(move)
    assert board.moves == ("f5", "d6", "c3") and board.side == "O" and board.pop().moves == ("f5", "d6") and board.pop().side == "X"
    with pytest.raises(IllegalMove):
        board.push("a1")
    passing = Board.parse("XO" + "-" * 62 + "O")
    passed = passing.push("c1")
    assert passed.moves == ("pass", "c1") and passed.is_over and passed.pop() == passing and not passing.pop().moves
    assert board.flip().position == board.position.flip() and board.flip().position.legal == board.position.legal


def test_a_board_is_a_value() -> None:
    board = Board().push("f5").push("d6")
    again = Board(Position.opening(), ("f5", "d6"))
    assert board == again and hash(board) == hash(again) and board != board.pop() and len({board, again}) == 1
    assert copy.deepcopy(board) == board and pickle.loads(pickle.dumps(board)).position == board.position and eval(repr(board)) == board
    assert "c4" in board.legal and "a1" not in board.legal and [move for _, move in board.positions()] == ["f5", "d6"]
    picture = xml.etree.ElementTree.fromstring(board._repr_svg_())
    circles = [one.attrib for one in picture.iter("{http://www.w3.org/2000/svg}circle")]
    assert sum(one["r"] == "16" for one in circles) == 6 and sum(one["r"] == "4" for one in circles) == len(board.legal)
    assert {"cx": "240", "cy": "200", "r": "16", "fill": "#111"} in circles  # f5 is black's
    with pytest.raises(IllegalMove):
        Board(Position.opening(), ("f5", "f5"))


@hypothesis.given(st.lists(st.integers(0, 63), max_size=60), st.integers(0, 7))
def test_rules_on_games(choices: list[int], turn: int) -> None:
    """A move flips what the rules say by walking from the square, changes nothing else, and is as legal on the turned board."""
    position = Position.opening()
    for choice in choices:
        if not (moves := position.legal_moves()):
            return
        move = moves[choice % len(moves)]
        after = position.play(move)
        if move != "pass":
            walked = walk(position, move)
            changed = {square for square, before, now in zip(SQUARES, position.cells, after.cells) if before != now}
            assert walked and changed == walked | {move} and set(position.flips(move)) == walked
            assert after.empties == position.empties - 1 and after.discs(position.side) == position.discs(position.side) + len(walked) + 1
        assert len(turned(position, turn).legal_moves()) == len(moves) and position.flip().legal_moves() == moves
        position = after


def turned(position: Position, number: int) -> Position:
    """One of the eight positions that are the same but for a rotation or reflection."""
    rows = [position.cells[at : at + 8] for at in range(0, 64, 8)][:: -1 if number & 2 else 1]
    rows = [row[:: -1 if number & 1 else 1] for row in rows]
    return Position("".join("".join(column) for column in zip(*rows)) if number & 4 else "".join(rows), position.side)


def walk(position: Position, move: str) -> set[str]:
    """What a move flips: the rows of the opponent's discs that end at one's own."""
    found: set[str] = set()
    column, row = "abcdefgh".index(move[0]), int(move[1]) - 1
    for right in (-1, 0, 1):
        for down in (-1, 0, 1):
            line, c, r = [], column + right, row + down
            while (right or down) and 0 <= c < 8 and 0 <= r < 8 and position.cells[8 * r + c] not in ("-", position.side):
                line.append("abcdefgh"[c] + str(r + 1))
                c, r = c + right, r + down
            if line and 0 <= c < 8 and 0 <= r < 8 and position.cells[8 * r + c] == position.side:
                found |= set(line)
    return found


def test_errors_of_a_match() -> None:
    assert mean_and_error([1, 0, 1, 0]) == (0.5, pytest.approx(0.2887, abs=1e-4))
    table = Table("one", "other")
    table.discs = [("X", 10), ("O", -2), ("X", 0), ("O", 4)]
    assert table.score() == (0.625, pytest.approx(0.1976, abs=1e-4)) and "62.5%" in table.lines()[-2]


class First(Player):
    """Plays the first legal move, or what isn't one."""

    def __init__(self, name: str, move: str = ""):
        super().__init__(name)
        self.what, self.seen = move, list[str]()

    def begin(self, board: Board) -> None:
        self.seen.clear()

    def told(self, move: str, side: str) -> None:
        self.seen.append(move)

    def move(self, board: Board) -> str:
        return self.what or board.legal[0]


def test_a_match() -> None:
    """Each opening in both colours. What isn't legal loses for who played it, also where names are alike."""
    opening, said = Board().push("f5"), list[str]()
    one, other = First("depth:1"), First("depth:12")
    table, outcomes = match(lambda: pair(one, other), [opening], said.append)
    assert [(outcome.game.black, outcome.game.white) for outcome in outcomes] == [("depth:1", "depth:12"), ("depth:12", "depth:1")]
    assert outcomes[0].game.moves == outcomes[1].game.moves and table.discs[0][1] == -table.discs[1][1]  # the same game, each for the other
    assert all(outcome.game.moves[0].move == "f5" and outcome.game.final().is_over for outcome in outcomes)
    assert sorted([*one.seen, *(move for move in other.seen if move != "pass")]) == sorted(played.move for played in outcomes[1].game.moves[1:])
    table, outcomes = match(lambda: pair(First("depth:1"), First("depth:12", "a1")), [opening], said.append)
    assert [discs for _, discs in table.discs] == [64, 64] and all("depth:12 plays 'a1'" in outcome.fault for outcome in outcomes)
    table, outcomes = match(lambda: pair(First("depth:1", "a1"), First("depth:1")), [opening], said.append)
    assert [discs for _, discs in table.discs] == [-64, -64]


@contextlib.contextmanager
def pair(one: Player, other: Player) -> Iterator[tuple[Player, Player]]:
    yield one, other


def test_several_games_at_once() -> None:
    """Each by players of its own; they wait for one another here, so that nobody comes on alone. The results are in the openings' order."""
    barrier, made = threading.Barrier(3, timeout=20), list[First]()

    class Together(First):
        def begin(self, board: Board) -> None:
            super().begin(board)
            if self.name == "one":
                barrier.wait()

    @contextlib.contextmanager
    def both() -> Iterator[tuple[Player, Player]]:
        made.extend([Together("one"), Together("other")])
        yield made[-2], made[-1]

    openings = [Board().push("f5").push(move) for move in ("d6", "f4", "f6")]
    table, outcomes = match(both, openings, lambda text: None, at_once=3)
    assert len(made) == 6 and len(table.discs) == 6
    assert [outcome.game.words()[1] for outcome in outcomes] == ["d6", "d6", "f4", "f4", "f6", "f6"]


def test_elo() -> None:
    assert elo(0.5) == 0 and elo(10 / 11) == pytest.approx(400) and elo(1 / 11) == pytest.approx(-400)
    assert elo_text(0.5, 0.05) == "+0 (-35 to +35)" and "isn't known" in elo_text(1, 0) and elo_text(1, 0.1).startswith("more than +382") and elo_text(0.9, 0.2) == "+382 (+147 to unknown)"


def test_a_move_is_a_word_a_number_or_a_move_in_every_call() -> None:
    opening = Position.opening()
    for move in ("d3", "D3", 19, Move("d3"), Move(19)):
        assert opening.play(move) == opening.play("d3") and opening.is_legal(move) and opening.flips(move) == ["d4"]
        assert Board().push(move) == Board(moves=(move,)) == Board().push("d3") and Board().push(move).moves == ("d3",)
    must_pass = Position("XO" + "-" * 62, "O")
    for move in ("pass", "PASS", 64, Move(64), Move("Pass")):
        assert must_pass.play(move).side == "X" and must_pass.is_legal(move) and Board(must_pass).push(move).moves == ("pass",)
    assert (Move("H8").square, Move("pass").square, Move(0), {Move("d3"): 1}["d3"], [Move(square).square for square in range(65)]) == (63, 64, "a1", 1, list(range(65)))
    for wrong in (65, -1, True, 1.5, None, b"d3"):
        for call in (opening.play, opening.is_legal, opening.flips, Board().push, Move):
            with pytest.raises(IllegalMove):
                call(wrong)  # type: ignore[arg-type, operator]
    for word in ("i9", "", "d33"):
        with pytest.raises(IllegalMove):
            Move(word)
        assert not opening.is_legal(word)


def plain_flips(cells: str, side: str, square: int) -> list[str]:
    """What a move flips, way by way, as the rules say it: a run of the opponent's discs from there that ends at one of one's own."""
    found = list[str]()
    for down, right in ((-1, -1), (-1, 0), (-1, 1), (0, -1), (0, 1), (1, -1), (1, 0), (1, 1)):
        row, column = square // 8 + down, square % 8 + right
        run = list[str]()
        while 0 <= row < 8 and 0 <= column < 8 and cells[8 * row + column] == {"X": "O", "O": "X"}[side]:
            run.append(SQUARES[8 * row + column])
            row, column = row + down, column + right
        if 0 <= row < 8 and 0 <= column < 8 and cells[8 * row + column] == side:
            found += run
    return sorted(found) if cells[square] == "-" else []


@hypothesis.given(st.lists(st.sampled_from("XO-"), min_size=64, max_size=64), st.sampled_from("XO"))
def test_words_of_bits_are_the_rules(cells: list[str], side: str) -> None:
    """Drawn boards: legal squares, flips, what a move leads to and the cells again, beside the rules as they are written."""
    place = Position("".join(cells), side)
    flips = [plain_flips(place.cells, side, at) for at in range(64)]
    assert place.squares() == [SQUARES[at] for at in range(64) if flips[at]]
    assert [sorted(place.flips(at)) for at in range(64)] == flips
    for at in range(64):
        if flips[at]:
            turned = {*flips[at], SQUARES[at]}
            assert place.play(at).cells == "".join(side if SQUARES[one] in turned else cell for one, cell in enumerate(cells))


def test_a_square_that_is_none_is_no_illegal_move_of_a_player() -> None:
    for move in ("z9", "a9", "", "d33", "d"):
        with pytest.raises(IllegalMove, match="is no move"):
            Position.opening().play(move)
    with pytest.raises(IllegalMove, match="black can't play there"):
        Position.opening().play("a1")
