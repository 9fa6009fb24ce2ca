#!/usr/bin/env python3
"""Writes texts of `othello solve` for the program `transcripts`: 2,000 positions that are drawn from a seed, with the answers of
tools/oracle/oracle.rs, which shares no code with the crates and searches without windows.

usage: tools/rows/solve.py FOLDER [SEED]      (seed 1; tools/rows/make.py makes all)

It ends badly unless positions of each depth from 0 to 6 were met, and among them passes, boards without a disc, full ones,
one-sided ones and finished games.
"""
import collections
import pathlib
import random
import subprocess
import sys
import tempfile

import othello

HERE = pathlib.Path(__file__).resolve().parent
GRAINS = ["0 2 6", "1 3 5", "0 4 6"]
SCENE = 50


def run(*words, given=None):
    return subprocess.run([str(word) for word in words], input=given, stdout=subprocess.PIPE, text=True, check=True).stdout.splitlines()


def board_of(draw, kind):
    """A board that no game need lead to."""
    if kind == "empty":
        return ["-"] * 64
    if kind == "full":
        share = draw.random()
        return ["X" if draw.random() < share else "O" for _ in range(64)]
    if kind == "one-sided":
        disc, share = draw.choice("XO"), draw.random()
        return [disc if draw.random() < share else "-" for _ in range(64)]
    few = draw.choice([0.05, 0.1, 0.5, 0.85, 0.95])
    share = draw.random()
    return [("X" if draw.random() < share else "O") if draw.random() < few else "-" for _ in range(64)]


def is_small(board, player, depth, most):
    """How many positions plain recursion may still enter; below 0 where it enters too many."""
    if most < 0 or depth == 0:
        return most - 1
    most -= 1
    for choice in othello.choices(board, player):
        most = is_small(othello.after(board, player, choice), othello.other(player), depth - othello.plies(choice), most)
        if most < 0:
            break
    return most


def strange(draw, count):
    """Lines with boards that no game need lead to, at depths where little is entered."""
    lines = []
    while len(lines) < count:
        kind = draw.choice(["empty", "full", "one-sided", "any", "any", "any", "any"])
        board, player, depth = board_of(draw, kind), draw.choice("XO"), draw.randrange(7)
        while is_small(board, player, depth, 300) < 0:
            depth -= 1
        lines.append(f"{depth} {othello.text(board, player)}")
    return lines


def kinds_of(line, answer):
    """What a line is an instance of."""
    depth, cells = line[0], line[2:66]
    yield f"depth {depth}"
    if answer.endswith("pass"):
        yield "a pass"
    if answer.endswith("-") and depth != "0":
        yield "a finished game"
    if cells == "-" * 64:
        yield "no disc"
    elif "-" not in cells:
        yield "full"
    elif "X" not in cells or "O" not in cells:
        yield "one-sided"


def main():
    folder = pathlib.Path(sys.argv[1])
    seed = int(sys.argv[2]) if len(sys.argv) > 2 else 1
    with tempfile.TemporaryDirectory() as work:
        oracle = pathlib.Path(work) / "oracle"
        run("rustc", "-O", "-o", oracle, HERE.parent / "oracle" / "oracle.rs")
        lines = run(oracle, "positions", 1060, seed, 3) + run(oracle, "positions", 40, seed + 3, 5) + run(oracle, "ends", 440, seed + 1, 4) + run(oracle, "ends", 60, seed + 4, 6)
        lines += strange(random.Random(seed + 2), 400)
        answers = run(oracle, "solve", given="\n".join(lines) + "\n")
    met = collections.Counter(kind for line, answer in zip(lines, answers) for kind in kinds_of(line, answer))
    text = [f"# Made by `tools/rows/solve.py FOLDER {seed}` from that seed: don't edit."]
    for at in range(0, len(lines), SCENE):
        text += ["", f"= solve grain {GRAINS[at // SCENE % len(GRAINS)]} ordered"]
        for line, answer in zip(lines[at:at + SCENE], answers[at:at + SCENE]):
            text += [f"> {line}", f"< {answer}"]
    (folder / "drawn_positions.solve").write_text("\n".join(text) + "\n")
    print(f"{len(lines)} positions: " + ", ".join(f"{kind} {count}" for kind, count in sorted(met.items())))
    wanted = [f"depth {depth}" for depth in range(7)] + ["a pass", "a finished game", "no disc", "full", "one-sided"]
    missing = [kind for kind in wanted if not met[kind]]
    if missing:
        sys.exit(f"not met: {missing}")


main()
