#!/usr/bin/env python3
"""Writes rows of the specified serial search for the program `transcripts`: of `solve --visited` at depths 2 to 5, and of `search` through
narrow windows, below which, in which and above which the value lies; of positions that are drawn from a seed, with the answers of
othello.py's search, which shares no code with the crates.

usage: tools/rows/windows.py FOLDER [SEED]      (seed 1; tools/rows/make.py makes all)

It ends badly unless scores below alpha, inside the window and above beta were met, and passes, and searches in which another order would
enter another number of positions.
"""
import collections
import pathlib
import random
import sys

import othello

INF = 200000
DEPTHS = {2: (12, 8, 56), 3: (12, 12, 56), 4: (6, 24, 56), 5: (5, 34, 56)}  # how many games, and after how many turns
PASSES = 3


def positions(draw):
    """Each a depth, a board and its player."""
    for depth, (count, first, last) in DEPTHS.items():
        for _ in range(count):
            yield depth, *othello.game(draw, draw.randrange(first, last))
    passes = 0
    while passes < PASSES:
        board, player = othello.game(draw, draw.randrange(46, 58))
        if othello.choices(board, player) == [othello.PASS]:
            passes += 1
            yield 3, board, player


def windows(draw, value):
    """Windows above, below and around a value, the last of width one."""
    near, far = sorted(draw.sample(range(1, 80), 2))
    return [(value + near, value + far), (value - far, value - near), (value - near, value + far), (value, value + 1)]


def main():
    folder = pathlib.Path(sys.argv[1])
    seed = int(sys.argv[2]) if len(sys.argv) > 2 else 1
    draw, met = random.Random(seed), collections.Counter()
    visited, narrow = ["= solve visited"], ["= search"]
    for depth, board, player in positions(draw):
        text = othello.text(board, player)
        value, entered, choice = othello.search(board, player, depth, -INF, INF)
        visited += [f"> {depth} {text}", f"< {value} {othello.name(choice)} {entered}"]
        met["pass"] += choice == othello.PASS
        met["another order"] += entered != othello.search(board, player, depth, -INF, INF, othello.rank)[1]
        for alpha, beta in windows(draw, value):
            score, entered, _ = othello.search(board, player, depth, alpha, beta)
            narrow += [f"> {depth} {alpha} {beta} {text}", f"< {score} {entered}"]
            met["below alpha" if score < alpha else "above beta" if score > beta else "inside" if alpha < score < beta else "at an end"] += 1
    lines = [f"# Made by `tools/rows/windows.py FOLDER {seed}` from that seed: don't edit.", "", *visited, "", *narrow]
    (folder / "drawn_windows.solve").write_text("\n".join(lines) + "\n")
    print(f"{len(visited) // 2} searches, {len(narrow) // 2} through windows: " + ", ".join(f"{kind} {count}" for kind, count in sorted(met.items())))
    missing = [kind for kind in ("pass", "another order", "below alpha", "above beta", "inside") if not met[kind]]
    if missing:
        sys.exit(f"not met: {missing}")


main()
