#!/usr/bin/env python3
"""Runs every test and every row without a proof: each crate with tests by `rt try --test`, and the player of rows on all texts.

usage: tools/try_tests.py [CRATE..]      (all where none is named; the last line is 'N passed, M failed')

A program so built checks memory and bounds as it runs. That a test has passed here says nothing of a proof: `rt ci` gives the verdict.
"""
import os
import pathlib
import re
import subprocess
import sys
from concurrent.futures import ThreadPoolExecutor

TOP = pathlib.Path(__file__).resolve().parent.parent
SECONDS = "900"  # the most that one crate's tests may take, on a busy machine
PLAYER = "transcripts"


def crates():
    """The crates of crates.txt that have tests, the player last."""
    names = [line.split(":")[0].split()[0] for line in (TOP / "crates.txt").read_text().splitlines() if line and not line.startswith("#")]
    tested = [name for name in names if any("#[test]" in path.read_text() for path in (TOP / "crates" / name / "src").rglob("*.rt"))]
    return [*tested, PLAYER]


def run(crate):
    """What `rt try` says of a crate, and how many of its tests passed and failed."""
    folder = TOP / "crates" / crate
    words = ["rt", "try", "--steps", "1", "--seconds", SECONDS]
    if crate == PLAYER:
        for path in sorted((folder / "data").iterdir()):
            words += ["--data", f"{path.name}={path}"]
    else:
        words.append("--test")
    told = subprocess.run(words, cwd=folder, stdin=subprocess.DEVNULL, capture_output=True, text=True, check=False, env=dict(os.environ, RT_SECONDS=SECONDS))
    said = told.stdout + told.stderr
    if crate == PLAYER:
        wanted = (folder / "stdout").read_text()
        is_well = told.returncode == 0 and told.stdout.startswith(wanted)
        return crate, said, int(is_well), int(not is_well)
    count = sum((path.read_text()).count("#[test]") for path in (folder / "src").rglob("*.rt"))
    passed, failed = (len(re.findall(rf"^test \S+ \.\.\. {word}", said, re.M)) for word in ("ok", "FAILED"))
    missing = max(count - passed - failed, 0)
    return crate, said, passed, failed + missing


def main():
    names = sys.argv[1:] or crates()
    passed = failed = 0
    with ThreadPoolExecutor(max(1, min(3, os.cpu_count() or 1))) as pool:
        for crate, said, well, ill in pool.map(run, names):
            passed, failed = passed + well, failed + ill
            print(f"{crate}: {well} passed, {ill} failed", flush=True)
            if ill:
                print(said[-4000:])
    print(f"{passed} passed, {failed} failed")
    sys.exit(1 if failed else 0)


if __name__ == "__main__":
    main()
