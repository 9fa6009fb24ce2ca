#!/usr/bin/env python3
"""Makes the texts of rows that are drawn from a seed, in crates/transcripts/data, where `transcripts` plays them beside the written ones.
Their answers are those of models that share no code with the crates. Git doesn't keep them: the gate makes them before it plays them.

usage: tools/rows/make.py [SEED]      (1: the seed whose number of rows crates/transcripts/stdout has; a night draws another)

Where the texts of this seed are there, made by these scripts, nothing is done. It takes half a minute, and `rustc` for the positions.
"""
import hashlib
import pathlib
import subprocess
import sys
from concurrent.futures import ThreadPoolExecutor

HERE = pathlib.Path(__file__).resolve().parent
TOP = HERE.parent.parent
DATA = TOP / "crates/transcripts/data"
MADE = HERE / "out/drawn"  # what the texts were made from
SOURCES = [*sorted(HERE.glob("*.py")), TOP / "tools/oracle/oracle.rs"]


def main():
    if len(sys.argv) > 2 or not all(word.isdigit() for word in sys.argv[1:]):
        sys.exit(__doc__)
    seed = (sys.argv[1:] or ["1"])[0]
    digest = f"{seed} " + hashlib.sha256(b"".join(path.read_bytes() for path in SOURCES)).hexdigest()
    if MADE.exists() and MADE.read_text() == digest:
        return
    for path in DATA.glob("drawn_*"):
        path.unlink()
    MADE.unlink(missing_ok=True)
    with ThreadPoolExecutor() as pool:
        runs = [pool.submit(subprocess.run, [sys.executable, HERE / f"{kind}.py", DATA, seed], check=True) for kind in ("steps", "sessions", "solve", "windows")]
        for run in runs:
            run.result()
    MADE.parent.mkdir(exist_ok=True)
    MADE.write_text(digest)


if __name__ == "__main__":
    main()
