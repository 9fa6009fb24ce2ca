#!/usr/bin/env python3
"""Makes the packages of Python without a network, by backend.py beside it, and the commands' pages of the manual by help2man.

usage: clients/python/packages.py packages OUT [PROGRAM [PROGRAM_V3]]     (the wheel and the sdist; with the program `othello`, and that for processors with AVX2,
                                                                   a wheel for this platform too, which has them in itself)
       clients/python/packages.py manuals OUT                            (coluwen.1, coluwen-batch.1, ..)

Times are SOURCE_DATE_EPOCH's, if it is set, so that the same sources make the same bytes. The platform's wheel says which C library its programs need.
"""
import json
import os
import pathlib
import re
import shutil
import subprocess
import sys
import tempfile

HERE = pathlib.Path(__file__).resolve().parent
ABOUT = {
    "coluwen": "values of Othello positions, a line each",
    "coluwen-batch": "values of any number of Othello positions as a CSV file",
    "coluwen-gtp": "an Othello engine by the Go Text Protocol",
    "coluwen-match": "a match of two Othello engines",
    "coluwen-nboard": "an Othello engine by NBoard's protocol",
    "coluwen-page": "an analysis board for browsers",
    "coluwen-review": "a review of a game of Othello",
}
MAKE = """import json, sys, backend
_, out, words, *alone = sys.argv
backend.build_wheel(out, json.loads(words))
if not alone:
    backend.build_sdist(out)"""
PROGRAMS = ("othello", "othello-v3")


def platform_of(programs):
    """The platform's tag: the greatest version of the C library that a program needs; this machine's own where one is a script."""
    if any(program.read_bytes()[:4] != b"\x7fELF" for program in programs):
        return "linux_x86_64"
    symbols = "".join(subprocess.run(["objdump", "-T", program], capture_output=True, text=True, check=True).stdout for program in programs)
    versions = [tuple(map(int, found.split("."))) for found in re.findall(r"GLIBC_([0-9]+\.[0-9]+)", symbols)]
    return "manylinux_{}_{}_x86_64".format(*max(versions, default=(2, 17)))


def packages(out, *programs):
    """In a copy, in which the page's files, and the programs, lie in the package themselves."""
    with tempfile.TemporaryDirectory() as folder:
        copy = pathlib.Path(folder, "python")
        shutil.copytree(HERE, copy, ignore=shutil.ignore_patterns("__pycache__", ".mypy_cache", "tests", "dist", "mutants"))
        shutil.copy(HERE.parent.parent / "LICENSE", copy)
        shutil.copytree(HERE.parent / "page", copy / "src/coluwen/page/static", ignore=shutil.ignore_patterns("build", "bundle", "test.mjs"))
        shutil.copy(HERE.parent / "bin/othello-wasm", copy / "src/coluwen/page/static/engine")
        subprocess.run([sys.executable, "-c", MAKE, out, "{}"], cwd=copy, check=True, stdout=subprocess.DEVNULL)
        if programs:
            own = copy / "src/coluwen/program"
            own.mkdir()
            for name, program in zip(PROGRAMS, programs):
                shutil.copyfile(program, own / name)
                (own / name).chmod(0o755)
            words = json.dumps({"platform": platform_of(programs)})
            subprocess.run([sys.executable, "-c", MAKE, out, words, "wheel alone"], cwd=copy, check=True, stdout=subprocess.DEVNULL)


def manuals(out):
    with tempfile.TemporaryDirectory() as folder:
        for name, about in ABOUT.items():
            spoken = pathlib.Path(folder, name)  # (help2man knows a synopsis by its capital)
            spoken.write_text(f"#!/bin/sh\nCOLUMNS=2000 {HERE.parent / 'bin' / name} \"$@\" | sed 's/^usage: /Usage: /'\n")
            spoken.chmod(0o755)
            page = subprocess.run(["help2man", "-N", "-n", about, spoken], stdout=subprocess.PIPE, check=True)
            (out / f"{name}.1").write_bytes(page.stdout)


if __name__ == "__main__":
    if len(sys.argv) < 3 or sys.argv[1] not in ("packages", "manuals") or len(sys.argv) > {"packages": 5, "manuals": 3}[sys.argv[1]]:
        sys.exit(__doc__)
    place = pathlib.Path(sys.argv[2]).resolve()
    place.mkdir(parents=True, exist_ok=True)
    os.environ.setdefault("SOURCE_DATE_EPOCH", "1700000000")
    {"packages": packages, "manuals": manuals}[sys.argv[1]](place, *(pathlib.Path(word).resolve() for word in sys.argv[3:]))
