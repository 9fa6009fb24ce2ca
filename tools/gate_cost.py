#!/usr/bin/env python3
"""Runs the gate on a fresh clone and says where its processor seconds go.

usage: tools/gate_cost.py [-e] [-k] [FOLDER]
       tools/gate_cost.py --here COMMAND..      (the gate's own `rt ci`: its output, and the table before its last line)
Clones the last commit into FOLDER (a new one under /tmp where none is given), makes its drawn rows, and runs `rt ci` there. Prints a row a crate:
what its proof cost, the proof of its tests, its edits with the check that they begin with, and what compilers took for it (as a program, and its
tests); then the sums, the chain of crates that decided when the last proof ended, the minutes by the clock, and how many processors
there are. A whole run leaves this table in tools/docs/cost.txt too, which tools/README shows. -e adds each edit with its seconds. Where the
toolchain keeps what earlier runs on this machine proved, all is proved anew, unless -k is given. The log of the gate stands in FOLDER/gate.log.

Seconds are read from /proc five times a second, so the last fifth of a second of each process is missing; the sum over
all processes (`whole`) is exact. Interrupted, it prints the rows so far. It takes as long as `./gate`: run it where nothing else runs.
"""
import collections
import os
import pathlib
import re
import resource
import signal
import subprocess
import sys
import tempfile
import time

HERE = pathlib.Path(__file__).resolve().parent
TOP = HERE.parent
TICKS = os.sysconf("SC_CLK_TCK")
COLUMNS = ("proof", "tests", "edits", "builds")


def kind_of(words, cwd):
    """The crate that a process works on, and what for: its proof, its tests, the seed of its edits, one of them, or its compilation."""
    if words[0].rpartition("/")[2].startswith(("clang", "ld", "lld", "llvm")):
        return os.path.basename(cwd), "builds"
    if not words[0].endswith("/rattle") or "--crate-name" not in words:
        return None
    crate = words[words.index("--crate-name") + 1]
    kept = words[words.index("--incremental") + 1] if "--incremental" in words else ""
    if "/rt-edits-" in kept:
        return crate, os.path.basename(kept)
    return crate, "builds" if "--crate-checked" in words else "tests" if "--test" in words else "proof"


def look(seen, folder, gate):
    """Notes of each process of the prover and of a compiler that this gate began what it had of a processor, by its number and its start, and when it was seen first and last."""
    now = time.monotonic()
    for entry in os.listdir("/proc"):
        if not entry.isdigit():
            continue
        try:
            with open(f"/proc/{entry}/stat") as it:
                fields = it.read().rpartition(")")[2].split()
            name = int(entry), int(fields[19])
            if name not in seen or not seen[name][0]:  # (between a fork and its exec a process looks like its parent)
                with open(f"/proc/{entry}/cmdline") as it:
                    words = it.read().split("\0")
                cwd = os.readlink(f"/proc/{entry}/cwd")
                is_ours = cwd.startswith(f"{folder}/") or re.search(rf"/rt-edit-({gate}-)?[^/]*$", cwd)
                kind = kind_of(words, cwd) if is_ours else None
                # (an edit that is tried from nothing keeps nothing)
                if kind and kind[1] == "proof" and "/rt-edit-" in cwd:
                    kind = kind[0], "from nothing"
                seen[name] = [kind, 0, now, now]
            if seen[name][0]:
                seen[name][1], seen[name][3] = (int(fields[11]) + int(fields[12])) / TICKS, now
        except (OSError, IndexError, ValueError):
            continue


def chain_of(seen, began, lower):
    """The chain that decided when the last proof ended: each crate or its tests waited for the one before it, whose proof ended last of those below. Minutes from the start."""
    spans = {}
    for kind, _, first, last in seen.values():
        if kind and kind[1] in ("proof", "tests", "builds"):
            crate, what = kind[0], "tests" if kind[1] == "tests" else "proof"
            begin, end = spans.get((crate, what), (first, last))
            spans[crate, what] = min(begin, first), max(end, last)
    at, found = max(spans, key=lambda it: spans[it][1], default=None), []
    while at:
        found.append(f"{at[0]}{' (tests)' if at[1] == 'tests' else ''} {(spans[at][0] - began) / 60:.0f} to {(spans[at][1] - began) / 60:.0f}")
        at = max(((low, "proof") for low in lower.get(at[0], []) if (low, "proof") in spans), key=lambda it: spans[it][1], default=None)
    return ", ".join(reversed(found))


def watched(command, folder, log):
    """Runs a command of the gate in this folder, and returns its status, what was seen of its processes, when it began, and whether it came to its end."""
    began, seen = time.monotonic(), {}
    gate = subprocess.Popen(command, cwd=folder, stdin=subprocess.DEVNULL, stdout=log, stderr=subprocess.STDOUT)
    try:
        while gate.poll() is None:
            look(seen, folder, gate.pid)
            time.sleep(0.2)
    except KeyboardInterrupt:
        gate.terminate()
        gate.wait()
        return 1, seen, began, False
    return gate.returncode, seen, began, True


def table_of(seen, began, shows_edits):
    """What was seen as lines: a row a crate, the sums, the chain, the whole."""
    seconds, edits = collections.Counter(), collections.defaultdict(dict)
    for crate, what, much in ((*kind, much) for kind, much, _, _ in seen.values() if kind):
        if what in COLUMNS:
            seconds[crate, what] += much
        else:
            seconds[crate, "edits"] += much
            edits[crate][what] = edits[crate].get(what, 0) + much
    lower = {it[1]: it[2].split() for it in re.finditer(r"^(\w+)[^:\n]*:(.*)", (TOP / "crates.txt").read_text(), re.M)}
    table = [f"{'crate':18} " + " ".join(f"{it:>6}" for it in COLUMNS)]
    for crate in lower:
        row = [seconds[crate, what] for what in COLUMNS]
        table.append(f"{crate:18} " + " ".join(f"{it:6.0f}" if it else f"{'-':>6}" for it in row))
        if shows_edits and edits[crate]:
            listed = sorted(it.name for it in (TOP / "crates" / crate / "must-fail").glob("*.edit"))
            for what, much in sorted(edits[crate].items(), key=lambda it: -it[1]):
                table.append(f"    {listed[int(what)] if what.isdigit() and int(what) < len(listed) else what:46} {much:6.1f}")
    sums = [sum(seconds[crate, what] for crate in lower) for what in COLUMNS]
    table.append(f"{'all ' + str(len(lower)):18} " + " ".join(f"{it:6.0f}" for it in sums))
    table.append(f"chain, in minutes: {chain_of(seen, began, lower)}")
    used, minutes = resource.getrusage(resource.RUSAGE_CHILDREN), (time.monotonic() - began) / 60
    whole = (used.ru_utime + used.ru_stime) / 60
    table.append(f"whole {whole:.0f} processor minutes ({sum(sums) / 60:.0f} of those above), {minutes:.1f} by the clock, {len(os.sched_getaffinity(0))} processors")
    return table


def here(words):
    """Runs this command at the top of this checkout, shows what it prints, and before its last line the table."""
    with tempfile.TemporaryFile("w+", errors="replace") as log:
        with subprocess.Popen(["tee", f"/dev/fd/{log.fileno()}"], stdin=subprocess.PIPE, pass_fds=[log.fileno()]) as shown:
            status, seen, began, _ = watched(words, TOP, shown.stdin)
        log.seek(0)
        last = log.read().rstrip("\n").rpartition("\n")[2]
    print("\n".join([*table_of(seen, began, False), last]), flush=True)
    return status


def main():
    words = sys.argv[1:]
    if any(it in ("-h", "--help") for it in words):
        sys.exit(__doc__)
    signal.signal(signal.SIGTERM, signal.default_int_handler)
    if words[:1] == ["--here"]:
        return here(words[1:])
    counts_kept = "-k" in words
    names = [it for it in words if not it.startswith("-")]
    folder = pathlib.Path(names[0] if names else tempfile.mkdtemp(prefix="gate-")).resolve()
    subprocess.run(["git", "clone", "-q", str(TOP), str(folder / "repository")], check=True)
    subprocess.run([folder / "repository/tools/rows/make.py"], stdout=subprocess.DEVNULL, check=True)
    told = subprocess.run(["rt", "help"], capture_output=True, text=True)
    keeps = "--anew" in told.stdout + told.stderr
    with open(folder / "gate.log", "w") as log:
        status, seen, began, is_whole = watched(["rt", "ci", "--anew"] if keeps and not counts_kept else ["rt", "ci"], folder / "repository", log)
    table = table_of(seen, began, "-e" in words)
    print("\n".join(table))
    if is_whole and status == 0 and not counts_kept:
        (HERE / "docs/cost.txt").write_text("\n".join(it for it in table if not it.startswith("    ")) + "\n")
    print(subprocess.run(["tail", "-n", "2", str(folder / "gate.log")], capture_output=True, text=True).stdout, end="")
    return status


if __name__ == "__main__":
    sys.exit(main())
