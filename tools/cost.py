#!/usr/bin/env python3
"""Says what a crate costs the gate, in processor seconds: its proof from nothing, its tests beside it, and its mutants.

usage: tools/cost.py [-f] CRATE..
Names are as in crates.txt. -f adds the ten functions (with their closures) that the proof, or the check of the tests, takes longest
over.

It works in this checkout: what the prover kept of the named crates is made anew, that of the crates below them is used (and
made first where it is missing). `proof` is `rt check`, `tests` what `rt check --test` takes after it, `edits` is `rt must-fail
--anew`, all on one processor each. tools/gate_cost.py measures the same of all crates at once, where tests and mutants of a crate
include its proof, once each, and of each mutant. A small crate takes a minute, a large one some ten.

A function has two figures: its seconds within the proof of the whole crate, where whichever function is the first to use a
contract or a library pays for reading it; and its seconds alone (`rattle check --only`), less those of the function that
takes least. Where the first is much the greater, it was charged with what others read too; where the second is, others were.
"""
import os
import pathlib
import re
import resource
import shutil
import subprocess
import sys
import tempfile
import time

TOP = pathlib.Path(__file__).resolve().parent.parent


def used():
    it = resource.getrusage(resource.RUSAGE_CHILDREN)
    return it.ru_utime + it.ru_stime


def seconds(words, folder, log):
    """The processor seconds of a command, and whether it ended well."""
    before = used()
    ended = subprocess.run(words, cwd=folder, stdin=subprocess.DEVNULL, stdout=log, stderr=subprocess.STDOUT, check=False)
    return used() - before, ended.returncode == 0


def below(pid):
    """A process and those below it, each with its processor seconds so far."""
    children, sums, found = {}, {}, {}
    for entry in filter(str.isdigit, os.listdir("/proc")):
        try:
            with open(f"/proc/{entry}/stat") as it:
                fields = it.read().rpartition(")")[2].split()
        except OSError:
            continue
        children.setdefault(int(fields[1]), []).append(int(entry))
        sums[int(entry)] = sum(map(int, fields[11:15])) / os.sysconf("SC_CLK_TCK")
    todo = [pid]
    while todo:
        it = todo.pop()
        found[it] = sums.get(it, 0)
        todo += children.get(it, [])
    return found


def prover(folder, log, is_test):
    """The prover's command for a check of a crate, without what says which functions, and where it keeps them."""
    child = subprocess.Popen(["rt", "check", *["--test"] * is_test, "--jobs", "1", "--only", ""], cwd=folder, stdin=subprocess.DEVNULL, stdout=log, stderr=subprocess.STDOUT)
    command = None
    while child.poll() is None:
        for it in below(child.pid):
            try:
                with open(f"/proc/{it}/cmdline") as file:
                    words = file.read().split("\0")[:-1]
            except OSError:
                continue
            if words and words[0].endswith("/rattle") and words[1:2] == ["check"] and "--only" in words:
                command = words
        time.sleep(0.02)
    if not command:
        sys.exit(f"the prover was not seen at work: {log.name} may say why")
    for flag in ("--only", "--incremental"):
        while flag in command:
            at = command.index(flag)
            del command[at : at + 2]
    return command


def times(command, folder, log):
    """The processor seconds until each function's proof ended, since the one before, as `--progress` tells them."""
    with tempfile.TemporaryDirectory() as room:
        child = subprocess.Popen([*command, "--incremental", room, "--progress"], cwd=folder, stdin=subprocess.DEVNULL, stdout=subprocess.PIPE, stderr=subprocess.STDOUT, text=True)
        last, each = 0, {}
        for line in child.stdout:
            log.write(line)
            found = re.match(r"checked (.+), \d+ of \d+$", line.strip())
            now = sum(below(child.pid).values())
            if found:
                each[found[1]] = now - last
                last = now
        return each, child.wait() == 0


def functions(folder, log, is_test):
    """The ten functions that a check from nothing takes longest over: their seconds within it, and alone."""
    command = prover(folder, log, is_test)

    def alone(name):
        with tempfile.TemporaryDirectory() as room:
            much, is_proved = seconds([*command, "--incremental", room, "--only", name], folder, log)
            return much if is_proved else float("nan")

    each, is_well = times(command, folder, log)
    dearest = sorted(each, key=lambda it: -each[it])
    least = alone(dearest[-1])
    return [(name, each[name], alone(name) - least) for name in dearest[:10]], is_well


def main():
    words = sys.argv[1:]
    names = [it for it in words if not it.startswith("-")]
    listed = re.findall(r"^(\w+)[^:\n]*:", (TOP / "crates.txt").read_text(), re.M)
    if not names or any(it in ("-h", "--help") for it in words):
        sys.exit(__doc__)
    unknown = [name for name in names if name not in listed]
    if unknown:
        sys.exit(f"crates.txt lists no {', '.join(unknown)}")
    failed = []
    print(f"{'crate':18} {'proof':>6} {'tests':>6} {'edits':>6}", flush=True)
    for name in names:
        folder = TOP / "crates" / name
        has_mutants = any((folder / "must-fail").glob("*.edit"))
        has_tests = any("#[test]" in it.read_text() for it in folder.glob("src/**/*.rt"))
        with open(f"/tmp/cost-{name}.log", "w") as log:
            _, was_well = seconds(["rt", "check", "--jobs", "1"], folder, log)
            shutil.rmtree(folder / "out", ignore_errors=True)
            proof, is_proved = seconds(["rt", "check", "--jobs", "1"], folder, log)
            tests, are_proved = seconds(["rt", "check", "--test", "--jobs", "1"], folder, log) if has_tests else (0, True)
            whole, are_refused = seconds(["rt", "must-fail", "--anew", name], TOP, log) if has_mutants else (0, True)
        print(f"{name:18} {proof:6.0f} " + " ".join(f"{it:6.0f}" if it else f"{'-':>6}" for it in (tests, whole)), flush=True)
        if "-f" in words:
            with open(f"/tmp/cost-{name}.log", "a") as log:
                for is_test in [False, True][: 1 + has_tests]:
                    listed_functions, is_done = functions(folder, log, is_test)
                    is_proved = is_proved and is_done
                    for what, within, alone in listed_functions:
                        print(f"    {what:60} {within:6.1f} {alone:6.1f}", flush=True)
        if not (was_well and is_proved and are_proved and are_refused):
            failed.append(name)
    if failed:
        sys.exit(f"not all ended well: /tmp/cost-NAME.log says more of {', '.join(failed)}")


if __name__ == "__main__":
    main()
