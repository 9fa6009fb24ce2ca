#!/usr/bin/env python3
"""Compares the tests that `rt ci` ran with those that the tree has, so that none can vanish.

usage: tools/ran.py LOG      (what `rt ci` printed; status 1 where a crate's tests ran in another number)
"""
import pathlib
import re
import sys

TOP = pathlib.Path(__file__).resolve().parent.parent


def there():
    """How many tests each crate of crates.txt has."""
    names = [line.split(":")[0].split()[0] for line in (TOP / "crates.txt").read_text().splitlines() if line and not line.startswith("#")]
    counts = {name: sum(path.read_text().count("#[test]") for path in (TOP / "crates" / name / "src").rglob("*.rt")) for name in names}
    return {name: count for name, count in counts.items() if count}


def ran(log):
    """How many tests of each crate passed: the lines of a crate's tests stand before the one that says how they ended."""
    counts, passed = {}, set()
    for line in log.splitlines():
        if test := re.match(r"test (\S+) \.\.\. ok", line):
            passed.add(test[1])
        elif ended := re.match(r"rt: (\w+): its tests passed", line):
            counts[ended[1]], passed = len(passed), set()
    return counts


def main():
    if len(sys.argv) != 2 or sys.argv[1].startswith("-"):
        sys.exit(__doc__)
    found, wanted = ran(pathlib.Path(sys.argv[1]).read_text(errors="replace")), there()
    for name in sorted(wanted.keys() | found.keys()):
        if wanted.get(name, 0) != found.get(name, 0):
            print(f"{name}: {wanted.get(name, 0)} tests are there, {found.get(name, 0)} ran and passed")
    print(f"{sum(found.values())} of {sum(wanted.values())} tests ran")
    sys.exit(0 if found == wanted else 1)


if __name__ == "__main__":
    main()
