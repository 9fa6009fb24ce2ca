#!/usr/bin/env python3
"""Tries every wrong body of the crates, and says what tells each: a goal of the prover, or a test.

usage: tools/wrong_bodies.py [--resume] [--goals|--tests] [CRATE..]      (all crates where none is named, else those in this order; --goals: none
of those that a test tells; --tests: those alone, with no proof; status 1 where a body is told by nothing, or a crate isn't proved)
       tools/wrong_bodies.py --listed      (those that tools/docs/bodies.txt lists as told by a test, with no proof: the gate runs it. Those that
different tests of one crate tell are in one build, where they change different crates; by --tests each is seen to be told alone)

A wrong body is a file `crates/CRATE/must-fail/NAME.edit`, or `wrong-bodies/NAME.edit`: the gate tries the first, this script all. It
has a line `file: PATH`, then pairs of lines `old: TEXT` and `new: TEXT`; a line `# test: CRATE WORD` says that no clause can tell
it, and which test must fail with it, or which text of `transcripts`; `# an equal body of this form is accepted` that a right body of the same form was tried too, as
has to be done where the edit changes the form of a function whose proof is written by hand.

Each crate is checked first. Then those bodies that change different functions are put in together, over a copy of what that check kept,
so a crate takes one more check or a few. A refusal counts for the body whose function it names; one that names only what the edit took
away doesn't count. A body that is refused at no goal of its functions is tried alone. Of the goals that refuse a body one of the contract is
named; `side` stands behind it where there is none (but what a call requires, that a number fits, an index, a measure): see that a right
body of that form is accepted.

What was found of a crate is kept in its `out/wrong-bodies.txt`, with all that the prover said of each body's functions; with `--resume` a
body that was told is not tried again while the crate, those below it and the edit are what they were.
"""
import hashlib
import importlib.machinery
import importlib.util
import json
import pathlib
import re
import shutil
import subprocess
import sys
import tempfile
from concurrent.futures import ThreadPoolExecutor

TOP = pathlib.Path(__file__).resolve().parent.parent
GOAL = re.compile(r"error: `([^`]+)`|\(`([^`]+)`\)|did not prove `([^`]+)`|`([^`]+)` of proofs/")
CONTRACT = re.compile(r"^((\w+-)?returns|invariant_of|loop.*-(init|preserved)$|.*-(init|preserved)$)")
PLACE = re.compile(r"(?:note: )?(?:\./)?((?:src|proofs)/\S+?):(\d+):\d+:")
GONE = re.compile(r"has no field|is not in scope|has no `|was not admitted|was rejected, was not checked")
TESTED = re.compile(r"^# test: (\w+) (\S+)$", re.M)
TEST = re.compile(r"^#\[test\]\n(?:#\[.*\]\n)*fn (\w+)\(.*?\n\}$", re.M | re.S)


def edits_of(folder):
    """The wrong bodies of a crate, those that the gate tries first."""
    return [edit for name in ("must-fail", "wrong-bodies") for edit in sorted((folder / name).glob("*.edit"))]


def goal_of(line):
    goal = GOAL.search(line)
    return next(name for name in goal.groups() if name) if goal else "?"


def pairs_of(edit):
    """Each change of an edit: the file, the old text and the new one."""
    found, path, old = [], "", ""
    for line in edit.read_text().splitlines():
        if line.startswith("file: "):
            path = line[6:].strip()
        elif line.startswith("old: "):
            old = line[5:]
        elif line.startswith("new:"):
            found.append((path, old, line[4:].removeprefix(" ")))
    return found


def changed(folder, edit, texts):
    """The files of an edit as it leaves them, over those of earlier ones, with the functions that it changes; None where it can't be put in."""
    after, own = dict(texts), set()
    for path, old, new in pairs_of(edit):
        text = after.get(path) or (folder / path).read_text()
        if text.count(old) != 1:
            return None
        at = text.index(old)
        own.add((path, *function_at(text, at + len(old))))
        after[path] = text[:at] + new + text[at + len(old):]
    return after, own


def function_at(text, at):
    """The function around a place of a text, with its type if it has one."""
    before = text[:at]
    functions = re.findall(r"^( *)(?:[^/\n]*?)\bfn (\w+)", before, re.M)
    owners = re.findall(r"^(?:impl(?:<.*?>)? (?:.*? for )?|pub trait |trait )(\w+)", before, re.M)
    if not functions:
        return "", ""
    return (owners[-1] if functions[-1][0] and owners else ""), functions[-1][1]


def groups(folder, edits):
    """Parts the edits: those of a part change different functions, and can all be put in; one that changes what stands outside of
    functions, as a constant, has a part of its own. Each part: its edits with their functions, and the files that they make."""
    parts = []
    for edit in edits:
        for names, texts, functions in parts + [({}, {}, set())]:
            made = changed(folder, edit, texts)
            if made is None:
                continue
            after, own = made
            # (what stands outside of functions may make any of the file be refused)
            if own & functions or names and not all(name for _, _, name in own | functions):
                continue
            names[edit] = own
            texts.update(after)
            functions |= own
            if len(names) == 1:
                parts.append((names, texts, functions))
            break
    return parts


def is_of(function, place, line, texts, folder):
    """Whether a place in the source or the proofs is of this function."""
    path, owner, name = function
    if not name:
        return place == path or pathlib.Path(path).stem in place.split("/")
    if place.startswith("src/"):
        if place != path:
            return False
        lines = (texts.get(path) or (folder / path).read_text()).splitlines(keepends=True)
        while line < len(lines) and lines[line - 1].lstrip().startswith("#["):  # a function's place is that of its attributes
            line += 1
        return function_at("".join(lines), sum(map(len, lines[:line])))[1] == name
    folders = place.split("/")[1:-1]
    return bool(folders) and folders[-1] == name and (not owner or len(folders) < 2 or owner in folders or "Engine" in folders)


def refused(said, functions, texts, folder):
    """The goal of these functions that was refused, one of the contract if there is one, and all lines that say so; of any function, where
    none is named. None where there is no such goal."""
    lines = []
    for line in said.splitlines():
        place = PLACE.match(line)
        if place and (": error" in line or line.startswith("note: ")) and not GONE.search(line) and GOAL.search(line):
            if not functions or any(is_of(it, place[1], int(place[2]), texts, folder) for it in functions):
                lines.append(line)
    goals = [goal_of(line) for line in lines]
    return (next((goal for goal in goals if CONTRACT.match(goal)), goals[0]), lines) if goals else None


def toolchain():
    """The toolchain's own command as a module: it knows how a copy of a crate is checked."""
    loader = importlib.machinery.SourceFileLoader("rt", str(pathlib.Path(shutil.which("rt")).resolve()))
    rt = importlib.util.module_from_spec(importlib.util.spec_from_loader("rt", loader))
    loader.exec_module(rt)
    rt.rtlib.guarded()
    return rt


def only(functions, proved):
    """The words that have a check prove these functions alone, or the file of one that stands outside of functions."""
    words = []
    for path, owner, name in functions:
        module = "::".join(part for part in pathlib.Path(path).with_suffix("").parts[1:] if part != "lib")
        # (a method of a trait stands there under the type's name and the trait's in one word, in the type's file)
        owners = rf"(\w+::)*{owner}\w*" if owner else module
        found = [it for it in proved if it.rpartition("::")[2] == name and re.fullmatch(owners, it.rpartition("::")[0])] if name else [module]
        if not found or found == [""]:
            return []
        words += [word for it in found for word in ("--only", it)]
    return words


def by_prover(rt, crate, folder, edits):
    """For each of these bodies the goal that refuses it and the lines that say so, or None."""
    if not edits:
        return
    checked = subprocess.run(["rt", "check", "--jobs", "1"], cwd=folder, stdin=subprocess.DEVNULL, capture_output=True, text=True, check=False)
    if checked.returncode:
        raise NotProved
    proved = re.findall(rf"^fn {crate.name}::(\S+): proved", checked.stdout, re.M)
    with tempfile.TemporaryDirectory(prefix="wrong-bodies-") as room:
        if (folder / "out" / "incremental").is_dir():
            shutil.copytree(folder / "out" / "incremental", f"{room}/kept")
        for part, texts, all_functions in groups(folder, edits):
            said = rt.checked(crate, texts, ["--jobs", "1", *only(all_functions, proved)], f"{room}/kept").stdout
            for edit, functions in part.items():
                goal = refused(said, functions, texts, folder)
                if goal is None:
                    alone, _ = changed(folder, edit, {})
                    goal = refused(rt.checked(crate, alone, ["--jobs", "1"], f"{room}/kept").stdout, None, alone, folder)
                yield edit, goal


def by_tests(where, told):
    """Which of these edits are told, each by a test of this crate, or a row of a text, in one copy of the tree that has them all, without a
    proof: `told` has the edits by the tests' names. In the copy the crate has no other test."""
    if any(word.startswith("drawn_") for word in told):
        subprocess.run([TOP / "tools/rows/make.py"], stdout=subprocess.DEVNULL, check=True)
    with tempfile.TemporaryDirectory(prefix="wrong-bodies-") as room:
        crates = pathlib.Path(room, "crates")
        shutil.copytree(TOP / "crates", crates, ignore=shutil.ignore_patterns("out"))
        for name in ("crates.txt", "HANDLES"):
            shutil.copy(TOP / name, room)
        pathlib.Path(room, ".git").mkdir()
        for edit in told.values():
            folder = crates / edit.parents[1].name
            for path, text in changed(folder, edit, {})[0].items():
                (folder / path).write_text(text)
        asked = ["--test"]
        if where == "transcripts":
            asked = [it for word in told for it in ("--data", f"{word}={crates / where / 'data' / word}")]
        else:
            for path in (crates / where / "src").rglob("*.rt"):
                path.write_text(TEST.sub(lambda test: test[0] if any(word in test[1] for word in told) else f"fn {test[1]}() {{}}", path.read_text()))
        ran = subprocess.run(["rt", "try", "--steps", "1", "--seconds", "120", *asked], cwd=crates / where, stdin=subprocess.DEVNULL, capture_output=True, text=True, check=False)
        said = ran.stdout + ran.stderr
    fails = {word: re.search(rf"^{re.escape(word)}:\d+: due|^test \S*{re.escape(word)}\S* \.\.\. (?!ok)", said, re.M) for word in told}
    if not all(fails.values()):
        print(said[-2000:], file=sys.stderr)
    return {edit: (f"test {word} of {where}", []) if fails[word] else None for word, edit in told.items()}


def listed():
    """The edits that bodies.txt lists as told by a test, in builds: each the crate of the tests, and its edits by the tests' names. Edits of
    one crate aren't in one build, as one may hide the other."""
    builds = []
    for name, where, word in re.findall(r"^(\w+) \| .* \| test: (\w+) (\S+)$", (TOP / "tools/docs/bodies.txt").read_text(), re.M):
        for edit in sorted(TOP.glob(f"crates/*/wrong-bodies/{name}.edit")):
            if TESTED.search(edit.read_text()):
                changes = edit.parents[1]
                build = next((told for crate, told in builds if crate == where and word not in told and all(other.parents[1] != changes for other in told.values())), None)
                if build is None:
                    build = {}
                    builds.append((where, build))
                build[word] = edit
    return builds


def replay():
    """Tries the listed bodies, a few builds at once."""
    untold = 0
    with ThreadPoolExecutor(3) as pool:
        for found in pool.map(lambda build: by_tests(*build), listed()):
            for edit, told in found.items():
                untold += told is None
                print(f"{edit.parents[1].name}/{edit.stem}: {told[0] if told else 'TOLD BY NOTHING'}", flush=True)
    sys.exit(1 if untold else 0)


class NotProved(Exception):
    """A crate, or one below it, isn't proved."""


class Found:
    """What was found of a crate's bodies, each by the sum of all that it rests on: kept beside what the crate's proof keeps."""

    def __init__(self, crates, name):
        self.path, self.crates, self.name = TOP / f"crates/{name}/out/wrong-bodies.txt", crates, name
        self.told = json.loads(self.path.read_text()) if self.path.exists() else {}

    def sum_of(self, edit):
        tested = TESTED.search(edit.read_text())
        data = TOP / f"crates/{tested[1]}/data/{tested[2]}" if tested else None
        text = data.read_text() if data and data.exists() else ""
        stamp = self.crates[tested[1] if tested else self.name].stamp()
        return hashlib.sha256(repr((stamp, pairs_of(edit), tested and tested[0], text)).encode()).hexdigest()[:16]

    def of(self, edit):
        """What tells a body, by an earlier run over the same text; else None."""
        told = self.told.get(edit.stem)
        return told["by"] if told and told["sum"] == self.sum_of(edit) else None

    def keep(self, edit, told):
        """Keeps what was found, and returns what tells the body."""
        by, lines = told or (None, [])
        self.told[edit.stem] = {"by": by, "sum": self.sum_of(edit), "lines": lines}
        self.path.parent.mkdir(exist_ok=True)
        self.path.write_text(json.dumps(self.told, indent=1, ensure_ascii=False))
        return by


def look(rt, crates, name, words):
    """Each wrong body of a crate, with what tells it."""
    left, kept, folder = [], Found(crates, name), TOP / "crates" / name
    for edit in edits_of(folder):
        if "--resume" in words and (told := kept.of(edit)):
            yield edit, told
        elif changed(folder, edit, {}) is None:
            yield edit, "CAN'T BE PUT IN"
        else:
            left.append(edit)
    tested = {edit: said for edit in left if (said := TESTED.search(edit.read_text()))}
    for edit, told in by_prover(rt, crates[name], folder, [edit for edit in left if edit not in tested]) if "--tests" not in words else ():
        yield edit, kept.keep(edit, told)
    for edit, said in tested.items() if "--goals" not in words else ():
        yield edit, kept.keep(edit, by_tests(said[1], {said[2]: edit})[edit])


def main():
    if sys.argv[1:] == ["--listed"]:
        replay()
    words, untold, rt = sys.argv[1:], 0, toolchain()
    names = [word for word in words if word not in ("--resume", "--goals", "--tests")]
    crates = {crate.name: crate for crate in rt.rtlib.crates_below(str(TOP))}
    if any(name not in crates for name in names):
        sys.exit(__doc__)
    for name in names or crates:
        try:
            for edit, told in look(rt, crates, name, words):
                untold += told is None or told.startswith("CAN'T")
                side = "" if told is None or told.startswith(("test ", "CAN'T")) or CONTRACT.match(told) else "  side"
                print(f"{name}/{edit.stem}: {told or 'TOLD BY NOTHING'}{side}", flush=True)
        except NotProved:
            untold += 1
            print(f"{name}: IT, OR A CRATE BELOW IT, ISN'T PROVED", flush=True)
    sys.exit(1 if untold else 0)


if __name__ == "__main__":
    main()
