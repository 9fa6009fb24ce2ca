#!/usr/bin/env python3
"""Weakens what the tree says, in one place at a time, and sees that the documents' check tells each: on a copy, of texts alone.

usage: tools/docs/weakenings.py [--few] [--list]

By rule, with a fixed seed, from the tree as it stands: clauses, conjuncts, cases and fields are dropped or emptied, premises added, `<`
becomes `≤`, numbers grow, names are imported as others, constants and re-exports change; of public and private statements of all crates.
Or a statement is left to these scripts and hidden from the prover, by what it reads otherwise. At most one place of a crate is weakened at once. Each must change a sum of the crate in docs/promises/contracts.md (of a public one the first),
and `promises.py since` must print the words that went and those that came, under the crate's name. What says the same (a comment, a
body, an attribute, an import that no statement uses) must change nothing there. Last `./gate` of the copy must end at a weakening. `--few` takes one place of each crate; `--list` prints each.
"""
import collections
import contextlib
import dataclasses
import difflib
import io
import itertools
import pathlib
import random
import re
import shutil
import subprocess
import sys
import tempfile

import promises
import sums
from check import tracked
from statements import CLAUSE_HEAD, NAME, TOP, Code, blanked, sources

OF_A_KIND = 4  # weakenings of each kind at most, public and private ones apart
LEAST, LEAST_KINDS = 150, 35
CLAUSE = re.compile(r"[ \t]*\b(requires|ensures)(\*?)(?:[ \t]+(\w+))?\s*\{")
FUNCTION = re.compile(r"^(?: {4})?(?:pub(?:\(crate\))? )?(?:const |unsafe |extern\s+)*fn (\w+)", re.M)
ITEM = re.compile(r"^(?:pub(?:\(crate\))? )?(?:unsafe )?(?P<title>(?P<kind>struct|enum|trait|impl|const)\b[^{;=\n]*)", re.M)
DEFINITION = re.compile(r"^[ ]*(?:abbrev|unfoldable|pub record|pub data)\b.*(?:\n(?![ ]*(?:abbrev|unfoldable|pub record|pub data)\b).+)*", re.M)
IMPORTS = re.compile(r"^[ \t]*(?:ghost )?use ([\w.\-]+)\.\{([^}]*)\};?$", re.M)
RE_EXPORT = re.compile(r"^pub use [\w.:]+?(?P<sign>\.|::)", re.M)


@dataclasses.dataclass
class Place:
    """A statement, found by other means than the check's own, so that one that the check passes over is found too."""
    title: str
    span: tuple


@dataclasses.dataclass
class Weakening:
    """A place in a file that says less, or something else, than before."""
    crate: str
    path: str
    kind: str
    is_public: object  # None: that of whoever uses the name
    start: int
    end: int
    instead: str
    names: tuple = ()  # of an import: what must be printed as gone and as come
    other: object = None  # a place that changes with it

    def applied(self, text):
        return text[:self.start] + self.instead + text[self.end:]

    @property
    def edits(self):
        return [self, *filter(None, [self.other])]


def at_top(clear, start, end, sign):
    """Where a sign stands outside of all brackets."""
    depth = 0
    for match in re.finditer(rf"[()\[\]{{}}]|{re.escape(sign)}", clear[start:end]):
        if match[0] in "([{":
            depth += 1
        elif match[0] in ")]}":
            depth -= 1
        elif depth == 0:
            yield start + match.start()


def of_statement(clear, start, end):
    """How the text of a statement between two places is weakened: the kind, the place, and what stands there instead."""
    if signs := [*at_top(clear, start, end, " × ")]:
        yield "conjunct dropped", signs[-1], len(clear[:end].rstrip()), ""
    for sign, other in ((" < ", " ≤ "), (" && ", " || "), (" ≡ ", " ≢ "), ("IfOk ", "IfSome ")):
        if (at := clear.find(sign, start, end)) >= 0:
            yield f"{sign.strip()} is {other.strip()}", at, at + len(sign), other
    if match := re.compile(r"(?<![\w.^])\d+(?![\w.])").search(clear, start, end):
        yield "number grows", match.start(), match.end(), str(int(match[0]) + 1)


def of_function(found, clear):
    """How a function's contract is weakened: of its clauses, each with the places where its text begins and ends."""
    for match, inner, close in found:
        if match[1] == "ensures":
            yield "clause dropped", match.start(), close + 1, ""
            yield "clause emptied", inner, close, " Unit {0} "
            yield "premise added", inner, inner, " ⊥ →"
            yield from ((f"clause: {kind}", *place) for kind, *place in of_statement(clear, inner, close))
    if found:
        yield "requires added", found[0][0].start(), found[0][0].start(), "        requires nothing { ⊥ }\n"


def of_members(place, clear):
    """How the ghost members and fields of a type, a trait or an impl are weakened."""
    start, end = place.span
    for match in re.finditer(r"^[ \t]*(?:pub )?ghost (\w+)( =|:) \{", clear[start:end], re.M):
        inner = start + match.end()
        close = sums.closing(clear, inner - 1) - 1
        stop = re.compile(r"[;,]").search(clear, close).end()
        head = clear[inner:close].partition(".")[0] + ". " if clear[inner:close].lstrip().startswith("λ") else " "
        if match[1] == "invariant":
            yield "invariant emptied", inner, close, " λ _. Unit {0} "
            yield from ((f"invariant: {kind}", *place) for kind, *place in of_statement(clear, inner + len(head), close))
        elif match[1] in ("Value", "view"):
            yield f"{match[1]} changed", inner, close, " List ℕ " if match[1] == "Value" else " λ _. [] "
        elif match[2] == ":" and place.title.startswith("struct"):
            yield "ghost field dropped", start + match.start(), stop, ""
            yield from ((f"ghost field: {kind}", *place) for kind, *place in of_statement(clear, inner, close))
        elif match[2] == ":":
            yield "member of a trait dropped", start + match.start(), stop, ""
        else:
            yield "ghost member emptied", inner, close, " λ _ _ _. Unit {0} "
            yield from ((f"ghost member: {kind}", *place) for kind, *place in of_statement(clear, inner, close))
    if re.match(r"(?:struct|enum) ", place.title) and (fields := [*re.finditer(r"^    (?!ghost)\w[^\n{]*,[ \t]*$", clear[start:end], re.M)]):
        yield f"{place.title.split()[0]}'s part dropped", start + fields[-1].start(), start + fields[-1].end(), ""
    if place.title.startswith("const "):
        yield from (("constant changed", *place) for kind, *place in of_statement(clear, clear.find("=", start, end), end) if kind == "number grows")


def of_definition(place, clear):
    """How a definition is weakened."""
    start, end = place.span
    lines = [(match.start(), match.end()) for match in re.finditer(r"^.*$", clear[start:end], re.M) if match[0].strip()]
    if (kind := re.match(r"[ ]*pub (record|data)", clear[start:end])):
        if len(lines) > 1:
            at, stop = lines[-1]
            yield f"{kind[1]}'s part dropped", start + at, start + stop + 1, ""
    elif len(lines) > 1 and re.match(rf"[ ]*{re.escape(place.title)}\b", clear[start + lines[-1][0]:]):
        at, stop = (start + place for place in lines[-1])
        sign = clear.find(" = ", at, stop) + 3
        if re.match(r"(?:Is|Are|Has|All)[A-Z]", place.title) and sign > 2:
            yield "definition emptied", sign, stop, "Unit {0}"
    body = start + lines[0][1]
    yield from ((f"definition: {kind}", *place) for kind, *place in of_statement(clear, body, end))


def of_hiding(text, start, end, title=None):
    """How a statement is hidden from the prover and left to these scripts: a clause (or a function) of code, or a definition of this title."""
    said = text[start:end]
    if title is None:
        yield "hidden by comments that nest", start, end, f"/* /* */\n{said}\n// */"
        yield "hidden in a raw string", start, start, 'const OTHER: &str = r"\\";\n'
        yield "hidden from all but tests", start, start, "#[cfg(test)]\n"
    else:
        yield "hidden by a comment of many lines", start, end, f"{{-\n{said}\n-}}"
        yield "hidden by another name", start, end, re.sub(rf"(?<!\S){re.escape(title)}(?!\S)", f"{title}--other", said)
        yield "hidden by a name in quotes", start, end, re.sub(rf"(?<!\S){re.escape(title)}(?!\S)", f"«{title}»", said)
    yield "hidden by a sign that isn't shown", start, start, "-- \f" if title else "// \r"


def of_imports(text, said):
    """How what names mean is changed, where a statement uses them: each as another one of its place."""
    words, twice = {*NAME.findall(said)}, collections.Counter(name.strip() for line in IMPORTS.finditer(text) for name in line[2].split(","))
    for line in IMPORTS.finditer(text):
        names = [name.strip() for name in line[2].split(",")]
        for name in names:
            is_used = name in words if NAME.fullmatch(name) else "◌" in name and all(f" {sign} " in said for sign in name.split("◌") if sign)
            if " as " in name or not is_used or twice[name] > 1:
                continue
            like = [other for other in names if other != name and " as " not in other and other.startswith("◌") == name.startswith("◌") and other[0].isupper() == name[0].isupper()]
            other = {"IsPrefix": "IsInfix"}.get(name) or next((other for other in like if bool(NAME.fullmatch(other)) == bool(NAME.fullmatch(name))), f"{name}'" if NAME.fullmatch(name) else None)
            if other is None:
                continue
            at = line.start(2) + re.search(rf"(?<![^\s,]){re.escape(name)}(?![^\s,])", line[2]).start()
            kind = "of the tree" if line[1].startswith("Rattle.") and ".std." not in line[1] else "of the library" if line[1].startswith("Rattle.") else "of another library"
            yield f"import {kind}", at, at + len(name), f"{other} as {name}", (f"(names) {name}: {line[1]}.{name}", f"(names) {name}: {line[1]}.{other}")


def clauses_from(clear, start):
    """The clauses of the function that begins here."""
    found, at = [], start
    while match := CLAUSE.search(clear, at):
        if re.search(r"[{}]|;(?![^\[]*\])", clear[at:match.start()]):
            break
        at = sums.closing(clear, match.end() - 1)
        found.append((match, match.end(), at - 1))
    return found


def of_code(text, shown):
    """How a file of code is weakened; of these names all is shown to others."""
    clear, said = blanked(text), ""
    for match in FUNCTION.finditer(clear):
        clauses = clauses_from(clear, match.end())
        said += "".join(f" {text[inner:close]} " for _, inner, close in clauses)
        yield from ((*found, ()) for found in of_function(clauses, clear))
        yield from ((*found, ()) for found in (of_hiding(text, clauses[-1][0].start(), clauses[-1][2] + 1) if clauses else ()))
    for match in ITEM.finditer(clear):
        stop = re.compile(r"[{;]").search(clear, match.end()).start()
        place = Place(match["title"].strip(), (match.start(), sums.closing(clear, stop) if clear[stop] == "{" else stop + 1))
        if match["kind"] not in ("struct", "enum") or re.match(r"\w+ (\w+)", place.title)[1] in shown or "ghost" in clear[slice(*place.span)]:
            yield from ((*found, ()) for found in of_members(place, clear))
    for match in re.finditer(r"^[ \t]*(?:pub )?ghost \w+(?: =|:) \{", clear, re.M):
        said += f" {text[match.end():sums.closing(clear, match.end() - 1) - 1]} "
    for match in re.finditer(r"^impl\b(?!.* for )(.*) \{$", clear, re.M):
        if CLAUSE.search(clear, match.end(), sums.closing(clear, match.end() - 1)):
            yield "head of a block changed", match.end(1), match.end(1), " where Self: Other", ()
    for match in re.finditer(r"^(?:pub(?:\([^)]*\))? )?type \w+[^;=]*= ", clear, re.M):
        yield "alias changed", match.end(), match.end(), "other::", ()
    yield from of_imports(text, said)
    yield from of_re_exports(text)


def of_definitions(text):
    """How a file of definitions is weakened."""
    clear = sums.SAID.sub(lambda match: match[1] or " " * len(match[0]), text)  # of the same length
    for match in DEFINITION.finditer(clear):
        title = re.match(r"[ ]*(?:\w+ )*?(?:abbrev pub|unfoldable pub|pub record|pub data) ([^\s:({]+)", match[0])
        if title:
            yield from ((*found, ()) for found in of_definition(Place(title[1], match.span()), clear))
            yield from ((*found, ()) for found in of_hiding(text, *match.span(), title[1]))
    yield from of_imports(text, IMPORTS.sub("", clear))
    yield from of_re_exports(text)


def of_re_exports(text):
    for match in RE_EXPORT.finditer(text):
        yield "re-export changed", match.end(), match.end(), f"other{match['sign']}", ()


def all_weakenings(top):
    """Every weakening that a rule finds."""
    for crate in sums.crates_of(top):
        root = next(top / f"crates/{crate}/src/{name}.rt" for name in ("lib", "main") if (top / f"crates/{crate}/src/{name}.rt").exists())
        parts = sums.parts_of(top, crate)
        for path in [*sorted(top.glob(f"crates/{crate}/specs/**/*.antt")), *sources(top / "crates" / crate)]:
            text, name = path.read_text(), str(path.relative_to(top))
            here = [part for part in parts if part.path == name]
            for kind, start, end, instead, names in of_definitions(text) if path.suffix == ".antt" else of_code(text, Code.exported(root)[0]):
                part = next((part for part in here if part.span[0] <= start < part.span[1]), None) if not names else None
                if text[start:end] != instead:
                    yield Weakening(crate, name, kind, part.is_public if part else None, start, end, instead, names)
        yield from exchanged(top, crate, parts)


def exchanged(top, crate, parts):
    """Parts of one name in two files, each in the other's place."""
    for one, other in itertools.combinations([part for part in parts if not part.title.startswith("what ")], 2):
        if (one.title, one.is_public, one.path[-3:]) == (other.title, other.is_public, other.path[-3:]) and one.path != other.path and one.lines != other.lines:
            texts = [(top / part.path).read_text()[slice(*part.span)] for part in (one, other)]
            yield Weakening(crate, one.path, "exchanged between files", one.is_public, *one.span, texts[1], (), Weakening(crate, other.path, "", None, *other.span, texts[0]))


def chosen(found, draw):
    """Some of each kind, public and private ones apart, of as many crates as there are."""
    kinds, taken, busy = collections.defaultdict(list), [], collections.Counter()
    for weakening in found:
        kinds[weakening.kind, weakening.is_public].append(weakening)
    for key in sorted(kinds, key=str):
        draw.shuffle(kinds[key])
        here = collections.Counter()
        for _ in range(min(OF_A_KIND, len(kinds[key]))):
            weakening = min(kinds[key], key=lambda one: (here[one.crate], busy[one.crate]))
            kinds[key].remove(weakening)
            here[weakening.crate] += 1
            busy[weakening.crate] += 1
            taken.append(weakening)
    draw.shuffle(taken)
    return taken


def batches(weakenings):
    """Groups in which each crate is weakened once at most."""
    left = [*weakenings]
    while left:
        batch, crates = [], set()
        for weakening in left:
            if weakening.crate not in crates:
                crates.add(weakening.crate)
                batch.append(weakening)
        left = [weakening for weakening in left if weakening not in batch]
        yield batch


def words_of(text, path):
    """The lines of a text as they are compared: without comments, however far to the right."""
    said = (sums.SAID if path.endswith(".antt") else sums.TOLD).sub(lambda match: match[1] or "", text)
    return [line.strip() for line in sums.PROOF.sub("}", said).splitlines() if line.strip()]


def copied(folder):
    """Copies the tree."""
    for name in tracked():
        (folder / name).parent.mkdir(parents=True, exist_ok=True)
        shutil.copy(TOP / name, folder / name)
    for words in (["init", "-q"], ["add", "-A"], ["-c", "user.name=copy", "-c", "user.email=copy", "commit", "-q", "-m", "As it is"]):
        subprocess.run(["git", "-C", folder, *words], check=True, capture_output=True)


def printed(call, *words):
    """What a call returns, and all that it prints."""
    with contextlib.redirect_stdout(io.StringIO()) as out:
        returned = call(*words)
    return returned, out.getvalue()


def looked_at(batch):
    """What the check and `since` say where each of these is put in."""
    edits = [edit for one in batch for edit in one.edits]
    kept = {edit.path: (TOP / edit.path).read_text() for edit in edits}
    for edit in edits:
        (TOP / edit.path).write_text(edit.applied(kept[edit.path]))
    try:
        promises.made.cache_clear()
        return kept, printed(lambda: promises.told(promises.made())), printed(promises.since, "HEAD")[1]
    finally:
        for path, text in kept.items():
            (TOP / path).write_text(text)


def sums_told(told):
    """Of each crate whether a public sum of it differs by a check's diff, and whether another one does."""
    found = collections.defaultdict(dict)
    for sign, crate, name, public, private in re.findall(r"^([-+])- \*\*(\w+)\*\* `(\S+)` ([0-9a-f]+|-) ([0-9a-f]+|-)", told, re.M):
        found[crate].setdefault(name, {"-": ("-", "-"), "+": ("-", "-")})[sign] = (public, private)
    return {crate: {is_public for both in lines.values() for is_public, old, new in zip((True, False), both["-"], both["+"], strict=True) if old != new} for crate, lines in found.items()}


def said_of(told):
    """What `since` prints, by crate: for each part whether it is public, and the words that went and came."""
    found = collections.defaultdict(list)
    for block in told.split("\n\n"):
        if head := re.match(r"(\w+), (public|private): ", block):
            lines = block.splitlines()[1:]
            found[head[1]].append((head[2] == "public", *([line[4:].strip() for line in lines if line[2:3] == sign] for sign in "-+")))
    return found


def fault_of(one, old, check, found, said):
    """How a weakening wasn't told, or None; and whether it is of something public."""
    if one.kind.startswith("hidden"):
        return None if f"{one.path}: the prover reads " in check else "unseen by the check", one.is_public
    if not found.get(one.crate):
        return "unseen by the check", one.is_public
    if one.names:
        gone, come = ([name] for name in one.names)
    elif one.kind == "re-export changed":
        gone, come = [], []
    else:
        diff = [*difflib.ndiff(words_of(old, one.path), words_of(one.applied(old), one.path))]
        gone, come = ([line[2:] for line in diff if line.startswith(sign)] for sign in "-+")
    if one.kind == "head of a block changed":
        gone, come = ([line.removesuffix(" {") for line in lines] for lines in (gone, come))
    for is_public, went, came in said.get(one.crate, []):
        is_printed = went and came if one.kind == "re-export changed" else all(line in went for line in gone) and all(line in came or line in ("", "}", ";") for line in come)
        if one.is_public in (None, is_public) and is_printed:
            return None if is_public in found[one.crate] else "the sum of what is public stays", is_public
    return "its words aren't printed", one.is_public


def same(top, draw):
    """Edits that say the same, one of a crate at most: a comment, a body, an attribute, an import that no statement uses."""
    for crate in sums.crates_of(top):
        code = sources(top / "crates" / crate)
        specs = sorted(top.glob(f"crates/{crate}/specs/**/*.antt"))
        rule = draw.choice(["comment", "body", "attribute", "import", "definition's comment"])
        path = draw.choice(specs if rule == "definition's comment" and specs else code)
        text = path.read_text()
        if path.suffix == ".antt":
            edit = (0, 0, "-- Another comment.\n")
        elif rule == "import":
            edit = (match.start(), match.start(), "use std::nobody::NobodyUsesThis;\n") if (match := re.search(r"^use ", text, re.M)) else None
        elif rule == "attribute":
            edit = (match.start(), match.start(), "#[inline(never)]\n") if (match := re.search(r"^(?:pub )?fn ", text, re.M)) else None
        elif rule == "body":
            edit = (match.end(), match.end(), "    let other = 7;\n") if (match := re.search(r"^(?:pub )?fn \w+\([^{}]*\{\n", text, re.M)) and not CLAUSE_HEAD.search(match[0][:-2]) else None
        else:
            edit = (match.start(), match.start(), "    // Another comment.\n") if (match := re.search(r"^    \w", text, re.M)) else None
        if edit:
            yield Weakening(crate, str(path.relative_to(top)), f"same: {rule}", True, *edit)


def gate_fault(one):
    """What is wrong where the gate of this copy doesn't end at a weakening, which `check.py` has told."""
    (TOP / one.path).write_text(one.applied((TOP / one.path).read_text()))
    (TOP / "tools/docs/weakenings.py").write_text("#!/bin/sh\nkill $PPID\n")  # (what the gate calls next, where the check told nothing)
    gate = subprocess.run([TOP / "gate", "--quick"], capture_output=True, text=True, check=False)
    if gate.returncode != 1 or one.crate not in sums_told(gate.stdout) or not gate.stdout.endswith("\n0 passed, 1 failed\n"):
        yield f"./gate doesn't end at the check of documents where a statement of {one.crate} is weakened: its call is gone, or what it does"


def try_all(words):
    """Puts each weakening in, where this is the copy. Returns how many faults there are."""
    is_bad, told = printed(lambda: promises.told(promises.made()))
    if is_bad:
        sys.exit(f"{told}The tree doesn't agree with docs/promises as it is.")
    draw = random.Random(97)
    groups = [*batches(chosen(all_weakenings(TOP), draw))]
    if "--few" in words:
        groups = groups[:1]
    bad, kinds = 0, collections.Counter()
    for group in groups:
        kept, (is_told, check), since = looked_at(group)
        found, said = sums_told(check if is_told else ""), said_of(since)
        for one in group:
            fault, is_public = fault_of(one, kept[one.path], check if is_told else "", found, said)
            kinds[one.kind, is_public] += 1
            bad += fault is not None
            if fault or "--list" in words:
                line = kept[one.path].count("\n", 0, one.start) + 1
                print(f"{'FAULT: ' + fault if fault else 'told'}: {one.crate}, {'public' if is_public else 'private'}, {one.kind}, {one.path}:{line}", flush=True)
    controls = [*same(TOP, draw)]
    _, (_, check), since = looked_at(controls)
    for crate in sorted({*sums_told(check), *said_of(since)}):
        bad += 1
        print(f"FAULT: what says the same is told as a change: {next(one for one in controls if one.crate == crate)}")
    for fault in gate_fault(next(one for one in groups[0] if not one.kind.startswith("hidden"))):
        bad += 1
        print(f"FAULT: {fault}")
    count, public = sum(kinds.values()), sum(number for (_, is_public), number in kinds.items() if is_public)
    if "--few" not in words and (count < LEAST or len({kind for kind, _ in kinds}) < LEAST_KINDS):
        bad += 1
        print("FAULT: too few")
    crates = len({one.crate for group in groups for one in group})
    print(f"weakenings: {count} in {len(groups)} groups of {len({kind for kind, _ in kinds})} kinds in {crates} crates ({public} public, {count - public} private), {len(controls)} edits that say the same: {bad} faults")
    return bad


def main():
    words = sys.argv[1:]
    if {*words} - {"--few", "--list", "--here"}:
        sys.exit(__doc__)
    if "--here" in words:  # (in the copy: it is what this script's modules read)
        sys.exit(1 if try_all(words) else 0)
    with tempfile.TemporaryDirectory() as folder:
        copied(pathlib.Path(folder))
        sys.exit(subprocess.run([pathlib.Path(folder) / "tools/docs/weakenings.py", *words, "--here"], check=False).returncode)


if __name__ == "__main__":
    main()
