#!/usr/bin/env python3
"""Narrows each law that has a page, and sees that a use of it in `promise_uses` is then refused: a use that isn't is hollow there.

usage: tools/narrowings.py [--few] [--gate] [--list] [--clauses] [WORD..]      (--few: one narrowing of each law; --gate: of one law of each
crate, in the least time; --list: prints them and tries none; --clauses: none of definitions; WORD: only laws whose name has it; status 1 where
a use isn't proved as a law stands, or no use tells a narrowing: one of which the check says nothing tells nothing). All of them before a release.

In a copy of `promise_uses` each law stands again as a function of that crate, with the words of its own contract, and its uses call that one.
As it stands there all uses must be proved. Then it is narrowed by rule, from the text as it is: what a clause says is said only where a
number is 0 (of a tenant 7 or 9 too, of a job 3 or 5), where a list is short, where a customer is named or is a guest, where a grain is 0; or not
at all; or without one of its parts. What says less says `Unit` at other values, so a use at these values alone is still proved: 7 alone must be refused by a
use of 9. So is each field of a definition that a clause comes to, or that such a one comes to: it stands again in the copy, with all between
it and the clause, for the proofs of the uses too. A use whose own clauses cite it isn't proved then, and can't tell.
That a law's premises are met at all an instance shows, which the check of documents asks for (tools/docs/premises.py).
Each law is narrowed once in a round of `rt check --only`, over what the check of `promise_uses` kept; a round takes half a minute or more.
"""
import collections
import dataclasses
import pathlib
import re
import shutil
import subprocess
import sys
import tempfile

import wrong_bodies

TOP = pathlib.Path(__file__).resolve().parent.parent
sys.path.insert(0, str(TOP / "tools/docs"))

import statements  # noqa: E402
import uses  # noqa: E402
from premises import BOUND, closing, conclusion, top_level  # noqa: E402

USES = TOP / "crates/promise_uses"
NUMBERS = {"number": (7, 9, 0), "tenant": (7, 9, 0), "job": (3, 5, 0), "depth": (3, 0)}  # of which the uses speak; of others 0
DEPTH = 2
SAYS = re.compile(r"[≡≢≤<×⊎→⊥]|\b(?:Is|Are|Has|Have|Says|Saw|Took|Shows|Holds|Leads)[A-Z ]")
NUMERIC = re.compile(r"ℕ|u8|u16|u32|u64|usize")
SPECS = """-- Meaning: what is said only at some values.
use Rattle.std.specs.Prelude.{ℕ, Bool, true, false, List, [], ◌∷◌}
use Rattle.site_book.specs.declared.who.Who.{Who}
use Rattle.site_book.specs.declared.who.Who.TheVariants.{Named}
use Rattle.site_book.specs.declared.held.Group.{Group}
use Rattle.site_book.specs.declared.held.Group.TheVariants.{Guests}

-- said where this is true
abbrev pub where_true : Bool → Type 0 → Type 0
where_true true T = T
where_true false T = Unit {0}

-- said of a list of at most so many
abbrev pub where_short : {X : Type 0} → ℕ → List X → Type 0 → Type 0
where_short most [] T = T
where_short 0 (one ∷ others) T = Unit {0}
where_short (suc most) (one ∷ others) T = where_short most others T

-- said of customers that are named, and of guests
abbrev pub where_named : Who → Type 0 → Type 0
where_named (Named number) T = T
where_named _ T = Unit {0}

abbrev pub where_guest : Who → Type 0 → Type 0
where_guest (Named number) T = Unit {0}
where_guest _ T = T

-- said of all guests together, and of all other groups
abbrev pub where_guests : Group → Type 0 → Type 0
where_guests Guests T = T
where_guests _ T = Unit {0}

abbrev pub where_no_guests : Group → Type 0 → Type 0
where_no_guests Guests T = Unit {0}
where_no_guests _ T = T
"""


@dataclasses.dataclass
class Narrowing:
    """A law with one clause that says less, or with one definition that does."""
    law: str
    said: str  # in words
    clauses: dict  # by place: the clause's text instead
    target: tuple = ()  # the definition's key
    lines: list = None  # the definition's lines instead


def values_of(name, kind):
    """The ways in which what is said of a variable is narrowed: in words, and what stands before what is said then."""
    kind = kind.strip()
    if NUMERIC.fullmatch(kind):
        yield from ((f"only where {name} is {number}", f"where_true ({name} == {number})") for number in NUMBERS.get(name, (0,)))
    elif kind.startswith(("List ", "&[")):
        yield f"only where {name} has at most 7", f"where_short 7 {name if kind.startswith('List ') else f'{name}.now'}"
    elif kind == "Who":
        yield from ((f"only where {name} is {what}", f"where_{word} {name}") for what, word in (("named", "named"), ("a guest", "guest")))
    elif kind == "Group":
        yield from ((f"only where {name} {what}", f"where_{word} {name}") for what, word in (("is all guests", "guests"), ("isn't all guests", "no_guests")))
    elif kind == "Jamboree":
        yield f"only where {name}'s grain is 0", f"where_true ({name}.grain == 0)"
    elif kind == "DeskLedger":
        yield "only where the hall's grain is 0", f"where_true ({name}.begun.grain == 0)"
    elif kind.startswith("&Hall"):
        yield f"only where {name}'s grain is 0", f"where_true ({name}.now.grain == 0)"


def narrowed(text, variables):
    """A statement narrowed in each way: in words, and its text then."""
    start, end = conclusion(text)
    said = text[start:end]
    bound = [(name, match[2]) for match in BOUND.finditer(text[:start]) for name in match[1].split()]
    yield "not at all", f"{text[:start]}Unit {{0}}{text[end:]}"
    parts = [-2, *top_level(said, "×"), len(said)]
    for at, (one, other) in enumerate(zip(parts, parts[1:], strict=False)):
        part = said[one + 2:other]
        if len(parts) > 2 and not (BOUND.match(part.strip()) or part.strip().startswith("let ")):
            yield f"without its part {at + 1}", f"{text[:start]}{said[:one + 2] if one >= 0 else ''}Unit {{0}} {said[other:]}{text[end:]}"
    for name, kind in [*bound, *variables]:
        yield from ((words, f"{text[:start]}{before} ({said}){text[end:]}") for words, before in values_of(name, kind))


def parameters(signature):
    """The parameters of a signature, with their types; without a receiver."""
    start = re.search(r"fn \w+(?:<[^(]*>)?\(", signature).end()
    inner = signature[start:closing(signature, start - 1)]
    commas = [-1, *top_level(inner.replace("<", "(").replace(">", ")"), ","), len(inner)]
    found = [inner[one + 1:other].strip().partition(": ") for one, other in zip(commas, commas[1:], strict=False)]
    return [(name.removeprefix("mut "), kind) for name, _, kind in found if kind]


class Law:
    """A law with a page: its call, and how it stands again in the copy."""

    def __init__(self, code, title):
        crate, _, name = title.partition("::")
        self.title, self.crate, self.code, self.call = title, crate, code, code.calls[crate, name]
        self.uses = sorted({use for (call, _), found in uses.uses_by_clause().items() if call == title for use in found})
        self.module = "narrowed_" + re.sub(r"\W+", "_", title).lower()
        self.text = (TOP / self.call.path).read_text()
        self.variables = parameters("\n".join(self.call.signature)) + [("L", "DeskLedger")] * ("L: DeskLedger" in "\n".join(self.call.signature) + self.impl())

    def impl(self):
        """The type parameters of the block that the call stands in."""
        if not self.call.owner:
            return ""
        before = self.text[:self.text.index("\n".join(self.call.signature).strip())]
        return re.findall(rf"^impl(?:<(.*?)>)? {self.call.owner}\b", before, re.M)[-1]

    def path(self):
        """The call's path in Rust, as its uses import it."""
        for path in sorted(USES.glob("src/*.rt")):
            for match in re.finditer(r"^use ([\w:]+?)::(?:\{([^}]*)\}|(\w+));", path.read_text(), re.M):
                if match[1].split("::")[0] == self.crate and self.call.name in re.findall(r"\w+", match[2] or match[3]):
                    return f"{match[1]}::{self.call.name}"
        return f"{self.crate}::{self.call.name}"

    def receiver(self):
        return self.call.owner.lower() if self.call.owner else ""

    def imports_of_types(self, signature):
        """The `use` lines of the types that a signature names."""
        found = {}
        for match in re.finditer(r"^use ([\w:]+?)::(?:\{([^}]*)\}|(\w+));", self.text, re.M):
            for part in re.split(r",\s*", (match[2] or match[3]).strip().rstrip(",")):
                there, _, here = part.partition(" as ")
                found[(here or there).strip()] = f"{self.crate if match[1].startswith('crate') else match[1]}::{there}{' as ' + here if here else ''}"
        for name in re.findall(r"^pub (?:struct|enum|trait|type) (\w+)", self.text, re.M):
            found[name] = f"{self.crate}::{name}"
        return "".join(f"use {found[name]};\n" for name in sorted(set(re.findall(r"\b[A-Z]\w+", signature))) if name in found)

    def again(self, narrowing, shadows):
        """The module of the copy in which the law stands, narrowed; of these definitions it means those of the copy."""
        signature, clauses = "\n".join(line.strip() for line in self.call.signature), ""
        if self.call.owner:
            head = re.search(rf"^impl(?:<.*?>)? ({self.call.owner}(?:<[^{{]*>)?)", self.text[:self.text.index("\n".join(self.call.signature).strip())], re.M)[1].strip()
            signature = re.sub(r"(fn \w+)(?:<(.*?)>)?\(", lambda match: f"{match[1]}<{', '.join(part for part in (self.impl(), match[2]) if part)}>(", signature, count=1)
            signature = re.sub(r"(&(?:mut )?)?\bself\b", lambda match: f"{self.receiver()}: {match[1] or ''}{head}", signature, count=1)
        said = ""
        for at, (kind, name, body, _) in enumerate(self.call.clauses):
            body = narrowing.clauses.get(at, body) if narrowing else body
            if self.call.owner:
                body = re.sub(r"\bself\b", self.receiver(), body)
            clauses += f"    {kind} {name + ' ' if name else ''}{{ {body} }}\n"
            said += f" {body} "
        arguments = [name for name, _ in parameters(signature)]
        generics = re.findall(r"[<,] ?(\w+): ", signature.partition("(")[0]) if not arguments else []
        called = f"{self.receiver()}.{self.call.name}" if self.call.owner else self.path() + (f"::<{', '.join(generics)}>" if generics else "")
        call = f"{called}({', '.join(arguments[1:] if self.call.owner else arguments)})"
        return f"//! {self.title}, narrowed.\n{imports(self.call.imports, said, shadows)}\n{self.imports_of_types(signature)}\n/// {self.title}.\n{signature}\n{clauses}{{\n    {call}\n}}\n"


    def no_answer(self):
        """The proof of the law as it stands in the copy: a hole, as no use rests on it."""
        generics = "g " if self.impl() or "<" in self.call.signature[0].partition("(")[0] else ""
        return f"use Rattle.promise_uses.proofs.{self.module}.{self.call.name}.Goals as goal\n\npub returns : goal.returns\nreturns {generics}c = ?\n"


def is_named(name, text):
    if "◌" in name:
        return all(part in text for part in name.split("◌") if part)
    return bool(re.search(rf"(?<![\w'.]){re.escape(name)}(?![\w'])", text)) if statements.NAME.fullmatch(name) else name in text


def imports(names, said, shadows, ghost="ghost ", end=";"):
    """The imports of what a statement names, of the copy's own where it has them."""
    lines = [f"{ghost}use Rattle.promise_uses.specs.Narrowings.{{where_true, where_short, where_named, where_guest, where_guests, where_no_guests}}{end}\n"] if "where_" in said else []
    if "where_true" in said and "◌==◌" not in names:
        lines.append(f"{ghost}use Rattle.std.specs.Prelude.{{◌==◌}}{end}\n")
    for name, (path, there) in names.items():
        if is_named(name, said):
            path = shadows.get((home(path), path[-1], there), ".".join(path))
            lines.append(f"{ghost}use {path}.{{{there}{'' if there == name else f' as {name}'}}}{end}\n")
    return "".join(lines)


def fields_of(definition):
    """What a definition says, each with the places of its lines, and what stands before it: fields of a record, or the cases of a function."""
    is_record = definition.lines[0].startswith("pub record")
    head = re.compile(r"\s+pub \S+ : " if is_record else rf"\s*{re.escape(definition.name)}(?: (?:[^=({{\[]|\([^()]*\)|\[\]|\{{[^{{}}]*\}})*)?= ?\s*")
    starts = [at for at, line in enumerate(definition.lines) if at and head.match(line)]
    for start, end in zip(starts, [*starts[1:], len(definition.lines)], strict=True):
        text = "\n".join(definition.lines[start:end])
        before = head.match(text)[0]
        yield start, end, before, text[len(before):]


def says_something(definition):
    """Whether a definition is a statement, and not a value or a type of values."""
    if definition.lines[0].startswith("pub record"):
        return any(SAYS.search(text) for *_, text in fields_of(definition))
    return not definition.lines[0].startswith("pub data") and re.search(r"[→:] Type 0$", definition.lines[0])


def come_to(specs, law):
    """The definitions that a law's clauses come to, and those that these come to, as its clauses say them of what they conclude."""
    found, left = {}, [(body, law.call.imports, None, None, 1) for kind, _, body, _ in law.call.clauses if kind == "ensures"]
    while left:
        text, names, crate, file, depth = left.pop(0)
        for name in dict.fromkeys(statements.NAME.findall(text[slice(*conclusion(text))])):
            meaning = specs.resolve(name, names, crate, file)
            if meaning and meaning[0] == "spec" and meaning[1] not in found and says_something(specs.definitions[meaning[1]]):
                found[meaning[1]] = depth
                definition = specs.definitions[meaning[1]]
                if depth < DEPTH:
                    left += [(said, specs.imports[meaning[1][:2]], *meaning[1][:2], depth + 1) for *_, said in fields_of(definition)]
    return found


def between(specs, law, target):
    """The definitions by which a law's clauses lead to this one, itself among them; None where one is of a type with cases."""
    order, *_ = specs.closure([*law.code.meanings(law.call)])
    leads = {target}
    for key in order:
        if any(meaning[0] == "spec" and meaning[1] in leads for meaning in specs.names_of(key)):
            leads.add(key)
    return None if any(specs.definitions[key].lines[0].startswith("pub data") for key in leads) else [key for key in order if key in leads]


def narrowings_of(specs, law, with_definitions):
    """All narrowings of a law: of each clause in each way, and of each field of the definitions that it comes to."""
    for at, (kind, name, body, _) in enumerate(law.call.clauses):
        if kind == "ensures":
            for words, text in narrowed(body, law.variables):
                yield Narrowing(law.title, f"{name or 'its clause'} {words}", {at: text})
    for key in come_to(specs, law) if with_definitions else ():
        definition = specs.definitions[key]
        if between(specs, law, key):
            for start, end, before, said in fields_of(definition):
                for words, text in narrowed(said, []) if SAYS.search(said) else ():
                    name = re.match(r"\s+pub (\S+)", before) if definition.lines[0].startswith("pub record") else None
                    what = f"{name[1]} of {key[2]}" if name else f"case {start} of {key[2]}"
                    yield Narrowing(law.title, f"{what} {words}", {}, key, [*definition.lines[:start], before + text, *definition.lines[end:]])


def texts_with(specs, laws, narrowings):
    """The files of the copy in which these laws stand again, each with its narrowing if it has one."""
    texts = {"specs/Lib.antt": (USES / "specs/Lib.antt").read_text() + "pub mod Narrowings\n", "specs/Narrowings.antt": SPECS}
    texts |= {f"src/{path.name}": path.read_text() for path in sorted(USES.glob("src/*.rt"))}
    redirected = {}
    for law in laws:
        narrowing = narrowings.get(law.title)
        shadows = shadowed(specs, law, narrowing, texts) if narrowing and narrowing.target else {}
        redirected |= shadows
        texts[f"src/{law.module}.rt"] = law.again(narrowing, shadows)
        texts[f"proofs/{law.module}/{law.call.name}/Answers.antt"] = law.no_answer()
        texts["src/lib.rt"] = re.sub(r"^mod comings;", f"mod {law.module};\nmod comings;", texts["src/lib.rt"], flags=re.M)
        for path in USES.glob("src/*.rt"):
            if path.stem != "lib":
                texts[f"src/{path.name}"] = calling(texts[f"src/{path.name}"], law)
    for path in USES.rglob("proofs/**/*.antt") if redirected else ():
        text = path.read_text()
        if (other := "".join(meaning_others(line, redirected) for line in text.splitlines(keepends=True))) != text:
            texts[str(path.relative_to(USES))] = other
    return texts


def shadowed(specs, law, narrowing, texts):
    """Writes the definitions that stand again for a law's narrowing, and returns the module of each."""
    keys = between(specs, law, narrowing.target)
    module = {key: "".join(re.sub(r"\W", "", word.title()) for word in ("Again", law.module, key[0], key[1])) for key in keys}
    shadows = {key: f"Rattle.promise_uses.specs.{name}" for key, name in module.items()}
    for name in dict.fromkeys(module.values()):
        here = [key for key in keys if module[key] == name]
        lines = {key: narrowing.lines if key == narrowing.target else specs.definitions[key].lines for key in here}
        said = "\n\n".join("\n".join(lines[key]) for key in here)
        own = {other: (["Rattle", here[0][0], "specs", here[0][1]], other) for crate, file, other in specs.definitions if (crate, file) == here[0][:2] and (crate, file, other) not in here}
        texts[f"specs/{name}.antt"] = f"-- Meaning: as it stands elsewhere, narrowed.\n{imports(specs.imports[here[0][:2]] | own, said, shadows, '', '')}\n{said}\n"
        texts["specs/Lib.antt"] += f"pub mod {name}\n"
    return shadows


def home(path):
    """The crate that a path leads to."""
    return next((part for part in reversed(path) if (TOP / "crates" / part).is_dir()), "")


def meaning_others(line, shadows):
    """An import of a proof with those definitions that stand again in the copy taken from there."""
    match = re.match(r"((?:pub )?use )([\w.\-]+)\.\{(.*)\}$", line.strip())
    if not match:
        return line
    path, lines, left = match[2].split("."), "", []
    for part in match[3].split(", "):
        key = (home(path), path[-1], part.partition(" as ")[0])
        if key in shadows:
            lines += f"{match[1]}{shadows[key]}.{{{part}}}\n"
        else:
            left.append(part)
    return lines + (f"{match[1]}{match[2]}.{{{', '.join(left)}}}\n" if left else "")


def calling(text, law):
    """A file of uses whose calls of a law are of the one that stands again."""
    name = law.call.name
    if law.call.owner:
        return re.sub(rf"\b(\w+)\.{name}\((?=[^)])", rf"crate::{law.module}::{name}(\1, ", text) if any(f"fn {use}" in text for use in law.uses) else text
    for match in re.finditer(r"^use ([\w:]+?)::(?:\{([^}]*)\}|(\w+));\n", text, re.M):
        names = [part.strip() for part in (match[2] or match[3]).split(",") if part.strip()]
        if match[1].split("::")[0] == law.crate and name in names:
            left = [other for other in names if other != name]
            return text[:match.start()] + (f"use {match[1]}::{{{', '.join(left)}}};\n" if left else "") + f"use crate::{law.module}::{name};\n" + text[match.end():]
    return text


class Copy:
    """Checks uses in a copy of `promise_uses`, over what its own check kept."""

    def __init__(self, room):
        self.rt, self.room = wrong_bodies.toolchain(), pathlib.Path(room)
        self.crate = next(crate for crate in self.rt.rtlib.crates_below(str(TOP)) if crate.name == "promise_uses")
        self.crate.deps, self.crate.folder = self.crate.below(), str(self.room / "crate")
        self.at = {name: f"{path.stem}::{name}" for path in sorted(USES.glob("src/*.rt")) for name in re.findall(r"^pub fn (\w+)", path.read_text(), re.M)}
        if not (USES / "out/incremental").is_dir():  # (then it begins with what the toolchain kept of the crate, and of those below)
            subprocess.run(["rt", "check", "--jobs", "1"], cwd=USES, stdin=subprocess.DEVNULL, stdout=subprocess.DEVNULL, check=True)
        if (USES / "out/incremental").is_dir():
            shutil.copytree(USES / "out/incremental", self.room / "kept")

    def verdicts(self, texts, names):
        """Of each of these uses of which the check says something whether it is proved, and all that was said."""
        shutil.rmtree(self.crate.folder, ignore_errors=True)
        shutil.copytree(USES, self.crate.folder, ignore=shutil.ignore_patterns("out"))
        for path, text in texts.items():
            (self.room / "crate" / path).parent.mkdir(parents=True, exist_ok=True)
            (self.room / "crate" / path).write_text(text)
        words = [word for name in names for word in ("--only", self.at[name])]
        said = self.rt.checked(self.crate, {}, ["--jobs", "1", "--allow-holes", *words], self.room / "kept").stdout
        if not said.rstrip().rpartition("\n")[2].startswith("only="):
            sys.exit(f"the copy can't be checked:\n{said[-3000:]}")
        told = re.findall(r"^fn promise_uses::\w+::(\w+): (.*)$", said, re.M)
        return {name: verdict.startswith(("no holes", "depends on a hole", "proved")) for name, verdict in told if name in names}, said


def rounds(laws, each):
    """Groups of narrowings, one of a law in each at most, and none of two laws that share a use."""
    left = [*each]
    while left:
        group, busy, later = {}, set(), []
        for narrowing in left:
            its = set(laws[narrowing.law].uses)
            if narrowing.law in group or its & busy:
                later.append(narrowing)
            else:
                group[narrowing.law] = narrowing
                busy |= its
        yield group
        left = later


def main():
    words = sys.argv[1:]
    if any(word.startswith("-") and word not in ("--few", "--gate", "--list", "--clauses") for word in words):
        sys.exit(__doc__)
    specs = statements.Specs()
    code = statements.Code(specs)
    titles = [line.split(" | ")[1] for line in (TOP / "tools/docs/pages.txt").read_text().splitlines() if " | " in line and not line.startswith("#")]
    asked = [word for word in words if not word.startswith("-")]
    laws = {title: Law(code, title) for title in titles if not asked or any(word in title for word in asked)}
    if "--gate" in words:
        laws = {law.title: law for law in {law.crate: law for law in reversed(laws.values())}.values()}
    each = [narrowing for law in laws.values() for narrowing in narrowings_of(specs, law, "--clauses" not in words)]
    if "--list" in words:
        for narrowing in each:
            print(f"{narrowing.law}: {narrowing.said}")
        print(len(each), "narrowings of", len(laws), "laws")
        return
    with tempfile.TemporaryDirectory(prefix="narrowings-") as room:
        sys.exit(1 if tried(specs, laws, each, Copy(room), bool({"--few", "--gate"} & {*words})) else 0)


def tried(specs, laws, each, copy, is_few):
    """Tries the narrowings, and returns how many no use tells."""
    names = sorted({use for law in laws.values() for use in law.uses})
    proved, said = copy.verdicts(texts_with(specs, laws.values(), {}), names)
    if bad := [name for name in names if not proved.get(name)]:
        sys.exit(f"{said}\nuses that aren't proved as the laws stand: {', '.join(bad)}")
    print(f"as the laws stand all {len(names)} uses are proved", flush=True)
    able = {}  # the uses that are proved where a law's definitions stand again as they are
    as_they_are = {(one.law, one.target): Narrowing(one.law, "as it is", {}, one.target, specs.definitions[one.target].lines) for one in each if one.target and not is_few}
    for group in rounds(laws, as_they_are.values()):
        proved, _ = copy.verdicts(texts_with(specs, laws.values(), group), sorted({use for title in group for use in laws[title].uses}))
        able |= {(title, one.target): [use for use in laws[title].uses if proved.get(use)] for title, one in group.items()}
    count = collections.Counter()
    for group in rounds(laws, [one for one in each if not one.target or able.get((one.law, one.target))]):
        proved, _ = copy.verdicts(texts_with(specs, laws.values(), group), sorted({use for title in group for use in laws[title].uses}))
        for title, one in group.items():
            told = [use for use in (able[title, one.target] if one.target else laws[title].uses) if proved.get(use) is False]
            count["refused" if told else "not refused"] += 1
            print(f"{title}: {one.said}: {'refused by ' + ', '.join(told) if told else 'NOT REFUSED'}", flush=True)
        if is_few:
            break
    for (title, key), found in able.items():
        if not found:
            print(f"{title}: {key[2]}: every use cites it as it is")
    print(f"narrowings: {count['refused']} refused, {count['not refused']} not")
    return count["not refused"]


if __name__ == "__main__":
    main()
