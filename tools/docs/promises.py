#!/usr/bin/env python3
"""Writes docs/promises: a page for each promise, with its call and all clauses, and one text with every definition that any of them
reaches, each once. So a clause, a premise, a definition or the meaning of a name that changes changes a text that people read.

usage: tools/docs/promises.py                     writes the pages
       tools/docs/promises.py check               prints what differs from the committed pages; status 1 where anything does
       tools/docs/promises.py count               prints each page's call with its numbers of definitions and lines
       tools/docs/promises.py whole PAGE          prints a page with all its definitions in place, for one who reads it from end to end
       tools/docs/promises.py contracts CRATE..   prints all that these crates say to others: contracts, types, definitions
       tools/docs/promises.py since REVISION      prints each clause, type, invariant, ghost member, constant and definition that differs
                                                  from a revision's, the words old and new, and what names were and are imported as

Names are resolved: each file's definitions and each call are shown with what their names are imported as, from where; so two that
are exchanged in an import are a difference. `pages.txt` beside this script names the promises, `laws.txt` the laws without a page
whose clauses are used too, `words.txt` the meaning of each word of the toolchain's library. HOW-TO-READ.md and WHAT-IS-ASSUMED.md in docs/promises are written by hand; all else there is made.
"""
import difflib
import functools
import itertools
import pathlib
import re
import subprocess
import sys
import tempfile

import premises
import sums
from calls import Calls
from statements import NAME, TESTING, TOP, Code, Specs
from uses import uses_by_clause

HERE = pathlib.Path(__file__).resolve().parent
OUT = TOP / "docs" / "promises"
BY_HAND = {"HOW-TO-READ.md", "WHAT-IS-ASSUMED.md"}
MADE = "<!-- Made by tools/docs/promises.py: change the code or the definitions, then run it again. -->"
GUIDES = "[How to read a promise](HOW-TO-READ.md) explains the signs, and the [glossary](../GLOSSARY.md) the terms. [What is assumed](WHAT-IS-ASSUMED.md) lists what you have to trust."


def fail(text):
    sys.exit(f"tools/docs/promises.py: {text}")


def rows(name, fields):
    """The rows of a table beside this script."""
    found = []
    for line in (HERE / name).read_text().splitlines():
        if line and not line.startswith("#"):
            row = [field.strip() for field in line.split(" | ", fields - 1)]
            if len(row) != fields:
                fail(f"{name}: {line}")
            found.append(row)
    return found


def fenced(kind, lines):
    return [f"```{kind}", *lines, "```", ""]


def with_notes_behind(lines):
    """An enum with what is said of each case behind it, on its line."""
    out, note = [], []
    for line in lines:
        if line.strip().startswith("///"):
            note.append(line.strip().removeprefix("///").strip())
        else:
            out.append(line + (f" // {' '.join(note)}" if note else ""))
            note = []
    return out


def on_one_line(lines):
    """A type on one line, where it fits and no line of it says more than the code."""
    joined = re.sub(r",? }$", " }", re.sub(r"\s+", " ", " ".join(lines))).replace("( ", "(").replace(", )", ")")
    return lines if len(joined) > 150 or any("//" in line for line in lines) else [joined]


def names_line(imports, text):
    """What the names of a text are imported as, by the place that they are imported from; nothing where it imports none."""
    places = {}
    for here, (path, there) in imports.items():
        parts = [part for part in here.split("◌") if part] if "◌" in here else None
        is_used = all(part in text for part in parts) if parts else here in NAME.findall(text) if NAME.fullmatch(here) else here in text
        if is_used:
            place = ".".join(path).removeprefix("Rattle.").replace(".specs.", "/", 1).replace("declared.", "").replace(".TheVariants", "'s cases")
            places.setdefault(place, []).append((there if there == here else f"{there} as {here}").replace("◌", "_"))
    return "; ".join(f"{place}: {' '.join(sorted(names))}" for place, names in sorted(places.items()))


class Pages:
    """The pages, made of the tree as it stands."""

    def __init__(self):
        self.specs = Specs()
        self.code = Code(self.specs)
        self.words = dict(rows("words.txt", 2))
        self.promises = rows("pages.txt", 3)
        self.pages = {}
        self.counts = []
        self.unclear = [*self.specs.hidden, *self.code.hidden]  # beside these: names that can't be followed, or have no meaning in words.txt
        self.uses = uses_by_clause()

    def call(self, name):
        key = tuple(name.split("::", 1))
        if key not in self.code.calls:
            fail(f"pages.txt names a call that isn't there: {name}")
        return self.code.calls[key]

    # ---- what a call reaches

    def types_of(self, types):
        """These Rust types of the tree, with those that their fields name."""
        found, todo = [], [*types]
        while todo:
            key = todo.pop(0)
            shown = self.code.types.get(key)
            if key in found or shown is None or key[0] in TESTING:
                continue
            found.append(key)
            if not shown.model:
                todo += self.code.field_types(key)
        return sorted(found)

    def seen_of(self, call):
        """The types of a call's signature, and of their fields, and the traits whose ghost members its clauses name."""
        text = "\n".join(part[2] for part in call.clauses)
        keys = list(self.code.signature_types(call))
        for key in keys:
            shown = self.code.types[key]
            if not shown.model and shown.kind == "struct":
                keys += [more for more in self.code.field_types(key) if more not in keys]
            if shown.model or shown.kind == "struct":
                yield key
            elif shown.kind == "trait" and any(re.search(rf"\.{name}\b", text) for name in re.findall(r"ghost (\w+)[:=\s]", "\n".join(shown.lines))):
                yield key

    @staticmethod
    def fields_that_say(shown):
        """The ghost fields of a type: what holds of each of its values. How that is proved is left out."""
        return [re.sub(r" by \{.*\}", "", line) for line in shown.lines if line.strip().startswith("ghost")]

    def values_of(self, keys):
        """What the values that contracts see of these types, what holds of them, and the contracts of these traits, name."""
        for key in keys:
            shown = self.code.types[key]
            text = "\n".join(shown.model[:1]) if shown.model else "\n".join(shown.lines) if shown.kind == "trait" else "\n".join(self.fields_that_say(shown))
            for name in dict.fromkeys(NAME.findall(text)):
                if meaning := self.specs.resolve(name, shown.imports):
                    yield meaning

    def reached(self, call):
        """What a call's clauses lead to: definitions, lowest first; types; words of the toolchain's library. The last part of the
        definitions is what the values of its types are."""
        order, types, words, unknown = self.specs.closure(self.code.meanings(call))
        self.unclear += [f"{call.title}: can't follow {name[1]} of {name[0]}" for name in unknown if "contracts" not in name[0]]
        seen = list(self.seen_of(call))
        named = list(self.values_of(seen))
        more, more_types, more_words, _ = self.specs.closure(meaning for meaning in named if meaning[0] == "spec")
        types += more_types + [meaning[1:] for meaning in named if meaning[0] == "type"]
        words += more_words + [meaning[1:] for meaning in named if meaning[0] == "std"]
        types = self.types_of(dict.fromkeys(types))
        return [*order, *(key for key in more if key not in order)], list(dict.fromkeys([*seen, *types])), list(dict.fromkeys(words))

    def with_fields(self, keys, types, words):
        """These definitions, types and words with what the ghost fields of the types name."""
        types, done = [*types], set()
        while new := [key for key in types if key not in done and not self.code.types[key].model]:
            done.update(new)
            named = list(self.values_of(new))
            more, more_types, more_words, _ = self.specs.closure(meaning for meaning in named if meaning[0] == "spec")
            keys = [*keys, *(key for key in more if key not in keys)]
            found = self.types_of(dict.fromkeys([*more_types, *(meaning[1:] for meaning in named if meaning[0] == "type")]))
            types += [key for key in found if key not in types]
            words = [*dict.fromkeys([*words, *more_words, *(meaning[1:] for meaning in named if meaning[0] == "std")])]
        return keys, types, words

    # ---- how it is shown

    def clause_lines(self, call, indent="    "):
        """A call's signature and clauses as code."""
        base = min((len(line) - len(line.lstrip()) for line in call.signature if line.strip()), default=0)
        lines = [*filter(None, [call.head]), *(line[base:] for line in call.signature)]
        for kind, name, body, note in call.clauses:
            lines += [indent + line for line in note]
            head = f"{indent}{kind} {name} {{ ".replace("  {", " {")
            inner = body.split("\n")
            lines.append(head + inner[0] + (" }" if len(inner) == 1 else ""))
            lines += [indent * 2 + line for line in inner[1:]]
            if len(inner) > 1:
                lines[-1] += " }"
        return lines

    def type_lines(self, key):
        """A type as code: one with a model by what contracts see of it, a trait by its members without bodies."""
        shown = self.code.types[key]
        if shown.kind == "struct" and not shown.model:
            return on_one_line([re.sub(r" by \{.*\}", "", line) for line in shown.lines if not line.strip().startswith(("///", "//"))])
        if shown.kind == "enum" and not shown.model:
            return on_one_line(with_notes_behind(shown.lines))
        if shown.model:
            head = re.sub(r"\s*\{.*", "", shown.lines[0]) if shown.lines else f"pub struct {shown.name}"
            return [f"{head} {{ .. }}", *("    " + line.replace("\n", "\n    ") for line in shown.model)]
        return shown.lines

    def file_block(self, crate, file, keys):
        """The definitions of a file, in its order, with what their names are imported as."""
        lines = []
        for key in keys:
            definition = self.specs.definitions[key]
            if lines and not definition.comment:
                lines.append("")
            lines += [*definition.comment, *definition.lines]
        names = names_line(self.specs.imports[crate, file], "\n".join(re.sub(r"--.*", "", line) for line in lines))
        return [f"`crates/{crate}/specs/{file}.antt`" + (f" (names: {names})" if names else ""), "", *fenced("text", lines)]

    def type_blocks(self, crate, keys):
        """The types of a crate, with what the names of their values are imported as."""
        out, lines, names = [], [], {}
        for key in keys:
            lines += [*self.type_lines(key), ""]
            names |= self.code.types[key].imports
        said = names_line(names, "\n".join(line for line in lines if not line.startswith("pub ")))
        out += ["Types of the code" + (f" (names: {said})" if said else "") + ":", "", *fenced("rust", lines[:-1])]
        return out

    def definitions_text(self, keys, types, level="##"):
        """All these definitions and types, crate by crate, lowest first."""
        out, place = [], {key: at for at, key in enumerate(self.specs.definitions)}
        for crate in sums.crates_of(TOP):
            files = {}
            for key in sorted((key for key in keys if key[0] == crate), key=place.get):
                files.setdefault(key[1], []).append(key)
            here = [key for key in types if key[0] == crate]
            if not files and not here:
                continue
            out += [f"{level} {crate}", ""]
            if here:
                out += self.type_blocks(crate, here)
            for file in self.in_order(crate, files):
                out += self.file_block(crate, file, files[file])
        return out

    def in_order(self, crate, files):
        """The files of a crate, those first on which others rest."""
        order, begun = [], set()

        def visit(file):
            if file in begun:
                return
            begun.add(file)
            for path, _ in self.specs.imports[crate, file].values():
                if crate in path and "declared" not in path and path[-1] in files:
                    visit(path[-1])
            order.append(file)

        for file in sorted(files):
            visit(file)
        return order

    def word_lines(self, words):
        """The words of the toolchain's library, each with its place and its meaning."""
        found = {}
        for path, name in words:
            found.setdefault(name, set()).add(path.removeprefix("Rattle."))
        self.unclear += [f"words.txt has no line for {name}" for name in sorted(found) if name not in self.words]
        for name in sorted(found, key=lambda name: (not name[0].isalpha(), name.lower())):
            yield f"- `{name.replace('◌', '_')}` ({', '.join(sorted(found[name]))}): {self.words.get(name)}"

    def page(self, page, name, sentence):
        call = self.call(name)
        order, types, words = self.reached(call)
        lines = sum(len(self.specs.definitions[key].lines) for key in order)
        files = {}
        for key in order:
            files.setdefault((key[0], key[1]), []).append(key[2])
        self.counts.append((page, name, sentence, len(order), lines, len(files)))
        imported_names = names_line(call.imports, "\n".join(part[2] for part in call.clauses))
        out = [MADE, f"# {page.replace('-', ' ').capitalize()}", "", sentence, "", GUIDES, "",
               f"## The call `{call.title}`, in `{call.path}`", "", *([" ".join(call.comment), ""] if call.comment else []),
               *fenced("rust", self.clause_lines(call)), *([f"Names: {imported_names}.", ""] if imported_names else [])]
        cited = [(f"`{clause}` by " if clause else "") + f"{', '.join(f'`{use}`' for use in self.uses[name, clause])}" for _, clause, _, _ in call.promised if (name, clause) in self.uses]
        if cited:
            out += [f"Proofs from this contract alone, at particular values (`crates/promise_uses`): {'; '.join(cited)}.", ""]
        if order:
            out += ["## What it rests on", "", f"{len(order)} definitions, {lines} lines in {len(files)} files; `tools/docs/promises.py whole {page}` prints them all in place.", ""]
            for crate in sums.crates_of(TOP):
                here = [(file, names) for (home, file), names in files.items() if home == crate]
                if here:
                    out.append(f"- [{crate}](definitions.md#{crate}): " + "; ".join(f"{file}: {', '.join(f'`{name}`' for name in names)}" for file, names in sorted(here)))
            out.append("")
        self.pages[f"{page}.md"] = "\n".join(out)
        return order, types, words

    def index(self, words):
        out = [MADE, "# The promises, a page each", "",
               "A promise is the contract of a public call. Each page shows one: the call with its clauses, and the names of the definitions that they reach; [definitions](definitions.md) has every definition that any of them reaches, once, lowest first. Begin with [how to read a promise](HOW-TO-READ.md), then [no tenant is disturbed](no-tenant-is-disturbed.md). [What is assumed](WHAT-IS-ASSUMED.md) lists what you have to trust, and the [glossary](../GLOSSARY.md) explains the terms. If a clause, a definition or the meaning of a name changes, so does one of these texts, and `./gate` fails in its first seconds until they are made again: so a reviewer sees the change.", "",
               "| Page | Call | Promise | Definitions | Lines |", "|---|---|---|---|---|"]
        for page, call, sentence, definitions, lines, _ in self.counts:
            out.append(f"| [{page.replace('-', ' ')}]({page}.md) | `{call}` | {sentence.replace('|', chr(92) + '|')} | {definitions} | {lines} |")
        out += ["", "## What each program calls", "",
                "From `main` down, the functions of other crates that each function calls by name (methods are left out). Those with a page above are in bold.", ""]
        promised = {name for _, name, _ in self.promises}
        for program in Calls.programs():
            out += Calls(program).lines(promised)
        out += ["", "## Words of the toolchain's library", "", "Besides Rust's own types, clauses and definitions use only these words:", "", *self.word_lines(words), ""]
        self.pages["README.md"] = "\n".join(out)

    def make(self):
        keys, types, words = [], [], []
        for page, name, sentence in self.promises:
            for found, more in zip((keys, types, words), self.page(page, name, sentence)):
                found += [it for it in more if it not in found]
        keys, types, words = self.with_fields(keys, types, words)
        named = {name for _, name, _ in self.promises}
        for key, call in self.code.calls.items():
            if key[0] == "promises" and call.promised and "::".join(key) not in named:
                fail(f"pages.txt has no page for {'::'.join(key)}")
        self.pages["definitions.md"] = "\n".join([MADE, "# Definitions", "", f"Every definition that a [promise](README.md) reaches, and the types of the code that these name, crate by crate, lowest first. {GUIDES} In brackets stands what the names of a file are imported as, by the file that they come from.", "",
                                                  *self.definitions_text(keys, types)])
        self.all_contracts()
        self.index(words)
        return self.pages

    def all_contracts(self):
        """A line a type: sums over all that a crate says of it, and its public calls with the names of their clauses."""
        out = [MADE, "# The contracts of all crates", "",
               "A line for each type and trait of a crate, and for what is of none a line a file; each with two sums. The first is over what the crate says to others: the clauses of public calls, types with their fields and invariants, ghost members, constants, and all definitions, each with its file, with the head of its block and with what its names are imported as. The second is over the same of what only the crate itself uses. Behind them stand the public calls, with the names of their clauses in brackets; of crates of tests the sums alone. `tools/docs/promises.py contracts CRATE` prints the text of the first, and `tools/docs/promises.py since REVISION` what became of both, in words. So whatever changes below the promises changes a line here, and can be read.", ""]
        calls = {}
        for (crate, _), call in sorted(self.code.calls.items()):
            if call.clauses and crate not in TESTING:
                names = ", ".join(part[1] for part in call.promised if part[1])
                calls.setdefault((crate, call.owner or call.path.split("/", 2)[2]), []).append(f"`{call.name}`" + (f" ({names})" if names else ""))
        for crate in sums.crates_of(TOP):
            for name, parts in sorted(sums.by_type(sums.parts_of(TOP, crate)).items(), key=lambda one: ("/" in one[0], one[0])):
                shown = calls.pop((crate, name), [])
                out.append(f"- **{crate}** `{name}` {sums.sum_of(parts, True)} {sums.sum_of(parts, False)}" + (f": {', '.join(shown)}" if shown else ""))
        self.unclear += [f"docs/promises/contracts.md has no line of {crate} for {name}" for crate, name in calls]
        self.pages["contracts.md"] = "\n".join([*out, ""])

    # ---- what is printed, and not kept

    def whole(self, page):
        row = next((row for row in self.promises if row[0] == page), None)
        if row is None:
            fail(f"no page {page}; there are {', '.join(row[0] for row in self.promises)}")
        order, types, words = self.with_fields(*self.page(*row))
        text = self.pages[f"{page}.md"].split("\n## What it rests on")[0]
        return "\n".join([text, "", "## The definitions, lowest first", "", *self.definitions_text(order, types, "###"), "## Words of the toolchain's library", "", *self.word_lines(words)])

    def faults(self):
        """What is unclear, the clauses of pages and of the laws of `laws.txt` that no use cites, those that uses cite and that aren't there, and
        those of pages whose premises have no instance."""
        yield from dict.fromkeys(self.unclear)
        named = [name for _, name, _ in self.promises] + [name for name, _ in rows("laws.txt", 2)]
        there = {(name, clause) for name in named for _, clause, _, _ in self.call(name).promised}
        for name, clause in sorted({*self.uses} - there):
            yield f"promise_uses cites {name}#{clause}, which neither a page nor laws.txt has"
        for name, clause in sorted(there - {*self.uses}):
            yield f"no use in promise_uses cites {name}#{clause}"
        uses = [call for (crate, _), call in self.code.calls.items() if crate == "promise_uses"]
        owed, found = {name for name, _ in rows("owed.txt", 2)}, set()
        for name, clause, presumed in premises.unmet(self.specs, [(name, self.call(name)) for _, name, _ in self.promises], uses):
            found.add(name)
            if name not in owed:
                yield f"promise_uses has no instance of what {name}#{clause} presumes: {'; '.join(presumed)}"
        for name in sorted(owed - found):
            yield f"owed.txt names {name}, whose premises have instances"


def contracts(crate):
    """What a crate says to others: the code file by file, then the definitions."""
    out = [f"# The contracts of `{crate}`", ""]
    parts = [part for part in sums.parts_of(TOP, crate) if part.is_public]
    if not parts:
        fail(f"{crate} says nothing to others")
    for path, group in itertools.groupby(sorted(parts, key=lambda part: part.path.endswith(".antt")), lambda part: part.path):
        group = [*group]
        names = sums.places_line(sorted({name for part in group for name in part.names if ": Rattle.std." not in name}))
        lines = [line for part in group for line in [*part.comment, *part.lines, ""]]
        out += [f"`{path}`" + (f" (names: {names})" if names else ""), "", *fenced("text" if path.endswith(".antt") else "rust", lines[:-1])]
    return "\n".join(out)


@functools.cache
def tree_of(revision):
    """A folder with the crates as they were at a revision."""
    old = tempfile.TemporaryDirectory()
    told = subprocess.run(["git", "-C", TOP, "archive", revision, "crates", "crates.txt"], capture_output=True, check=False)
    if told.returncode != 0:
        fail(f"git has no tree {revision}: {told.stderr.decode().strip()}")
    subprocess.run(["tar", "-x", "-C", old.name], input=told.stdout, check=True)
    return old


def since(revision):
    """What the tree says otherwise than a revision did."""
    lines, count = sums.since(pathlib.Path(tree_of(revision).name), TOP)
    print(*lines, f"{count} parts differ from {revision}'s", sep="\n")


def differing(pages):
    """The pages that differ from those in docs/promises, as diffs."""
    there = {str(path.relative_to(OUT)): path.read_text() for path in OUT.rglob("*.md") if path.name not in BY_HAND} if OUT.exists() else {}
    for name in sorted({*pages, *there}):
        old, new = there.get(name, ""), pages.get(name, "")
        if old != new:
            yield "".join(difflib.unified_diff(old.splitlines(True), new.splitlines(True), f"docs/promises/{name} (committed)", f"docs/promises/{name} (by the tree)", n=2))


@functools.cache
def made():
    """The pages of the tree, made once."""
    pages = Pages()
    pages.make()
    return pages


def told(pages):
    """Prints what differs from the committed pages, and the clauses that no use cites. Whether there is anything."""
    found, wrong = list(differing(pages.pages)), list(pages.faults())
    print(*found, sep="\n", end="\n" if found else "")
    if found:
        print(f"docs/promises: {len(found)} texts aren't what the tree says. `tools/docs/promises.py since HEAD` prints what changed, in words. If that is meant, run tools/docs/promises.py and commit them.")
    print(*wrong, sep="\n", end="\n" if wrong else "")
    return bool(found or wrong)


def write(pages):
    """Writes the pages, unless something in them is unclear."""
    if pages.unclear:
        fail("; ".join(dict.fromkeys(pages.unclear)))
    for path in OUT.rglob("*.md") if OUT.exists() else []:
        if path.name not in BY_HAND and str(path.relative_to(OUT)) not in pages.pages:
            path.unlink()
    for name, text in pages.pages.items():
        path = OUT / name
        path.parent.mkdir(parents=True, exist_ok=True)
        path.write_text(text)


def main():
    words = sys.argv[1:]
    if words[:1] == ["contracts"] and words[1:]:
        print("\n".join(map(contracts, words[1:])))
    elif words[:1] == ["since"] and len(words) == 2:
        since(words[1])
    elif words[:1] == ["whole"] and len(words) == 2:
        print(Pages().whole(words[1]))
    elif words == ["check"]:
        sys.exit(1 if told(made()) else 0)
    elif words == ["count"]:
        for page, call, _, definitions, lines, files in made().counts:
            print(f"{definitions:5} definitions {lines:5} lines {files:3} files  {call}  ({page})")
    elif words:
        sys.exit(__doc__)
    else:
        write(made())


if __name__ == "__main__":
    main()
