#!/usr/bin/env python3
"""Lists what stands in proofs/ and specs/ and nothing rests on, with its lines.

usage: tools/dead_lemmas.py [CRATE..]

What the code and wrong bodies import or cite, and each written answer, is used; so is what a used declaration names. A name stands for
what its file declares or imports under it. The rest is listed. (Within a file names are compared as words: a lemma that shares its name
with a variable or a field there counts as used.)
"""
import functools
import pathlib
import re
import sys

TOP = pathlib.Path(__file__).resolve().parent.parent
WORD = re.compile(r"[^\s(){}\[\],;.@`\"]+")
IMPORT = re.compile(r"\buse (Rattle\.\S+)\.\{([^}]*)\}")
ANSWERS = ("Answers", "Invariants", "Proof")


def bare(line):
    """The line without its comment."""
    return re.sub(r"(^|\s)--(\s.*)?$", "", line)


def imports_in(text):
    """Of each name that is imported: the module and the name there."""
    found = {}
    for module, names in IMPORT.findall(text):
        for name in filter(None, (it.strip() for it in names.split(","))):
            there, _, here = name.partition(" as ")
            found[here or there] = (module, there)
    return found


class File:
    """A file of declarations: for each the name, the first line and the line behind the last; and what it imports."""

    def __init__(self, path):
        self.path, self.lines = path, path.read_text().split("\n")
        self.module = ".".join(["Rattle", *path.relative_to(TOP / "crates").with_suffix("").parts])
        # (what the prover asks for stands in a folder of its own, and so does what makes a type Send or Sync)
        self.is_answer = path.parts[-2] != "proofs" and (path.stem in ANSWERS or path.parts[-2].startswith("The"))
        text = "\n".join(map(bare, self.lines))
        self.items, self.imported, self.heads = [], imports_in(text), ""
        self.modules = [(alias, module, bool(passed_on)) for passed_on, module, alias in re.findall(r"\b(pub )?use (Rattle\.\S+) as (\w+)", text)]
        depth, at, header = 0, 0, None
        while at < len(self.lines):
            line = bare(self.lines[at])
            indent = len(line) - len(line.lstrip())
            # (a module's head may take several lines)
            if re.match(r"\s*(pub )?module\s", line):
                header = indent
            if header is not None:
                self.heads += f"{line}\n"
                if re.search(r"\swhere\s*$", line):
                    depth, header = header + 2, None
                at += 1
                continue
            if line.strip() and indent < depth:
                depth = indent
            if line.strip() and indent == depth and not re.match(r"\s*((unfoldable )?(pub )?(module|use|mod|open|unfolding)\s|[#)}\]])", line):
                name = re.match(r"(?:(?:pub|abbrev|unfoldable|opaque|data|record|ruleset)\s+)*(\S+)", line.strip())[1]
                if not self.items or self.items[-1][0] != name:
                    self.items.append([name, at, at + 1])
            if self.items and line.strip() and (indent > depth or line.split()[0] == self.items[-1][0] or line.strip()[0] in ")}]"):
                self.items[-1][2] = at + 1
            at += 1

    def text(self, item):
        return "\n".join(bare(it) for it in self.lines[item[1] : item[2]])


def files_of(crate):
    return [File(it) for part in ("specs", "proofs") for it in sorted((TOP / "crates" / crate / part).rglob("*.antt"))]


def names_in(text):
    """The words of a text, and of an operator's name its signs."""
    return set(WORD.findall(text))


def words_behind(alias, text):
    return re.findall(rf"\b{alias}\.({WORD.pattern})", text)


def is_named(name, words):
    return all(it in words for it in name.split("◌") if it) if "◌" in name else name in words


class Names:
    """What names stand for: where each is declared, through imports that are passed on and modules under another name."""

    def __init__(self, files):
        self.files = {it.module: it for it in files}
        self.declared = {(it.module, item[0]) for it in files for item in it.items}
        passed_on = ((it.module.removesuffix(".Lib"), *module) for it in files for module in it.modules)
        self.aliases = {f"{here}.{alias}": module for here, alias, module, is_passed_on in passed_on if is_passed_on}

    @functools.cache
    def plain(self, module):
        for alias, stands_for in self.aliases.items():
            if f"{module}.".startswith(f"{alias}."):
                return self.plain(stands_for + module[len(alias) :])
        return module

    def place(self, module, name):
        """Where this name of a module is declared; None where no file here declares it."""
        module = self.plain(module)
        while (module, name) not in self.declared:
            file = self.files.get(module)
            if file is None or name not in file.imported:
                return None
            module, name = file.imported[name]
            module = self.plain(module)
        return module, name

    def named(self, file, text):
        """What a text of this file names."""
        words = names_in(text)
        own = [(file.module, it[0]) for it in file.items if is_named(it[0], words)]
        imported = [self.place(*it) for name, it in file.imported.items() if is_named(name, words)]
        behind = [self.place(module, it) for alias, module, _ in file.modules if alias in words for it in words_behind(alias, text)]
        return {*own, *imported, *behind}


def dead(crates):
    every = sorted(it.name for it in (TOP / "crates").iterdir() if it.is_dir())
    files = [it for crate in every for it in files_of(crate)]
    names = Names(files)
    used = set()
    for crate in every:
        for path in [*(TOP / "crates" / crate / "src").rglob("*.rt"), *(TOP / "crates" / crate).glob("*/*.edit")]:
            text = path.read_text()
            used |= {names.place(*it) for it in imports_in(text).values()}
            for owner, module, name in re.findall(r"(\w+)::proofs::(\w+(?:::\w+)*)::(\w+)", text):
                used.add(names.place(f"Rattle.{crate if owner == 'crate' else owner}.proofs.{module.replace('::', '.')}", name))
    rest = []
    for file in files:
        used |= names.named(file, file.heads)
        for item in file.items:
            if file.is_answer:
                used |= names.named(file, file.text(item))
            else:
                rest.append((file, item, names.named(file, file.text(item))))
    grows = True
    while grows:
        grows, left = False, []
        for file, item, named in rest:
            if (file.module, item[0]) in used:
                grows, used = True, used | named
            else:
                left.append((file, item, named))
        rest = left
    lines = 0
    for file, item, _ in rest:
        if not crates or file.path.relative_to(TOP / "crates").parts[0] in crates:
            lines += item[2] - item[1] + 1
            print(f"{file.path.relative_to(TOP)}:{item[1] + 1}: {item[0]}, {item[2] - item[1]} lines")
    print(f"{lines} lines with the blank ones between")


if __name__ == "__main__":
    dead(sys.argv[1:])
