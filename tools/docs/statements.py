"""Reads the statements of the tree: the definitions of `specs/`, the contracts of public calls, and what a
contract's names lead to. `promises.py` writes pages of them.

It reads names by the `use` lines of their file, so it needs no prover; what it can't follow it says.
"""
import dataclasses
import functools
import pathlib
import re

TOP = pathlib.Path(__file__).resolve().parent.parent.parent
CRATES = TOP / "crates"
NAME = re.compile(r"[A-Za-z_][\w'\-]*")
# Crates of tests, of rows and of laws about instances: nothing of theirs is a promise.
TESTING = {"serial_tests", "thread_tests", "server_tests", "promise_uses", "toys", "transcripts"}
DEFINES = re.compile(r"(?:(?:abbrev|unfoldable) pub|pub (?:record|data)) ([^\s:({]+)")
IMPORT = re.compile(r"(?:pub |ghost )?use ([\w.\-]+)\.\{(.*)\};?$")
PUBLIC = re.compile(r'pub (?:const |unsafe |extern [" C]*)*fn (\w+)')  # what stands between quotes is blank
TOLD = re.compile(r'(b?"(?:\\.|[^"\\])*"|b?\'(?:\\(?:u\{\w+\}|x\w\w|.)|[^\'\\])\')|//[^\n]*', re.S)  # what isn't in the group is a comment
BRACE = re.compile(r"[{}]")
CLAUSE_HEAD = re.compile(r"\b(requires|ensures)(\*?)(?:\s+(\w+))?\s*$")
HIDES = re.compile(r'/\*|\{-|«|\b[bc]?r#*"|[\0-\x09\x0b-\x1f\x7f-\x9f\u200b-\u200f\u2028-\u202e\u2066-\u2069\ufeff]')  # comments that nest, names in quotes, raw strings, signs that aren't shown
DASHES = re.compile(r'"(?:\\.|[^"\\\n])*"|(?<![^\s(){}.;,@"])--[^\n]*|(--)')  # of definitions: what is in the group belongs to a name
GHOST = re.compile(r"\b(?:requires|ensures|ghost)\b[^{};]*\{")
FOR_TESTS = re.compile(r"#\s*!?\s*\[\s*(?:cfg|test)\w*")


@dataclasses.dataclass
class Definition:
    """A definition of `specs/`: its comment and its lines."""
    crate: str
    file: str
    name: str
    comment: list
    lines: list

    @property
    def key(self):
        return (self.crate, self.file, self.name)

    @property
    def path(self):
        return f"crates/{self.crate}/specs/{self.file}.antt"


@dataclasses.dataclass
class Type:
    """A type or a trait of the code: its doc comment, its text, and how contracts see it."""
    crate: str
    path: str
    name: str
    kind: str
    comment: list
    lines: list
    imports: dict
    model: list = dataclasses.field(default_factory=list)


@dataclasses.dataclass
class Call:
    """A public call: its doc comment, its signature and its clauses."""
    crate: str
    path: str
    owner: str
    name: str
    comment: list
    signature: list
    clauses: list
    imports: dict
    head: str  # of the block that it stands in

    @property
    def title(self):
        return f"{self.owner}::{self.name}" if self.owner else self.name

    @property
    def promised(self):
        return [clause for clause in self.clauses if clause[0] == "ensures"]


def imported(lines):
    """The names that `use` lines bring in: name to (path, name there)."""
    found = {}
    for line in lines:
        match = IMPORT.match(line.strip())
        if not match and (line.strip().startswith("ghost use ") or line.startswith("use ") and not re.search("::|;$", line)):
            raise SystemExit(f"tools/docs/statements.py: names by an import of another form can't be followed: {line.strip()}")
        if match:
            for part in match[2].split(","):
                there, _, here = part.strip().partition(" as ")
                found[(here or there).strip()] = (match[1].split("."), there.strip())
    return found


def comment_above(lines, start, marks):
    """The comment lines right above a line, attributes passed over."""
    found, at = [], start - 1
    while at >= 0 and (lines[at].strip().startswith(marks) or lines[at].strip().startswith("#[")):
        if lines[at].strip().startswith(marks):
            found.insert(0, lines[at].strip())
        at -= 1
    return found


class Specs:
    """All definitions of `specs/`, and what their names mean."""

    def __init__(self):
        self.definitions = {}
        self.parts = {}  # a constructor's name, by crate and file: its definition
        self.imports = {}
        self.meant = {}  # what each definition's own names mean
        self.crates = {path.name for path in CRATES.iterdir() if path.is_dir()}
        self.hidden = []
        for path in sorted(CRATES.glob("*/specs/**/*.antt")):
            self.read(path)
            self.hidden += hidden(path)

    def read(self, path):
        crate, _, *file = path.relative_to(CRATES).with_suffix("").parts
        file = "/".join(file)
        lines = path.read_text().splitlines()
        self.imports[crate, file] = imported(lines)
        current = None
        for at, line in enumerate(lines):
            match = DEFINES.match(line.strip())
            if match and not line.strip().startswith(("--", "use")):
                current = Definition(crate, file, match[1], comment_above(lines, at, "--"), [line])
                self.definitions[current.key] = current
            elif line.strip().startswith("--"):
                continue
            elif not line.strip() or line.startswith(("use ", "pub use ", "module ")):
                current = None
            elif current:
                current.lines.append(line)
                match = re.match(r"\s+([A-Za-z_][\w']*) :", line)
                if match and current.lines[0].startswith("pub data"):
                    self.parts[crate, file, match[1]] = current.key

    def at(self, crate, file, name):
        key = (crate, file, name)
        return key if key in self.definitions else self.parts.get(key)

    def resolve(self, name, imports, crate=None, file=None):
        """What a name means: ('spec', key), ('type', crate, name), ('std', path, name) or None."""
        if crate and (here := self.at(crate, file, name)):
            return ("spec", here)
        if name not in imports:
            return None
        path, there = imports[name]
        home = next((part for part in reversed(path) if part in self.crates), None)
        if "declared" in path:
            if home is None:
                return ("std", ".".join(path), there)
            owner = next((part for part in path[path.index("declared") + 1:] if part[0].isupper()), there)
            return ("type", home, owner if "TheConstants" not in path else there)
        if home is None:
            return ("std", ".".join(path), there)
        below = len(path) - path[::-1].index(home)
        if found := self.at(home, "/".join(part for part in path[below:] if part != "specs"), there):
            return ("spec", found)
        return ("unknown", ".".join(path), there)

    def names_of(self, key):
        """What a definition's own names mean, in order."""
        if key not in self.meant:
            self.meant[key] = [*self.read_names(key)]
        return self.meant[key]

    def read_names(self, key):
        definition = self.definitions[key]
        text = "\n".join(re.sub(r"--.*", "", line) for line in definition.lines)
        imports = self.imports[definition.crate, definition.file]
        for name in dict.fromkeys(NAME.findall(text)):
            meaning = self.resolve(name, imports, definition.crate, definition.file)
            if meaning and meaning != ("spec", key):
                yield meaning
        yield from signs(text, imports)

    def closure(self, roots):
        """What these meanings lead to: definitions (lowest first), types, words of the toolchain's library, unknown."""
        order, types, words, unknown, begun = [], {}, {}, [], set()

        def visit(meaning):
            kind = meaning[0]
            if kind == "type":
                types.setdefault(meaning[1:])
            elif kind == "std":
                words.setdefault(meaning[1:])
            elif kind == "unknown":
                unknown.append(meaning[1:])
            elif meaning[1] not in begun:
                begun.add(meaning[1])
                for name in self.names_of(meaning[1]):
                    visit(name)
                order.append(meaning[1])

        for root in roots:
            visit(root)
        return order, list(types), list(words), unknown


def signs(text, imports):
    """The operators of the toolchain's library that a text uses, by their imports."""
    for name, (path, there) in imports.items():
        if "◌" in name:
            parts = [part for part in name.split("◌") if part]
            if all(part in text for part in parts):
                yield ("std", ".".join(path), there)
        elif not NAME.fullmatch(name) and name in text:
            yield ("std", ".".join(path), there)


@functools.cache
def blanked(text):
    """The text with comments, strings and characters blanked, of the same length."""
    def blank(match):
        return re.sub(r"[^\n]", " ", match[0])
    return TOLD.sub(blank, text)


def matching(text, start):
    """The place behind the brace that closes the one at `start`."""
    depth = 0
    for match in BRACE.finditer(text, start):
        depth += 1 if match[0] == "{" else -1
        if depth == 0:
            return match.end()
    return len(text)


def sources(crate):
    """The files of a crate's code, but for the tests of a crate of tests."""
    is_tests = crate.name.endswith("_tests")
    return [path for path in sorted(crate.glob("src/**/*.rt")) if not (is_tests and "tests" in path.relative_to(crate / "src").with_suffix("").parts)]


def hidden(path):
    """What a file says otherwise to the prover than to these scripts."""
    text = path.read_bytes().decode()  # (with the ends of lines as they are)
    found = HIDES.findall(text)
    if path.suffix == ".antt":
        found += filter(None, DASHES.findall(text))
    else:
        clear = blanked(text)
        found += [] if path.match("crates/*_tests/src/*") else FOR_TESTS.findall(clear)
        for match in GHOST.finditer(clear):  # (there `//` begins a name)
            found += [said[0] for said in TOLD.finditer(text[match.end():matching(clear, match.end() - 1)]) if not said[1]]
    return [f"{path.relative_to(TOP)}: the prover reads {sign!r} otherwise than tools/docs: write it in another way" for sign in dict.fromkeys(found)]


class Code:
    """The public calls, types and traits of the crates."""

    def __init__(self, specs):
        self.specs = specs
        self.calls = {}
        self.types = {}
        self.exports = {}
        self.hidden = []
        for crate in sorted(specs.crates):
            root = next((CRATES / crate / "src" / name for name in ("lib.rt", "main.rt") if (CRATES / crate / "src" / name).exists()), None)
            if root is None:
                continue
            self.exports[crate] = self.exported(root)
            for path in sources(CRATES / crate):
                self.read(crate, path)
                self.hidden += hidden(path)

    @staticmethod
    def exported(root):
        """The names that a crate's root file shows, or a module's: of `pub use` lines, its own items, and modules that are public, with what those show."""
        text = blanked(root.read_text())
        names = set(re.findall(r"^pub (?:fn|struct|enum|trait|type|const) (\w+)", text, re.M))
        for match in re.finditer(r"^pub use ([\w:]+)(?:::\{([^}]*)\})?;", text, re.M):
            for part in (match[2] or match[1].split("::")[-1]).split(","):
                names.add(part.split(" as ")[-1].strip())
        modules = set(re.findall(r"^pub mod (\w+)", text, re.M))
        folder = root.parent if root.stem in ("lib", "main") else root.with_suffix("")
        for inner in [folder / f"{module}.rt" for module in sorted(modules)]:
            shown = Code.exported(inner) if inner.exists() and inner.with_suffix("").is_dir() else (set(), set())
            names, modules = names | shown[0], modules | shown[1]
        return names, modules

    def is_shown(self, crate, path, name):
        names, modules = self.exports[crate]
        return name in names or path.stem in modules or path.stem in ("lib", "main")

    def read(self, crate, path):
        text = path.read_text()
        clear = blanked(text)
        lines = text.splitlines()
        shown = str(path.relative_to(TOP))
        blocks = []  # of impl blocks and traits: their head, where they begin and end
        for match in re.finditer(r"^(?:unsafe )?(impl\b[^{;]*|pub (?:unsafe )?trait [^{;]*)\{", clear, re.M):
            blocks.append((" ".join(match[1].split()), match.start(), matching(clear, match.end() - 1)))
        outer = imported(line for line in self.outside(lines, blocks, text))
        for head, start, end in blocks:
            inner = outer | imported(text[start:end].splitlines())
            if head.startswith("pub"):
                self.read_trait(crate, shown, head, text, start, end, inner)
            elif " Model for " in head:
                self.read_model(crate, head, text[start:end], inner)
        for match in re.finditer(r"^pub (struct|enum|type|const) (\w+)", clear, re.M):
            self.read_type(crate, shown, match, text, clear, outer)
        for match in PUBLIC.finditer(clear):
            block = next((block for block in blocks if block[1] <= match.start() < block[2]), None)
            if block and (block[0].startswith("pub") or " for " in re.sub(r"for<[^>]*>", "", block[0])):
                continue
            head = block[0] if block else ""
            owner = self.owner_of(head) if block else ""
            if not self.is_shown(crate, path, owner or match[1]):
                continue
            imports = outer | (imported(text[block[1]:block[2]].splitlines()) if block else {})
            self.read_call(crate, shown, owner, match, text, clear, imports, head)

    @staticmethod
    def outside(lines, blocks, text):
        """The lines that stand outside of all blocks."""
        at = 0
        for line in lines:
            if not any(start <= at < end for _, start, end in blocks):
                yield line
            at += len(line) + 1

    @staticmethod
    def owner_of(head):
        head = re.sub(r"^impl\s*(<(?:[^<>]|<[^<>]*>)*>)?\s*", "", head)
        return re.match(r"[\w:]+", head)[0].split("::")[-1]

    def read_call(self, crate, shown, owner, match, text, clear, imports, block):
        start = text.rfind("\n", 0, match.start()) + 1
        at = start
        clauses, signature_end = [], None
        while True:
            brace, semicolon = clear.find("{", at), clear.find(";", at)
            if brace < 0 or (0 <= semicolon < brace and "[" not in clear[at:semicolon].rsplit("\n", 1)[-1]):
                end = semicolon if semicolon >= 0 else len(clear)
                break
            head = CLAUSE_HEAD.search(clear[at:brace])
            if not head:
                end = brace
                break
            if signature_end is None:
                signature_end = at + head.start()
            close = matching(clear, brace)
            body = "\n".join(line.strip() for line in text[brace + 1:close - 1].strip().splitlines())
            note = [line.strip() for line in text[at:at + head.start()].splitlines() if line.strip().startswith("//")]
            clauses.append((head[1] + head[2], head[3] or "", body, note if clauses or signature_end != at + head.start() else []))
            at = close
        signature = text[start:signature_end if signature_end is not None else end].rstrip()
        lines = text[:start].splitlines()
        comment = [line.removeprefix("///").strip() for line in comment_above(lines, len(lines), "///")]
        call = Call(crate, shown, owner, match[1], comment, signature.splitlines(), clauses, imports, block)
        self.calls[crate, call.title] = call

    def read_trait(self, crate, shown, head, text, start, end, imports):
        name = re.search(r"trait (\w+)", head)[1]
        lines = text[:start].splitlines()
        comment = [line.removeprefix("///").strip() for line in comment_above(lines, len(lines), "///")]
        body = [line for line in text[start:end].splitlines() if not line.strip().startswith("ghost use")]
        self.types[crate, name] = Type(crate, shown, name, "trait", comment, body, imports)

    def read_model(self, crate, head, body, imports):
        name = re.match(r"[\w:]+", head.split(" Model for ")[1])[0]
        found = self.types.setdefault((crate, name), Type(crate, "", name, "", [], [], {}))
        parts = re.split(r"^    ghost ", body, flags=re.M)
        for part in parts[1:]:
            part = re.sub(r";\s*\}*\s*$", ";", part.split("\n\n")[0].rstrip())
            if part.startswith(("Value", "view")):
                found.model.append("ghost " + part)
        found.imports = found.imports | imports

    def read_type(self, crate, shown, match, text, clear, imports):
        kind, name = match[1], match[2]
        start = match.start()
        brace, semicolon = clear.find("{", start), clear.find(";", start)
        if kind in ("type", "const") or 0 <= semicolon < brace or brace < 0:
            end = semicolon + 1
        else:
            end = matching(clear, brace)
        lines = text[:start].splitlines()
        comment = [line.removeprefix("///").strip() for line in comment_above(lines, len(lines), "///")]
        body = [line for line in text[start:end].splitlines() if not line.strip().startswith("ghost use")]
        old = self.types.get((crate, name))
        self.types[crate, name] = Type(crate, shown, name, kind, comment, body, imports | (old.imports if old else {}), old.model if old else [])

    def meanings(self, call):
        """What the clauses of a call name: definitions, types, words."""
        text = "\n".join(body for _, _, body, _ in call.clauses)
        for name in dict.fromkeys(NAME.findall(text)):
            if meaning := self.specs.resolve(name, call.imports):
                yield meaning
        yield from signs(text, call.imports)

    def type_named(self, name, near):
        """The type or trait of this name that a file of the crate `near` means."""
        if (near, name) in self.types:
            return (near, name)
        found = [key for key in self.types if key[1] == name and key[0] not in TESTING]
        return found[0] if len(found) == 1 else None

    def field_types(self, key):
        """The types and traits of the tree that a type's fields name."""
        text = re.sub(r"//.*", "", "\n".join(line for line in self.types[key].lines[1:] if not line.strip().startswith("ghost")))
        if self.types[key].kind == "enum":
            text = re.sub(r"^\s*[A-Z]\w*", "", text, flags=re.M)
        return [named for name in dict.fromkeys(re.findall(r"\b[A-Z]\w+\b", text)) if (named := self.type_named(name, key[0]))]

    def signature_types(self, call):
        """The types and traits that a call's signature names."""
        text = "\n".join(call.signature) + " " + call.owner
        for name in dict.fromkeys(re.findall(r"\b[A-Z]\w+\b", text)):
            if found := self.type_named(name, call.crate):
                yield found
