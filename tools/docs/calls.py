"""The functions that a program calls by name from its `main` down, read from the sources: `use` lines say whose a name is. A method's
call isn't followed, since its type isn't read."""
import re

from statements import CRATES, TOP, blanked, matching

FUNCTION = re.compile(r"\bfn (\w+)")
CALLED = re.compile(r"\b((?:\w+::)*\w+)(?:::<[^()]*?>)?\(")
EDGES = {"arrayvec", "thiserror", "clap", "std", "core"}


class Calls:
    """The calls of one program."""

    def __init__(self, program):
        self.program = program
        self.crates = {path.name for path in CRATES.iterdir() if path.is_dir()}
        self.read_crates = {}

    @staticmethod
    def programs():
        """The crates with a `main` that ship: tests and players of rows aren't among them."""
        shipped = ("othello_server", "othello_site")
        return [name for name in shipped if (CRATES / name / "src/main.rt").exists() and re.search(rf"^{name}\b", (TOP / "crates.txt").read_text(), re.M)]

    def crate(self, name):
        """A crate's functions: for each name its bodies with the imports of their files."""
        if name not in self.read_crates:
            functions = {}
            for path in sorted((CRATES / name / "src").rglob("*.rt")):
                if path.name == "tests.rt" or "tests" in path.relative_to(TOP).parts:
                    continue
                clear = blanked(path.read_text())
                imports = self.imports(clear)
                for match in FUNCTION.finditer(clear):
                    brace = self.body(clear, match.end())
                    if brace is not None:
                        functions.setdefault(match[1], []).append((clear[brace:matching(clear, brace)], imports))
            self.read_crates[name] = functions
        return self.read_crates[name]

    @staticmethod
    def body(text, at):
        """Where a function's body begins: behind its clauses."""
        while True:
            brace, semicolon = text.find("{", at), text.find(";", at)
            if brace < 0 or 0 <= semicolon < brace and "[" not in text[at:semicolon].rsplit("\n", 1)[-1]:
                return None
            if not re.search(r"\b(requires|ensures)\*?(\s+\w+)?\s*$", text[at:brace]):
                return brace
            at = matching(text, brace)

    def imports(self, text):
        found = {}
        for path, names in re.findall(r"^(?:pub )?use ([\w:]+?)(?:::\{([^}]*)\})?;", text, re.M):
            parts = path.split("::")
            if len(parts) == 1 and not names:
                continue
            for name in names.split(",") if names else [parts.pop()]:
                there, _, here = name.strip().partition(" as ")
                if there:
                    found[(here or there).split("::")[-1]] = (parts[0], there.split("::")[-1])
        return found

    def called(self, crate, name):
        """The functions that a function calls by name, as (crate, name), in order."""
        found = {}
        for body, imports in self.crate(crate).get(name, []):
            for call in CALLED.findall(body):
                first, _, rest = call.partition("::")
                if rest and first not in imports and (CRATES / crate / f"src/{first}.rt").exists():
                    first, rest = "crate", call
                last = call.split("::")[-1]
                home, there = imports.get(first, (crate if first in ("crate", "self") or not rest else None, first))
                if home == "crate":
                    home = crate
                if home not in self.crates or home is None:
                    continue
                shown = f"{there}::{last}" if rest and there[:1].isupper() else last
                if last in self.crate(home):
                    found.setdefault((home, shown))
        return [it for it in found if it != (crate, name)]

    def lines(self, promised):
        """A list: each function of another crate that is called from `main` down, below the crate that calls it."""
        out, seen = [f"`{self.program}`:", ""], set()

        def visit(crate, name, depth, below):
            for home, there in self.called(crate, name.split("::")[-1]):
                if (home, there) in seen:
                    continue
                seen.add((home, there))
                deeper = depth
                if home != crate:
                    full = f"{home}::{there}"
                    out.append(f"{'  ' * depth}- " + (f"**`{full}`**" if full in promised else f"`{full}`"))
                    deeper = depth + 1
                if home not in below or home == crate:
                    visit(home, there, deeper, below | {home})

        visit(self.program, "main", 0, {self.program})
        return [*out, ""]
