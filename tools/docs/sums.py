"""What each crate says, part by part: the definitions of `specs/`, and of the code all that stands outside of functions' bodies: clauses,
types with their fields and invariants, ghost members, constants. To each part belongs what its names are imported as. Where two trees
differ in a part, one of them says something else. Comments, attributes and functions without clauses say nothing.
"""
import dataclasses
import difflib
import functools
import hashlib
import pathlib
import re

from statements import CLAUSE_HEAD, NAME, TOLD, Code, blanked, comment_above, sources

ITEM = re.compile(r"(?P<public>pub\s+)?(?:pub\([^)]*\)\s+)?(?:(?:default|const|unsafe|extern|async)\s+)*(?P<kind>fn|struct|enum|union|trait|mod)\s+(?P<name>\w+)")
VALUE = re.compile(r"(?P<public>pub\s+)?(?:pub\([^)]*\)\s+)?(?P<kind>const|static|type)\s+(?:mut\s+)?(?P<name>\w+)")
IMPL = re.compile(r"(?:unsafe\s+)?impl\b")
IMPORT = re.compile(r"(?:pub(?:\([^)]*\))?\s+)?(?:ghost\s+)?use\b")
SAID = re.compile(r'("(?:\\.|[^"\\])*")|--[^\n]*')  # of definitions
PROOF = re.compile(r"\} by \{[^{}]*\}")  # how a ghost field is proved
OPENED = re.compile(r"[()\[\]{}]")
STOP = re.compile(r"[(\[{;]")
SPACE = re.compile(r"\s*")
BEGINS = re.compile(r"(?:abbrev|unfoldable|pub|record|data|module)\b|\s+(?:abbrev|unfoldable|pub record|pub data)\b")
HEAD = re.compile(r"(?:[a-z]+ )*(?:record |data )?(?P<name>[^\s:({]+)")


@dataclasses.dataclass
class Part:
    """A part of what a crate says."""
    path: str
    title: str
    is_public: bool
    lines: list
    names: list  # `name: place.name there`, of what is imported
    comment: list
    span: tuple  # where it begins and ends in its file
    owner: str = ""  # the type or trait that it is of
    calls: str = ""  # the name of the function whose clauses these are

    @property
    def words(self):
        return [f"(in) {self.path}", *self.lines, *(f"(names) {name}" for name in self.names)]


@dataclasses.dataclass
class Block:
    """The file or block that an item stands in."""
    title: str = ""  # before the names of its functions
    owner: str = ""  # the type or trait that they are of
    head: str = ""  # where the title doesn't have it
    is_public: object = None  # None: as each function says


def closing(clear, start):
    """The place behind the bracket that closes the one at `start`."""
    depth = 0
    for match in OPENED.finditer(clear, start):
        depth += 1 if match[0] in "([{" else -1
        if depth == 0:
            return match.end()
    return len(clear)


def items(clear, start, end):
    """The items between two places, attributes passed over: where each begins and ends, and where its block or body does, if it has one."""
    at = start
    while at < end:
        if clear[at].isspace():
            at = SPACE.match(clear, at).end()
        elif clear.startswith(("#[", "#!["), at):
            at = closing(clear, clear.index("[", at))
        else:
            stop, body = item_end(clear, at, end)
            yield at, stop, body
            at = stop


def item_end(clear, at, end):
    item = ITEM.match(clear, at)
    has_block = item or IMPL.match(clear, at) or not (IMPORT.match(clear, at) or VALUE.match(clear, at) or clear.startswith(("ghost", "pub ghost"), at))
    place = at
    while match := STOP.search(clear, place, end):
        place = match.start()
        if match[0] == ";":
            return place + 1, None
        close = closing(clear, place)
        if match[0] == "{" and has_block and not (item and item["kind"] == "fn" and CLAUSE_HEAD.search(clear[max(at, place - 90):place])):
            return close, place
        place = close
    return end, None


def tree_of_use(text):
    """What a `use` of Rust brings in: name here and its path."""
    prefix, _, rest = text.partition("{")
    if rest:
        depth, part = 0, ""
        for sign in rest.rstrip().removesuffix("}") + ",":
            depth += (sign == "{") - (sign == "}")
            if sign == "," and depth == 0:
                if part.strip():
                    yield from ((here, prefix.strip() + path) for here, path in tree_of_use(part.strip()))
                part = ""
            else:
                part += sign
    else:
        path, _, here = text.partition(" as ")
        path = path.strip().removesuffix("::self")
        yield (here.strip() or path.split("::")[-1], path)


def imports_of(line):
    """What a `use` line brings in: name here and its path; the whole line where it has another form."""
    body = re.sub(IMPORT, "", line, count=1).strip().removesuffix(";").strip()
    if match := re.fullmatch(r"([\w.\-]+)\.\{(.*)\}", body, re.S):
        for part in match[2].split(","):
            there, _, here = part.strip().partition(" as ")
            yield (here.strip() or there.strip(), f"{match[1]}.{there.strip()}")
    elif "ghost" in line or "." in body:
        yield ("", body)
    else:
        yield from tree_of_use(" ".join(body.split()))


def is_used(name, text, words):
    """Whether a text uses an imported name: a word, an operator by all its signs; what has no name or is all of a place always is."""
    if name in ("◌<◌", "◌>◌"):  # (in code these signs are also brackets)
        return re.search(rf"\s{name[1]}\s|_{name[1]}_", text) is not None
    if "◌" in name:
        return all(part in text for part in name.split("◌") if part)
    return name in ("", "*") or (name in words if NAME.fullmatch(name) else name in text)


def names_in(text, imports):
    words = set(NAME.findall(text))
    return sorted({f"{name or 'use'}: {path}" for name, path in imports if is_used(name, text, words)})


def tidied(text, left=0):
    """The lines of a text that aren't empty, moved to the left by so many places."""
    lines = [line.rstrip() for line in text.splitlines() if line.strip()]
    return [line[min(left, len(line) - len(line.lstrip())):] for line in lines]


class Reader:
    """Reads the code of one file."""

    def __init__(self, path, text, is_shown):
        self.path, self.text, self.is_shown = path, text, is_shown
        self.clear = blanked(text)
        self.parts = []

    def lines(self, start, end):
        """The lines between two places without comments, moved to the left as far as the first of them."""
        left = start - self.text.rfind("\n", 0, start) - 1
        return tidied(PROOF.sub("}", TOLD.sub(lambda match: match[1] or "", self.text[start:end])), left)

    def add(self, start, end, title, is_public, imports, owner="", lines=None, calls=""):
        lines, before = self.lines(start, end) if lines is None else lines, self.text[:start].splitlines()
        self.parts.append(Part(self.path, title, is_public, lines, names_in("\n".join(lines), imports), comment_above(before, len(before), "///"), (start, end), owner, calls))

    def read(self):
        rest, _ = self.block(0, len(self.clear), [], Block())
        for at, stop in rest:
            self.add(at, stop, self.lines(at, stop)[0], False, [])
        return self.parts

    def block(self, start, end, outer, of):
        """Reads what stands between two places: a file's items, or those of a block. Returns what isn't a part of its own, and what is imported."""
        found = list(items(self.clear, start, end))
        imports = outer + [pair for at, stop, _ in found if IMPORT.match(self.clear, at) for pair in imports_of(" ".join(self.lines(at, stop)))]
        rest = []
        for at, stop, body in found:
            if IMPORT.match(self.clear, at):
                if re.match(r"pub\s+use", self.clear[at:stop]):
                    for name, path in imports_of(" ".join(self.lines(at, stop))):
                        self.add(at, stop, f"what {name} is", True, [], lines=[f"pub use {path} as {name}"])
            elif match := ITEM.match(self.clear, at):
                self.item(match, at, stop, body, imports, of)
            elif IMPL.match(self.clear, at):
                self.impl(at, stop, body, imports)
            elif match := not of.title and VALUE.match(self.clear, at):
                self.named(match, at, stop, imports)
            else:
                rest.append((at, stop))
        return rest, imports

    def named(self, match, at, stop, imports):
        """Reads a type, an alias or a constant. A type that isn't shown says something only where contracts see more of it than its fields."""
        shown, lines = bool(match["public"]) and self.is_shown(match["name"]), self.lines(at, stop)
        is_value = match["kind"] in ("const", "static")
        if shown or is_value or match["kind"] == "type" or any(line.strip().startswith("ghost") for line in lines):
            self.add(at, stop, f"{match['kind']} {match['name']}", shown, imports, "" if is_value else match["name"])

    def item(self, match, at, stop, body, imports, of):
        kind, name = match["kind"], match["name"]
        if kind == "fn":
            signature = stop if body is None else body
            if CLAUSE_HEAD.search(re.sub(r"\{.*", "", self.clear[at:signature], flags=re.S)):
                shown = bool(match["public"]) and self.is_shown(of.owner or name) if of.is_public is None else of.is_public
                title = f"{of.title}::{name}" if of.title else name
                self.add(at, signature, title, shown, imports, of.owner, [*filter(None, [of.head]), *self.lines(at, signature)], title)
        elif kind == "mod":
            if body is not None:
                self.block(body + 1, stop - 1, imports, Block())
        elif kind == "trait":
            self.members(at, body, stop, f"trait {name}", Block(name, name, "", bool(match["public"]) and self.is_shown(name)), imports)
        else:
            self.named(match, at, stop, imports)

    def impl(self, at, stop, body, imports):
        head = " ".join(" ".join(self.lines(at, body)).split())
        plain = re.sub(r"for<[^>]*>", "", head)
        owner = Code.owner_of(head.removeprefix("unsafe "))
        if " for " not in plain:
            self.members(at, body, stop, head, Block(owner, owner, head), imports)
            return
        named = re.search(r"[A-Za-z]\w*(?=<|$| where|,|\))", plain.split(" for ")[-1])
        self.members(at, body, stop, head, Block(head, named[0] if named else "", "", named is None or self.is_shown(named[0], True)), imports)

    def members(self, at, body, stop, title, of, imports):
        """Reads a block: each function with clauses is a part, and all else together is one."""
        rest, inner = self.block(body + 1, stop - 1, imports, of)
        if rest:
            lines = [*self.lines(at, body), *("    " + line for start, end in rest for line in self.lines(start, end))]
            self.add(at, stop, title, of.is_public is not False, inner, of.owner, lines)


@functools.cache
def read_definitions(path, text):
    """The parts of a file of `specs/`: each definition, and what it shows of other crates'."""
    parts, imports, notes, current, at = [], [], [], None, 0
    for line in text.splitlines(True):
        said, start, at = SAID.sub(lambda match: match[1] or "", line).rstrip(), at, at + len(line)
        if not said:
            notes = [*notes, line.strip()] if line.strip() else []
            continue
        if re.match(r"(?:pub )?use ", said):
            imports += imports_of(said)
            if said.startswith("pub"):
                parts.append(Part(path, f"what {said.split()[-1]} is", True, [said], [], [], (start, at)))
            current = None
        elif said.startswith(("pub mod", "mod ")):
            current = None
        else:
            if current is None or BEGINS.match(said):
                title = HEAD.match(re.sub(r"\b(?:abbrev|unfoldable|pub|record|data)\b ", "", said.strip()))
                current = Part(path, title["name"] if title else said, True, [], [], notes, (start, at))
                parts.append(current)
            current.lines.append(said)
            current.span = (current.span[0], at)
        notes = []
    for part in parts:
        part.names = names_in("\n".join(part.lines), imports)
    return parts


def parts_of(top, crate):
    """What a crate says, file by file."""
    parts, home = [], top / "crates" / crate
    for path in sorted(home.glob("specs/**/*.antt")):
        parts += read_definitions(str(path.relative_to(top)), path.read_text())
    root = next((home / "src" / name for name in ("lib.rt", "main.rt") if (home / "src" / name).exists()), None)
    if root is None:
        return parts
    names, modules = map(frozenset, Code.exported(root))
    texts = {path: path.read_text() for path in sources(home)}
    own = frozenset(name for text in texts.values() for name in re.findall(r"^(?:pub(?:\([^)]*\))? )?(?:struct|enum|trait|type) (\w+)", text, re.M))
    for path, text in texts.items():
        parts += read_code(str(path.relative_to(top)), text, None if path.stem in modules | {"lib", "main"} else names, own)
    return parts


@functools.cache
def read_code(path, text, names, own):
    """The parts of a file of code, of whose public items these names are shown to other crates, or all."""
    def is_shown(name, or_foreign=False):
        return names is None or name in names or or_foreign and name not in own
    return Reader(path, text, is_shown).read()


def crates_of(top):
    """The crates of crates.txt, lowest first."""
    return [line.split(":")[0].split()[0] for line in (top / "crates.txt").read_text().splitlines() if line and not line.startswith("#")]


def by_type(parts):
    """The parts of a crate by the type or trait that they are of, or by their file where they are of none."""
    found = {}
    for part in parts:
        found.setdefault(part.owner or part.path.split("/", 2)[2], []).append(part)
    return found


def sum_of(parts, is_public):
    """A sum over the public or the other ones of these parts, each with its file; `-` where there are none."""
    texts = sorted("\n".join([part.title, *part.words, ""]) for part in parts if part.is_public == is_public)
    return hashlib.sha256("\n".join(texts).encode()).hexdigest()[:16] if texts else "-"


def places_line(names):
    """What names are imported as, by the place that they are imported from."""
    places = {}
    for name in names:
        here, _, path = name.partition(": ")
        place, _, there = path.rpartition("::" if "::" in path else ".")
        place = place.removeprefix("Rattle.").replace(".specs.", "/", 1).replace("declared.", "").replace(".TheVariants", "'s cases")
        places.setdefault(place, []).append((there if here in (there, "use") else f"{there} as {here}").replace("◌", "_"))
    return "; ".join(f"{place}: {' '.join(sorted(names))}" for place, names in sorted(places.items()))


def changes(old, new):
    """The parts in which a crate differs, public ones first: each with the diff of its words."""
    def by_title(parts):
        found = {}
        for part in parts:
            found.setdefault((not part.is_public, part.title), []).append(part)
        return found

    before, after = by_title(old), by_title(new)
    for key in sorted({*before, *after}):
        gone, come = [*before.get(key, [])], [*after.get(key, [])]
        for part in [*gone]:
            if same := next((other for other in come if other.words == part.words), None):
                gone.remove(part)
                come.remove(same)
        for at in range(max(len(gone), len(come))):
            was, now = gone[at:at + 1], come[at:at + 1]
            words = [line for line in difflib.ndiff(*(part[0].words if part else [] for part in (was, now))) if not line.startswith(("? ", "  ("))]
            yield (now or was)[0], words


def since(old_top, new_top):
    """All parts in which two trees differ, as texts, and how many there are."""
    out, count = [], 0
    crates = crates_of(new_top)
    for crate in [*crates, *(gone for gone in crates_of(old_top) if gone not in crates)]:
        for part, words in changes(*(parts_of(top, crate) if (top / "crates" / crate).is_dir() else [] for top in (old_top, new_top))):
            out += [f"{crate}, {'public' if part.is_public else 'private'}: {part.title} ({part.path})", *("  " + word for word in words), ""]
            count += 1
    return out, count
