"""The wrong bodies that are never dropped, by `bodies.txt`: the table in CONTRIBUTING, and what is missing of it; and which edits no longer apply."""
import re

from statements import CRATES, TOP

LISTED = TOP / "tools/docs/bodies.txt"


def rows():
    """Each row: the name, what the body does wrong, the files of its edits, and what is missing."""
    for line in LISTED.read_text().splitlines():
        if line and not line.startswith("#"):
            name, body, told = line.split(" | ")
            if tested := re.fullmatch(r"test: (\w+) (\S+)", told):
                crate, word = tested.groups()
                has = any(word == path.name or re.search(rf"\bfn {word}\b", path.read_text()) for path in (CRATES / crate).rglob("*") if path.suffix in (".rt", ".solve", ".session"))
                edit = next((path for path in CRATES.glob(f"*/wrong-bodies/{name}.edit") if f"# test: {crate} {word}\n" in path.read_text()), None)
                files = [f"`{edit.relative_to(TOP)}`: `{word}` of `{crate}`"] if edit else []
                yield name, body, files, [what for what, there in ((f"test {word} of {crate}", has), (f"edit with `# test: {crate} {word}`", edit)) if not there]
                continue
            found = {crate: sorted((CRATES / crate / "must-fail").glob(f"{name}*.edit")) for crate in told.split()}
            yield name, body, [f"`{path.relative_to(TOP)}`" for paths in found.values() for path in paths], [f"edit in {crate}" for crate, paths in found.items() if not paths]


def table():
    """The table, with the edit of each body, or the test that tells it."""
    return "| Name | What the body does | Edit, or test |\n|---|---|---|\n" + "".join(f"| `{name}` | {body} | {', '.join(files)} |\n" for name, body, files, _ in rows())


def stale():
    """Each edit of a wrong body whose old text doesn't stand just once in its file."""
    for edit in sorted(path for kind in ("must-fail", "wrong-bodies") for path in CRATES.glob(f"*/{kind}/*.edit")):
        path = None
        for line in edit.read_text().splitlines():
            if line.startswith("file: "):
                path = edit.parents[1] / line[6:].strip()
            elif line.startswith("old: ") and (not path.is_file() or path.read_text().count(line[5:]) != 1):
                yield f"{edit.relative_to(TOP)}: {line[5:].strip()} doesn't stand just once in {path.relative_to(TOP)}"


def faults():
    for name, _, _, missing in rows():
        for what in missing:
            yield f"tools/docs/bodies.txt: {name} has no {what}"
    yield from stale()
