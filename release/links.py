"""Links of documents to what lies beside them."""
import pathlib
import re

LINK = re.compile(r"(!?)\[((?:[^][]|\[[^]]*\])*)\]\((?![a-z]+:)([^)#\s]+)(#[^)\s]*)?\)")


def dead(root, others=None):
    """The links of the documents below a folder whose file isn't there: document and link. `others`: places that are elsewhere."""
    return [(path, found[0]) for path in sorted(root.rglob("*.md")) for found in LINK.finditer(path.read_text()) if not is_there(root, path, found[3], others or {})]


def is_there(root, document, target, others):
    place = pathlib.Path(*normal((document.parent / target).relative_to(root).parts))
    for name, folder in others.items():
        if place.is_relative_to(name):
            return (folder / place.relative_to(name)).exists()
    return ".." not in place.parts and (root / place).exists()


def normal(parts):
    kept = []
    for part in parts:
        if part == ".." and kept and kept[-1] != "..":
            kept.pop()
        else:
            kept.append(part)
    return kept


def unlink(root, others=None):
    """Leaves of each dead link its text."""
    for path in {path for path, _ in dead(root, others)}:
        text = path.read_text()
        path.write_text(LINK.sub(lambda found, path=path: found[0] if is_there(root, path, found[3], others or {}) else found[2], text))
