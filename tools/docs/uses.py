"""Which clause of a promise each function of `promise_uses` rests on, as its comment says: `Uses `promises::run_two` (`alone`).`"""
import re

from statements import TOP

USES = re.compile(r"\bUses (.*?)\.(?:\s|$)")
CITED = re.compile(r"`(\w+(?:::\w+)+)`(?: \(([^)]*)\))?")


def uses_by_clause():
    """The functions that use each clause, by the call and the clause's name; '' is the clause of a call that has one without a name."""
    found = {}
    for path in sorted((TOP / "crates/promise_uses/src").rglob("*.rt")):
        for comment, name in re.findall(r"((?:^///.*\n)+)(?:#\[.*\n)*pub fn (\w+)", path.read_text(), re.M):
            said = " ".join(line.removeprefix("///").strip() for line in comment.splitlines())
            for part in USES.findall(said):
                for call, clauses in CITED.findall(part):
                    for clause in re.findall(r"\w+", clauses) or [""]:
                        found.setdefault((call, clause), []).append(name)
    return found
