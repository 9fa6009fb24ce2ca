"""The premises of the laws that have pages, and the instances of them that `promise_uses` proves: a law whose premises nothing meets says
nothing. An instance is a clause that says of a law's premises, in the law's own words, that there are values which meet them all:
`(plan : PlanOf) × (who : Who) × (why_over plan who .. ≡ None)`. A path of a call's (`seat.old.asked`, `steps.now`) is a value there
(`seat_asked`, `steps`). What names no definition of the tree (`amount ≤ most`) needs none by itself."""
import re

from statements import NAME

WRAPPED = re.compile(r"(?:IfOk|IfSome|IfErr|OnOk|OnErr|OnSome) [\w.]+ \((?:λ \w+\. )?")
BOUND = re.compile(r"\(([\w ]+) : ((?:[^()]|\((?:[^()]|\([^()]*\))*\))*)\)")
SAME = re.compile(r"\w+ ≡ \w+")  # of two values of a call
PATH = re.compile(r"\b[A-Za-z]\w*(?:\.\w+)+")


def top_level(text, sign):
    """The places where a sign stands outside of brackets, up to a lambda there."""
    depth = 0
    for match in re.finditer(rf"[()\[\]{{}}λ]|{re.escape(sign)}", text):
        if match[0] in "([{":
            depth += 1
        elif match[0] in ")]}":
            depth -= 1
        elif depth == 0 and match[0] == "λ":
            return
        elif depth == 0:
            yield match.start()


def closing(text, start):
    """The place of the bracket that closes the one at `start`."""
    depth = 0
    for match in re.finditer(r"[()\[\]{}]", text[start:]):
        depth += 1 if match[0] in "([{" else -1
        if depth == 0:
            return start + match.start()
    raise ValueError(text)


def conclusion(text):
    """Where what a statement comes to begins and ends: what it says after its variables and premises, inside of `IfOk` and its like."""
    start, end = len(text) - len(text.lstrip()), len(text.rstrip())
    while (match := WRAPPED.match(text, start)) and closing(text, match[0].rindex("(") + start) == end - 1:
        start, end = match.end(), end - 1
    arrows = [*top_level(text[start:end], "→")]
    start = start + arrows[-1] + 1 if arrows else start
    return start + len(text[start:end]) - len(text[start:end].lstrip()), end


def parts(text, sign):
    """The parts of a statement between these signs that aren't variables with their types, in one line each."""
    places = [-1, *top_level(text, sign), len(text)]
    found = (" ".join(text[one + 1:other].split()) for one, other in zip(places, places[1:], strict=False))
    return [part.removeprefix("(").removesuffix(")") if part.startswith("(") and closing(part, 0) == len(part) - 1 else part for part in found if part and BOUND.sub("", part).strip()]


def variables(text):
    """The variables that a text binds."""
    return {word for match in BOUND.finditer(text) for word in match[1].split()} | {*re.findall(r"\blet (\w+) =", text)}


def as_values(text, bound):
    """A premise with its paths as values."""
    def value(match):
        root, *fields = match[0].split(".")
        return match[0] if root in bound else "_".join([root, *(field for field in fields if field not in ("now", "old", "new"))])
    return PATH.sub(value, text)


def premises_of(call):
    """The premises of each clause of a call, by its name, and its variables: what it requires, and what stands before what a clause comes to."""
    required = [part for kind, _, body, _ in call.clauses if kind == "requires" for part in parts(body, "×")]
    for kind, name, body, _ in call.clauses:
        if kind == "ensures":
            start = 0
            while (match := WRAPPED.match(body, start)):
                start = match.end()
            before = body[start:conclusion(body)[0]].rstrip().removesuffix("→")
            bound = variables(before)
            found = [as_values(part, bound) for part in [*required, *parts(before, "→")]]
            yield name, [part for part in found if not SAME.fullmatch(part)], bound


def meanings(specs, call, text, bound):
    """The definitions of the tree that a text of a call names, but for these variables."""
    return {name: meaning for name in NAME.findall(text) if name not in bound and (meaning := specs.resolve(name, call.imports)) and meaning[0] == "spec"}


def unmet(specs, calls, uses):
    """Of these calls, by their names, each clause whose premises name definitions and have no instance in these uses, with its premises."""
    free = [use for use in uses if re.search(rf"fn {use.name}\((?:alloc: Global)?\)", use.signature[0]) and all(kind == "ensures" for kind, *_ in use.clauses)]  # (of what presumes nothing itself)
    instances = [(use, body, {*parts(body, "×")}) for use in free for _, _, body, _ in use.clauses if not [*top_level(body, "→")]]
    for title, call in calls:
        for name, found, bound in premises_of(call):
            named = {part: meanings(specs, call, part, bound) for part in found}
            if any(named.values()) and not any(named.keys() <= said and all(meanings(specs, use, part, variables(body)) == named[part] for part in found) for use, body, said in instances):
                yield title, name, found
