#!/usr/bin/env python3
"""Checks the documents: README.md, CONTRIBUTING.md, CHANGELOG.md, SECURITY.md, clients/README.md, docs/*.md and the pages of promises
that are written by hand. Every link, also to a part of a document, and every path leads somewhere; every name in backticks,
also in the heads of crates and their examples, is there in code, definitions or scripts (a comment or another document shows nothing); every
counted figure, list and excerpt is what the tree says (so the transcripts are those of the texts that ./gate plays); docs/promises and
docs/pictures are what their scripts write. Of every other document (README.md of a folder) the links are checked, and everywhere the
version, which is that of VERSION, with the date that CHANGELOG.md has for it.

usage: tools/docs/check.py [FILE..]     (all where none is named)
       tools/docs/check.py write        writes the counted figures, the pages of promises and the tables anew
       tools/docs/check.py words        prints the words of each document that is written by hand: what has a letter or a digit, without what is made

A counted figure stands in a document as `<!--n:NAME-->123<!---->`, which shows as 123; `figures` below has the names. A list that
is made stands between `<!--made:NAME-->` and `<!--/made-->`; `LISTS` below has the names, and `words` leaves it out.
"""
import collections
import pathlib
import re
import subprocess
import sys

HERE = pathlib.Path(__file__).resolve().parent
TOP = HERE.parent.parent
sys.path.insert(0, str(HERE))
import bodies
import promises
import sums

WORD = re.compile(r"[A-Za-z_][A-Za-z0-9_]*")
FIGURE = re.compile(r"<!--n:([\w:.-]+)-->(.*?)<!---->")
LIST = re.compile(r"(<!--made:([\w:,-]+)-->\n).*?(<!--/made-->)", re.S)
PROMISES = TOP / "docs/promises"
BY_HAND = [PROMISES / "HOW-TO-READ.md", PROMISES / "WHAT-IS-ASSUMED.md"]
VERSIONED = {  # where the version stands beside VERSION itself; in documents it stands in the names of a release's files
    "crates/commands/src/command_line/commands.rt": r'const VERSION: &str = "(.*?)"',
    "crates/othello_site/src/running.rt": r'"othello_site (.*?)\\n"',
    "crates/othello_site/src/telling.rt": r'version=\\"(.*?)\\"',
    "crates/server_tests/src/tests/servers/programs.rt": r'"othello (\d.*?)\\n"',
    "clients/python/src/coluwen/__init__.py": r'__version__ = "(.*?)"',
    "clients/javascript/package.json": r'"version": "(.*?)"',
    "clients/java/pom.xml": r"<artifactId>coluwen</artifactId>\s*<version>(.*?)</version>",
    "CITATION.cff": r"^version: (.*)$",
    "crates/site_office/specs/Turns.antt": r'codes " (\d+\.\d+\.\d+)"',
}
# Names of the toolchain, its library, the system and other tools, which the tree need not say.
FOREIGN = set("""A B N T P Q S D K k n s t d r w x y z f g j rt sh check try lib gate test doc fmt lemma tidy must plant fail core
    callgrind valgrind perf compare_exchange venv site packages strace nice syscall nc logic rattle13b rattle13f
    dac8208d650f15bf systemd analyze verify security rand popcnt as_mut_slice get_flag low_File File time
    Prop structure inductive datatype predicate forall exists fun function Nat Int ofNat negSucc proj old
    omega grind simp search refl ghost requires ensures record abbrev unfoldable data module nat pattern vVERSION coluwen_1 VERSION86_64 xHH drawn_ irreducible_def trivial opaque axioms baxiom holes trusted""".split())


def tracked():
    """The files of the tree, committed or about to be; all but what builds leave where git can't say."""
    listed = subprocess.run(["git", "-C", TOP, "ls-files", "-z", "--cached", "--others", "--exclude-standard"], capture_output=True, text=True, check=False)
    if listed.returncode == 0:
        names = listed.stdout.split("\0")
    else:
        names = [str(path.relative_to(TOP)) for path in TOP.rglob("*") if not {"out", ".git", "__pycache__"} & set(path.relative_to(TOP).parts)]
    return [name for name in names if name and (TOP / name).is_file()]


def is_evidence(name):
    """Whether a file shows that a name is there: no document or picture does."""
    return not (name.endswith(".md") or name.startswith("docs/") and not name.endswith(".py") or name == "tools/docs/check.py")


def known(files):
    """Every word of a source, a definition, a script or a file's name."""
    words = set(FOREIGN)
    for name in files:
        words.update(WORD.findall(name))
        if is_evidence(name):
            try:
                text = (TOP / name).read_text()
                if name.endswith((".rt", ".antt")):  # a comment shows nothing
                    text = re.sub(r"^\s*(//|--).*", "", text, flags=re.M)
                words.update(WORD.findall(text))
            except UnicodeDecodeError:
                pass
    return words


def lines_of(files, *patterns):
    return sum(len((TOP / name).read_text().splitlines()) for name in files if any(re.fullmatch(pattern, name) for pattern in patterns))


def figures(files):
    """The figures that documents state, by name."""
    pages = promises.made()
    crates = [line for line in (TOP / "crates.txt").read_text().splitlines() if line and not line.startswith("#")]
    lower = {line.split(":")[0].split()[0]: line.split(":")[1].split() for line in crates}

    def below(name, found):
        if name in lower and name not in found:
            for other in lower[name]:
                below(other, found)
            found.append(name)
        return found

    tests = [name for name in files if re.fullmatch(r"crates/\w+/src/(.*/)?(tests(/.*)?|rows)\.rt", name) or re.fullmatch(r"crates/\w+/src/tests/.*\.rt", name)]
    found = {
        "crates": len(crates),
        "crates:serve": len(below("othello_server", [])),
        "edits": sum(1 for name in files if re.fullmatch(r"crates/\w+/must-fail/\w+\.edit", name)),
        "bodies": sum(1 for name in files if re.fullmatch(r"crates/\w+/(must-fail|wrong-bodies)/\w+\.edit", name)),
        "tests": sum((TOP / name).read_text().count("#[test]") for name in files if name.startswith("crates/") and name.endswith(".rt")),
        "lines:specs": lines_of(files, r"crates/\w+/specs/.*\.antt"),
        "lines:proofs": lines_of(files, r"crates/\w+/proofs/.*\.antt"),
        "lines:tests": lines_of(files, *map(re.escape, tests)),
        "rows": int((TOP / "crates/transcripts/stdout").read_text().split()[0]),
    }
    found["lines:src"] = lines_of(files, r"crates/\w+/src/.*\.rt") - found["lines:tests"]
    spent = re.search(r"^whole (\d+) processor minutes .*?([\d.]+) by the clock, (\d+) processors$", (HERE / "cost.txt").read_text(), re.M)
    found |= {"gate:processor": int(spent[1]), "gate:clock": round(float(spent[2])), "gate:processors": int(spent[3])}
    reached = set()
    for page, _, _, definitions, lines, _ in pages.counts:
        found[f"definitions:{page}"] = definitions
        found[f"lines:{page}"] = lines
    for page, call, _ in pages.promises:
        if call.startswith("promises::"):
            reached.update(pages.reached(pages.call(call))[0])
    found["definitions:promises"] = len(reached)
    found["lines:promises"] = sum(len(pages.specs.definitions[key].lines) for key in reached)
    rounded = ("lines:specs", "lines:proofs", "lines:tests", "lines:src", "rows")  # to hundreds, or each change would change a document
    return {name: f"{round(number, -2) if name in rounded else number:,}" for name, number in found.items()}


def read_crates():
    """The crates by group, in the order of crates.txt, and of each those that its line names, without what another of these implies."""
    groups, below, direct = {}, {}, {}
    for line in (TOP / "crates.txt").read_text().splitlines():
        if line.startswith("# ") and not line.startswith("# The crates, lowest first"):
            group = groups.setdefault(line[2:], [])
        elif line and not line.startswith("#"):
            name, named = line.split(":")
            name, named = name.split()[0], [low for low in named.split() if low in below]
            group.append(name)
            below[name] = set(named).union(*(below[low] for low in named))
            direct[name] = [low for low in named if not any(low in below[other] for other in named)]
    return groups, direct


def crate_map():
    """The groups of crates.txt, but for those of tests, and on which others each rests."""
    groups, direct = read_crates()
    names = [name for name in groups if "est" not in name.split()[0] and "promises" not in name]
    group_of = {crate: name for name in names for crate in groups[name]}
    below, drawn = {}, ["```mermaid", "flowchart BT"]
    for at, name in enumerate(names):
        drawn.append(f'  g{at}["{name.split(",")[0].split(":")[0]}"]')
        used = {names.index(group_of[low]) for crate in groups[name] for low in direct[crate]} - {at}
        below[at] = used.union(*(below[low] for low in used))
        drawn += [f"  g{at} --> g{low}" for low in sorted(used) if not any(low in below[other] for other in used)]
    return "\n".join([*drawn, "```"]) + "\n"


def crate_table():
    """The crates by group, each with the first sentence of its head, and what it rests on."""
    rows = ["| Crate | What it is | Rests on |", "|---|---|---|"]
    groups, direct = read_crates()
    for group, names in groups.items():
        rows.append(f"| **{group}** | | |")
        for name in names:
            root = next(path for path in (TOP / "crates" / name / "src/lib.rt", TOP / "crates" / name / "src/main.rt") if path.exists())
            head = " ".join(re.match(r"(?://! .*\n)+", root.read_text())[0].replace("//! ", "").split())
            first = re.split(r"(?<=[.]) ", head)[0].removeprefix(f"`{name}`: ")
            rows.append(f"| `{name}` | {first[0].upper() + first[1:]} | {', '.join(direct[name])} |")
    return "\n".join(rows) + "\n"


def quoted(name):
    """What is sent and what is answered in a text of crates/transcripts/data, in order."""
    lines = (TOP / "crates/transcripts/data" / name).read_text().splitlines()
    return [line[2:] for line in lines if line.startswith("> ")], [line[2:] for line in lines if line.startswith("< ")]


def solve_transcript():
    """What `othello solve` answers the lines of quoted.solve: all but the last at the default grain, that one with --visited."""
    sent, answered = quoted("quoted.solve")
    shown = ["$ ./othello solve <<'LINES'", *sent[:-1], "LINES", *answered[:-1], f"$ printf '{sent[-1]}\\n' | ./othello solve --visited", answered[-1]]
    return "\n".join(["```text", *shown, "```"]) + "\n"


def session_transcript():
    """The lines of quoted.session with their answers."""
    shown = ["$ ./othello serve --sessions 1 --port 4711 --grain 4     # in one terminal; prints: listening 127.0.0.1:4711",
             "$ nc 127.0.0.1 4711                                      # in another"]
    for sent, answered in zip(*quoted("quoted.session")):
        shown += [sent, f"< {answered}"]
    return "\n".join(["```text", *shown, "```"]) + "\n"


def error_table():
    """The numbers of ERR that a client may see, with the words of the code for each, in four columns."""
    words = dict(enumerate(re.findall(r'#\[error\("(.*?)"\)\]\n', (TOP / "crates/protocol/src/faults.rt").read_text()), 21))
    refusals = (TOP / "crates/sched_rules/src/refusal.rt").read_text()
    names = {name: int(number) for number, name in re.findall(r"^    /// (\d+): (?:.*\n    ///)*.*\n    (\w+)", refusals, re.M)}
    words |= {names[name]: text for name, text in re.findall(r'Refusal::(\w+) => "(.*?)"', refusals)}
    shown = [f"{number} | {words[number]}" for number in (10, 11, 13, 14, 17, 19, 20, *range(21, 30))]
    rows = ["| `ERR` | Words | `ERR` | Words | `ERR` | Words | `ERR` | Words |", "|" + "---|" * 8]
    rows += [f"| {' | '.join(shown[row::4])} |" for row in range(4)]
    return "\n".join(rows) + "\n"


def depth_table():
    """The table that bench/jobs/depths printed last, as it is kept in depths.txt beside this script."""
    return (HERE / "depths.txt").read_text()


def cost_table():
    """What `./gate` cost, crate by crate, as tools/gate_cost.py wrote it last into cost.txt beside this script."""
    return "```text\n" + (HERE / "cost.txt").read_text() + "```\n"


def excerpt(page, names):
    """The call of a page of promises, with these clauses alone: what is left out is `..`."""
    return chosen(re.search(r"```rust\n(.*?)```", (PROMISES / f"{page}.md").read_text(), re.S)[1], names)


def contract(crate, call):
    """The contract of a public call."""
    part = next(part for part in sums.parts_of(TOP, crate) if part.is_public and part.calls == call)
    return chosen("\n".join([*part.lines, ""]), "")


def chosen(text, names):
    head, *clauses = re.split(r"^(?=    (?:requires|ensures) )", text, flags=re.M)
    kept = [clause if not names or clause.split()[1] in names.split(",") else "    ..\n" for clause in clauses]
    return "```text\n" + head + "".join(clause for at, clause in enumerate(kept) if clause != "    ..\n" or kept[at - 1 : at] != [clause]) + "```\n"


LISTS = {"bodies": bodies.table, "map": crate_map, "crates": crate_table, "solve": solve_transcript, "session": session_transcript, "errors": error_table, "depths": depth_table, "cost": cost_table, "excerpt": excerpt, "contract": contract}


def with_lists(text):
    """A document with its lists as they are made from the tree."""
    def made(match):
        name, *words = match[2].split(":")
        return match[1] + LISTS[name](*words) + match[3]

    return LIST.sub(made, text)


def parts_of(document):
    """The names by which links lead to the parts of a document: its headings, as they are shown."""
    heads = re.findall(r"^#+ (.*)", re.sub(r"```.*?```", "", document.read_text(), flags=re.S), re.M)
    shown = (re.sub(r"\[([^]]*)\]\([^)]*\)", r"\1", head).lower() for head in heads)
    return {re.sub(r"[^\w -]", "", head).strip().replace(" ", "-") for head in shown}


def link_faults(document, text):
    """Links that lead nowhere, and files of a release by another version than this one's."""
    for target in re.findall(r"\]\(([^)#\s]+)\)", text):
        if "://" not in target and not (document.parent / target).exists():
            yield f"no file {target}"
    for target, part in re.findall(r"\]\(([^)#\s]*)#([^)\s]+)\)", text):
        other = document.parent / target if target else document
        if not other.exists() or other.suffix == ".md" and part not in parts_of(other):
            yield f"no part {target}#{part}"
    for said in re.findall(r"(?:coluwen[-_]|<version>)(\d+\.\d+\.\d+)", text):
        if said != version():
            yield f"version {said}, where VERSION has {version()}"


def version():
    return (TOP / "VERSION").read_text().strip()


def version_faults():
    """Where another version stands, or another date of it."""
    for name, pattern in VERSIONED.items():
        for said in re.findall(pattern, (TOP / name).read_text(), re.M) or ["none"]:
            if said != version():
                yield f"{name}: version {said}, where VERSION has {version()}"
    dated = re.search(rf"^## {re.escape(version())} \((\d{{4}}-\d\d-\d\d)\)$", (TOP / "CHANGELOG.md").read_text(), re.M)
    cited = re.search(r"^date-released: (.*)$", (TOP / "CITATION.cff").read_text(), re.M)
    if not dated or not cited or dated[1] != cited[1]:
        yield f"CHANGELOG.md has no date of {version()} that is CITATION.cff's"


def faults(document, words, counted):
    text = document.read_text()
    for _, name, _ in LIST.findall(text):
        if name.split(":")[0] not in LISTS:
            yield f"no list {name}"
            return
    if with_lists(text) != text:
        yield "a list isn't what the tree says: run tools/docs/check.py write"
    yield from link_faults(document, text)
    for name, said in FIGURE.findall(text):
        if counted.get(name) != said:
            yield f"{name} is {counted.get(name, 'no figure')}, not {said}"
    prose = re.sub(r"```.*?```", "", text, flags=re.S)
    for code in re.findall(r"`([^`]+)`", prose):
        for path in re.findall(r"(?:crates|bench|clients|deploy|docs|examples|release|tools)/[\w./*@-]+", code):
            if "NAME" in path or "CRATE" in path or "VERSION" in path or path.endswith("/out"):
                continue
            if not list(TOP.glob(path.rstrip("/."))):
                yield f"no path {path}"
        for word in WORD.findall(re.sub(r"-{1,2}[a-z-]+", "", code)):
            if word not in words and not re.fullmatch(r"[A-Z]+|[a-h][1-8]|F", word):
                yield f"no name {word} (in `{code}`)"


def head_faults(files, words):
    """The names in backticks, and those of the examples, in the heads of crates that are gone."""
    for name in files:
        if re.fullmatch(r"crates/\w+/src/(lib|main)\.rt", name):
            head = "\n".join(line[3:] for line in (TOP / name).read_text().splitlines() if line.startswith("//!"))
            for example in re.findall(r"```text\n(.*?)```", head, flags=re.S):
                for word in WORD.findall(re.sub(r'//.*|b?"[^"]*"', "", example)):
                    if word not in words and not re.fullmatch(r"[A-Z]+|[a-h][1-8]|F|x[0-9a-f_]+", word):
                        yield f"{name}: no name {word} (in the head's example)"
            for code in re.findall(r"`([^`\n]+)`", re.sub(r"```.*?```", "", head, flags=re.S)):
                for word in WORD.findall(re.sub(r"-{1,2}[a-z-]+", "", code)):
                    if word not in words and not re.fullmatch(r"[A-Z]+|[a-h][1-8]|F", word):
                        yield f"{name}: no name {word} (in `{code}`)"


def name_faults(files):
    """The definitions, and the types and traits outside tests, that several crates have under one name, but for those that GLOSSARY
    lists, and what it lists for nothing."""
    definitions, types = collections.defaultdict(set), collections.defaultdict(set)
    for name in files:
        if re.fullmatch(r"crates/\w+/specs/.*\.antt", name):
            for word in re.findall(r"^(?:abbrev )?(?:pub )?(?:record |data )?([A-Za-z][\w'-]*) *[:({]", (TOP / name).read_text(), flags=re.M):
                definitions[word].add(name.split("/")[1])
        elif re.fullmatch(r"crates/(?!\w+_tests/)\w+/src/(?!tests/).*\.rt", name):
            for word in re.findall(r"^(?:pub(?:\(crate\))? )?(?:struct|enum|trait) (\w+)", (TOP / name).read_text(), flags=re.M):
                types[word].add(name.split("/")[1])
    listed = set(re.findall(r"`([^`]+)`", (TOP / "docs/GLOSSARY.md").read_text().partition("\nSeveral crates define ")[2].partition("\n")[0]))
    found = {word for kind in (definitions, types) for word, those in kind.items() if len(those) > 1}
    for word in sorted(found ^ listed):
        those = max(definitions[word], types[word], key=len)
        yield f"docs/GLOSSARY.md: {word} is defined in {' and '.join(sorted(those)) or 'no crate'}: one name for one thing"


def lemma_faults(files):
    """The lemmas of an equation or an order whose words `_` joins, but for those that an attribute of the code cites: its paths have no hyphen."""
    cited = {word for name in files if name.endswith(".rt") for word in re.findall(r"\bproofs::(?:\w+::)*(\w+)", (TOP / name).read_text())}
    for name in files:
        if re.fullmatch(r"crates/\w+/proofs/.*\.antt", name):
            text = (TOP / name).read_text()
            for _, word, said in re.findall(r"^( *)(?:pub )?([a-z]\w*_\w*) : (.*(?:\n\1 +\S.*)*)\n\1\2 ", text, flags=re.M):
                if re.search("[≡≢≤<⊥]", said.rpartition("→")[2]) and word not in cited:
                    yield f"{name}: {word.replace('_', '-')}, as lemmas are spelled, for {word}"


def proved_faults():
    """The names in PROVED's column of contracts that are neither a crate nor, of the crate named last, a public call with a promise or
    a clause of one; nor a definition."""
    pages, crate = promises.made(), None
    defined = {name for _, _, name in pages.specs.definitions}
    for row in re.findall(r"^\|.* \| (.*) \|$", (TOP / "docs/PROVED.md").read_text(), re.M):
        for name in re.findall(r"`([^`]+)`", row):
            crate = name if name in pages.specs.crates else crate
            calls = [call for (home, _), call in pages.code.calls.items() if home == crate and call.promised]
            known = {word for call in calls for word in (call.title, call.owner, call.name, *(clause[1] for clause in call.promised))}
            if name != crate and name not in known | defined:
                yield f"docs/PROVED.md: {name} is no public contract of {crate}"


def gate_faults():
    """What the gate doesn't call, of what sees that this check tells (which sees that the gate calls this one)."""
    if not re.search(r"^one tools/docs/weakenings\.py --few\b", (TOP / "gate").read_text(), re.M):
        yield "gate: doesn't call tools/docs/weakenings.py --few"


def documents():
    found = [TOP / "README.md", TOP / "CONTRIBUTING.md", TOP / "CHANGELOG.md", TOP / "SECURITY.md", TOP / "clients/README.md", TOP / "tools/README.md", *sorted((TOP / "docs").glob("*.md")), *BY_HAND]
    return [path for path in found if path.exists()]


def is_made(document):
    return document.read_text().startswith("<!-- Made by")


def words_in(document):
    """What has a letter or a digit (a table's bar has none), without what is made."""
    return sum(any(map(str.isalnum, word)) for word in LIST.sub("", document.read_text()).split())


def write(counted):
    promises.write(promises.made())  # first, as documents quote them
    for document in documents():
        text = document.read_text()
        new = with_lists(FIGURE.sub(lambda match: f"<!--n:{match[1]}-->{counted.get(match[1], match[2])}<!---->", text))
        if new != text:
            document.write_text(new)


def main():
    words = sys.argv[1:]
    if words == ["words"]:
        counts = {document: words_in(document) for document in documents() if not is_made(document)}
        for document, count in counts.items():
            print(f"{count:6} {document.relative_to(TOP)}")
        print(f"{sum(counts.values()):6} words by hand")
        return
    files = tracked()
    counted = figures(files)
    if words == ["write"]:
        write(counted)
        return
    names = known(files)
    bad = 0
    for document in [pathlib.Path(name).resolve() for name in words] or documents():
        if is_made(document) and not words:
            continue
        for fault in sorted(set(faults(document, names, counted))):
            print(f"{document.relative_to(TOP)}: {fault}")
            bad += 1
    if not words:
        others = [TOP / name for name in files if name.endswith(".md") and not name.startswith("docs/") and TOP / name not in documents()]
        linked = [f"{other.relative_to(TOP)}: {fault}" for other in others for fault in link_faults(other, other.read_text())]
        for fault in sorted({*head_faults(files, names), *name_faults(files), *lemma_faults(files), *proved_faults(), *linked, *version_faults(), *bodies.faults(), *gate_faults()}):
            print(fault)
            bad += 1
        bad += promises.told(promises.made())
    print(f"documents: {bad} faults")
    sys.exit(1 if bad else 0)


if __name__ == "__main__":
    main()
