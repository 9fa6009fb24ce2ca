#!/usr/bin/env python3
"""Shows that the tests of JavaScript, Java and the page tell wrong bodies of them: each is put into a copy, and the tests of its language must fail there.

usage: clients/wrong_bodies.py [--list] [--jobs 2] [WORD..]      (numbers, languages, or words of what is wrong; all where none is named; so many at once)

On a quiet host COLUWEN_ONCE=1 takes half the time: a row that fails isn't played again then.
"""
import argparse
import concurrent.futures
import pathlib
import re
import shutil
import subprocess
import sys
import tempfile

HERE = pathlib.Path(__file__).resolve().parent
SOURCES = {"javascript": "javascript/src/{}.mjs", "java": "java/src/main/java/coluwen/{}.java", "page": "page/js/{}.js"}
TESTS = {"javascript": ["node", "--test", *(f"test/{name}.test.mjs" for name in ("behaviour", "client", "conformance", "core"))], "page": ["node", "--test", "test.mjs"]}
MOST = 900  # seconds that tests may take
# What is wrong, and in each language the file, what stands in it once, and what comes in its place.
BODIES = (
    ("a reservation is never raised",
     ("core", "const more = this.isFree && refusal.number !== 13 ?", "const more = false ?"),
     ("Core", "limits.isFree() && answer.refused() != 13 && to.nodes() > seat.reserved.nodes()", "false && to.nodes() < 0")),
    ("Score.flip keeps the sign",
     ("score", "new Score(0 - this.value, TURNED[this.sign]", "new Score(0 - this.value, this.sign"),
     ("Score", "sign == '<' ? '>' : sign == '>' ? '<' : '=', ends, side ==", "sign, ends, side ==")),
    ("Score.flip keeps the side", ("score", "this.ends, OTHER[this.side])", "this.ends, this.side)"), ("Score", "ends, side == 'X' ? 'O' : 'X')", "ends, side)")),
    ("all moves are unsorted",
     ("analyst", ".sort((one, other) => Score.compare(other.score, one.score))", ""),
     ("Analyst", ".sorted(Comparator.comparing(Entry::score).reversed())", ".sorted(Comparator.comparing(Entry::move))")),
    ("all moves begin with the worst", ("analyst", "Score.compare(other.score, one.score)", "Score.compare(one.score, other.score)"), ("Analyst", "Comparator.comparing(Entry::score).reversed()", "Comparator.comparing(Entry::score)")),
    ("a move's value is the opponent's", ("analyst", "new Score(0 - result.score.value", "new Score(0 + result.score.value"), ("Analyst", "new Score(-Calls.joined(questions.get(at)).score().value()", "new Score(Calls.joined(questions.get(at)).score().value()")),
    ("a pass takes a ply", ("analyst", "moves[0] === PASS ? depth : depth - 1", "depth - 1"), ("Analyst", "moves.contains(Position.PASS) ? depth : depth - 1", "depth - 1")),
    ("TooDeep says the depth that was asked", ("core", "Math.min(this.#info.sure, question.depth - 1)", "question.depth"), ("Core", "Math.min(info.sure(), question.depth - 1)", "question.depth")),
    ("TooDeep says the sure depth alone", ("core", "Math.min(this.#info.sure, question.depth - 1)", "this.#info.sure"), ("Core", "Math.min(info.sure(), question.depth - 1)", "info.sure()")),
    ("the grain is that of the last position", ("core", "grain = Math.min(grain, depth - 2);", "grain = depth - 2;"), ("Core", "grain = Math.min(grain, LEAST + job % DEPTHS - 2);", "grain = LEAST + job % DEPTHS - 2;")),
    ("a probe that was spent counts as done", ("core", 'if (job?.state === "DONE" && before', "if (before"), ("Core", "job >= 0 && (wasSpent || ", "job >= 0 && (")),
    ("there is no limit of sessions",
     ("core", "if (this.#seats.size >= this.#most) break;", ""),
     ("Core", "if (seats.size() >= most) break;", "")),
    ("lines aren't said ahead", ("core", "LEAST_FLYING] = [32, 8];", "LEAST_FLYING] = [32, 1e9];"), ("Core", "LEAST_FLYING = 8;", "LEAST_FLYING = 1 << 30;")),
    ("what a line said ahead is answered counts for another job", ("core", 'question.job === question.number && word === "WAIT"', 'word === "WAIT"'), ("Core", 'isRight && word.equals("WAIT")', 'word.equals("WAIT")')),
    ("a long job among those ahead is silence", ("core", 'now >= seat.deadline && seat.asked.word === "WAIT"', "false"), ("Core", 'now >= seat.deadline && seat.word().equals("WAIT")', "seat.jobs < 0")),
    ("256 jobs are forgotten", ("core", "seat.isRetired ||= seat.jobs >= MOST_JOBS;", ""), ("Core", "seat.isRetired |= seat.jobs >= MOST_JOBS;", "")),
    ("ERR 13 is a fault", ("core", "const USED_UP = [10, 11, 13];", "const USED_UP = [10, 11];"), ("Core", "USED_UP = List.of(10, 11, 13);", "USED_UP = List.of(10, 11);")),
    ("ahead is forgotten", ("core", "seat.running.size >= this.ahead ||", ""), ("Core", "seat.running.size() >= limits.ahead() ||", "")),
    ("what is spent isn't asked again", ("core", "if (seat.jobs > 1 || seat.level < top) {", "if (false) {"), ("Core", "if (seat.jobs > 1 || seat.level < top) {", "if (seat.level < 0) {")),
    ("what was spent isn't alone",
     ("core", "|| [...seat.running].some(({ isAlone }) => isAlone)) return null;", ") return null;"),
     ("Core", "|| seat.running.stream().anyMatch(one -> one.isAlone)) return null;", ") return null;")),
    ("the level that a depth needed is forgotten", ("core", "if (question.isAlone) this.#needs.set(question.depth, question.level);", ""), ("Core", "if (question.isAlone) needs.put(question.depth, question.level);", "")),
    ("a late job isn't cancelled", ("core", "const gone = [...seat.running].find((one) => one.isSettled || now >= one.until);", "const gone = [...seat.running].find((one) => now >= one.until + 1e9);"), ("Core", "one -> one.isSettled || now >= one.until", "one -> now >= one.until + 1e9")),
    ("a slow answer keeps who gave up waiting", ("core", "if (now >= one.limit) this", "if (false) this"), ("Core", "if (now >= one.limit) settle", "if (now < 0) settle")),
    ("CANCEL that came too late is a fault", ("core", "if (answer) this.#settle(question, { fault: late(question) });", "this.#settle(question, { fault: late(question) });"), ("Core", "if (answer.refused() == 0) settle(question, question.late());", "settle(question, question.late());")),
    ("silence is for ever", ("core", "if (now >= seat.deadline) this", "if (false) this"), ("Core", "if (now >= seat.deadline) lost", "if (now < 0) lost")),
    ("silence isn't asked again", ("core", "isGivenUp = isSilent && !this.#isOutage(now);", "isGivenUp = isSilent;"), ("Core", "var isGivenUp = isSilent && !isOutage();", "var isGivenUp = isSilent;")),
    ("silence isn't doubled", ("core", "this.silence * 2 ** this.#silences", "this.silence"), ("Core", "limits.silence() * Math.pow(2, silences)", "limits.silence()")),
    ("a loss is one for ever", ("core", "if (one.losses >= LOSSES ||", "if ("), ("Core", "if (one.losses >= LOSSES ||", "if (")),
    ("a loss ends the question", ("core", "const LOSSES = 4;", "const LOSSES = 1;"), ("Core", "int LOSSES = 4;", "int LOSSES = 1;")),
    ("a full server isn't asked again", ("core", "const LATER = [14, 19, 31];", "const LATER = [];"), ("Core", "LATER = List.of(14, 19, 31);", "LATER = List.of();")),
    ("a token that nobody has is asked again", ("core", "const LATER = [14, 19, 31];", "const LATER = [14, 19, 30, 31];"), ("Core", "LATER = List.of(14, 19, 31);", "LATER = List.of(14, 19, 30, 31);")),
    ("too many lines in a time are a fault", ("core", "if (refusal.number === RATE &&", "if (false &&"), ("Core", "if (answer.refused() == RATE &&", "if (false &&")),
    ("a full server ends what others could do", ("core", "if (isLater && [...this.#seats].some(({ isReady }) => isReady)) return", "if (false) return"), ("Core", "if (isLater && seats.stream().anyMatch(one -> one.isReady)) {", "if (now < 0) {")),
    ("a closed client goes on", ("core", "if (this.#isEnded) this.#settle", "if (false) this.#settle"), ("Core", "if (isEnded) settle(", "if (now < 0) settle(")),
    ("what waits isn't told that the client was closed", ("core", "for (const one of seat.running) this.#settle(one, { fault: closed() });", ""), ("Core", "for (var one : seat.running) settle(one, new Closed(\"client\"));", "")),
    ("BYE is said behind a line that isn't answered", ("core", "if (seat.isIdle) this.#send(seat, \"BYE\", now);", "if (seat.isReady) this.#send(seat, \"BYE\", now);"), ("Core", "if (seat.isIdle()) send(seat, \"BYE\", null);", "if (seat.isReady) send(seat, \"BYE\", null);")),
    ("what wasn't asked is taken", ("core", "if (unasked || isNone) throw", "if (false) throw"), ("Core", "(lines.size() == 1 && end < rest.length() - 1)) throw", "jobs < 0) throw")),
    ("endless bytes are read", ("core", "if (this.#rest.length >= LONGEST) throw", "if (false) throw"), ("Core", "if (rest.length() >= Answer.LONGEST) throw", "if (jobs < 0) throw")),
    ("another job's answer is taken", ("answers", "A, B, J: jobs + 1", "A: SIGNS.N, B: SIGNS.N, J: jobs + 1"), ("Answer", '"A", words[1], "B", words[2]', '"A", "(0|[1-9][0-9]{0,7})", "B", "(0|[1-9][0-9]{0,7})"')),
    ("128001 is a value", ("answers", " || isTooGreat", ""), ("Answer", " || values.anyMatch(each -> Math.abs(each) > Score.GREATEST)", "")),
    ("a move stands twice in a table", ("answers", " || isTwice", ""), ("Answer", " || isTwice", "")),
    ("one direction flips nothing", ("board", "[-1, 0, 1].flatMap((down) => [-1, 0, 1].map(", "[-1, 0, 1].flatMap((down) => [0, 1].map("), ("Position", "for (int way = 0;", "for (int way = 1;")),
    ("nobody passes", ("board", "squares : [PASS];", "squares : [];"), ("Position", "? found : List.of(PASS);", "? found : List.of();")),
    ("black's number is the mover's", ("score", 'this.side === "X" ? this.mover : 0 - this.mover', "this.mover"), ("Score", "return side == 'X' ? mover() : -mover();", "return mover();")),
    ("a wrong depth is sent", ("analyst", "if (!Number.isInteger(depth) || depth < 0 || depth > DEEPEST) throw", "if (false) throw"), ("Calls", 'within("a depth", 0, depth, Core.DEEPEST)', 'within("a depth", -99, depth, 99)')),
    ("an endless source is taken without end", ("analyst", "&& taken.size < window) take()", ") take()"), ("Analyst", "new Semaphore(how.window() - 1)", "new Semaphore(1 << 30)")),
    ("many answers come in any order", ("analyst", 'const [next] = order === "asked" ? taken.keys() : known;', "const [next] = known;"), ("Analyst", "(!how.isOrdered() || known.firstKey() == given)", "taken >= 0")),
    ("what the caller leaves isn't cancelled", ("analyst", 'for (const stop of taken.values()) stop.abort(new ColuwenError("the answers aren\'t wanted any more"));', ""), ("Analyst", "left.forEach(future -> future.cancel(true));", "")),
    ("an aborted question stays", ("client", 'signal?.addEventListener("abort", leave);', ""), ("Client", "if (future.isCancelled()) act(", "if (false) act(")),
    ("a full server isn't told", ("core", '[this.#wasTold] = [true, this.#tell("full", refusal)]', "this.#wasTold = true"), ("Core", 'hands.tell().accept("full", answer.refusal());', "")),
)  # fmt: skip

# The same of the board's page.
PAGE = (
    ("a square has Black's sign where nothing is chosen", ("state", 'sign: "mover", // of points', 'sign: "black", // of points')),
    ("another's win is written as one's own", ("scores", "const won = (score) => (score.discs < 0 ? flipped(score) : score);", "const won = (score) => (score.discs < 0 ? { ...score, discs: -score.discs } : score);")),
    ("the first turn of a game is said to have lost it", ("judge", "results.findLastIndex((result, number)", "results.findIndex((result, number)")),
    ("the winner's fall is said to have lost the game", ("judge", "const node = fallOf(line.slice(0, first), analyst, loser);", "const node = fallOf(line.slice(0, first), analyst);")),
    ("a variation takes a mistake's marks away", ("app", "if (mistake && tree.left !== mistake.parent)", "if (mistake && tree.current !== mistake.parent)")),
    ("a line of any length is read", ("formats/read", "if (length > LONGEST_LINE) throw", "if (length < 0) throw")),
    ("many games are one step", ("formats/read", "      yield found.games.length;\n", "")),
    ("a line from a search less deep counts as the last one's", ("analyst", ".every((move) => known.lines.has(move))", ".every(() => known.line.length > 0)")),
)


def changed(language, name, old, new):
    """A source, and its text with a change."""
    path = pathlib.Path(SOURCES[language].format(name))
    text = (HERE / path).read_text()
    if text.count(old) != 1:
        sys.exit(f"{path} has {old!r} {text.count(old)} times")
    return path, text.replace(old, new)


def wrong():
    for what, javascript, java in BODIES:
        yield from ((what, language, change) for language, change in (("javascript", javascript), ("java", java)) if change)
    yield from ((what, "page", change) for what, change in PAGE)


def by_java(bodies, jobs):
    """The same of Java's bodies, by one virtual machine (clients/java/WrongBodies.java): the number and what is said of each. The first has no change."""
    with tempfile.TemporaryDirectory() as room:
        room = pathlib.Path(room)
        for name in ("main", "tests"):
            subprocess.run([HERE / "java/build", name, room / name], check=True)
        for number, change in [(0, None), *bodies]:
            (room / str(number)).mkdir()
            if change:
                path, text = changed("java", *change)
                (room / str(number) / path.name).write_text(text)
        (room / "logging").write_text(".level=OFF\n")
        jars = subprocess.run([HERE / "java/build", "path"], check=True, stdout=subprocess.PIPE, text=True).stdout.strip()
        words = ["java", f"-Djava.util.logging.config.file={room}/logging", f"-Dclients={HERE}", "-cp", jars, HERE / "java/WrongBodies.java", str(jobs), room / "main", room / "tests"]
        with subprocess.Popen([*words, *(room / str(number) for number in (0, *dict(bodies)))], stdout=subprocess.PIPE, text=True) as process:
            for line in process.stdout:
                number, state, *said = line.rstrip("\n").split("\t")
                yield int(number), state, "".join(said)


def tried(language, change=None):
    """How the tests of a copy end: their status, and what they say."""
    with tempfile.TemporaryDirectory() as folder:
        clients = pathlib.Path(folder, "clients")
        for name in {"behaviour", "page", language}:
            shutil.copytree(HERE / name, clients / name, symlinks=True, ignore=shutil.ignore_patterns("target", "node_modules"))
        shutil.copytree(HERE / "python/tests/fixtures", clients / "python/tests/fixtures")
        for name in ("conformance.txt", "spellings.txt"):
            shutil.copy(HERE / name, clients)
        shutil.copytree(HERE.parent / "docs", clients.parent / "docs", ignore=shutil.ignore_patterns("promises", "*.png"))
        if change:
            path, text = changed(language, *change)
            (clients / path).write_text(text)
        try:
            done = subprocess.run(TESTS[language], cwd=clients / language, capture_output=True, text=True, check=False, timeout=MOST)
        except subprocess.TimeoutExpired:
            return 1, "they don't end"
        said = done.stdout + done.stderr
        if "SyntaxError" in said:
            sys.exit(f"{change} is no program:\n{done.stderr[-1500:]}")
        return done.returncode, said


def main():
    given = argparse.ArgumentParser(description=__doc__, formatter_class=argparse.RawDescriptionHelpFormatter)
    given.add_argument("--list", action="store_true")
    given.add_argument("--jobs", type=int, default=2)
    given.add_argument("words", nargs="*", metavar="WORD")
    given = given.parse_args()
    words = given.words
    chosen = [(number, *one) for number, one in enumerate(wrong(), 1) if not words or any(word in (str(number), one[1]) or (not word.isdigit() and word in one[0]) for word in words)]
    for _, _, language, change in chosen:
        changed(language, *change)
    if given.list:
        print(*(f"{number:>3} {language}: {what}" for number, what, language, _ in chosen), sep="\n")
        return 0
    missed = []

    def say(number, is_told, said):
        what, language = next((what, language) for each, what, language, _ in chosen if each == number)
        print(f"{number:>3} {language}: {what}: {f'told by {said}' if is_told else 'PASSES'}", flush=True)
        if not is_told:
            missed.append(number)

    def one(language, number, change):
        status, said = tried(language, change)
        say(number, status, ", ".join([name for name in re.findall(r"not ok \d+ - (.*)", said) if name != "behaviour rows"][:3]))

    bodies = {wanted: [(number, change) for number, _, language, change in chosen if language == wanted] for wanted in SOURCES}
    for language in TESTS:
        if not bodies[language]:
            continue
        status, said = tried(language)
        if status:
            sys.exit(f"{language}: the tests fail where nothing is wrong:\n" + "\n".join(line for line in said.splitlines() if "not ok" in line or "rror" in line))
        with concurrent.futures.ThreadPoolExecutor(given.jobs) as threads:
            list(threads.map(lambda each, language=language: one(language, *each), bodies[language]))
    for number, state, said in by_java(bodies["java"], given.jobs) if bodies["java"] else ():
        if state == "no program" or number == 0 and state != "passes":
            sys.exit(f"java: {f'body {number} is no program' if number else 'the tests fail where nothing is wrong'}: {said}")
        if number:
            say(number, state == "told", said)
    print(f"of {len(chosen)} wrong bodies {len(chosen) - len(missed)} are told" + (f"; not {sorted(missed)}" if missed else ""))
    return 1 if missed else 0


if __name__ == "__main__":
    sys.exit(main())
