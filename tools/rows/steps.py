#!/usr/bin/env python3
"""Writes texts of steps for the program `transcripts`: lists that are drawn from a seed, with the answers and the looks that a
core by the tables gives (core.py, procedures.py), which shares no code with the crates.

usage: tools/rows/steps.py FOLDER [SEED]      (seed 1; tools/rows/make.py makes all)

It ends badly unless every refusal of every kind of step was met that a list can meet.
"""
import collections
import pathlib
import random
import sys

import core as scheduling
import othello
from procedures import BEST, ZERO, Chain, Fan, Jamboree, Reader, Spin

# what a list can be refused by, by kind of step
REFUSALS = {
    "Admit": [18, 14], "AdmitMore": [1, 20, 14], "Submit": [1, 15, 13, 11, 10], "Take": [1, 2, 3, 4, 12, 5],
    "Steal": [1, 2, 3, 4, 12, 5], "Advance": [1, 2, 6, 12, 15, 11, 10], "Answer": [1, 2, 7, 8, 12, 15],
    "Inlet": [1, 2, 9, 12, 15, 5], "Finish": [1, 2, 9, 12, 5], "Spend": [1, 2, 16], "Cancel": [1, 17], "Leave": [1],
}

# the words that roots of Reader begin with, in octal: acts, the children's, and what their inlets do
READER = [
    (0o43, 0o5), (0o4333, 0o51, 0, 1), (0o44433, 0o43, 0, 2), (0o433, 0o443), (0o43335, 0o522), (0o33335,),
    (0o2222222222222222,), (0o1215,), (0o7,), (0o71,), (0,), (0o6,), (0o61,), (0o53, 0o5), (0o43, 0o5, 0, 3), (0o43, 0, 0, 3),
    (0o5,), (0o15,), (0o33333,), (0o5455,), (0o43, 0o7), (0o433, 0),
]
SIZES = [4, 4, 4, 4, 4, 20, 1, 2, 3, 0, 128, 129]


# searches whose reservations are tried: grain, depth, and the turns before the position
RESERVED = [(0, 1, 0), (0, 1, 30), (3, 2, 20), (0, 1, 40), (2, 3, 44), (0, 2, 52), (2, 4, 54), (0, 3, 56), (1, 4, 57), (0, 5, 58)]

WANTS = [("Err", scheduling.NUMBERS[name]) for name in ("NoNodes", "NoSegments", "NoSteps")]


class List:
    """A list of steps by one procedure, and its text."""

    def __init__(self, seed, procedure, segments, nodes, met, workers=8):
        self.random = random.Random(seed)
        self.procedure, self.workers, self.met = procedure, workers, met
        self.core = scheduling.Core(procedure, segments, nodes)
        self.lines = [f"= core {procedure.name} segments {segments} nodes {nodes}"]
        if getattr(procedure, "grain", 0):
            self.lines[0] += f" grain {procedure.grain}"
        self.count, self.heard, self.steps, self.answers = 0, [], [], []

    def take(self, *step):
        """Takes a step, and writes it with its answer."""
        answer = self.core.step(step)
        self.lines.append(f"{scheduling.step_text(step)} -> {scheduling.answer_text(answer)}")
        self.count += 1
        self.steps.append(step)
        self.answers.append(answer)
        self.met[step[0], answer[1] if answer[0] == "Err" else answer[0]] += 1
        for word in answer[1:]:
            if isinstance(word, tuple) and len(word) == 2:
                self.heard = self.heard[-24:] + [word]
        return answer

    def look(self, number):
        """Writes some looks at a tenant and at the core."""
        looks = scheduling.looks_at_tenant(self.core, number) + scheduling.looks_at_core(self.core)
        looks = self.random.sample(looks, 2)
        tenant = self.core.tenants.get(number)
        serials = list(tenant.frames) if tenant else []
        serial = self.random.choice(serials) if serials else 1
        looks.append(scheduling.look_at_frame(self.core, (number, serial)))
        looks.append(scheduling.look_at_job(self.core, number, self.random.randrange(len(tenant.jobs) + 2) if tenant else 1))
        self.lines += [f"{asked} = {seen}" for asked, seen in looks]

    def look_at_core(self):
        self.lines += [f"{asked} = {seen}" for asked, seen in scheduling.looks_at_core(self.core)]

    def look_at_all(self):
        """Writes all that is read."""
        looks = scheduling.looks_at_core(self.core)
        for number, tenant in self.core.tenants.items():
            looks += scheduling.looks_at_tenant(self.core, number)
            looks += [scheduling.look_at_job(self.core, number, job) for job in range(len(tenant.jobs) + 2)][:40]
            looks += [scheduling.look_at_frame(self.core, (number, serial)) for serial in tenant.frames][:40]
        self.lines += [f"{asked} = {seen}" for asked, seen in looks]

    # drawing

    def worker(self):
        return self.random.randint(1, self.workers)

    def number(self):
        """A tenant's number, mostly of one that is there."""
        there = list(self.core.tenants)
        return self.random.choice(there) if there and self.random.randrange(12) else self.random.randrange(1, self.core.newest + 3)

    def name(self):
        """A frame's name: one that is there, one that was heard of, or any."""
        kind = self.random.randrange(8)
        if kind == 0 and self.heard:
            return self.random.choice(self.heard)
        number = self.number()
        tenant = self.core.tenants.get(number)
        if kind == 1 or not tenant or not tenant.frames:
            return number, self.random.randrange(12)
        return number, self.random.choice(list(tenant.frames)[-12:])

    def submit(self, number):
        if isinstance(self.procedure, Jamboree):
            board, player = othello.game(self.random, self.random.randrange(61))
            return "Submit", number, *self.procedure.root(board, player, self.random.choice([0, 1, 1, 2, 2, 3]))
        if isinstance(self.procedure, Reader):
            return "Submit", number, self.random.choice(SIZES), *self.random.choice(READER)
        if isinstance(self.procedure, Chain):
            return "Submit", number, self.random.choice([20, 20, 20, 3, 1, 129]), self.random.randrange(4), self.random.choice([0, 0, 1, 2])
        kinds = [0, 0, 0, 2, 1, 3]
        return "Submit", number, self.random.choice([4, 4, 4, 4, 3, 2, 1, 0]), self.random.choice(kinds), self.random.choice([0, 0, 0, 4, 1])

    def answer(self, frame, right):
        asked = self.procedure.input(frame.words)
        if not right:
            asked = (asked[0], asked[1], 0, asked[3], asked[4] + 1) if isinstance(asked, tuple) else asked + 1
            if isinstance(asked, tuple) and asked[4] > 200000:
                asked = (asked[0], asked[1], 0, asked[3] - 1 if asked[3] > -200000 else asked[3] + 1, 200000)
        answer = self.procedure.answer(self.random, asked)
        return answer

    def next_of(self, name):
        """What comes next of a frame, or of its tenant."""
        frame = self.core.find(name)
        if frame is None or frame.state == ("Waiting",):
            newest = self.core.newest_ready(name[0])
            if newest is None:
                return self.submit(name[0])
            name, frame = (name[0], newest), self.core.find((name[0], newest))
        kind, worker = frame.state[0], self.worker()
        if kind == "Ready":
            home = frame.state[1]
            return ("Take", worker, name) if home == worker else ("Steal", worker, home, name)
        if kind == "Running":
            return "Advance", frame.state[1], name
        if kind == "Computing":
            return "Answer", frame.state[1], name, self.answer(frame, self.random.randrange(5) > 0)
        return ("Finish" if len(frame.path) == 1 else "Inlet"), worker, name

    def any_step(self, name):
        """A step without regard to what the frame is doing."""
        kind = self.random.choice(list(REFUSALS))
        if kind in ("Take", "Advance", "Inlet", "Finish"):
            return kind, self.worker(), name
        frame = self.core.find(name)
        if kind == "Steal":
            return kind, self.worker(), frame.state[1] if frame and frame.state[0] == "Ready" and self.random.randrange(2) else self.random.randrange(6), name
        if kind == "Answer":
            if frame is None and isinstance(self.procedure, Jamboree):
                return "Spend", name
            answer = self.answer(frame, True) if frame else self.procedure.answer(self.random, 1)
            return kind, self.worker(), name, answer
        if kind == "Spend":
            return kind, name
        if kind == "Cancel":
            tenant = self.core.tenants.get(name[0])
            return kind, name[0], self.random.randrange(len(tenant.jobs) + 2 if tenant else 2)
        if kind == "Admit":
            return kind, self.random.randrange(self.core.newest + 3), self.random.choice([1, 2, 4, 8]), self.random.choice([1, 2, 8, 20])
        if kind == "AdmitMore":
            tenant = self.core.tenants.get(name[0])
            segments, nodes = (tenant.segments, tenant.nodes) if tenant else (2, 8)
            return kind, name[0], max(1, segments + self.random.randrange(-1, 3)), max(1, nodes + self.random.randrange(-1, 4))
        if kind == "Leave":
            return (kind, name[0]) if self.random.randrange(6) == 0 or name[0] not in self.core.tenants else self.submit(name[0])
        return self.submit(name[0])

    def draw(self):
        """A step. One that would be refused is mostly drawn again."""
        step = None
        for _ in range(5):
            name = self.name()
            step = self.any_step(name) if self.random.randrange(5) == 0 else self.next_of(name)
            if self.random.randrange(4) == 0 or self.is_taken(step):
                break
        return step

    def is_taken(self, step):
        """A guess: whether a step will be taken, by its frame's state alone."""
        names = [word for word in step[1:] if isinstance(word, tuple) and len(word) == 2]
        if step[0] in ("Take", "Steal", "Inlet", "Finish") and self.core.is_busy(step[1]):
            return False
        return not names or self.core.find(names[0]) is not None

    def run(self, count):
        """Draws steps until there are so many."""
        while self.count < count:
            step = self.draw()
            self.take(*step)
            if self.random.randrange(20) == 0:
                self.look(step[1] if isinstance(step[1], int) and step[0] in ("Submit", "Cancel", "Admit", "AdmitMore", "Leave") else [word for word in step if isinstance(word, tuple) and len(word) == 2][0][0])
        self.look_at_all()


def tenants(drawn, reserves):
    """Admits tenants of these reservations, under rising numbers."""
    number = 0
    for segments, nodes in reserves:
        number += drawn.random.choice([1, 1, 3])
        drawn.take("Admit", number, segments, nodes)


def jobs(seed, met):
    """A list of a tenant with 256 jobs, and one more; another has all its steps used up."""
    drawn = List(seed, Reader(), 300, 400, met)
    drawn.take("Admit", 4, 280, 300)
    drawn.take("Admit", 9, 2, 1)
    for _ in range(257):
        drawn.take("Submit", 4, 4, 0o43, 0o5)
    drawn.take("Cancel", 4, 256)
    drawn.take("Submit", 4, 4, 0)
    drawn.run(420)
    return drawn


def out_of_steps(seed, met):
    """A tenant has a frame in each state when its last step is used up; then each step of a worker is tried on each."""
    drawn = List(seed, Reader(), 64, 64, met)
    drawn.take("Admit", 5, 12, 8)
    # a child that has returned while its parent waits, a root that has, one that computes, one that nobody took
    for worker, job, words in [(1, 1, (0o43, 0)), (2, 2, (0,)), (3, 3, (5,)), (4, 4, (7,))]:
        drawn.take("Submit", 5, 4, *words)
        root = (5, drawn.core.tenants[5].serials)
        if job < 4:
            drawn.take("Steal", worker, 0, root)
            drawn.take("Advance", worker, root)
        if job == 1:
            child = (5, drawn.core.tenants[5].serials)
            for step in [("Advance", 1, root), ("Take", 1, child), ("Advance", 1, child)]:
                drawn.take(*step)
    # one that opens a child, which stays ready, and goes on until no step is left
    drawn.take("Submit", 5, 4, 0o73, 0)
    root = (5, drawn.core.tenants[5].serials)
    drawn.take("Steal", 5, 0, root)
    while drawn.take("Advance", 5, root)[0] != "Err":
        pass
    for serial in list(drawn.core.tenants[5].frames):
        name, frame = (5, serial), drawn.core.find((5, serial))
        by = frame.state[1] if len(frame.state) > 1 else 1
        for step in [("Take", max(by, 1), name), ("Steal", 8, by, name), ("Advance", max(by, 1), name),
                     ("Answer", max(by, 1), name, (drawn.procedure.input(frame.words),)), ("Inlet", 8, name), ("Finish", 8, name)]:
            drawn.take(*step)
    drawn.look_at_all()
    # more is reserved, and all goes on; what was spent before stays so
    drawn.take("Spend", (5, 1))
    drawn.take("AdmitMore", 5, 12, 9)
    drawn.run(260)
    return drawn


GREATEST = (1 << 64) - 1


def roots(drawn, size, words):
    """A root with these words does its first act; what it did is looked at, and its job cancelled."""
    _, job, root = drawn.take("Submit", 1, size, *words)
    drawn.take("Steal", 1, 0, root)
    drawn.take("Advance", 1, root)
    drawn.lines.append("{} = {}".format(*scheduling.look_at_frame(drawn.core, root)))
    drawn.take("Cancel", 1, job)


def fan_tables(met):
    """Each line of Fan's table, and what a parent of each kind does about a child."""
    drawn = List("tables", Fan(), 64, 400, met)
    drawn.take("Admit", 1, 60, 200)
    for kind in (0, 1, 2, 3, GREATEST):
        for count in (0, 1, 2, 3, 4, 5, 6, GREATEST):
            roots(drawn, 4, (kind, count, 77))
    for kind in (0, 2):
        for had in (0, 6, GREATEST):
            _, job, root = drawn.take("Submit", 1, 4, kind, 0, had)
            drawn.take("Steal", 1, 0, root)
            child = drawn.take("Advance", 1, root)[1]
            drawn.take("Steal", 2, 1, child)
            drawn.take("Advance", 2, child)
            drawn.take("Answer", 2, child, (1, 7))
            drawn.take("Advance", 2, child)
            drawn.take("Inlet", 2, child)
            drawn.lines.append("{} = {}".format(*scheduling.look_at_frame(drawn.core, root)))
            drawn.take("Cancel", 1, job)
    return [drawn]


def chain_tables(met):
    """What a frame of Chain does at each count and stage."""
    drawn = List("tables", Chain(), 64, 400, met)
    drawn.take("Admit", 1, 60, 100)
    for count in (0, 1, 2, GREATEST):
        for stage in (0, 1, 2, 3, GREATEST):
            roots(drawn, 20, (count, stage))
    return [drawn]


def spin_tables(met):
    """Spin goes on, whatever its word."""
    drawn = List("tables", Spin(), 8, 20, met)
    drawn.take("Admit", 1, 4, 8)
    for word in (0, 1, GREATEST):
        roots(drawn, 1, (word,))
    return [drawn]


def openings(met):
    """The opening to depth 0, 1 and 2, each by one worker that takes the newest ready frame, with 8 segments and some nodes."""
    lists = []
    for depth, nodes in [(0, 8), (1, 8), (2, 32), (2, 6)]:
        drawn = List("opening", Jamboree(), 8, 32, met)
        drawn.take("Admit", 1, 8, nodes)
        drawn.take("Submit", 1, *Jamboree.root(othello.OPENING, "X", depth))
        follow(drawn)
        drawn.look_at_all()
        lists.append(drawn)
    # what is known of the second: 5 nodes and 32 steps are used, and the value is -3 by d3
    known = lists[1].core.tenants[1]
    assert known.left() == (8, 3, 96) and known.jobs[0][1][8:10] == [999997, 19]
    return lists


def orders(seed, met):
    """The searches of four tenants by eight workers in an order that is drawn, to their ends, at each grain. Each value is the
    minimax value, whatever was stolen, aborted, or answered too late."""
    lists, late = [], 0
    for grain, depth in [(0, 2), (1, 3), (2, 3)]:
        drawn = List(f"{seed} {grain} {depth}", Jamboree(grain), 1200, 16000, met)
        asked = {}
        for number, turns in enumerate((8, 20, 33, 50), 1):
            asked[number] = othello.game(drawn.random, turns)
            drawn.take("Admit", number, 300, 4000)
            drawn.take("Submit", number, *Jamboree.root(*asked[number], depth))
        workers = [None] * 9
        tenants = drawn.core.tenants
        while any(tenant.frames for tenant in tenants.values()):
            worker = drawn.random.randint(1, 8)
            workers[worker], was_late = turn(drawn, worker, workers[worker])
            late += was_late
        for number, (board, player) in asked.items():
            value, _ = othello.minimax(board, player, depth)
            assert tenants[number].jobs[0][1][BEST] == value + ZERO
            for at in (0, 1, 2):
                drawn.lines.append("{} = {}".format(*scheduling.look_at_job(drawn.core, number, at)))
            drawn.look(number)
        lists.append(drawn)
    assert late, "no answer came too late"
    return lists


def turn(drawn, worker, at):
    """What a worker does next: at what it is then, and whether its answer came too late."""
    if at is None:
        ready = [(number, serial) for number, tenant in drawn.core.tenants.items() for serial, frame in tenant.frames.items() if frame.state[0] == "Ready"]
        if not ready:
            return None, False
        name = drawn.random.choice(ready)
        home = drawn.core.find(name).state[1]
        drawn.take(*(("Take", worker, name) if home == worker else ("Steal", worker, home, name)))
        return ("Advance", name), False
    kind, name, *words = at
    answer = drawn.take(kind, worker, name, *words)
    if answer[0] in ("Spawned", "Waited") and drawn.random.randrange(4) == 0:
        drawn.lines.append("{} = {}".format(*scheduling.look_at_frame(drawn.core, name)))
    if answer[0] == "Computing":
        return ("Answer", name, answer[-1]), False
    if answer[0] == "Returned":
        return ("Finish" if answer[-1] is True else "Inlet", name), False
    return (("Advance", name) if answer[0] in ("Grew", "Spawned", "Answered") else None), kind == "Answer" and answer[0] == "Err"


def enough(empty, most, plies):
    """The segments and nodes that suffice for a search in any order, by its position's empty squares, and choices at most."""
    if plies == 0:
        return 1, 1
    left = max(empty - 1, 0)
    segments, nodes = enough(left, min(left, 56), plies - 1)
    return 1 + scheduling.charge(12 + most) + most * segments, 2 + max(2 * most - 1, 0) * nodes


def takes(grain, least, depth, board, player):
    """What a search takes at most by its own choices: the segments that it has at once; and the nodes, in a window of width one, and in another."""
    found = othello.choices(board, player) if depth > least else []
    below = [takes(grain, grain, depth - othello.plies(choice), othello.after(board, player, choice), othello.other(player)) for choice in found]
    tests = sum(each[1] for each in below)
    return (scheduling.charge(12 + len(found)) + sum(each[0] for each in below), 1 + tests,
            1 + sum(each[2] for each in below) + sum(each[1] for each in below[1:]))


def search(seed, met, grain, depth, asked, segments, nodes):
    """A search with so much reserved, by eight workers in an order that is drawn, to its end; and the most segments that it had."""
    drawn, workers, most = List(seed, Jamboree(grain), segments, nodes, met), [None] * 9, 0
    drawn.take("Admit", 1, segments, nodes)
    drawn.take("Submit", 1, *Jamboree.root(*asked, depth))
    while drawn.core.tenants[1].frames:
        worker = drawn.random.randint(1, 8)
        workers[worker], _ = turn(drawn, worker, workers[worker])
        assert drawn.answers[-1] not in WANTS, "refused for want of what suffices"
        most = max(most, segments - drawn.core.tenants[1].left()[0])
    drawn.lines.append("{} = {}".format(*scheduling.look_at_job(drawn.core, 1, 1)))
    return drawn, most


def again(drawn, name, segments, nodes, met):
    """The same steps with another reservation, until one is refused for want of it: there the job is spent."""
    same, number = List(name, drawn.procedure, segments, nodes, met), scheduling.NUMBERS[name]
    for step in drawn.steps:
        step = ("Admit", 1, segments, nodes) if step[0] == "Admit" else step
        if same.take(*step) == ("Err", number):
            assert same.take("Spend", step[2]) == ("Spent", 1)
            break
    else:
        assert False, f"never refused: {name}"
    return same


def reserved(seed, met):
    """Searches with just what they take at most reserved, by their own choices: in no order that is drawn is a step refused for want of a node,
    a segment or a step, and each job is done. With a node fewer than it used, and with a segment fewer than it had at once, the same order is
    spent. What suffices by empty squares and discs is never less."""
    lists, drawing = [], random.Random(seed)
    for grain, depth, turns in RESERVED:
        board, player = othello.game(drawing, turns)
        segments, _, nodes = takes(grain, 0, depth, board, player)
        empty = board.count("-")
        sufficing = enough(empty, min(empty, 56, 8 * max(board.count("X"), board.count("O"))), max(1, depth - grain))
        assert segments <= sufficing[0] and nodes <= sufficing[1]
        drawn, most = search(f"{seed} {grain} {depth} {turns}", met, grain, depth, (board, player), segments, nodes)
        job, used = drawn.core.tenants[1].jobs[0], drawn.core.tenants[1].serials
        assert job[0] == "done" and job[1][BEST] == othello.minimax(board, player, depth)[0] + ZERO
        lists.append(drawn)
        if used > 1:
            lists += [again(drawn, "NoNodes", segments, used - 1, met), again(drawn, "NoSegments", most - 1, nodes, met)]
    return lists


def crowd(met):
    """64 tenants at once, one with a segment and the next with two: there is no place for a 65th, and some numbers can't be taken at
    all; one of the 64 reserves more. Once all have left, 64 more come under numbers of their own."""
    drawn, last = List("crowd", Fan(), 159, 159, met), scheduling.LAST_TENANT
    for number in range(1, 65):
        drawn.take("Admit", number, 1 + number % 2, 1 + number % 2)
    for number in (65, 64, 0, last, last + 1):
        drawn.take("Admit", number, 1, 1)
    drawn.take("AdmitMore", 7, 65, 65)
    for number in (*range(1, 65), 64):
        drawn.take("Leave", number)
    drawn.take("Admit", 64, 1, 1)
    drawn.look_at_core()
    for number in range(65, 129):
        drawn.take("Admit", number, 1 + number % 2, 1 + number % 2)
    drawn.take("Admit", 129, 1, 1)
    return drawn


def all_jobs(met):
    """A tenant has 256 jobs: the next is refused, also after one has ended."""
    drawn = List("all jobs", Fan(), 300, 300, met)
    drawn.take("Admit", 1, 300, 300)
    for _ in range(256):
        drawn.take("Submit", 1, 4, 0, 0)
    drawn.look_at_core()
    drawn.take("Submit", 1, 4, 0, 0)
    for job in (256, 256, 257):
        drawn.take("Cancel", 1, job)
    drawn.take("Submit", 1, 4, 0, 0)
    drawn.look_at_core()
    return drawn


def greatest(met):
    """The greatest core has room for 16 tenants that each reserve the most."""
    drawn = List("greatest", Fan(), 65536, 4194304, met)
    for number in range(1, 17):
        drawn.take("Admit", number, 4096, 65536)
    drawn.take("Admit", 17, 1, 1)
    drawn.take("AdmitMore", 3, 4096, 65536)
    drawn.look_at_core()
    return drawn


def follow(drawn):
    """Worker 1 does tenant 1's job."""
    while (newest := drawn.core.newest_ready(1)) is not None:
        name = (1, newest)
        home = drawn.core.find(name)
        step = ("Take", 1, name) if home.state[1] == 1 else ("Steal", 1, home.state[1], name)
        while step:
            answer = drawn.take(*step)
            step = {"Took": ("Advance", 1, name), "Grew": ("Advance", 1, name), "Spawned": ("Advance", 1, name),
                    "Answered": ("Advance", 1, name), "Computing": ("Answer", 1, name, answer[-1]),
                    "Returned": ("Finish" if answer[-1] is True else "Inlet", 1, name), "Err": ("Spend", name)}.get(answer[0])
            drawn.look(1)


def write(folder, name, lists, text):
    lines = [f"# {line}" for line in text]
    for drawn in lists:
        lines += [""] + drawn.lines
    (folder / f"drawn_{name}.steps").write_text("\n".join(lines) + "\n")
    return sum(drawn.count for drawn in lists)


def main():
    folder = pathlib.Path(sys.argv[1])
    seed = int(sys.argv[2]) if len(sys.argv) > 2 else 1
    met = collections.Counter()
    text = [f"Made by `tools/rows/steps.py FOLDER {seed}` from that seed: don't edit."]
    total = 0
    plans = {
        "reader": (Reader, 24, 600, (24, 90), [(6, 40), (8, 24), (3, 2), (5, 6)]),
        "fan": (Fan, 6, 450, (30, 90), [(8, 30), (5, 20), (3, 8), (1, 1)]),
        "chain": (Chain, 3, 400, (40, 90), [(12, 30), (6, 20), (5, 3)]),
        "spin": (Spin, 2, 250, (6, 12), [(1, 1), (2, 3), (2, 6)]),
        "jamboree": (Jamboree, 4, 500, (120, 900), [(40, 300), (30, 200), (8, 40), (2, 8)]),
    }
    for name, (procedure, count, steps, (segments, nodes), reserves) in plans.items():
        lists = []
        for number in range(count):
            drawn = List(f"{seed} {name} {number}", procedure(), segments, nodes, met)
            tenants(drawn, reserves)
            drawn.run(steps)
            lists.append(drawn)
        first = {"fan": fan_tables, "chain": chain_tables, "spin": spin_tables, "jamboree": openings}.get(name)
        if first:
            lists = first(met) + lists
        if name == "jamboree":
            lists += orders(f"{seed} orders", met) + reserved(f"{seed} reserved", met)
        if name == "reader":
            lists += [jobs(f"{seed} jobs", met), out_of_steps(f"{seed} out of steps", met)]
        total += write(folder, name, lists, text)
    total += write(folder, "limits", [crowd(met), all_jobs(met), greatest(met)], text)
    missing = [(kind, number) for kind, numbers in REFUSALS.items() for number in numbers if not met[kind, number]]
    print(f"{total} steps; of each kind of step, how often it was refused by each number:")
    for kind, numbers in REFUSALS.items():
        print(f"  {kind}: " + ", ".join(f"{number} {met[kind, number]}" for number in numbers))
    strange = [each for each in met if isinstance(each[1], int) and each[1] not in REFUSALS[each[0]]]
    if missing or strange:
        sys.exit(f"not met: {missing}; met though it can't be: {strange}")


main()
