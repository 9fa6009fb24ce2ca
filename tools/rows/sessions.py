#!/usr/bin/env python3
"""Writes texts of sessions for the program `transcripts`, drawn from a seed, with the answers that the protocol's rules give
(talks.py over core.py), which share no code with the crates: 500 sessions of mutated lines, and sessions of many tenants, many
jobs and many raises.

usage: tools/rows/sessions.py FOLDER [SEED]      (seed 1; tools/rows/make.py makes all)

It ends badly unless each answer and each fault was met that such sessions can meet.
"""
import collections
import pathlib
import random
import sys

import othello
from talks import Desk, Session, escaped

ANSWERS = ["WELCOME", "RESERVED", "JOB", "PENDING", "DONE", "SPENT", "CANCELLED", "TABLE", "QUOTA", "LIVE", "BYE"]
FAULTS = [10, 11, 13, 14, 17, 19, 20, 21, 22, 23, 24, 25, 26, 27, 28, 29]


class Scene:
    """Sessions at one desk, and their text."""

    def __init__(self, seed, met, segments, nodes, pieces=None, refuses=None):
        self.random, self.met = random.Random(seed), met
        self.desk, self.sessions = Desk(segments, nodes), {}
        self.lines = [f"= desk segments {segments} nodes {nodes} grain 0" + (f" pieces {pieces}" if pieces else "") + (f" refuses {refuses}" if refuses else "")]
        self.rows = 0

    def tell(self, name, line, answer):
        self.lines += [f"{name}> {line}".rstrip(" "), f"{name}< {answer}"]
        words = answer.split(" ")
        self.met[int(words[1]) if words[0] == "ERR" else words[0]] += 1
        self.rows += 1

    def send(self, name, raw, ended=True):
        session = self.sessions.setdefault(name, Session(self.desk))
        answer = session.answer(raw, ended)
        self.tell(name, escaped(raw, ended), answer)
        return answer

    def end(self, name):
        """The session's input ends, right behind its last line."""
        self.sessions.pop(name).leave()
        self.lines.append(f"{name}! end")

    def game(self, most=60):
        board, player = othello.game(self.random, self.random.randrange(most + 1))
        return othello.text(board, player)

    def line(self):
        """A line as a client may send it."""
        draw = self.random
        job = draw.choice([1, 1, 2, 2, 3, 4, 0, 9])
        return draw.choice([
            f"ASK {draw.choice([0, 0, 1, 1, 1, 2])} {self.game()}", f"ASK {draw.choice([0, 1, 2])} {self.game()}",
            f"GET {job}", f"WAIT {job}", f"WAIT {job}", f"CANCEL {job}", f"TABLE {job}", "QUOTA", "LIVE",
            f"RESERVE {draw.randrange(1, 12)} {draw.randrange(1, 60)}", f"HELLO {draw.randrange(1, 9)} {draw.randrange(1, 50)}",
        ]).encode()

    def mutated(self, raw):
        """A line with some bytes changed."""
        draw = self.random
        raw = bytearray(raw)
        for _ in range(draw.choice([1, 1, 1, 2, 3])):
            at = draw.randrange(len(raw) + 1)
            kind = draw.randrange(10)
            byte = draw.choice([draw.randrange(256), draw.choice(b" 0123456789XO-.xo*"), draw.choice(b" \r\t-")])
            if byte == 10:
                byte = 13
            if kind == 0:
                raw[at:at] = bytes([byte])
            elif kind == 1:
                del raw[at:at + 1]
            elif kind == 2:
                raw[at:at + 1] = bytes([byte])
            elif kind == 3:
                raw = bytearray(bytes(raw).swapcase())
            elif kind == 4:
                raw += draw.choice([b"\r", b"\r\r", b" ", b" 1"])
            elif kind == 5:
                raw += bytes([draw.choice(b"A 1")]) * (draw.choice([127, 128, 129, 130, 200]) - len(raw))
            elif kind == 6:
                raw = raw.replace(b" ", b"  ", 1)
            elif kind == 7:
                raw[-2:] = draw.choice([b" Q", b",X", b"  ", b"XX", b" x", b" *", b" o", b" O"])
            elif kind == 8:
                raw = bytearray(raw.replace(b"1", draw.choice([b"01", b"00000001", b"000000001", b"13", b"-1", b"65537", b"4097"]), 1))
            else:
                raw[at:at] = raw[:draw.randrange(6)]
        return bytes(raw).replace(b"\n", b"")


def one_session(seed, met):
    """A session alone, its lines as they should be or changed."""
    draw = random.Random(seed)
    scene = Scene(f"{seed} lines", met, draw.choice([8, 20, 40]), draw.choice([10, 60, 200]), draw.choice([None, None, 1, 7, 64]))
    for _ in range(draw.randrange(3)):
        scene.send("", scene.mutated(scene.line()))
    scene.send("", f"HELLO {draw.randrange(1, 9)} {draw.randrange(1, 60)}".encode())
    for _ in range(draw.randrange(4, 16)):
        raw = scene.line()
        scene.send("", scene.mutated(raw) if draw.randrange(2) else raw)
    if draw.randrange(2):
        scene.send("", b"BYE" + draw.choice([b"", b"\r"]))
    elif draw.randrange(2):
        scene.send("", scene.mutated(scene.line()), ended=False)
    return scene


def several_sessions(seed, met):
    """Sessions at one desk, whose lines alternate."""
    draw = random.Random(seed)
    scene = Scene(f"{seed} lines", met, draw.choice([10, 14, 24]), draw.choice([40, 90]), draw.choice([None, 3]))
    names = ["a", "b", "c", "d"][:draw.randrange(2, 5)]
    over = set()
    for _ in range(draw.randrange(12, 40)):
        name = draw.choice(names)
        if name in over:
            continue
        session = scene.sessions.get(name)
        raw = scene.line()
        if session is None or session.tenant is None:
            raw = f"HELLO {draw.randrange(1, 8)} {draw.randrange(1, 40)}".encode()
        kind = draw.randrange(30)
        if kind == 0 and session and scene.lines[-1].startswith(f"{name}< "):
            scene.end(name)
        elif kind == 1:
            scene.send(name, b"BYE")
            over.add(name)
        else:
            scene.send(name, scene.mutated(raw) if draw.randrange(6) == 0 else raw)
    return scene


def many_tenants(met):
    """64 tenants at a desk with unequal quotas, and one more."""
    scene = Scene("many tenants", met, 5000, 40000)
    for at in range(1, 65):
        scene.send(f"t{at}", f"HELLO {at} {at * at}".encode())
    scene.send("t65", b"HELLO 1 1")
    opening = othello.text(othello.OPENING, "X")
    for at in range(1, 65):
        scene.send(f"t{at}", f"ASK {at % 3} {opening}".encode())
        scene.send(f"t{at}", b"QUOTA")
        scene.send(f"t{at}", b"LIVE")
    scene.send("t64", b"WAIT 1")
    for at in range(1, 65):
        scene.send(f"t{at}", b"GET 1")
        scene.send(f"t{at}", b"QUOTA")
        scene.send(f"t{at}", b"LIVE")
        scene.send(f"t{at}", b"TABLE 1")
    for at in range(2, 65, 3):
        scene.send(f"t{at}", b"BYE")
    for at in range(66, 80):
        scene.send(f"t{at}", f"HELLO {at} {at}".encode())
        scene.send(f"t{at}", b"QUOTA")
    for at in range(1, 65, 3):
        scene.send(f"t{at}", b"QUOTA")
    return scene


def many_jobs(met):
    """A tenant with 256 jobs of different positions, each of which is shown; and one more."""
    scene = Scene("many jobs", met, 4096, 65536)
    scene.send("", b"HELLO 4096 65536")
    for job in range(1, 257):
        scene.send("", f"ASK {job % 3 if job % 5 else 0} {scene.game()}".encode())
    scene.send("", f"ASK 0 {scene.game()}".encode())
    scene.send("", b"LIVE")
    scene.send("", b"CANCEL 200")
    for kind in ("GET", "WAIT", "TABLE"):
        for job in list(range(0, 258)):
            scene.send("", f"{kind} {job}".encode())
    scene.send("", b"QUOTA")
    scene.send("", b"BYE")
    return scene


def many_raises(met):
    """A tenant that raises its reservation from the least to the greatest, while its jobs run."""
    scene = Scene("many raises", met, 65536, 4194304)
    scene.send("", b"HELLO 1 1")
    segments, nodes = 1, 1
    for at in range(150):
        segments = min(4096, segments + scene.random.choice([0, 0, 1, 1, at]))
        nodes = min(65536, nodes + scene.random.choice([0, 1, 5, at * at // 4]))
        scene.send("", f"RESERVE {segments} {nodes}".encode())
        scene.send("", b"QUOTA")
        if at % 10 == 0:
            scene.send("", f"ASK {at // 10 % 3} {scene.game()}".encode())
        if at % 20 == 5:
            scene.send("", f"WAIT {1 + at // 20}".encode())
    for line in (b"RESERVE 4096 65536", b"RESERVE 4096 65536", b"QUOTA", b"BYE"):
        scene.send("", line)
    return scene


def raises_in_turn(met):
    """Twelve tenants that are there at once, each with a raise to more than 900 segments, in turn."""
    scene = Scene("raises in turn", met, 16384, 16384)
    for at in range(1, 13):
        scene.send(f"t{at}", b"HELLO 4 8")
    for at in range(1, 13):
        scene.send(f"t{at}", f"RESERVE {900 + at} {900 + at}".encode())
        scene.send(f"t{at}", b"QUOTA")
    return scene


def raises_beside_frames(met):
    """A tenant with 256 frames, as many as its segments and nodes, reserves one of each more, 64 times."""
    scene = Scene("raises beside frames", met, 320, 320)
    scene.send("", b"HELLO 256 256")
    for _ in range(256):
        scene.send("", f"ASK 0 {othello.text(othello.OPENING, 'X')}".encode())
    scene.send("", b"LIVE")
    for more in range(1, 65):
        scene.send("", f"RESERVE {256 + more} {256 + more}".encode())
    scene.send("", b"QUOTA")
    return scene


def raises_to_the_most(met):
    """Sixteen tenants reserve more, one after another, until each has as many segments as a tenant may have and there are no more. The
    ninth leaves, and who comes then has what it had."""
    scene = Scene("raises to the most", met, 65536, 4096)
    for line in (b"HELLO 1 1", b"RESERVE 901 2", b"RESERVE 4096 2"):
        for at in range(1, 17):
            scene.send(f"t{at}", line)
    for name, lines in ("late", [b"HELLO 1 1"]), ("t9", [b"QUOTA", b"BYE"]), ("late", [b"HELLO 8 2", b"RESERVE 4097 2", b"RESERVE 4096 200", b"QUOTA"]):
        for line in lines:
            scene.send(name, line)
    return scene


# a session's lines, of which the second name's is refused memory and tried again, and the growths that are its own
WANTING = [
    (range(1, 10), [("", "HELLO 4 16"), ("", "ASK"), ("", "WAIT 1"), ("", "QUOTA")], 0),
    (range(10, 19), [("one", "HELLO 4 16"), ("one", "ASK"), ("two", "HELLO 60 48"), ("two", "QUOTA"), ("one", "WAIT 1")], 2),
    (range(10, 18), [("", "HELLO 4 16"), ("", "ASK"), ("", "RESERVE 60 48"), ("", "WAIT 1"), ("", "QUOTA")], 2),
]


def wanting(met):
    """Growths that are refused: each of the first HELLO, of another session's HELLO, and of RESERVE while a job runs. The answer is ERR 19,
    nothing has changed, and the same line is taken the next time."""
    ask = f"ASK 0 {othello.text(othello.OPENING, 'X')}"
    for growths, lines, tried in WANTING:
        for growth in growths:
            scene = Scene("wanting", met, 64, 64, refuses=growth)
            for at, (name, line) in enumerate(lines):
                if at == tried:
                    scene.tell(name, line, "ERR 19")
                    if at:
                        scene.send(lines[0][0], b"QUOTA")
                scene.send(name, (ask if line == "ASK" else line).encode())
            yield scene


def every_reservation(met):
    """The opening to depth 2 with each reservation of 1 to 8 segments and 1 to 32 nodes: it is done, or spent."""
    scene = Scene("every reservation", met, 8, 32)
    opening = othello.text(othello.OPENING, "X")
    for segments in range(1, 9):
        for nodes in range(1, 33):
            name = f"s{segments}n{nodes}"
            scene.send(name, f"HELLO {segments} {nodes}".encode())
            scene.send(name, f"ASK 2 {opening}".encode())
            ended = scene.send(name, b"WAIT 1")
            assert ended in ("DONE 1 -4 d3", "SPENT 1") and (segments > 1 or ended == "SPENT 1")
            for line in (b"QUOTA", b"LIVE", b"BYE"):
                scene.send(name, line)
    assert scene.desk.core.free() == 8
    return scene


def main():
    folder = pathlib.Path(sys.argv[1])
    seed = int(sys.argv[2]) if len(sys.argv) > 2 else 1
    met = collections.Counter()
    head = [f"# Made by `tools/rows/sessions.py FOLDER {seed}` from that seed: don't edit."]
    texts = {
        "mutated": [one_session(f"{seed} one {at}", met) for at in range(400)],
        "alternate": [several_sessions(f"{seed} several {at}", met) for at in range(60)],
        "many": [many_tenants(met), many_jobs(met), many_raises(met), raises_in_turn(met), raises_beside_frames(met), raises_to_the_most(met)],
        "wanting": list(wanting(met)),
        "reservations": [every_reservation(met)],
    }
    for name, scenes in texts.items():
        lines = head + [line for scene in scenes for line in [""] + scene.lines]
        (folder / f"drawn_{name}.session").write_text("\n".join(lines) + "\n")
        print(f"{name}: {sum(len(scene.sessions) for scene in scenes)} sessions, {sum(scene.rows for scene in scenes)} lines")
    print("answers: " + ", ".join(f"{answer} {met[answer]}" for answer in ANSWERS))
    print("faults: " + ", ".join(f"{fault} {met[fault]}" for fault in FAULTS))
    missing = [each for each in ANSWERS + FAULTS if not met[each]]
    strange = [each for each in met if each not in ANSWERS + FAULTS]
    if missing or strange:
        sys.exit(f"not met: {missing}; met though it can't be: {strange}")


main()
