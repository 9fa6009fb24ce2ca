"""Sessions by the protocol's rules: what each line is answered, over a core by its table (core.py) whose jobs one worker runs.
Of no code of the crates."""
import core as scheduling
import othello
from procedures import BEST, CHOICE, ENTRIES, NO_CHOICE, OPP, OWN, ZERO, Jamboree

WORKER = 1
DEEPEST = 12
BAD_LINE, TOO_LONG, BAD_NUMBER, BAD_LENGTH, BAD_SQUARE, BAD_SIDE, TOO_DEEP, NO_TENANT_YET, TENANT_IS_THERE = range(21, 30)  # faults
UNABLE = [scheduling.NUMBERS[name] for name in ("NoSegments", "NoNodes", "NoSteps", "BadAct")]  # refusals after which a frame may be spent
WORDS = {b"HELLO": 3, b"RESERVE": 3, b"GET": 2, b"WAIT": 2, b"CANCEL": 2, b"TABLE": 2, b"QUOTA": 1, b"LIVE": 1, b"BYE": 1}
CELLS = {ord("X"): "X", ord("x"): "X", ord("*"): "X", ord("O"): "O", ord("o"): "O", ord("-"): "-", ord("."): "-"}


class Fault(Exception):
    @property
    def number(self):
        return self.args[0]


def number(word):
    if not (1 <= len(word) <= 8 and all(48 <= byte <= 57 for byte in word)):
        raise Fault(BAD_NUMBER)
    return int(word)


def within(word, most):
    value = number(word)
    if not 1 <= value <= most:
        raise Fault(BAD_NUMBER)
    return value


def position(text):
    if len(text) != 66:
        raise Fault(BAD_LENGTH)
    if any(byte not in CELLS for byte in text[:64]):
        raise Fault(BAD_SQUARE)
    side = CELLS.get(text[65])
    if text[64] != 32 or side not in ("X", "O"):
        raise Fault(BAD_SIDE)
    return [CELLS[byte] for byte in text[:64]], side


def line_of(raw, ended):
    """A line without its end, or None where it is too long."""
    if ended and raw.endswith(b"\r"):
        raw = raw[:-1]
    return raw if len(raw) <= 128 else None


class Desk:
    def __init__(self, segments, nodes):
        self.core = scheduling.Core(Jamboree(), segments, nodes)
        self.tasks, self.closed = [], False

    def work(self):
        """The worker runs all jobs: its newest task first, by the rules of a pool's worker."""
        while self.tasks:
            name, home = self.tasks.pop()
            self.run(("Take", WORKER, name) if home == WORKER else ("Steal", WORKER, home, name), name)

    def run(self, step, name):
        while step:
            answer = self.core.step(step)
            if answer[0] == "Err" and answer[1] in UNABLE:
                if self.core.step(("Spend", name)) == ("Err", scheduling.NUMBERS["NotSpent"]):
                    continue
                return
            step = self.following(answer, name)

    def following(self, answer, name):
        """The worker's next step with its frame; None where it is without one."""
        kind = answer[0]
        if kind == "Spawned":
            self.tasks.append((answer[1], WORKER))
        if kind == "TakenIn" and answer[1]:
            self.tasks.append((answer[1], WORKER))
        if kind in ("Took", "Went", "Grew", "Spawned", "Answered"):
            return ("Advance", WORKER, name)
        if kind == "Computing":
            return ("Answer", WORKER, name, answer[1])
        if kind == "Returned":
            return ("Finish" if answer[1] else "Inlet", WORKER, name)
        return None


class Session:
    def __init__(self, desk):
        self.desk, self.tenant, self.over = desk, None, False

    def answer(self, raw, ended=True):
        """The answer to a line."""
        line = line_of(raw, ended)
        try:
            if line is None:
                raise Fault(TOO_LONG)
            return self.request(line)
        except Fault as fault:
            return f"ERR {fault.number}"

    def request(self, line):
        words = line.split(b" ")
        if words[0] == b"ASK":
            words = line.split(b" ", 2)
            if len(words) != 3:
                raise Fault(BAD_LINE)
        elif WORDS.get(words[0]) != len(words):
            raise Fault(BAD_LINE)
        kind = words[0].decode()
        if kind not in ("HELLO", "BYE") and self.tenant is None:
            raise Fault(NO_TENANT_YET)
        if kind == "HELLO" and self.tenant is not None:
            raise Fault(TENANT_IS_THERE)
        return getattr(self, kind.lower())(*words[1:])

    def offer(self, *step):
        answer = self.desk.core.step(step)
        if answer[0] == "Err":
            raise Fault(answer[1])
        return answer

    def hello(self, segments, nodes):
        segments, nodes = within(segments, 4096), within(nodes, 65536)
        tenant = self.desk.core.newest + 1
        self.offer("Admit", tenant, segments, nodes)
        self.tenant = tenant
        return f"WELCOME {segments} {nodes}"

    def reserve(self, segments, nodes):
        segments, nodes = within(segments, 4096), within(nodes, 65536)
        self.offer("AdmitMore", self.tenant, segments, nodes)
        return f"RESERVED {segments} {nodes}"

    def ask(self, depth, text):
        depth = number(depth)
        if depth > DEEPEST:
            raise Fault(TOO_DEEP)
        board, player = position(text)
        answer = self.offer("Submit", self.tenant, *Jamboree.root(board, player, depth))
        self.desk.tasks.append((answer[2], 0))
        return f"JOB {answer[1]}"

    def job(self, word):
        job = number(word)
        jobs = self.desk.core.tenants[self.tenant].jobs
        if not 1 <= job <= len(jobs):
            raise Fault(scheduling.NUMBERS["NoJob"])
        return job, jobs[job - 1]

    def get(self, word):
        job, how = self.job(word)
        if how[0] == "done":
            value, choice = how[1][BEST] - ZERO, how[1][CHOICE]
            return f"DONE {job} {value} {othello.name(None if choice == NO_CHOICE else choice)}"
        return f"{'PENDING' if how[0] == 'live' else how[0].upper()} {job}"

    def wait(self, word):
        number(word)
        if not self.desk.closed:
            self.desk.work()
        return self.get(word)

    def table(self, word):
        job, how = self.job(word)
        if how[0] != "done":
            return self.get(word)
        words = how[1]
        entries = []
        for choice, entry in zip(othello.choices(othello.board_of(words[OWN], words[OPP]), "X"), words[ENTRIES:]):
            kind = entry // 8 % 4
            if kind:
                entries.append(f" {othello.name(choice)}{'?<>='[kind]}{entry // 32 - ZERO}")
        return f"TABLE {job}" + "".join(entries)

    def cancel(self, word):
        job = number(word)
        self.offer("Cancel", self.tenant, job)
        return f"CANCELLED {job}"

    def quota(self):
        return "QUOTA {} {} {}".format(*self.desk.core.tenants[self.tenant].left())

    def live(self):
        frames = self.desk.core.tenants[self.tenant].frames.values()
        return f"LIVE {len(frames)} {sum(len(frame.words) for frame in frames)}"

    def bye(self):
        self.leave()
        self.over = True
        return "BYE"

    def leave(self):
        if self.tenant is not None:
            self.desk.core.step(("Leave", self.tenant))
            self.tenant = None


def escaped(raw, ended=True):
    """A line as a text has it."""
    said = ""
    for at, byte in enumerate(raw):
        if byte == 13:
            said += "\\r"
        elif byte == 92:
            said += "\\\\"
        elif byte == 32 and at in (0, len(raw) - 1):
            said += "\\s"
        elif 32 <= byte < 127:
            said += chr(byte)
        else:
            said += f"\\x{byte:02x}"
    return said + ("" if ended else "\\-")
