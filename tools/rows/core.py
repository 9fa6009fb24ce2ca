"""A core by its table of steps: each tenant has a dictionary of frames, and every count is made anew. Slow, and of no code
of the crates. After each step it looks whether a job is stuck (`Core.stuck`), which none ever is.

A step is a tuple of its kind, its numbers and its frames, each frame a pair (tenant, serial).
"""
NAMES = {
    1: "NoTenant", 2: "NoFrame", 3: "NotReady", 4: "NotHere", 5: "Busy", 6: "NotRunning", 7: "NotComputing", 8: "Mismatch",
    9: "NotReturned", 10: "NoSegments", 11: "NoNodes", 12: "NoSteps", 13: "NoJobsLeft", 14: "Full", 15: "BadAct",
    16: "NotSpent", 17: "NoJob", 18: "OldTenant", 20: "Lower",
}
NUMBERS = {name: number for number, name in NAMES.items()}
LAST_TENANT = 1 << 62
WORKERS = 4  # those of whom it is asked whether one can go on; in drawn lists all of them are busy now and then


class Refused(Exception):
    @property
    def name(self):
        return self.args[0]


def refuse_if(fails, name):
    """A test of a step."""
    if fails:
        raise Refused(name)


def charge(size):
    """The segments of a frame of so many words."""
    return (size + 15) // 16


class Frame:
    def __init__(self, path, words, state):
        self.path, self.words, self.state = path, words, state


class Tenant:
    def __init__(self, segments, nodes):
        self.segments, self.nodes = segments, nodes
        self.serials, self.steps, self.jobs, self.frames = 0, 0, [], {}

    def copy(self):
        """The tenant, as steps change it: they put other words and states in, and change no list of words."""
        other = Tenant(self.segments, self.nodes)
        other.serials, other.steps, other.jobs = self.serials, self.steps, list(self.jobs)
        other.frames = {serial: Frame(frame.path, frame.words, frame.state) for serial, frame in self.frames.items()}
        return other

    def left(self):
        used = sum(charge(len(frame.words)) for frame in self.frames.values())
        return self.segments - used, self.nodes - self.serials, 16 * self.nodes - self.steps

    def children(self, serial):
        path = self.frames[serial].path
        return [each for each, frame in self.frames.items() if frame.path[:-1] == path]

    def below(self, serial):
        depth = len(self.frames[serial].path)
        return [each for each, frame in self.frames.items() if len(frame.path) > depth and frame.path[depth - 1] == serial]

    def job_of(self, serial):
        root = self.frames[serial].path[0]
        return self.jobs.index(("live", root)) + 1

    def end(self, job, how):
        """A job ends so, and its frames go."""
        root = self.jobs[job - 1][1]
        for each in [each for each, frame in self.frames.items() if frame.path[0] == root]:
            del self.frames[each]
        self.jobs[job - 1] = how

    def open(self, path, words, size, state):
        self.serials += 1
        self.frames[self.serials] = Frame(path + (self.serials,), list(words) + [0] * (size - len(words)), state)
        return self.serials


class Core:
    def __init__(self, procedure, segments, nodes):
        self.procedure, self.segments, self.nodes = procedure, segments, nodes
        self.tenants, self.newest = {}, 0
        self.gone_on, self.all_busy = 0, 0  # how often somebody could go on; and nobody was free

    # what is read

    def free(self):
        return self.segments - sum(each.segments - each.left()[0] for each in self.tenants.values())

    def is_busy(self, worker):
        return any(frame.state in (("Running", worker), ("Computing", worker))
                   for tenant in self.tenants.values() for frame in tenant.frames.values())

    def any_ready(self):
        return any(frame.state[0] == "Ready" for tenant in self.tenants.values() for frame in tenant.frames.values())

    def newest_ready(self, number):
        tenant = self.tenants.get(number)
        ready = [serial for serial, frame in tenant.frames.items() if frame.state[0] == "Ready"] if tenant else []
        return max(ready) if ready else None

    def find(self, name):
        tenant = self.tenants.get(name[0])
        return tenant.frames.get(name[1]) if tenant else None

    # steps

    def step(self, step):
        """Takes a step: what it did, or ('Err', number)."""
        answer = self.answer(step)
        if answer[0] != "Err":
            stuck = self.stuck()
            if stuck:
                raise AssertionError(f"stuck after {step_text(step)}: {stuck}")
        return answer

    def answer(self, step):
        try:
            return getattr(self, "do_" + step[0])(*step[1:])
        except Refused as refused:
            return ("Err", NUMBERS[refused.name])

    # no job is stuck

    def would_take(self, number, step):
        """Whether a step of this tenant would be taken. Nothing changes."""
        tenant = self.tenants[number]
        self.tenants[number] = tenant.copy()
        answer = self.answer(step)
        self.tenants[number] = tenant
        return answer[0] != "Err"

    def can_go_on(self, worker, name):
        """Whether a worker can go on with a frame. One that is computed has an answer; whether that has room is the procedure's matter."""
        frame = self.find(name)
        kind = frame.state[0]
        self.gone_on += 1
        if kind == "Computing" and self.tenants[name[0]].left()[2] > 0:
            return True
        if kind == "Ready":
            step = ("Take", worker, name) if frame.state[1] == worker else ("Steal", worker, frame.state[1], name)
        else:
            step = ({"Running": "Advance", "Returned": "Inlet" if len(frame.path) > 1 else "Finish"}.get(kind), worker, name)
        return any(self.would_take(name[0], each) for each in (step, ("Spend", name)) if each[0])

    def held(self):
        """The frame that each busy worker holds."""
        return {frame.state[1]: (number, serial) for number, tenant in self.tenants.items() for serial, frame in tenant.frames.items()
                if frame.state[0] in ("Running", "Computing")}

    def stuck(self):
        """What is stuck, if anything is: a frame that waits without a child, or a job with which no worker can go on."""
        held = self.held()
        free = [worker for worker in range(1, WORKERS + 1) if worker not in held]
        for number, tenant in self.tenants.items():
            newest = {}
            parents = {frame.path[-2] for frame in tenant.frames.values() if len(frame.path) > 1}
            for serial, frame in tenant.frames.items():
                newest[frame.path[0]] = max(serial, newest.get(frame.path[0], 0))
                if frame.state == ("Waiting",) and serial not in parents:
                    return f"{number}.{serial} waits without a child"
            for root in [how[1] for how in tenant.jobs if how[0] == "live"][-3:]:
                state = tenant.frames[newest[root]].state
                if state == ("Waiting",):
                    return f"{number}.{newest[root]}, the newest of its job, waits"
                who = [state[1]] if state[0] in ("Running", "Computing") else free[:1]
                self.all_busy += not who
                names = [(worker, (number, newest[root])) for worker in who] or [(worker, held[worker]) for worker in range(1, WORKERS + 1)]
                for worker, name in names:
                    if not self.can_go_on(worker, name):
                        return f"worker {worker} can't go on with {name[0]}.{name[1]}"
        return None

    def is_room(self, segments, nodes, without=None):
        others = [each for number, each in self.tenants.items() if number != without]
        return (sum(each.segments for each in others) + segments <= self.segments
                and sum(each.nodes for each in others) + nodes <= self.nodes)

    def tenant(self, number):
        refuse_if(number not in self.tenants, "NoTenant")
        return self.tenants[number]

    def frame(self, name):
        tenant = self.tenant(name[0])
        refuse_if(name[1] not in tenant.frames, "NoFrame")
        return tenant, tenant.frames[name[1]]

    def do_Admit(self, number, segments, nodes):
        refuse_if(number == 0 or number <= self.newest or number > LAST_TENANT, "OldTenant")
        refuse_if(len(self.tenants) >= 64 or not self.is_room(segments, nodes), "Full")
        self.tenants[number], self.newest = Tenant(segments, nodes), number
        return ("Admitted",)

    def do_AdmitMore(self, number, segments, nodes):
        tenant = self.tenant(number)
        refuse_if(segments < tenant.segments or nodes < tenant.nodes, "Lower")
        refuse_if(segments == tenant.segments and nodes == tenant.nodes, "Lower")
        refuse_if(not self.is_room(segments, nodes, number), "Full")
        tenant.segments, tenant.nodes = segments, nodes
        return ("AdmittedMore",)

    def do_Submit(self, number, size, *words):
        tenant = self.tenant(number)
        refuse_if(not 1 <= size <= 128 or len(words) > size, "BadAct")
        refuse_if(len(tenant.jobs) >= 256, "NoJobsLeft")
        refuse_if(tenant.left()[1] < 1, "NoNodes")
        refuse_if(tenant.left()[0] < charge(size), "NoSegments")
        root = tenant.open((), words, size, ("Ready", 0))
        tenant.jobs.append(("live", root))
        return ("Submitted", len(tenant.jobs), (number, root))

    def get(self, worker, is_here, name):
        tenant, frame = self.frame(name)
        refuse_if(frame.state[0] != "Ready", "NotReady")
        refuse_if(not is_here(frame.state[1]), "NotHere")
        refuse_if(tenant.left()[2] < 1, "NoSteps")
        refuse_if(self.is_busy(worker), "Busy")
        frame.state = ("Running", worker)
        tenant.steps += 1
        return ("Took",)

    def do_Take(self, worker, name):
        return self.get(worker, lambda home: home == worker, name)

    def do_Steal(self, worker, source, name):
        return self.get(worker, lambda home: home == source and source != worker, name)

    def sight(self, name):
        """The words of a frame, and of those above it."""
        tenant = self.tenants[name[0]]
        return [tenant.frames[serial].words for serial in reversed(tenant.frames[name[1]].path)]

    def stored(self, words, stores):
        words = list(words)
        for place, word in stores:
            refuse_if(place >= len(words), "BadAct")
            words[place] = word
        return words

    def planned(self, tenant, frame, name):
        """A frame's words after its act's stores, what it does then, and whether it has a child; refused if it can't."""
        stores, then = self.procedure.next(self.sight(name))
        words = self.stored(frame.words, stores)
        has_child = bool(tenant.children(name[1]))
        segments, nodes, _ = tenant.left()
        if then[0] == "Grow":
            refuse_if(then[1] == 0 or len(words) + then[1] > 128, "BadAct")
            refuse_if(charge(len(words) + then[1]) - charge(len(words)) > segments, "NoSegments")
        if then[0] == "Spawn":
            refuse_if(not 1 <= then[2] <= 128 or len(then[1]) > then[2], "BadAct")
            refuse_if(nodes < 1, "NoNodes")
            refuse_if(charge(then[2]) > segments, "NoSegments")
        refuse_if(then[0] == "Compute" and has_child, "BadAct")
        return words, then, has_child

    def do_Advance(self, worker, name):
        tenant, frame = self.frame(name)
        refuse_if(frame.state != ("Running", worker), "NotRunning")
        refuse_if(tenant.left()[2] < 1, "NoSteps")
        frame.words, then, has_child = self.planned(tenant, frame, name)
        tenant.steps += 1
        return self.act(tenant, frame, worker, name, then, has_child)

    def act(self, tenant, frame, worker, name, then, has_child):
        if then[0] == "Grow":
            frame.words = frame.words + [0] * then[1]
            return ("Grew",)
        if then[0] == "Spawn":
            return ("Spawned", (name[0], tenant.open(frame.path, then[1], then[2], ("Ready", worker))))
        if then[0] == "Compute":
            frame.state = ("Computing", worker)
            return ("Computing", self.procedure.input(frame.words))
        if then[0] in ("Wait", "Return") and has_child:
            frame.state = ("Waiting",)
            return ("Waited",)
        if then[0] == "Return":
            frame.state = ("Returned",)
            return ("Returned", len(frame.path) == 1)
        return ("Went",)

    def do_Answer(self, worker, name, answer):
        tenant, frame = self.frame(name)
        refuse_if(frame.state != ("Computing", worker), "NotComputing")
        refuse_if(self.procedure.asked(answer) != self.procedure.input(frame.words), "Mismatch")
        refuse_if(tenant.left()[2] < 1, "NoSteps")
        frame.words = self.stored(frame.words, self.procedure.accept(frame.words, answer))
        frame.state = ("Running", worker)
        tenant.steps += 1
        return ("Answered",)

    def taken_in(self, tenant, frame):
        """The parent's words after an inlet, and what the inlet says."""
        parent = tenant.frames[frame.path[-2]]
        stores, abort, wake = self.procedure.inlet(parent.words, frame.words)
        return self.stored(parent.words, stores), abort, wake

    def do_Inlet(self, worker, name):
        tenant, frame = self.frame(name)
        refuse_if(frame.state != ("Returned",) or len(frame.path) == 1, "NotReturned")
        refuse_if(tenant.left()[2] < 1, "NoSteps")
        words, abort, wake = self.taken_in(tenant, frame)
        refuse_if(self.is_busy(worker), "Busy")
        above = frame.path[-2]
        parent = tenant.frames[above]
        parent.words = words
        del tenant.frames[name[1]]
        gone = tenant.below(above) if abort else []
        for serial in gone:
            del tenant.frames[serial]
        tenant.steps += 1
        woken = parent.state == ("Waiting",) and (abort or wake or not tenant.children(above))
        if woken:
            parent.state = ("Ready", worker)
        return ("TakenIn", (name[0], above) if woken else None, len(gone))

    def do_Finish(self, worker, name):
        tenant, frame = self.frame(name)
        refuse_if(frame.state != ("Returned",) or len(frame.path) > 1, "NotReturned")
        refuse_if(tenant.left()[2] < 1, "NoSteps")
        refuse_if(self.is_busy(worker), "Busy")
        job = tenant.job_of(name[1])
        tenant.steps += 1
        tenant.end(job, ("done", frame.words[:76]))
        return ("Finished", job)

    def is_spendable(self, tenant, frame, name):
        if tenant.left()[2] < 1:
            return True
        try:
            if frame.state[0] == "Running":
                self.planned(tenant, frame, name)
            elif frame.state == ("Returned",) and len(frame.path) > 1:
                self.taken_in(tenant, frame)
        except Refused as refused:
            return refused.name in ("NoSegments", "NoNodes", "BadAct")
        return False

    def do_Spend(self, name):
        tenant, frame = self.frame(name)
        refuse_if(not self.is_spendable(tenant, frame, name), "NotSpent")
        job = tenant.job_of(name[1])
        tenant.end(job, ("spent",))
        return ("Spent", job)

    def do_Cancel(self, number, job):
        tenant = self.tenant(number)
        refuse_if(not 1 <= job <= len(tenant.jobs) or tenant.jobs[job - 1][0] != "live", "NoJob")
        tenant.end(job, ("cancelled",))
        return ("Cancelled",)

    def do_Leave(self, number):
        self.tenant(number)
        del self.tenants[number]
        return ("Left",)


# texts

def frame_text(name):
    return f"{name[0]}.{name[1]}"


def step_text(step):
    words = []
    for place, word in enumerate(step):
        if step[0] == "Answer" and place == 3:
            words += [str(each) for each in word]
        else:
            words.append(frame_text(word) if isinstance(word, tuple) else str(word))
    return " ".join(words)


def answer_text(answer):
    kind = answer[0]
    if kind == "Err":
        return f"Err {answer[1]} {NAMES[answer[1]]}"
    if kind == "Submitted":
        return f"Submitted {answer[1]} {frame_text(answer[2])}"
    if kind == "Spawned":
        return f"Spawned {frame_text(answer[1])}"
    if kind == "Computing":
        return "Computing " + (" ".join(map(str, answer[1])) if isinstance(answer[1], tuple) else str(answer[1]))
    if kind == "Returned":
        return "Returned root" if answer[1] else "Returned"
    if kind == "TakenIn":
        return f"TakenIn {frame_text(answer[1]) if answer[1] else '-'} {answer[2]}"
    return " ".join(map(str, answer))


def state_text(state):
    return state[0] if len(state) == 1 else f"{state[0]}({state[1]})"


def looks_at_tenant(core, number):
    """The looks at a tenant that are about no frame or job, each with what is seen."""
    tenant = core.tenants.get(number)
    if not tenant:
        return [(f"{kind} {number}", "none") for kind in ("left", "live", "newest")]
    newest = core.newest_ready(number)
    home = "none" if newest is None else f"{number}.{newest} at {tenant.frames[newest].state[1]}"
    words = sum(len(frame.words) for frame in tenant.frames.values())
    return [(f"left {number}", " ".join(map(str, tenant.left()))), (f"live {number}", f"{len(tenant.frames)} {words}"),
            (f"newest {number}", home)]


def look_at_job(core, number, job):
    tenant = core.tenants.get(number)
    seen = "none"
    if tenant and 1 <= job <= len(tenant.jobs):
        how = tenant.jobs[job - 1]
        seen = f"live under {how[1]}" if how[0] == "live" else " ".join(["done"] + [str(word) for word in how[1]]) if how[0] == "done" else how[0]
    return f"job {number} {job}", seen


def look_at_frame(core, name):
    frame = core.find(name)
    if not frame:
        return f"frame {frame_text(name)}", "none"
    under = f"under {name[0]}.{frame.path[-2]} " if len(frame.path) > 1 else ""
    return f"frame {frame_text(name)}", f"{under}{state_text(frame.state)}: " + " ".join(map(str, frame.words))


def looks_at_core(core):
    return [("free", str(core.free())), ("ready", "some" if core.any_ready() else "none")]
