"""Steps a second of sessions that have jobs of depth 12 one after another: what QUOTA says of each, before and after so many seconds."""
import time

import place

TERMS = [("# workers = 4 ", "workers = 4 "), ("[guests.each]\nsessions = 4\nsegments = 4096\nnodes = 131072\nrate = 10\nburst = 100", "[guests.each]\nsessions = 1\nsegments = 1024\nnodes = 65000\nrate = 1000\nburst = 10000")]
RESERVE, LAST, LOOK = (1000, 65000), 256, 0.2


class Hog:
    """Who has jobs of depth 12 one after another, in a session after another, which `begun` opens."""

    def __init__(self, begun, number, lines):
        self.begun, self.number, self.lines = begun, number, lines
        self.jobs, self.earlier = 0, 0
        self.come()

    def come(self):
        self.session = self.begun(self.number)
        self.ask()

    def ask(self):
        self.job = self.session.ask_line(self.lines[(self.number + 7 * self.jobs) % len(self.lines)])
        self.jobs += 1

    def steps(self):
        """The steps of this session until now: 16 for each node are reserved."""
        return 16 * RESERVE[1] - self.session.quota()[2]

    def look(self):
        """The steps of all its sessions until now. Where its job has ended it asks anew."""
        state = place.stage.words_of(self.session.get(self.job))[0]
        steps = self.earlier + self.steps()
        if state == "DONE" and self.job < LAST:
            self.ask()
        elif state != "PENDING":
            self.session.close()
            self.earlier = steps
            self.come()
        return steps


def opened(port, number, timeout=20):
    """A guest's session."""
    return place.From(place.address_of(number), "127.0.0.1", port, *RESERVE, timeout=timeout)


def hogs_of(begun, sessions):
    lines = [f"12 {position}" for position in place.stage.positions(50, 5, 8, 24)]
    return [Hog(begun, number, lines) for number in range(sessions)]


def all_until(hogs, end):
    """Looks again and again, and returns when it last did, and the steps until then."""
    while True:
        begun = time.monotonic()
        found = sum(hog.look() for hog in hogs)
        if begun >= end:
            return begun, found
        time.sleep(max(0.0, begun + LOOK - time.monotonic()))


def taken(hogs, seconds):
    """Steps a second from now on for so many seconds."""
    begun, before = all_until(hogs, 0)
    ended, after = all_until(hogs, time.monotonic() + seconds)
    return (after - before) / (ended - begun)


def steps(begun, seconds, sessions):
    """Steps a second of so many sessions, once they have gone on for two seconds."""
    hogs = hogs_of(begun, sessions)
    all_until(hogs, time.monotonic() + 2)
    found = taken(hogs, seconds)
    for hog in hogs:
        hog.session.close()
    return found
