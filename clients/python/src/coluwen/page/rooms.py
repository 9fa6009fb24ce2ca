"""Classes: a teacher's board, the pupils who follow it, and the hands that they raise."""

import asyncio
import collections
import dataclasses
import hmac
import json
import secrets
import time
from collections.abc import AsyncGenerator

from .web import Fault

MOST, MOST_OF_ADDRESS = 200, 10  # classes at once
FOLLOWERS = 400  # of one class
PUPILS = 500  # of one class that are remembered; of more those who have gone, and then the oldest, are forgotten
IDLE = 4 * 3600.0  # seconds after which a class that shows nothing new has ended
ROOM = "abcdefghijkmnpqrstuvwxyz23456789"  # no letters that are taken for others


@dataclasses.dataclass
class Pupil:
    """One of a class: a name, how many of his browser's connections follow, whether he looks alone, and the board with which he raises a hand."""

    name: str = ""
    connections: int = 0
    alone: bool = False
    state: str | None = None


class Room:
    """A class: what is shown, since when, and whose it is."""

    def __init__(self, address: str, state: str | None):
        self.address, self.state, self.number, self.key = address, state, 1, secrets.token_urlsafe(24)
        self.shown, self.followers = time.monotonic(), 0
        self.pupils: dict[str, Pupil] = {}
        self.changed = asyncio.Condition()

    async def say(self) -> None:
        async with self.changed:
            self.changed.notify_all()

    def pupil(self, number: str) -> Pupil:
        """One by the number that his browser has; a new one where it has none yet."""
        if number not in self.pupils:
            self.pupils[number] = Pupil()
            if len(self.pupils) > PUPILS:
                gone = (one for one, pupil in self.pupils.items() if not pupil.connections and one != number)
                del self.pupils[next(gone, next(iter(self.pupils)))]
        return self.pupils[number]

    def heads(self) -> dict[str, object]:
        """What the teacher sees of the class."""
        pupils = [{"name": one.name, "follows": one.connections > 0, "alone": one.alone, "state": one.state} for one in self.pupils.values()]
        return {"followers": self.followers, "pupils": pupils}


class Rooms:
    """All classes by their names."""

    def __init__(self) -> None:
        self.rooms: collections.OrderedDict[str, Room] = collections.OrderedDict()
        self.telling: set[asyncio.Task[None]] = set()

    def open(self, address: str, state: str | None) -> dict[str, str]:
        """A new class: its name, and the key by which its teacher shows something."""
        now = time.monotonic()
        for name in [name for name, room in self.rooms.items() if now - room.shown > IDLE]:
            self.end(name)
        if len(self.rooms) >= MOST or sum(room.address == address for room in self.rooms.values()) >= MOST_OF_ADDRESS:
            raise Fault(429, "classes", "there are too many classes")
        name = "".join(secrets.choice(ROOM) for _ in range(10))
        room = self.rooms[name] = Room(address, state)
        return {"room": name, "key": room.key}

    def find(self, name: str) -> Room:
        room = self.rooms.get(name)
        if not room:
            raise Fault(404, "class", "there is no such class")
        return room

    def taught(self, name: str, key: object) -> Room:
        """A class for its teacher."""
        room = self.find(name)
        if not isinstance(key, str) or not hmac.compare_digest(key.encode(), room.key.encode()):
            raise Fault(403, "key", "this class is another teacher's")
        return room

    def show(self, name: str, key: object, state: str | None) -> None:
        """The teacher shows something; None ends the class."""
        room = self.taught(name, key)
        if state is None:
            self.end(name)
            return
        room.state, room.number, room.shown = state, room.number + 1, time.monotonic()
        self.tell(room)

    def end(self, name: str) -> None:
        room = self.rooms.pop(name)
        room.state, room.number = None, room.number + 1
        self.tell(room)

    def tell(self, room: Room) -> None:
        task = asyncio.ensure_future(room.say())
        self.telling.add(task)
        task.add_done_callback(self.telling.discard)

    def tell_of(self, name: str, number: str, called: str, alone: bool, state: str | None) -> None:
        """How a pupil stands: the name, whether he looks alone, and the board with which he raises a hand; None lowers it."""
        room = self.find(name)
        pupil = room.pupil(number)
        pupil.name, pupil.alone, pupil.state = called, alone, state
        self.tell(room)

    def pupils(self, name: str, key: object) -> AsyncGenerator[bytes, None]:
        """For the teacher: who follows and whose hands are raised, and each time that it changes."""
        return self.heads(self.taught(name, key))

    async def heads(self, room: Room) -> AsyncGenerator[bytes, None]:
        seen: object = None
        while room.state is not None:
            now = room.heads()
            if now != seen:
                seen = now
                yield json.dumps(now).encode() + b"\n"
            async with room.changed:
                await room.changed.wait_for(lambda: room.state is None or room.heads() != seen)

    def follow(self, name: str, number: str = "") -> AsyncGenerator[bytes, None]:
        """What is shown, and each time that it changes; the last one where changes come faster than they are taken. A pupil has a number."""
        room = self.find(name)
        if room.followers >= FOLLOWERS:
            raise Fault(429, "followers", "this class is full")
        return self.states(room, number)

    async def states(self, room: Room, number: str) -> AsyncGenerator[bytes, None]:
        room.followers += 1
        pupil = room.pupil(number) if number else Pupil()
        pupil.connections += 1
        self.tell(room)
        try:
            seen = 0
            while True:
                async with room.changed:
                    await room.changed.wait_for(lambda: room.number != seen)
                seen, state = room.number, room.state
                yield json.dumps({"state": state}).encode() + b"\n"
                if state is None:
                    return
        finally:
            room.followers -= 1
            pupil.connections -= 1
            self.tell(room)
