"""What a rehearsal over a file of format 4 prints: the events of each call, turn by turn, in an independent model that was written from
docs/FORMATS.md. A call is a generator, each turn of which plays one event and yields its kind."""

from __future__ import annotations

from typing import Dict, Generator, Iterator, List, NamedTuple, Optional, Set, Tuple

from trials.device import CLOSED, OPEN, Device, Failed, Vault
from trials.plain import MOST_NUMBER
from trials.program import Key

PASSES = 64
BUSY = "busy"


class Link(NamedTuple):
    """What stands in the link of a node, or of a head, which is never marked."""

    next: Optional[int] = None
    is_marked: bool = False
    add_settled: bool = False
    remove_settled: bool = False


# A head is a place below zero, a node is its slot. What a walk ends with: the place before, the node there, and the link of a node that has the key.
Met = Tuple[int, Optional[int], Optional[Link]]
Turns = Generator[str, None, str]


class Call:
    """A call that is open: what it asks for, the slot that it has and hasn't used, and its locks."""

    def __init__(self, number: int, actor: int, verb: str, key: Key) -> None:
        self.number, self.actor, self.verb, self.key = number, actor, verb, key
        self.slot: Optional[int] = None
        self.locks: Set[int] = set()
        self.told = ""


class Limbo:
    """A slot that was retired, and what was seen of each pass since: the first pin value inside, and who has left."""

    def __init__(self, slot: int) -> None:
        self.slot = slot
        self.first: Dict[int, int] = {}
        self.left: Set[int] = set()

    def see(self, actor: int, pin: int) -> None:
        if pin % 2 == 0 or self.first.setdefault(actor, pin) != pin:
            self.left.add(actor)


def rank(key: Key) -> int:
    return key.room * (MOST_NUMBER + 1) + key.number


class Life:
    """A service that was opened: the words that its callers share, and the calls' events over them."""

    def __init__(self, device: Device, buckets: int) -> None:
        self.vault = Vault(device)
        self.buckets = buckets
        self.halt = False
        self.begun = ""
        self.pins = [0] * (PASSES + 1)
        self.locked: Set[int] = set()
        self.limbo: List[Limbo] = []
        self.keys: Dict[int, Key] = dict(zip(self.vault.places, self.vault.members))
        self.free = set(range(len(self.vault.stages))) - set(self.keys)
        self.links: Dict[int, Link] = {slot: Link() for slot in range(-buckets, len(self.vault.stages))}
        self._link_members()

    def _head(self, key: Key) -> int:
        return -1 - rank(key) % self.buckets

    def _link_members(self) -> None:
        for slot in sorted(self.keys, key=self.keys.__getitem__, reverse=True):
            head = self._head(self.keys[slot])
            self.links[slot] = Link(self.links[head].next, add_settled=True)
            self.links[head] = Link(slot)

    def members(self) -> List[Key]:
        """The keys that are linked and not marked, ascending."""
        found: List[Key] = []
        for head in range(-self.buckets, 0):
            node = self.links[head].next
            while node is not None:
                if not self.links[node].is_marked:
                    found.append(self.keys[node])
                node = self.links[node].next
        return sorted(found)

    def _begin(self, kind: str) -> None:
        """An event of this kind, which a dead vault refuses."""
        self.begun = kind
        if self.vault.is_dead:
            raise Failed("halted")

    def _see(self, actor: int) -> None:
        for retired in self.limbo:
            retired.see(actor, self.pins[actor])

    def turns(self, call: Call) -> Iterator[str]:
        """The events of a call. The reply is known once the last one was played."""
        self.pins[call.actor] += 1
        yield "Pin"
        try:
            reply = yield from self._asked(call)
        except Failed as failure:
            yield self.begun
            self.halt = True
            yield "Halt"
            reply = str(failure)
        self.pins[call.actor] += 1
        if call.slot is not None:
            self.free.add(call.slot)
        self._see(call.actor)
        call.told = {"yes": "answer {} yes", "no": "answer {} no", "full": "refused {} full"}.get(reply, reply + " {}").format(call.number)
        yield "Answer"

    def _asked(self, call: Call) -> Turns:
        halt = self.halt
        yield "Hop"
        if halt:
            return "halted"
        return (yield from {"add": self._add, "remove": self._remove, "has": self._has}[call.verb](call))

    def _walk(self, key: Key) -> Generator[str, None, Met]:
        place = self._head(key)
        node = self.links[place].next
        yield "Hop"
        while node is not None:
            met = self.keys[node]
            yield "Hop"
            if met > key:
                return place, node, None
            link = self.links[node]
            yield "Hop"
            if met == key:
                return place, node, link
            place, node = node, link.next
        return place, None, None

    def _rest(self, node: Optional[int], link: Link, reply: str) -> Turns:
        """Answers at once where the node's last change is settled, else behind a sync."""
        if node is not None and not (link.remove_settled if link.is_marked else link.add_settled):
            yield from self._settle(node)
        return reply

    def _settle(self, slot: int) -> Iterator[str]:
        is_early = True
        while is_early:
            self._begin("Sync")
            self.vault.sync(slot)
            yield "Sync"
            self._begin("Settle")
            is_early = not self.vault.is_covered(slot)
            if not is_early:
                self._set_flags(slot)
            yield "Settle"

    def _set_flags(self, slot: int) -> None:
        stage, link = self.vault.stages[slot], self.links[slot]
        assert stage in (OPEN, CLOSED)
        self.links[slot] = Link(link.next, link.is_marked, True, link.remove_settled or stage == CLOSED)

    def _has(self, call: Call) -> Turns:
        _, node, link = yield from self._walk(call.key)
        if link is None:
            return "no"
        return (yield from self._rest(node, link, "no" if link.is_marked else "yes"))

    def _reserve(self, call: Call) -> Iterator[str]:
        """Asks for a slot, and once more after a look at each pass."""
        yield self._take_slot(call)
        if call.slot is not None:
            return
        for actor in range(1, PASSES + 1):
            self._begin("SeePin")
            self._see(actor)
            yield "SeePin"
        yield self._take_slot(call)

    def _take_slot(self, call: Call) -> str:
        """The lowest slot that is free, once those are that each pass has left."""
        self._begin("Reserve")
        self.free.update(retired.slot for retired in self.limbo if len(retired.left) == PASSES)
        self.limbo = [retired for retired in self.limbo if len(retired.left) < PASSES]
        if self.free:
            call.slot = min(self.free)
            self.free.remove(call.slot)
        return "Reserve"

    def _add(self, call: Call) -> Turns:
        _, node, link = yield from self._walk(call.key)
        if link is not None and not link.is_marked:
            return (yield from self._rest(node, link, "no"))
        yield from self._reserve(call)
        if call.slot is None:
            return "full"
        yield from self._write_key(call.slot, call.key)
        while True:
            place, node, link = yield from self._walk(call.key)
            if link is not None and not link.is_marked:
                return (yield from self._rest(node, link, "no"))
            if (yield from self._claim(call, place, node)):
                return (yield from self._open(call, call.slot, place, node))

    def _write_key(self, slot: int, key: Key) -> Iterator[str]:
        self._begin("WriteKey")
        self.vault.put_key(slot)
        self.keys[slot] = key
        yield "WriteKey"
        self._begin("Sync")
        self.vault.sync(slot)
        yield "Sync"

    def _claim(self, call: Call, place: int, node: Optional[int]) -> Generator[str, None, bool]:
        """Takes the locks, and says whether what they are of is as it was seen; where it isn't they are given back."""
        call.locks = {place} if node is None else {place, node}
        self._begin("Claim")
        while call.locks & self.locked:
            yield BUSY
            self._begin("Claim")
        self.locked |= call.locks
        yield "Claim"
        self._begin("Check")
        before = self.links[place]
        is_as_seen = before.next == node and not before.is_marked and (node is None or not self.links[node].is_marked)
        yield "Check"
        if not is_as_seen:
            yield from self._release(call)
        return is_as_seen

    def _release(self, call: Call) -> Iterator[str]:
        self._begin("Release")
        self.locked -= call.locks
        yield "Release"

    def _lead(self, place: int, node: Optional[int]) -> None:
        """The link of a place leads to this node now; its other bits stay."""
        link = self.links[place]
        self.links[place] = Link(node, link.is_marked, link.add_settled, link.remove_settled)

    def _open(self, call: Call, slot: int, place: int, node: Optional[int]) -> Turns:
        self._begin("WriteOpen")
        self.vault.open_gate(slot, call.key)
        self.links[slot], call.slot = Link(node), None
        yield "WriteOpen"
        self._begin("Link")
        self._lead(place, slot)
        yield "Link"
        yield from self._release(call)
        yield from self._settle(slot)
        return "yes"

    def _remove(self, call: Call) -> Turns:
        while True:
            place, node, link = yield from self._walk(call.key)
            if node is None or link is None:
                return "no"
            if link.is_marked:
                return (yield from self._rest(node, link, "no"))
            if (yield from self._claim(call, place, node)):
                return (yield from self._close(call, place, node))

    def _close(self, call: Call, place: int, node: int) -> Turns:
        self._begin("WriteClose")
        self.vault.close_gate(node)
        yield "WriteClose"
        self._begin("Mark")
        link = self.links[node]
        self.links[node] = Link(link.next, True, link.add_settled, link.remove_settled)
        yield "Mark"
        yield from self._settle(node)
        self._begin("Unlink")
        self._lead(place, self.links[node].next)
        yield "Unlink"
        yield from self._release(call)
        self._begin("Retire")
        self.limbo.append(Limbo(node))
        yield "Retire"
        return "yes"


class World:
    """A rehearsal, line by line."""

    def __init__(self, slots: int, buckets: int) -> None:
        self.device = Device(slots)
        self.buckets = buckets
        self.life: Optional[Life] = Life(self.device, buckets)
        self.calls: Dict[int, Tuple[Call, Iterator[str]]] = {}
        self.made = 0

    def play(self, line: str) -> str:
        """What a lawful line prints."""
        word, _, rest = line.partition(" ")
        if word == "call":
            return self._call(*rest.split())
        if word in ("turn", "until", "finish"):
            actor, _, behind = rest.partition(" ")
            count = int(behind) if word == "turn" else 0
            return self._turn(int(actor), count, behind if word == "until" else "")
        if word == "crash":
            self.device.crash(rest)
        return {"trip": self._trip, "stop": self._end, "crash": self._end, "open": self._open, "show": self._show}[word](word)

    def _call(self, name: str, verb: str, key: str) -> str:
        assert self.life is not None
        self.made += 1
        actor = int(name)
        call = Call(self.made, actor, verb, Key.read(key))
        self.calls[actor] = call, self.life.turns(call)
        return f"call {self.made} {actor} {verb} {call.key}\n"

    def _turn(self, actor: int, count: int, awaited: str) -> str:
        """So many turns, or any number where the count is 0, up to one that ends the call, that found a lock taken, or that is awaited."""
        call, turns = self.calls[actor]
        for number, kind in enumerate(turns, 1):
            if kind == "Answer":
                del self.calls[actor]
                return f"{call.told}\n"
            if kind == BUSY:
                return f"busy {actor}\n"
            if number == count or kind == awaited:
                break
        return ""

    def _trip(self, _: str) -> str:
        self.device.is_tripped = True
        return ""

    def _end(self, word: str) -> str:
        self.device.is_tripped = False
        self.life, self.calls = None, {}
        return f"{word}\n"

    def _open(self, _: str) -> str:
        try:
            self.life = Life(self.device, self.buckets)
        except Failed:
            return "open fault 7\n"
        return self._told("open", sorted(self.life.vault.members))

    def _show(self, _: str) -> str:
        assert self.life is not None
        return self._told("show", self.life.members())

    def _told(self, word: str, keys: List[Key]) -> str:
        return " ".join([word, *map(str, keys)]) + "\n"
