"""The frames of a conversation as a capture has them: what each one is, and whether its MAC is right. The program is asked of a
MAC apart from the order of the file, behind the messages that it rests on, since frames are captured twice, late, or out of
order."""

from __future__ import annotations

import heapq
import io
from collections import deque
from itertools import islice
from operator import ne
from typing import Iterable, Iterator, NamedTuple, Optional, Sequence, Union

from lib import frames, packets
from lib.captures import Capture, Packets, User, text_of
from lib.common import Refused, run
from lib.packets import FIRST, LAST, SECOND, THIRD, Reading
from lib.words import MOST_USERS

FEW = 4
STAGES = {message: stage for stage, its in enumerate((FIRST, SECOND, THIRD, LAST), 1) for message in its}
NONCES = {"GPSK-1": ("RAND_Server",), "GPSK-2": ("RAND_Server", "RAND_Peer"), "GPSK-3": ("RAND_Server", "RAND_Peer"),
          **{f"PSK-{it}": ("RAND_S",) for it in range(1, 5)}}
ENDS = ("Success", "Failure", "Reject")
PLAIN_TYPES = (1, 2, 3, 47, 51, 254)
# How many packets are asked of at once, how many are near one, and the messages of a method before and behind one; and of a
# block of so few frames that comes again and again, octet for octet, how many are looked at.
MOST_AT_ONCE, NEAR, BEFORE, BEHIND, BLOCK, REPEATED = 4000, 64, 16, 6, 64, 150


class Frame(NamedTuple):
    """A frame: its place in the conversation, its number in the file, whether it goes to the peer, when, its octets, its
    message (Start, Logoff, and Reject without an EAP packet among them), Identifier, stage of the method, method and nonces,
    the program's finding, the RADIUS packet around it, and its turn in the order of a world."""

    place: int
    number: int
    is_down: bool
    at: float
    octets: bytes
    message: str
    id: int = -1
    stage: int = 0
    kind: str = ""
    nonces: tuple[Optional[bytes], ...] = ()
    finding: str = "good"
    radius: Optional[frames.Radius] = None
    turn: int = -1

    @property
    def read(self) -> Reading:
        return packets.read(self.octets)

    @property
    def word(self) -> str:
        return self.finding.partition(" ")[0]

    @property
    def called(self) -> str:
        names = {"Start": "EAPOL-Start", "Logoff": "EAPOL-Logoff", "Reject": "Access-Reject without an EAP packet"}
        return f"packet {self.number}, {self.read.called if self.octets else names.get(self.message, 'no EAP packet')}"

    def is_of_run(self, other: Frame) -> bool:
        """Whether two messages can be of one run of a method, by the nonces that both have."""
        return self.kind == other.kind and all(one == its for one, its in zip(self.nonces, other.nonces))

    def is_nearly_of_run(self, other: Frame) -> bool:
        """The same, or one of both has few octets of its nonces altered."""
        nonces = (b"".join(filter(None, it.nonces)) for it in (self, other))
        return self.is_of_run(other) or self.kind == other.kind and is_near(*nonces)


def is_near(one: bytes, other: bytes) -> bool:
    """Whether octets differ in few places."""
    return len(one) == len(other) and 0 < sum(map(ne, one, other)) <= FEW


def frame_of(place: int, number: int, is_down: bool, at: float, octets: bytes, radius: Optional[frames.Radius]) -> Frame:
    if not octets:
        message = "Reject" if radius and radius.octets[0] == 3 else "Nothing"
        return Frame(place, number, is_down, at, octets, message, radius=radius)
    read = packets.read(octets)
    message, stage, kind = read.message, STAGES.get(read.message, 0), read.kind
    if len(octets) > 4 and octets[0] in (1, 2) and octets[4] not in PLAIN_TYPES:
        message, kind = read.name, str(octets[4])
    nonces = tuple(read.get(it) for it in NONCES.get(message, ()))
    # (a Response to the peer, or what else a side doesn't send, is of no message)
    is_odd = octets[0] in (1, 2, 3, 4) and is_down == (octets[0] == 2)
    return Frame(place, number, is_down, at, octets, message, octets[1] if len(octets) > 1 else -1, 0 if is_odd else stage, kind,
                 nonces, "malformed Code" if is_odd else "good", radius)


Event = tuple[int, Union[int, str], float]


def frames_of(capture: Capture, part: Sequence[int]) -> Iterator[Frame]:
    """The frames of a conversation by their numbers, which aren't judged yet."""
    its = capture.packets
    without: Iterable[Event] = ((number, name, at) for name, found in (("Start", capture.starts), ("Logoff", capture.logoffs))
                                for number, at in found)
    whole: Iterable[Event] = ((its.numbers[at], at, 0.0) for at in part)
    for place, (number, which, when) in enumerate(once(capture, heapq.merge(whole, sorted(without)))):
        if isinstance(which, str):
            yield Frame(place, number, False, when, b"", which)
        else:
            it = its[which]
            # (of a text without times, a packet a second)
            yield frame_of(place, number, it.is_to_peer, float(place) if it.at is None else it.at, it.octets, it.radius)


def once(capture: Capture, events: Iterable[Event]) -> Iterator[Event]:
    """The frames without those of a block that goes on coming again, octet for octet: these are counted in a note."""
    its, before, held = capture.packets, deque[object](maxlen=BLOCK), list[Event]()
    period = run = left = 0
    for event in events:
        which = event[1]
        radius = its.radius[which] if its.radius and isinstance(which, int) else None
        key = which if isinstance(which, str) else (its.ways[which], its.octets[which], radius and radius.octets)
        if not period or before[-period] != key:
            yield from held
            held, run = [], 0
            period = next((at for at, it in enumerate(reversed(before), 1) if it == key), 0)
        before.append(key)
        run += 1
        if run <= REPEATED or not period:
            yield event
            continue
        held.append(event)
        if len(held) == period:
            left, held = left + period, []
    yield from held
    if left:
        capture.notes.append(f"left out: frames of a block that comes again and again, octet for octet: {left}")


# ---- What the program finds.


def findings_of(asked: Packets, users: list[User]) -> list[str]:
    """What `check` says of each packet."""
    status, said = run(["check"], text_of(asked, users).encode("latin-1"))
    if status not in (0, 7):
        last = said[said.rfind(b"\n", 0, -1) + 1 :].decode("latin-1").rstrip("\n")
        raise Refused(f"eap_login check doesn't take the packets: {last}")
    shared: dict[str, str] = {}
    found = ["good"] * len(asked)
    for line in islice(io.BytesIO(said), len(asked)):
        number, _, finding = line[:-1].decode("latin-1").partition(" ")
        found[int(number) - 1] = shared.setdefault(finding, finding)
    return found


def contexts_of(it: Frame, near: list[Frame]) -> list[tuple[Frame, ...]]:
    """What a message's MAC can rest on: runs of the messages before it, of those that are near."""
    def first_of(second: Frame) -> tuple[Frame, ...]:
        return tuple([x for x in near if x.stage == 1 and x.is_of_run(second)][:1])

    seconds = [x for x in near if x.stage == 2 and x.is_of_run(it)]
    seconds = seconds or [x for x in near if x.stage == 2 and x.is_nearly_of_run(it)]
    if it.stage == 1:
        return [()]
    if it.stage == 2:
        return [first_of(it) or tuple([x for x in near if x.stage == 1][:1])]
    if it.stage == 3:
        return [(*first_of(x), x) for x in seconds[:2]]
    seconds = [x for x in seconds if (it.id - x.id) % 256 == 1]
    return [(*first_of(x), x, *[y for y in near if y.stage == 3 and y.is_of_run(x)][:1]) for x in seconds[:3]]


class Judge:
    """Asks the program of the messages of many conversations at once, with their users."""

    def __init__(self, users: Sequence[User] = ()) -> None:
        self.users, self.asked, self.places = list(users), Packets(), list[tuple[Frame, range]]()

    def may_add(self, users: Sequence[User], count: int) -> bool:
        return len({*self.users, *users}) <= MOST_USERS and len(self.asked) + 3 * count <= MOST_AT_ONCE * 3

    def add(self, found: Sequence[Frame], users: Sequence[User], begin: int = 0, end: int = 1 << 60) -> None:
        """Takes up the messages of a conversation from one place to another."""
        self.users += [it for it in users if it not in self.users]
        of_method = [it for it in found if it.stage or it.message == "GPSK-Protected-Fail"]
        for at, it in enumerate(of_method):
            if begin <= it.place < end and it.word == "good":
                near = [*of_method[at + 1 : at + 1 + BEHIND], *of_method[max(0, at - BEFORE) : at]][::-1]
                for context in contexts_of(it, [x for x in near if x.kind == it.kind and x.octets != it.octets]):
                    self.put(*context, it)
        for it in found:
            if begin <= it.place < end and it.octets and not it.stage and it.message not in (*ENDS, "GPSK-Protected-Fail"):
                self.put(it)

    def put(self, *its: Frame) -> None:
        begin = len(self.asked)
        for it in its:
            self.asked.append(len(self.asked) + 1, it.octets[:1] != b"\2", it.octets, 0.0)
        self.places.append((its[-1], range(begin, len(self.asked))))

    def found(self) -> dict[int, str]:
        """The findings of the frames that were taken up, by their identity; the best of those in several contexts. Behind the one
        of a wrong tag stands the user under whose key it is right."""
        found = self.ask(self.places, self.users)
        wrong = [(it, part) for it, part in self.places if found[id(it)] == "tag-bad" and it.stage == 2]
        for user, kind, key in self.users if wrong else []:
            its = [(it, part) for it, part in wrong if it.kind == kind and it.read.user != user]
            names = dict.fromkeys(it.read.user for it, _ in its)
            under = self.ask(its, [(name, kind, key) for name in names])
            found.update((it, f"tag-bad {user}") for it, finding in under.items() if finding.startswith("tag-good"))
        return found

    def ask(self, places: list[tuple[Frame, range]], users: list[User]) -> dict[int, str]:
        said = findings_of(self.asked.of(part for _, part in places), users) if places else []
        found, end = dict[int, str](), 0
        for it, part in places:
            end += len(part)
            if not found.get(id(it), "").startswith("tag-good"):
                found[id(it)] = said[end - 1]
        return found


def judged(frames: Iterable[Frame], found: dict[int, str]) -> Iterator[Frame]:
    """The frames with their findings. (a message whose context isn't there isn't judged)"""
    for it in frames:
        unknown = "no-context" if (it.stage or it.message == "GPSK-Protected-Fail") and it.word == "good" else it.finding
        yield it if it.word == "malformed" else it._replace(finding=found.get(id(it), unknown))


def in_batches(capture: Capture, part: Sequence[int]) -> Iterator[Frame]:
    """The frames of a long conversation, of which a batch is asked at once, with what is near it."""
    more, found, begin = frames_of(capture, part), list[Frame](), 0
    while True:
        found += islice(more, MOST_AT_ONCE + NEAR)
        end = found[-1].place + 1 - NEAR if len(found) >= MOST_AT_ONCE and found else (found[-1].place + 1 if found else begin)
        judge = Judge()
        judge.add(found, capture.users, begin, end)
        yield from judged([it for it in found if begin <= it.place < end], judge.found())
        if not found or end == found[-1].place + 1:
            return
        found, begin = [it for it in found if it.place >= end - NEAR], end


Conversation = tuple[Capture, Sequence[int], Iterator[Frame]]
Waiting = list[tuple[Capture, Sequence[int], list[Frame]]]


def conversations(captures: Iterable[Capture]) -> Iterator[Conversation]:
    """Each conversation of captures with its frames, which are judged; the program is asked of many short ones at once."""
    waiting: Waiting = []
    judge = Judge()
    for capture in captures:
        parts: list[Sequence[int]] = [*capture.parts] or [range(len(capture.packets))]
        for part in parts:
            is_short = len(part) < MOST_AT_ONCE
            if not is_short or not judge.may_add(capture.users, len(part)):
                yield from answered(waiting, judge)
                waiting, judge = [], Judge()
            if not is_short:
                yield capture, part, in_batches(capture, part)
                continue
            its = list(frames_of(capture, part))
            judge.add(its, capture.users)
            waiting.append((capture, part, its))
    yield from answered(waiting, judge)


def answered(waiting: Waiting, judge: Judge) -> Iterator[Conversation]:
    found = judge.found()
    for capture, part, its in waiting:
        yield capture, part, judged(its, found)
