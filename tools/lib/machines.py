"""In which ways a frame can come next in a login, by the tables of both ends: RFC 4137, RFC 5433 and RFC 4764. Each way is a
world, and the choices in it that are out of the ordinary; worlds.txt has what each of these costs, and says."""

from __future__ import annotations

from dataclasses import dataclass, field
from typing import Iterator, NamedTuple, Optional

from lib import words
from lib.limits import ALIKE, SEEN
from lib.observed import ENDS, Frame, is_near
from lib.packets import ECHOES, FIRST, THIRD

# Seconds: within which a frame is captured or sent twice, or one has overtaken another; after which an end sends again, gives up
# waiting, or begins another login; and how long an EAPOL-Start is answered.
DOUBLED, ORDERED, TIMER, GIVES_UP, SOON, ANSWERED = 0.25, 0.012, 0.6, 2.0, 0.05, 5.0
FAILS = ("GPSK-Fail", "GPSK-Protected-Fail")
MALFORMED = ("tag-bad", "malformed")


class Choice(NamedTuple):
    """What is out of the ordinary: its cost, the words of a verdict, the sentence, and what may help."""

    cost: int
    verdict: str
    sentence: str
    advice: str


CHOICES = {name: Choice(int(cells[0]), *(it.strip("-") if it == "-" else it for it in [*cells[1:], "-", "-"][:3]))
           for name, cells in words.tables_of("worlds.txt")["choices"].items()}


class Token(NamedTuple):
    """A choice of a world at a frame, with the words of its sentence, and what it costs there."""

    name: str
    place: int
    words: tuple[str, ...]
    cost: int


def token(name: str, place: int, *words: object, cost: Optional[int] = None) -> Token:
    return Token(name, place, tuple(map(str, words)), CHOICES[name].cost if cost is None else cost)


class End(NamedTuple):
    """What an end sent last: its message, Identifier, place (-1: it isn't in the capture), method, octets, time and turn."""

    message: str = ""
    id: int = -1
    place: int = -1
    kind: str = ""
    octets: bytes = b""
    at: float = 0.0
    turn: int = -1

    @property
    def is_idle(self) -> bool:
        """Whether nothing goes on."""
        return self.message == "" or self.message in ENDS


NOBODY = End()


class World(NamedTuple):
    """What is known at a frame: both ends, the frames before in their order, those that are forged, what holds all the time,
    when the login began, how many frames there were, the cost, the choices, the worlds at which logins began, and which frame
    is next, which were taken before it, and which are behind their places."""

    server: End = NOBODY
    peer: End = NOBODY
    seen: tuple[Frame, ...] = ()
    forged: tuple[int, ...] = ()
    facts: frozenset[str] = frozenset()
    begun: int = 0
    turn: int = 0
    cost: int = 0
    trail: tuple[Token, ...] = ()
    begins: tuple[World, ...] = ()
    first: int = 0
    ahead: tuple[int, ...] = ()
    late: tuple[int, ...] = ()


Way = tuple[World, list[Token]]


@dataclass
class Tap:
    """What the place of capturing hides: whether a direction isn't captured, the numbers of the frames that are cut, whether
    frames are left out; whether frames have times; the numbers of those that no packet of the server brought; the octets of what came
    from another address than was asked; and the frames around, and of each that one which is like it."""

    hides_server: bool = False
    hides_peer: bool = False
    cut: list[int] = field(default_factory=list)
    is_unsure: bool = False
    has_times: bool = True
    alone: frozenset[int] = frozenset()
    elsewhere: frozenset[bytes] = frozenset()
    frames: dict[int, Frame] = field(default_factory=dict)
    alike: dict[int, Optional[Frame]] = field(default_factory=dict)


def other_fields(later: Frame, earlier: Frame) -> str:
    """The names of the fields of a message that aren't those of the message whose fields it repeats."""
    message, *names = ECHOES.get(later.message, [""])
    return " and ".join(it for it in names if message == earlier.message and later.read.get(it) != earlier.read.get(it))


def name_of(kind: str, stage: int) -> str:
    return f"{'PSK' if kind == '47' else 'GPSK'}-{stage}"


class Next:
    """A frame that comes next in a world, of its turn, and the ways in which it can."""

    def __init__(self, tap: Tap, world: World, frame: Frame) -> None:
        self.tap, self.world, self.frame = tap, world, frame
        self.found: dict[tuple[bool, int], list[Frame]] = {}
        f = frame
        self.server, self.peer = world.server, world.peer
        mine = End(f.message, f.id, f.place, f.kind, f.octets, f.at, f.turn)
        # (as world._replace(..) makes it, in half of the time)
        self.on = World(mine, *world[1:]) if f.is_down else World(world[0], mine, *world[2:])
        self.before = [it for it in self.near(f.is_down) if it.octets == f.octets] if f.octets else []

    # ---- What is near it.

    def near(self, is_down: bool, count: int = SEEN) -> list[Frame]:
        """The frames of a direction before it in this world, the last one first."""
        key = is_down, count
        if key not in self.found:
            self.found[key] = [it for it in self.world.seen[: -count - 1 : -1] if it.is_down == is_down and it.octets]
        return self.found[key]

    def answers(self, identifier: int, behind: int) -> list[Frame]:
        return [it for it in self.near(False) if it.turn > behind and it.id == identifier]

    def asked(self, identifier: int, behind: int = -1) -> list[Frame]:
        """The Requests of an Identifier."""
        return [it for it in self.near(True) if it.turn > behind and it.id == identifier and it.message not in ENDS]

    def outer(self) -> str:
        """The name in this login's Identity Response."""
        return next((it.read.identity for it in self.near(False) if it.message == "Identity" and it.turn >= self.world.begun), "")

    def alike(self) -> Optional[Frame]:
        """A frame near it, before or behind, of which it differs in few octets."""
        f, found = self.frame, self.tap.alike
        if f.place not in found:
            its = (self.tap.frames.get(at) for at in range(f.place - ALIKE, f.place + ALIKE) if at != f.place)
            found[f.place] = next((it for it in its if it and it.is_down == f.is_down and it.id == f.id and is_near(it.octets, f.octets)
                                   and it.word not in MALFORMED), None)
        return found[f.place]

    def token(self, name: str, *words: object) -> Token:
        return token(name, self.frame.place, *words)

    def since(self, at: float) -> str:
        seconds = abs(self.frame.at - at)
        side = "later" if self.frame.at >= at else "earlier"
        return side if not self.tap.has_times else f"{seconds * 1000:.1f} ms {side}" if seconds < 1 else f"{seconds:.1f} s {side}"

    def is_cut(self) -> bool:
        """Whether a frame of this login is cut."""
        if not self.tap.cut:
            return False
        begin = next((it.number for it in self.world.seen if it.turn >= self.world.begun), 0)
        return any(begin <= it <= self.frame.number for it in self.tap.cut)

    def opening(self) -> list[Token]:
        return [] if self.is_cut() else [self.token("begins")]

    def unseen(self, name: str, of_server: bool, is_first: bool = True) -> list[Token]:
        """A message that isn't in the capture, by what hides it; one beside another costs less. (of what is cut is told by itself)"""
        cost = 0 if (self.tap.hides_server if of_server else self.tap.hides_peer) else 2 if self.tap.is_unsure or not is_first else None
        return [] if self.is_cut() else [token("uncaptured", self.frame.place, name, cost=cost)]

    def unseen_refused(self, cost: Optional[int] = None) -> Token:
        return token("unseen-refused", self.frame.place, cost=0 if self.is_cut() else cost)

    def is_explained(self, *frames: Frame) -> bool:
        """Whether one of these frames is altered, malformed or forged in this world."""
        places = {it.place for it in frames}
        its = (it for it in self.world.trail[-SEEN:] if it.name in ("altered", "altered-behind", "bad-shape"))
        return any(it.place in places for it in its) or bool(places & {*self.world.forged})

    # ---- The ways.

    def ways(self) -> Iterator[Way]:
        f, world = self.frame, self.world
        if f.message in ("Start", "Logoff"):
            yield world, [self.token("logoff")] * (f.message == "Logoff")
            return
        yield from self.again()
        facts, found = self.same_nonces()
        for then, tokens in self.of_server() if f.is_down else self.of_peer():
            # (what neither end goes on by is no new message)
            is_new = bool(facts) and then is not world
            yield (then._replace(facts=then.facts | facts), [*tokens, *found]) if is_new else (then, tokens)
        yield from self.altered()
        # (a right MAC is made by who has the key: what is forged of it is of an earlier login)
        forged = token("forged", f.place, cost=12 if f.word == "tag-good" else None)
        yield world._replace(forged=(*world.forged[-3:], f.place)), [forged]

    def again(self) -> Iterator[Way]:
        """The frame was here before: by the capture, or by what lies between."""
        f, world = self.frame, self.world
        twice = next((it for it in self.before[:3] if f.at - it.at <= DOUBLED and not self.is_other_reply(it)), None)
        if twice:
            said = self.token("twice", twice.number, self.since(twice.at))
            if "doubling" not in world.facts:
                yield world, [said]
            free = [self.token("doubling")] * ("doubling" not in world.facts) + [said._replace(cost=0)]
            yield world._replace(facts=world.facts | {"doubling"}), free
        last = self.server if f.is_down else self.peer
        if self.before and self.before[0].place != last.place and (not twice or f.at - self.before[0].at > DOUBLED):
            was = self.before[0]
            yield world, [self.token("copy" if f.at - was.at > DOUBLED else "twice", was.number, self.since(was.at))]
        elif not self.before and self.is_over():
            yield world, [self.token("stray", "the login")]
        elif not self.before and self.is_late():
            yield world, [self.token("stray", "an exchange")]

    def is_old(self) -> bool:
        """Whether a message of a method was here before, in this login or in one whose nonces didn't come again, so that it is no
        new one."""
        may_be_new = self.frame.stage < 3 or "same-nonces" in self.world.facts
        return bool(self.before and self.frame.stage) and (self.before[0].turn >= self.world.begun or not may_be_new)

    def same_nonces(self) -> tuple[frozenset[str], list[Token]]:
        """What it means that a message of an earlier login is a new one: its end used a nonce again. (then the next one is no wonder)"""
        f, fact = self.frame, "same-nonces"
        if not self.before or not f.stage or self.is_old():
            return frozenset(), []
        said = [token(fact, f.place, self.before[0].number, cost=0 if fact in self.world.facts else None)] if f.stage < 3 else []
        return frozenset([fact]), said

    def is_over(self) -> bool:
        """Whether a message is of a run that is over, though the capture doesn't have it before the end."""
        f, server = self.frame, self.server
        is_early = f.stage in (1, 2, 3) or f.message == "Identity"
        if server.message not in ENDS or not is_early or (server.id - f.id) % 256 > 2 or not f.is_down and self.asked(f.id):
            return False
        its = (it for it in self.world.seen if it.turn >= self.world.begun and not self.is_explained(it)
               and (it.stage or (it.is_down, it.message) == (f.is_down, f.message)))
        return all(it.message != f.message and (not f.stage or it.is_of_run(f)) for it in its)

    def is_late(self) -> bool:
        """Whether a later message of the same run was here long before a message, though the capture doesn't have it before."""
        f = self.frame
        return f.stage > 0 and any(it.stage > f.stage and it.is_of_run(f) and (it.nonces or it.id == f.id) and f.at - it.at > ORDERED
                                   for it in self.world.seen if it.turn >= self.world.begun)

    def is_other_reply(self, it: Frame) -> bool:
        """Whether a RADIUS packet is another reply than one with the same EAP packet."""
        one, other = self.frame.radius, it.radius
        return bool(one and other and self.frame.is_down and one.octets[:20] != other.octets[:20])

    def altered(self) -> Iterator[Way]:
        """It was altered, where the capture has it as it was sent besides, and that is what its end sent."""
        f, as_sent = self.frame, self.alike() if self.frame.stage != 1 or not self.before else None
        if as_sent:
            sent = End(f.message, f.id, as_sent.place, as_sent.kind, as_sent.octets, f.at, f.turn)
            world = self.on._replace(server=sent) if f.is_down else self.on._replace(peer=sent)
            places = ", ".join(f"octet {at} is {one:02x} and there {other:02x}"
                               for at, (one, other) in enumerate(zip(f.octets, as_sent.octets)) if one != other)
            yield world, [self.token("altered", f": packet {as_sent.number} is as it was sent ({places})")]

    # ---- What a server sends.

    def of_server(self) -> Iterator[Way]:
        f, server, world = self.frame, self.server, self.world
        waiting = (at for at in (*world.late, *range(world.first, f.place)) if at not in world.ahead)
        if f.radius and f.radius.request and any(self.tap.frames[at].radius is f.radius.request for at in waiting):
            return  # (a reply is behind its Request)
        if f.radius and f.radius.request is None and self.is_from_elsewhere():
            # (what was so before costs nothing)
            yield world, [token("other-address", f.place, cost=0 if self.before else None)]
        elif f.radius and f.radius.request is None and f.octets in self.tap.elsewhere:
            yield world, [token("other-address", f.place, cost=0)]
            return
        if server.octets and server.octets == f.octets and (f.radius or f.message not in ENDS):
            yield self.on, self.asked_again()
        is_reply = f.radius and f.radius.request and any(it.radius is f.radius.request for it in self.near(False, 3))
        if server.place < 0 and (server.id, server.message) == (f.id, f.message) and f.message not in ENDS:
            if is_reply or f.at - server.at >= TIMER:
                yield self.on, self.asked_again()  # (the first of it isn't here)
                return
            if self.is_late():
                return
        if f.radius and f.radius.request and any(
                it.radius and it.radius.request is f.radius.request and it.octets != f.octets for it in self.near(True)):
            yield self.world, [self.token("two-replies")]
        if self.is_old():
            return
        if f.word == "malformed":
            for facts, found in self.misshaped():
                # (of what was altered the message isn't known, but which Request it was)
                on = self.on if found[0].name == "bad-shape" else self.unread()
                yield on._replace(facts=on.facts | facts), found
        elif f.message == "Identity":
            yield from self.first_request()
        elif f.message == "Notification":
            yield self.unread(), self.order()
        elif f.message in FAILS:
            if server.message not in ENDS and server.kind in ("", f.kind):
                yield self.on, [*self.needs(2, "Identity", "Nak"), self.token("ends-method", *self.code())]
        elif f.stage == 1 or f.message.startswith("Type") or f.kind and not f.stage:
            yield from self.proposal()
        elif f.stage == 3:
            yield from self.third()
        elif f.message == "Success":
            yield from self.success()
        elif f.message in ("Failure", "Reject"):
            yield from self.failure()
        elif f.message == "Nothing":
            yield self.world, []

    def unread(self) -> World:
        """The server sent a Request that says nothing of where the method is."""
        f = self.frame
        return self.world._replace(server=self.server._replace(id=f.id, place=f.place, octets=f.octets, at=f.at, turn=f.turn))

    def is_from_elsewhere(self) -> bool:
        its = self.frame.radius
        return its is not None and any(it.radius and it.radius.octets[1] == its.octets[1] and it.radius.source == its.to
                                       and it.radius.to != its.source for it in self.near(False))

    def asked_again(self) -> list[Token]:
        """What it means that the server sends what it sent last."""
        f, server = self.frame, self.server
        if f.radius:
            if any(it.turn > server.turn for it in self.near(False)):
                return []
            is_other = any(map(self.is_other_reply, self.before[:1]))
            return self.unseen("an Access-Request", False) if is_other else [self.token("asked-behind")]
        was, since = [it for it in self.world.seen if it.turn == server.turn], max(server.turn, self.world.begun - 1)
        answers = self.answers(f.id, since)
        refused = [it for it in answers if it.word in MALFORMED]
        if any(it.turn > since and it.message == "Start" for it in self.world.seen):
            return []
        found = [] if f.at - server.at >= TIMER or refused else [self.token("early", self.since(server.at))]
        if answers:
            is_free = len(refused) == len(answers) or self.is_explained(*was)
            return [*found, token("lost", answers[0].place, f.number, cost=0 if is_free else None)]
        return [*found, *(token("unanswered", it.place, f.number, self.since(it.at)) for it in was if not self.is_cut())]

    def code(self) -> list[str]:
        """The Failure-Code of a message, and its name."""
        return [str(self.frame.read.number.get("Failure-Code", 0)), self.frame.read.note("Failure-Code")]

    def needs(self, *wanted: object) -> list[Token]:
        """The peer's message that the server has to have got: of a stage, or of a name."""
        server, is_notified = self.server, any(
            it.place == self.server.place and it.message == "Notification" for it in self.world.seen)
        for it in self.near(False):
            if (it.turn > server.turn - 4 or server.place < 0) and (server.id < 0 or it.id == server.id or is_notified) and (
                    it.stage or it.message) in wanted:
                return []
        first = wanted[0]
        return self.unseen(name_of(self.frame.kind, first) if isinstance(first, int) else str(first), False)

    def order(self) -> list[Token]:
        """Whether a Request's Identifier follows that of the one before."""
        f, server = self.frame, self.server
        ahead = (f.id - server.id) % 256
        was = [it for it in self.world.seen if it.place == server.place]
        if server.id < 0 or ahead == 1 or server.message in ENDS or ahead == 0 and was and self.is_explained(*was):
            return []
        return [self.jump(6 if ahead > 128 or ahead == 0 else 2)]

    def jump(self, cost: int = 6) -> Token:
        return token("jump", self.frame.place, self.frame.id, self.server.id, cost=cost)

    def anew(self, server: End) -> World:
        """A login begins here."""
        return self.world._replace(server=server, peer=NOBODY, begun=self.world.turn, forged=())

    def first_request(self) -> Iterator[Way]:
        """An Identity Request."""
        f, server, peer, seen = self.frame, self.server, self.peer, self.world.seen
        here = [it for it in seen if it.turn >= self.world.begun]
        first = next((it.turn for it in here if it.is_down), f.turn)
        starts = [it for it in seen if it.message in ("Start", "Logoff")]
        begins = [it for it in starts if it.turn > max(first, self.world.begun) and (it.turn > server.turn or f.at - it.at < ANSWERED)]
        asked = [it for it in begins if not any(x.message == it.message and x.turn < it.turn and it.at - x.at <= DOUBLED for x in starts)]
        fresh = self.anew(self.on.server)
        if server.is_idle:
            is_soon = server.message and (f.at - server.at < SOON or any(f.at - it.at < DOUBLED for it in self.before)) and not asked
            # (an Identifier that was used twice besides)
            yield fresh, [token("soon", f.place, cost=6 if self.before and f.at - self.before[0].at < DOUBLED else None)] * bool(is_soon)
        elif self.before and (any(it.place == server.place for it in self.before) or f.at - self.before[0].at < DOUBLED):
            pass  # (it is that again)
        elif server.message == "Identity" and (not peer.message or peer.turn < server.turn):
            yield fresh, []
        elif asked:
            yield fresh, [token("restart-peer", asked[0].place)] * (asked[0].message == "Start")
        else:
            # (what was restarted doesn't begin at once)
            is_soon = server.message != "Identity" and f.at - server.at < SOON
            yield fresh, [token("restart-server", f.place, cost=8 if is_soon else None)]
            # (of one that may be the first again it isn't known whether it asked)
            yield from ((fresh, [token("restart-peer", it.place)]) for it in begins[:1] if it.message == "Start")
            if server.message != "Identity":
                yield fresh, [*self.unseen("the end of the login before", True), *[self.token("soon")] * (is_soon and not self.is_cut())]

    def proposal(self) -> Iterator[Way]:
        """The first message of a method, or one of a method that isn't read here."""
        f, server = self.frame, self.server
        if server.message == "Identity":
            yield self.on, [*self.needs("Identity"), *self.order()]
        elif server.message == "":
            yield self.on, self.opening()
        elif server.message in ENDS:
            yield self.anew(self.on.server), self.unseen("the begin of this login", True)
        elif server.kind == f.kind and not f.stage:
            yield self.on, self.needs(f.message)
        elif server.kind != f.kind and any(it.kind == server.kind and it.stage for it in self.answers(f.id - 1, self.world.begun)):
            # (RFC 3748 section 2.1)
            yield self.unread(), [self.token("altered", ": its Type isn't that of the method that goes on")]
        else:
            if server.kind != f.kind:
                missing = self.needs("Nak")
                yield self.on, [*missing, *self.order()]
                if not missing:
                    return
            elif f.radius and any(it.message == "Identity" and it.turn > server.turn for it in self.near(False)):
                yield self.on, [self.token("anew")]
            yield self.anew(self.on.server), [self.token("gap")]

    def third(self) -> Iterator[Way]:
        f, server = self.frame, self.server
        if server.message in FAILS or server.message in THIRD and server.place >= 0 or server.message in ENDS and self.is_over():
            return
        if not server.message and not self.peer.message:
            yield self.on, self.opening()
            return
        missing: list[Token] = []
        if server.message not in FIRST or server.kind != f.kind:
            firsts = [it for it in self.near(True, 12) if it.stage == 1 and it.is_of_run(f)]
            # (behind the end of a run no message of it is a new one)
            if any(it.turn < self.world.begun or server.message in ENDS for it in firsts):
                return
            if not firsts or server.message != "Notification":
                missing = self.unseen(name_of(f.kind, 1), True)
        seconds = [it for it in self.near(False) if it.stage == 2 and it.is_of_run(f)]
        others = [it for it in self.near(False) if it.stage == 2 and it.kind == f.kind and it.id == server.id]
        if seconds and seconds[0].word == "tag-bad" and f.word != "tag-good":
            if {f"{it} {seconds[0].read.identity}" for it in ("given-key", "other-key")} & self.world.facts:
                yield self.on, missing
        elif seconds and f.word == "tag-bad":
            yield self.on, [*missing, *self.order(), self.token("altered", ": its MAC is wrong, and that of the message before is right")]
        elif (seconds or others) and (names := other_fields(f, (seconds or others)[0]) or "RAND_S" * (not seconds)):
            second = (seconds or others)[0]
            if self.is_explained(second):
                yield self.on, [*missing, *self.unseen(name_of(f.kind, 2), False, not missing)]
                return
            if f.word != "tag-good":
                yield self.on, [*missing, self.token("altered", f": its {names} isn't that of packet {second.number}")]
            yield self.on, [*missing, token("altered-behind", second.place, f"packet {f.number} has another {names}")]
        elif seconds:
            yield self.on, [*missing, *self.order()]
        else:
            yield self.on, [*missing, *self.unseen(name_of(f.kind, 2), False, not missing)]

    def success(self) -> Iterator[Way]:
        f, server, world = self.frame, self.server, self.world
        if f.radius and f.radius.octets[0] == 3:
            yield self.on, [self.token("altered", ": an Access-Reject with a Success")]
        elif server.message == "Success":
            return
        elif not server.message and not self.peer.message:
            yield self.on, self.opening()
        elif any(it.message.startswith("Type") or it.kind not in ("", "47", "51") for it in self.answers(server.id, server.turn - 4)):
            yield self.on, []
        elif server.kind not in ("", "47", "51"):
            yield self.on, self.unseen(server.message, False)
        elif server.message in FAILS:
            return
        elif server.id >= 0 and (f.id - server.id) % 256 > 3:
            yield self.on, [self.jump()]
        else:
            fourths = [it for it in self.near(False) if it.stage == 4 and (server.id < 0 or it.id in (server.id, f.id))]
            fourths = [it for it in fourths if not any(x.message in ENDS and x.turn > it.turn and x.at - it.at > DOUBLED for x in world.seen)]
            if server.message in THIRD and fourths:
                was = next((it for it in world.seen if it.place == server.place), None)
                is_odd = fourths[0].word == "tag-bad" and was is not None and was.word == "tag-good"
                yield self.on, [token("altered", fourths[0].place, ": its MAC is wrong, and the server took it")] * is_odd
                return
            yield self.on, [x for at, it in enumerate(self.missing(bool(fourths))) for x in self.unseen(name_of(server.kind, it), it % 2 == 1, not at)]

    def missing(self, has_fourth: bool) -> list[int]:
        """The stages that aren't there before a Success."""
        server, found = self.server, [] if has_fourth else [4]
        if server.message not in THIRD:
            found = [3, *found]
            if server.message not in FIRST or not any(it.stage == 2 for it in self.near(False)):
                found = [2, *found]
        return [1, *found] if server.message == "Identity" or server.is_idle else found

    def failure(self) -> Iterator[Way]:
        """A Failure, or an Access-Reject without one."""
        f, server, world = self.frame, self.server, self.world
        if f.number in self.tap.alone:
            yield world, []
            return
        if server.message in ENDS:
            if self.before and f.at - self.before[0].at <= DOUBLED:
                return
            for it in world.seen[::-1]:
                if it.message == f.message == "Reject" and it.radius and f.radius and it.radius.octets == f.radius.octets:
                    yield world, [self.token("twice" if f.at - it.at <= DOUBLED else "copy", it.number, self.since(it.at))]
                    return
            if f.radius and server.message != "Success" and any(it.turn > server.turn for it in self.near(False)):
                yield self.on, [self.token("forgotten")]
            yield self.anew(self.on.server), [self.unseen_refused()]
            return
        if f.message == "Reject" and server.message in ("", "Identity"):
            yield self.on, [self.token("rejected")]
            return
        if not server.message and not self.peer.message and f.message != "Reject":
            # (with the begin little more than a refusal that is here, and so no cheaper than that out of order)
            yield self.on, [*self.opening(), self.unseen_refused(3)]
            return
        answers = [it for it in self.near(False) if (server.place < 0 or it.turn > server.turn - 3)
                   and server.id in (-1, it.id) and it.id == f.id or f.radius and it.radius and it.radius is f.radius.request]
        if server.message in FAILS:
            yield self.on, [] if answers else self.unseen("the answer to it", False)
            return
        if f.message == "Reject":
            yield self.on, [self.token("rejected")]  # (a method's refusal has a Failure, RFC 3579 section 2.6.3)
        for it in answers[:2]:
            yield from ((self.on, found) for found in self.refusals(it))
        if not answers or not f.radius and answers[0].turn < server.turn and self.has_waited():
            yield self.on, self.given_up()

    def has_waited(self) -> bool:
        """Whether the server asked so long ago that it may give up."""
        f, server = self.frame, self.server
        first = min((it.at for it in self.near(True) if it.octets == server.octets), default=server.at)
        return f.at - first >= GIVES_UP and f.id == server.id

    def given_up(self) -> list[Token]:
        """A Failure to an answer that isn't here."""
        f, server = self.frame, self.server
        if server.id >= 0 and not server.is_idle and (f.id - server.id) % 256 > 3:
            return [self.jump(), self.unseen_refused(0)]
        if self.has_waited():
            is_answered = any(it.id == f.id and it.turn > self.world.begun for it in self.near(False))
            return [token("no-answer", server.place)] * (
                server.place >= 0 and not is_answered and not self.tap.hides_peer and not self.is_cut()) + [self.token("gave-up")]
        more = self.unseen("the Request before it", True) if not server.is_idle and server.id != f.id else []
        return [*more, self.unseen_refused(4 if more else None)]

    def refusals(self, it: Frame) -> Iterator[list[Token]]:
        """Why a server can refuse an answer."""
        asked = next(iter(self.asked(it.id)), None)
        sent = f", or sent another than {f'packet {asked.number}' if asked else 'the Request that it answers'}"
        other = token("altered-behind", it.place, "the server got another packet than this one" + sent * (it.message != "Identity"))
        if self.is_explained(it, *([asked] if asked else [])):
            yield []
        elif it.message == "Identity":
            yield [token("no-user", it.place)]
            yield from [[other]] * (not self.frame.radius)
        elif it.message == "Nak":
            yield [token("no-method", it.place, *self.proposed(it))]
            yield [other]
        elif it.word == "malformed" or it.message in FAILS:
            yield []
        elif it.word == "tag-bad":
            # (of a wrong key is told at GPSK-2)
            yield [token("some-key", it.place)] if it.stage == 2 and f"given-key {it.read.identity}" in self.world.facts else []
        elif it.stage == 2:
            is_other = self.outer() not in ("", it.read.identity) and it.word in ("tag-good", "no-key")
            key = "server-key-or-lost" if self.frame.radius else "server-key"
            name = {"tag-good": key, "no-context": "unjudged"}.get(it.word, "some-key") if not is_other else "outer-name"
            # (the name is told of where it is given)
            yield [] if is_other and it.word == "no-key" else [token(name, it.place, *[self.outer()] * is_other)]
            yield from [[other]] * (it.word == "tag-good")
        elif it.word != "tag-good":
            yield [token("unjudged", it.place)]
        else:
            yield [token("policy", it.place)]
            yield [other]

    def proposed(self, nak: Frame) -> list[str]:
        """What a Nak refuses and what it desires."""
        asked = next((it for it in self.asked(nak.id) if it.message not in ("Identity", "Notification")), None)
        kind = words.METHODS.get(asked.kind, asked.message) if asked else "a method"
        return [kind, nak.read.desired]

    # ---- What a peer sends.

    def of_peer(self) -> Iterator[Way]:
        f, peer = self.frame, self.peer
        if self.before and peer.place >= 0 and peer.octets == f.octets:
            was = next((it for it in self.world.seen if it.turn == peer.turn), f)
            asked = self.asked(f.id, was.turn)
            yield from ((self.on, found) for found in self.answered_again(was, asked))
            if asked or f.radius or len(self.asked(f.id)) > len(self.before):
                return
        if self.is_old() or not self.before and self.is_over():
            return
        if f.stage in (1, 3):
            yield self.on, [self.token("altered", f": a peer sends no {f.message}")]
            return
        if f.word == "malformed":
            yield from ((self.on._replace(facts=self.on.facts | facts), found) for facts, found in self.misshaped())
            return
        if f.radius and any(it.radius and it.radius.request is None and it.radius.octets[1] == f.radius.octets[1] and f.at - it.at > ORDERED
                            for it in self.near(True, 3)):
            yield self.on, []  # (it is sent again, and the first of it isn't here)
        requests = list(self.requests())
        if f.radius and f.message == "Identity" and requests[0][1]:
            if self.before and f.at - self.before[0].at <= DOUBLED:
                return
            fresh = self.anew(End("Identity", f.id, at=f.at, turn=f.turn))._replace(peer=self.on.peer)
            yield fresh, [] if self.server.is_idle else [self.token("restart-peer")]
            return
        other = self.other_answer()
        if other and other.message == "Nak" and self.is_explained(*self.asked(f.id)):
            other = None  # (another Request was refused, which came in this one's place)
        if other and (f.stage == 4 or "Nak" in (f.message, other.message) or not self.asked(f.id, other.turn)):
            return
        more = [self.token("restart-peer")] * bool(other)
        for missing, request in requests:
            if request and f.stage and self.server.message in FAILS:
                continue
            on = self.on
            if request and f.message == "Identity" and self.server.message + self.peer.message:
                on = self.anew(request)._replace(peer=on.peer)
                if not self.server.is_idle and not self.tap.hides_server:
                    missing = [self.token("gap")]
            elif request and (self.server.place < 0 or self.server.message in (*ENDS, f.message) or request.message != self.server.message):
                on = on._replace(server=request)  # (the Requests of a method that isn't read have one name)
            crossing = [self.token("crossing")] * (self.server.message in ENDS and f.at - self.server.at <= ORDERED and not request)
            for facts, found in self.forms():
                yield on._replace(facts=on.facts | facts), [*missing, *found, *more, *crossing]

    def answered_again(self, was: Frame, asked: list[Frame]) -> Iterator[list[Token]]:
        """What it means that a peer, or a RADIUS client, sends what it sent last."""
        f = self.frame
        if not f.radius:
            if asked or len(self.asked(f.id)) > len(self.before):
                yield []
            elif f.at - was.at > DOUBLED and self.server.message in ENDS and self.server.turn > was.turn:
                # (behind the end nobody asks for it)
                yield [self.token("copy", was.number, self.since(was.at))]
            elif f.at - was.at > DOUBLED:
                yield [] if self.tap.hides_server else [self.token("asked-behind")]
        elif asked and was.radius and was.radius.octets[:20] != f.radius.octets[:20]:
            yield []
        elif f.at - was.at > DOUBLED:
            replies = [it for it in self.world.seen[::-1] if it.turn > was.turn and it.is_down and it.radius]
            if replies and all(it.radius and it.radius.request is None for it in replies):
                yield []  # (they came from another address, and are told so)
            elif replies:
                yield [token("reply-lost", replies[0].place, was.number, f.number)]
            else:
                yield [token("request-lost", was.place, f.number)]

    def other_answer(self) -> Optional[Frame]:
        """Another answer to the same Request, which isn't forged."""
        f, peer = self.frame, self.peer
        its = [it for it in self.near(False) if it.id == f.id and it.turn >= self.world.begun and it.octets != f.octets
               and it.place not in self.world.forged and peer.message and peer.octets != f.octets
               and (it.turn == peer.turn or f.message in FAILS or f.message == "Nak")]
        return its[0] if its else None

    def forms(self) -> Iterator[tuple[frozenset[str], list[Token]]]:
        """What is to be said of a peer's message by itself, and what holds from there on."""
        f, facts, none = self.frame, self.world.facts, frozenset[str]()
        if f.word == "no-key" and f.stage == 2 and self.outer() not in ("", f.read.identity):
            yield none, [self.token("other-name", self.outer())]
            if is_near(self.outer().encode(), f.read.identity.encode()):
                yield none, [self.token("altered", f": its name is nearly {self.outer()}")]
        elif f.word == "tag-bad" and f.stage == 2:
            # (what was so before costs nothing)
            owner = f.finding.partition(" ")[2]
            for name in ["other-key"] if owner else ["wrong-key", "given-key"]:
                fact = f"{name} {f.read.identity}"
                yield frozenset([fact]), [self.token(name, owner)._replace(cost=0 if fact in facts else CHOICES[name].cost)]
            yield from [(none, [self.token("altered", "")])] * (not owner)
            # (MAC_P is over the server's name, too, which PSK-2 doesn't repeat)
            asked = self.asked(f.id) if f.kind == "47" and not owner else []
            if asked:
                yield none, [token("altered-behind", asked[0].place, f"the MAC of its answer, packet {f.number}, is over another name")]
        elif f.word == "tag-bad" and f.stage == 4 and (others := self.judged_before()) and "tag-bad" not in others:
            yield none, [self.token("altered", ": its MAC is wrong, and the others are right")]
        elif f.word == "tag-bad" and f.stage == 4 and not any(it.startswith("given-key") for it in facts):
            return
        elif f.message in FAILS and self.server.message not in FAILS:
            yield none, [self.token("peer-ends" if self.asked(f.id) else "ends", *self.code())]
        else:
            yield none, []

    def misshaped(self) -> Iterator[tuple[frozenset[str], list[Token]]]:
        """Who made a packet malformed. (what was so before costs nothing)"""
        for name, *given in (("bad-shape",), ("altered", "")):
            yield frozenset([f"{name} shape"]), [self.token(name, *given)._replace(
                cost=0 if f"{name} shape" in self.world.facts else CHOICES[name].cost)]

    def judged_before(self) -> list[str]:
        """What was found of the last GPSK-2 and GPSK-3, where they were judged."""
        its = (next((it.word for it in self.near(is_down) if it.stage == stage), "") for is_down, stage in ((False, 2), (True, 3)))
        return [it for it in its if it in ("tag-good", "tag-bad")]

    def requests(self) -> Iterator[tuple[list[Token], Optional[End]]]:
        """The Request that a Response answers: what is out of the ordinary with it, and where it isn't here, what it was."""
        f = self.frame
        wanted = {2: 1, 4: 3}.get(f.stage, f.stage) or f.message
        asked = self.asked(f.id)
        fits = [it for it in asked if (it.stage or it.message) == wanted and it.is_of_run(f)]
        others = [it for it in asked if f.stage and it.stage == wanted and it.kind == f.kind and it.turn >= self.world.begun]
        if f.message == "Nak":
            names = {name: kind for kind, name in words.METHODS.items()}
            desired = [names.get(it, it) for it in f.read.desired.split(", ")]
            others = [it for it in asked if it.message not in ("Identity", "Notification")]
            fits = [it for it in others if it.kind not in desired]
        elif f.message in FAILS:
            fits = asked
        if fits or others:
            yield from self.differing((fits or others)[0], bool(fits))
        elif f.nonces and any(it.stage == wanted and it.is_of_run(f) and it.id != f.id for it in self.near(True)):
            yield [self.token("altered", ": its Identifier isn't that of the Request whose nonces it has")], None
        elif asked and asked[0].turn > self.world.begun and not self.is_explained(asked[0]):
            yield [self.token("altered", f": the Request of its Identifier is {asked[0].read.name}")], None
        else:
            yield self.unseen_request(wanted)

    def differing(self, asked: Frame, fits: bool) -> Iterator[tuple[list[Token], Optional[End]]]:
        """What differs between a Request and its Response, which one of both has otherwise than it was sent."""
        f = self.frame
        names = other_fields(f, asked)
        if fits and not names:
            yield [], None
            return
        if self.is_explained(asked):
            yield self.unseen(asked.message, True), None
            return
        if f.message == "Nak" or f.word != "tag-bad":
            why = "desires what it refuses" if f.message == "Nak" else f"has another {names}"
            same = [it.place for it in self.asked(f.id) if it.octets == asked.octets]
            for place in {same[0], same[-1]}:
                yield [token("altered-behind", place, f"its answer, packet {f.number}, {why}")], None
        if f.message != "Nak" and f.word != "tag-good":
            yield [self.token("altered", f": its {names} isn't that of packet {asked.number}, which it answers")], None

    def unseen_request(self, wanted: object) -> tuple[list[Token], Optional[End]]:
        f = self.frame
        message = name_of(f.kind, wanted) if isinstance(wanted, int) else "GPSK-1" if f.message == "Nak" else f.message
        virtual = End(message, f.id, kind=f.kind, at=f.at)
        if not self.server.message and not self.peer.message:
            return self.opening(), virtual
        names = {"Nak": "the Request that it refuses", **dict.fromkeys(FAILS, "the Request that it answers")}
        name = message if f.stage else names.get(f.message, f"the {f.message} Request")
        return self.unseen(name, True), virtual
