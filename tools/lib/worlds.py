"""The cheapest worlds that explain a conversation. A world says of each frame where it comes from, and of each end what it did, so
that both ends send what was seen by their tables; it costs the sum of what is out of the ordinary in it. All worlds of the least
cost are found, and those of one more: what all share is certain, and of what differs one is so."""

from __future__ import annotations

from collections import Counter
from dataclasses import dataclass
from typing import Iterator, Optional, Sequence

from lib.captures import Capture
from lib.limits import AHEAD, ALIKE, ALONE, BACK, BEGINS, BEST, CLOSE, ENDLESS, EQUAL, LONG, MOST, ODD, ONE, SEEN, TOO_MUCH, WORSE
from lib.machines import CHOICES, FAILS, NOBODY, ORDERED, Next, Tap, Token, Way, World, token
from lib.observed import ENDS, Frame

# Faults of the capture itself; and what a packet says whatever the capture lacks.
FAULTS = ("order", "uncaptured", "twice")
OF_PACKET = ("twice", "copy", "same-nonces", "wrong-key", "given-key", "other-key", "ends-method", "ends", "peer-ends", "logoff",
             "rejected", "other-address")


# The ways in which a frame can come next, each with what it costs, and the world behind it where that was asked for.
Ways = list[tuple[int, Way, list[World]]]


@dataclass
class Found:
    """A login: its frames, those that are told of by their places, the choices that are certain, groups of alternatives with the
    cheapest first; whether no other alternative costs as little, since each world was followed and nothing is cut, and whether the
    capture is such that what all worlds share is so; and the numbers from which and before which its frames are."""

    frames: list[Frame]
    places: dict[int, Frame]
    sure: list[Token]
    groups: list[list[list[Token]]]
    is_closed: bool
    is_firm: bool = True
    first: int = 0
    next: Optional[int] = None


class Search:
    """The search through the frames of a conversation. Each login is searched with a limit, which is raised where no world is so
    cheap, and once more by one for the others; when all worlds have the next one begin at the same frame, it is over."""

    def __init__(self, more: Iterator[Frame], tap: Tap) -> None:
        self.more, self.tap, self.frames = more, tap, tap.frames
        self.count = self.limit = self.begin = 0
        self.bases = [World()]
        self.worlds, self.turn, self.is_closed = self.bases, 0, True
        # (the ways from a world are the same in each search, and found once)
        self.known: dict[tuple[int, int], tuple[World, Ways]] = {}
        self.turned: dict[tuple[int, int], Frame] = {}

    def frame(self, place: int) -> Optional[Frame]:
        while place + AHEAD + ALIKE >= self.count and (it := next(self.more, None)):
            self.frames[it.place] = it
            self.count += 1
        return self.frames.get(place)

    def logins(self) -> Iterator[tuple[int, int, list[World], bool]]:
        """The first frame of each login, the one behind its last, its worlds, and whether all were followed."""
        while self.frame(self.turn) is not None:
            # (a login may have been begun by another frame in one world than in another)
            self.worlds = self.cheapest([new for w in self.worlds for new in (self.steps(w) if w.turn == self.turn else [w])])
            if not self.worlds:
                self.again()
                continue
            self.turn += 1
            at, shared = self.shared()
            if shared:
                yield from self.over(at, shared)
            elif self.turn - self.begin > ENDLESS:
                yield self.begin, self.turn, self.worlds[:1], False
                self.go_on(self.turn, self.worlds[:1])
        ends = [self.chosen(w, silent(w, self.tap)) for w in self.worlds]
        if self.turn > self.begin and min(it.cost for it in ends) + ONE > self.limit < TOO_MUCH:
            self.again()
            yield from self.logins()
        elif self.turn > self.begin and (found := self.shared(ONE + 1))[1]:
            # (nothing more comes that a dearer world could explain better)
            yield from self.over(*found)
            yield from self.logins()
        elif self.turn > self.begin:
            yield self.begin, self.turn, ends, self.is_closed
            self.begin = self.turn

    def again(self) -> None:
        """Searches the login from its begin with a higher limit."""
        self.limit += 2 if self.limit < 12 else self.limit // 2
        self.worlds, self.turn, self.is_closed = self.bases, min(it.turn for it in self.bases), True

    def over(self, at: int, shared: list[World]) -> Iterator[tuple[int, int, list[World], bool]]:
        """A login is over where the next begins; where that is itself out of the ordinary, other worlds are looked for before."""
        least = shared[0]
        before = next((it.at for place in range(at - 1, at - 5, -1) if (it := self.frames.get(place)) and it.octets), 0.0)
        is_odd = bool(least.trail) and least.trail[-1].place >= at or self.frames[at].at - before < ORDERED
        # (those of one more have to have come as far)
        if least.cost and max(least.cost + (ODD if is_odd else ONE), self.worlds[0].cost + ONE) > self.limit < TOO_MUCH:
            self.again()
            return
        if any(self.frames[it].octets for it in range(self.begin, at)):
            yield self.begin, at, shared, self.is_closed
        self.go_on(at, shared)

    def go_on(self, at: int, worlds: list[World]) -> None:
        """From a frame on begins another login, of which nothing is told yet; what is out of order there may be so."""
        bases: dict[object, World] = {}
        for w in worlds:
            bases.setdefault((w.first, w.ahead, w.late), w._replace(cost=w.cost - worlds[0].cost, trail=(), begins=()))
        self.bases, self.begin, self.limit, self.known, self.turned = [*bases.values()], at, -2, {}, {}
        self.again()
        kept = {it.place for w in self.bases for it in (w.server, w.peer)}
        for it in [it for it in self.frames if it < at - MOST and it not in kept]:
            del self.frames[it]
            self.tap.alike.pop(it, None)

    def cheapest(self, worlds: list[World]) -> list[World]:
        """The cheapest of each state, and of all; above a limit, and in what goes on and on, the best alone."""
        states: dict[object, list[World]] = {}
        for w in worlds:
            key = (w.server[:3], w.peer[:3], w.facts, w.begun, w.forged, w.first, frozenset(w.ahead), w.late)
            states.setdefault(key, []).append(w)
        best = min((w.cost for w in worlds), default=0)
        found = []
        for its in states.values():
            its.sort(key=lambda w: w.cost)
            found += [w for w in its[:EQUAL] if w.cost <= min(its[0].cost + ONE, best + WORSE)]
        found.sort(key=lambda w: w.cost)
        most = ALONE if self.turn - self.begin > LONG else BEST if self.limit >= TOO_MUCH else MOST
        self.is_closed = self.is_closed and len(found) <= most
        return found[:most]

    def shared(self, within: int = CLOSE) -> tuple[int, list[World]]:
        """The first begin of a login that all worlds have at the same frame, and the worlds there, the cheapest first; but for those
        that are dearer."""
        of_worlds = [{begin.seen[-1].place: begin for begin in w.begins} for w in self.worlds if w.cost < self.worlds[0].cost + within]
        for place in of_worlds[0]:
            if place > self.begin and all(place in it for it in of_worlds):
                its = {id(it[place]): it[place] for it in of_worlds}
                return place, sorted(its.values(), key=lambda it: it.cost)
        return 0, []

    # ---- One frame more.

    def may_cost(self, cost: int) -> bool:
        return cost <= self.limit or self.limit >= TOO_MUCH

    def ways(self, w: World, it: Frame, *more: Token) -> Iterator[World]:
        """The worlds in which a frame comes next. (a world in use is another than those that are gone, by its identity)"""
        key = id(w), it.place
        if key not in self.known:
            its = Next(self.tap, w, self.at_turn(it, w.turn))
            self.known[key] = w, [(sum([t.cost for t in way[1]]), way, []) for way in its.ways()]
        before = w.cost + sum([t.cost for t in more])
        for cost, (then, tokens), made in self.known[key][1]:
            if self.may_cost(before + cost):
                if not made:
                    made.append(self.advanced(w, it, (then, [*more, *tokens]), before + cost))
                yield made[0]

    def at_turn(self, it: Frame, turn: int) -> Frame:
        """A frame with its turn, which many worlds share."""
        key = it.place, turn
        if key not in self.turned:
            self.turned[key] = it._replace(turn=turn)
        return self.turned[key]

    def steps(self, w: World) -> Iterator[World]:
        """A world with one frame more: the next one, or one that was held back; and where the next one is out of the ordinary, it
        is held back, or one is taken that the capture has behind it."""
        for at in w.late:
            yield from self.ways(w, self.frames[at])
        front = self.frame(w.first)
        if front is None or w.late and front.at - self.frames[w.late[0]].at > ORDERED:
            return
        own = list(self.ways(w, front))
        yield from own
        if own and min(it.cost for it in own) == w.cost or not self.may_cost(w.cost + CHOICES["order"].cost):
            return
        for at in range(w.first + 2, w.first + 1 + AHEAD):
            it = self.frame(at)
            if it is None or abs(it.at - front.at) > ORDERED:
                break
            if at not in w.ahead:
                yield from self.ways(w, it, token("order", at, "late"))
        behind = self.frame(w.first + 1)
        if len(w.late) < BACK and behind is not None:
            yield from self.steps(self.deferred(w, front))

    def deferred(self, w: World, front: Frame) -> World:
        """A world that holds back its next frame."""
        key = id(w), -1
        if key not in self.known:
            late = self.chosen(w, [token("order", front.place, "early")])
            first, ahead = passed(w.first, w.ahead)
            late = late._replace(first=first, ahead=ahead, late=(*w.late, w.first))
            self.known[key] = w, [(0, (late, []), [late])]
        return self.known[key][1][0][1][0]

    def chosen(self, w: World, tokens: Sequence[Token]) -> World:
        return w._replace(cost=w.cost + sum(it.cost for it in tokens), trail=(*w.trail, *tokens))

    def advanced(self, w: World, it: Frame, way: Way, cost: int) -> World:
        """The world behind a frame that came so, which costs so much."""
        then, tokens = way
        first, ahead, late = w.first, w.ahead, w.late
        if it.place in late:
            late = tuple(at for at in late if at != it.place)
        elif it.place == first:
            first, ahead = passed(first, ahead)
        else:
            ahead = (*ahead, it.place)
        # (as then._replace(..) makes it, in a third of the time)
        new = World(then.server, then.peer, (*w.seen[1 - SEEN :], self.at_turn(it, w.turn)), then.forged, then.facts, then.begun,
                    w.turn + 1, cost, (*w.trail, *tokens), then.begins, first, ahead, late)
        # (what it costs to begin is told of the login before, if there was one)
        return new._replace(begins=(*w.begins[1 - BEGINS :], new._replace(begins=()))) if new.begun == w.turn != w.begun else new


def passed(at: int, ahead: tuple[int, ...]) -> tuple[int, tuple[int, ...]]:
    """The next frame behind one, and behind those taken ahead; and which of these are behind it."""
    first = at + 1
    while first in ahead:
        ahead, first = tuple(it for it in ahead if it != first), first + 1
    return first, ahead


def silent(w: World, tap: Tap) -> list[Token]:
    """What it means that nothing is behind a login's last frame."""
    server, peer = w.server, w.peer
    last = max(server, peer, key=lambda it: (it.turn, it.place))
    if tap.is_unsure or tap.cut or server.message in (*ENDS, *FAILS) or server == peer == NOBODY or last.place < 0:
        return []
    its = tap.frames[last.place].radius
    if its and any(it.is_down and it.radius and it.turn > last.turn and (
            it.radius.octets[1] == its.octets[1] or it.octets in tap.elsewhere) for it in w.seen):
        return []
    return [token("no-answer", last.place)]


# ---- What worlds say.


def grouped(worlds: dict[frozenset[Token], int]) -> tuple[list[Token], list[list[list[Token]]]]:
    """What all worlds share; and of what differs, what differs apart from the rest: its alternatives, the cheapest first."""
    best = min(worlds, key=lambda it: (worlds[it], len(it)))
    groups: list[set[Token]] = []
    for its in worlds:
        differs = set(best ^ its)
        if differs:
            touched = [it for it in groups if it & differs]
            groups = [it for it in groups if not it & differs] + [differs.union(*touched)]
    parted = []
    for group in groups:
        costs: dict[frozenset[Token], int] = {}
        for its, cost in worlds.items():
            mine = its & group
            costs[mine] = min(cost, costs.get(mine, cost))
        ordered = sorted(costs, key=lambda it: (costs[it], len(it), sorted(it)))
        # (what says the same as another and more besides says no more of what may be)
        ordered = [it for it in ordered if not ordered[0] or not any(its and its < it for its in ordered)]
        parted.append([sorted(it, key=lambda t: (t.place, t.name, t.words)) for it in ordered])
    return sorted(best.difference(*groups), key=lambda t: (t.place, t.name, t.words)), parted


def renamed(its: frozenset[Token], old: str, new: str) -> frozenset[Token]:
    return frozenset(it._replace(name=new) if it.name == old else it for it in its)


def tokens_of(worlds: list[World]) -> dict[frozenset[Token], int]:
    """The choices of the cheapest worlds and of those of one more, without their costs."""
    least = min(it.cost for it in worlds)
    found: dict[frozenset[Token], int] = {}
    for w in worlds:
        if w.cost <= least + ONE:
            its = frozenset(it._replace(cost=0) for it in w.trail if CHOICES[it.name].sentence)
            found[its] = min(w.cost, found.get(its, w.cost))
    # (that both ends have another key than is given is said where nothing says less)
    return {its: cost for its, cost in found.items() if not (
        (less := renamed(its, "given-key", "wrong-key")) != its and less in found)}


def is_faulty(faults: Counter[str]) -> bool:
    """Whether the faults of a capture are such that more of them are no wonder: of the order, of two kinds, or losses."""
    return faults["order"] > 0 or len(faults) > 1 or faults["uncaptured"] > 2


def of_conversation(capture: Capture, more: Iterator[Frame], part: Sequence[int]) -> Iterator[Found]:
    """What came of each login of a conversation."""
    its = capture.packets
    ways = {its.ways[at] for at in part}
    goes_on = any(its.octets[at][:1] == b"\1" and its.octets[at][4:5] != b"\1" for at in part)
    cut, away = [number for number, _, _ in capture.cut], {number for number, name, _ in capture.facts if name == "other-address"}
    tap = Tap(ways == {0}, ways == {1} and goes_on, cut, bool(capture.unsure), its[0].at is not None if len(its) else True,
              frozenset(number for number, name, _ in capture.facts if name == "by-itself"),
              frozenset(its.octets[at] for at in part if its.numbers[at] in away and its.octets[at]))
    # (what goes a way that isn't captured is no fault)
    search, counted = Search(more, tap), [it for it in FAULTS if it != "uncaptured" or len(ways) > 1]
    before: Optional[Found] = None
    faults = Counter[str]()  # of the login before
    for begin, end, worlds, is_closed in search.logins():
        sure, groups = grouped(tokens_of(worlds))
        mine = Counter(it.name for it in (*sure, *(it for group in groups for it in group[0])) if it.name in counted)
        is_firm, faults = is_closed and not is_faulty(mine + faults), mine
        # (what is cut could say otherwise)
        is_closed = is_firm and not any(search.frames[begin].number <= it <= search.frames[end - 1].number for it in cut)
        if not is_firm:
            groups += [[[it]] for it in sure if it.name not in OF_PACKET]
            sure = [it for it in sure if it.name in OF_PACKET]
        told = {it.place for it in sure}.union(it.place for group in groups for its in group for it in its)
        found = Found([search.frames[it] for it in range(begin, end)], {it: search.frames[it] for it in told}, sure, groups, is_closed,
                      is_firm)
        if before:
            before.next = found.first = found.frames[0].number
            yield before
        before = found
    if before:
        yield before
