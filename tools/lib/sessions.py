"""Which RADIUS packets belong to one login: a Request and its reply, whichever of both is captured first, a Request that comes
again, what has one State (RFC 2865 section 5.24), and what a proxy passes on; and which of them are of a station's login over
EAPOL."""

from __future__ import annotations

import re
from collections import Counter
from typing import TYPE_CHECKING, Optional, Sequence

from lib import frames
from lib.common import grouped

if TYPE_CHECKING:
    from lib.captures import Capture, Packets

# How much earlier than its Request a reply may be captured, in seconds, how far back a Request may be for a reply that comes
# from another address, the pause after which a Request whose State nobody gave begins a login, how long a proxy may take, and
# how much later than one reply another to the same Request may come, which was doubled.
EARLY, BACK, PAUSE, PASSES, AGAIN = 0.012, 12, 30.0, 5.0, 1.0


class Sessions:
    """The packets of a file by login, as they are joined."""

    def __init__(self, packets: Packets) -> None:
        self.packets, self.its = packets, [it for it in packets.radius if it]
        self.joined = list(range(len(self.its)))
        self.requests: dict[object, int] = {}
        self.replies: dict[object, int] = {}
        self.answered: dict[int, int] = {}
        self.same: dict[object, int] = {}
        self.states: dict[object, int] = {}
        self.latest: dict[object, int] = {}
        self.last: dict[object, int] = {}

    def root(self, at: int) -> int:
        while self.joined[at] != at:
            self.joined[at] = self.joined[self.joined[at]]
            at = self.joined[at]
        return at

    def join(self, one: int, other: Optional[int]) -> None:
        if other is not None:
            one, other = sorted((self.root(one), self.root(other)))
            self.joined[other] = one

    def at(self, place: int) -> float:
        return self.packets.times[place]

    def add(self, at: int) -> None:
        it = self.its[at]
        if it.is_request:
            self.add_request(at, it)
        else:
            self.add_reply(at, it)
        if state := it.get(frames.STATE):
            client = it.source if it.is_request else it.to
            self.join(at, self.states.setdefault((client[0], state), at))
        self.latest[self.client_of(it)] = at
        kind = it.octets[0], self.packets.octets[at]
        before, self.last[kind] = self.last.get(kind), at
        if before is not None and self.is_passed_on(self.its[before], it) and self.at(at) - self.at(before) < PASSES:
            self.join(at, before)

    def is_passed_on(self, before: frames.Radius, it: frames.Radius) -> bool:
        """Whether a proxy passes on a packet, perhaps from another of its addresses."""
        name = it.get(frames.CALLING_STATION) if it.is_request and it.source[0] != before.source[0] else b""
        return before.to[0] == it.source[0] != it.to[0] or bool(name) and name == before.get(frames.CALLING_STATION)

    def client_of(self, it: frames.Radius) -> object:
        asked = it if it.is_request else it.request
        return (asked.source[0], asked.get(frames.CALLING_STATION) or asked.get(frames.USER_NAME)) if asked else None

    def add_request(self, at: int, it: frames.Radius) -> None:
        self.requests[it.exchange] = at
        self.join(at, self.same.setdefault((it.source, it.octets[:20]), at))
        early = self.replies.pop(it.exchange, None)
        if early is not None and self.at(at) - self.at(early) < EARLY:
            self.its[early].request = it
            self.join(at, early)
        state = it.get(frames.STATE)
        if self.packets.octets[at][4:5] != b"\1" and (not state or (it.source[0], state) not in self.states):
            # (the reply that gave the State isn't here, or gave none)
            before = self.latest.get(self.client_of(it))
            self.join(at, before if before is not None and self.at(at) - self.at(before) < PAUSE else None)

    def add_reply(self, at: int, it: frames.Radius) -> None:
        asked = self.requests.get(it.exchange)
        first = at if asked is None else self.answered.setdefault(asked, at)
        # (behind another reply it is one to a later Request of that Identifier, which isn't here)
        if asked is not None and (self.its[first].octets == it.octets or self.at(at) - self.at(first) < AGAIN):
            it.request = self.its[asked]
            self.join(at, asked)
            return
        self.replies[it.exchange] = at
        # (a later reply to what was asked once is of that login, though what asked for it isn't here)
        is_late = asked is not None and self.at(at) - self.at(asked) < PAUSE
        self.join(at, asked if is_late else self.near(at, it))

    def near(self, at: int, it: frames.Radius) -> Optional[int]:
        """A packet just before a reply without a Request that is of its login: a Request to another address, else what has the
        Identifier of its EAP packet, if no State says it."""
        back, identifier = range(at - 1, max(-1, at - BACK), -1), self.packets.octets[at][1:2]
        def is_like(k: int) -> bool:
            return self.packets.octets[k][1:2] == identifier != b""

        its = [k for k in back if self.its[k].is_request and self.its[k].source == it.to and self.its[k].octets[1] == it.octets[1]
               and self.its[k].exchange != it.exchange]
        if not its and not it.get(frames.STATE):
            its = [k for k in back if self.its[k].is_request and self.its[k].source[0] == it.to[0] and is_like(k)]
            its += [k for k in back if not self.its[k].is_request and self.its[k].to[0] == it.to[0] and is_like(k)
                    and self.packets.octets[k][:1] == b"\1"]
        return its[0] if its else None


def of_packets(packets: Packets) -> list[list[int]]:
    """The places of the packets of each login."""
    found = Sessions(packets)
    for at in range(len(packets)):
        found.add(at)
    return list(grouped((found.root(at), at) for at in range(len(packets))).values())


class Owners:
    """The stations over EAPOL to which logins in RADIUS packets can belong: by the Calling-Station-Id, or by what they sent."""

    def __init__(self, stations: Sequence[Capture]) -> None:
        self.stations = stations
        self.named = grouped((it.station.replace("-", ""), at) for at, it in enumerate(stations))
        self.sent = grouped((octets, (at, when)) for at, it in enumerate(stations)
                            for octets, when in zip(it.packets.octets, it.packets.times) if len(octets) > 5)

    def of(self, packets: Packets, part: list[int]) -> Optional[Capture]:
        asked = next((it for at in part if (it := packets.radius[at]) and it.is_request), None)
        name = re.sub("[^0-9a-f]", "", asked.get(frames.CALLING_STATION).decode("latin-1").lower())[:12] if asked else ""
        count = Counter(at for place in part for at, when in self.sent.get(packets.octets[place], [])
                        if abs(when - packets.times[place]) < PASSES and (packets.octets[place][4:5] != b"\1" or len(name) < 12))
        its = self.named.get(name) or list(count)
        likely = [at for at in its if count[at] == max(count[it] for it in its)]
        return self.stations[likely[0]] if len(likely) == 1 else None
