"""The path of a login: from the station over EAPOL to the access point, and in RADIUS packets from there through each proxy to the
server. What goes from hop to hop is one packet; where it stops, or begins on the way, is told."""

from __future__ import annotations

from dataclasses import dataclass
from ipaddress import ip_address
from typing import TYPE_CHECKING, Iterable, Iterator, Optional

if TYPE_CHECKING:
    from lib.captures import Packet

# Seconds: how long a packet may take from hop to hop, and how much earlier than it was sent it may be captured.
PASSES, EARLY = 5.0, 0.012
# The addresses of a client and a server of RADIUS; over EAPOL none.
Hop = tuple[bytes, bytes]
EAPOL: Hop = (b"", b"")
Fact = tuple[int, str, tuple[str, ...]]


def address(octets: bytes) -> str:
    return str(ip_address(octets)) if len(octets) in (4, 16) else octets.hex()


def hop_of(it: Packet) -> Hop:
    return (it.radius.exchange[0][0], it.radius.exchange[1][0]) if it.radius else EAPOL


@dataclass
class Passed:
    """A packet as it was seen at each hop, by how many are between that and the station."""

    octets: bytes
    is_to_peer: bool
    seen: dict[int, Packet]

    @property
    def chosen(self) -> Packet:
        """As the RADIUS client, the access point, has it, where it is in a RADIUS packet."""
        return self.seen[min((it for it in self.seen if it), default=0)]

    def accepts(self, rank: int, it: Packet) -> bool:
        """Whether a packet with these octets can be this one, behind or before the hops at which it was seen."""
        after = (it.at or 0.0) - (self.chosen.at or 0.0)
        is_next = rank < min(self.seen) if self.is_to_peer else rank > max(self.seen)
        return rank not in self.seen and after < (PASSES if is_next else EARLY)


class Path:
    """The packets of a login at all hops, in their order."""

    def __init__(self, its: Iterable[Packet]) -> None:
        self.ranks, self.last = {EAPOL: 0}, dict[bytes, Hop]()
        self.passed: list[Passed] = []
        self.alike: dict[tuple[bytes, bool], list[Passed]] = {}
        found = list(its)
        # (a reply that stands before its Request doesn't say where its hop is)
        for it in found:
            if not it.is_to_peer:
                self.rank(it)
        for it in found:
            self.add(it)

    def rank(self, it: Packet) -> int:
        """How far from the station a packet is: behind a hop whose server is its client, or at which a Response was before."""
        hop, last = hop_of(it), self.last.get(it.octets)
        if hop not in self.ranks:
            before = [rank for (_, server), rank in self.ranks.items() if server == hop[0]]
            before += [self.ranks[last]] if last and last[0] != hop[0] and not it.is_to_peer else []
            self.ranks[hop] = 1 + max(before, default=0)
        if not it.is_to_peer:
            self.last[it.octets] = hop
        return self.ranks[hop]

    def add(self, it: Packet) -> None:
        rank, octets = self.rank(it), it.octets or (it.radius.octets[:1] if it.radius else b"")
        # (an access point makes a Failure of a Reject without EAP)
        keys = [octets, *[b"\3"] * (octets[:1] == b"\4" and not it.radius)]
        found = next((its for key in keys for its in self.alike.get((key, it.is_to_peer), [])[::-1] if its.accepts(rank, it)), None)
        if found:
            found.seen[rank] = it
        else:
            self.passed.append(Passed(octets, it.is_to_peer, {rank: it}))
            self.alike.setdefault((octets, it.is_to_peer), []).append(self.passed[-1])

    @property
    def text(self) -> str:
        """Its hops in words, where there are several."""
        clients = [self.client(rank) for rank in sorted({*self.ranks.values()} - {0})]
        over = " and ".join(["EAPOL"] * any(0 in it.seen for it in self.passed) + ["RADIUS"])
        through = f" through {' and '.join(clients[1:])}" if clients[1:] else ""
        is_one = len(clients) + over.count("EAPOL") < 2
        return "" if is_one else f", over {over} from {clients[0]}{through} to {self.server(len(clients))}"

    def client(self, rank: int) -> str:
        return address(next(client for (client, _), its in self.ranks.items() if its == rank))

    def server(self, rank: int) -> str:
        return address(next(server for (_, server), its in self.ranks.items() if its == rank))

    def who(self, rank: int) -> str:
        """Who passes on from a hop to the next."""
        return f"the {'proxy' if rank else 'access point'} {self.client(rank + 1)}"

    def facts(self) -> Iterator[Fact]:
        """Which packets weren't passed on, or begin on the way, between hops both of which have one."""
        paired = {rank for it in self.passed for rank in it.seen if rank + 1 in it.seen}
        for it, then in zip(self.passed, [*self.passed[1:], None]):
            alike = self.alike[it.octets, it.is_to_peer]
            ranks = {rank for its in alike for rank in its.seen}
            low, high, number = min(ranks), max(ranks), it.chosen.number
            if alike[0] is not it or self.is_answered(it, then, low if it.is_to_peer else high):
                continue
            if it.is_to_peer and high and self.is_from_elsewhere(it.seen.get(high)):
                yield number, "other-address", ()
                continue
            if not it.is_to_peer and high in paired:
                yield number, "not-passed", (self.who(high), self.server(high + 1))
            elif it.is_to_peer and low - 1 in paired:
                yield number, "not-passed", (self.who(low - 1), self.client(low - 1) if low > 1 else "the station")
            if it.is_to_peer and high in paired and (high or it.octets[4:5] != b"\1"):
                yield number, "by-itself", (self.who(high), self.server(high + 1))

    def is_from_elsewhere(self, it: Optional[Packet]) -> bool:
        """Whether a reply at some hop comes from another address than that to which the Request of its Identifier went."""
        reply = it.radius if it else None
        if reply is None or reply.request is not None:
            return False
        asked = (x.radius for passed in self.passed for x in passed.seen.values() if x.radius and x.radius.is_request)
        return any(x.source == reply.to and x.to[0] != reply.source[0] and x.octets[1] == reply.octets[1] for x in asked)

    def is_answered(self, it: Passed, then: Optional[Passed], rank: int) -> bool:
        """Whether the next packet shows that one went on, or came from there, where that isn't captured."""
        if then is None or then.is_to_peer == it.is_to_peer or self.alike[then.octets, then.is_to_peer][0] is not then:
            return False
        if it.is_to_peer and it.octets[:1] == b"\1" and then.octets[1:2] != it.octets[1:2]:
            return False  # (it answers another Request)
        return max(then.seen) > rank or it.is_to_peer and min(then.seen) < rank
