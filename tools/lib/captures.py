"""Captures of logins: the EAP packets of a text for `check`, of a file of captured frames, or of lines in hex."""

from __future__ import annotations

import io
import re
from array import array
from collections import Counter
from dataclasses import dataclass, field
from typing import BinaryIO, Iterable, Iterator, NamedTuple, Optional, Sequence

from lib import frames, paths, sessions
from lib.common import Refused, ask, grouped, run
from lib.texts import comments_of, lines_of, packet_of
from lib.words import MOST_OCTETS

User = tuple[str, str, str]
EAPOL = frames.EAPOL.to_bytes(2, "big")
NONE = float("nan")
MOST_KNOWN, MOST_WAITING = 65536, 16


class Packet(NamedTuple):
    """A packet of a capture: whether it goes to the peer, its octets, how it is called by number, when it came, and the
    RADIUS packet around it."""

    is_to_peer: bool
    octets: bytes
    number: int = 0
    at: Optional[float] = None
    radius: Optional[frames.Radius] = None


class Packets:
    """Packets in columns, each of which is made where it is asked for, since a file may have some hundred thousand."""

    def __init__(self) -> None:
        self.numbers, self.times, self.ways = array("I"), array("d"), bytearray()
        self.octets: list[bytes] = []
        # (of each packet, none over EAPOL, or of no packet at all)
        self.radius: list[Optional[frames.Radius]] = []

    def append(self, number: int, is_to_peer: bool, octets: bytes, at: float, *radius: Optional[frames.Radius]) -> None:
        self.radius += radius
        self.numbers.append(number)
        self.times.append(at)
        self.ways.append(is_to_peer)
        self.octets.append(octets)

    def __len__(self) -> int:
        return len(self.octets)

    def __getitem__(self, at: int) -> Packet:
        when, radius = self.times[at], self.radius[at] if self.radius else None
        return Packet(bool(self.ways[at]), self.octets[at], self.numbers[at], when if when == when else None, radius)

    def __iter__(self) -> Iterator[Packet]:
        return map(self.__getitem__, range(len(self)))

    def of(self, parts: Iterable[range]) -> Packets:
        """The packets at these places."""
        found = Packets()
        for its in (slice(it.start, it.stop) for it in parts):
            found.radius += self.radius[its]
            found.numbers += self.numbers[its]
            found.times += self.times[its]
            found.ways += self.ways[its]
            found.octets += self.octets[its]
        return found


@dataclass
class Capture:
    """Packets in their order; the users, as the words NAME, KIND and KEY; what the text says of itself; the station, its
    access point, and what was left out of a file. Of frames without a whole EAP packet: those that are cut, by number, octets kept and octets
    on the wire, the EAPOL-Keys by number, the EAPOL-Starts and the EAPOL-Logoffs, by number and time, and how many other ones of several stations can be
    of this one; the numbers of all frames, with the file's first capture those that came at another interface again, and the
    time of its last; and the numbers of the last EAPOL-Keys, which the station didn't answer. Over RADIUS `parts` has the places of the packets of each login, and `facts` what is certain of a packet by
    the others around it, by its number: a choice and its words."""

    packets: Packets
    users: list[User] = field(default_factory=list)
    comments: list[str] = field(default_factory=list)
    station: str = ""
    other: str = ""
    notes: list[str] = field(default_factory=list)
    cut: list[tuple[int, int, int]] = field(default_factory=list)
    keys: list[tuple[int, bytes]] = field(default_factory=list)
    starts: list[tuple[int, float]] = field(default_factory=list)
    logoffs: list[tuple[int, float]] = field(default_factory=list)
    parts: list[list[int]] = field(default_factory=list)
    facts: list[paths.Fact] = field(default_factory=list)
    unsure: int = 0
    name: str = ""
    numbers: array[int] = field(default_factory=lambda: array("I"))
    again: set[int] = field(default_factory=set)
    until: Optional[float] = None
    unanswered: list[int] = field(default_factory=list)

    def text(self) -> str:
        return text_of(self.packets, self.users, self.comments)

    def pcap(self) -> bytes:
        """A file of these packets, one a second where nothing says when they came."""
        records = []
        for at, it in enumerate(self.packets):
            frame, seconds = frames.frame_of(it.octets, it.is_to_peer), float(at) if it.at is None else it.at
            records.append(frames.Record(at, int(seconds), int(seconds % 1 * 1000000), frame, len(frame)))
        return frames.header_of("<") + b"".join(frames.record_of("<", it) for it in records)


# ---- Texts.


def text_of(packets: Packets, users: list[User], comments: Iterable[str] = ()) -> str:
    """The text for `check`."""
    lines = ["eap-capture 1", *comments, *(" ".join(("user", *user)) for user in users), "packets"]
    lines += [f"{'>' if it[0] else '<'} {it[1].hex() or '-'}" for it in zip(packets.ways, packets.octets)]
    return "\n".join(lines) + "\nend\n"


def of_capture(octets: bytes) -> Capture:
    """The capture of a text for `check`, which the program has to take."""
    status, said = run(["check"], octets)
    if status not in (0, 7):
        raise Refused(f"eap_login check doesn't take it: {said[-200:].decode('latin-1').strip().rpartition(chr(10))[2]}")
    packets = Packets()
    found = Capture(packets, comments=comments_of(octets))
    for number, words in lines_of(octets):
        if words[0] == "user":
            found.users.append((words[1], words[2], words[3]))
        elif words[0] in ("<", ">"):
            packets.append(len(packets) + 1, words[0] == ">", packet_of(words[1], f"line {number}"), NONE)
    return found


def of_packets(octets: bytes) -> Capture:
    """Packets in hex, one a line."""
    packets = Packets()
    for number, words in lines_of(octets):
        if len(words) != 1:
            raise Refused(f"line {number} isn't one packet in hex: {' '.join(words)[:60]!a}")
        packet = packet_of(words[0], f"line {number}")
        packets.append(len(packets) + 1, packet[:1] != b"\2", packet, NONE)
    return Capture(packets)


# ---- Files of captured frames.


@dataclass
class Reading:
    """What is read of a file: the EAPOL frames in columns, each with its flow, which is to whom and by whom it goes, and
    with its EAP packet; the kinds of those without, and the EAPOL-Keys; the RADIUS packets; of what is cut the octets kept and on the wire, by
    the record's number; and what is left out."""

    packets: Packets = field(default_factory=Packets)
    flows: dict[bytes, int] = field(default_factory=dict)
    # (by flow, how often it goes as from a station, less how often as from an authenticator)
    votes: list[int] = field(default_factory=list)
    of_flow: array[int] = field(default_factory=lambda: array("i"))
    kinds: dict[int, int] = field(default_factory=dict)
    keys: dict[int, bytes] = field(default_factory=dict)
    radius: Packets = field(default_factory=Packets)
    cut: dict[int, tuple[int, int]] = field(default_factory=dict)
    left: Counter[str] = field(default_factory=Counter)
    # (the last of the RADIUS packets with the same addresses, and Identifier; and what ICMP says of these, by their numbers)
    latest: dict[tuple[object, ...], int] = field(default_factory=dict)
    unreached: dict[int, tuple[str, ...]] = field(default_factory=dict)
    sources: list[bytes] = field(default_factory=list)
    twice: frames.Twice = field(default_factory=frames.Twice)
    fragments: frames.Fragments = field(default_factory=frames.Fragments)
    # (of the frames without EAP, how many are of what isn't read)
    unread: Counter[str] = field(default_factory=Counter)
    # (of frames with a whole packet, as they come again and again: the flow and the packet)
    known: dict[bytes, tuple[int, bytes]] = field(default_factory=dict)

    def take(self, record: frames.Record, ports: Sequence[int]) -> None:
        octets, interface = record.frame, record.interface
        if interface < 0 and (known := self.known.get(octets)):
            self.put(record, known[0], known[1])
            return
        if octets[12:14] == EAPOL and record.link == frames.ETHERNET and interface < 0:
            self.take_eapol(record, octets[:12], octets[14:])
            return
        for whole in self.fragments.joined(record, frames.of_record(record)):
            self.add_frame(*whole, ports)

    def add_frame(self, record: frames.Record, frame: frames.Frame, ports: Sequence[int]) -> None:
        interface = frame.interface
        if frame.kind == frames.EAPOL:
            if interface < 0 or not self.twice.is_again((frame.source, frame.payload), record, interface):
                self.take_eapol(record, frame.to + frame.source, frame.payload)
            return
        found = frames.radius_of(frame, ports)
        if found is None and (unreached := frames.unreached_of(frame)):
            self.add_unreached(record.number, unreached)
        elif found is None:
            self.left["of Wi-Fi that are encrypted" if frame.kind == frames.ENCRYPTED else "without EAP"] += 1
            self.unread[frames.unread_of(frame)] += 1
        elif interface < 0 or not self.twice.is_again((found.source[0], found.octets), record, interface):
            if found.is_cut:
                self.cut[record.number] = len(record.frame), record.wire
            self.radius.append(record.number, not found.is_request, found.eap, record.at, found)
            self.latest.update({(found.source, found.to, it): record.number for it in (b"", found.octets[:2])})

    def add_unreached(self, number: int, found: frames.Unreached) -> None:
        """Takes what ICMP says of a packet that was sent just before."""
        source, (to, port), octets = found.udp
        if asked := self.latest.get((source, (to, port), octets[:2])):
            self.unreached[asked] = f"port {port} of {paths.address(to)}", paths.address(found.by), str(number), found.why

    def take_eapol(self, record: frames.Record, addresses: bytes, payload: bytes) -> None:
        flow = self.flows.get(addresses)
        if flow is None:
            flow = self.flows[addresses] = len(self.votes)
            self.votes.append(0)
        size, kind = int.from_bytes(payload[2:4], "big"), payload[1] if len(payload) > 3 else 0
        eap = payload[4 : 4 + size] if kind == 0 else b""
        if kind:
            self.kinds[len(self.of_flow)] = kind
            self.keys.update({len(self.of_flow): payload} if kind == frames.KEY else {})
            self.votes[flow] += kind in (frames.START, frames.LOGOFF)
        elif len(eap) < size or len(payload) < 4 or size > MOST_OCTETS:
            self.cut[record.number] = len(record.frame), record.wire
            eap = eap[:1]
        elif eap and len(self.known) < MOST_KNOWN and len(record.frame) <= 64:
            self.known[record.frame] = flow, eap
        self.put(record, flow, eap)

    def put(self, record: frames.Record, flow: int, eap: bytes) -> None:
        packets, is_to_peer = self.packets, eap[:1] != b"\2"
        if eap:
            self.votes[flow] += -1 if is_to_peer else 1
        self.of_flow.append(flow)
        packets.numbers.append(record.number)
        packets.times.append(record.seconds + record.part / record.parts)
        packets.ways.append(is_to_peer)
        packets.octets.append(eap)

    def set_ways(self) -> None:
        """A flow goes one way, also where the Code of a packet in it says another; but where the addresses don't tell both ends
        apart."""
        sources, votes = [it[-6:] for it in self.flows], Counter[bytes]()
        for source, vote in zip(sources, self.votes):
            votes[source] += vote
        # (who sends as much either way is the other end of the others)
        sure = {it: vote or vote - sum(votes.values()) for it, vote in votes.items() if len(votes) > 1}
        addresses = {*sources, *(it[:6] for it in self.flows if len(it) > 6 and not it[0] & 1)}
        if len(sure) == len(addresses) == 2 and len({*votes.values()}) == 2 and min(votes.values()) < 0:
            # (of two that talk with each other one is the station, whatever Codes were altered)
            sure = {it: 1 if vote == max(votes.values()) else -1 for it, vote in votes.items()}
        for at, flow in enumerate(self.of_flow):
            if vote := sure.get(sources[flow], 0):
                self.packets.ways[at] = vote < 0

    def by_eapol(self) -> list[Capture]:
        """The captures of EAPOL frames, one for each pair of a station and what it talks to."""
        self.set_ways()
        votes: Counter[bytes] = Counter()
        for flow, vote in zip(self.flows, self.votes):
            votes[flow[-6:]] += vote
        addresses = {*votes, *(it[:6] for it in self.flows if len(it) > 6 and not it[0] & 1)}
        if 0 < len(addresses) <= 2:
            # (of key frames the first goes to the station)
            station, other = [*sorted(votes if any(votes.values()) else [*votes][::-1], key=lambda it: -votes[it]), b""][:2]
            return [self.capture(range(len(self.of_flow)), station, other)]
        parted, alone = self.pairs(votes)
        found = []
        for (station, other), indices in parted.items():
            found.append(self.capture(sorted(indices), station, other))
            found[-1].unsure = alone[station] + alone[other]
        return found

    def capture(self, indices: Sequence[int], station: bytes, other: bytes) -> Capture:
        """The capture of these frames."""
        packets, whole = Packets(), self.packets
        self.sources = [it[-6:] for it in self.flows]
        if len(indices) == len(whole) and not self.cut and not self.kinds:
            packets, indices = whole, ()
        found = Capture(packets, station=station.hex("-"), other=other.hex("-"), name=f"{station.hex('-')}_{other.hex('-')}")
        found.numbers += packets.numbers
        for at in indices:
            number = whole.numbers[at]
            found.numbers.append(number)
            if number in self.cut:
                found.cut.append((number, *self.cut[number]))
            elif at not in self.kinds:
                packets.append(number, bool(whole.ways[at]), whole.octets[at], whole.times[at])
            elif self.kinds[at] == frames.KEY:
                found.keys.append((number, self.keys[at]))
                is_answer = self.sources[self.of_flow[at]] == station
                found.unanswered = [] if is_answer else [*found.unanswered[-MOST_WAITING:], number]
            elif self.kinds[at] in (frames.START, frames.LOGOFF):
                (found.starts if self.kinds[at] == frames.START else found.logoffs).append((number, whole.times[at]))
        return found

    def pairs(self, votes: Counter[bytes]) -> tuple[dict[tuple[bytes, bytes], list[int]], Counter[bytes]]:
        """The frames of each pair of addresses, the station first, and how many of each sender are left out. A frame to a group
        belongs to the one pair that its sender can mean; of several, a Request to that whose station answers it, a Success or
        a Failure to that whose station's last Response it answers, by the Identifier."""
        flows = [(it[-6:], it[:-6] if it[:-6] and not it[0] & 1 else b"") for it in self.flows]
        partners: dict[bytes, set[bytes]] = {}
        for source, to in flows:
            if to:
                partners.setdefault(source, set()).add(to)
                partners.setdefault(to, set()).add(source)
        meant = [{to} if to else partners.get(source) or {it for it in votes if votes[it] * votes[source] < 0} for source, to in flows]
        pairs: dict[tuple[bytes, bytes], list[int]] = {}
        waiting: dict[tuple[bytes, int], list[int]] = {}
        last: dict[bytes, dict[bytes, int]] = {}
        asked: dict[tuple[bytes, bytes], int] = {}
        starts: dict[bytes, list[int]] = {}
        alone: Counter[bytes] = Counter()
        for at, flow in enumerate(self.of_flow):
            octets, source, others = self.packets.octets[at], flows[flow][0], meant[flow]
            if len(others) > 1 and octets[:1] in (b"\3", b"\4"):
                others = {it for it in others if last.get(source, {}).get(it) == octets[1]}
            if len(others) > 1 and octets[:1] == b"\2":
                # (a station at several ports answers the one that asked)
                others = {it for it in others if asked.get((source, it)) == octets[1]}
            if len(others) > 1 and self.kinds.get(at) == frames.START:
                starts.setdefault(source, []).append(at)
            if len(others) != 1:
                alone[source] += 1
                if len(others) > 1 and len(octets) > 4 and octets[0] == 1:
                    waiting[source, octets[1]] = [*waiting.get((source, octets[1]), [])[-MOST_WAITING:], at]
                continue
            other = next(iter(others))
            # (where nothing says who is the station, it is the one to whom the first frame goes, as that of the first key)
            pair = (source, other) if votes[source] > votes[other] else (other, source)
            pair = pair[::-1] if pair not in pairs and pair[::-1] in pairs else pair
            found = pairs.setdefault(pair, [])
            found.append(at)
            if len(octets) > 4 and octets[0] == 1:
                asked[pair] = octets[1]
                # (what began is asked for the name)
                begun = starts.pop(other, []) if octets[4] == 1 else []
                alone[other] -= len(begun)
                found += begun
            elif len(octets) > 4 and octets[0] == 2:
                last.setdefault(other, {})[source] = octets[1]
                may = waiting.get((other, octets[1]), []) if asked.get(pair) != octets[1] else []
                answered = [it for it in may if octets[4] in (3, self.packets.octets[it][4])]
                waiting[other, octets[1]] = [it for it in may if it not in answered]
                alone[other] -= len(answered)
                found += answered
        self.left["to a group address, meant for no pair alone"] += sum(alone.values())
        return pairs, alone

    def by_radius(self, stations: Sequence[Capture]) -> list[Capture]:
        """The captures of RADIUS packets that carry EAP, one for each station, with the packets of each login; those of a station
        over EAPOL are put into its capture."""
        found: dict[str, Capture] = {}
        owners = sessions.Owners(stations)
        joined: dict[int, tuple[Capture, list[Packet]]] = {}
        for part in sessions.of_packets(self.radius):
            its = [self.radius[at] for at in part]
            owner = owners.of(self.radius, part)
            first = next((it.radius for it in its if it.radius and it.radius.is_request), its[0].radius)
            name = (first.get(frames.CALLING_STATION) or first.get(frames.USER_NAME)).decode("latin-1") if first else ""
            client = paths.address(paths.hop_of(its[0])[0])
            file = "radius_" + re.sub("[^A-Za-z0-9.-]", "_", name)
            station = owner or found.setdefault(name, Capture(Packets(), station=name, other=client, name=file))
            whole = self.whole_of(its, station)
            if owner:
                joined.setdefault(id(owner), (owner, []))[1].extend(whole)
            elif whole:
                station.parts.append([*range(len(station.packets), len(station.packets) + self.put_path(station, whole))])
        for owner, whole in joined.values():
            whole += owner.packets
            owner.packets = Packets()
            self.put_path(owner, sorted(whole, key=lambda it: it.number))
        return [it for it in found.values() if it.numbers]

    def whole_of(self, its: list[Packet], station: Capture) -> list[Packet]:
        """The packets that carry EAP, or refuse without, and aren't cut."""
        whole = []
        for it in its:
            if it.radius and it.radius.is_cut:
                station.cut.append((it.number, *self.cut[it.number]))
            elif it.octets or it.radius and it.radius.octets[0] == 3:
                whole.append(it)
            else:
                station.facts += accepted(it, whole)
                self.left["of RADIUS without EAP"] += 1
                continue
            station.facts += conflicting(it)
            station.numbers.append(it.number)
        return whole

    def put_path(self, station: Capture, whole: list[Packet]) -> int:
        """Puts the packets of a login at all hops, each once; and how many these are."""
        path = paths.Path(whole)
        text, kept = path.text, sorted((it.chosen for it in path.passed), key=lambda it: it.number)
        for passed in path.passed:
            if chosen := passed.chosen.radius:
                chosen.path = text
                chosen.hops = [(it.number, it.radius) for it in passed.seen.values() if it.radius and it.radius is not chosen]
        for it in kept:
            station.packets.append(it.number, it.is_to_peer, it.octets, it.at or 0.0, it.radius)
        station.facts += [*path.facts(), *((it.chosen.number, "unreached-client" if it.is_to_peer else "unreached", self.unreached[number]) for it in path.passed
                                           for number in {seen.number for seen in it.seen.values()} & self.unreached.keys())]
        return len(kept)

    def notes(self) -> list[str]:
        """What is left out."""
        whole = sum(kept >= wire for kept, wire in self.cut.values())
        self.left["that are cut: `tcpdump -s 0` keeps them whole"] = len(self.cut) - whole
        self.left["that aren't whole, being fragments or shorter than they say"] = whole
        again = len(self.twice.numbers)
        found = [f"frames that came at several interfaces, each taken once: {again} left out"] * bool(again)
        found += [f"left out: frames {what}: {count}" for what, count in sorted(self.left.items()) if count]
        return found + [f"of these {what}: {count}: what it carries isn't read" for what, count in sorted(self.unread.items()) if what]


def accepted(it: Packet, before: list[Packet]) -> list[paths.Fact]:
    """That a packet without EAP is an Access-Accept, with the packet that it answers."""
    if it.radius is None or it.radius.octets[0] != 2:
        return []
    asked = next((x for x in reversed(before) if x.radius is it.radius.request), None)
    return [(asked.number, "accepted", (str(it.number),))] if asked else []


def conflicting(it: Packet) -> list[paths.Fact]:
    """That a RADIUS packet that ends a login carries a Request, or one that goes on an end (RFC 3579 section 2.6.3)."""
    code = it.radius.octets[0] if it.radius else 0
    if it.radius is None or it.octets[:1] not in {2: (b"\1",), 3: (b"\1",), 11: (b"\3", b"\4")}.get(code, ()):
        return []
    carried = {1: "a Request", 3: "a Success", 4: "a Failure"}[it.octets[0]]
    return [(it.number, "conflicting", (it.radius.name, carried))]


Parted = tuple[list[Capture], list[str], str]


def of_records(records: Iterable[frames.Record], ports: Sequence[int] = (), is_joined: bool = True) -> Parted:
    """The captures of records, one for each station, also where it is seen over EAPOL and in RADIUS packets, if these are to be
    joined; what is left out, which is noted with the first too; and why these weren't read to their end, if so."""
    reading, reason, until = Reading(), "", None
    try:
        for record in records:
            reading.take(record, ports)
            until = record
    except Refused as fault:
        reason = str(fault)
    for whole in reading.fragments.left():
        reading.add_frame(*whole, ports)
    found = reading.by_eapol()
    found += reading.by_radius(found if is_joined else [])
    for it in found:
        it.until = until.at if until else None
    notes = [reason] * bool(reason) + reading.notes()
    if found:
        found[0].notes, found[0].again = notes, reading.twice.numbers
    elif reason:
        raise Refused(reason)
    return found, notes, reason


def of_file(file: BinaryIO, ports: Sequence[int] = (), is_joined: bool = True) -> Parted:
    """The captures of an open file."""
    return of_records(frames.of_file(file)[1], ports, is_joined)


def starts_said(it: Capture) -> str:
    return (f"{f'station {it.station}' if it.station else 'a station'} sent EAPOL-Start, {len(it.starts)} times, and no Request "
            "is here: the other end does no IEEE 802.1X, its port isn't set up for it, it waits after a failed login, or its frames "
            "were lost or aren't captured")


def keys_note(it: Capture) -> str:
    return (f"station {it.station} exchanged keys with {it.other} ({len(it.keys)} EAPOL-Keys) without EAP: both have a key already, as by "
            "a password of Wi-Fi (WPA-PSK) or from an earlier login, or the login is before the capture")


def of_pcap(octets: bytes, ports: Sequence[int] = ()) -> list[Capture]:
    """The captures of a file that have an EAP packet; of the other stations it is noted what they have."""
    found, notes, _ = of_file(io.BytesIO(octets), ports)
    notes += [starts_said(it) for it in found if it.starts and not it.packets and not it.cut]
    notes += [keys_note(it) for it in found if it.keys and not it.packets and not it.cut]
    captures = [it for it in found if it.packets]
    if not captures:
        raise Refused("; ".join(["no frame has a whole EAP packet: by EAPOL (EtherType 888e, type 0), or in a RADIUS packet by "
                                 "UDP port 1812 (`--port N` names another)", *notes]))
    captures[0].notes = notes
    return captures


def judge_radius(captures: list[Capture], secrets: dict[bytes, str]) -> None:
    """Asks `radius` of the authenticators of each packet at each hop, each reply behind its request, under the secret of the hop's
    client, or under that of no address."""
    packets = [its for capture in captures for it in capture.packets.radius if it for _, its in [(0, it), *it.hops]]
    of_secret = grouped((secrets.get(it.exchange[0][0], secrets.get(b"", "")), it) for it in packets)
    for secret, mine in of_secret.items():
        if not secret:
            continue
        lines, asked = ["eap-radius 1", f"secret {secret.encode('utf-8', 'surrogateescape').hex()}"], []
        for it in mine:
            if it.request:
                lines.append(f"read {it.request.octets[:2000].hex()}")
            lines.append(f"read {it.octets[:2000].hex()}")
            asked.append(len(lines) - 3)
        answers = ask(["radius"], "\n".join([*lines, "end", ""]).encode())
        for it, at in zip(mine, asked):
            it.verdict = answers[at].split(" ")[-1]
