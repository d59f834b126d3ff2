"""Files of captured frames: pcap, pcapng and snoop, the frames in them, and the EAP packets that these carry, by EAPOL or
by RADIUS. Tags of VLANs and tunnels are passed over; a cooked link (`tcpdump -i any`), packets of IP without frames, and Wi-Fi in
monitor mode are read."""

from __future__ import annotations

import struct
from typing import BinaryIO, Iterator, NamedTuple, Optional, Sequence

from lib.common import Refused

# The addresses that a file made here has: the group to which a port's two ends send, and both ends (IEEE 802.1X).
PAE_GROUP = bytes.fromhex("0180c2000003")
AUTHENTICATOR = bytes.fromhex("020000000001")
STATION = bytes.fromhex("020000000002")
EAPOL, IPV4, IPV6 = 0x888E, 0x0800, 0x86DD
VLANS, PPPOE, BRIDGED, ERSPAN_2, ERSPAN_3, MPLS, MACSEC = (0x8100, 0x88A8, 0x9100), 0x8864, 0x6558, 0x88BE, 0x22EB, 0x8847, 0x88E5
ETHERNET, COOKED, COOKED_2, WIFI, RADIOTAP, PPI = 1, 113, 276, 105, 127, 192
# Links of IP alone, by the octets before a packet.
IP_LINKS = {0: 4, 101: 0, 108: 4, 228: 0, 229: 0}
# (in the place of a type, which is over 1,535)
ENCRYPTED = 1
ICMP, GRE, TCP, UDP, ICMP_6, IN_IP = 1, 47, 6, 17, 58, {4: IPV4, 41: IPV6}
# Headers of IPv6 that stand before what is carried: options of each hop and of the end, and a route (RFC 8200 section 4).
BEFORE_6 = (0, 43, 60)
VXLAN_PORTS, GENEVE_PORT, TZSP_PORT, CAPWAP_PORT = (4789, 8472), 6081, 37008, 5247
# What can carry a login and isn't read.
UNREAD = {(UDP, 5246): "CAPWAP control, which is encrypted", (UDP, 5247): "CAPWAP data that is encrypted or isn't of Wi-Fi",
          (UDP, 500): "IKEv2, which is encrypted", (UDP, 4500): "IKEv2, which is encrypted", (UDP, 716): "PANA",
          (UDP, 2083): "RADIUS over DTLS, which is encrypted", (TCP, 2083): "RADIUS over TLS, which is encrypted",
          (TCP, 1812): "RADIUS over TCP", (TCP, 3868): "Diameter"}
# The ports of RADIUS, the later one and the earlier one (RFC 2865 section 3).
RADIUS_PORTS = (1812, 1645)
MOST_FRAME, MOST_FRAGMENTS = 262144, 64
# The order of octets, the parts of a second, and the octets more of a record's header, as old systems of Red Hat have.
MAGICS = {"a1b2c3d4": (">", 1000000, 0), "d4c3b2a1": ("<", 1000000, 0), "a1b23c4d": (">", 10**9, 0), "4d3cb2a1": ("<", 10**9, 0),
          "a1b2cd34": (">", 1000000, 8), "34cdb2a1": ("<", 1000000, 8)}
PCAPNG, SNOOP = "0a0d0d0a", "736e6f6f70000000"
START, LOGOFF, KEY = 1, 2, 3


class Record(NamedTuple):
    """A record of a file: its number, its time in seconds and parts of one, the frame, its length on the wire, the link,
    and the interface, -1 of a file that tells none."""

    number: int
    seconds: int
    part: int
    frame: bytes
    wire: int
    link: int = ETHERNET
    parts: int = 1000000
    interface: int = -1

    @property
    def at(self) -> float:
        return self.seconds + self.part / self.parts


# ---- Files.


def frame_of(octets: bytes, is_to_peer: bool) -> bytes:
    """The frame that carries a packet on a wire, with zeros up to the 60 octets that Ethernet asks for."""
    source = AUTHENTICATOR if is_to_peer else STATION
    eapol = struct.pack(">HBBH", EAPOL, 1, 0, len(octets)) + octets
    return (PAE_GROUP + source + eapol).ljust(60, b"\0")


def header_of(order: str) -> bytes:
    return struct.pack(order + "IHHiIII", 0xA1B2C3D4, 2, 4, 0, 0, 65535, ETHERNET)


def record_of(order: str, record: Record) -> bytes:
    micros = record.part * 1000000 // record.parts
    return struct.pack(order + "IIII", record.seconds, micros, len(record.frame), record.wire) + record.frame


def is_file(octets: bytes) -> bool:
    """Whether octets begin as a file of a capture tool does, be it one that can be read or not."""
    return octets[:4].hex() in (PCAPNG, SNOOP[:8], *MAGICS)


def of_file(file: BinaryIO) -> tuple[str, Iterator[Record]]:
    """The order of octets in an open file, and its records; a file that is none is refused."""
    magic = file.read(4)
    if magic.hex() == PCAPNG:
        return "<", of_pcapng(file)
    if magic.hex() == SNOOP[:8]:
        return ">", of_snoop(file, file.read(12))
    if magic.hex() not in MAGICS:
        raise Refused("it isn't a pcap file")
    (order, parts, more), rest = MAGICS[magic.hex()], file.read(20)
    if len(rest) < 20:
        raise Refused("it ends within its header")
    major, minor, _, _, _, link = struct.unpack(order + "HHiIII", rest)
    if (major, minor) != (2, 4):
        raise Refused(f"it is of version {major}.{minor}, and 2.4 is read")
    is_read(link)
    return order, of_pcap(file, order, parts, link, more)


def is_read(link: int) -> None:
    if link not in (ETHERNET, COOKED, COOKED_2, WIFI, RADIOTAP, PPI, *IP_LINKS):
        raise Refused(f"it was captured on a link of the type {link}, and these are read: Ethernet (1), cooked links (113, 276), "
                      "IP (0, 101, 108) and Wi-Fi (105, 127, 192): capture at the interface of the station or of the access point")


def taken(file: BinaryIO, size: int, number: int) -> bytes:
    """So many octets of a record."""
    if size > MOST_FRAME:
        raise Refused(f"record {number} has {size} octets, and {MOST_FRAME} are the most")
    octets = file.read(size)
    if len(octets) < size:
        raise Refused(f"it ends within record {number}")
    return octets


def of_pcap(file: BinaryIO, order: str, parts: int, link: int, more: int = 0) -> Iterator[Record]:
    """The records behind the header; one that is cut ends them with a refusal."""
    number, read, unpack, new = 0, file.read, struct.Struct(f"{order}IIII{more}x").unpack, tuple.__new__
    while header := read(16 + more):
        number += 1
        if len(header) < 16 + more:
            raise Refused(f"it ends within record {number}")
        seconds, part, size, wire = unpack(header)
        frame = read(size) if size <= MOST_FRAME else b""
        if len(frame) != size:
            frame = taken(file, size, number)
        # (as Record(..) makes it, in half the time)
        yield new(Record, (number, seconds, part, frame, wire, link, parts, -1))


def of_snoop(file: BinaryIO, head: bytes) -> Iterator[Record]:
    """The records of a file of snoop, as Solaris writes it (RFC 1761)."""
    magic, version, link = struct.unpack(">4sII", head.ljust(12, b"\0"))
    if len(head) < 12 or magic.hex() != SNOOP[8:] or (version, link) != (2, 4):
        raise Refused(f"it is a file of snoop, version {version}, of a link of the type {link}, and version 2 of Ethernet (4) is read")
    number = 0
    while header := file.read(24):
        number += 1
        if len(header) < 24:
            raise Refused(f"it ends within record {number}")
        wire, kept, size, _, seconds, micros = struct.unpack(">IIIIII", header)
        yield Record(number, seconds, micros, taken(file, max(size - 24, kept), number)[:kept], wire)


def resolution(options: bytes, order: str) -> int:
    """The parts of a second of an interface, by its option if_tsresol."""
    at = 0
    while at + 4 <= len(options):
        code, size = struct.unpack_from(order + "HH", options, at)
        if code == 9 and size == 1 and at + 4 < len(options):
            power = options[at + 4]
            return int(2 ** (power & 127) if power & 128 else 10 ** min(power, 18))
        at += 4 + size + -size % 4
    return 1000000


def of_pcapng(file: BinaryIO) -> Iterator[Record]:
    """The packets of a file whose first block's type was read (draft-ietf-opsawg-pcapng sections 4.1 to 4.4)."""
    number, order, kind = 0, "<", bytes.fromhex(PCAPNG)
    links: list[tuple[int, int]] = []
    while kind:
        head = file.read(4)
        if kind.hex() == PCAPNG:
            # (a section begins, with its order of octets and its own interfaces)
            head, links = head + file.read(4), []
            order = "<" if head[4:].hex() == "4d3c2b1a" else ">"
        if len(head) < 4:
            raise Refused(f"it ends behind record {number}")
        size = struct.unpack(order + "I", head[:4])[0] - 4 - len(head)
        block = taken(file, max(size, 4), number)[:-4]
        name = struct.unpack(order + "I", kind)[0]
        if name == 1 and len(block) >= 8:
            links.append((struct.unpack_from(order + "H", block)[0], resolution(block[8:], order)))
            is_read(links[-1][0])
        elif name == 6 and len(block) >= 20:
            number += 1
            at, high, low, kept, wire = struct.unpack_from(order + "IIIII", block)
            link, parts = links[at] if at < len(links) else (ETHERNET, 1000000)
            seconds, part = divmod(high << 32 | low, parts)
            yield Record(number, seconds, part, block[20 : 20 + kept], wire, link, parts, at)
        elif name == 3 and len(block) >= 4:
            number += 1
            wire = struct.unpack_from(order + "I", block)[0]
            yield Record(number, 0, 0, block[4 : 4 + wire], wire, links[0][0] if links else ETHERNET)
        kind = file.read(4)


# ---- Frames.


class Frame(NamedTuple):
    """What a frame carries: who sent it, to whom (none where that is a group, or isn't told), its type, the payload, and
    where it was seen."""

    source: bytes
    to: bytes
    kind: int
    payload: bytes
    is_inside: bool = False
    interface: int = 0


def of_wifi(octets: bytes) -> tuple[bytes, bytes, bytes, bytes]:
    """To whom, from whom, the type and the payload of a data frame that isn't encrypted (IEEE 802.11 section 9.2)."""
    flags = octets[1] if len(octets) > 1 else 0
    if len(octets) < 32 or octets[0] & 0x0C != 8 or flags & 0x40:
        return b"", b"", ENCRYPTED.to_bytes(2, "big") if octets[:1] and octets[0] & 0x0C == 8 and flags & 0x40 else b"", b""
    at = 24 + 6 * (flags & 3 == 3) + 2 * (octets[0] >> 7)
    one, two, three = octets[4:10], octets[10:16], octets[16:22]
    to, source = (three, two) if flags & 1 else (one, three) if flags & 2 else (one, two)
    is_snap = octets[at : at + 3] == b"\xaa\xaa\3"
    return to, source, octets[at + 6 : at + 8] if is_snap else b"", octets[at + 8 :]


# Of a cooked link, where the sender, the type and the interface stand, and the payload begins.
COOKED_AT = {COOKED: (slice(6, 12), slice(14, 16), slice(0, 2), 16), COOKED_2: (slice(12, 18), slice(0, 2), slice(4, 8), 20)}


def ip_of(kind: int, octets: bytes) -> tuple[int, bytes, bytes, bytes]:
    """What is in a packet of IP: its protocol, from where, to where, and the payload. A later fragment has none."""
    if kind == IPV4 and len(octets) >= 20 and not int.from_bytes(octets[6:8], "big") & 0x1FFF:
        return octets[9], octets[12:16], octets[16:20], octets[4 * (octets[0] & 15) : int.from_bytes(octets[2:4], "big")]
    if kind == IPV6 and len(octets) >= 40:
        carries, at = octets[6], 40
        while carries in BEFORE_6 and at + 8 <= len(octets):
            carries, at = octets[at], at + 8 + 8 * octets[at + 1]
        return carries, octets[8:24], octets[24:40], octets[at:]
    return -1, b"", b"", b""


# What is in a tunnel: the addresses of a frame, where it is one, the type, and the payload.
Inside = tuple[bytes, int, bytes]


def frame_in(octets: bytes) -> Inside:
    return octets[:12], int.from_bytes(octets[12:14], "big"), octets[14:]


def by_version(octets: bytes) -> Optional[Inside]:
    """What begins as a packet of IP does."""
    kind = {4: IPV4, 6: IPV6}.get(octets[0] >> 4 if octets else 0)
    return (b"", kind, octets) if kind else None


def in_macsec(octets: bytes) -> Optional[Inside]:
    """What is behind a tag of MACsec, if it isn't encrypted, without its check value (IEEE 802.1AE section 9)."""
    if len(octets) < 24 or octets[0] & 0x0C:
        return None
    rest = octets[14 if octets[0] & 0x20 else 6 : -16]
    return b"", int.from_bytes(rest[:2], "big"), rest[2:]


def in_tzsp(octets: bytes) -> Optional[Inside]:
    """The frame in a packet of TZSP, behind its tags, of which 0 and 1 have no length."""
    at, what = 4, int.from_bytes(octets[2:4], "big")
    while at < len(octets) and octets[at] != 1:
        at += 1 if octets[at] == 0 else 2 + int.from_bytes(octets[at + 1 : at + 2], "big")
    rest = octets[at + 1 :]
    return frame_in(rest) if what == 1 else air_in(rest) if what == 18 else None


def air_in(octets: bytes) -> Inside:
    to, source, kind, rest = of_wifi(octets)
    return to + source, int.from_bytes(kind, "big"), rest


def in_capwap(octets: bytes) -> Optional[Inside]:
    """The frame in a whole data packet of CAPWAP, if it isn't encrypted: of Wi-Fi or of Ethernet (RFC 5415 section 4.3). (not each
    access point says by the bit T which it is, and some turn the octets of a frame's control)"""
    head = int.from_bytes(octets[:4], "big")
    if len(octets) < 8 or head >> 24 or head & 0x80:
        return None
    rest = octets[4 * (head >> 19 & 31) :]
    its = (air_in(rest), air_in(rest[1::-1] + rest[2:]), frame_in(rest))
    return next((it for it in its if it[1] == EAPOL), None)


def in_udp(octets: bytes) -> Optional[Inside]:
    """What VXLAN (RFC 7348), GENEVE (RFC 8926), TZSP or CAPWAP carries."""
    ports, rest = (int.from_bytes(octets[:2], "big"), int.from_bytes(octets[2:4], "big")), octets[8:]
    if ports[1] in VXLAN_PORTS:
        return frame_in(rest[8:])
    if ports[1] == GENEVE_PORT and len(rest) >= 8:
        inner, kind = rest[8 + 4 * (rest[0] & 63) :], int.from_bytes(rest[2:4], "big")
        return frame_in(inner) if kind == BRIDGED else (b"", kind, inner)
    if ports[1] == TZSP_PORT:
        return in_tzsp(rest)
    return in_capwap(rest) if CAPWAP_PORT in ports else None


def inside(kind: int, octets: bytes) -> Optional[Inside]:
    """What a VLAN, PPPoE (RFC 2516), MPLS (RFC 3032), MACsec, GRE (RFC 2784), ERSPAN, what UDP carries, or IP in IP has inside."""
    if kind in VLANS:
        return b"", int.from_bytes(octets[2:4], "big"), octets[4:]
    if kind == MPLS:
        bottom = next((at for at in range(0, len(octets) - 3, 4) if octets[at + 2] & 1), len(octets))
        return by_version(octets[bottom + 4 :])
    if kind == MACSEC:
        return in_macsec(octets)
    if kind == PPPOE:
        protocol, octets = int.from_bytes(octets[6:8], "big"), octets[8:]
        eapol = b"\1\0" + octets[2:4] + octets if protocol == 0xC227 else octets
        return b"", {0x21: IPV4, 0x57: IPV6, 0xC227: EAPOL}.get(protocol, 0), eapol
    carries, _, _, rest = ip_of(kind, octets)
    if carries in IN_IP:
        return b"", IN_IP[carries], rest
    if carries == UDP:
        return in_udp(rest)
    if carries != GRE or len(rest) < 4:
        return None
    # (a sum, a key and a number may follow; ERSPAN of type I has no number, and no header)
    begin, inner = 4 + 4 * bin(rest[0] & 0xB0).count("1"), int.from_bytes(rest[2:4], "big")
    if inner == ERSPAN_2:
        begin += 8 * (rest[0] >> 4 & 1)
    elif inner == ERSPAN_3:
        begin += 12 + 8 * (int.from_bytes(rest[begin + 8 : begin + 12], "big") & 1)
    return frame_in(rest[begin:]) if inner in (BRIDGED, ERSPAN_2, ERSPAN_3) else (b"", inner, rest[begin:])


def of_record(record: Record) -> Frame:
    octets, interface, to, source = record.frame, record.interface, b"", b""
    if record.link == ETHERNET:
        to, source, kind, rest = octets[:6], octets[6:12], octets[12:14], octets[14:]
    elif record.link in COOKED_AT:
        # (for want of an interface the direction tells what came in at one and went out at another)
        *places, begin = COOKED_AT[record.link]
        source, kind, seen, rest = (*(octets[it] for it in places), octets[begin:])
        interface = int.from_bytes(seen, "big")
    elif record.link in IP_LINKS:
        rest = octets[IP_LINKS[record.link] :]
        kind = b"\x86\xdd" if rest[:1] >= b"\x60" else b"\x08\0"
    else:
        at = int.from_bytes(octets[2:4], "little") if record.link in (RADIOTAP, PPI) else 0
        to, source, kind, rest = of_wifi(octets[at:])
    number, is_inside = int.from_bytes(kind, "big"), False
    while found := inside(number, rest):
        addresses, number, rest = found
        is_inside = True
        to, source = (addresses[:6], addresses[6:]) if addresses else (to, source)
    return Frame(source, b"" if to and to[0] & 1 else to, number, rest, is_inside, interface)


def unread_of(frame: Frame) -> str:
    """What a frame is that can carry a login and isn't read."""
    if frame.kind == MACSEC:
        return "by MACsec, which is encrypted"
    protocol, _, _, octets = ip_of(frame.kind, frame.payload)
    ports = (int.from_bytes(octets[at : at + 2], "big") for at in (2, 0))
    port = next((it for it in ports if (protocol, it) in UNREAD), 0)
    return f"by {'TCP' if protocol == TCP else 'UDP'} {port} ({UNREAD[protocol, port]})" if port else ""


class Fragments:
    """The fragments of IPv4 packets, which are joined when all are there (RFC 791 section 3.2)."""

    def __init__(self) -> None:
        self.parts: dict[bytes, dict[int, tuple[Record, Frame]]] = {}

    def joined(self, record: Record, frame: Frame) -> list[tuple[Record, Frame]]:
        """A frame that is whole; of fragments nothing, the whole packet, or where too many wait, the first one as it is."""
        octets, flags = frame.payload, int.from_bytes(frame.payload[6:8], "big")
        if frame.kind != IPV4 or len(octets) < 20 or not flags & 0x3FFF:
            return [(record, frame)]
        key = octets[4:6] + octets[9:10] + octets[12:20]
        its = self.parts.setdefault(key, {})
        its[8 * (flags & 0x1FFF)] = record, frame
        whole = whole_of(its)
        if whole:
            del self.parts[key]
            return [(record, its[0][1]._replace(payload=whole))]
        return self.left(MOST_FRAGMENTS)

    def left(self, most: int = 0) -> list[tuple[Record, Frame]]:
        """The first fragments of the packets that wait, over so many."""
        gone = [self.parts.pop(it) for it in list(self.parts)[: max(0, len(self.parts) - most)]]
        return [its[0] for its in gone if 0 in its]


def whole_of(its: dict[int, tuple[Record, Frame]]) -> bytes:
    """The packet of IP in fragments that are all there, by the places of their first octets."""
    found, is_last = b"", False
    for at, (_, frame) in sorted(its.items()):
        octets, flags = frame.payload, int.from_bytes(frame.payload[6:8], "big")
        body = octets[4 * (octets[0] & 15) : int.from_bytes(octets[2:4], "big")]
        if at != len(found):
            return b""
        found, is_last = found + body, not flags & 0x2000
    head = its[0][1].payload[: 4 * (its[0][1].payload[0] & 15)] if is_last and 0 in its else b""
    return head[:2] + struct.pack(">HHH", len(head) + len(found), 0, 0) + head[8:] + found if head else b""


def plain(record: Record) -> bytes:
    """The frame of a record as Ethernet has it, without the tags of VLANs, and without tunnels."""
    frame = of_record(record)
    if record.link == ETHERNET and not frame.is_inside:
        return record.frame
    is_outer = record.link == ETHERNET and record.frame[6:12] == frame.source
    return (record.frame[:6] if is_outer else frame.to or PAE_GROUP) + frame.source + frame.kind.to_bytes(2, "big") + frame.payload


TWICE_SECONDS, MOST_KEPT = 0.05, 1000


class Twice:
    """Frames that came at another interface just before: `tcpdump -i any` and a capture at several interfaces have each
    frame that a bridge or a router passes on once for each of them."""

    def __init__(self) -> None:
        self.last: dict[tuple[bytes, bytes], tuple[float, int]] = {}
        self.numbers: set[int] = set()

    def is_again(self, key: tuple[bytes, bytes], record: Record, interface: int) -> bool:
        before, at = self.last.get(key), record.at
        if before is not None and abs(at - before[0]) < TWICE_SECONDS and before[1] != interface:
            self.numbers.add(record.number)
            return True
        if len(self.last) >= MOST_KEPT:
            self.last = {it: seen for it, seen in self.last.items() if at - seen[0] < TWICE_SECONDS}
            if len(self.last) >= MOST_KEPT:
                self.last.clear()
        self.last[key] = (at, interface)
        return False


# ---- RADIUS (RFC 2865, RFC 3579).

CODES = {1: "Access-Request", 2: "Access-Accept", 3: "Access-Reject", 11: "Access-Challenge"}
USER_NAME, NAS_ADDRESS, STATE, CALLING_STATION, NAS_NAME, EAP_MESSAGE, MESSAGE_AUTHENTICATOR, ERROR_CAUSE = 1, 4, 24, 31, 32, 79, 80, 101
# Error-Cause 202, Invalid EAP Packet (Ignored) (RFC 3579 section 2.6.3).
IGNORED = (202).to_bytes(4, "big")


class Radius:
    """A RADIUS packet that UDP carries: from where to where, and what is in it; `verdict` is what `radius` says of its
    authenticators, where that was asked, `path` has the hops of its login in words, and `hops` the packet at the other ones, each
    with its number."""

    __slots__ = ("source", "to", "octets", "request", "verdict", "path", "hops")

    def __init__(self, source: tuple[bytes, int], to: tuple[bytes, int], octets: bytes) -> None:
        self.source, self.to, self.octets = source, to, octets
        self.request: Optional[Radius] = None
        self.verdict = self.path = ""
        self.hops: list[tuple[int, Radius]] = []

    @property
    def attributes(self) -> Iterator[tuple[int, bytes]]:
        at, end = 20, min(len(self.octets), int.from_bytes(self.octets[2:4], "big"))
        while at + 2 <= end and self.octets[at + 1] >= 2:
            yield self.octets[at], self.octets[at + 2 : at + self.octets[at + 1]]
            at += self.octets[at + 1]

    @property
    def name(self) -> str:
        return CODES.get(self.octets[0], f"RADIUS Code {self.octets[0]}")

    @property
    def is_request(self) -> bool:
        return self.octets[0] == 1

    @property
    def is_cut(self) -> bool:
        return len(self.octets) < int.from_bytes(self.octets[2:4], "big")

    @property
    def is_authenticated(self) -> bool:
        """Whether it has a Message-Authenticator, or may have one in what is cut."""
        return self.is_cut or bool(self.get(MESSAGE_AUTHENTICATOR))

    @property
    def eap(self) -> bytes:
        return b"".join(octets for kind, octets in self.attributes if kind == EAP_MESSAGE)

    def get(self, kind: int) -> bytes:
        return next((octets for its, octets in self.attributes if its == kind), b"")

    @property
    def exchange(self) -> tuple[tuple[bytes, int], tuple[bytes, int], int]:
        """What a request and its reply have in common: client, server, Identifier."""
        client, server = (self.source, self.to) if self.is_request else (self.to, self.source)
        return client, server, self.octets[1]


# A UDP packet: from where to where, and what it carries.
Udp = tuple[tuple[bytes, int], tuple[bytes, int], bytes]


def udp_of(kind: int, octets: bytes) -> Optional[Udp]:
    """The UDP packet in one of IP, where it has one."""
    protocol, one, other, udp = ip_of(kind, octets)
    if protocol != UDP or len(udp) < 8:
        return None
    ports = struct.unpack(">HH", udp[:4])
    return (one, ports[0]), (other, ports[1]), udp[8 : int.from_bytes(udp[4:6], "big") or None]


def radius_of(frame: Frame, more: Sequence[int] = ()) -> Optional[Radius]:
    """The RADIUS packet of a frame, where it has one, at its ports or at others that are named."""
    found = udp_of(frame.kind, frame.payload)
    if not found or not {found[0][1], found[1][1]} & {*RADIUS_PORTS, *more} or len(found[2]) < 20:
        return None
    return Radius(*found)


class Unreached(NamedTuple):
    """What ICMP says of a UDP packet: who says it, why it didn't arrive, and as much of the packet as is there."""

    by: bytes
    why: str
    udp: Udp


# Why a packet doesn't arrive, by type and code (RFC 792, RFC 4443 section 3).
UNREACHED = {IPV4: {(3, 0): "network unreachable", (3, 1): "host unreachable", (3, 3): "port unreachable", (3, 4): "it is too long",
                    (3, 9): "prohibited", (3, 10): "prohibited", (3, 13): "prohibited", (11, 0): "too many hops"},
             IPV6: {(1, 0): "network unreachable", (1, 1): "prohibited", (1, 3): "host unreachable", (1, 4): "port unreachable",
                    (2, 0): "it is too long", (3, 0): "too many hops"}}


def unreached_of(frame: Frame) -> Optional[Unreached]:
    """What a frame with ICMP says of a UDP packet, whose begin it has."""
    protocol, by, _, octets = ip_of(frame.kind, frame.payload)
    if protocol not in (ICMP, ICMP_6) or len(octets) < 8:
        return None
    why, udp = UNREACHED[frame.kind].get((octets[0], octets[1])), udp_of(frame.kind, octets[8:])
    return Unreached(by, why, udp) if why and udp else None
