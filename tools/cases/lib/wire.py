"""Logins and files of captures, octet by octet: RFC 3748 section 4, RFC 5433 sections 4 and 9 with ciphersuite 2, whose
HMAC-SHA256 is Python's own, RFC 2865, and the layouts of pcap, pcapng, snoop and the links."""

from __future__ import annotations

import hashlib
import hmac
import struct
from typing import Iterable, Optional, Union

KEY, OTHER_KEY = bytes(range(32)), bytes(range(1, 33))
RAND_P, RAND_S, SUITE_2 = b"\x11" * 32, b"\x22" * 32, bytes.fromhex("000000000002")
STATION, SWITCH, GROUP = (bytes.fromhex(it) for it in ("020000000002", "020000000001", "0180c2000003"))
START = bytes.fromhex("01010000")
Item = Union[bytes, float, tuple[bytes, bytes]]


def eap(code: int, identifier: int, data: bytes = b"") -> bytes:
    return struct.pack(">BBH", code, identifier, 4 + len(data)) + data


def sized(octets: bytes) -> bytes:
    return struct.pack(">H", len(octets)) + octets


def mac(key: bytes, text: bytes) -> bytes:
    return hmac.new(key, text, hashlib.sha256).digest()


def sk_of(psk: bytes, text: bytes) -> bytes:
    """RFC 5433 section 4: SK of ciphersuite 2, octets 128 to 159 of GKDF-160."""
    mk = mac(psk[:32], struct.pack(">H", 1) + sized(psk) + SUITE_2 + text)
    return mac(mk, struct.pack(">H", 5) + text)


class Login:
    """The packets of a login by EAP-GPSK."""

    def __init__(self, user: bytes = b"alice", psk: bytes = KEY, rand_p: bytes = RAND_P, rand_s: bytes = RAND_S, at: int = 1) -> None:
        self.at, sk = at, sk_of(psk, rand_p + user + rand_s + b"srv")
        suites, self.sk = sized(bytes.fromhex("000000000001") + SUITE_2), sk
        one = sized(user) + sized(b"srv") + rand_p + rand_s + suites + SUITE_2 + sized(b"")
        two = rand_p + rand_s + sized(b"srv") + SUITE_2 + sized(b"")
        self.asked, self.named = eap(1, at, b"\1"), eap(2, at, b"\1" + user)
        self.gpsk1 = eap(1, at + 1, b"\x33\1" + sized(b"srv") + rand_s + suites)
        self.gpsk2 = eap(2, at + 1, b"\x33\2" + one + mac(sk, one))
        self.gpsk3 = eap(1, at + 2, b"\x33\3" + two + mac(sk, two))
        self.gpsk4 = eap(2, at + 2, b"\x33\4" + sized(b"") + mac(sk, sized(b"")))
        self.success = eap(3, at + 2)
        # GPSK-Protected-Fail, Authorization Failure, and the peer's, which is the same
        barred = b"\x33\6" + struct.pack(">I", 3)
        self.barred, self.answer_to_barred = (eap(code, at + 2, barred + mac(sk, barred[2:])) for code in (1, 2))
        self.front = [self.asked, self.named, self.gpsk1]
        self.whole = [*self.front, self.gpsk2, self.gpsk3, self.gpsk4, self.success]


def altered(packet: bytes, at: int) -> bytes:
    at %= len(packet)
    return packet[:at] + bytes([packet[at] ^ 1]) + packet[at + 1 :]


def framed(item: Union[bytes, tuple[bytes, bytes]]) -> bytes:
    """A packet, or an EAPOL-Start, in a frame; or the octets that stand with 14 of a header before them."""
    if isinstance(item, tuple):
        return item[0] + item[1]
    eapol = item if item == START else b"\1\0" + sized(item)
    by_station = item == START or item[:1] == b"\2"
    return (SWITCH + STATION if by_station else STATION + SWITCH) + b"\x88\x8e" + eapol


def frames_of(items: Iterable[Item]) -> list[tuple[float, bytes]]:
    """Frames with their times: 10 ms one after the other; a number is a wait before the next."""
    now, found = 100.0, []
    for it in items:
        if isinstance(it, float):
            now += it
        else:
            now += 0.01
            found.append((now, framed(it)))
    return found


def pcap(found: list[tuple[float, bytes]], snap: int = 65535, link: int = 1, magic: int = 0xA1B2C3D4, order: str = "<") -> bytes:
    parts, out = 10**9 if magic == 0xA1B23C4D else 10**6, struct.pack(order + "IHHiIII", magic, 2, 4, 0, 0, snap, link)
    more = bytes(8) if magic == 0xA1B2CD34 else b""
    for at, frame in found:
        out += struct.pack(order + "IIII", int(at), int(at % 1 * parts), len(frame[:snap]), len(frame)) + more + frame[:snap]
    return out


def pcapng(found: list[tuple[int, float, bytes]], order: str = "<", is_nano: bool = False) -> bytes:
    """A file of two interfaces, of which each frame names its own (draft-ietf-opsawg-pcapng)."""
    def block(kind: int, form: str, *fields: int, rest: bytes = b"") -> bytes:
        body = struct.pack(order + form, *fields) + rest + bytes(-len(rest) % 4)
        size = struct.pack(order + "I", len(body) + 12)
        return struct.pack(order + "I", kind) + size + body + size

    # (the option 9, if_tsresol: by how many digits a second is parted)
    options = struct.pack(order + "HH", 9, 1) + b"\x09\0\0\0" + bytes(4)
    out = block(0x0A0D0D0A, "IHHq", 0x1A2B3C4D, 1, 0, -1) + block(1, "HHI", 1, 0, 0, rest=options if is_nano else b"") * 2
    for interface, at, frame in found:
        out += block(6, "IIIII", interface, *divmod(int(at * 10 ** (9 if is_nano else 6)), 1 << 32), len(frame), len(frame), rest=frame)
    return out


def snoop(found: list[tuple[float, bytes]]) -> bytes:
    out = b"snoop\0\0\0" + struct.pack(">II", 2, 4)
    for at, frame in found:
        size = -len(frame) % 4
        out += struct.pack(">IIIIII", len(frame), len(frame), 24 + len(frame) + size, 0, int(at), int(at % 1 * 10**6)) + frame + bytes(size)
    return out


def tagged(frame: bytes, *tags: str) -> bytes:
    return frame[:12] + bytes.fromhex("".join(tags)) + frame[12:]


def cooked(frame: bytes, way: int = 0, interface: Optional[int] = None) -> bytes:
    """A frame as `-i any` has it: LINUX_SLL, or with an interface LINUX_SLL2."""
    source, rest = frame[6:12] + bytes(2), frame[14:]
    if interface is None:
        return struct.pack(">HHH", way, 1, 6) + source + frame[12:14] + rest
    return frame[12:14] + bytes(2) + struct.pack(">IHBB", interface, 1, way, 6) + source + rest


def in_ip(protocol: int, octets: bytes, source: int = 7) -> bytes:
    """A packet of IP in a frame, from one host to another."""
    ends = bytes([10, 9, 0, source, 10, 9, 0, 8])
    return SWITCH + STATION + struct.pack(">HBBHHHBBH", 0x0800, 0x45, 0, 20 + len(octets), 0, 0, 64, protocol, 0) + ends + octets


def in_tunnels(frame: bytes) -> dict[str, bytes]:
    """A frame in a tunnel: GRE (RFC 2784) without and with a key and a number (RFC 2890), ERSPAN of the types I, II and III
    (draft-foschiano-erspan), VXLAN (RFC 7348), an EAP packet in PPPoE (RFC 2516, RFC 3748 section 3)."""
    gre = {"GRE": "00006558", "GRE, key and number": "300065580000000700000001", "ERSPAN I": "000088be",
           "ERSPAN II": "100088be00000001" + "1001000000000000", "ERSPAN III": "100022eb00000001" + "2001000000000000" + "00000001" + "00" * 8}
    vxlan = struct.pack(">HHHH", 50000, 4789, 16 + len(frame), 0) + b"\x08" + bytes(7) + frame
    found = {name: in_ip(47, bytes.fromhex(head) + frame) for name, head in gre.items()}
    udp = {"GENEVE": (6081, "0100655800000000" + "00" * 4), "TZSP": (37008, "010000010a020000" + "01"), "CAPWAP": (5247, "0010030000000000")}
    air = in_air(frame)[8:]
    others = {name: in_ip(17, struct.pack(">HHHH", 50000, port, 8 + len(body), 0) + body) for name, (port, head) in udp.items()
              for body in [bytes.fromhex(head) + (air if name == "CAPWAP" else frame)]}
    pppoe = struct.pack(">HBBHHH", 0x8864, 0x11, 0, 1, len(frame) - 16, 0xC227) + frame[18:]
    others |= {"MPLS": frame[:12] + bytes.fromhex("8847000640400000c140") + in_ip(47, bytes.fromhex("00006558") + frame)[14:],
               "MACsec": frame[:12] + bytes.fromhex("88e5000000000001") + frame[12:] + bytes(16)}
    return {**found, **others, "VXLAN": in_ip(17, vxlan), "GRE in IP in IP": in_ip(4, found["GRE"][14:]), "PPPoE": frame[:12] + pppoe}


def in_air(frame: bytes, has_qos: bool = False) -> bytes:
    """A frame as monitor mode has it: a radiotap header of 8 octets, data of IEEE 802.11 to or from the access point, of a
    kind with two octets of QoS or without."""
    is_up = frame[6:12] == STATION
    addresses = SWITCH + STATION + SWITCH if is_up else STATION + SWITCH + SWITCH
    return bytes.fromhex("0000080000000000") + bytes([0x88 if has_qos else 8, 1 if is_up else 2, 0, 0]) + addresses + bytes(4 if has_qos else 2) + bytes.fromhex(
        "aaaa03000000") + frame[12:]


def radius(code: int, identifier: int, packet: bytes, *more: tuple[int, bytes], port: int = 1812, station: bytes = b"02-00-00-00-00-02") -> tuple[bytes, bytes]:
    """A RADIUS packet around an EAP packet in UDP, IPv4 and a frame; its authenticators are zeros."""
    pieces = [(79, packet[at : at + 253]) for at in range(0, len(packet), 253)]
    attributes = [*([(1, b"alice"), (31, station)] if code == 1 else []), *pieces, (80, bytes(16)), *more]
    body = b"".join(bytes([kind, len(it) + 2]) + it for kind, it in attributes)
    octets = struct.pack(">BBH", code, identifier, 20 + len(body)) + bytes([identifier]) * 16 + body
    ports = (40000, port) if code == 1 else (port, 40000)
    udp = struct.pack(">HHHH", *ports, 8 + len(octets), 0) + octets
    ends = b"\x0a\0\0\1\x0a\0\0\2" if code == 1 else b"\x0a\0\0\2\x0a\0\0\1"
    ip = struct.pack(">BBHHHBBH", 0x45, 0, 20 + len(udp), 0, 0, 64, 17, 0) + ends
    return (SWITCH + STATION if code == 1 else STATION + SWITCH) + b"\x08\0", ip + udp


def by_ipv6(item: tuple[bytes, bytes]) -> tuple[bytes, bytes]:
    """The same UDP packet in IPv6 (RFC 8200 section 3)."""
    head, ip = item
    ends = bytes(12) + ip[12:16] + bytes(12) + ip[16:20]
    return head[:12] + b"\x86\xdd", struct.pack(">IHBB", 6 << 28, len(ip) - 20, 17, 64) + ends + ip[20:]


def by_radius(packets: Iterable[bytes], port: int = 1812, station: bytes = b"02-00-00-00-00-02") -> list[tuple[bytes, bytes]]:
    """The packets of a login, each Response in an Access-Request, each other one in its answer."""
    found, identifier = list[tuple[bytes, bytes]](), 0
    for it in packets:
        identifier += it[0] == 2
        found.append(radius({1: 11, 2: 1, 3: 2, 4: 3}[it[0]], identifier, it, port=port, station=station))
    return found
