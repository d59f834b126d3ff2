"""RADIUS packets that carry EAP, over UDP: those of `eap_login radius`, and the attributes that the scripts read, add and seal
themselves: Proxy-State (RFC 2865 section 5.33), Error-Cause (RFC 3579 section 2.2), and the link keys (RFC 2548 section 2.4).

Attributes are read only of a packet that `radius` has written, or has found good.
"""

from __future__ import annotations

import argparse
import hashlib
import hmac
import secrets
import socket
from typing import Dict, Iterator, List, NamedTuple, Optional, Tuple

import ends

STATE, VENDOR_SPECIFIC, PROXY_STATE, MESSAGE_AUTHENTICATOR, ERROR_CAUSE = 24, 26, 33, 80, 101
ACCESS_REQUEST = 1
# The vendor's number, and its types MS-MPPE-Send-Key and MS-MPPE-Recv-Key.
MICROSOFT, SEND_KEY, RECV_KEY = (311).to_bytes(4, "big"), 16, 17
# The most octets of a RADIUS packet (RFC 2865 section 3).
MOST_OCTETS = 4096


def udp_socket(words: argparse.Namespace, is_server: bool) -> socket.socket:
    """The socket of a server at the address and port of the words, or that of a client of the server there."""
    made = socket.socket(socket.AF_INET6 if ":" in words.address else socket.AF_INET, socket.SOCK_DGRAM)
    try:
        (made.bind if is_server else made.connect)((words.address, words.port))
    except OSError as fault:
        can = "listened at" if is_server else "used"
        raise ends.Failed(f"{words.address} port {words.port} can't be {can}: {fault.strerror}")
    return made


class Read(NamedTuple):
    """What `radius` says of a packet: its kind, Identifier and EAP packet; and what is wrong with it, if something is."""

    kind: str = ""
    identifier: int = 0
    eap: bytes = b""
    fault: str = ""


class Radius(ends.Words):
    """`eap_login radius` with the secret of both sides."""

    def __init__(self, secret: bytes) -> None:
        super().__init__("radius")
        self.secret = secret
        self.put("eap-radius 1", f"secret {secret.hex()}")

    def ask(self, *words: object) -> List[str]:
        self.put(" ".join(ends.hex_of(it) if isinstance(it, bytes) else str(it) for it in words))
        self.told = self.told[-2:]
        answer = self.get()
        if answer is None:
            raise ends.Failed("eap_login radius ended before its answer")
        return answer

    def read(self, octets: bytes, *kinds: str) -> Read:
        """Reads a packet, which is to be a good one of these kinds."""
        if len(octets) > ends.MOST_OCTETS:
            return Read(fault=f"a packet of over {ends.MOST_OCTETS} octets")
        words = self.ask("read", octets)
        # (a cause alone is said of what isn't whole)
        if len(words) < 3:
            return Read(fault=f"a packet {words[1]}")
        fault = "" if words[6] == "good" and words[1] in kinds else f"{words[1]} {words[6]}"
        return Read(words[1], int(words[3]), bytes.fromhex(words[5].strip("-")), fault)

    def request(self, identifier: int, user: bytes, state: bytes, eap: bytes, more: bytes) -> bytes:
        """An Access-Request (RFC 2865 section 4.1, RFC 3579 section 3), with more attributes."""
        asked = secrets.token_bytes(16)
        packet = bytes.fromhex(self.ask("request", identifier, asked, user, state, eap)[1])
        return with_more(self.secret, packet, asked, more)

    def reply(self, request: bytes, kind: str, state: bytes, eap: bytes, more: bytes) -> bytes:
        """The answer to an Access-Request, with its Proxy-States and more attributes."""
        self.read(request)
        packet = bytes.fromhex(self.ask("reply", kind, state, eap)[1])
        return with_more(self.secret, packet, request[4:20], proxy_states(request) + more)


# The attributes.


def attribute(kind: int, octets: bytes) -> bytes:
    return bytes([kind, len(octets) + 2]) + octets


# "Invalid EAP Packet (Ignored)".
IGNORED = attribute(ERROR_CAUSE, (202).to_bytes(4, "big"))


def parts(octets: bytes) -> Iterator[Tuple[int, bytes]]:
    """The types and values of attributes, one behind the other; they end where a length doesn't fit."""
    while len(octets) >= 2 and 2 <= octets[1] <= len(octets):
        yield octets[0], octets[2 : octets[1]]
        octets = octets[octets[1] :]


def values(packet: bytes, kind: int) -> List[bytes]:
    """The values of all attributes of a type, in their order."""
    return [octets for its_kind, octets in parts(packet[20 : int.from_bytes(packet[2:4], "big")]) if its_kind == kind]


def state_of(packet: bytes) -> bytes:
    """The attribute State; no octets where there is none."""
    return b"".join(values(packet, STATE)[:1])


def proxy_states(packet: bytes) -> bytes:
    """The attributes Proxy-State of a packet, unmodified and in order."""
    return b"".join(attribute(PROXY_STATE, it) for it in values(packet, PROXY_STATE))


def with_more(secret: bytes, packet: bytes, asked: bytes, more: bytes) -> bytes:
    """A packet of `radius` with more attributes before its Message-Authenticator, which is made anew over the Request Authenticator
    (RFC 3579 section 3.2), as is the Response Authenticator of a reply (RFC 2865 section 3). That of an Access-Request is a
    number drawn for it, and stays."""
    if not more:
        return packet
    body = packet[20:-18] + more + bytes([MESSAGE_AUTHENTICATOR, 18])
    length = 20 + len(body) + 16
    if length > MOST_OCTETS:
        raise ValueError(f"a packet of {length} octets")
    head = packet[:2] + length.to_bytes(2, "big")
    body += hmac.digest(secret, head + asked + body + bytes(16), "md5")
    return head + (asked if packet[0] == ACCESS_REQUEST else hashlib.md5(head + asked + body + secret).digest()) + body


# The link keys.


def combined(secret: bytes, before: bytes, octets: bytes, is_sealed: bool) -> bytes:
    """Octets that are sealed here, or opened: each 16 are combined with the MD5 over the secret and what stands sealed before
    them (RFC 2548 section 2.4.2)."""
    made = b""
    for at in range(0, len(octets), 16):
        block = octets[at : at + 16]
        other = bytes(a ^ b for a, b in zip(block, hashlib.md5(secret + before).digest()))
        made, before = made + other, block if is_sealed else other
    return made


def link_keys(secret: bytes, asked: bytes, msk: bytes) -> bytes:
    """MS-MPPE-Recv-Key, the first 32 octets of the MSK, and MS-MPPE-Send-Key, the others (RFC 5216 section 2.3). A key stands
    behind its length, padded by zeros to a multiple of 16 octets. The salts begin with a one bit and differ."""
    first = 0x8000 + secrets.randbelow(0x4000)
    made = b""
    for kind, number, key in ((RECV_KEY, first, msk[:32]), (SEND_KEY, first + 0x4000, msk[32:])):
        salt, plain = number.to_bytes(2, "big"), bytes([len(key)]) + key
        sealed = combined(secret, asked + salt, plain + bytes(-len(plain) % 16), False)
        made += attribute(VENDOR_SPECIFIC, MICROSOFT + attribute(kind, salt + sealed))
    return made


def opened(secret: bytes, before: bytes, sealed: bytes) -> bytes:
    """The key that was sealed so; no octets where it wasn't."""
    plain = combined(secret, before, sealed, True)
    is_right = plain and len(plain) % 16 == 0 and plain[0] < len(plain)
    return plain[1 : plain[0] + 1] if is_right else b""


def link_of(secret: bytes, asked: bytes, reply: bytes) -> Optional[bytes]:
    """The link keys of a reply, one behind the other; None where it has none, and no octets where one of them isn't there or
    isn't sealed rightly."""
    found: Dict[int, bytes] = {}
    for vendor in values(reply, VENDOR_SPECIFIC):
        for kind, it in parts(vendor[4:]) if vendor[:4] == MICROSOFT else ():
            found.setdefault(kind, opened(secret, asked + it[:2], it[2:]))
    keys = [found.get(it, b"") for it in (RECV_KEY, SEND_KEY)]
    if not {RECV_KEY, SEND_KEY} & set(found):
        return None
    return b"".join(keys) if all(keys) else b""
