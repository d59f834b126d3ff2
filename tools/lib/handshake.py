"""The 4-way handshake of Wi-Fi behind a login: whether its message 2, by the station, is made by the PMK of that login
(IEEE 802.11-2020 section 12.7)."""

from __future__ import annotations

import hmac
from typing import Iterable, NamedTuple, Optional, Sequence

from lib.macs import keyed
from lib.packets import Reading

# Bits of Key Information (section 12.7.2).
PAIRWISE, ACK, MIC = 0x0008, 0x0080, 0x0100
# By the AKM of an RSNE its hash, and the octets of PMK, KCK and KEK; by the cipher those of its key (sections 9.4.2.24, 12.7.3).
AKMS = {1: ("sha1", 32, 16, 16), 5: ("sha256", 32, 16, 16), 11: ("sha256", 32, 16, 16), 12: ("sha384", 48, 24, 32)}
CIPHERS = {4: 16, 8: 16, 9: 32, 10: 32}
FAULTS = ("handshake wrong", "handshake not taken")
BY_SHA1, BY_CMAC, SUITES, RSNE = 1, 5, bytes.fromhex("000fac"), 48


class Judged(NamedTuple):
    """What a message 2 says, by the name of its sentence, and its number and AKM."""

    name: str
    number: int
    akm: int


class Key:
    """An EAPOL-Key, by its number in the capture. Its MIC has as many octets as let the key data end with the frame."""

    def __init__(self, number: int, octets: bytes) -> None:
        self.number, self.octets = number, octets[: 4 + int.from_bytes(octets[2:4], "big")]
        ends = (it for it in (97, 105) if it + 2 + int.from_bytes(octets[it : it + 2], "big") == len(self.octets))
        self.end = next(ends, len(self.octets))
        self.info, self.nonce, self.mic, self.data = octets[5:7], octets[17:49], octets[81 : self.end], octets[self.end + 2 :]

    @property
    def message(self) -> int:
        """Which of the four it is, or 0."""
        info = int.from_bytes(self.info, "big")
        if not info & PAIRWISE or not info & (ACK | MIC):
            return 0
        return (3 if info & MIC else 1) if info & ACK else 2 if self.data else 4

    @property
    def suites(self) -> tuple[int, int]:
        """The cipher and the AKM that the RSNE of a message 2 has; zeros for others."""
        at = 0
        while at + 1 < len(self.data) and self.data[at] != RSNE:
            at += 2 + self.data[at + 1]
        cipher, akm = self.data[at + 10 : at + 14], self.data[at + 16 : at + 20]
        return (cipher[3], akm[3]) if cipher[:3] == akm[:3] == SUITES else (0, 0)

    def is_made_by(self, msk: bytes, nonce: bytes, ends: Sequence[bytes]) -> bool:
        """Whether the MIC of a message 2 is that by the PMK in an MSK, the access point's nonce and both addresses."""
        cipher, akm = self.suites
        name, of_pmk, size, kek = AKMS[akm]
        text = b"Pairwise key expansion" + b"\0" * (akm == BY_SHA1) + b"".join(sorted(ends)) + b"".join(sorted((nonce, self.nonce)))
        bits = 8 * (size + kek + CIPHERS[cipher])
        text = text + b"\0" if akm == BY_SHA1 else b"\1\0" + text + bits.to_bytes(2, "little")
        kck = hmac.digest(msk[:of_pmk], text, name)[:size]
        octets = self.octets[:81] + bytes(size) + self.octets[self.end :]
        if akm == BY_CMAC:
            return keyed(f"cmac {kck.hex()} {octets.hex()}") == [self.mic.hex()]
        return hmac.digest(kck, octets, name)[:size] == self.mic


def msk_of(second: Reading, key: str) -> bytes:
    """The MSK that a GPSK-2 or a PSK-2 decides under a key."""
    found = keyed(second.key_request(key))
    return bytes.fromhex(found[3 if second.message == "PSK-2" else 1]) if found else b""


def pmk_size(keys: Iterable[tuple[int, bytes]]) -> int:
    """The octets of an MSK that are the PMK, by the AKM of the last message 2 among EAPOL-Keys, else 32."""
    akms = [it.suites[1] for it in (Key(*x) for x in keys) if it.message == 2]
    return AKMS[akms[-1]][1] if akms and akms[-1] in AKMS else 32


def judged(keys: Sequence[Key], msk: bytes, ends: Sequence[bytes]) -> Optional[Judged]:
    """The first message 2 behind which a handshake doesn't go on, else the last one: whether it is made by the PMK in an MSK, and
    whether the access point takes it, which sends message 3 then, and otherwise message 1 again."""
    found: Optional[Judged] = None
    for at, it in enumerate(keys):
        begun = next((x for x in reversed(keys[:at]) if x.message == 1), None)
        if it.message != 2 or not begun:
            continue
        cipher, akm = it.suites
        if akm not in AKMS or cipher not in CIPHERS:
            return Judged("handshake unjudged", it.number, akm)
        behind = {x.message for x in keys[at:] if x.nonce == begun.nonce}
        is_right = it.is_made_by(msk, begun.nonce, ends)
        if 3 not in behind and (not is_right or 1 in behind):
            return Judged("handshake not taken" if is_right else "handshake wrong", it.number, akm)
        found = Judged("handshake right" if is_right else "handshake other", it.number, akm)
    return found
