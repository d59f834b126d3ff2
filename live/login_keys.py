"""The MSK of a login, which `eap_login server` names and doesn't tell: made again by `eap_login keys`, of the user's key and
of what GPSK-2 or PSK-2 has (RFC 5433 section 4, RFC 4764 section 3.2), and held against its name.
"""

from __future__ import annotations

import hashlib
from typing import Optional

import ends
from lib import packets


def claim_of(packet: bytes) -> Optional[packets.Reading]:
    """The message in a Response in which a peer says who it is."""
    read = packets.read(packet)
    return read if read.message in packets.SECOND and not read.faults and packet[0] == ends.RESPONSE else None


def msk_of(claim: packets.Reading, key: str, name: str) -> bytes:
    """The MSK of a login, which has to be the one of this name."""
    words = ends.Words("keys")
    words.put(claim.key_request(key))
    msk = bytes.fromhex({it[0]: it[1] for it in words.close()}.get("msk", ""))
    if name_of(msk) != name:
        raise ends.Failed("the MSK that `keys` makes of the packets isn't the one that `server` names")
    return msk


def name_of(key: bytes) -> str:
    """A key's name, as docs/TEXTS.md has it under `keys`."""
    return hashlib.sha256(b"eap-key-name\0" + key).hexdigest()[:16]
