"""A file of captured frames again, as pcapng, with what is said of its logins as comments: Wireshark shows them, and filters by
`frame.comment`."""

from __future__ import annotations

import contextlib
import io
import struct
from typing import Iterable, Sequence

from lib import frames
from lib.common import Refused
from lib.reasons import Story

# Types of blocks and of options (draft-ietf-opsawg-pcapng sections 4.1 to 4.3 and 3.5), and the most octets of an option.
SECTION, INTERFACE, PACKET = 0x0A0D0D0A, 1, 6
ORDER, COMMENT, RESOLUTION, MOST_OCTETS = 0x1A2B3C4D, 1, 9, 65535
NANOSECONDS = bytes([9])


def block(kind: int, body: bytes, options: Sequence[tuple[int, bytes]] = ()) -> bytes:
    body += bytes(-len(body) % 4)
    for code, octets in [*options, (0, b"")] if options else []:
        body += struct.pack("<HH", code, len(octets)) + octets + bytes(-len(octets) % 4)
    return struct.pack("<II", kind, len(body) + 12) + body + struct.pack("<I", len(body) + 12)


def comment(text: str) -> tuple[int, bytes]:
    """A comment, of which what is too long for one is left out."""
    return COMMENT, text.encode()[:MOST_OCTETS].decode("utf-8", "ignore").encode()


def comments_of(told: Iterable[Story]) -> dict[int, list[str]]:
    """What is said of each packet, by its number; of a login as a whole at its last one."""
    found: dict[int, list[str]] = {}
    for story in told:
        found.setdefault(story.last, []).append(story.head)
        for reason in story.reasons:
            for number in reason.numbers or [story.last]:
                found.setdefault(number, []).append(reason.text)
    return {number: [*dict.fromkeys(its)] for number, its in found.items()}


def written(octets: bytes, told: Sequence[Story]) -> bytes:
    """All frames of a file, up to where it ends within one; the verdicts stand in a comment of the file."""
    said, links, found = comments_of(told), dict[tuple[int, int], int](), list[bytes]()
    heads = comment("\n".join(it.head for it in told))
    found.append(block(SECTION, struct.pack("<IHHq", ORDER, 1, 0, -1), [heads]))
    with contextlib.suppress(Refused):
        for it in frames.of_file(io.BytesIO(octets))[1]:
            if (it.link, it.interface) not in links:
                links[it.link, it.interface] = len(links)
                found.append(block(INTERFACE, struct.pack("<HHI", it.link, 0, 0), [(RESOLUTION, NANOSECONDS)]))
            at = it.seconds * 10**9 + it.part * 10**9 // it.parts
            fields = struct.pack("<IIIII", links[it.link, it.interface], at >> 32, at & 0xFFFFFFFF, len(it.frame), it.wire)
            found.append(block(PACKET, fields + it.frame, [comment(text) for text in said.get(it.number, ())]))
    return b"".join(found)
