"""The lines of the texts that the program reads and writes."""

from __future__ import annotations

import itertools
import re
from typing import Iterator

from lib.common import Refused
from lib.words import MOST_OCTETS


# A line that says something, behind the end of another; and the octets of the comments that are read.
SAYS, MOST_COMMENTS = re.compile(rb"\n(?!#|\r?$)([^\n]+)", re.M), 1 << 16


def lines_of(octets: bytes) -> Iterator[tuple[int, list[str]]]:
    """The lines of a text that say something: their numbers and their words."""
    text, number, end = b"\n" + octets, 0, 0
    for it in SAYS.finditer(text):
        number += text.count(b"\n", end, it.start(1))
        end = it.start(1)
        yield number, it[1].decode("latin-1").removesuffix("\r").split(" ")


def comments_of(octets: bytes) -> list[str]:
    """The comments that follow the header of a text, as they stand."""
    lines = octets[:MOST_COMMENTS].decode("utf-8", "replace").replace("\r\n", "\n").split("\n")[1:]
    return list(itertools.takewhile(lambda line: line.startswith("#"), lines))


def packet_of(word: str, place: str) -> bytes:
    """The octets that a word spells in hex; `-` for none."""
    if not re.fullmatch("-|([0-9a-fA-F]{2})+", word):
        raise Refused(f"{place} isn't a packet in hex: {word[:40]!a}")
    octets = bytes.fromhex(word.replace("-", ""))
    if len(octets) > MOST_OCTETS:
        raise Refused(f"{place} has a packet of {len(octets)} octets, and 2,000 are the most")
    return octets


def shown(text: str, most: int = 400) -> str:
    """A text as it is shown: octets that aren't plain as \\xHH, and no more than its front where it is long."""
    front = "".join(it if " " <= it <= "~" else f"\\x{ord(it):02x}" for it in text[:most])
    return front + (f" .. ({len(text)} octets)" if len(text) > most else "")
