"""Whether any tag was judged in what `check`, `pcap` or `radius` wrote, and why the others weren't."""

from __future__ import annotations

import re
from collections import Counter
from typing import Iterable

from lib import words
from lib.texts import lines_of

LAST = re.compile(r"(packets (\d+)|records \d+ eap (\d+)) findings \d+")
WITHOUT_EAP = "no frame has a whole EAP packet (EtherType 888e, EAPOL type 0)"


def counts_of(lines: Iterable[str]) -> tuple[Counter[str], int, bool]:
    """How often each finding stands there, and each cause of what is malformed, how many packets there are, and whether it is an
    output of `pcap`; where it isn't whole there are -1 packets."""
    known, count, last = {*words.FINDING_OF, "eapol-cut"}, Counter[str](), ""
    for last in lines:
        its = last.split(" ", 3)
        if last[:1].isdigit() and its[1:2] and its[1] in known:
            count[its[1]] += 1
        if its[1:2] == ["malformed"] and len(its) > 2:
            count[its[2]] += 1
    found = LAST.fullmatch(last)
    return count, int(found[2] or found[3]) if found else -1, bool(found and found[3] is not None)


def of_findings(count: Counter[str], packets: int, is_pcap: bool) -> list[str]:
    """What the output of `check` or `pcap` says, in sentences."""
    if is_pcap and packets == 0:
        return [f"no tag was judged at all: packets {packets}", WITHOUT_EAP]
    tags = count["tag-good"] + count["tag-bad"]
    told = [f"packets whose tags were judged: {tags} of {packets}" if tags else f"no tag was judged at all: packets {packets}"]
    told += [f"{it.word} {count[it.word]}: {it.where}" for it in reversed(words.FINDINGS) if it.kind != "good"
             and count[it.word] and it.word != "malformed"]
    told += [f"malformed {cause} {count[cause]}: {words.CAUSE_OF[cause].where}" for cause in sorted(count) if cause in words.CAUSE_OF]
    if count["eapol-cut"]:
        told.append(f"eapol-cut {count['eapol-cut']}: the EAPOL packet isn't whole: capture with -s 0")
    if not tags and not count["no-key"] and not count["no-context"] and count["good"]:
        told.append(f"the packets that are good have no tag: {count['good']}")
    return told


def of_radius(octets: bytes, lines: list[str]) -> list[str]:
    """What `radius` says of the packets that it read, line by line."""
    asked = [number for number, line in lines_of(octets) if line[0] in ("request", "reply", "read")]
    told = []
    for number, answer in zip(asked, lines):
        verdict = answer.split(" ")[-1]
        if answer.startswith("read ") and verdict != "good":
            told.append(f"line {number}: {verdict}: {words.RADIUS_VERDICTS.get(verdict) or words.RADIUS_CAUSES.get(verdict, '')}")
        elif answer == "reply no-request":
            told.append(f"line {number}: {words.RADIUS_VERDICTS['no-request']}")
    return told or ["each packet that was read is good"]
