#!/usr/bin/env python3
"""Whether keys choose the way through the code: logins and discards of ways.c under qemu, which tells each block that it runs.

    ways.py COUNT QEMU PROGRAM

By each method and suite, COUNT conversations of each kind by random keys, among them keys of zeros and of ones, go through the
same blocks; and wherever in a tag one octet differs, it is refused by the same blocks. With a COUNT over 8 any other octet of a
packet is altered too, by two keys each. On a processor without conditional instructions, as a Cortex-M0, whatever chooses by
a key or a tag shows so. The status is 0 where there is one way of each kind, and the control's two are seen.
"""

import collections
import hashlib
import random
import re
import subprocess
import sys

KINDS = ("login", "barred", "unknown", "other-key")
# By method and suite, the tags: the number of the packet from 1, their places from its end, and the name.
TAGS = {
    ("47", "0"): (
        (4, range(5, 21), "MAC_P"),
        (5, range(21, 37), "MAC_S"),
        (5, range(1, 17), "tag of PCHANNEL_S"),
        (6, range(1, 17), "tag of PCHANNEL_P"),
    ),
    ("51", "1"): ((4, range(16), "MAC of GPSK-2"), (5, range(16), "MAC of GPSK-3"), (6, range(16), "MAC of GPSK-4")),
    ("51", "2"): ((4, range(32), "MAC of GPSK-2"), (5, range(32), "MAC of GPSK-3"), (6, range(32), "MAC of GPSK-4")),
}
MANY = 8
PLACE = re.compile(rb"^Trace \d+: \S+ \[[0-9a-f]+/([0-9a-f]+)/[^\]]*\] ?(.*)$", re.M)
drawn = random.Random(1)


def given(number, packet=0, place=0, added=0):
    """What ways.c reads, by keys that are zeros, ones, and then random."""
    nonces = drawn.randbytes(64) if number > 1 else bytes(range(64))
    keys = bytes([255 * number] * 64 + [255 - 255 * number] * 64) if number < 2 else drawn.randbytes(128)
    return keys + nonces + bytes([packet, place, added])


def blocks(command, octets):
    ran = subprocess.run(command, input=octets, capture_output=True)
    return ran.returncode, PLACE.findall(ran.stderr)


def ways(command, inputs):
    """The inputs by the way that each goes."""
    seen = collections.defaultdict(list)
    for it in inputs:
        status, found = blocks(command, it)
        seen[status, len(found), hashlib.sha256(b"".join(place for place, _ in found)).hexdigest()].append(it)
    return seen


def where_they_part(command, seen):
    """The function of the last block that two ways have in common."""
    one, other = (blocks(command, its[0])[1] for its in list(seen.values())[:2])
    shared = next((n for n, (left, right) in enumerate(zip(one, other)) if left != right), min(len(one), len(other)))
    return one[shared - 1][1].decode() if shared else ""


def one_way(what, command, inputs, statuses=(0,)):
    """Whether there is one way, with blocks, and with one of these statuses."""
    seen = ways(command, inputs)
    good = len(seen) == 1 and all(count and (not statuses or status in statuses) for status, count, _ in seen)
    counts = sorted({count for _, count, _ in seen})
    print(f"{' '.join(command[-3:])} {what}: {len(seen)} ways of {len(inputs)}, of {counts} blocks", flush=True)
    if not good:
        print(f"  statuses {sorted({it[0] for it in seen})}; {where_they_part(command, seen) if len(seen) > 1 else ''}")
    return good


def tries(count, command, way):
    """By one method and suite, whether each kind goes one way."""
    for kind in KINDS:
        yield one_way("by keys", [*command, *way, kind], [given(n) for n in range(count)])
    for packet, places, name in TAGS[way]:
        places = places if count > MANY else [*places][:: max(1, len(places) // count)] + [places[-1]]
        yield one_way(name, [*command, *way, "altered"], [given(2, packet, it, drawn.randrange(1, 256)) for it in places])
    for packet in range(1, 8) if count > MANY else ():
        for place in range(0, 140, 9):
            pair = [given(2 + n, packet, place, 1) for n in range(2)]
            pair[1] = pair[1][:128] + pair[0][128:]
            if not one_way(f"packet {packet}, place {place}", [*command, *way, "changed"], pair):
                yield False


def main(count, qemu, program):
    command = [qemu, "-d", "exec,nochain", "-D", "/dev/stderr", program]
    good = [it for way in TAGS for it in tries(int(count), command, way)]
    # (keys of which the first octet differs, and of which the last)
    apart = [given(0), bytes(127) + bytes([1]) + bytes(67)]
    if len(ways([*command, "51", "1", "control"], apart)) != 2:
        sys.exit("the control's two ways are not seen")
    return not all(good)


if __name__ == "__main__":
    sys.exit(main(*sys.argv[1:]))
