"""The tools that make files of captures and part them by station: what the program says of these files."""

from __future__ import annotations

import io
import os
import subprocess
import tempfile
from pathlib import Path
from typing import Iterator, Optional
from unittest import mock

from cases.lib import wire
from cases.lib.small import Run, holds
from cases.lib.wire import GROUP, START, SWITCH
from lib import frames
from lib.common import answer

KEY = wire.KEY.hex()
STATIONS = [bytes.fromhex(f"02000000000{it}") for it in "abc"]
# Between the frames of both logins: one with a VLAN tag, one of ARP, a Request of the authenticator to the group, and an
# EAPOL-Start of a third station to the group; the first is that too.
OTHERS = [GROUP + sender + bytes.fromhex(rest) for sender, rest in (
    (STATIONS[2], "8100000a888e01010000"), (STATIONS[2], "0806"), (SWITCH, "888e010000050100000501"))]
STARTS = GROUP + STATIONS[2] + b"\x88\x8e" + START


# ---- capture-of.


def case_file_of(run: Run) -> Iterator[Optional[str]]:
    """With -w the same packets come from frames, and the words are those of the users; so of a file that `pcap` refuses,
    of frames with a VLAN tag, of EAP in RADIUS packets, of pcapng and of nanoseconds."""
    with tempfile.NamedTemporaryFile() as file:
        def judged(*words: str, given: bytes = b"") -> tuple[int, list[str]]:
            """What the program says of the file that is made, with the users that are told."""
            users = run(["capture-of", "-w", file.name, *words], given)[1].split()
            return answer(["pcap", *users], Path(file.name).read_bytes())

        status, lines = judged("examples/altered.scenario")
        _, wanted = answer(["check"], run(["capture-of", "examples/altered.scenario"])[1].encode())
        yield holds(status == 7 and lines[:-1] == wanted[:-1], f"pcap says {lines}")
        for name, line in (("cooked", "4 tag-bad"), ("vlan", "4 tag-bad"), ("radius", "3 tag-good alice")):
            _, lines = judged(f"examples/failing/{name}.pcap", "alice", "51", KEY)
            yield holds(line in lines, f"pcap of {name} says {lines}")
        for name, octets in others_of(Path("examples/login.pcap").read_bytes()):
            _, lines = judged("-", "alice", "51", KEY, given=octets)
            yield holds(lines[-1] == "records 7 eap 7 findings 0" and "4 tag-good alice" in lines, f"{name}: {lines}")


def frames_of(octets: bytes) -> list[tuple[float, bytes]]:
    """The frames of a file, one each second."""
    return [(float(at), it.frame) for at, it in enumerate(frames.of_file(io.BytesIO(octets))[1])]


def others_of(octets: bytes) -> Iterator[tuple[str, bytes]]:
    """A pcap file with times in nanoseconds, and as pcapng in both orders of octets, with an option on the times."""
    yield "nanoseconds", wire.pcap(frames_of(octets), magic=0xA1B23C4D)
    for order in "<>":
        yield f"pcapng {order}", wire.pcapng([(0, *it) for it in frames_of(octets)], order, is_nano=True)


# ---- by-station.


def addressed(frame: bytes, number: int) -> bytes:
    """A frame of a login with the addresses of its station; the fifth octet of EAPOL is EAP's Code."""
    if frame[18] == 2:
        return (GROUP if number else SWITCH) + STATIONS[number] + frame[12:]
    return STATIONS[number] + SWITCH + frame[12:]


def interleaved(one: bytes, other: bytes) -> tuple[bytes, dict[str, bytes]]:
    """The frames of two logins as of two stations at one authenticator, a frame of the one, one of the other, with
    others between; and those of each station alone, by the name that tools/by-station gives its file."""
    both, alone = list[tuple[float, bytes]](), [list[tuple[float, bytes]]() for _ in STATIONS]
    for (second, first), (_, last) in zip(frames_of(one), frames_of(other)):
        frames = [addressed(first, 0), addressed(last, 1), STARTS]
        for number, frame in enumerate([*frames, STARTS]):
            alone[min(number, 2)].append((second, frame))
        both += [(second, it) for it in [*frames, *OTHERS]]
    names = [f"{it.hex('-')}_{SWITCH.hex('-')}.pcap" for it in STATIONS]
    return wire.pcap(both, order=">"), {name: wire.pcap(it, order=">") for name, it in zip(names, alone)}


def case_by_station(run: Run) -> Iterator[Optional[str]]:
    """Of two logins at the same time, and of a third station, each has a file with its frames and no others, which the
    program judges as it judges the login alone; both in one file it takes for one, whose tags are wrong."""
    with tempfile.TemporaryDirectory() as folder:
        for name in ("gpsk-login", "gpsk-suite2"):
            run(["capture-of", "-w", f"{folder}/{name}", f"examples/{name}.scenario"])
        both, wanted = interleaved(*(Path(f"{folder}/{it}").read_bytes() for it in ("gpsk-login", "gpsk-suite2")))
        Path(f"{folder}/both").write_bytes(both)
        status, out, _ = run(["by-station", f"{folder}/both", f"{folder}/parted"])
        left = ("without EAP", "to a group address, meant for no pair alone")
        yield holds(status == 0 and all(f"left out: frames {it}: 7" in out for it in left), f"it leaves out {out}")
        found = {it.name: it.read_bytes() for it in Path(f"{folder}/parted").iterdir()}
        yield holds(found == wanted, f"it parts into {sorted(found)}")
        yield holds("25 tag-bad" in answer(["pcap", "alice", "51", KEY], both)[1], "both in one file are judged well")
        for octets in list(wanted.values())[:2]:
            _, lines = answer(["pcap", "alice", "51", KEY], octets)
            yield holds(lines[-1] == "records 7 eap 7 findings 0" and "5 tag-good alice" in lines, f"pcap says {lines}")
        yield from stations(run, both)
        yield from refused_stations(run, folder)


def stations(run: Run, both: bytes) -> Iterator[Optional[str]]:
    """The other tools tell the stations of a file one after the other, or the one that is asked for."""
    _, out, _ = run(["why", "-", KEY], both)
    heads = [line for line in out.splitlines() if line[:1] != " "]
    yield holds(heads[0] == "station 02-00-00-00-00-0a" and "station 02-00-00-00-00-0b" in heads
                and sum("each MAC that was judged is right" in it for it in heads) == 2, f"why says {heads}")
    status, out, _ = run(["capture-of", "--station", "02:00:00:00:00:0b", "-", KEY], both)
    yield holds(answer(["check"], out.encode())[1][-1] == "packets 7 findings 0", "capture-of takes other packets")
    status, _, errors = run(["capture-of", "-", KEY], both)
    yield holds(status == 2 and "there are 2 stations, and --station NAME asks for one" in errors, f"it says {errors}")
    _, out, _ = run(["page", "-", KEY], both)
    yield holds(out.count("<h2>Station 02-00-00-00-00-0") == 2, "the page hasn't both stations")


def refused_stations(run: Run, folder: str) -> Iterator[Optional[str]]:
    run(["by-station", "examples/keys.txt", f"{folder}/new"])
    yield holds(not os.path.exists(f"{folder}/new"), "it makes a folder for what it refuses")
    Path(f"{folder}/cut").write_bytes(Path(f"{folder}/gpsk-login").read_bytes()[:200])
    status, out, errors = run(["by-station", f"{folder}/cut", f"{folder}/new"])
    yield holds(status == 2 and ".pcap: frames 2\n" in out and "it ends within record 3" in errors, f"a cut file: {errors}")


# ---- What can't be run, and what can't be written.


def case_program(run: Run) -> Iterator[Optional[str]]:
    """A program that isn't there is named."""
    with mock.patch.dict(os.environ, EAP_LOGIN="/nope"):
        for tool in ("why", "chart", "page", "capture-of"):
            found = run([tool, "examples/altered.scenario"])
            yield holds(found[0] == 2 and "/nope can't be run: No such file or directory" in found[2], f"{tool}: {found}")


def case_full_device(run: Run) -> Iterator[Optional[str]]:
    with open("/dev/full", "wb") as full:
        done = subprocess.run(["tools/decode-fields", "examples/login.pcap"], stdout=full, stderr=subprocess.PIPE)
    said = done.stderr.decode()
    yield holds(done.returncode == 4 and "standard output can't be written: No space left on device" in said, said)
