"""Captures at an interface by tcpdump, and hands out what each station did as soon as its login is over."""

from __future__ import annotations

import contextlib
import os
import queue
import signal
import subprocess
import sys
import threading
import time
from typing import BinaryIO, Iterator, Sequence, cast

from lib import captures, frames
from lib.captures import Capture
from lib.common import Refused

PATH = os.environ.get("PATH", os.defpath) + ":/usr/local/sbin:/usr/sbin:/sbin"
# A login is over so many seconds after its Success or Failure, or after a packet that nobody answers.
TICK_SECONDS, END_SECONDS, SILENT_SECONDS = 0.2, 0.3, 12.0
# So long is told, behind a signal, what was captured before.
LAST_SECONDS = 1.0
# (what belongs to no station is kept no longer, and no more)
MOST_SECONDS, MOST_RECORDS = 600.0, 50000


def filter_of(interface: str, ports: Sequence[int]) -> str:
    """What tcpdump is to capture. (`vlan` stands last, since it moves what is behind it; a cooked link has none.)"""
    radius = [f"udp port {it}" for it in (*frames.RADIUS_PORTS, *ports)]
    vlan = [] if interface == "any" else ["(vlan and ether proto 0x888e)"]
    icmp = ["icmp[0] == 3", "(icmp6 and ip6[40] == 1)"]
    return " or ".join(["ether proto 0x888e", *radius, *icmp, *vlan])


@contextlib.contextmanager
def started(words: Sequence[str]) -> Iterator[subprocess.Popen[bytes]]:
    """tcpdump, which ends with this. A signal ends it from its first moment on; a second one, or what isn't told in time behind
    the first, ends all."""
    begun: list[subprocess.Popen[bytes]] = []
    stopped: list[int] = []

    def stop(*_: object) -> None:
        if stopped:
            raise KeyboardInterrupt
        stopped.append(1)
        signal.setitimer(signal.ITIMER_REAL, LAST_SECONDS)
        for it in begun:
            it.terminate()

    def end(*_: object) -> None:
        print("why: stopped before all that was captured is told", file=sys.stderr)
        raise KeyboardInterrupt

    calls = {signal.SIGINT: stop, signal.SIGTERM: stop, signal.SIGALRM: end}
    before = {it: signal.signal(it, call) for it, call in calls.items()}
    try:
        try:
            begun.append(subprocess.Popen(words, stdout=subprocess.PIPE, stderr=subprocess.PIPE, env={**os.environ, "PATH": PATH}))
        except OSError as fault:
            raise Refused(f"tcpdump can't be run: {fault.strerror}: install it, or give a file that was captured elsewhere")
        if stopped:
            begun[0].terminate()
        yield begun[0]
    finally:
        signal.setitimer(signal.ITIMER_REAL, 0)
        for one in begun:
            one.terminate()
            one.wait()
        for it, handler in before.items():
            signal.signal(it, handler)


def records_of(interface: str, ports: Sequence[int]) -> Iterator[list[frames.Record]]:
    """The records of tcpdump, all that wait to be read at once, and none where none came for a moment. A signal ends tcpdump, whose
    last records come then."""
    words = ["tcpdump", "-i", interface, "-n", "-U", "--immediate-mode", "-s", "0", "-w", "-", filter_of(interface, ports)]
    found: queue.Queue[frames.Record] = queue.Queue(MOST_RECORDS)
    said: list[str] = []
    with started(words) as begun:
        reader = threading.Thread(target=read, args=(begun, found, said), daemon=True)
        reader.start()
        while reader.is_alive() or not found.empty():
            waiting = list[frames.Record]()
            with contextlib.suppress(queue.Empty):
                waiting.append(found.get(timeout=TICK_SECONDS))
                while len(waiting) < MOST_RECORDS:
                    waiting.append(found.get_nowait())
            yield waiting
    if begun.returncode > 0:
        text = (begun.stderr.read() if begun.stderr else b"").decode("utf-8", "replace")
        lines = [it for it in text.splitlines() if it.startswith("tcpdump: ") and "listening on" not in it]
        raise Refused(f"tcpdump can't capture at {interface}: {lines[-1][9:] if lines else f'status {begun.returncode}'}")
    if said:
        raise Refused(f"what tcpdump writes can't be read: {said[0]}")


def read(begun: subprocess.Popen[bytes], found: queue.Queue[frames.Record], said: list[str]) -> None:
    """Reads what tcpdump writes."""
    try:
        if begun.stdout:
            for record in frames.of_file(cast(BinaryIO, begun.stdout))[1]:
                found.put(record)
    except Refused as fault:
        said.append(str(fault))


def is_of_login(record: frames.Record, ports: Sequence[int]) -> bool:
    """Whether a frame has EAPOL other than keys, EAP or a refusal in a RADIUS packet, or what ICMP says of a packet."""
    frame = frames.of_record(record)
    if frame.kind == frames.EAPOL:
        return frame.payload[1:2] != bytes([frames.KEY])
    found = frames.radius_of(frame, ports)
    return bool(found and (found.eap or found.octets[0] == 3) or frames.unreached_of(frame))


def is_over(it: Capture, last: float, now: float) -> bool:
    end = it.packets.octets[-1][:1] if it.packets else b""
    return now - last > (END_SECONDS if end in (b"\3", b"\4") else SILENT_SECONDS)


def logins(interface: str, ports: Sequence[int]) -> Iterator[list[Capture]]:
    """What stations did, when it is over, until the capturing ends; at the last also what isn't."""
    kept: list[frames.Record] = []
    count, due = 0, 0.0
    print(f"why: capturing at {interface} by tcpdump, and waiting for a login over EAPOL or RADIUS; Ctrl-C ends it", file=sys.stderr,
          flush=True)
    for waiting in records_of(interface, ports):
        for record in waiting:
            if is_of_login(record, ports):
                count += 1
                kept.append(record._replace(number=count))
        begun = time.time()
        # (looked at each moment, also where frames come without a pause)
        if begun < due:
            continue
        kept = [it for it in kept[-MOST_RECORDS:] if kept[-1].at - it.at < MOST_SECONDS]
        times = {it.number: it.at for it in kept}
        found = captures.of_records(kept, ports)[0] if kept else []
        # (where frames wait to be read, it is as late as they say)
        over = [it for it in found if is_over(it, max(times[at] for at in it.numbers), waiting[-1].at if waiting else begun)]
        if over:
            gone = found[0].again.union(*(it.numbers for it in over))
            kept = [it for it in kept if it.number not in gone]
            for it in over:
                it.until = begun
            yield over
        due = time.time() + TICK_SECONDS
    yield captures.of_records(kept, ports)[0] if kept else []
