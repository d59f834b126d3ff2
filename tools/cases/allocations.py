"""Which commands take memory as they run: `replay` and `bulk` alone, as their calls say. Each other takes no more than as many
words that are no command, for which the program makes its words and its four boxes, and answers.

The allocations are counted by what the program was built with where that is AddressSanitizer, else by a malloc of our own."""

from __future__ import annotations

import os
import re
import shutil
import subprocess
import sys
import tempfile
from pathlib import Path
from typing import Iterator, Optional

from cases.lib.small import Run, holds

KEY = "000102030405060708090a0b0c0d0e0f101112131415161718191a1b1c1d1e1f"
WITHOUT = {
    "decode": "packets.hex", "keys": "keys.txt", "check": "login.capture", "radius": "login.radius",
    f"pcap alice 51 {KEY}": "login.pcap", "peer": "gpsk-login.peer", "server": "gpsk-login.server",
}
WITH = {"replay": "gpsk-login.scenario", "replay names": "through.scenario", "bulk 1 3": "gpsk-login.scenario"}


def counted(words: list[str], given: bytes, shared: str) -> int:
    """How often the program allocates; -1 where nothing counts it."""
    said = b""
    for env in ({"ASAN_OPTIONS": "atexit=1"}, {"LD_PRELOAD": shared}):
        said += subprocess.run([os.environ["EAP_LOGIN"], *words], input=given, capture_output=True, env=env).stderr
    found = re.search(rb"malloced.* by (\d+) calls", said)
    return int(found[1]) if found else -1


def case_allocations(run: Run) -> Iterator[Optional[str]]:
    with tempfile.TemporaryDirectory() as folder:
        shared, compiler = f"{folder}/counting.so", shutil.which("cc") or shutil.which("gcc")
        if compiler:
            subprocess.run([compiler, "-shared", "-fPIC", "-o", shared, "tools/cases/lib/counting.c"], check=True)
        for line, name in {**WITHOUT, **WITH}.items():
            words = line.split()
            least = counted(["nothing", *words[1:]], b"", shared)
            count = counted(words, Path("examples", name).read_bytes(), shared)
            if min(least, count) < 0:
                print("tools/check: allocations are passed over: nothing counts them", file=sys.stderr)
                return
            is_right = count > least if line in WITH else count == least
            yield holds(is_right, f"{line} allocates {count} times, words that are no command {least} times")
