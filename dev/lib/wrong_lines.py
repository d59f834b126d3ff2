"""Wrong lines of scripts and of C, each with the command that must see it (wrong/scripts.lines)."""

from __future__ import annotations

import os
import shlex
import shutil
import tempfile
import threading
import time
from concurrent.futures import ThreadPoolExecutor
from functools import lru_cache
from pathlib import Path
from typing import NamedTuple

from lib import pages
from lib.common import ROOT, Refused, grouped, said_by

LIST = "wrong/scripts.lines"
SHARE, SECONDS = 3, 1200
# Who takes minutes for a line is tried when all are.
SLOW = ("c/proved words", "c/proved system", "c/proved pool")
# Who is stopped begins no more tries.
stopped = threading.Event()
# What a command says that can try nothing here.
OVER = ": not run: "


class Wrong(NamedTuple):
    """A line of a file, another in its place, the command that sees it, and where it stands in the list."""

    seer: str
    file: str
    old: str
    new: str
    number: int

    @property
    def name(self) -> str:
        return f"{LIST}:{self.number}: {self.file}: {self.new.strip() or 'nothing'}"


class Tried(NamedTuple):
    """The lines that were seen, and what is wrong."""

    seen: list[str]
    faults: list[str]


def read() -> list[Wrong]:
    """The list: `by COMMAND`, then of each wrong line FILE, `- OLD` and `+ NEW`."""
    found: list[Wrong] = []
    seer = file = old = ""
    for number, line in enumerate((ROOT / LIST).read_text().splitlines(), 1):
        if line.startswith("by "):
            seer = line[3:]
        elif line.startswith("- "):
            old = line[2:]
        elif line.startswith("+"):
            found.append(Wrong(seer, file, old, line[2:], number))
        elif line and not line.startswith("#"):
            file = line
    return found


def faults() -> list[str]:
    """What is wrong with the texts of the list."""
    wrong = []
    for it in read():
        text = (ROOT / it.file).read_text() if (ROOT / it.file).is_file() else ""
        if not it.seer or text.count(it.old) != 1 or it.old == it.new:
            wrong.append(f"{it.name}: {it.file} has this text {text.count(it.old)} times: {it.old}")
    return wrong


def copy_to(folder: Path) -> None:
    """What stands in the repository, and the programs that are kept, without its history."""
    kept = [f"out/{it.name}" for it in (ROOT / "out").glob("eap_login-*")]
    for name in said_by("git", "ls-files", "-co", "--exclude-standard").splitlines() + kept:
        if (ROOT / name).is_file():
            (folder / name).parent.mkdir(parents=True, exist_ok=True)
            shutil.copy2(ROOT / name, folder / name)


@lru_cache(maxsize=None)
def program() -> str:
    """The program that is kept for use; the one that ./test has for its own cases is a hundred times as slow."""
    kind = said_by("tools/prove", "status").partition(":")[0]
    kept = ROOT / f"out/eap_login-{kind}"
    return str(kept) if kept.exists() else os.environ.get("EAP_LOGIN") or str(ROOT / "eap_login")


def run_by(seer: str, folder: Path) -> tuple[bool, str]:
    """Whether a command fails there, and its last line."""
    (folder / "out/tmp").mkdir(parents=True, exist_ok=True)
    # (a seer may be one that runs dev/claims with its commands)
    words = f"unset CLAIMS; EAP_LOGIN={shlex.quote(program())} TMPDIR=$PWD/out/tmp {seer}"
    status, output, _ = pages.run(words, str(folder), SECONDS)
    return status != 0, output.strip().rpartition("\n")[2]


def try_by(seer: str, lines: list[Wrong]) -> Tried:
    """A seer's lines, one after the other in a copy. One that lacks a program says so in its last line, and is passed over."""
    tried = Tried([], [])
    with tempfile.TemporaryDirectory(prefix="wrong-") as room:
        folder = Path(room)
        copy_to(folder)
        fails, last = run_by(seer, folder)
        if fails:
            tried.faults.append(f"{seer} fails by itself")
        elif OVER in last:
            print(f"wrong lines{OVER}{len(lines)} by {seer}: {last.partition(OVER)[2]}", flush=True)
        for it in [] if fails or OVER in last else lines:
            if stopped.is_set():
                break
            file = folder / it.file
            whole = file.read_text()
            file.write_text(whole.replace(it.old, it.new))
            sees = run_by(seer, folder)[0]
            (tried.seen if sees else tried.faults).append(it.name if sees else f"{it.name}: {seer} doesn't see it")
            file.write_text(whole)
    return tried


def some_of(lines: list[Wrong]) -> list[Wrong]:
    """One of SHARE of each seer that isn't slow, other ones each day."""
    day = int(time.time()) // 86400
    quick = [it for it in lines if it.seer not in SLOW]
    return [it for its in grouped((it.seer, it) for it in quick).values() for at, it in enumerate(its) if (at + day) % SHARE == 0]


def try_all(lines: list[Wrong]) -> Tried:
    """What comes of these lines."""
    if wrong := faults():
        raise Refused(wrong[0])
    groups = grouped((it.seer, it) for it in lines)
    with ThreadPoolExecutor(len(os.sched_getaffinity(0))) as pool:
        try:
            tried = list(pool.map(lambda seer: try_by(seer, groups[seer]), groups))
            return Tried([name for it in tried for name in it.seen], [fault for it in tried for fault in it.faults])
        finally:
            stopped.set()
