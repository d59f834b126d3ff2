"""Cases in the form of cases/README.md: a text in, a text out and an exit status."""

from __future__ import annotations

import concurrent.futures
import contextlib
import itertools
import os
import pty
import re
import subprocess
import tempfile
import tty
from pathlib import Path
from typing import IO, Iterator, Optional, Sequence

from lib.common import ROOT, Refused

SCRIPT = ROOT / "eap_login"
# (which no run takes, on the busiest machine: one that hangs is ended)
SECONDS = 600

# A peer and a server that share a key of each method, up to the events.
SETTINGS = (ROOT / "cases/settings").read_text().splitlines()

# (that a line isn't there says little of an output)
OUTPUT = (">", "|", "last", "sent", "same", "empty", "is", "as", "has", "!", "quiet")
# (a tool's cases alone)
TOOLS = ("then", "as", "in", "at", "old", "new")
FORMS = ("from", "row", "$", "set", "take", "run", "<", "file", "input", "unreadable", "=", "never", "lacks", *TOOLS, *OUTPUT)
# (a last line that ends without LF follows its form without a space, too)
FORM = re.compile(rf"({'|'.join(map(re.escape, FORMS))})(?: (.*))?|(<<)(.*)")


class Bad(Refused):
    """What is wrong with a file of cases."""


class Case:
    """The lines of one case: those before the file's first case, and then its own."""

    def __init__(self, name: str, lines: list[tuple[str, str]]) -> None:
        self.name, self.lines = name, lines

    def all(self, form: str) -> list[str]:
        return [rest for its, rest in self.lines if its == form]

    def last(self, form: str) -> Optional[str]:
        """The line of this form, the case's own in place of the file's."""
        found = self.all(form)
        return found[-1] if found else None

    @property
    def words(self) -> list[str]:
        return (self.commands("$") or [[]])[-1]

    def commands(self, form: str) -> list[list[str]]:
        """The words of each line of this form."""
        return [[spelled(it) for it in rest.split()] for rest in self.all(form)]

    def rows(self) -> list[Case]:
        """One case for each row; the case itself where it has none."""
        rows = [row.split("|") for row in self.all("row")]
        return [Case(f"{self.name} ({'|'.join(row)})", self.filled(row)) for row in rows] or [self]

    def filled(self, row: list[str]) -> list[tuple[str, str]]:
        def field(found: re.Match[str]) -> str:
            if not 1 <= int(found[1]) <= len(row):
                raise Bad(f"{self.name}: a row has no field {found[0]}")
            return row[int(found[1]) - 1]

        return [(form, re.sub(r"\{(\d+)\}", field, rest)) for form, rest in self.lines if form != "row"]

    def expanded(self) -> Case:
        """The same with what is written short spelled out, but for the words, which spaces part first."""
        return Case(self.name, [(form, rest if form in ("$", "then", "as") else spelled(rest)) for form, rest in self.lines])

    def check(self) -> None:
        """Ends with Bad where the case doesn't say what it must."""
        if self.last("from") is None:
            raise Bad(f"{self.name}: it isn't said where what is expected comes from")
        if self.last("$") is None or self.last("=") is None:
            raise Bad(f"{self.name}: the words or the status are missing")
        if not any(self.all(form) for form in OUTPUT):
            raise Bad(f"{self.name}: nothing of the output is checked")

    def input(self) -> bytes:
        """A file of the repository, and then the lines and octets."""
        named = self.last("input")
        lines = scenario(self) if (self.words[:1] == ["replay"] or self.all("run")) and named is None else []
        text = "".join(line + "\n" for line in lines + self.all("<")) + "".join(self.all("<<"))
        octets = text.encode("latin-1") + bytes.fromhex("".join(self.all("file")))
        return ((ROOT / named).read_bytes() if named else b"") + octets


def spelled(text: str) -> str:
    """N times TEXT for {N*TEXT}, `deliver A` to `deliver B` for `deliver A..B`, and the octet for \\xHH."""
    count = 1 if "{" in text else 0
    while count:
        text, count = re.subn(r"\{(\d+)\*([^{}]*)\}", lambda found: found[2] * int(found[1]), text)
    if "deliver " in text:
        text = re.sub(r"deliver (\d+)\.\.(\d+)", lambda it: ";".join(f"deliver {at}" for at in range(int(it[1]), int(it[2]) + 1)), text)
    return re.sub(r"\\x([0-9a-f]{2})", lambda found: chr(int(found[1], 16)), text) if "\\" in text else text


def scenario(case: Case) -> list[str]:
    """The settings with the case's changes, or the first of them, and its events."""
    changes = [change.partition("|")[::2] for change in case.all("set")]
    settings = [next((line for front, line in changes if setting.startswith(front)), setting) for setting in SETTINGS]
    settings = [line for line in settings if line]
    taken = case.last("take")
    events = [event for events in case.all("run") for event in events.split(";")]
    return settings[: len(settings) if taken is None else int(taken)] + events


def whole_lines(path: Path) -> Iterator[tuple[int, str]]:
    """The lines of a file with their numbers; one that ends with a backslash goes on in the next."""
    front, first = "", 1
    for number, line in enumerate(path.read_text("latin-1").split("\n"), 1):
        first = first if front else number
        if line.endswith("\\"):
            front += line[:-1]
        else:
            yield first, front + line
            front = ""


def read(path: Path) -> list[Case]:
    """The cases of a file, each row of one for itself, with what is written short spelled out."""
    head: list[tuple[str, str]] = []
    cases: list[Case] = []
    for number, line in whole_lines(path):
        if not line.strip() or line.startswith("#"):
            continue
        if line.startswith("case "):
            cases.append(Case(f"{path.name}:{number}: {line[5:]}", list(head)))
        elif found := FORM.fullmatch(line):
            (cases[-1].lines if cases else head).append((found[1] or found[3], found[2] or found[4] or ""))
        else:
            raise Bad(f"{path.name}:{number}: no line of a case: {line}")
    if not cases:
        raise Bad(f"{path.name}: it has no case")
    cases = [each for case in cases for each in case.rows()]
    for case in cases:
        case.check()
    return [case.expanded() for case in cases]


# ---- The program at a case.

def answer_to(case: Case) -> tuple[int, str, str]:
    """The status, the output and the errors of the program for a case; of the script, at a terminal, where the errors are
    looked at."""
    is_script = bool(case.all("!") or case.all("quiet"))
    command = [str(SCRIPT if is_script else os.environ.get("EAP_LOGIN") or SCRIPT).encode(), *(it.encode("latin-1") for it in case.words)]
    if case.last("unreadable") is not None:  # each read of a folder fails
        command = [b"sh", b"-c", b'exec "$0" "$@" </', *command]
    with tempfile.TemporaryFile() as file, tempfile.TemporaryFile() as out:
        file.write(case.input())
        file.seek(0)
        if is_script:
            status, errors = at_terminal(command, file, out)
        else:
            run = subprocess.run(command, stdin=file, stdout=out, stderr=subprocess.PIPE, timeout=SECONDS)
            status, errors = run.returncode, run.stderr
        out.seek(0)
        return status, out.read().decode("latin-1"), errors.decode("latin-1")


def at_terminal(command: list[bytes], given: IO[bytes], out: IO[bytes]) -> tuple[int, bytes]:
    """The status and the errors of a run whose standard error is a terminal."""
    near, far = pty.openpty()
    errors = b""
    with open(near, "rb", buffering=0) as reader:
        with open(far, "wb", buffering=0) as terminal:
            tty.setraw(far)
            status = subprocess.run(command, stdin=given, stdout=out, stderr=terminal, timeout=SECONDS).returncode
        with contextlib.suppress(OSError):  # so it ends
            while piece := reader.read(4096):
                errors += piece
    return status, errors


def program_faults(cases: Sequence[Case]) -> Iterator[Optional[str]]:
    """What is wrong with the program's answer to each case, None for nothing."""
    def look(case: Case) -> Optional[str]:
        if form := next((it for it in TOOLS if case.all(it)), None):
            return f"{case.name}: the form `{form}` is for the cases of tools"
        try:
            return fault_in(case, *answer_to(case))
        except (OSError, subprocess.TimeoutExpired, ValueError) as error:
            return f"{case.name}: {error}"

    with concurrent.futures.ThreadPoolExecutor(len(os.sched_getaffinity(0))) as pool:
        yield from pool.map(look, cases)


# ---- What is wrong with an answer.


def fault_in(case: Case, status: int, output: str, errors: str) -> Optional[str]:
    """The first fault, behind the case's name."""
    return next((f"{case.name}: {fault}" for fault in faults_in(case, status, output, errors) if fault), None)


def faults_in(case: Case, status: int, output: str, errors: str) -> Iterator[Optional[str]]:
    """What each form finds wrong, None for nothing."""
    lines = output.split("\n")
    if str(status) != case.last("="):
        yield f"wanted the status {case.last('=')}, found {status}"
    if lines.pop():
        yield "the last line has no LF"
    if (whole := case.all(">")) or case.last("empty") is not None:
        yield first_difference(whole, lines)
    if name := case.last("is"):
        yield first_difference((ROOT / name).read_text("latin-1").split("\n")[:-1], lines)
    if (line := first_lost(case.all("|"), lines)) is not None:
        yield f"wanted {line!r} in its order, found no such line"
    if ends := case.all("last"):
        yield first_difference(ends, lines[-len(ends) :])
    yield from (f"wanted no line {line!r}, found one" for line in case.all("never") if line in lines)
    yield from (f"wanted {text!r}, and it isn't there" for text in case.all("has") if text not in output)
    yield from (f"wanted no {text!r}, and it is there" for text in case.all("lacks") if text in output)
    sent = " ".join(line.partition(" length ")[2] for line in lines if " length " in line)
    if case.last("sent") not in (None, sent):
        yield f"wanted the lengths {case.last('sent')}, found {sent}"
    octets = {event: rest for event, _, rest in (line.partition(" octets ") for line in reversed(lines)) if rest}
    for one, other in (events.split(" ") for events in case.all("same")):
        if one not in octets or octets[one] != octets.get(other):
            yield f"events {one} {other} don't send the same"
    # (the line on proofs that weren't checked is none of a case)
    more = [it for it in errors.split("\n")[:-1] if "proofs of this program were not checked" not in it]
    if case.last("quiet") is not None and more:
        yield f"wanted nothing on standard error, found {more[0]!r}"
    if (line := first_lost(case.all("!"), more)) is not None:
        yield f"wanted {line!r} on standard error, found {more}"


def first_difference(wanted: list[str], lines: list[str]) -> Optional[str]:
    for at, pair in enumerate(itertools.zip_longest(wanted, lines), 1):
        if pair[0] != pair[1]:
            line, found = ("the end" if it is None else it for it in pair)
            return f"line {at}: wanted {line!r}, found {found!r}"
    return None


def first_lost(wanted: list[str], lines: list[str]) -> Optional[str]:
    """The first of these lines that doesn't come in its order, with any others between."""
    rest = iter(lines)
    return next((line for line in wanted if line not in rest), None)
