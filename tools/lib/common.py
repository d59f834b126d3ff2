"""What the tools in Python share: their words, how they end, and the program that they ask."""

from __future__ import annotations

import argparse
import functools
import os
import shutil
import subprocess
import sys
import tempfile
import zlib
from contextlib import contextmanager
from pathlib import Path
from typing import Any, Callable, Iterable, Iterator, NoReturn, Optional, Sequence, TypeVar

ROOT = Path(__file__).resolve().parent.parent.parent
Key = TypeVar("Key")
Value = TypeVar("Value")
MOST_UNPACKED = 1 << 28


class Refused(Exception):
    """Why a tool can't go on, in a line."""


def need_rt_by_crate() -> None:
    """Refuses where rt isn't there, or is of a kit that proves no crate by its name."""
    if not shutil.which("rt"):
        raise Refused("the toolchain's command rt isn't there")
    said = subprocess.run(["rt", "help"], stdin=subprocess.DEVNULL, capture_output=True, text=True, check=False)
    if "rt ci NAME" not in said.stdout + said.stderr:
        raise Refused("this kit has no `rt ci NAME`, as that of README has: run `rt verdict` and `rt must-fail` in the crate's folder")


class Parser(argparse.ArgumentParser):
    """Words of a tool, whose help is the tool's own text; a fault of them is a line, and the status 1."""

    def __init__(self, text: Optional[str], **more: Any) -> None:
        super().__init__(description=text, formatter_class=argparse.RawDescriptionHelpFormatter, **more)
        self.add_argument("--version", action=Version, nargs=0, help="the version of the tools and of the program")

    def parse(self) -> argparse.Namespace:
        """The words, of which options may stand anywhere."""
        return self.parse_intermixed_args()

    def error(self, message: str) -> NoReturn:
        self.exit(1, f"{self.prog}: {message} (--help says more)\n")


class Version(argparse.Action):
    def __call__(self, parser: argparse.ArgumentParser, *words: Any) -> None:
        print(f"{parser.prog}: {version()}")
        parser.exit()


def tool(main: Callable[[], Optional[int]]) -> NoReturn:
    """Runs a tool, whose status is 0 where it says none: what it refuses is a line and the status 2; where what it writes
    can't be written it ends with 4."""
    name = Path(sys.argv[0]).name
    if sys.stdout is None:
        print(f"{name}: standard output is closed", file=sys.stderr)
        sys.exit(4)
    if hasattr(sys.stdout, "reconfigure"):
        sys.stdout.reconfigure(encoding="utf-8")
    try:
        status = main() or 0
        sys.stdout.flush()
    except Refused as fault:
        status = 2
        print(f"{name}: {fault}", file=sys.stderr)
    except OSError as fault:
        # (what is read and written by name says so where it fails)
        status = 4
        if not isinstance(fault, BrokenPipeError):
            print(f"{name}: standard output can't be written: {fault.strerror}", file=sys.stderr)
        os.dup2(os.open(os.devnull, os.O_WRONLY), sys.stdout.fileno())
    except KeyboardInterrupt:
        status = 130
    sys.exit(status)


def grouped(pairs: Iterable[tuple[Key, Value]]) -> dict[Key, list[Value]]:
    """The values of each key."""
    found: dict[Key, list[Value]] = {}
    for key, value in pairs:
        found.setdefault(key, []).append(value)
    return found


def octets_of(path: str) -> bytes:
    """The octets of a file, or of standard input for `-`."""
    if path == "-" and sys.stdin.isatty():
        print(f"{Path(sys.argv[0]).name}: reading standard input; Ctrl-D ends it, --help says more", file=sys.stderr)
    try:
        return unpacked(sys.stdin.buffer.read() if path == "-" else Path(path).read_bytes())
    except OSError as fault:
        raise Refused(f"{path} can't be read: {fault.strerror}")


def unpacked(octets: bytes) -> bytes:
    """What gzip has packed, as Wireshark packs files; what isn't whole, or is over 256 MB, stays as it is."""
    if octets[:3] != b"\x1f\x8b\x08":
        return octets
    reader = zlib.decompressobj(31)
    try:
        found = reader.decompress(octets, MOST_UNPACKED)
    except zlib.error:
        return octets
    return found if reader.eof else octets


def write_file(path: str, octets: bytes) -> None:
    try:
        Path(path).write_bytes(octets)
    except OSError as fault:
        raise Refused(f"{path} can't be written: {fault.strerror}")


# What ./eap_login says of itself, as that it is being built, is said once.
told: list[bool] = []


def answer(words: Sequence[str], octets: bytes) -> tuple[int, list[str]]:
    """The status with which the program ends at these words and octets, and what it writes, in lines."""
    return answer_of(os.environ.get("EAP_LOGIN") or str(ROOT / "eap_login"), tuple(words), octets)


@functools.lru_cache(maxsize=1024)
def answer_of(program: str, words: tuple[str, ...], octets: bytes) -> tuple[int, list[str]]:
    """The same, which is asked once."""
    status, written = run(words, octets, program)
    return status, written.decode("latin-1").splitlines()


@functools.lru_cache(maxsize=None)
def found() -> str:
    """The program that ./eap_login, once it has run, has found or built: the script looks at all sources at each start."""
    kind = said_by("tools/prove", "status").partition(":")[0]
    program = ROOT / "out" / f"eap_login-{kind}"
    return str(program) if kind in PROOFS and program.is_file() else ""


def run(words: Sequence[str], octets: bytes, program: str = "") -> tuple[int, bytes]:
    """The status with which the program ends, and what it writes."""
    program = program or os.environ.get("EAP_LOGIN") or (found() if told else "") or str(ROOT / "eap_login")
    errors = subprocess.DEVNULL if told else None
    try:
        done = subprocess.run([program, *words], input=octets, stdout=subprocess.PIPE, stderr=errors,
                              env={**os.environ, "NO_HINTS": "yes"})
    except (OSError, ValueError) as fault:
        raise Refused(f"{program} can't be run: {getattr(fault, 'strerror', None) or fault}")
    told.append(True)
    if done.returncode in (126, 127):
        raise Refused(f"{program} can't be run: it ends with status {done.returncode}")
    return done.returncode, done.stdout


def ask(words: Sequence[str], octets: bytes, statuses: Sequence[int] = (0,)) -> list[str]:
    """What the program writes, where it ends with one of these statuses."""
    status, lines = answer(words, octets)
    if status not in statuses:
        raise Refused(f"eap_login {' '.join(words)} doesn't take it: {lines[-1] if lines else f'status {status}'}")
    return lines


def said_by(*words: str) -> str:
    """What a command of this repository writes."""
    try:
        done = subprocess.run(words, cwd=ROOT, stdin=subprocess.DEVNULL, stdout=subprocess.PIPE, stderr=subprocess.DEVNULL)
    except OSError:
        return ""
    return done.stdout.decode("utf-8", "replace").strip()


@contextmanager
def this_python() -> Iterator[None]:
    """Here a command that is run by its name as python3 is this interpreter, and no script that looks for one."""
    with tempfile.TemporaryDirectory(prefix="python-") as folder:
        path = os.environ["PATH"]
        os.symlink(sys.executable, f"{folder}/python3")
        os.environ["PATH"] = f"{folder}:{path}"
        try:
            yield
        finally:
            os.environ["PATH"] = path


PROOFS = {
    "proved": "its proofs were checked on this machine",
    "dist": "its proofs were checked where dist/ was made",
    "unchecked": "its proofs were not checked on this machine",
}


def version() -> str:
    """The commit, the kit, and whether the proofs of the program that is kept were checked on this machine."""
    if (ROOT / "version").exists():  # of what was installed
        return (ROOT / "version").read_text().strip()
    commit = said_by("git", "log", "-1", "--format=commit %h of %cs") or "no commit"
    if (ROOT / "COMMIT").exists():  # of a release
        commit = f"commit {(ROOT / 'COMMIT').read_text().strip()}"
    if os.environ.get("EAP_LOGIN"):
        return f"Tuvaddri, {commit}; the program is the one that EAP_LOGIN names"
    kind, _, rest = said_by("tools/prove", "status").partition(":")
    if kind not in PROOFS:
        return f"Tuvaddri, {commit}; no program of these sources is built"
    return f"Tuvaddri, {commit}; the program is built by {rest.rpartition(', by ')[2]}; {PROOFS[kind]}"
