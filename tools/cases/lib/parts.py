"""The parts of tools/check and dev/check: NAME.cases has cases in the form of cases/README.md, whose first word is a tool of
tools/ or of dev/; NAME.py has functions that begin with `case_`, each of which yields what is wrong; NAME.sh is read behind
tools/cases/lib/common.sh. Tools in Python run within this interpreter."""

from __future__ import annotations

import contextlib
import functools
import io
import os
import re
import signal
import subprocess
import sys
import tempfile
from importlib.machinery import SourceFileLoader
from itertools import chain
from pathlib import Path
from types import ModuleType
from typing import Iterator, Optional, Sequence
from unittest import mock

from cases.lib.small import Small, texts_of
from lib.cases import Bad, Case, fault_in, read
from lib.common import ROOT, Parser, run, said_by, this_python

HERE = ROOT
# What needs no program: it is begun first, while that may still be built.
ALONE = "first_run"


@functools.lru_cache(maxsize=None)
def module_of(path: Path) -> ModuleType:
    """A script as a module, which is loaded once."""
    loader = SourceFileLoader(re.sub(r"\W", "_", path.name), str(path))
    module = sys.modules[loader.name] = ModuleType(loader.name)
    module.__file__ = str(path)
    loader.exec_module(module)
    return module


def run_tool(words: Sequence[str], given: bytes = b"", root: Path = ROOT) -> tuple[int, str, str]:
    """Runs a tool of dev/ or tools/ within this interpreter, or the same as if it stood in another repository, or the
    program: its status, its output, its errors."""
    if words[0] == "eap_login":
        status, octets = run(words[1:], given)
        return status, octets.decode(), ""
    place = next(it for it in (words[0], f"dev/{words[0]}", f"tools/{words[0]}") if (HERE / it).is_file())
    module = module_of(HERE / place)
    out, errors, status = io.BytesIO(), io.StringIO(), 0
    written = io.TextIOWrapper(out, encoding="utf-8", write_through=True)
    moved = [it for it in list(sys.modules.values()) if getattr(it, "ROOT", None) == HERE] if root != HERE else []
    with contextlib.ExitStack() as changes:
        changes.enter_context(mock.patch.multiple(sys, argv=[place, *words[1:]], stdin=io.TextIOWrapper(io.BytesIO(given)),
                                                  stdout=written, stderr=errors))
        for it in moved:
            changes.enter_context(mock.patch.object(it, "ROOT", root))
        try:
            module.tool(module.main)
        except SystemExit as ended:
            status = ended.code if isinstance(ended.code, int) else 0
    if status == 130:
        raise KeyboardInterrupt
    return status, out.getvalue().decode(), errors.getvalue()


# ---- Cases in the form of cases/README.md.


def fault_of(case: Case, folder: str) -> Optional[str]:
    """What is wrong with a tool's answer to a case, in this repository or in a small one with a changed file."""
    root, named = ROOT, case.last("in")
    if named:
        small = small_of(folder, named)
        root = small.root
        small.again()
        if file := case.last("at"):
            # (a case's text is read as octets, and these files are in UTF-8)
            try:
                small.turn(file, *((case.last(it) or "").encode("latin-1").decode() for it in ("old", "new")))
            except ValueError as fault:
                return f"{case.name}: {fault}"
    given = case.input()
    for words in [case.words, *case.commands("then")]:
        status, out, errors = run_tool(words, given, root)
        given = out.encode()
    same = [(">", line) for words in case.commands("as") for line in run_tool(words)[1].splitlines() or [f"what {words} write"]]
    return fault_in(Case(case.name, case.lines + same), status, given.decode("latin-1"), errors.encode().decode("latin-1"))


@functools.lru_cache(maxsize=None)
def small_of(folder: str, named: str) -> Small:
    return Small(tempfile.mkdtemp(dir=folder), texts_of(named))


def of_texts(path: Path) -> Iterator[Optional[str]]:
    try:
        cases = read(path)
    except Bad as bad:
        yield str(bad)
        return
    with tempfile.TemporaryDirectory() as folder:
        yield from (fault_of(case, folder) for case in cases)


# ---- Cases in Python, and in shell.


def of_module(path: Path) -> Iterator[Optional[str]]:
    """A case yields what is wrong, or None for each thing that is as it should be."""
    module = module_of(path)
    for name in [it for it in vars(module) if it.startswith("case_")]:
        for fault in getattr(module, name)(run_tool):
            yield f"{path.name}: {name}: {fault}" if fault else None


def left_behind(path: Path) -> Iterator[Optional[str]]:
    left = os.listdir(tempfile.gettempdir())
    yield f"{path.name}: something is left among the temporary files: {left[0]}" if left else None


def begin(path: Path) -> subprocess.Popen[bytes]:
    """Starts cases in shell."""
    text = f'. "{path.parent}/lib/common.sh"; . "{path}"; ends_cases'
    return subprocess.Popen(["sh", "-c", text], stdin=subprocess.DEVNULL, stdout=subprocess.PIPE)


def counted(path: Path, begun: subprocess.Popen[bytes]) -> tuple[int, int]:
    """How many cases in shell pass, and fail, by their last line."""
    lines = begun.communicate()[0].decode("utf-8", "replace").splitlines()
    found = re.fullmatch(r"(\d+) passed, (\d+) failed", lines[-1]) if lines and begun.returncode == 0 else None
    if found:
        return int(found[1]), int(found[2])
    print(f"tools/check: {path.name} ends with status {begun.returncode}", file=sys.stderr)
    return 0, 1


def count(path: Path) -> tuple[int, int]:
    """How many cases of a file pass, and fail; what is wrong is written."""
    passed = failed = 0
    for fault in of_texts(path) if path.suffix == ".cases" else chain(of_module(path), left_behind(path)):
        passed, failed = passed + (not fault), failed + bool(fault)
        if fault:
            print(f"{path.parent.parent.name}/check: {fault}", file=sys.stderr)
    return passed, failed


def program() -> str:
    """The program that EAP_LOGIN names, or the one that ./eap_login runs, which is built first where there is none."""
    named = os.environ.get("EAP_LOGIN")
    if named:
        return os.path.realpath(named)
    building = subprocess.Popen(["./eap_login", "decode"], stdin=subprocess.DEVNULL, stdout=subprocess.DEVNULL)
    try:
        building.wait()
    finally:
        building.terminate()
    kept = ROOT / "out" / f"eap_login-{said_by('tools/prove', 'status').partition(':')[0]}"
    return str(kept if kept.exists() else ROOT / "eap_login")


def check(text: str, place: str) -> int:
    """Tries the parts of `place` that the words name, or all; the help is this text."""
    parser = Parser(text)
    parts: dict[str, list[Path]] = {}
    for path in sorted((ROOT / place / "cases").glob("*.*")):
        if path.suffix in (".cases", ".py", ".sh"):
            parts.setdefault(path.stem, []).append(path)
    parser.add_argument("parts", metavar="PART", nargs="*", help=f"one of {', '.join(parts)}")
    asked = parser.parse_args().parts or list(parts)
    unknown = [it for it in asked if it not in parts]
    if unknown:
        parser.error(f"there is no part {', '.join(unknown)}; there are {', '.join(parts)}")
    os.chdir(ROOT)
    passed = failed = 0
    begun: dict[Path, subprocess.Popen[bytes]] = {}
    signal.signal(signal.SIGTERM, signal.default_int_handler)
    with tempfile.TemporaryDirectory(prefix="tools-") as folder, this_python(), mock.patch.object(tempfile, "tempdir", folder):
        # (cases in shell start processes, and so run beside the others, which come first)
        paths = sorted((path for part in asked for path in parts[part]), key=lambda it: it.suffix == ".sh")
        shells = [it for it in paths if it.suffix == ".sh"]
        try:
            begun.update((it, begin(it)) for it in shells if it.stem == ALONE)
            if place == "tools":
                os.environ["EAP_LOGIN"] = program()
            begun.update((it, begin(it)) for it in shells if it not in begun)
            for path in paths:
                right, wrong = counted(path, begun[path]) if path in begun else count(path)
                passed, failed = passed + right, failed + wrong
                print(f"{path.name}: {right} passed, {wrong} failed")
        finally:
            for it in begun.values():
                it.terminate()
    print(f"{sum(os.times()[:4]):.0f} s of a processor")
    print(f"{place}: {passed} passed, {failed} failed")
    return 1 if failed or not passed else 0
