"""Each script of the repository, asked for --help: it answers by its own head with status 0, and does nothing else."""

from __future__ import annotations

import contextlib
import functools
import io
import os
import re
import runpy
import subprocess
import sys
import tempfile
from importlib.machinery import SourceFileLoader
from pathlib import Path
from types import ModuleType
from typing import Iterator, Optional
from unittest import mock

from cases.lib.small import Run
from lib.common import ROOT

FOLDERS = ("", ".ci", "bench", "c", "c/freeradius", "c/hostapd", "c/strongswan", "cases", "dev", "examples", "live", "tools")
# Its words are the program's.
PROGRAM = ROOT / "eap_login"
# What must not be begun: a script that does its work for --help fails at these.
WORK = ("apt-get", "rt", "cc", "gcc", "valgrind", "git", "openssl", "mkdir", "install", "ip")


def scripts() -> Iterator[tuple[Path, str]]:
    for folder in FOLDERS:
        for path in sorted((ROOT / folder).iterdir()):
            if path.is_file() and os.access(path, os.X_OK) and path != PROGRAM and path.read_bytes()[:2] == b"#!":
                yield path, path.read_text()


def head_of(text: str) -> str:
    """The first line of what a script says of itself."""
    found = re.match(r'#!.*\n(?:# ?|""")(.*)', text)
    return found[1].removesuffix('"""') if found else ""


def place_of(module: ModuleType) -> str:
    return getattr(module, "__file__", "") or next(iter(getattr(module, "__path__", [])), "")


def answer_of(path: Path, shared: dict[str, ModuleType]) -> tuple[int, str, str]:
    """What a script says of itself. One in Python runs here, with modules of its own, as Python's start would take the longest;
    those of tools/ share the modules of tools/lib."""
    if not path.read_text().startswith("#!/usr/bin/env -S python3 -B\n"):
        done = subprocess.run([path, "--help"], stdin=subprocess.DEVNULL, capture_output=True, text=True, timeout=600)
        return done.returncode, done.stdout, done.stderr
    out, errors, status = io.TextIOWrapper(io.BytesIO(), write_through=True), io.StringIO(), 0
    others = {name: it for name, it in sys.modules.items() if not place_of(it).startswith(str(ROOT))}
    with contextlib.ExitStack() as changes:
        changes.enter_context(mock.patch.multiple(sys, argv=[str(path), "--help"], stdout=out, stderr=errors, stdin=io.StringIO(),
                                                  path=[str(path.parent), *(it for it in sys.path if not it.startswith(str(ROOT)))]))
        is_tool = path.parent == ROOT / "tools"
        changes.enter_context(mock.patch.dict(sys.modules, {**others, **shared} if is_tool else others, clear=True))
        try:
            runpy.run_path(str(path), run_name="__main__")
        except SystemExit as ended:
            status = ended.code if isinstance(ended.code, int) else 0
        if is_tool:
            shared.update((name, it) for name, it in sys.modules.items() if place_of(it).startswith(f"{path.parent}/lib"))
    return status, out.buffer.getvalue().decode(), errors.getvalue()


def case_help(_: Run) -> Iterator[Optional[str]]:
    compiled, shared = functools.lru_cache(maxsize=None)(SourceFileLoader.source_to_code), dict[str, ModuleType]()
    with tempfile.TemporaryDirectory() as folder, mock.patch.object(SourceFileLoader, "source_to_code", compiled), mock.patch.dict(
            os.environ, PATH=f"{folder}:{os.environ['PATH']}"):
        for name in WORK:
            stub = Path(folder) / name
            stub.write_text(f"#!/bin/sh\n: >'{folder}/begun'\nexit 9\n")
            stub.chmod(0o755)
        for path, text in scripts():
            head, begun = head_of(text), Path(folder) / "begun"
            status, out, errors = answer_of(path, shared)
            if (status, errors) != (0, "") or not head or head not in out or begun.exists():
                begun.unlink(missing_ok=True)
                yield f"{path.relative_to(ROOT)} --help ends with {status} and writes {(out + errors)[:80]!r}"
            else:
                yield None
