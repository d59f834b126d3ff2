"""shellcheck, pyflakes and mypy find nothing, where they are installed. Where one found nothing in the same files before, it
isn't asked again."""

from __future__ import annotations

import hashlib
import os
import shutil
import subprocess
import sys
from pathlib import Path
from typing import Iterator, Optional

from cases.lib.small import Run

FOLDERS = (".", ".ci", "bench", "c", "c/hostapd", "c/python", "c/rust", "cases", "dev", "dev/cases", "dev/lib", "dist", "examples", "live", "share", "tools", "tools/cases", "tools/cases/lib", "tools/lib")
SHELL = ("#!/bin/sh", "# shellcheck shell=sh")


def scripts() -> dict[str, str]:
    """The files of these folders, each with its first line."""
    files = [it for folder in FOLDERS for it in sorted(Path(folder).iterdir()) if it.is_file()]
    return {str(it): it.open(encoding="latin-1").readline() for it in files}


def case_checkers(run: Run) -> Iterator[Optional[str]]:
    shell = [it for it, line in scripts().items() if line.startswith(SHELL)]
    python = [it for it, line in scripts().items() if it.endswith(".py") or line.startswith("#!") and "python3" in line]
    folders = ("tools/lib", "tools/cases/lib", "dev/lib")
    typed = [f"../{it}" for folder in folders for it in sorted(Path(folder).glob("*.py"))] + ["../dev/relations"]
    yield from finds_nothing(("shellcheck",), ["-x", "-S", "warning", "-f", "gcc", *shell])
    yield from finds_nothing(("pyflakes", "pyflakes3"), python)
    yield from finds_nothing(("mypy",), ["--strict", "--explicit-package-bases", "--python-version", "3.9", "--cache-dir", "../out/mypy", *typed], "tools")


def finds_nothing(names: tuple[str, ...], words: list[str], folder: str = ".") -> Iterator[Optional[str]]:
    """The first of these commands that is installed finds nothing with these words."""
    command = next((path for it in names if (path := shutil.which(it))), None)
    if command is None:
        print(f"dev/check: {names[0]} is passed over: it isn't installed", file=sys.stderr)
        return
    total = hashlib.sha256(f"{command} {Path(command).stat().st_mtime} {words}".encode())
    for it in scripts():
        total.update(Path(it).read_bytes())
    kept = Path("out") / f"clean-{names[0]}"
    if kept.exists() and kept.read_text() == total.hexdigest():
        yield None
        return
    # (mypy looks for packages there, too)
    env = {**os.environ, "MYPYPATH": "../dev"}
    done = subprocess.run([command, *words], cwd=folder, env=env, stdin=subprocess.DEVNULL, stdout=subprocess.PIPE, stderr=subprocess.STDOUT)
    said = done.stdout.decode("utf-8", "replace").strip()
    yield f"{command}: {said[-2000:]}" if done.returncode else None
    if not done.returncode and kept.parent.exists():
        kept.write_text(total.hexdigest())
