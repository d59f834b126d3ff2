"""What the scripts say of words, settings and machines that aren't right, each with the status 1: the cases of live/check
that log in nowhere.
"""

from __future__ import annotations

import os
import re
import tempfile
from typing import Dict, Iterator, List, Optional, Sequence, Tuple

import programs

# A case: its name, and what is wrong with what was said.
Case = Tuple[str, List[str]]
SCRIPTS = ("radius_server", "radius_client", "wired", "login", "check")
# How the key in said.txt begins.
KEY = "a1b2c3d4a1b2c3d4"


def ends(status: int, words: Sequence[str], wanted: str, environment: Optional[Dict[str, str]] = None) -> List[str]:
    """What is wrong with a script that is to end with a status and to say something; with 1 no key, nor that it is ready."""
    ended, text = programs.answer(words, environment)
    is_right = ended == status and wanted in text and not (status and (re.search("^ready ", text, re.M) or KEY in text))
    return [] if is_right else [f"status {ended}, and it says: {text.strip()[-300:]}"]


def cases() -> Iterator[Case]:
    for script in SCRIPTS[:-1]:
        yield f"{script} without words", ends(1, programs.script(script), f"usage: live/{script} ")
    yield "check of no way", ends(1, programs.script("check", "nowhere"), "usage: live/check [WAY ..], where WAY is one of radius, ")
    for script in SCRIPTS:
        yield f"{script} --help", ends(0, programs.script(script, "--help"), f"live/{script} ")
    with tempfile.TemporaryDirectory(prefix="live-") as folder:
        for line in programs.table("said.txt"):
            row = re.sub(r"\{(\d+)\*(\w+)\}", lambda it: it[2] * int(it[1]), line)
            yield case_of(folder, *row.split(" | ", 3))
    with tempfile.TemporaryDirectory(prefix="live-") as folder:
        yield from install_cases(folder)


def case_of(folder: str, kind: str, script: str, given: str, wanted: str) -> Case:
    if kind == "settings":
        settings = programs.write(folder, "some.settings", *given.split("; "))
        place = ["lo"] if script == "wired" else ["127.0.0.1", "9"]
        return f"settings: {wanted}", ends(1, programs.script(script, settings, *place), wanted)
    if kind == "numbers":
        runs = [(programs.script(script, *given.format(it).split(" ")), f"'{it}' is no number of ") for it in wanted.split(" ")]
        return f"{script} {given}: {wanted}", [fault for run in runs for fault in ends(1, *run)]
    name = f"{script} {given}" if kind == "bounds" else f"{script}: {wanted}"
    return name, ends(1, programs.script(script, *given.split(" ")), wanted)


# live/install, over stand-ins for the tools of Debian.

QUERY = "#!/bin/sh\n[ -e {0}/installed-$4 ] && echo 'install ok installed'\n"
APT = "#!/bin/sh\nfor it; do :; done\n[ $it = update ] || [ $it = eapoltest ] || : >{0}/installed-$it\n"


def install_cases(folder: str) -> Iterator[Case]:
    """One package that isn't to be had, then the same with all there; and a machine without apt-get."""
    install = [f"{programs.HERE}/install"]
    environment = {**os.environ, "PATH": f"{folder}:{os.environ.get('PATH', os.defpath)}"}
    for name, text in (("dpkg-query", QUERY), ("apt-get", APT), ("id", "#!/bin/sh\necho 0\n")):
        os.chmod(programs.write(folder, name, text.format(folder)), 0o755)
    wanted = "not installed: eapoltest"
    yield "install, with a package that isn't to be had", ends(1, install, wanted, environment)
    wanted = "there already: hostapd wpasupplicant iproute2"
    yield "install, once more", ends(1, install, wanted, environment)
    programs.write(folder, "installed-eapoltest")
    wanted = "there already: hostapd wpasupplicant eapoltest iproute2\n"
    yield "install, with all there", ends(0, install, wanted, environment)
    os.remove(f"{folder}/installed-wpasupplicant")
    wanted = "wpasupplicant starts a service at boot: "
    yield "install, with a package that starts a service", ends(0, [*install, "wpasupplicant"], wanted, environment)
    programs.write(folder, "id", "#!/bin/sh\necho 1000\n")
    os.remove(f"{folder}/installed-hostapd")
    yield "install, without root", ends(1, install, "apt-get wants root", environment)
