"""What live/check and live/login run other programs with: processes whose output is kept, and network namespaces without a
way out.
"""

from __future__ import annotations

import contextlib
import os
import re
import shutil
import subprocess
import sys
import time
from pathlib import Path
from typing import Dict, Iterator, List, Mapping, Optional, Sequence, Tuple

import ends

HERE = os.path.dirname(os.path.realpath(__file__))
# The package of Debian that has each program.
PACKAGES = {
    "eapol_test": "eapoltest",
    "hostapd": "hostapd",
    "ip": "iproute2",
    "nsenter": "util-linux",
    "timeout": "coreutils",
    "unshare": "util-linux",
    "wpa_supplicant": "wpasupplicant",
}
# What a login has started, which is stopped after it by `close`, the last first.
started = contextlib.ExitStack()
# How long a command that is waited for runs at most.
MOST_SECONDS = 400


def lacks(*programs: str) -> List[str]:
    """What isn't installed of these, with its package."""
    return [f"{it} (package {PACKAGES[it]})" for it in programs if not shutil.which(it)]


class Process:
    """A program whose output goes into a file of the folder, and its limit, if nobody stops it before."""

    limit: Sequence[str] = ("timeout", "-k", "5", "120")
    # When the last one began, by the clock of `time.monotonic`.
    began = 0.0

    def __init__(self, folder: str, name: str, words: Sequence[str], where: Sequence[str] = ()) -> None:
        self.name, self.log, Process.began = name, f"{folder}/{name}.log", time.monotonic()
        words = [*where, *self.limit, *words]
        with open(self.log, "wb") as log:
            self.process = subprocess.Popen(words, stdin=subprocess.DEVNULL, stdout=log, stderr=subprocess.STDOUT, cwd=folder)
        started.callback(self.stop)

    def text(self) -> str:
        return read(self.log)

    def wait_for(self, pattern: str, seconds: float) -> bool:
        """Whether the output comes to have this within so many seconds; a program that has ended writes no more."""
        until = time.monotonic() + seconds
        while True:
            is_over = self.process.poll() is not None
            if re.search(pattern, self.text(), re.M):
                return True
            if is_over or time.monotonic() > until:
                return False
            time.sleep(0.05)

    def ended(self, seconds: float) -> str:
        """All its output, once it has ended by itself within so many seconds, or is stopped then."""
        try:
            self.process.wait(seconds)
        except subprocess.TimeoutExpired:
            self.stop()
        return self.text()

    def stop(self) -> None:
        self.process.terminate()
        try:
            self.process.wait(30)
        except subprocess.TimeoutExpired:
            self.process.kill()
            self.process.wait()


class Cable:
    """A pair of interfaces, whose far end is in a namespace of its own; `far` is the words that run a program there."""

    NEAR, FAR = "live0", "live1"

    def __init__(self, folder: str) -> None:
        holder = Process(folder, "namespace", ["unshare", "-n", "sh", "-c", "echo $$; exec sleep infinity"])
        if not holder.wait_for("^[0-9]+$", 5):
            raise ends.Failed("a second network namespace can't be made")
        pid = holder.text().strip()
        self.far = ["nsenter", "-t", pid, "-n"]
        run("ip", "link", "add", "name", self.NEAR, "type", "veth", "peer", "name", self.FAR)
        started.callback(self.stop)
        run("ip", "link", "set", self.FAR, "netns", pid)
        run("ip", "link", "set", self.NEAR, "up")
        run(*self.far, "ip", "link", "set", self.FAR, "up")
        run(*self.far, "ip", "link", "set", "lo", "up")

    def stop(self) -> None:
        # (the pair goes at once so, and not when the kernel comes to the far namespace)
        subprocess.run(["ip", "link", "del", self.NEAR], stderr=subprocess.DEVNULL)


def answer(
    words: Sequence[str], environment: Optional[Mapping[str, str]] = None, given: str = "", seconds: Optional[float] = MOST_SECONDS
) -> Tuple[int, str]:
    """The status with which a command ends, and what it says; by no `seconds` it is waited for as long as it runs."""
    pipe, errors = subprocess.PIPE, subprocess.STDOUT
    done = subprocess.run(
        words, input=given, stdout=pipe, stderr=errors, text=True, errors="replace", env=environment, timeout=seconds
    )
    return done.returncode, done.stdout


def run(*words: str, given: str = "") -> None:
    status, text = answer(words, given=given)
    if status:
        raise ends.Failed(f"{' '.join(words)}: {text.strip()}")


def enter_namespace(script_words: Sequence[str]) -> Optional[str]:
    """Runs a script again in a network namespace of its own, where it isn't in one; says what stands against it."""
    if os.environ.get("LIVE_NAMESPACE") == os.readlink("/proc/self/ns/net"):
        run("ip", "link", "set", "lo", "up")
        return None
    missing = lacks("unshare", "ip", "timeout")
    if missing:
        return f"{', '.join(missing)} isn't installed"
    # (who isn't root, or isn't allowed to, is root in a user namespace)
    for enter in (["unshare", "-n"], ["unshare", "-rn"]):
        status, text = answer([*enter, "ip", "link", "set", "lo", "up"])
        if not status:
            break
    else:
        return f"no network namespace can be made: {text.strip()}"
    again = 'LIVE_NAMESPACE=$(readlink /proc/self/ns/net) && export LIVE_NAMESPACE && exec "$@"'
    sys.stdout.flush()
    os.execvp("unshare", [*enter, "sh", "-c", again, "sh", *script_words])


def script(name: str, *words: str) -> List[str]:
    """The words that run a script of this folder, by the Python that runs this one."""
    return [sys.executable, "-B", f"{HERE}/{name}", *words]


def table(name: str) -> Iterator[str]:
    """The lines of a text of this folder; in one, {NAME} stands for what a line `NAME = TEXT` above it has set."""
    texts: Dict[str, str] = {}
    for line in read(f"{HERE}/{name}").splitlines():
        line = re.sub(r"\{([a-z ]+)\}", lambda it: texts[it[1]], line)
        if found := re.fullmatch("([a-z ]+) = (.*)", line):
            texts[found[1]] = found[2]
        elif line and not line.startswith("#"):
            yield line


def read(path: str | Path) -> str:
    # (a log may have any octets)
    return Path(path).read_text("latin-1")


def write(folder: str, name: str, *lines: str) -> str:
    Path(folder, name).write_text("\n".join(lines) + "\n")
    return f"{folder}/{name}"


def need(process: Process, pattern: str) -> Process:
    """A program that says that it is ready."""
    if not process.wait_for(pattern, 30):
        raise ends.Failed(f"{process.name} doesn't begin: {' / '.join(process.text().strip().splitlines()[-3:])}")
    return process


def prepare() -> None:
    """hostapd and wpa_supplicant are where only root looks; and the scripts run in folders of their own."""
    os.environ["PATH"] = os.environ.get("PATH", os.defpath) + ":/usr/local/sbin:/usr/sbin:/sbin"
    os.environ["EAP_LOGIN"] = os.path.realpath(ends.program())
