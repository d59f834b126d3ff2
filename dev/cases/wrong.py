"""dev/wrong over a small repository, with a stand-in for the kit."""

from __future__ import annotations

import os
import shutil
import signal
import subprocess
import sys
import tempfile
import time
from contextlib import ExitStack
from pathlib import Path
from typing import Iterator, Optional
from unittest import mock

from cases.lib.parts import module_of
from cases.lib.small import Run, Small, holds, texts_of
from lib.common import ROOT

CODE, REST, TOP = "crates/small/src/lib.rt", "crates/small/specs/Rest.antt", "crates/top/src/lib.rt"
EDITS, OTHER = "wrong/small.edits", "wrong/top.edits"


def case_tries(run: Run) -> Iterator[Optional[str]]:
    """An edit counts as refused where a clause refused it, and rt came to its end over sources that stayed; a row is of the
    sources that it was tried on, and of what the crates below give; one that is stopped leaves nothing."""
    with tempfile.TemporaryDirectory() as folder, tempfile.TemporaryDirectory() as rooms, mock.patch.dict(os.environ), ExitStack() as changes:
        os.makedirs(f"{folder}/bin")
        for it in ("rt", "rattle"):
            shutil.copy(f"dev/cases/{it}", f"{folder}/bin/{it}")
        kit = Path(f"{folder}/bin/rtlib.py")
        kit.write_text(f"from unittest.mock import MagicMock\nRATTLE, Crate = '{folder}/bin/rattle', MagicMock()\n")
        changes.enter_context(mock.patch.object(module_of(ROOT / "dev/wrong").front_end, "rtlib", return_value=module_of(kit)))
        os.environ["PATH"] = f"{folder}/bin:{os.environ['PATH']}"
        texts = {**texts_of("dev/cases/small.texts"), OTHER: "edit: four__is_2\nfile: src/lib.rt\nold: double(2)\nnew: double(1)\n"}
        small = Small(f"{folder}/small", texts)

        def tells(wanted: int, words: str, line: str, **changes: str) -> Optional[str]:
            """With these words it ends with this status and writes this line."""
            with mock.patch.dict(os.environ, changes):
                status, out, errors = run(words.split(), root=small.root)
            return holds(status == wanted and line in (out + errors).splitlines(), f"{words} ends with {status}: {out}{errors}")

        yield tells(2, "wrong small", "wrong: this kit has no `rt ci NAME`, as that of README has: run `rt verdict` and `rt must-fail` in the crate's folder",
                    HELP="usage: rt new FOLDER")
        table = "wrong/refused.txt"
        yield holds((small.root / table).read_text() == small.texts[table], "wrong writes of what it can't try")
        yield tells(0, "wrong small", "dev/wrong: small: 1 of 1 refused")
        yield tells(1, "wrong status", "edits refused on today's sources: 1 passed, 1 failed")
        yield tells(0, "wrong", "wrong: 2 passed, 0 failed")
        yield tells(0, "wrong status", "edits refused on today's sources: 2 passed, 0 failed")
        yield tells(0, "wrong --stale", "wrong: 0 passed, 0 failed")
        small.turn(CODE, "", "// on a comment no refusal rests\n")
        yield tells(0, "wrong --stale", "wrong: 0 passed, 0 failed")
        for file, old, new, words in ((CODE, r"^    1$", "    2 - 1", "small"), (CODE, "n ≤ 5", "n ≤ 4", "small top"),
                                      (CODE, "pub fn one", "pub fn single", "small top"), (REST, r"n - by \*", "by *", "small top"),
                                      (REST, "", "abbrev pub above : ℕ\nabove = 2\n", "small"),
                                      (TOP, "", "ghost use Rattle.small.specs.Rest.{above};\n", "top"),
                                      (REST, "above = 2", "above = 3", "small top")):
            small.turn(file, old, new)
            stale = words.count(" ") + 1
            yield tells(1, "wrong status", f"edits refused on today's sources: {2 - stale} passed, {stale} failed")
            yield tells(0, "wrong --stale", f"wrong: {stale} passed, 0 failed")
        small.write(OTHER, small.texts[OTHER].replace("double(1)", "double(3)"))
        yield tells(1, "wrong status", "edits refused on today's sources: 1 passed, 1 failed")
        small.again()
        os.remove(small.root / OTHER)
        yield tells(1, "wrong", "dev/wrong: small/double__is_0.edit: it was not tried", STOPS="yes")
        yield tells(1, "wrong", "dev/wrong: small: a source changed meanwhile", CHANGES=str(small.root / CODE))
        kinds = ("also", "by_limit", "by_name", "is_bad", "is_proved", "is_untried", "is_whole")
        first = small.texts[EDITS]
        more = [first.replace("double__is_0", f"double__{kind}").replace("    n\n", f"    n // {kind}\n") for kind in kinds]
        one = "edit: one__is_1\nfile: src/lib.rt\nold:     1\nnew:     2 - 1\n"
        small.write(EDITS, "\n".join(sorted([first, one, *more])))
        yield tells(1, "wrong --jobs 3", "dev/wrong: small/one__is_1.edit: NOT REFUSED: the crate is still proved with this edit")
        yield tells(1, "wrong --jobs 3", "wrong: 3 passed, 6 failed")
        for it in ("dev/wrong", ".ci/front_end.py", "cases/settings", *(str(path) for folder in ("tools/lib", "dev/lib") for path in Path(folder).glob("*.py"))):
            small.write(it, Path(it).read_text())
        working = subprocess.Popen([sys.executable, "-B", small.root / "dev/wrong"], env={**os.environ, "TMPDIR": rooms, "SLEEPS": "yes"},
                                   stdin=subprocess.DEVNULL, stdout=subprocess.DEVNULL, stderr=subprocess.DEVNULL)
        while not list(Path(rooms).glob("*/0/src")) and working.poll() is None:
            time.sleep(0.05)
        working.send_signal(signal.SIGTERM)
        found = working.wait(), os.listdir(rooms)
        yield holds(found == (143, []), f"wrong leaves something where it is stopped: {found}")
