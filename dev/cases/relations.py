"""dev/relations over a program that writes nothing."""

from __future__ import annotations

import os
import re
import sys
from typing import Iterator, Optional
from unittest import mock

from cases.lib.small import Run, holds


def case_writes_nothing(run: Run) -> Iterator[Optional[str]]:
    """No relation holds of it; those that need Python's cryptography are passed over where it isn't installed, and that is said."""
    with mock.patch.dict(os.environ, EAP_LOGIN="true"):
        for modules, said in (({}, ""), ({"cryptography": None}, "cryptography computes is passed over")):
            with mock.patch.dict(sys.modules, modules):
                status, out, errors = run(["relations", "1", "1"])
            last = out.splitlines()[-1]
            yield holds(status == 1 and re.fullmatch(r"relations: 0 passed, [1-9]\d* failed", last) and said in errors, f"{status}: {last} {errors}")
