"""The crates of crates.txt."""

from __future__ import annotations

import re
from pathlib import Path
from typing import Sequence

from lib.common import ROOT

# The crates, in the order of the file, each with those of them that it stands on.
Crates = dict[str, list[str]]
# Of each crate the seconds of its proof, its tests, its edits, and all of them.
GateTable = dict[str, tuple[int, ...]]
PARTS = ("src", "specs", "proofs")


def text_here() -> str:
    return (ROOT / "crates.txt").read_text()


def names_of(text: str) -> Crates:
    """The crates, each with all that its line names, those of the kit too."""
    lines = [line.split("#")[0].partition(":") for line in text.splitlines()]
    return {re.findall(r"\w+", name)[0]: below.split() for name, _, below in lines if name.strip()}


def files_of(crate: str, parts: Sequence[str] = PARTS) -> list[Path]:
    """The files of these parts of a crate, each part in order."""
    files = [it for part in parts for it in sorted((ROOT / "crates" / crate / part).rglob("*.*t*"))]
    return [it for it in files if it.suffix in (".rt", ".antt")]


def crates_of(text: str) -> Crates:
    named = names_of(text)
    return {name: [it for it in below if it in named] for name, below in named.items()}


def with_those_below(crate: str, depends: Crates) -> set[str]:
    return {crate}.union(*(with_those_below(it, depends) for it in depends[crate]))


def layers_of(text: str) -> dict[str, Crates]:
    """The crates under the heads of their layers, which are comments each behind an empty line."""
    layers: dict[str, Crates] = {}
    known = crates_of(text)
    for part in text.split("\n\n")[1:]:
        head, _, lines = part.partition("\n")
        layers[head.lstrip("# ")] = {name: known[name] for name in names_of(lines)}
    return layers


def gate_table() -> GateTable:
    """What bench/gate.txt has of each crate."""
    text = (ROOT / "bench/gate.txt").read_text()
    rows = re.findall(r"^(\w+)" + r" +(\d+)" * 4 + r"(?: +\*)? *$", text.partition("crate ")[2], re.M)
    return {name: tuple(map(int, seconds)) for name, *seconds in rows if name != "all"}
