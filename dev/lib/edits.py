"""Wrong bodies, as edits of a crate's files: those of wrong/CRATE.edits, and the one of a crate's must-fail/."""

from __future__ import annotations

import re
from pathlib import Path
from typing import Iterator, NamedTuple, Optional

from lib.common import ROOT
from lib.crates import Crates

HEAD = re.compile(r"^edit: (.*)$", re.M)


class Edit(NamedTuple):
    """An edit of a crate: FUNCTION__what, its lines `file:`, `old:` and `new:`, and the file that it stands in."""

    crate: str
    name: str
    text: str
    place: str

    @property
    def file(self) -> str:
        """The name of its file in must-fail/, by which `rt ci` tries it."""
        return f"{self.name}.edit"

    def texts(self, top: Path) -> tuple[dict[str, str], Optional[str]]:
        """The texts of the crate's files there that it changes, by their paths, and what is wrong with its own text, or None."""
        path, old = "", None
        texts: dict[str, str] = {}
        for line in self.text.splitlines():
            word, rest = found.groups() if (found := re.fullmatch("(file|old|new): (.*)", line)) else ("", "")
            if word == "file" and old is None:
                path = rest
                if not path.startswith(("src/", "specs/")) or not (top / path).is_file():
                    return {}, f"{path} is no file of the crate's src/ or specs/"
                texts.setdefault(path, (top / path).read_text())
            elif word == "old" and path and old is None:
                old = rest
            elif word == "new" and old is not None:
                if (times := texts[path].count(old)) != 1:
                    return {}, f"{path} has this text {times} times: {old}"
                texts[path], old = texts[path].replace(old, rest), None
            else:
                return {}, f"this line isn't of the form: {line}"
        if old is not None:
            return {}, "its last old: text has no new: text"
        return texts, "it changes nothing" if all(text == (top / it).read_text() for it, text in texts.items()) else None


def pieces(text: str) -> Iterator[tuple[str, str]]:
    """The names of the edits of a file of wrong/, each with its lines."""
    _, *rest = HEAD.split(text)
    yield from ((name, lines.strip("\n") + "\n") for name, lines in zip(rest[::2], rest[1::2]))


def of_gate(crate: str) -> list[Edit]:
    files = sorted((ROOT / "crates" / crate / "must-fail").glob("*.edit"))
    return [Edit(crate, it.stem, it.read_text(), str(it.relative_to(ROOT))) for it in files]


def of_crate(crate: str) -> list[Edit]:
    """The edits of wrong/CRATE.edits, as they stand there."""
    file = ROOT / "wrong" / f"{crate}.edits"
    return [Edit(crate, name, text, str(file.relative_to(ROOT))) for name, text in pieces(file.read_text())] if file.is_file() else []


def of(crate: str, whole: bool) -> list[Edit]:
    """The edits of a crate in wrong/, and where the whole is asked for that of its must-fail/ too."""
    return of_crate(crate) + of_gate(crate) * whole


def faults(depends: Crates) -> Iterator[str]:
    """What is wrong with the files of wrong/ and must-fail/, and with each edit's text."""
    for file in sorted(ROOT.glob("crates/*/must-fail/**/*")):
        if file.is_file() and file.suffix != ".edit":
            yield f"{file.relative_to(ROOT)}: it is no edit"
    for file in sorted(ROOT.glob("wrong/**/*.edit*")):
        place = file.relative_to(ROOT)
        if file.parent != ROOT / "wrong" or file.suffix != ".edits" or file.stem not in depends:
            yield f"{place}: it has no edits of a crate"
        elif HEAD.split(text := file.read_text())[0]:
            yield f"{place}: it doesn't begin with an edit"
        elif text != written(list(pieces(text))):
            yield f"{place}: its edits aren't in the order of their names, each once, with an empty line between two"
    for crate in depends:
        gate = of_gate(crate)
        for it in of_crate(crate) + gate:
            if fault := fault_of(it, {one.name for one in gate}):
                yield f"{it.place}: {it.name}: {fault}"


def written(edits: list[tuple[str, str]]) -> str:
    """The text of a file of wrong/ with these edits."""
    return "\n".join(f"edit: {name}\n{text}" for name, text in sorted(dict(edits).items()))


def fault_of(edit: Edit, gate: set[str]) -> Optional[str]:
    """Says what is wrong with an edit, or None."""
    if edit.place.startswith("wrong/") and edit.name in gate:
        return "an edit of this name stands in must-fail/ too"
    if not re.fullmatch(r"[a-z0-9_]+__[a-z0-9_]+", edit.name):
        return "its name isn't FUNCTION__what"
    return edit.texts(ROOT / "crates" / edit.crate)[1]
