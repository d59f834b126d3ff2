"""A small repository, over which a tool runs as if it stood there."""

from __future__ import annotations

import re
import subprocess
from pathlib import Path
from typing import Callable, Optional

Run = Callable[..., tuple[int, str, str]]


def holds(is_so: object, otherwise: str) -> Optional[str]:
    return None if is_so else otherwise


def texts_of(names: str) -> dict[str, str]:
    """The texts of these files by their places, each behind a line `==== PLACE`."""
    return {place: text for name in names.split()
            for place, text in re.findall(r"^==== (.*)\n((?:(?!==== ).*\n)*)", Path(name).read_text(), re.M)}


class Small:
    """A repository of these texts, by their places, in a folder that is there for it alone, with a commit of all."""

    def __init__(self, folder: str, texts: dict[str, str]) -> None:
        self.root, self.texts = Path(folder), texts
        self.changed = set(texts)
        self.again()
        git = ("git", "-C", folder, "-c", "user.name=small", "-c", "user.email=small@example.org")
        for words in (("init", "-q"), ("add", "."), ("commit", "-q", "-m", "Begin")):
            subprocess.run([*git, *words], check=True)

    def again(self) -> None:
        """Puts back what was changed since it was whole."""
        for name in sorted(self.changed):
            if name in self.texts:
                self.write(name, self.texts[name])
            else:
                (self.root / name).unlink()
        self.changed = set()

    def write(self, name: str, text: str) -> None:
        file = self.root / name
        file.parent.mkdir(parents=True, exist_ok=True)
        file.write_text(text)
        self.changed.add(name)

    def turn(self, name: str, old: str, new: str) -> None:
        """Sets something else in place of the first text of this form, or behind all of the file where no form is given."""
        file = self.root / name
        was = file.read_text() if file.exists() else ""
        text = re.sub(old, lambda _: new, was, count=1, flags=re.M) if old else was + new
        if text == was:
            raise ValueError(f"{name} doesn't have {old}")
        self.write(name, text)
