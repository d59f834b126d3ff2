"""Wrong lines that are drawn from a number, over the files of which wrong/scripts.lines has none (wrong/drawn.lines)."""

from __future__ import annotations

import ast
import os
import random
import re
import shutil
import tempfile
from fnmatch import fnmatch
from functools import lru_cache
from pathlib import Path
from typing import Callable, Iterator, NamedTuple, Optional

from lib import pages, wrong_lines
from lib.common import ROOT, said_by

LIST, COUNT = "wrong/drawn.lines", 20
# What users run is drawn more often.
OF_USERS = 3
# A form of a line, and what comes in its place.
TURNS = [(re.compile(old), new) for old, new in (
    (r" <= ", " < "), (r" < ", " <= "), (r" >= ", " > "), (r" > (?=\w)", " >= "), (r" == ", " != "), (r" != ", " == "),
    (r" and ", " or "), (r" or ", " and "), (r" && ", " || "), (r" \|\| ", " && "), (r" [+-] 1\b", ""), (r"\bif not ", "if "),
    (r"\bif \(!", "if ("), (r" is not None", " is None"), (r" not in ", " in "), (r" \+ ", " - "), (r"\bTrue\b", "False"),
    (r"\((\w+), (\w+)(?=[,)])", r"(\2, \1"), (r"\breturn (\w[^;]*)(?=;?$)", r"return not (\1)"), (r" -eq ", " -ne "),
    (r" -lt ", " -le "), (r"([\"'])(\w+)\1", r"\1\2s\1"), (r"\|= ", "= "), (r" & ", " | "))]
NUMBER = re.compile(r"(?<![\w.\"'])(\d{1,4})(?![\w.\"'])")
# A line that is a whole statement, by the ending of its file.
WHOLE = {".py": r" +(?!(?:return|raise|pass|import|from|break|def|class|if|for|while|with|else|elif|try|except|yield)\b)[\w.]+(?:\(.*\)| [+|^-]?= .*[^,(\[{\\])$",
         ".c": r"\t+[\w>*.()-]+(?:\(.*\)| [+|^-]?= .*);$", ".rs": r" +[\w.]+(?:\(.*\)| [+|^-]?= .*);$", ".sh": r" +(?!(?:done|fi|esac|then|else|do)\b)[\w.\"$-]+ [^|&;{(\\]*$"}
EARLY = {".py": "return", ".c": "", ".rs": "", ".sh": "return 0"}
COMMENT = re.compile(r"\s*(#|//|/\*|\* |\*/|import |from |use |$)")


class Drawn(NamedTuple):
    """A line of a file with another in its place, and the commands that ought to see it, the cheapest first."""

    file: str
    number: int
    old: str
    new: str
    seers: tuple[str, ...]

    @property
    def name(self) -> str:
        return f"{self.file}:{self.number}: {self.old.strip()} -> {self.new.strip() or 'nothing'}"


def kind_of(name: str, text: str) -> str:
    """The language of a file, by the ending of its name or its first line."""
    suffix = {".h": ".c"}.get(Path(name).suffix, Path(name).suffix)
    return suffix if suffix in WHOLE else ".py" if re.match(r"#!.*python", text) else ".sh" if text.startswith("#!") else ""


def read() -> tuple[dict[str, tuple[str, ...]], int]:
    """The files of the list that `git` knows and wrong/scripts.lines doesn't name, with their commands; and how many of the drawn
    lines may be unseen: `by COMMAND`, then patterns of files."""
    text = (ROOT / LIST).read_text()
    rows, seer = list[tuple[str, str]](), ""
    for line in text.splitlines():
        if line.startswith("by "):
            seer = line[3:]
        elif line and line[0] not in "#0123456789":
            rows += [(it, seer) for it in line.split()]
    named = {it.file for it in wrong_lines.read()}
    files = (it for it in said_by("git", "ls-files").splitlines() if it not in named and kind_of(it, first_line(it)))
    found = {it: tuple(seer for form, seer in rows if fnmatch(it, form)) for it in files}
    most = re.search(r"(?m)^(\d+) of ", text)
    return {it: seers for it, seers in found.items() if seers}, int(most[1]) if most else 0


def first_line(name: str) -> str:
    return (ROOT / name).read_text(errors="replace").partition("\n")[0] if (ROOT / name).is_file() else ""


def strings_in(text: str) -> set[int]:
    """The lines of Python within a string of several."""
    return {at for it in ast.walk(ast.parse(text)) if isinstance(it, ast.Constant) and isinstance(it.value, str)
            for at in range(it.lineno, (it.end_lineno or 0) + 1) if it.end_lineno != it.lineno or len(it.value) > 60}


def turned(line: str, kind: str) -> Iterator[str]:
    """What may stand in place of a line."""
    for form, new in TURNS:
        yield from (line[: it.start()] + it.expand(new) + line[it.end() :] for it in form.finditer(line))
    yield from (f"{line[: it.start()]}{int(it[1]) + 1}{line[it.end() :]}" for it in NUMBER.finditer(line))
    if re.match(WHOLE[kind], line):
        front = line[: len(line) - len(line.lstrip())]
        # (without a statement Python has nothing where a block was)
        yield front + "pass" if kind == ".py" else front + ":" if kind == ".sh" else ""
        if EARLY[kind]:
            yield front + EARLY[kind]


def turns_of(text: str, kind: str) -> Iterator[tuple[int, list[str]]]:
    """The lines of a text that can be turned, by their numbers, each with what may come there."""
    lines, strings = text.splitlines(), strings_in(text) if kind == ".py" else set[int]()
    for at, line in enumerate(lines, 1):
        if COMMENT.match(line) or at in strings or line.count("(") < line.count(")"):
            continue
        news = [it for it in dict.fromkeys(turned(line, kind)) if it != line]
        if news:
            yield at, news


def is_read(kind: str, lines: list[str], at: int, new: str) -> bool:
    """Whether these lines are Python, or another language, with another one at this place."""
    try:
        ast.parse("\n".join([*lines[: at - 1], new, *lines[at:]]) if kind == ".py" else "")
    except SyntaxError:
        return False
    return True


def drawn(seed: str, count: int) -> list[Drawn]:
    """So many wrong lines, none twice: the same for the same number and sources."""
    rng, files = random.Random(seed), read()[0]
    places = [(name, at) for name in files for at in range(1, 1 + len((ROOT / name).read_text().splitlines()))]
    weights = [1 if name.startswith("dev/") else OF_USERS for name, _ in places]
    turns = lru_cache(maxsize=None)(lambda name: dict(turns_of((ROOT / name).read_text(), kind_of(name, first_line(name)))))
    found: dict[tuple[str, int], Drawn] = {}
    while len(found) < count:
        name, at = rng.choices(places, weights)[0]
        lines, kind = (ROOT / name).read_text().splitlines(), kind_of(name, first_line(name))
        new = rng.choice(turns(name).get(at) or [""])
        if at in turns(name) and (name, at) not in found and is_read(kind, lines, at, new):
            found[name, at] = Drawn(name, at, lines[at - 1], new, files[name])
    return list(found.values())


def failure_of(seer: str, folder: Path) -> Optional[str]:
    """The first line of what a command says where it fails; None where it passes; behind OVER what it lacks here."""
    (folder / "out/tmp").mkdir(parents=True, exist_ok=True)
    status, output, errors = pages.run(f"unset CLAIMS; TMPDIR=$PWD/out/tmp {seer}", str(folder), wrong_lines.SECONDS)
    last = output.strip().rpartition("\n")[2]
    lines = [it for it in (errors + "\n" + output).splitlines() if it.strip()]
    # (of what Python says where it ends by an exception the last line tells why)
    trace = next((at for at, it in enumerate(lines) if it.startswith("Traceback")), None)
    why = next((it for it in lines[trace:] if re.match(r"\w+(\.\w+)*(Error|Refused|Exception)\b", it)), "") if trace is not None else ""
    if not status:
        return last if wrong_lines.OVER in last else None
    return (why or lines[0] if lines else f"status {status}")[:160]


def try_all(lines: list[Drawn], say: Callable[[str], None]) -> tuple[int, int, int]:
    """How many lines were seen, how many weren't, and how many no command here can try; of each is said which."""
    seen = unseen = 0
    with tempfile.TemporaryDirectory(prefix="drawn-") as room:
        folder = Path(room)
        wrong_lines.copy_to(folder)
        os.environ["EAP_LOGIN"] = wrong_lines.program()
        alone = lru_cache(maxsize=None)(lambda seer: failure_of(seer, folder))
        for it in lines:
            able = [seer for seer in it.seers if alone(seer) is None]
            if not able:
                say(f"not run: {it.name}: {it.seers[0]}: {alone(it.seers[0])}")
                continue
            file = folder / it.file
            whole, mode = file.read_text(), file.stat().st_mode
            file.write_text("".join(f"{it.new if at == it.number else line}\n" for at, line in enumerate(whole.splitlines(), 1)))
            by = next((f"{seer}: {said}" for seer in able if (said := failure_of(seer, folder)) is not None), "")
            file.write_text(whole)
            file.chmod(mode)
            shutil.rmtree(folder / "out/tmp", ignore_errors=True)
            say(f"seen: {it.name}: by {by}" if by else f"unseen: {it.name}: by {', '.join(able)}")
            seen, unseen = seen + bool(by), unseen + (not by)
    return seen, unseen, len(lines) - seen - unseen
