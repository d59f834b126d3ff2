"""The pages: their prose and blocks, their links, the files, numbers and commands that they name."""

import functools
import os
import re
import signal
import subprocess
import tempfile
from pathlib import Path
from typing import Dict, Iterator, List, Optional, Set, Tuple

from lib import edits
from lib.cases import first_lost, read
from lib.common import ROOT, this_python
from lib.crates import files_of

SECONDS = 300

ENDS = ("rt", "antt", "md", "py", "sh", "c", "h", "awk", "edit", "edits", "txt", "svg", "hex", "cases", "commands",
        "capture", "scenario", "trace", "findings", "replies", "settings", "1")

# What dev/make-docs writes into a page.
MADE = re.compile(r"(?ms)^<!-- made: .*?^<!-- end of made -->")

# Names in code, with commas between them.
RUN = r"`[^`]*`(?:, `[^`]*`)*"

# The end of a sentence or of a cell. (`..` stands for words left out)
END = re.compile(r"(?<=[^.][.!?])[)*\"]*\s+(?=[A-Z0-9`*\[(\"])|(?<!\\)\|")

# How a source defines a name, by its ending.
DEFINES = {".antt": r"(?m)^ *(?:(?:pub|abbrev|unfoldable|opaque|record|data) +)*NAME(?= *(?:[:({\[]|$))",
           ".rt": r"\b(?:fn|struct|enum|trait|type|const|static|ensures) NAME\b"}

Lines = List[Tuple[int, str]]
Block = Tuple[int, str, List[str]]


class Tally:
    """What holds and what doesn't."""

    def __init__(self) -> None:
        self.passed = 0
        self.faults: List[str] = []

    def holds(self, fact: object, fault: str) -> bool:
        self.passed += bool(fact)
        self.faults += [] if fact else [fault]
        return bool(fact)


def parts_in(text: str) -> Tuple[Lines, List[Block]]:
    """The prose of a page, with its fenced blocks as empty lines, and these blocks: their line, their kind, their
    lines."""
    prose: Lines = []
    blocks: List[Block] = []
    block: Optional[Block] = None
    for number, line in enumerate(text.splitlines(), 1):
        if block is None and line.startswith("```"):
            block = (number, line[3:].strip(), [])
        elif block and line.startswith("```"):
            blocks.append(block)
            block = None
        elif block:
            block[2].append(line)
        else:
            prose.append((number, line))
            continue
        prose.append((number, ""))
    return prose, blocks


def sentences_in(text: str) -> Iterator[Tuple[int, str]]:
    """The sentences of a page, with their lines: a line is a paragraph, an item of a list or a row of a table."""
    for number, line in parts_in(text)[0]:
        yield from ((number, it.strip()) for it in END.split(line) if it.strip() and not line.startswith("#"))


def anchors_of(page: Path) -> Set[str]:
    """The names by which a browser finds the headings."""
    heads = [line.lstrip("#").strip().lower() for _, line in parts_in(page.read_text())[0] if line.startswith("#")]
    return {re.sub(r"[^\w\- ]", "", it).replace(" ", "-") for it in heads}


@functools.lru_cache(maxsize=None)
def lines_named(file: Path) -> Set[str]:
    """The names by which a browser finds the lines of a source."""
    return {f"L{number}" for number in range(1, file.read_text().count("\n") + 1)}


# Links and names of files.


def check_links(check: Tally, page: Path, prose: Lines) -> None:
    for number, line in prose:
        for target in re.findall(r"\]\(([^)\s]+)\)", line) + re.findall(r'<img src="([^"]+)"', line):
            path, _, anchor = target.partition("#")
            if re.match(r"\w+:", target):
                continue
            to = (page.parent / path).resolve() if path else page
            fault = f"{page.relative_to(ROOT)}:{number}: the link {target} leads nowhere"
            if check.holds(to.exists(), fault) and anchor:
                check.holds(anchor in (anchors_of(to) if to.suffix == ".md" else lines_named(to)), fault)


def check_definitions(check: Tally, page: Path, prose: Lines) -> None:
    """A link from one name in code to a source leads to where that name is defined."""
    for number, line in prose:
        for name, path in re.findall(r"\[`([\w:]+)`\]\(([^)\s#]+)", line):
            source = (page.parent / path).resolve()
            if source.suffix in DEFINES and source.exists():
                form = DEFINES[source.suffix].replace("NAME", name.rpartition(":")[2])
                check.holds(re.search(form, source.read_text()), f"{page.relative_to(ROOT)}:{number}: {path} defines no {name}")


class Tree:
    """What stands in the repository: at its top, and a line for each file and folder."""

    def __init__(self) -> None:
        self.tops = {it.name for it in ROOT.iterdir() if it.name != "out"}
        files = (it for top in sorted(self.tops - {".git"}) for it in (ROOT / top, *(ROOT / top).rglob("*")))
        self.kept = "\n".join(it.relative_to(ROOT).as_posix() for it in files)

    @functools.lru_cache(maxsize=None)
    def has(self, folder: Path, name: str) -> bool:
        """Whether a file or folder of this name stands there, by the top, the page's folder or a crate, or somewhere."""
        name = name.removeprefix("./").rstrip("/")
        form = re.escape(name).replace(r"\*", "[^/]*")
        if "/" not in name:
            return re.search(rf"^(?:.*/)?{form}$", self.kept, re.M) is not None
        front = "" if folder == ROOT else f"{folder.relative_to(ROOT).as_posix()}/"
        places = rf"(?:{re.escape(front)}|crates/(?:[^/\n]*/(?:proofs/)?)?)?"
        return re.search(rf"^{places}{form}(?:\.antt)?$", self.kept, re.M) is not None

    def is_meant(self, word: str) -> bool:
        """Whether a word in code names a file: one with an ending of ours, or one below a folder that stands at the top."""
        is_below = "/" in word and word.removeprefix("./").partition("/")[0] in self.tops
        is_file = re.fullmatch(r"[\w./*-]+", word) and (is_below or re.fullmatch(rf"[\w/*-]+\.({'|'.join(ENDS)})", word))
        # (capitals stand for a name; what is built stands in out/)
        has_capitals = re.search(r"(^|[/_.-])[A-Z]+([/_.-]|$)", word.replace("README.md", ""))
        return bool(is_file) and "/out/" not in f"{word}/" and not has_capitals or word == "README.md"


def check_names(check: Tally, tree: Tree, page: Path, prose: Lines) -> None:
    for number, line in prose:
        for word in [it.strip("(),;<>") for code in re.findall(r"`([^`]+)`", line) for it in code.split()]:
            if tree.is_meant(word):
                check.holds(tree.has(page.parent, word), f"{page.relative_to(ROOT)}:{number}: there is no file {word}")


# Numbers.


def lines_of(part: str, crates: List[str]) -> int:
    return sum(len(it.read_text().splitlines()) for crate in crates for it in files_of(crate, (part,)))


def counted(crates: List[str]) -> Dict[str, List[int]]:
    """What docs/ASSURANCE.md and README.md count, by the first cell of the row."""
    tests = [it for it in crates if it.endswith("_tests")]
    others = [it for it in crates if it not in tests]
    # (how many edits wrong/refused.txt says were refused)
    refused = [int(it.split()[3]) for it in (ROOT / "wrong/refused.txt").read_text().splitlines() if it and it[0] != "#"]
    has_test = re.compile(r"^#\[test\]", re.M)
    outputs = (".trace", ".names", ".findings", ".replies", ".out", ".peer-told", ".server-told")
    return {
        "crates proved": [len(others)],
        "wrong bodies in the gate": [len(list(ROOT.glob("crates/*/must-fail/*.edit")))],
        "wrong bodies in `wrong/`": [sum(len(list(edits.pieces(it.read_text()))) for it in ROOT.glob("wrong/*.edits"))],
        "of all these refused, as `wrong/refused.txt` has it": [sum(refused)],
        "cases of texts": [sum(len(read(it)) for it in (ROOT / "cases").glob("*.cases"))],
        "tests in code": [sum(len(has_test.findall(it.read_text())) for it in ROOT.glob("crates/*/src/**/*.rt"))],
        "stored outputs in `examples/`": [len([it for it in ROOT.glob("examples/*") if it.name.endswith(outputs)])],
        "Lines of code, of definitions, of proofs, of tests": [
            *(lines_of(it, others) for it in ("src", "specs", "proofs")), lines_of("src", tests)],
        "Crates": [len(others), len(tests)],
    }


def check_counts(check: Tally, crates: List[str]) -> None:
    """Numbers that pages tell are those that are counted; those of lines are rounded, and within a hundredth."""
    counts = counted(crates)
    told = set()
    for page in (ROOT / "README.md", ROOT / "docs/ASSURANCE.md"):
        for number, line in parts_in(page.read_text())[0]:
            label, *cells = (it.strip() for it in line.strip().strip("|").split(" | "))
            if line.startswith("|") and label in counts:
                told.add(label)
                said = [int(it.replace(",", "")) for it in re.findall(r"\d[\d,]*", cells[0])]
                room, wanted = 0.01 if label.startswith("Lines") else 0, counts[label]
                is_told = len(said) == len(wanted) and all(abs(one - it) <= room * it for one, it in zip(said, wanted))
                check.holds(is_told, f"{page.relative_to(ROOT)}:{number}: {label}: {', '.join(map(str, wanted))} are counted")
    for label in counts:
        check.holds(label in told, f"{label}: no page says how many there are")
    # (what a login costs is measured)
    measured = (ROOT / "bench/README.md").read_text().replace(",", "")
    costs = next(line for line in (ROOT / "README.md").read_text().splitlines() if "in instructions |" in line)
    for cost in re.findall(r"\d+,\d{3}", costs):
        check.holds(cost.replace(",", "") in measured, f"README.md: bench/README.md doesn't have {cost}")


# Commands.


def whole_commands(lines: List[str]) -> Iterator[Tuple[str, str]]:
    """The commands of a block with their comments; one that ends with a backslash goes on in the next line."""
    for line in re.sub(r"\\\n\s*", "", "\n".join(lines)).splitlines():
        command, _, comment = line.partition(" #") if not line.startswith("#") else ("", "", line)
        if command.strip():
            yield command.strip(), comment.strip()


def commands_of_tables(prose: Lines) -> Iterator[Block]:
    """What stands in code in a column `You run`, each as a block."""
    at = None
    for number, line in prose:
        cells = line.split(" | ")
        if "You run" in cells:
            at = cells.index("You run")
        elif not line.startswith("|"):
            at = None
        elif at is not None:
            yield from ((number, "sh", [it]) for it in re.findall("`([^`]*)`", "".join(cells[at : at + 1])))


def run(command: str, folder: str, seconds: int = SECONDS) -> Tuple[object, str, str]:
    """What a command ends with, its output and its errors; one that takes too long is ended with all that it started."""
    names = {**os.environ, "CLAIMS": "run"}
    with subprocess.Popen(["sh", "-c", command], cwd=folder, env=names, stdin=subprocess.DEVNULL, stdout=subprocess.PIPE,
                          stderr=subprocess.PIPE, text=True, start_new_session=True) as process:
        try:
            output, error = process.communicate(timeout=seconds)
        except subprocess.TimeoutExpired:
            os.killpg(process.pid, signal.SIGKILL)
            return "no status in time", "", ""
    return process.returncode, output, error


def said_by(check: Tally, folder: str, place: str, lines: List[str], kept: Set[str]) -> Optional[List[str]]:
    """What the commands of a block write, line by line; None where none of them is run."""
    said = None
    for command, comment in whole_commands(lines):
        if command in kept:
            continue
        status = re.search(r"\bstatus (\d)", comment)
        ended, output, error = run(command, folder)
        said = (said or []) + output.splitlines()
        check.holds(ended == (int(status[1]) if status else 0), f"{place}: `{command}` ends with {ended}: {error[-200:]}")
    return said


def check_blocks(check: Tally, tree: Tree, page: Path, blocks: List[Block], kept: Set[str]) -> None:
    """Runs the commands of a page in a folder of their own, in their order."""
    name = page.relative_to(ROOT)
    if all(command in kept for _, kind, lines in blocks if kind == "sh" for command, _ in whole_commands(lines)):
        return
    with tempfile.TemporaryDirectory() as folder:
        for top in tree.tops:
            os.symlink(ROOT / top, Path(folder) / top)
        last: Block = (0, "", [])
        for (number, kind, lines), (text_number, next_kind, text) in zip(blocks, [*blocks[1:], last]):
            said = said_by(check, folder, f"{name}:{number}", lines, kept) if kind == "sh" else None
            if said is not None and next_kind == "text":
                lost = first_lost(text, said)
                check.holds(lost is None, f"{name}:{text_number}: the commands before don't write: {lost}")


def check_commands(check: Tally, tree: Tree, blocks: Dict[Path, List[Block]]) -> None:
    # (each is indented below its reason)
    file = ROOT / "docs/claims.commands"
    kept = {line.strip() for line in file.read_text().splitlines() if line.startswith(" ")} if file.exists() else set()
    with this_python():
        for page, found in blocks.items():
            check_blocks(check, tree, page, found, kept)
    shells = [lines for found in blocks.values() for _, kind, lines in found if kind == "sh"]
    told = {command for lines in shells for command, _ in whole_commands(lines)}
    for command in sorted(kept - told):
        check.faults.append(f"claims.commands: no page has the command {command}")


def check_pages(check: Tally, with_commands: bool) -> None:
    """Looks at the links, names and commands of all pages."""
    blocks, tree = {}, Tree()
    for page in sorted(file for it in ("*.md", "docs/*.md", "*/README.md", "*/*/README.md") for file in ROOT.glob(it)):
        prose, blocks[page] = parts_in(page.read_text())
        blocks[page] += commands_of_tables(prose)
        check_links(check, page, prose)
        check_definitions(check, page, prose)
        check_names(check, tree, page, prose)
    if with_commands:
        check_commands(check, tree, blocks)
