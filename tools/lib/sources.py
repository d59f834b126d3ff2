"""The definitions, types and contracts of the crates: where each stands, which others it names, and what it promises."""

import difflib
import functools
import itertools
import re
from dataclasses import dataclass, field
from pathlib import Path
from typing import Any, Callable, Dict, Iterable, Iterator, List, NamedTuple, Optional, Set, Tuple, TypeVar

from lib import rattle
from lib.common import ROOT, Refused, grouped
from lib.crates import crates_of, files_of, text_here

NAME = r"[A-Za-z_][\w']*"
# (within a module a definition is indented; so are the fields of a record, which have no other word than pub)
HEADER = re.compile(r"(?!pub mod )(?=\S| *(?:pub )?(?:abbrev|unfoldable|opaque|record|data) ) *"
                    r"(?:(?:abbrev|unfoldable|opaque|pub|record|data)\s+)+([^\s:({]+)|module ")
USE = re.compile(rf"^ *(?:pub )?(?:ghost )?use ([\w:.]+?)(?:(?:\.|::)\{{(.*?)\}})?(?: as ({NAME}))?;?\n", re.M | re.S)
# What one reads of a crate, in this order.
PARTS = ("specs", "src")
Node = TypeVar("Node")


class Clause(NamedTuple):
    """A clause of a contract: `requires` or `ensures`, its name or nothing, its text, and the lines where it stands."""

    kind: str
    name: str
    text: str
    lines: range


@dataclass(eq=False)
class Item:
    """A definition, a type, a contract or the head of a block: its crate, file and name, its lines, its text, and what
    is said of it.

    `part` is the comment that stands by itself above it and others. `inner` has the constructors of a type, `inside`
    the module or the block around it, which has no name. `of_trait` is the trait that it is written for."""

    crate: str
    file: str
    name: str
    lines: Set[int]
    text: str
    comment: str
    part: str = ""
    inner: List[str] = field(default_factory=list)
    inside: Optional["Item"] = None
    of_trait: Optional[str] = None

    @functools.cached_property
    def tokens(self) -> Set[str]:
        return set(re.findall(NAME, self.text)) | set(re.split(r"[\s(),]+", self.text))

    @property
    def place(self) -> str:
        return f"{self.crate}::{self.name}"

    @functools.cached_property
    def key(self) -> str:
        """Where it stands: its crate, its file, its name."""
        path = self.file.rpartition(".")[0].split("/")[3:]
        return "::".join([self.crate, *path, *filter(None, [self.name])])

    @property
    def line(self) -> int:
        return min(self.lines)


@dataclass(eq=False)
class Call(Item):
    """A function with its contract. `owner` is the type or trait that it belongs to, `meets` the own function of the trait
    that it is written for. A law is open and has an empty body. `code` is all its text."""

    at: int = 0
    owner: Optional[str] = None
    meets: Optional["Call"] = None
    is_open: bool = False
    is_for_c: bool = False
    is_empty: bool = False
    front: str = ""
    clauses: List[Clause] = field(default_factory=list)
    code: str = ""

    @property
    def is_law(self) -> bool:
        return self.is_open and self.is_empty and not self.owner and bool(self.clauses)

    @property
    def contract(self) -> "Call":
        """The call whose clauses it keeps: those of the trait that it is written for, where it has none of its own."""
        has_own = any(it.kind == "ensures" for it in self.clauses)
        return self if has_own or not self.meets else self.meets

    def with_clauses(self, names: List[str]) -> "Item":
        """Its contract with no more than these of its promises, beside what it asks first."""
        kept = [it for it in self.clauses if it.kind == "requires" or it.name in names]
        # (beside theirs, those of its name and its parameters)
        first = min([line for it in self.clauses for line in it.lines], default=max(self.lines) + 1)
        lines = {self.at, *range(self.at, first)}.union(*(it.lines for it in kept))
        return Item(self.crate, self.file, self.name, lines, "\n".join([self.front, *(it.text for it in kept)]), "",
                    inside=self.inside)


class Source:
    """A file: its crate, its lines, its items, and where other names come from."""

    def __init__(self, file: str, text: str):
        self.file, self.text = file, text
        self.crate = file.split("/")[1]
        self.lines = text.splitlines()
        self.is_rust = file.endswith(".rt")
        self.mark = "//" if self.is_rust else "--"
        self.items: List[Item] = list(self.rust_items() if self.is_rust else self.definitions())

    @property
    def heading(self) -> str:
        """The comment at the top of the file."""
        top = itertools.takewhile(lambda line: line.startswith(self.mark), self.lines)
        return " ".join(line.lstrip("/-! ") for line in top)

    def front(self, at: int) -> int:
        """The first of the lines of comments and attributes right above this one."""
        above = (self.mark, "#[", "infix")
        # (the heading of a file of specs is none of them)
        while at > (0 if self.is_rust else 1) and self.lines[at - 1].lstrip().startswith(above):
            at -= 1
        return at

    def said(self, lines: Iterable[str]) -> str:
        """What the comments of these lines say."""
        return " ".join(line.split(self.mark, 1)[1].lstrip("/! ") for line in lines if self.mark in line)

    def bare(self, lines: Iterable[str]) -> str:
        """These lines without their comments."""
        return "\n".join(line.split(self.mark, 1)[0] for line in lines)

    def item(self, name: str, lines: Set[int], **more: Any) -> Item:
        """An item of these lines."""
        own = [self.lines[it - 1] for it in sorted(lines)]
        text = rattle.without_tactics(self.bare(own)) if self.is_rust else self.bare(own)
        return Item(self.crate, self.file, name, lines, text, self.said(own), **more)

    # Definitions.

    def definitions(self) -> Iterator[Item]:
        """The definitions of a file of specs."""
        heads = [(at, found[1] or "") for at, line in enumerate(self.lines) for found in [HEADER.match(line)] if found]
        ends = [self.front(at) for at, _ in heads[1:]] + [len(self.lines)]
        module: Optional[Item] = None
        part, last = "", 0
        for (at, name), end in zip(heads, ends):
            # (what is blank or a comment at its end isn't its own)
            while end > at + 1 and (not self.lines[end - 1].strip() or self.lines[end - 1].lstrip().startswith(self.mark)):
                end -= 1
            inner = []
            if re.search(r"\bdata\b", self.lines[at]):
                inner = [it[1] for line in self.lines[at:end] if (it := re.match(rf" +({NAME}) :", line))]
            item = self.item(name, set(range(self.front(at) + 1, end + 1)), inner=inner)
            item.inside = module if self.lines[at].startswith(" ") else None
            module = item.inside or (item if not name else None)
            if last:
                part = self.said(self.lines[last : item.line - 1]) or part
            item.part, last = part, max(item.lines)
            yield item

    # Types and contracts.

    def line_of(self, place: int) -> int:
        return self.text.count("\n", 0, place) + 1

    def rust_items(self) -> Iterator[Item]:
        """The types, constants and contracts of a file of sources, and of each type the model that it is."""
        blank = rattle.blanked(self.text)
        blocks = rattle.blocks_in(blank)
        functions = list(rattle.functions_in(blank, blocks))
        closed = {it.owner for it in blocks if it.of_trait == "Model"}
        for name, begin, end in rattle.types_in(blank):
            # (one that has a model is closed, and a reader sees no field of it)
            yield self.item(name, self.lines_at(begin, begin + 1 if name in closed else end))
        heads: Dict[Optional[rattle.Block], Item] = {
            block: self.head_of(blank, block, [it for it in functions if it.block == block]) for block in blocks}
        yield from heads.values()
        yield from (self.call(it, heads.get(it.block)) for it in functions)

    def lines_at(self, begin: int, end: int) -> Set[int]:
        """The lines of what stands here, comments and attributes above it among them."""
        return set(range(self.front(self.line_of(begin) - 1) + 1, self.line_of(end - 1) + 1))

    def head_of(self, blank: str, block: rattle.Block, functions: List[rattle.Function]) -> Item:
        """A block without its functions: of a trait what its objects show, of a type the values of its model, or what it
        shows to a trait."""
        others = [(it.begin, it.end) for it in functions]
        others += [(begin, end) for name, begin, end in rattle.members_in(blank, block)
                   if name == "use" or block.of_trait == "Model" and name != "Value"]
        lines = self.lines_at(block.begin, block.end).difference(*(self.lines_at(*it) for it in others))
        is_named = block.is_trait or block.of_trait == "Model"
        return self.item(block.owner if is_named else "", {it for it in lines if self.lines[it - 1].strip() not in ("", "}")},
                         of_trait=block.of_trait)

    def call(self, it: rattle.Function, block: Optional[Item]) -> Call:
        lines, at = self.lines_at(it.begin, it.contract_end), self.line_of(it.begin)
        end = it.clauses[0].begin if it.clauses else it.contract_end
        owner = it.block.owner if it.block else None
        name = f"{owner}::{it.name}" if owner else it.name
        text, front = (self.bare(self.text[it.begin : to].splitlines()) for to in (it.contract_end, end))
        return Call(self.crate, self.file, name, lines, text, self.said(self.lines[min(lines) - 1 : at - 1]), inside=block, at=at,
                    owner=owner, of_trait=it.block.of_trait if it.block else None, is_open=it.is_pub, is_for_c=it.is_for_c,
                    is_empty=it.is_empty, front=front, clauses=[self.clause(one) for one in it.clauses],
                    code=self.text[it.begin : it.end])

    def clause(self, it: rattle.Clause) -> Clause:
        text = " ".join(self.bare(self.text[it.begin : it.end].splitlines()).split())
        return Clause(it.kind, it.name, text, range(self.line_of(it.begin), self.line_of(it.end - 1) + 1))

    @functools.cached_property
    def imports(self) -> Dict[str, List[Tuple[str, Optional[str]]]]:
        """Names and where they come from: the module, with the name there; None for all of a module."""
        found: Dict[str, List[Tuple[str, Optional[str]]]] = {}
        for module, names, alias in USE.findall(self.text):
            module = module.replace("::", ".")
            if alias:
                found.setdefault(alias, []).append((module, None))
            elif names:
                for name in filter(None, re.split(r",\s*", names.strip())):
                    there, _, here = name.split("::")[-1].partition(" as ")
                    found.setdefault(here or there, []).append((module, there))
            else:
                front, _, last = module.rpartition(".")
                found.setdefault(last, []).append((front, last))
        return found


# (a file with the same text is taken apart once)
source_of = functools.lru_cache(maxsize=None)(Source)


class Repository:
    """All crates, lowest first, with what is defined in each."""

    def __init__(self, texts: Optional[Dict[str, str]] = None) -> None:
        """The crates as they stand here, or with these texts by their places."""
        self.below = crates_of(texts["crates.txt"] if texts else text_here())
        self.crates = list(self.below)
        paths = [it for crate in self.crates for it in files_of(crate, PARTS)] if texts is None else []
        here = texts or {it.relative_to(ROOT).as_posix(): it.read_text() for it in paths}
        fronts = [f"crates/{crate}/{part}/" for crate in self.crates for part in PARTS]
        files = sorted(here, key=lambda it: it.split("/"))
        self.sources = {it: source_of(it, here[it]) for front in fronts for it in files if it.startswith(front)}
        items = [it for source in self.sources.values() for it in source.items]
        self.of = grouped(((it.crate, name), it) for it in items for name in (it.name, *it.inner))
        self.calls = [it for it in items if isinstance(it, Call)]
        # (the functions of each trait, by its head)
        own = [(it.inside, it) for it in self.calls if it.inside and it.inside.name == it.owner and not it.of_trait]
        self.of_heads = grouped(own)
        of_traits = {(it.owner, it.name): it for _, it in own}
        for it in self.calls:
            it.meets = of_traits.get((it.of_trait, f"{it.of_trait}::{it.name.rpartition('::')[2]}")) if it.of_trait else None

    def above(self, crate: str) -> List[str]:
        """The crates that stand on a crate."""
        return [it for it, below in self.below.items() if crate in below]

    def heading(self, crate: str) -> str:
        """What a crate says of itself."""
        return next(it.heading for it in self.sources.values() if re.fullmatch(rf"crates/{crate}/src/(lib|main)\.rt", it.file))

    # What the pages name.

    @functools.cached_property
    def exported(self) -> Set[Call]:
        """The calls that a crate gives to those above it or to C: functions, methods, and what is written for a trait."""
        names = {crate: exports_of(self.sources.get(f"crates/{crate}/src/lib.rt")) for crate in self.crates}
        return {it for it in self.calls if it.is_open and (it.is_for_c or (it.owner or it.name) in names[it.crate])}

    def meant(self, name: str) -> List[Item]:
        """What a page names by `NAME` or `CRATE::NAME`, where a type or a file of specs may stand before NAME: the contracts of
        the functions, of the exported ones where there are some; else the definitions, else the types."""
        front, _, rest = name.partition("::")
        crate, name = (front, rest) if rest and front in self.crates else ("", name)
        front, _, name = name.rpartition("::")
        calls = [it for it in self.calls if it.name.rpartition("::")[2] == name and crate in ("", it.crate)]
        calls = [it for it in calls if (it.owner or "") == front] or [it for it in calls if not front]
        calls = [it for it in calls if it in self.exported] or calls
        others = [it for (of, _), items in self.of.items() if crate in ("", of) for it in items if it.name == name
                  and not isinstance(it, Call) and front in ("", Path(it.file).stem)]
        contracts: List[Item] = [it.contract for it in calls if it.clauses]
        return contracts or [it for it in others if it.file.endswith(".antt")] or others

    # What rests on what.

    def rank(self, file: str) -> int:
        """The place of a file's crate among the crates."""
        return self.crates.index(self.sources[file].crate)

    def at(self, module: str, name: Optional[str]) -> List[Item]:
        """The items of a name of a module; none where it isn't of these crates."""
        words = module.removeprefix("Rattle.").split(".")
        crate = words[0]
        if crate not in self.crates:
            return []
        source = self.sources.get(f"crates/{crate}/specs/{'/'.join(words[2:])}.antt")
        if source is None:
            # (a type of the sources; its variants and its inside are read with it)
            type_name = words[-2] if words[-1] in ("TheVariants", "TheInside") else name or words[-1]
            return [it for it in self.of.get((crate, type_name), []) if it.file.endswith(".rt") and not isinstance(it, Call)]
        return [it for it in source.items if name is None or name == it.name or name in it.inner]

    @functools.lru_cache(maxsize=None)
    def named_by(self, item: Item) -> Tuple[List[Item], Set[Tuple[str, str]]]:
        """The items that an item names, and the names that come from the kit."""
        source = self.sources[item.file]
        found = [it for it in source.items if it.name and it is not item and not isinstance(it, Call)
                 and any(is_named(one, item.tokens) for one in (it.name, *it.inner))]
        foreign = set()
        for name in [it for it in source.imports if is_named(it, item.tokens)]:
            for module, there in source.imports[name]:
                if module.startswith(("crate", "super", "self")):
                    module = source.crate
                if there is None:
                    found += self.members(module, name, item)
                    continue
                items = self.at(module, there)
                found += items
                if not items and module.startswith("Rattle."):
                    foreign.add((module, there))
        # (a type of the sources that is named with its crate)
        found += [it for crate, name in re.findall(r"\b(\w+)::(\w+)", item.text) if source.is_rust and crate in self.below
                  for it in self.at(crate, name)]
        # (who names a trait means its contracts; what stands in it, or is written for it, no more than what its objects show)
        found += [call for it in found for call in self.of_heads.get(it, []) if it is not item.inside and it.name != item.of_trait]
        found += [item.inside] if item.inside else []
        if isinstance(item, Call) and item.contract is not item:
            found.append(item.contract)
        return [it for it in dict.fromkeys(found) if it is not item], foreign

    def members(self, module: str, alias: str, item: Item) -> List[Item]:
        """The items of a module that an item names behind an alias."""
        if "declared" in module.split("."):
            return self.at(module, None)
        names = set(re.findall(rf"\b{alias}\.({NAME})", item.text))
        return [it for it in self.at(module, None) if names & {it.name, *it.inner}]

    def root(self, words: str) -> List[Item]:
        """The items that CRATE::NAME or NAME names; of a call no more than the clauses that `: CLAUSE, ..` names. CRATE and
        CRATE::FILE name all definitions of a crate, and of a file of its specs."""
        name, _, clauses = words.partition(": ")
        crate, _, rest = name.partition("::")
        if crate in self.crates:
            file = f"crates/{crate}/specs/{rest.replace('::', '/')}"
            found = self.of.get((crate, rest), []) if rest else []
            found = found or [it for source in self.sources.values() for it in source.items
                              if source.file == f"{file}.antt" or not rest and source.file.startswith(file)]
        else:
            found = [it for (_, its_name), items in self.of.items() if its_name == name for it in items]
        files = sorted({it.file for it in found})
        if not found:
            names = [it for _, it in self.of] if crate not in self.crates else [f"{crate}::{it}" for its, it in self.of if its == crate]
            near = [f"; is {it} meant?" for it in difflib.get_close_matches(name, [*names, *self.crates], 1)]
            raise Refused(f"there is no definition, type or contract {name}{''.join(near)}")
        if len({it.crate for it in found}) > 1:
            raise Refused(f"{name} stands in several crates ({', '.join(files)}): CRATE::NAME says which")
        if not clauses:
            return found
        return [it for one in found for it in promised(one, re.findall(r"\w+", clauses))]


def exports_of(source: Optional[Source]) -> Set[str]:
    """The names that a crate gives to those above it, by its lib.rt."""
    blank = rattle.blanked(source.text) if source else ""
    names = {it[1] for it in re.finditer(r"^pub (?:fn|struct|enum|trait|type) (\w+)", blank, re.M)}
    for used in re.finditer(r"^pub use ([^;]*);", blank, re.M):
        names |= set(re.findall(r"\w+", used[1].rpartition("::")[2]))
    return names


def promised(item: Item, clauses: List[str]) -> List[Item]:
    """What one reads for these clauses of a call."""
    kept = item.contract if isinstance(item, Call) else item
    names = [it.name for it in kept.clauses] if isinstance(kept, Call) else []
    lost = next((it for it in clauses if it not in names), None)
    if lost is not None or not (isinstance(item, Call) and isinstance(kept, Call)):
        raise Refused(f"{item.name} has no clause {lost or ', '.join(clauses)}")
    return [kept.with_clauses(clauses), *([item.with_clauses([])] if kept is not item else [])]


def is_named(name: str, tokens: Set[str]) -> bool:
    """Whether a name is among the words of a text; of a form as ◌+◌ or if◌then◌else◌ each part."""
    return name in tokens or "◌" in name and all(part in tokens for part in name.split("◌") if part)


def behind(roots: List[Node], others_of: Callable[[Node], List[Node]]) -> List[Node]:
    """All that can be reached from the roots, each behind what it needs where there is no circle."""
    order: List[Node] = []
    seen: Set[Node] = set()
    stack = [(it, False) for it in reversed(roots)]
    while stack:
        it, is_done = stack.pop()
        if is_done:
            order.append(it)
        elif it not in seen:
            seen.add(it)
            stack.append((it, True))
            stack += [(other, False) for other in reversed(others_of(it))]
    return order


def closure(repository: Repository, roots: List[Item]) -> Tuple[List[Item], Set[Tuple[str, str]]]:
    """All items that have to be read, file by file, the lowest first, and the names that come from the kit."""
    foreign: Set[Tuple[str, str]] = set()
    needs: Dict[str, List[str]] = {}

    def others_of(item: Item) -> List[Item]:
        items, names = repository.named_by(item)
        foreign.update(names)
        needs.setdefault(item.file, []).extend(it.file for it in items)
        return items

    items = behind(roots, others_of)
    files = behind(sorted(needs, key=repository.rank), lambda file: needs[file])
    place = {file: at for at, file in enumerate(files)}
    return sorted(items, key=lambda it: (repository.rank(it.file), place[it.file], it.line)), foreign


# What comments say of the standards.

TITLE = r"(RFC \d+|FIPS \d+|draft-[\w-]+|IEEE [\w.]+)"
STANDARD = re.compile(TITLE + r"|\bsections? ([0-9A-Z][\w.]*(?:(?:, | and | to )[0-9][\w.]*)*)(?: of " + TITLE + ")?")


def sections_of(text: str, standard: str = "") -> Tuple[List[Tuple[str, str]], str]:
    """The sections of standards that a text names, in its order, and the standard that it names last. A section by
    itself is of the standard named before."""
    found = []
    for it in STANDARD.finditer(text):
        if it[1]:
            standard = it[1]
            continue
        standard = it[3] or standard
        for number in re.split(r", | and | to ", it[2]):
            section = (standard, number.rstrip("."))
            if standard and section not in found:
                found.append(section)
    return found, standard
