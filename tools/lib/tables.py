"""The tables of what is to be read: by file, by section of the standards, and that of docs/ASSURANCE.md."""

import re
from typing import Iterable, Iterator, List, Set, Tuple

from lib import sources
from lib.common import grouped
from lib.sources import Item, Repository, Source

# The standards of the table by sections, in its order.
STANDARDS = ("RFC 3748", "RFC 4137", "RFC 4764", "RFC 5433")

# docs/ASSURANCE.md: which promise takes how much reading.
PROMISES = ("login_laws::honest_ends_agree", "login_laws::one_end_implies", "smooth_laws::smooth_logins_succeed",
            "eap_login::eap_login", "login_keys::gpsk_keys", "eax_mode::eax_seal", "aes_block::Aes128::encrypt")

Section = Tuple[str, str]


def listed(sections: Iterable[Section]) -> str:
    """Sections in words, those of one standard together."""
    return ", ".join(f"{standard} {', '.join(numbers)}" for standard, numbers in grouped(sections).items()) or "–"


def sections_in(source: Source, item: Item) -> List[List[Section]]:
    """The sections that the heading of a file names, the comment above an item and others, and its own."""
    heading, standard = sources.sections_of(source.heading)
    part, standard = sources.sections_of(item.part, standard)
    return [heading, part, sources.sections_of(item.comment, standard)[0]]


def lines_of(items: Iterable[Item]) -> int:
    return len({(it.file, line) for it in items for line in it.lines})


def named(items: Iterable[Item]) -> int:
    return sum(it.name != "" for it in items)


def of_files(repository: Repository, order: List[Item], foreign: Set[Tuple[str, str]]) -> Iterator[str]:
    yield "| File | Definitions | Lines | Sections |\n|---|---|---|---|"
    files = grouped((it.file, it) for it in order)
    for file, items in files.items():
        source = repository.sources[file]
        lines = f"{lines_of(items)} of {len(source.lines)}"
        sections = listed(dict.fromkeys(it for item in items for its in sections_in(source, item) for it in its))
        yield f"| `{file.removeprefix('crates/')}` | {named(items)} | {lines} | {sections} |"
    total = sum(len(repository.sources[file].lines) for file in files)
    yield f"\nFiles: {len(files)}; definitions: {named(order)}; lines: {lines_of(order)} of {total}."
    kit = sorted({module.removeprefix("Rattle.") for module, _ in foreign})
    yield f"Names of the kit: {len(foreign)}, of {', '.join(f'`{it}`' for it in kit)}."


def order_of(section: Section) -> Tuple[int, List[int]]:
    standard, number = section
    return STANDARDS.index(standard), [int(it) if it.isdigit() else 0 for it in re.split(r"\.", number)]


def of_sections(repository: Repository, order: List[Item]) -> Iterator[str]:
    """Each section with the definitions of each file that it is about; of these the names that name it themselves. What names
    none itself stands under those of its part or of its file's heading."""
    yield "| Section | Definitions |\n|---|---|"
    rows: List[Tuple[Section, Tuple[str, Tuple[str, bool]]]] = []
    for item in filter(lambda it: it.name, order):
        heading, part, own = sections_in(repository.sources[item.file], item)
        rows += [(it, (item.file, (item.name, bool(own)))) for it in own or part or heading if it[0] in STANDARDS]
    for section, files in sorted(grouped(rows).items(), key=lambda it: order_of(it[0])):
        told = []
        for file, names in grouped(files).items():
            said = [f"`{name}`" for name, is_own in dict.fromkeys(names) if is_own]
            rest = len(names) - len(said)
            more = [f"{rest} {'more' if said else 'definition' if rest == 1 else 'definitions'}"] if rest else []
            told.append(f"{', '.join(said + more)} in `{file.removeprefix('crates/')}`")
        yield f"| {' '.join(section)} | {'; '.join(told)} |"


def of_promises(repository: Repository) -> Iterator[str]:
    """The lines of the table of docs/ASSURANCE.md."""
    orders = [sources.closure(repository, repository.root(it))[0] for it in PROMISES]
    yield from ("| Promise | Files | Definitions | Lines |", "|---|---|---|---|")
    for promise, order in zip(PROMISES, orders):
        yield f"| `{promise}` | {len({it.file for it in order})} | {named(order)} | {lines_of(order)} |"
