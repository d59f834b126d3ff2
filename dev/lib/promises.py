"""What a crate gives to its readers and to the crates above it, piece by piece: definitions, types, contracts, what blocks have
beside their functions, and what is said of all these."""

import hashlib
import re
from typing import Dict, Iterator, List, Optional, Set, Tuple

from lib import rattle
from lib.crates import files_of
from lib.sources import USE, Call, Item, Repository, Source, closure, exports_of, is_named

# A kind and a place.
Key = Tuple[str, str]
# On what is said no proof rests.
SAID = ("docstring", "comment")


def pieces_of(repository: Repository, source: Source, is_whole: bool = False) -> Dict[Key, str]:
    """The pieces of a file of specs or of sources, of its calls those that are exported; as a whole also the clauses of the others."""
    front = source.file.rpartition(".")[0].replace("/", "::").removeprefix("crates::")
    found = {("comment", front): source.heading}
    for kind, place, text in (of_sources(repository, source, is_whole) if source.is_rust else of_specs(source)):
        found[kind, place] = f"{found.get((kind, place), '')}{text}\n"
    named = set().union(*(words_of(text) for (kind, _), text in found.items() if kind not in SAID))
    for name, places in source.imports.items():
        # (a form as that of do-notation is used without its name)
        if not name.isidentifier() or is_named(name, named):
            found["import", f"{front}: {name}"] = " ".join(f"{module}.{there}" for module, there in places)
    return found


def words_of(text: str) -> Set[str]:
    return set(re.split(r"[^\w'◌]+", text)) | set(re.split(r"[\s(),{}]+", text))


def of_specs(source: Source) -> Iterator[Tuple[str, str, str]]:
    for it in source.items:
        yield "definition", it.key, it.text
        yield "comment", it.key, it.comment


def of_sources(repository: Repository, source: Source, is_whole: bool) -> Iterator[Tuple[str, str, str]]:
    for it in source.items:
        is_exported = it in repository.exported
        if isinstance(it, Call) and (is_exported or is_whole):
            for clause in it.clauses:
                yield "statement", f"{it.place}: {clause.name or clause.kind}", f"{it.front} {clause.text}"
        if isinstance(it, Call) and is_exported:
            # (without a promise the body itself is one)
            yield "statement", it.place, it.front if promises(it) else it.code
            yield "docstring", it.place, source.said(source.lines[at - 1] for at in sorted(it.lines))
    for place, begin, end in others_in(source):
        lines = [source.lines[at - 1] for at in sorted(source.lines_at(begin, end))]
        yield "definition", f"{source.crate}::{place}", source.bare(lines)
        yield "comment", f"{source.crate}::{place}", source.said(lines)


def others_in(source: Source) -> Iterator[Tuple[str, int, int]]:
    """The types, the heads of blocks and what stands there beside functions: where each begins and ends."""
    blank = rattle.blanked(source.text)
    yield from rattle.types_in(blank)
    for block in rattle.blocks_in(blank):
        place = block.owner + (f" as {block.of_trait}" if block.of_trait else "")
        yield place, block.begin, blank.index("{", block.begin)
        yield from ((f"{place}: {name}", begin, end) for name, begin, end in rattle.members_in(blank, block) if name != "use")


def promises(call: Call) -> bool:
    """Whether a call has an `ensures`, of its own or its trait's; what is written for a trait of the kit has that in its block."""
    by_block = call.of_trait and not call.meets and call.inside and "ghost" in call.inside.text
    return bool(by_block) or any(it.kind == "ensures" for it in call.contract.clauses)


# What a crate's proofs may rest on.


def used_of(repository: Repository, crate: str) -> str:
    """A sum of what other crates use of a crate: its exported contracts and types, the definitions that others import, and
    all that these name, each with what it names."""
    names = exports_of(repository.sources.get(f"crates/{crate}/src/lib.rt"))
    roots: List[Item] = [it for it in repository.calls if it.crate == crate and it in repository.exported]
    roots += [it for (of, name), items in repository.of.items() if of == crate and name in names for it in items
              if not isinstance(it, Call) and it.file.endswith(".rt")]
    roots += [it for module, name in imported(repository, crate) for it in repository.at(module, name)]
    total = hashlib.sha256()
    for it in sorted(closure(repository, list(dict.fromkeys(roots)))[0], key=lambda it: (it.key, it.text)):
        items, foreign = repository.named_by(it)
        text = it.code if isinstance(it, Call) and not promises(it) else it.text
        said = [it.key, " ".join(text.split()), *sorted({one.key for one in items}), *(f"{at}.{name}" for at, name in sorted(foreign, key=str))]
        total.update(f"{' '.join(said)}\n".encode())
    return total.hexdigest()


def imported(repository: Repository, crate: str) -> Set[Tuple[str, Optional[str]]]:
    """What the sources, definitions and proofs of the crates above import of a crate's: the module, and the name, or nothing for
    all of it."""
    found: Set[Tuple[str, Optional[str]]] = set()
    for above in repository.above(crate):
        for path in files_of(above, ("specs", "src", "proofs")):
            for module, names, _ in USE.findall(path.read_text()):
                if module.startswith(f"Rattle.{crate}.specs"):
                    found |= {(module, name.partition(" as ")[0].strip()) for name in names.split(",")} if names else {(module, None)}
    return found
