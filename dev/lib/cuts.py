"""Texts beside the crates, piece by piece: cases, C, shell, tables of words, and the lemmas that a page tells of."""

from __future__ import annotations

import functools
import re
from typing import Iterator

from lib.common import grouped
from lib.promises import Key
from lib.sources import Source, is_named, source_of

Pieces = dict[Key, str]
# A word that tries something, where a command begins.
TRY = re.compile(r"(?:^|[;&|{(]|\b(?:then|do|else))\s*(?:try|check) (\S.*)")
# Of a C text what isn't code.
COMMENT = r"/\*.*?\*/|//[^\n]*"
ASIDE = re.compile(rf"{COMMENT}|\"(?:\\.|[^\"\\\n])*\"|'(?:\\.|[^'\\\n])*'", re.S)
FOR_CXX = re.compile(r'^extern "C" \{')
# A program that tries the library, and what is told to it.
TRIES = re.compile(r'^int main\(|^#include "fuzz\.h"', re.M)
LEMMA = re.compile(r"\[`(\w+)`\]\((?:\.\./)?(crates/\w+/proofs/[\w/]+\.antt)\)")


def joined(pieces: Iterator[tuple[Key, str]]) -> Pieces:
    """Pieces of one key become one."""
    found: Pieces = {}
    for key, text in pieces:
        found[key] = found.get(key, "") + text + "\n"
    return found


def of(place: str, text: str) -> Pieces:
    """The pieces of a text that is no page and stands in no crate."""
    if place in ("test", "c/check"):
        return joined(scripts_in(place, text))
    cut = {"txt": words_in, "c": c_in, "h": c_in}.get(place.rpartition(".")[2])
    return joined(cut(place, text)) if cut else cases_in(place, text)


def cases_in(place: str, text: str) -> Pieces:
    """The cases of a file of texts, and the functions of one in Python or shell."""
    head = {"cases": r"^(?=case )", "lines": r"^(?=by )"}.get(place.rpartition(".")[2], r"^(?=def |class |\w+\(\) \{)")
    first, *others = re.split(head, text, flags=re.M)
    return {("case", place): first, **{("case", f"{place}: {it.partition(chr(10))[0]}"): it for it in others}}


def words_in(place: str, text: str) -> Iterator[tuple[Key, str]]:
    """The rows of tables, each under the name of its table, with the comment above it."""
    table, key, above = "", ("comment", place), ""
    for line in text.splitlines():
        if line.startswith("#"):
            above += f"{line.lstrip('#')}\n"
            continue
        if line[:1].strip():
            table = line if line.startswith("[") else table
            key = "text", f"{place}: {table if line == table else f'{table} {line}'}"
        elif not line and above:
            key = "comment", place
        yield key, f"{above}{line}"
        above = ""
    yield key, above


def scripts_in(place: str, text: str) -> Iterator[tuple[Key, str]]:
    """The lines of a script in shell that try something, by what they try; each function and the lines outside without these."""
    key = outside = ("case", place)
    above = ""
    for line in re.sub(r"\\\n\s*", "", text).splitlines():
        if found := re.match(r"(\w+)\(\) \{", line):
            key = "case", f"{place}: {found[1]}"
        if line.startswith("#") and not line.startswith("#!"):
            above += f"{line.lstrip('#')}\n"
            continue
        if not line:
            yield outside, above
            above = ""
            continue
        tried = TRY.search(re.sub(r"^\w+\(\)", "", line))
        yield ("case", f"{place}: {tried[1]}") if tried else key, f"{above}{line}"
        above = ""
        if key != outside and line.endswith("}") and not line[0].isspace():
            key = outside


# C.


def without(pattern: re.Pattern[str], text: str) -> str:
    """A text of as many lines without these."""
    return pattern.sub(lambda it: re.sub(r"[^\n]", " ", it[0]), text)


def units(text: str) -> Iterator[tuple[str, str, str]]:
    """What stands in a C text outside of braces, each with the comments above it: its code, these comments, and all of it. A
    comment before an empty line stands by itself."""
    plain, lines = without(ASIDE, text).splitlines(), text.splitlines()
    unit: list[int] = []
    depth, goes_on = 0, False
    for at, code in enumerate(plain):
        is_word = goes_on or code.startswith("#") or bool(FOR_CXX.match(lines[at]))
        goes_on = is_word and lines[at].endswith("\\")
        if not is_word:
            depth = max(0, depth + code.count("{") - code.count("}"))
        is_blank = not lines[at].strip()
        unit += [] if is_blank else [at]
        ends = is_blank or is_word and not goes_on or code.rstrip().endswith((";", "}"))
        if unit and (at + 1 == len(plain) or ends and not depth):
            first = next((it for it in unit if plain[it].strip()), at + 1)
            # (how a comment is laid out says nothing)
            said = [lines[it] if plain[it].strip() else re.sub(r"^\s*[*@](?!/)", "", lines[it]) for it in unit]
            yield " ".join(" ".join(plain[first : at + 1]).split()), "\n".join(text for it, text in zip(unit, said) if it < first), "\n".join(said)
            unit = []


def called(code: str) -> str:
    """A function's or a macro's name, a type's with its word, or how else the code begins."""
    found = re.match(r"# *define \w+|(?:typedef )?(?:struct|enum|union) \w+(?= \{|;)", code)
    named = re.search(r"(\w+) ?\(", re.sub(r"__attribute__ ?\(\(.*?\)\)", "", code.partition("{")[0].partition("=")[0]))
    return found[0] if found else named[1] if named else code[:60]


def c_in(place: str, text: str) -> Iterator[tuple[Key, str]]:
    """Each declaration of a header and each function of a program that tries the library, with the comment above it; of other
    files in C these comments, a contract among them, and what is asserted when they are compiled."""
    for code, comment, whole in units(text):
        key = f"{place}: {called(code) or ' '.join(comment.split())[:60]}"
        if re.match(r"# *(?:if|else|elif|endif|include|undef)|extern +\{|\}", code):
            yield ("comment", place), comment
        elif place.endswith(".h") or code.startswith("_Static_assert"):
            yield ("declaration", key), whole
        elif TRIES.search(text):
            yield ("test", key), whole
        elif comment:
            yield ("comment", key), comment


# Lemmas.


def lemmas_in(page: str, texts: dict[str, str]) -> Iterator[tuple[Key, str]]:
    """The statements of the lemmas that a page links, and the definitions of proofs on which these rest, each below the heads of
    the modules that it stands in, with the imports that it names."""
    seen: set[tuple[str, str]] = set()
    for name, place in LEMMA.findall(page):
        yield from stated("lemma", name, place, texts, seen)


def stated(kind: str, name: str, place: str, texts: dict[str, str], seen: set[tuple[str, str]]) -> Iterator[tuple[Key, str]]:
    """A lemma or a definition of a file of proofs, and what it names."""
    source = source_of(place, texts[place]) if place in texts else None
    places = places_in(source).get((kind, name), []) if source else []
    if not source or not places or (name, place) in seen:
        return
    seen.add((name, place))
    text = "\n".join(line for at in places for line in lines_of(source, at, name if kind == "definition" else ""))
    front = place.removeprefix("crates/")[:-5].replace("/", "::")
    yield (kind, f"{front}: {name}"), text
    tokens = set(re.findall(r"[A-Za-z_][\w']*|[^\w\s(){}\[\],.:;]+", text))
    for other in sorted(tokens):
        yield from stated("definition", other, place, texts, seen)
    for here, modules in source.imports.items():
        if is_named(here, tokens):
            yield ("import", f"{front}: {here}"), " ".join(f"{module}.{there}" for module, there in modules)
            for module, there in modules:
                path = f"crates/{module.removeprefix('Rattle.').replace('.', '/')}.antt"
                yield from stated("definition", there or here, path, texts, seen)


@functools.lru_cache(maxsize=None)
def places_in(source: Source) -> dict[tuple[str, str], list[int]]:
    """Where the lemmas and definitions of a file of proofs begin."""
    heads = ((at, re.match(r" *((?:(?:pub|abbrev|unfoldable|opaque|record|data) +)*)([A-Za-z_][\w']*)(?= *(?:[:({]|$))", line))
             for at, line in enumerate(source.lines))
    kinds = ((at, it, bool(it[1].replace("pub", "").strip())) for at, it in heads if it)
    # (what has a parameter before its colon is a proof, or a definition)
    return grouped((("definition" if defines else "lemma", it[2]), at) for at, it, defines in kinds
                   if defines or re.match(" *:", source.lines[at][it.end() :]))


def lines_of(source: Source, at: int, name: str) -> list[str]:
    """What begins here, with the comment above it, below the heads of its modules; of a definition all that begins with its name."""
    lines = source.lines
    end, column = at + 1, len(lines[at]) - len(lines[at].lstrip())
    while end < len(lines) and (not lines[end].strip() or lines[end].startswith(" " * (column + 1))
                                or name and re.match(rf" {{{column}}}{name}(?![\w'])", lines[end])):
        end += 1
    modules: list[str] = []
    for above in range(at, -1, -1):
        if column and (found := re.match(r"( *)module ", lines[above])) and len(found[1]) < column:
            column = len(found[1])
            last = next(it for it in range(above, at) if lines[it].rstrip().endswith("where"))
            modules[:0] = lines[above : last + 1]
    return [*modules, *lines[source.front(at) : end]]
