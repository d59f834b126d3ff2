"""Rattle's sources as text: functions with their clauses, and the types, traits and blocks around them."""

import re
from dataclasses import dataclass, field
from typing import Dict, Iterator, List, NamedTuple, Optional, Pattern, Tuple

# (each way begins with a sign of its own, so that a search skips the rest)
QUOTED, SIGN = r"\"(?:\\.|[^\"\\])*\"", r"'(?:\\[^']+|[^'\\])'"
SHAPE = re.compile(rf"//[^\n]*|{QUOTED}|b{QUOTED}|{SIGN}|b{SIGN}", re.S)
FUNCTION = re.compile(r"^ *(pub |pub\(\w+\) )?(?:const |unsafe )*(extern +)?fn (\w+)", re.M)
MEMBER = re.compile(r"^ +ghost (\w+)", re.M)
BLOCK = re.compile(r"^(?:pub )?(?:unsafe )?(impl|trait)\b[^{;]*\{", re.M)
TYPE = re.compile(r"^(?:pub(?:\(\w+\))? )?(struct|enum|type|const|static) (?:mut )?(\w+)", re.M)
CLAUSE = re.compile(r"\b(requires|ensures)\b\*?([^{]*)\{")
NESTING = {"(": 1, "[": 1, ")": -1, "]": -1}
WITH_BRACES = {**NESTING, "{": 1, "}": -1}


class Clause(NamedTuple):
    """A clause of a contract: `requires` or `ensures`, its name or nothing, and the places where it begins and ends."""

    kind: str
    name: str
    begin: int
    end: int


@dataclass(frozen=True)
class Block:
    """An `impl` or a trait: the type or trait that it belongs to, and the trait that it is written for."""

    begin: int
    end: int
    owner: str
    of_trait: Optional[str]
    is_trait: bool


@dataclass
class Function:
    """A function: its name, the block around it, where it begins, where its contract and its body end."""

    name: str
    block: Optional[Block]
    begin: int
    contract_end: int
    end: int
    is_pub: bool
    is_for_c: bool
    is_empty: bool
    clauses: List[Clause] = field(default_factory=list)


def blanked(text: str, shape: Pattern[str] = SHAPE) -> str:
    """The text with spaces in place of comments, strings and characters."""
    return shape.sub(lambda found: "\n".join(" " * len(line) for line in found[0].split("\n")), text)


def end_of(blank: str, at: int, pair: str = "{}") -> int:
    """The place behind the bracket that closes the one at this place."""
    depth = 0
    for found in re.compile(f"[{re.escape(pair)}]").finditer(blank, at):
        depth += 1 if found[0] == pair[0] else -1
        if depth == 0:
            return found.end()
    return len(blank)


def without_tactics(text: str) -> str:
    """The text without the attributes that tell the prover how to search."""
    while (at := text.find("#[tactic(")) >= 0 or (at := text.find("#![tactic(")) >= 0:
        text = text[:at] + text[end_of(text, text.index("[", at), "[]") :]
    return text


def first_of(signs: str, blank: str, at: int, nesting: Dict[str, int] = NESTING) -> int:
    """The place of the first of these signs that stands in no bracket."""
    depth = 0
    while at < len(blank) and (depth or blank[at] not in signs):
        depth += nesting.get(blank[at], 0)
        at += 1
    return at


def clauses_at(blank: str, at: int) -> Tuple[List[Clause], int]:
    """The clauses of the function whose parameters begin at this place, and where its body or its semicolon stands."""
    found = []
    while (at := first_of("{;re", blank, at)) < len(blank) and blank[at] not in "{;":
        clause = CLAUSE.match(blank, at)
        end = end_of(blank, clause.end() - 1) if clause else at + 1
        found += [Clause(clause[1], clause[2].strip(), at, end)] if clause else []
        at = end
    return found, at


def type_in(text: str) -> str:
    """The name of the type, without its path, with which a text begins."""
    found = re.match(r"\s*&?(?:mut )?([\w:]+)", text)
    return found[1].rpartition("::")[2] if found else ""


def block_of(header: str, begin: int, end: int) -> Block:
    if trait := re.match(r"(?:pub )?(?:unsafe )?trait (\w+)", header):
        return Block(begin, end, trait[1], None, True)
    rest = header.partition("impl")[2]
    if rest.startswith("<"):
        rest = rest[end_of(re.sub("[-=]>", "  ", rest), 0, "<>") :]
    one, of, other = rest.partition(" for ")
    return Block(begin, end, type_in(other if of else one), type_in(one) if of else None, False)


def blocks_in(blank: str) -> List[Block]:
    found = BLOCK.finditer(blank)
    return [block_of(" ".join(it[0].split()), it.start(), end_of(blank, it.end() - 1)) for it in found]


def functions_in(blank: str, blocks: List[Block]) -> Iterator[Function]:
    for it in FUNCTION.finditer(blank):
        block = next((block for block in blocks if block.begin < it.start() < block.end), None)
        clauses, at = clauses_at(blank, it.end())
        end = end_of(blank, at) if blank[at : at + 1] == "{" else at + 1
        is_empty = blank[at:end].strip("{} \n") == "" and blank[at : at + 1] == "{"
        # (what a trait has, or is written for one, is as open as that)
        is_pub = it[1] == "pub " or bool(block and (block.is_trait or block.of_trait))
        yield Function(it[3], block, it.start(), clauses[-1].end if clauses else at, end, is_pub, bool(it[2]), is_empty, clauses)


def members_in(blank: str, block: Block) -> Iterator[Tuple[str, int, int]]:
    """The ghost members of a block and what it uses: the first word, and where each begins and ends."""
    for it in MEMBER.finditer(blank, block.begin, block.end):
        yield it[1], it.start(), first_of(";", blank, it.end(), WITH_BRACES) + 1


def types_in(blank: str) -> Iterator[Tuple[str, int, int]]:
    """The types and constants outside of blocks: their names, and where they begin and end."""
    for it in TYPE.finditer(blank):
        # (a parameter of a type may have a default behind a sign of equality)
        begin = end_of(re.sub("[-=]>", "  ", blank), it.end(), "<>") if blank[it.end() : it.end() + 1] == "<" else it.end()
        at = first_of(";{=", blank, begin)
        end = end_of(blank, at) if blank[at : at + 1] == "{" else first_of(";", blank, at, WITH_BRACES) + 1
        yield it[2], it.start(), end
