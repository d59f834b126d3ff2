"""Each row of tools/lib/words.txt beside the program, by running it: each word of each line at its limits, which is taken,
and past them, which is refused with its fault; and that the program has no other causes, skips, statuses and forms."""

from __future__ import annotations

import pty
import re
import subprocess
from pathlib import Path
from typing import Iterator, Optional

from cases.lib.small import Run, holds
from lib import words
from lib.cases import SETTINGS
from lib.common import answer
from lib.words import TEXTS, Field, Line

# What is wrong with a word wherever it stands.
NUMBERS = [("00", "BadNumber"), ("+1", "BadNumber"), ("one", "BadNumber")]
ANYWHERE = {"first-id": NUMBERS, "peer-nonce": [("5a5", "BadHex"), ("5g", "BadHex")]}
seen: set[str] = set()


# ---- Words at their limits.


def hex_of(size: int) -> str:
    return "5a" * size or "-"


def limits(field: Field, kind: str) -> tuple[list[str], list[tuple[str, str]]]:
    """Words at the limits of a field, which are taken, and words past them, each with its fault."""
    least, most = words.KEY_SIZES[kind] if field.spelling == "key" else (field.least, field.most)
    if field.spelling == "number":
        under = [(str(least - 1), "BadNumber")] if least else []
        return [str(least), str(most)], [*under, (str(most + 1), "BadNumber")]
    if field.spelling in ("hex", "key"):
        under = [(hex_of(least - 1), "BadSize")] if least else []
        return [hex_of(least), hex_of(most)], [*under, (hex_of(most + 1), "BadSize")]
    ways: dict[str, tuple[list[str], list[tuple[str, str]]]] = {
        "choice": (list(field.choices), [("other", "BadChoice")]),
        "name": (["~", "a" * most], [("a" * (most + 1), "BadSize")]),
        "method": ([kind], [("48", "BadNumber")]),
        "methods": (["47", "51 47", "-"],
                    [("48", "BadNumber"), ("47 47", "Repeated"), ("47 51 47", "BadCount"), ("- 47", "BadNumber")]),
        "suites": (["1", "2 1"], [("3", "BadNumber"), ("2 2", "Repeated"), ("1 2 1", "BadCount")]),
    }
    return ways[field.spelling]


def kinds_of(line: Line) -> tuple[str, ...]:
    return ("47", "51") if any(it.spelling == "method" for it in line.fields) else ("51",)


def with_word(line: Line, at: int, word: str, kind: str) -> str:
    """The line with this word at a place, and good ones elsewhere."""
    others = [limits(it, kind)[0][0] for it in line.fields]
    return " ".join([line.keyword, *others[:at], word, *others[at + 1 :]])


def good_lines(line: Line) -> list[str]:
    found = [with_word(line, at, word, kind) for kind in kinds_of(line) for at, field in enumerate(line.fields)
             for word in limits(field, kind)[0]]
    return list(dict.fromkeys(found or [line.keyword]))


def bad_lines(line: Line) -> list[tuple[str, str]]:
    """Lines with one word that is wrong, or a word too many, or too few."""
    found = [(with_word(line, at, word, kind), fault) for kind in kinds_of(line) for at, field in enumerate(line.fields)
             for word, fault in limits(field, kind)[1]]
    found += [(f"{line.keyword} {word}", fault) for word, fault in ANYWHERE.get(line.keyword, [])]
    # (the keyword alone; where that is right, with a word behind it)
    found.append((line.keyword if line.fields else f"{line.keyword} x", "BadCount"))
    return list(dict.fromkeys(found))


# ---- Texts.


def settings_of(form: str) -> list[str]:
    """A setting of each keyword that this text has."""
    own = {it.keyword for it in TEXTS[form].lines + TEXTS[form].later}
    return [it for it in SETTINGS if it.split(" ")[0] in own]


def settings_with(form: str, line: str) -> list[str]:
    """The settings of a text with this line in the place of its own; of two keys of a peer in the place of its method's."""
    keyword, kind = (line.split(" ") + [""])[:2]
    front = f"{keyword} {kind}" if keyword == "peer-psk" and kind in words.METHODS else keyword
    return [*(it for it in settings_of(form) if not f"{it} ".startswith(f"{front} ")), line]


def text_with(form: str, row: Line, lines: list[str], is_later: bool = False) -> bytes:
    """A text in which these lines stand where such lines belong."""
    header = [] if form in ("keys", "decode") else [TEXTS[form].headers[-1 if is_later else 0]]
    is_setting = row.keyword in {it.keyword for it in words.SETTINGS + words.LATER_SETTINGS}
    if form in ("replay", "peer", "server"):
        front = settings_with(form, lines[0]) if is_setting else settings_of(form)
        made = [*front, "events", *([] if is_setting else lines), "end"]
    elif form == "check":
        made = [*lines, "packets", "end"] if row.keyword == "user" else ["packets", *lines, "end"]
    elif form == "radius":
        made = [*lines, "end"] if row.keyword == "secret" else ["secret 00", *lines, *([] if row.keyword == "end" else ["end"])]
    else:
        made = lines
    return "".join(f"{it}\n" for it in header + made).encode()


def fault_at(form: str, text: bytes) -> str:
    """The fault with which the program refuses a text, or nothing."""
    lines = answer([form], text)[1]
    found = re.fullmatch(r"refused line \d+ (\w+)", lines[-1]) if lines else None
    return found[1] if found else ""


def texts() -> Iterator[tuple[str, Line, bool]]:
    for form, text in TEXTS.items():
        for row in text.lines:
            yield form, row, row in words.LATER_SETTINGS
        for row in text.later:
            yield form, row, True


def case_taken(run: Run) -> Iterator[Optional[str]]:
    for form, row, is_later in texts():
        lines = good_lines(row)
        is_single = row.keyword in {it.keyword for it in words.SETTINGS + words.LATER_SETTINGS} | {"secret", "end"}
        for group in ([[it] for it in lines] if is_single else [lines]):
            fault = fault_at(form, text_with(form, row, group, is_later))
            yield f"{form} refuses with {fault}: {group[0][:80]}" if fault else None


def case_refused(run: Run) -> Iterator[Optional[str]]:
    for form, row, is_later in texts():
        # (an end's settings are those of a scenario: a line of each suffices)
        for line, wanted in bad_lines(row)[: 1 if form in ("peer", "server") else None]:
            fault = fault_at(form, text_with(form, row, [line], is_later))
            seen.add(fault)
            yield None if fault == wanted else f"{form} has {fault or 'no fault'}, and not {wanted}: {line[:80]}"


def whole_text(form: str, settings: list[str]) -> bytes:
    return "".join(f"{it}\n" for it in [TEXTS[form].headers[0], *settings, "events", "end"]).encode()


def case_needed(run: Run) -> Iterator[Optional[str]]:
    """What is needed is missed, and what has a default has that."""
    for form in ("replay", "peer", "server"):
        own = {it.keyword: it for it in TEXTS[form].settings}
        front = settings_of(form)
        whole = answer([form], whole_text(form, front))[1]
        for keyword, row in own.items():
            rest = [it for it in front if it.split(" ")[0] != keyword]
            if row.needed.startswith("needed"):
                fault = fault_at(form, whole_text(form, rest))
                seen.add(fault)
                yield None if fault == "Missing" else f"{form} without {keyword} has {fault or 'no fault'}"
            elif keyword in {it.split(" ")[0] for it in front} and keyword != "user":
                default = f"{keyword} {row.needed.strip('`')}"
                same = answer([form], whole_text(form, [*rest, default]))[1]
                without = answer([form], whole_text(form, rest))[1]
                yield None if without == same == whole else f"{form}: {default} is no default"


def case_other_faults(run: Run) -> Iterator[Optional[str]]:
    """Each fault of a line comes, and so does TooMuch; the 16 users, and a 17th."""
    many = [f"user a{it} 47 {'00' * 16}" for it in range(17)]
    front = "eap-capture 1\n"
    for text, wanted in (
        (front + "\n".join(many[:16]) + "\npackets\nend\n", ""),
        (front + "\n".join(many) + "\npackets\nend\n", "BadCount"),
        ("eap-capture\n", "NoHeader"), (front + "\x7f\n", "BadWord"), (front + "end\n", "Order"),
        (front + "packets\n> " + "0" * words.MOST_LINE + "\nend\n", "TooMuch"),
    ):
        fault = fault_at("check", text.encode())
        seen.add(fault)
        yield None if fault == wanted else f"check has {fault or 'no fault'}, and not {wanted}"
    wanted_faults = {*words.FAULTS, "TooMuch"}
    yield None if seen - {""} == wanted_faults else f"other faults: {(seen - {''}) ^ wanted_faults}"


# ---- The words, the statuses, what a trace says.


def case_forms(run: Run) -> Iterator[Optional[str]]:
    usage = answer([], b"")[1][0].removeprefix("usage: eap_login ").split(" | ")
    found = {it.split(" ")[0] for it in usage}
    yield None if found == {it.words.split(" ")[0] for it in words.FORMS} else f"the usage line has {found}"
    low, high = (it.range.split(" to ") for it in words.BULK_WORDS)
    rows = [(f"bulk {low[0]} 1", 0), (f"bulk {low[1]} 1", 0), (f"bulk {int(low[1]) + 1} 1", 1), (f"bulk 0{low[0]} 1", 1)]
    rows += [(f"bulk 0 {high[0]}", 0), (f"bulk 0 {int(high[1]) + 1}", 1), (f"bulk 0 0{high[0]}", 1)]
    for kind, (least, most) in words.KEY_SIZES.items():
        sizes = ((least, 2), (most, 2), (least - 1, 1), (most + 1, 1))
        rows += [(f"pcap a {kind} {hex_of(size)}", status) for size, status in sizes]
    for form, wanted in rows:
        status = answer(form.split(), b"")[0]
        yield None if status == wanted else f"{form[:40]} ends with {status}"


def case_statuses(run: Run) -> Iterator[Optional[str]]:
    """Each status but the one for want of memory."""
    altered = Path("examples/altered.capture").read_bytes()
    given = (("decode", b""), ("other", b""), ("replay", b""), ("check", altered), ("decode", b"0" * 5000))
    ended = {answer([word], octets)[0] for word, octets in given}
    for words_to in ("check <examples/altered.capture >/dev/full", "decode </", r'"$(printf "\377")"'):
        done = subprocess.run(f'"$EAP_LOGIN" {words_to}', shell=True, stdout=subprocess.DEVNULL)
        ended.add(done.returncode)
    yield None if {str(it) for it in ended} == set(words.STATUSES) - {"5"} else f"the statuses are {sorted(ended)}"


def said_in_cases(pattern: str) -> set[str]:
    """The words that lines of output in cases/ and examples/ have."""
    texts = [it.read_text("latin-1") for folder in ("cases", "examples") for it in Path(folder).iterdir()
             if it.suffix in (".cases", ".names", ".trace", ".findings", ".out")]
    return {it for text in texts for it in re.findall(pattern, text, re.M)}


def case_causes(run: Run) -> Iterator[Optional[str]]:
    """The causes are those of the border; a case has each, and each skip."""
    # (those of frames, from 64 on, no text has)
    header = [it for it, number in re.findall(r"TUV_CAUSE_(\w+) = (\d+)", Path("c/tuvaddri.h").read_text()) if int(number) < 64]
    causes = said_in_cases(r"\d+ (?:cause|malformed) (\w+)$") | said_in_cases(r"\d+ cause (\w+)")
    for what, found, known in (
        ("causes in c/tuvaddri.h", set(header), {re.sub(r"(?<=[a-z])(?=[A-Z])", "_", it.word).upper() for it in words.CAUSES}),
        ("skips", said_in_cases(r"\d+ skip (\w+)$"), set(words.SKIPS)),
        ("faults of pcap", said_in_cases(r"refused record \w+ (\w+)$"), set(words.PCAP_FAULTS)),
        ("findings", said_in_cases(r"^(?:> |\| )?\d+ (good|malformed|no-\w+|tag-\w+)\b"), set(words.FINDING_OF)),
        ("causes", {it for it in causes if it[0].isupper()} - set(words.CAUSE_OF), set()),
        ("causes of radius", said_in_cases(r"read ([A-Z]\w+)$") - set(words.RADIUS_CAUSES), set()),
    ):
        yield None if found == known else f"there are other {what}: {found ^ known}"


def case_terminal(_: Run) -> Iterator[Optional[str]]:
    """Alone at a terminal it says that it reads, and how that ends; Ctrl-D ends it."""
    near, far = pty.openpty()
    with open(near, "wb", buffering=0) as keys, open(far, "rb", buffering=0) as terminal:
        keys.write(b"\x04")
        done = subprocess.run(["tools/why"], stdin=terminal, capture_output=True, text=True, timeout=600)
    said, *refused = done.stderr.splitlines()
    yield holds(said == "why: reading standard input; Ctrl-D ends it, --help says more", f"at a terminal: {said}")
    yield holds(done.returncode == 2 and len(refused) == 1 and "it is empty" in refused[0], f"at a terminal, Ctrl-D: {done.returncode}, {refused}")
