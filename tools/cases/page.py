"""Pages that tools/page makes, as a browser's reader reads them: what their rows say beside the trace, and that each page is
well-formed, needs nothing else, and has enough contrast (WCAG 2: 4.5) in its light and its dark palette."""

from __future__ import annotations

import html
import re
from collections import Counter
from pathlib import Path
from typing import Iterable, Iterator, Optional
from xml.etree import ElementTree

from cases.lib import wire
from cases.lib.small import Run
from lib.common import answer

FETCHING = {"src", "srcset", "action", "data", "poster", "background", "onclick", "onload"}
LIVE = {"script", "link", "img", "iframe", "object", "embed", "base", "form"}
TEXTS, GROUNDS = ("text", "dim", "plain", "good", "bad", "open", "key0", "key1", "key2"), ("ground", "card")
INPUTS = ("*.scenario", "*.capture", "*.pcap", "*.peer", "*.server", "*.trace", "*.hex", "failing/*.pcap")
# Where the parts of a row stand.
PARTS = {"number": ".//*[@class='number']", "top": ".//summary", "body": ".//*[@class='body']", "pre": ".//pre", "mark": ".//mark"}


def said_in(elements: Iterable[ElementTree.Element]) -> str:
    return "".join("".join(it.itertext()) for it in elements)


class Page:
    """The rows of a page, each by its parts, and what is wrong with it."""

    def __init__(self, text: str) -> None:
        # (as XML: what has no end is closed, and the entities that XML doesn't have are spelled out)
        text = re.sub(r"<(meta|input)\b([^>]*)>", r"<\1\2/>", text.removeprefix("<!doctype html>"))
        text = re.sub(r"&(?!amp;|lt;|gt;|quot;)\w+;", lambda found: html.unescape(found[0]), text)
        self.wrong = ["it names something elsewhere"] if re.search(r"https?:|url\(|@import", text) else []
        try:
            root = ElementTree.fromstring(text)
        except ElementTree.ParseError as fault:
            self.wrong.append(f"it isn't well-formed: {fault}")
            root = ElementTree.Element("html")
        every = list(root.iter())
        self.wrong += [f"<{it.tag}> isn't wanted" for it in every if it.tag in LIVE or FETCHING.intersection(it.keys())]
        names = Counter(it.get("id", "") for it in every)
        self.wrong += [f"two are named {name}" for name, count in names.items() if name and count > 1]
        self.links = {it.get("href", "").removeprefix("#") for it in every} - {""}
        self.wrong += [f"no row is {it}" for it in self.links if it not in names]
        self.style = said_in(root.iter("style"))
        rows = [(it, {name: it.findall(place) for name, place in PARTS.items()}) for each in root.iter("ol") for it in each]
        self.rows = [{"id": it.get("id", ""), **{name: said_in(found) for name, found in parts.items() if found}} for it, parts in rows]


def light_of(color: str) -> float:
    parts = [int(color[at : at + 2], 16) / 255 for at in (1, 3, 5)]
    red, green, blue = (it / 12.92 if it <= 0.03928 else ((it + 0.055) / 1.055) ** 2.4 for it in parts)
    return float(0.2126 * red + 0.7152 * green + 0.0722 * blue)


def faint(style: str) -> Iterator[str]:
    """The pairs of colours of a palette whose contrast is too low."""
    palettes = re.findall(r":root \{(.*?)\}", style, re.S)
    if len(palettes) != 2:
        yield "it hasn't two palettes"
    for palette in palettes:
        colors = dict(re.findall(r"--(\w+): (#\w{6})", palette))
        for text in TEXTS:
            for ground in GROUNDS:
                low, high = sorted((light_of(colors[text]), light_of(colors[ground])))
                if (high + 0.05) / (low + 0.05) < 4.5:
                    yield f"{text} on {ground} is faint"


def page_of(run: Run, name: str) -> Page:
    status, out, errors = run(["page", name])
    page = Page(out)
    page.wrong += [f"it ends with {status}: {errors}"] * (status != 0) + list(faint(page.style))
    return page


def octets_in(row: dict[str, str]) -> str:
    return row.get("pre", "").replace(" ", "").replace("nooctets", "")


# ---- Replays.


def brought(name: str) -> tuple[list[str], list[str], list[str]]:
    """What each event that brings octets as they were sent brings, the causes of discards, by trace and scenario; and the
    octets that are altered."""
    text = Path(f"examples/{name}.scenario").read_bytes()
    trace = [it.split(" ") for it in answer(["replay", "names"], text)[1]]
    sent: dict[str, str] = {}
    for line, after in zip(trace, trace[1:]):
        if line[1:2] == ["sent"]:
            sent[line[2]] = after[2]
    events = [it.split(" ") for it in text.decode().split("\nevents\n")[1].splitlines()]
    skipped = {int(it[0]) for it in trace if it[1:2] == ["skip"]}
    plain = [sent[it[1]] if it[0] == "deliver" else it[2].replace("-", "") for at, it in enumerate(events, 1)
             if it[0] in ("deliver", "inject") and at not in skipped]
    altered = [f"{int(sent[it[1]][2 * int(it[2]) : 2 * int(it[2]) + 2], 16) ^ int(it[3]):02x}" for it in events
               if it[0] == "alter"]
    return plain, [it[2] for it in trace if it[1:2] == ["cause"]], altered


def case_replays(run: Run) -> Iterator[Optional[str]]:
    """The rows have the octets of the packets that come as they were sent, or are injected, each cause in words, and the
    altered octet marked."""
    for name in ("altered", "replayed", "through", "lost-server"):
        page, (plain, causes, altered) = page_of(run, f"examples/{name}.scenario"), brought(name)
        rows = [octets_in(it) for it in page.rows if "mark" not in it and "lost" not in it.get("top", "") and "pre" in it]
        yield None if rows == plain else f"{name} has other octets"
        found = [m[1] for it in page.rows if (m := re.search(r"discarded: (\w+)", it.get("top", "")))]
        yield None if found == causes else f"{name} has other causes: {found}"
        told = [m[1] for it in page.rows if (m := re.search(r"discards it \((\w+)\): .+\.", it.get("body", "")))]
        yield None if told == causes else f"{name} tells other causes: {told}"
        marks = [it["mark"][:2] for it in page.rows if "mark" in it]
        yield None if marks == altered else f"{name} marks other octets: {marks}"


def case_numbers(run: Run) -> Iterator[Optional[str]]:
    """One numbering, the packet's; a row can be linked; and what stands at both ends is seen."""
    page = page_of(run, "examples/altered.scenario")
    numbers = [it.get("number", "") for it in page.rows]
    yield None if numbers == ["", *"12344567"] else f"the rows have the numbers {numbers}"
    names = [it["id"] for it in page.rows]
    wanted = ["event-0", "packet-1", "packet-2", "packet-3", "packet-4", "packet-4-2", "packet-5", "packet-6", "packet-7"]
    yield None if names == wanted else f"the rows are named {names}"
    yield None if "packet-4" in page.links else "the reason isn't linked to its row"


# ---- Captures, and what every page has.


def case_captures(run: Run) -> Iterator[Optional[str]]:
    """The findings are those beside a capture."""
    for name in ("altered", "login", "no-key"):
        page = page_of(run, f"examples/{name}.capture")
        found = [m[1] for it in page.rows if (m := re.search(r"Under the keys given: (.*?): .", it.get("body", "")))]
        wanted = [it.split(" ", 1)[1] for it in Path(f"examples/{name}.findings").read_text().splitlines()[:-1]]
        yield None if found == wanted else f"{name} has the findings {found}"


def case_whole(run: Run) -> Iterator[Optional[str]]:
    """Nothing is wrong with the page of any example that is taken."""
    for path in (it for form in INPUTS for it in sorted(Path("examples").glob(form)) if not it.name.startswith("bad-")):
        page = page_of(run, str(path))
        yield f"{path}: {page.wrong[0]}" if page.wrong else None


def case_times(run: Run) -> Iterator[Optional[str]]:
    """A row of a file has its time from the first on, and opens to when it was captured."""
    status, out, _ = run(["page", "-"], wire.pcapng([(0, 1e13, wire.framed(wire.Login().asked))]))
    yield None if status == 0 and "9999-12-31" in out else "a time past the year 9999"
    _, out, _ = run(["page", "-", "alice", "51", wire.KEY.hex()], wire.pcap(wire.frames_of([*wire.Login().front, 2.5, wire.Login().gpsk2])))
    yield None if re.findall(r"dim\">([0-9.]+ s)<", out) == ["0.000 s", "0.010 s", "0.020 s", "2.530 s"] else "other times"
    yield None if "Captured 1970-01-01 00:01:40.010000 (UTC)." in out else "no date"
