"""A ladder as a message chart, in plain text or as SVG."""

from __future__ import annotations

import textwrap
from html import escape
from pathlib import Path

from lib import stories
from lib.ladder import Ladder, Row
from lib.reasons import TABLES, party_name


def label_of(row: Row) -> str:
    """What stands on the line of a row."""
    if row.kind == "skip":
        return f"{row.title}: nothing happens, {row.cause}"
    return f"{row.number} " * bool(row.number) + ", ".join([row.title, *row.changes])


class Chart:
    """What a chart of a ladder says in either form."""

    def __init__(self, ladder: Ladder, is_plain: bool) -> None:
        self.ladder, self.is_plain, self.parties = ladder, is_plain, ladder.parties
        self.title = " ".join(it.lstrip("# ") for it in ladder.comments)

    def told(self, row: Row, party: str, width: int) -> list[tuple[str, str]]:
        """What is told of a party at a row, each line with its class: the states that it entered, each run of them in lines of
        this width; then what `check` finds only where nothing else is known."""
        runs = [" ".join(states) if states != ["-"] else "(no state)" for its, states in row.acts if its == party]
        found = [("state", line) for it in runs for line in textwrap.wrap(it, width)] if not self.is_plain else []
        if row.cause and row.kind != "skip" and (row.receiver == party or any(its == party for its, _ in row.acts)):
            found.append(("cause", f"discarded: {row.cause}"))
        if self.ladder.replay is None and row.word not in ("", "good") and row.receiver == party:
            found.append(("cause" if row.word in ("tag-bad", "malformed") else "state", row.finding))
        return found + [("key", f"keys: msk {msk} emsk {emsk}") for its, msk, emsk in row.keys if its == party]

    def verdict(self) -> tuple[str, str]:
        """The last lines of a trace that judge it, or of a capture the verdict of each login; before it whether that is good."""
        if self.ladder.replay is None:
            found = list(stories.of_ladder(self.ladder))
            kinds = {it.kind for it in found}
            return next((it for it in ("bad", "open", "good") if it in kinds), "open"), "; ".join(dict.fromkeys(it.verdict for it in found))
        end = self.ladder.replay.end
        names = ("fresh", "tags broken" if "tags broken" in end else "tags", "result")
        said = ", ".join(f"{name} {end[name]}" for name in names if name in end)
        is_odd, result = "broken" in said or "fresh no" in said, end.get("result", "")
        return "bad" if is_odd else TABLES["results"][result][0] if result else "open", said

    def span(self, row: Row) -> tuple[int, int]:
        """The places of the parties from which and to which a row goes."""
        return self.parties.index(row.sender), self.parties.index(row.receiver)

    def is_last(self, at: int) -> bool:
        return at == len(self.parties) - 1


class Text(Chart):
    """A chart in plain text: a column for the line of each party."""

    def __init__(self, ladder: Ladder, is_plain: bool) -> None:
        super().__init__(ladder, is_plain)
        self.columns = {2: (4, 88), 3: (4, 66, 128)}[len(self.parties)]
        self.lines: list[str] = []

    def put(self, texts: list[tuple[int, str]], has_lives: bool = True) -> None:
        """A line with texts at places, over the lines of the parties."""
        line = [" "] * (self.columns[-1] + 8)
        for at in self.columns if has_lives else ():
            line[at - 1] = "|"
        for at, text in texts:
            line[at - 1 : at - 1 + len(text)] = text
        self.lines.append("".join(line).rstrip())

    def beside(self, at: int, text: str) -> tuple[int, str]:
        """A text beside the line of a party, within the chart."""
        return (self.columns[at] - len(text) - 1 if self.is_last(at) else self.columns[at] + 2), text

    def arrow(self, row: Row) -> tuple[int, str]:
        low, high = self.span(row)
        left, right = sorted((self.columns[low], self.columns[high]))
        size, label, is_right = right - left - 1, f" {label_of(row)} ", low < high
        room = max(0, size - len(label))
        half = room // 2
        if row.kind == "lost":
            drawn = "-" * half + label + "x" if is_right else "x" + label + "-" * half
            return (left + 1, drawn) if is_right else (right - len(drawn), drawn)
        drawn = "-" * half + label + "-" * (room - half)
        if row.kind == "injected":
            drawn = drawn[half - 5 :] if is_right else drawn[: half + len(label) + 5]
            drawn = "x" + drawn[1:] if is_right else drawn[:-1] + "x"
        drawn = drawn[:-1] + ">" if is_right else "<" + drawn[1:]
        return (right - len(drawn), drawn) if is_right else (left + 1, drawn)

    def row(self, row: Row) -> None:
        if row.kind == "skip":
            self.put([(self.columns[0] + 2, f"({label_of(row)})")])
        elif row.kind == "mark" and row.event != "0" and row.title:
            at = self.parties.index(row.receiver)
            self.put([self.beside(at, f"{row.title} *" if self.is_last(at) else f"* {row.title}")])
        elif row.kind != "mark":
            self.put([self.arrow(row)])
        for at, party in enumerate(self.parties):
            for _, text in self.told(row, party, 56):
                self.put([self.beside(at, text)])

    def draw(self) -> str:
        self.lines = [*textwrap.wrap(self.title, self.columns[-1]), *([""] if self.title else [])]
        self.put([(at - 2, party) for at, party in zip(self.columns, self.parties)], has_lives=False)
        for row in self.ladder.rows:
            self.row(row)
        if finals := self.ladder.finals:
            self.put([self.beside(at, finals.get(it, "")) for at, it in enumerate(self.parties)])
        return "\n".join([*self.lines, "", self.verdict()[1], ""])


class Svg(Chart):
    """A chart as SVG, which is light or dark as its reader's browser is."""

    EDGE, LETTER = 66, 7.6

    def __init__(self, ladder: Ladder, is_plain: bool) -> None:
        super().__init__(ladder, is_plain)
        self.width = 620 if len(self.parties) == 2 else 1000
        step = (self.width - 2 * self.EDGE) // (len(self.parties) - 1)
        self.places = [self.EDGE + at * step for at in range(len(self.parties))]
        self.body: list[str] = []
        self.y = 0

    def text(self, x: float, y: float, text: str, class_: str = "", anchor: str = "") -> None:
        words = (f' class="{class_}"' if class_ else "") + (f' text-anchor="{anchor}"' if anchor else "")
        self.body.append(f'<text x="{x:.0f}" y="{y:.0f}"{words}>{escape(text)}</text>')

    def pill(self, x: float, text: str, class_: str) -> None:
        width = self.LETTER * 1.25 * len(text) + 26
        x = min(max(x, width / 2 + 4), self.width - width / 2 - 4)
        self.body.append(f'<rect x="{x - width / 2:.0f}" y="{self.y - 19}" width="{width:.0f}" height="28" rx="14" '
                         f'class="{class_}"/>')
        self.text(x, self.y, text, "pill", "middle")

    def lines_at(self, at: int, texts: list[tuple[str, str]]) -> None:
        """Texts below a row, beside the line of a party and within the chart."""
        for class_, text in texts:
            self.y += 15 if class_ == "state" else 19
            x, anchor = self.places[at] + (-10 if self.is_last(at) else 10), "end" if self.is_last(at) else ""
            self.text(x, self.y, text.replace("keys: msk", "MSK").split(" emsk")[0] if class_ == "key" else text, class_, anchor)

    def arrow(self, row: Row) -> None:
        low, high = self.span(row)
        x1, x2, y = float(self.places[low]), float(self.places[high]), self.y
        middle, tip = (x1 + x2) / 2, -1 if x1 < x2 else 1
        if row.kind == "injected":
            x1 = middle + (x1 - x2) * 0.35
        if row.kind == "lost":
            x2 = middle + (x2 - x1) * 0.2
            head, end = f'<path d="M{x2 - 5:.0f} {y - 5} l10 10 m0 -10 l-10 10" class="cross"/>', x2
        else:
            head, end = f'<path d="M{x2:.0f} {y} l{11 * tip} -5.5 v11 z" class="tip"/>', x2 + 7 * tip
        classes = [row.kind] + ["refused"] * bool(row.cause or row.word in ("tag-bad", "malformed"))
        classes += ["altered"] * bool(row.changes and row.changes[0].startswith(("octet", "cut")))
        line = f'<line x1="{x1:.0f}" y1="{y}" x2="{end:.0f}" y2="{y}"/>'
        self.body.append(f'<g class="{" ".join(classes)}">{line}{head}</g>')

    def row(self, row: Row) -> None:
        if row.kind in ("arrow", "injected", "lost"):
            low, high = sorted(self.places[at] for at in self.span(row))
            for line in textwrap.wrap(label_of(row), int((high - low - 24) / self.LETTER)):
                self.y += 19
                self.text((low + high) / 2, self.y, line, "gone" * (row.kind == "lost"), "middle")
            self.y += 9
            self.arrow(row)
        elif row.kind == "skip":
            self.y += 22
            self.text((self.places[0] + self.places[-1]) / 2, self.y, label_of(row), "gone", "middle")
        elif row.event != "0" and row.title:
            at = self.parties.index(row.receiver)
            self.body.append(f'<circle cx="{self.places[at]}" cy="{self.y + 17}" r="5" class="mark"/>')
            self.lines_at(at, [("gone", row.title)])
        for at, party in enumerate(self.parties):
            self.lines_at(at, self.told(row, party, 66 if len(self.parties) == 2 else 54))
        self.y += 6

    def draw(self) -> str:
        self.y = 12
        for line in textwrap.wrap(self.title, int((self.width - 32) / self.LETTER)):
            self.y += 20
            self.text(16, self.y, line)
        self.y += 36
        for place, party in zip(self.places, self.parties):
            self.pill(place, party_name(party), "head")
        top = self.y + 9
        self.y += 16
        for row in self.ladder.rows:
            self.row(row)
        self.y += 34
        lives = [f'<line x1="{x}" y1="{top}" x2="{x}" y2="{self.y - 19}" class="life"/>' for x in self.places]
        for party, state in self.ladder.finals.items():
            kind = "good" if state.startswith("SUCCESS") else "bad" if "FAILURE" in state else "open"
            self.pill(self.places[self.parties.index(party)], state, kind)
        self.y += 38
        kind, said = self.verdict()
        self.pill(self.width / 2, said, kind)
        return "\n".join([self.head(self.y + 24), *lives, *self.body, "</svg>", ""])

    def head(self, height: int) -> str:
        style = Path(__file__).with_name("chart.css").read_text()
        return (f'<svg xmlns="http://www.w3.org/2000/svg" viewBox="0 0 {self.width} {height}" width="{self.width}" '
                f'height="{height}" font-family="Helvetica, Arial, \'DejaVu Sans\', sans-serif">\n'
                f"<title>{escape(self.title or 'A login')}</title>\n<style>\n{style}</style>\n"
                f'<rect width="{self.width}" height="{height}" class="ground"/>')
