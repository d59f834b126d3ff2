"""The sources and the pages as HTML: each crate, and each name with a link to where it is defined."""

from __future__ import annotations

import json
import os
import re
from functools import lru_cache
from html import escape
from html.parser import HTMLParser
from pathlib import Path
from typing import Callable, Iterator, NamedTuple, Optional
from urllib.parse import quote, unquote

from lib import common
from lib.crate_pages import calls_of, declaration_of, is_declared, signature_of, without_links
from lib.crates import files_of, layers_of, text_here
from lib.sources import Call, Repository, Source

# The head of a definition or a lemma; a module's stand further in.
HEAD = re.compile(r"( *)(?:(?:pub|abbrev|unfoldable|opaque|record|data) +)*(?!where\b|use\b)([^\s:({]+)(?= *[:({])")
WORD = re.compile(r"[^\s(){}\[\],;.:`&<>]+(?:\.[^\s(){}\[\],;.:]+)?")
SCRIPT = """const box = document.querySelector("input"), list = document.querySelector("#found"), data = JSON.parse(NAMES.textContent);
function look() {
  const word = box.value.toLowerCase(), found = word ? data.names.filter(it => it[0].toLowerCase().includes(word)) : [];
  found.sort((a, b) => a[0].length - b[0].length);
  list.replaceChildren(...found.slice(0, 200).map(([name, crate, anchor]) => {
    const item = document.createElement("li"), link = document.createElement("a");
    link.href = "crates/" + data.crates[crate] + ".html#" + encodeURIComponent(anchor);
    link.textContent = name; item.append(link, " " + data.crates[crate]); return item; }));
  document.querySelector("#count").textContent = word ? found.length + " found" : "";
}
box.addEventListener("input", look); look();"""


class Entry(NamedTuple):
    """What has a name: its kind, its crate and file, its anchor, what is said of it, its text, and the proof behind it."""

    kind: str
    name: str
    crate: str
    file: str
    anchor: str
    said: str
    text: str
    proof: str = ""

    @property
    def link(self) -> str:
        return f"crates/{self.crate}.html#{quote(self.anchor)}"


def anchor_of(file: str, name: str) -> str:
    """The name of a place in its crate's page, by the file below the crate's folder."""
    return ".".join([*file.split("/", 2)[2].rpartition(".")[0].split("/"), *name.split("::")])


def of_proofs(file: str, text: str) -> Iterator[Entry]:
    """The lemmas and definitions of a file of proofs: the statement, and the proof from the first line that has the name alone."""
    source = Source(file, text)
    lines, inside = source.lines, False
    heads = list[tuple[int, str]]()
    for at, line in enumerate(lines):
        inside = line.startswith("module ") or inside and not re.match(r"\S", line)
        head = HEAD.match(line)
        if head and (len(head[1]) == 0 or inside and len(head[1]) == 2) and not line.lstrip().startswith(("module ", "--", "infix", "pub mod")):
            heads.append((at, head[2]))
    for (at, name), end in zip(heads, [*(source.front(at) for at, _ in heads[1:]), len(lines)]):
        own = lines[at:end]
        begin = next((n for n, it in enumerate(own) if n and re.match(rf" *{re.escape(name)}(?=[ \n=]|$)", it)), len(own))
        said = source.said(lines[source.front(at) : at])
        yield Entry("theorem", name, source.crate, file, anchor_of(file, name), said, "\n".join(own[:begin]).rstrip(),
                    "\n".join(own[begin:]).rstrip())


class Site:
    """The crates of a repository with all entries, and the links to them."""

    def __init__(self) -> None:
        self.repository = Repository()
        self.sources = dict(self.repository.sources)
        self.entries: dict[tuple[str, str], Entry] = {}
        for it in self.of_sources():
            self.entries.setdefault((it.crate, it.anchor), it)
        for crate in self.repository.crates:
            for path in files_of(crate, ("proofs",)):
                file = path.relative_to(common.ROOT).as_posix()
                self.sources[file] = Source(file, path.read_text())
                for it in of_proofs(file, path.read_text()):
                    self.entries.setdefault((it.crate, it.anchor), it)
        self.of_file = common.grouped((it.file, it) for it in self.entries.values())
        self.of_crate = common.grouped((it.crate, it) for it in self.entries.values())

    def of_sources(self) -> Iterator[Entry]:
        exported = {crate: calls_of(self.repository, crate) for crate in self.repository.crates}
        for source in self.repository.sources.values():
            for it in source.items:
                anchor = anchor_of(it.file, it.name)
                if isinstance(it, Call):
                    kind = "inner" if it not in exported[it.crate] else "law" if it.is_law else "call"
                    yield Entry(kind, it.name, it.crate, it.file, anchor, it.comment or it.contract.comment, "\n".join(signature_of(it)))
                elif it.name and not source.is_rust:
                    yield Entry("definition", it.name, it.crate, it.file, anchor, it.comment, it.text.strip("\n"))
                elif it.name and is_declared(self.repository, it):
                    yield Entry("type", it.name, it.crate, it.file, anchor, it.comment, "\n".join(declaration_of(self.repository, it)))

    @lru_cache(maxsize=None)
    def names_of(self, file: str) -> dict[str, str]:
        """The names that a file can use, each with its link: its own, and those that it imports."""
        found: dict[str, str] = {}
        source = self.sources[file]
        for name, places in source.imports.items():
            for module, there in places:
                for it in self.at(source.crate, module, there):
                    found[name if there else f"{name}.{it.name}"] = it.link
        for it in self.of_file.get(file, []):
            found[it.name] = it.link
        for item in source.items:
            found.update((it, found[item.name]) for it in item.inner if item.name in found)
        return found

    def at(self, crate: str, module: str, name: Optional[str]) -> list[Entry]:
        """The entries of a name of a module; all of it where no name is given."""
        words = module.removeprefix("Rattle.").split(".")
        if words[0] in self.repository.below:
            items = self.repository.at(module, name)
            by_item = [self.entries.get((it.crate, anchor_of(it.file, it.name))) for it in items if it.name]
            if by_item or "specs" in words:
                return [it for it in by_item if it]
            file = f"crates/{words[0]}/{'/'.join(words[1:])}.antt"
            if "proofs" in words:
                return [it for it in self.of_file.get(file, []) if name in (None, it.name)]
            crate = words[0]
        elif words[0] not in ("crate", "super", "self"):
            file = f"crates/{crate}/proofs/{'/'.join(words)}.antt"
            return [it for it in self.of_file.get(file, []) if name in (None, it.name)]
        return [it for it in self.of_crate.get(crate, []) if it.name == name and it.file.endswith(".rt")][:1]

    def code(self, file: str, text: str, own: str = "") -> str:
        """A text of a file, whose names are links."""
        names = self.names_of(file)

        def word(found: re.Match[str]) -> str:
            whole = found[0]
            front, dot, rest = whole.partition(".")
            if link := names.get(whole):
                return f'<a href="../{link}">{escape(whole)}</a>' if front != own else escape(whole)
            link = names.get(front) if front != own else None
            return (f'<a href="../{link}">{escape(front)}</a>' if link else escape(front)) + escape(dot + rest)

        parts = re.split(r"(--.*|//.*)", text)
        return "".join(escape(it) if it.startswith(("--", "//")) else escaped_between(it, word) for it in parts)

    def article(self, it: Entry) -> str:
        said = f"<p>{inline(without_links(it.said), lambda _: None)}</p>" if it.said else ""
        proof = f"<details><summary>Proof</summary><pre>{self.code(it.file, it.proof, it.name)}</pre></details>" if it.proof else ""
        return (f'<article id="{escape(it.anchor)}"><h3><code>{escape(it.name)}</code> <span class="dim">'
                f'{escape(it.file.split("/", 2)[2])}</span></h3>{said}<pre>{self.code(it.file, it.text, it.name)}</pre>{proof}</article>')

    def crate(self, crate: str, layer: str) -> str:
        def links(names: list[str]) -> str:
            return ", ".join(f'<a href="{it}.html">{it}</a>' for it in names) or "none"

        below, above = self.repository.below[crate], self.repository.above(crate)
        body = [f"<h1>{crate}</h1><p class=dim>Layer: {escape(layer)}. Built on: {links(below)}. Used by: {links(above)}.</p>",
                f"<p>{inline(without_links(self.repository.heading(crate)), lambda _: None)}</p>"]
        parts = {"call": "Calls", "law": "Laws", "type": "Types", "definition": "Definitions", "theorem": "Theorems",
                 "inner": "Calls within the crate"}
        found = common.grouped((it.kind, it) for it in self.of_crate.get(crate, []))
        body.append("<nav><p>" + " · ".join(f'<a href="#{it}s">{head} ({len(found[it])})</a>' for it, head in parts.items() if it in found)
                    + "</p></nav>")
        for kind, head in parts.items():
            if kind in found:
                body.append(f'<section><h2 id="{kind}s">{head}</h2>' + "".join(map(self.article, found[kind])) + "</section>")
        return page(crate, "\n".join(body), "../")

    def index(self, layers: dict[str, dict[str, list[str]]], others: list[str]) -> str:
        crates = self.repository.crates
        names = [[it.name, crates.index(it.crate), it.anchor] for it in self.entries.values()]
        data = json.dumps({"crates": crates, "names": names}, ensure_ascii=False, separators=(",", ":")).replace("<", "\\u003c")
        body = ['<h1>Sources</h1><p class=search><label for=word>A name of a call, type, definition or lemma</label><br>'
                '<input id=word type=search autocomplete=off> <span id=count class=dim aria-live=polite></span></p><ul id=found></ul>']
        for head, of_layer in layers.items():
            said = (f'<li><a href="crates/{it}.html">{it}</a>: {inline(first_of(self.repository.heading(it)), lambda _: None)}</li>' for it in of_layer)
            body.append(f"<h2>{escape(head)}</h2><ul>{''.join(said)}</ul>")
        body.append("<h2>Pages</h2><ul>" + "".join(f'<li><a href="{it[:-3]}.html">{it}</a></li>' for it in others) + "</ul>")
        body.append(f'<script type="application/json" id=NAMES>{data}</script><script>{SCRIPT}</script>')
        return page("Sources", "\n".join(body), "")


def first_of(comment: str) -> str:
    return re.split(r"(?<=[^.][.])\s+(?=[A-Z`])", without_links(comment), maxsplit=1)[0]


def escaped_between(text: str, word: Callable[[re.Match[str]], str]) -> str:
    """The text with what `word` makes of each word, and all between as it stands."""
    made, last = list[str](), 0
    for it in WORD.finditer(text):
        made += [escape(text[last : it.start()]), word(it)]
        last = it.end()
    return "".join(made) + escape(text[last:])


def page(title: str, body: str, top: str) -> str:
    return ('<!DOCTYPE html>\n<html lang="en"><head><meta charset="utf-8"><meta name="viewport" content="width=device-width, initial-scale=1">'
            f'<title>{escape(title)}</title><link rel="stylesheet" href="{top}style.css"></head><body><a class="skip" href="#main">To the text</a>'
            f'<header><a href="{top}index.html">Crates and names</a></header><main id="main">\n{body}\n</main></body></html>\n')


# Pages of Markdown, in the forms that stand in docs/.


def inline(text: str, target: Callable[[str], Optional[str]]) -> str:
    """A line with its code, links and stress; a link that leads to no page of the site is its words alone."""
    def link(found: re.Match[str]) -> str:
        to = target(found[2])
        words = inline(found[1], target)
        return f'<a href="{escape(to)}">{words}</a>' if to else words

    parts = re.split(r"(!?\[(?:`[^`]*`|[^\]`])*\]\([^)\s]+\)|`[^`]+`)", text)
    for at, it in enumerate(parts):
        if it.startswith("`"):
            parts[at] = f"<code>{escape(it[1:-1])}</code>"
        elif found := re.fullmatch(r"!?\[(.*)\]\(([^)]+)\)", it) if at % 2 else None:
            parts[at] = link(found)
        else:
            parts[at] = re.sub(r"\*\*(.+?)\*\*", r"<strong>\1</strong>", escape(it, quote=False).replace("\\|", "|"))
            parts[at] = re.sub(r"(?<![\w*])\*(\w[^*]*)\*(?![\w*])", r"<em>\1</em>", parts[at])
    return "".join(parts)


def markdown(text: str, target: Callable[[str], Optional[str]]) -> Iterator[str]:
    text = re.sub(r"(?m)^<!--.*?-->\n?", "", text)
    blocks = re.findall(r"(?ms)^```.*?^```$|(?:^(?!```)[^\n]+(?:\n|\Z))+", text)
    for block in blocks:
        lines = block.strip("\n").split("\n")
        if block.startswith("```"):
            yield f"<pre>{escape(chr(10).join(lines[1:-1]))}</pre>"
        elif head := re.match(r"(#+) (.*)", block):
            anchor = re.sub(r"[^\w\- ]", "", head[2].strip().lower()).replace(" ", "-")
            yield f'<h{len(head[1])} id="{anchor}">{inline(head[2], target)}</h{len(head[1])}>'
        elif lines[0].startswith("|"):
            rows = [re.split(r"(?<!\\)\|", it.strip().strip("|")) for it in lines]
            cells = ["".join(f"<{'th' if at == 0 else 'td'}>{inline(it.strip(), target)}</{'th' if at == 0 else 'td'}>" for it in row)
                     for at, row in enumerate(rows) if at != 1]
            yield f'<div class=wide><table>{"".join(f"<tr>{it}</tr>" for it in cells)}</table></div>'
        elif re.match(r" *(?:[-*]|\d+\.) ", block):
            kind = "ol" if re.match(r" *\d", block) else "ul"
            items = re.split(r"(?m)^ *(?:[-*]|\d+\.) ", block)[1:]
            yield f"<{kind}>{''.join(f'<li>{inline(it.strip(), target)}</li>' for it in items)}</{kind}>"
        elif block.startswith(">"):
            yield f"<blockquote><p>{inline(re.sub(r'(?m)^> ?', '', block), target)}</p></blockquote>"
        elif not block.startswith("<"):
            yield f"<p>{inline(block.strip(), target)}</p>"


def target_of(site: Site, name: str, others: list[str]) -> Callable[[str], Optional[str]]:
    """Where a link of a page leads within the site."""
    up = "../" * name.count("/")

    def target(link: str) -> Optional[str]:
        if re.match(r"\w+:", link):
            return link
        path, _, anchor = link.partition("#")
        to = os.path.normpath(os.path.join(os.path.dirname(name), path)) if path else name
        if to in others:
            return f"{up}{to[:-3]}.html" + (f"#{anchor}" if anchor else "")
        crate = to.split("/")[1] if to.startswith("crates/") and to.count("/") else ""
        if crate in site.repository.below:
            entries = site.of_file.get(to, [])
            return up + (entries[0].link if entries else f"crates/{crate}.html")
        return None

    return target


class Links(HTMLParser):
    """The anchors and links of a page."""

    def __init__(self, text: str) -> None:
        super().__init__()
        self.anchors, self.links = set[str](), set[str]()
        self.feed(text)

    def handle_starttag(self, tag: str, attrs: list[tuple[str, Optional[str]]]) -> None:
        self.anchors |= {value for name, value in attrs if name == "id" and value}
        self.links |= {value for name, value in attrs if name in ("href", "src") and value}


def lost_links(folder: Path) -> Iterator[str]:
    """The links of a site that lead nowhere in it."""
    found = {path: Links(path.read_text()) for path in sorted(folder.rglob("*.html"))}
    for path, its in found.items():
        for link in sorted(it for it in its.links if not re.match(r"\w+:", it)):
            file, _, anchor = link.partition("#")
            to = Path(os.path.normpath(path.parent / file)) if file else path
            if not to.exists() or anchor and unquote(anchor) not in found[to].anchors:
                yield f"{path.relative_to(folder)}: the link {link} leads nowhere"


def write(folder: Path) -> int:
    """Makes the site in a folder, and says how many pages it has."""
    site, made = Site(), dict[str, str]()
    layers = layers_of(text_here()) or {"Crates": site.repository.below}
    others = sorted(it.relative_to(common.ROOT).as_posix() for form in ("*.md", "docs/*.md", "*/README.md", "*/*/README.md")
                    for it in common.ROOT.glob(form))
    others = [it for it in others if not re.match(r"crates/|out/", it)]
    for head, crates in layers.items():
        made.update((f"crates/{it}.html", site.crate(it, head)) for it in crates)
    for name in others:
        body = "\n".join(markdown((common.ROOT / name).read_text(), target_of(site, name, others)))
        made[f"{name[:-3]}.html"] = page(name, body, "../" * name.count("/"))
    made["index.html"] = site.index(layers, others)
    made["style.css"] = (Path(__file__).parent / "site.css").read_text()
    for name, text in made.items():
        (folder / name).parent.mkdir(parents=True, exist_ok=True)
        (folder / name).write_text(text)
    return len(made) - 1
