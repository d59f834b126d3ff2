"""What has another text than at a commit, or than at each of several: of the crates, of the pages, of tests, cases and edits, of C
and of what its programs and scripts try."""

from __future__ import annotations

import io
import re
import subprocess
import tarfile
from itertools import chain
from typing import Iterator

from lib import cuts, edits, pages
from lib.common import ROOT, Refused, said_by
from lib.promises import Key, others_in, pieces_of
from lib.sources import Call, Repository, Source

# The texts by their places. (the pages of crates are made of what is listed here)
Texts = dict[str, str]
READ = re.compile(r"crates\.txt|crates/\w+/(src|specs)/.*\.(rt|antt)|(?!crates/\w+/).*\.md|(.*/)?cases/[\w-]+\.(cases|py|sh)"
                  r"|wrong/\w+\.edits|(wrong|crates)/.*\.edit|wrong/scripts\.lines"
                  r"|c/\w+\.[ch]|c/check|test|tools/lib/\w+\.txt|crates/\w+/proofs/.*\.antt")
# Of these one that is new changes nothing that was said.
MORE = ("test", "case", "edit", "import")


def texts_here() -> Texts:
    names = said_by("git", "ls-files", "-co", "--exclude-standard").splitlines()
    return {it: (ROOT / it).read_text() for it in names if READ.fullmatch(it) and (ROOT / it).is_file()}


def texts_at(commit: str) -> Texts:
    done = subprocess.run(["git", "archive", commit], cwd=ROOT, stdout=subprocess.PIPE, stderr=subprocess.PIPE)
    if done.returncode:
        raise Refused(f"git can't show what stood at {commit}: {done.stderr.decode().strip()}")
    with tarfile.open(fileobj=io.BytesIO(done.stdout)) as kept:
        return {it.name: found.read().decode() for it in kept.getmembers() if it.isfile() and READ.fullmatch(it.name)
                for found in [kept.extractfile(it)] if found}


def pieces(texts: Texts) -> dict[Key, str]:
    """What is read, by its kind and place."""
    repository = Repository(texts)
    found: dict[Key, str] = {}
    for source in repository.sources.values():
        parts = tests_in(source) if source.crate.endswith("_tests") else pieces_of(repository, source, is_whole=True)
        for key, text in parts.items():
            found[key] = found.get(key, "") + text
    for place, text in texts.items():
        if place.endswith(".md"):
            for sentence in sentences(text):
                key = ("sentence", f"{place}: {sentence[:60]}")
                found[key] = found.get(key, "") + sentence
        elif place.endswith(".edits"):
            found.update({("edit", f"{place[:-6]}/{name}.edit"): lines for name, lines in edits.pieces(text)})
        elif place.endswith(".edit"):
            found["edit", place] = text
        elif not place.startswith("crates"):
            found.update(cuts.of(place, text))
    found.update(cuts.joined(cuts.lemmas_in(texts.get("docs/PROOF.md", ""), texts)))
    return found


def tests_in(source: Source) -> dict[Key, str]:
    """The functions of a crate of tests, with what stands above them, and its texts and types."""
    calls = {it.place: "\n".join(source.lines[at - 1] for at in sorted(it.lines)) + it.code for it in source.items if isinstance(it, Call)}
    others = {f"{source.crate}::{place}": source.text[begin:end] for place, begin, end in others_in(source)}
    return {("test", place): text for place, text in {**others, **calls}.items()}


def sentences(text: str) -> Iterator[str]:
    """The sentences and headings of a page; where a link leads says nothing."""
    plain = re.sub(r"\]\([^)]*\)", "]", pages.MADE.sub("", text))
    yield from (it for _, it in pages.sentences_in(plain))
    yield from (line for _, line in pages.parts_in(plain)[0] if line.startswith("#"))


def since(*commits: str) -> Iterator[str]:
    """What has another text than at each of these commits, a line each."""
    then, now = [pieces(texts_at(it)) for it in commits], pieces(texts_here())
    for key in dict.fromkeys(chain(*then, now)):
        *were, is_now = ("".join(it.get(key, "").split()) for it in (*then, now))
        if is_now not in were and (any(were) or key[0] not in MORE):
            yield f"{' '.join(key)} {'is new' if not any(were) else 'is gone' if not is_now else 'has changed'}"
