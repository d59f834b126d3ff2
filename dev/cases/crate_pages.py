"""The page of a crate, over a small repository of its own, and of every crate of this one."""

from __future__ import annotations

import re
from typing import Iterator, Optional

from lib.common import ROOT
from lib.crate_pages import page_of
from lib.crates import crates_of, text_here
from lib.sources import Repository

from cases.lib.small import Run, holds, texts_of


def case_page(_: Run) -> Iterator[Optional[str]]:
    """A crate's page has its types without what isn't open, its calls with signature, clauses and definitions, and the caller
    that is named for it."""
    texts = texts_of("dev/cases/pages.texts")
    repository = Repository(texts)
    for crate in repository.crates:
        page = "\n".join(page_of(repository, crate, {"low": "high::middle"})) + "\n"
        yield holds(page == texts[f"crates/{crate}/README.md"], f"the page of {crate} is another one: {page}")


def case_every_crate(_: Run) -> Iterator[Optional[str]]:
    """Each crate says in at most three lines what it is, and each of its calls what it does."""
    for crate in crates_of(text_here()):
        page = (ROOT / f"crates/{crate}/README.md").read_text()
        file = next(it for name in ("lib", "main") if (it := ROOT / f"crates/{crate}/src/{name}.rt").is_file())
        head = re.match(r"(?://!.*\n)*", file.read_text())
        yield holds(head and 1 <= head[0].count("\n") <= 3 and len(page.split("\n")[2]) > 20, f"{crate} doesn't say in three lines what it is")
        bare = re.findall(r"(?m)^### (`[^`]*`)\n\n\n", page)
        yield holds(not bare, f"{crate} doesn't say what {', '.join(bare)} do")
        if "use " in file.read_text():
            yield holds(re.search("## Its (calls|laws)", page) or crate in ("eap_base", "eap_login_main", "own_method", "login_tests", "call_tests"), f"{crate} has no call")


NAMES = """Accepts Event Failed Identity Kinds Later LineReader MemSink MemSource Mode NextLine Nonce Nonces Octets Packet Party PeerSetup Port
    Secret ServerSetup Setup Sink Source StdSink StdSource Suite Suites SureSink SureSource User Users"""


def case_names_of_the_facade(_: Run) -> Iterator[Optional[str]]:
    """What `eap_base` re-exports: other repositories stand on these names."""
    found = re.findall(r"pub use \w+::\{([^}]*)\}", (ROOT / "crates/eap_base/src/lib.rt").read_text())
    names = sorted(re.findall(r"\w+", " ".join(found)))
    yield holds(names == NAMES.split(), f"eap_base has other names: {names}")
