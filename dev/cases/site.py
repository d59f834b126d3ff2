"""The site of a small repository, and one whose links lead nowhere."""

from __future__ import annotations

import tempfile
from pathlib import Path
from typing import Iterator, Optional

from cases.lib.small import Run, Small, holds, texts_of


def case_site(run: Run) -> Iterator[Optional[str]]:
    """Each link holds, each definition has a place, a proof is folded behind its statement, names lead across crates."""
    with tempfile.TemporaryDirectory() as folder:
        small = Small(f"{folder}/small", texts_of("dev/cases/small.texts"))
        made = Path(folder, "site")
        status, out, errors = run(["site", str(made)], root=small.root)
        yield holds((status, out, errors) == (0, "site: 13 pages, 0 links lead nowhere\n", ""), f"site ends with {status}: {out}{errors}")
        low, top, limits = ((made / f"{it}.html").read_text() for it in ("crates/small", "crates/top", "docs/LIMITS"))
        for name in ("Even.IsEven", "Even.DoublesAreEven", "Rest.rest", "Rest.other"):
            yield holds(f'id="specs.{name}"' in low, f"{name} has no place")
        yield holds('<pre>pub cited : (n : ℕ) → n ≡ n</pre><details><summary>Proof</summary><pre>cited n = refl</pre></details>' in low,
                    "a proof isn't folded behind its statement")
        yield holds('ensures { <a href="../crates/small.html#specs.Even.IsEven">IsEven</a> result }' in top, "a name is no link to another crate")
        yield holds('<a href="../docs/AGREEMENT.html#agreement">agreement</a>' in limits, "a page's link is lost")
        index = (made / "index.html").read_text()
        yield holds('["double",0,"src.lib.double"]' in index and "//" not in index.split("<script")[0], "the index lacks a name, or asks elsewhere")
        small.turn("docs/LIMITS.md", "#agreement", "#other")
        status, out, errors = run(["site", str(made)], root=small.root)
        wanted = "dev/site: docs/LIMITS.html: the link ../docs/AGREEMENT.html#other leads nowhere\n"
        yield holds((status, errors) == (1, wanted), f"with a wrong link site ends with {status}: {errors}")
        (made / "crates/small.html").write_text(low.replace('id="specs.Even.IsEven"', ""))
        from lib import site
        yield holds(any("#specs.Even.IsEven" in it for it in site.lost_links(made)), "a definition without a place isn't missed")
