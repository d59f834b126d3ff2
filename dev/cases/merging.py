"""What two branches make of made files: their merge has no conflict in these, and says what is to be made anew."""

from __future__ import annotations

import hashlib
import shutil
import subprocess
import tempfile
from pathlib import Path
from typing import Iterator, Optional

from cases.lib.small import Run, Small, holds, texts_of
from lib.common import ROOT

NAMES = ("dist/check", ".ci/common.sh", ".ci/help.sh", ".gitattributes")
CRATES = {"eap_login_main": "one", "tuvaddri_c": "two"}
ASSEMBLY = "one:\n\tret\ntwo:\n\tret\n"


def git(root: Path, *words: str) -> subprocess.CompletedProcess[str]:
    named = ("git", "-C", str(root), "-c", "user.name=small", "-c", "user.email=small@example.org")
    return subprocess.run([*named, *words], capture_output=True, text=True)


def commit(root: Path, *body: str) -> str:
    git(root, "add", ".")
    git(root, "commit", "-q", "-m", "Change", *(word for it in body for word in ("-m", it)))
    return git(root, "rev-parse", "HEAD").stdout.strip()


def check(root: Path, *words: str) -> tuple[int, str]:
    done = subprocess.run([root / "dist/check", *words], capture_output=True, text=True)
    return done.returncode, done.stdout + done.stderr


def make_dist(small: Small) -> None:
    """Makes what a branch has: the assembly, with the sources' sum in it, and MADE."""
    sources = check(small.root, "sources")[1].strip()
    text = ASSEMBLY.replace("ret", f"ret\t/* {sources} */")
    small.write("dist/target/tuvaddri.s", text)
    small.write("dist/MADE", f"kit a rattle b\nsources {sources}\nfile target/tuvaddri.s {hashlib.sha256(text.encode()).hexdigest()}\n")


def merged(folder: str, without: str) -> tuple[int, str]:
    """What a merge of two branches says, each of which changes a crate, its page, its row and dist/."""
    texts = {it: (ROOT / it).read_text() for it in NAMES if it != without}
    texts.update({f"crates/{it}/src/lib.rt": "" for it in CRATES}, **{"crates.txt": "".join(f"{it}:\n" for it in CRATES)})
    small = Small(folder, {**texts, "wrong/refused.txt": "a 1\nb 1\n", "crates/tuvaddri_c/README.md": "a page\n"})
    (small.root / "dist/check").chmod(0o755)
    make_dist(small)
    commit(small.root)
    for crate, branch in CRATES.items():
        git(small.root, "checkout", "-q", "-b", branch, "HEAD" if branch == "one" else "one~1")
        small.write(f"crates/{crate}/src/lib.rt", branch)
        small.write("crates/tuvaddri_c/README.md", f"a page of {branch}\n")
        small.write("wrong/refused.txt", f"a {branch}\nb {branch}\n")
        make_dist(small)
        commit(small.root)
        if check(small.root)[0]:
            return 2, "a branch's dist/ is not as it was made"
    done = git(small.root, "merge", "-q", "-m", "Merge", "one")
    return done.returncode, done.stdout + check(small.root)[1]


def case_dist(run: Run) -> Iterator[Optional[str]]:
    if not shutil.which("sha256sum"):
        return
    for without, wanted in (("", 0), (".gitattributes", 1)):
        with tempfile.TemporaryDirectory() as folder:
            status, said = merged(folder, without)
        yield holds(status == wanted, f"a merge without {without or 'nothing'} ends with {status}: {said}")
        yield holds(wanted or "made of other sources: dev/dist makes it anew" in said, f"dist/check says of a merge: {said}")


def case_read(run: Run) -> Iterator[Optional[str]]:
    """What each branch has read isn't listed after their merge; what has changed on none of them, or since, is."""
    with tempfile.TemporaryDirectory() as folder:
        small = Small(folder, {**texts_of("dev/cases/small.texts"), ".gitattributes": (ROOT / ".gitattributes").read_text()})
        small.write("docs/claims.read", git(small.root, "rev-parse", "HEAD").stdout)
        commit(small.root, "all")
        for branch, start, page, old in (("one", "HEAD", "docs/LIMITS.md", "# Limits"), ("two", "one~2", "docs/AGREEMENT.md", "So it is by")):
            git(small.root, "checkout", "-q", "-b", branch, start)
            small.turn(page, old, f"{old} {branch}")
            read = commit(small.root)
            yield holds(run(["claims", "--since"], root=small.root)[0] == 1, f"{branch} lists nothing that it changed")
            small.write("docs/claims.read", f"{read}\n")
            commit(small.root, "what was read")
        done = git(small.root, "merge", "-q", "-m", "Merge", "one")
        listed = run(["claims", "--since"], root=small.root)
        yield holds((done.returncode, listed[:2]) == (0, (0, "")), f"after a merge: {done.stdout}{listed}")
        small.turn("docs/LIMITS.md", "No time", "No days")
        yield holds(run(["claims", "--since"], root=small.root)[1].count("docs/LIMITS.md: No ") == 2, "a change after a merge isn't listed")
