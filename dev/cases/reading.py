"""tools/reading over this repository."""

from __future__ import annotations

import re
from pathlib import Path
from typing import Iterator, Optional

from cases.lib.small import Run, holds

HEADLINE = ("login_laws/specs/Agreement", "gpsk_messages/specs/Message", "psk_messages/specs/Message", "eap_packet/specs/Packet",
            "peer_machine/specs/PeerTable", "server_machine/specs/ServerTable", "aes_block/specs/Cipher", "hmac_mac/specs/Hmac")


def case_here(run: Run) -> Iterator[Optional[str]]:
    """Each file of the headline has as many lines as are told, and the definitions that it rests on are among them."""
    out = run(["reading", "eap_login::eap_login", "login_laws::honest_ends_agree"])[1]
    files = {f"crates/{it[0]}": int(it[1]) for it in re.findall(r"^\| `([^`]*)` .* of (\d+) \|", out, re.M)}
    wrong = [it for it, lines in files.items() if Path(it).read_text().count("\n") != lines]
    yield holds(files and not wrong, f"reading of the headline has other lines of {wrong}")
    for it in HEADLINE:
        yield holds(f"crates/{it}.antt" in files, f"reading of the headline doesn't have {it}")
    others = [it for it in files if re.search("tuvaddri_c|smooth_laws/src|/proofs/", it)]
    yield holds(not others, f"reading of the headline has what it doesn't rest on: {others}")
