"""The ways of logging in with a real end (README.md): hostapd, wpa_supplicant and eapol_test, each with a configuration of its
own.
"""

from __future__ import annotations

import dataclasses
import re
import time
from functools import partial
from string import Template
from typing import Any, Callable, Dict, List, Optional, Sequence, Tuple

import ends
from login_keys import name_of
from programs import HERE, Cable, Process, enter_namespace, lacks, need, read, script, started, table, write

SECRET, WRONG_SECRET = "testing123", "testing124"
PORT = "1812"
KEYS = {"GPSK": bytes(range(32)).hex(), "PSK": bytes(range(16)).hex()}
WRONG_KEYS = {"GPSK": bytes(range(1, 33)).hex(), "PSK": bytes(range(1, 17)).hex()}
TYPES = {"GPSK": "51", "PSK": "47"}
# How long a login may last, in seconds.
MOST_SECONDS = 100
# How long it may last until somebody with a wrong key is told, with the start of his program.
TOLD_SECONDS = 20
# What logs say of the keys with -K -dd, and what our scripts say.
THEIR_KEY = re.compile(r"EAP-G?PSK: (E?MSK) - hexdump\(len=64\):((?: [0-9a-f]{2}){64})")
LINK_KEY = re.compile(r"^MS-MPPE-(Recv|Send)-Key.* - hexdump\(len=32\):((?: [0-9a-f]{2}){32})$", re.M)
OUR_LINK = re.compile(r"^link (\S+)$", re.M)
OUR_VERDICT = re.compile(r"^(?:login \d+ )?state (\S+)(?: msk (\S+) emsk (\S+))?$", re.M)
THEIR_SUCCESS = "EAP: EAP entering state SUCCESS"
# What eapol_test says of the link keys, without the word -n.
EQUAL_LINK_KEYS = "MPPE keys OK: 1  mismatch: 0"


@dataclasses.dataclass
class Login:
    """What a login is tried with. The server knows the one user alice."""

    name: str
    method: str = "GPSK"  # the one that the peer allows
    suite: str = "1"  # the one that the peer allows
    proposed: str = ""  # what the server proposes, parted by commas; the peer's where nothing is said
    peer: str = "alice"
    server: str = "any"  # the name that our peer accepts; servers are called srv
    wrong_key: bool = False  # at the peer
    wrong_secret: bool = False  # where RADIUS comes from
    barred: bool = False  # where the server is ours
    expanded: bool = False  # whether our ends read Expanded Types
    lose: str = "0"  # which packet our end doesn't send, which twice, and which packet of our peer is altered where
    repeat: str = "0"
    alter: str = ""
    proxy_states: str = ""  # what each request carries, in hex, parted by commas
    untraced: bool = False  # whether our end doesn't say what passes
    unheard: bool = False  # whether the real end gives up before our server comes to an end
    state: str = "SUCCESS"  # in which our end is to stand at last; "none" where no login begins
    here: str = ""  # what our end says: a pattern
    there: str = ""  # what the other end says: a pattern

    def secret(self) -> str:
        return WRONG_SECRET if self.wrong_secret else SECRET

    def proxies(self) -> List[str]:
        return [it for it in self.proxy_states.split(",") if it]


def logins() -> Dict[str, List[Login]]:
    """The logins of logins.txt, by the ways that try them."""
    found: Dict[str, List[Login]] = {way: [] for way in WAYS}
    login, its_ways = Login(""), [""]
    for line in table("logins.txt"):
        word, _, rest = line.strip().partition(" ")
        if word == "ways":
            its_ways = rest.split(" ")
        elif line.startswith(" "):
            setattr(login, word, rest)
        else:
            name, _, rest = line.partition(":")
            fields: Dict[str, Any] = {key: value or True for key, _, value in (it.partition("=") for it in rest.split())}
            login = Login(name, **fields)
            for way in its_ways:
                found[way].append(login)
    return found


def configured(folder: str, login: Login, name: str, source: str = "") -> str:
    """The file of this name, as the one of configurations/ has it for a login."""
    methods, secret = login.proposed or login.method, login.secret()
    values: Dict[str, str] = {**vars(login), **KEYS, "folder": folder, "methods": methods, "right_key": KEYS[login.method]}
    values.update(secret=secret, secret_in_hex=secret.encode().hex(), type=TYPES[login.method])
    values.update(key=(WRONG_KEYS if login.wrong_key else KEYS)[login.method], types=" ".join(TYPES[it] for it in methods.split(",")))
    values.update(may="barred" if login.barred else "allowed", is_expanded="yes" if login.expanded else "no")
    return write(folder, name, Template(read(f"{HERE}/configurations/{source or name}")).substitute(values).rstrip())


# Our ends.


def ours(folder: str, login: Login, name: str, settings: str, *words: str, where: Sequence[str] = (), log: str = "") -> Process:
    """One of our scripts, and what is done to its packets."""
    words = (configured(folder, login, settings), *words, "--lose", login.lose, "--repeat", login.repeat)
    words += ("--trace",) * (not login.untraced)
    if login.alter and settings == "peer.settings":
        words += ("--alter", *login.alter.split(","))
    return Process(folder, log or name, script(name, *words), where)


def radius_server(folder: str, login: Login, where: Sequence[str] = ()) -> Process:
    return need(ours(folder, login, "radius_server", "server.settings", "127.0.0.1", PORT, where=where), "^ready ")


def radius_client(folder: str, login: Login, log: str = "") -> Process:
    words = ["127.0.0.1", PORT, "--timer", "0.7", "--tries", "40" if login.state == "SUCCESS" else "4"]
    words += [word for it in login.proxies() for word in ("--proxy-state", it)]
    return ours(folder, login, "radius_client", "peer.settings", *words, log=log)


def wired(folder: str, login: Login) -> Process:
    # (hostapd sends a Request again after three seconds)
    return ours(folder, login, "wired", "peer.settings", Cable.NEAR, "--idle", str(MOST_SECONDS) if login.state == "SUCCESS" else "2")


# The other programs.


def hostapd(folder: str, login: Login, kind: str, where: Sequence[str] = ()) -> Process:
    """hostapd's server has one key for all methods of a user, and that of the peer's method is the one."""
    for name in {"radius": ("users", "clients"), "wired": ("users",)}.get(kind, ()):
        configured(folder, login, name)
    words = ["hostapd", "-K", "-dd", configured(folder, login, "hostapd.conf", f"hostapd-{kind}.conf")]
    return need(Process(folder, "hostapd", words, where), "AP-ENABLED")


def eapol_test(folder: str, login: Login) -> Process:
    words = ["-c", configured(folder, login, "station.conf"), "-a", "127.0.0.1", "-p", PORT, "-s", login.secret()]
    words += ["-t", str(MOST_SECONDS), *(f"-N33:x:{it}" for it in login.proxies())]
    return Process(folder, "eapol_test", ["eapol_test", *words])


# The ways. Each gives the process of our end, those of the other ends, and whether these succeeded.

Run = Tuple[Process, List[Process], bool]


def by_radius(folder: str, login: Login) -> Run:
    server = radius_server(folder, login)
    client = radius_client(folder, dataclasses.replace(login, lose="0", repeat="0"))
    return server, [client], verdict_of(client)[0] == "SUCCESS"


def by_eapol_test(folder: str, login: Login) -> Run:
    server = radius_server(folder, login)
    tester = eapol_test(folder, login)
    await_end(server, tester, login)
    there = tester.ended(MOST_SECONDS if login.state == "SUCCESS" else 0)
    # (one that is ended by a signal writes SUCCESS as its last line, whatever came before)
    return server, [tester], tester.process.returncode == 0 and THEIR_SUCCESS in there and EQUAL_LINK_KEYS in there


def await_end(server: Process, other: Process, login: Login) -> None:
    """Waits for the verdict of our server, or for what it is to show where it comes to none, and then for what the real
    end makes of it."""
    server.wait_for(login.here if login.unheard else "^login 1 ", MOST_SECONDS)
    if login.state in ("SUCCESS", "FAILURE") or login.wrong_key:
        other.wait_for("EAP: EAP entering state (SUCCESS|FAILURE)", MOST_SECONDS)
    else:
        # (of a success that must not come nothing tells when to look)
        other.wait_for(login.there or THEIR_SUCCESS, MOST_SECONDS if login.there else 0.5)


def by_hostapd(kind: str, folder: str, login: Login) -> Run:
    server = hostapd(folder, login, kind, Cable(folder).far if kind == "wired" else ())
    peer = (wired if kind == "wired" else radius_client)(folder, login)
    return peer, [server], server.wait_for(THEIR_SUCCESS, MOST_SECONDS if verdict_of(peer)[0] == "SUCCESS" else 0)


def by_wpa_supplicant(folder: str, login: Login) -> Run:
    far = Cable(folder).far
    server = radius_server(folder, login, far)
    authenticator = hostapd(folder, login, "authenticator", far)
    words = ["-D", "wired", "-i", Cable.NEAR, "-c", configured(folder, login, "station.conf"), "-dd", "-K"]
    supplicant = Process(folder, "wpa_supplicant", ["wpa_supplicant", *words])
    await_end(server, supplicant, login)
    is_success = "CTRL-EVENT-EAP-SUCCESS" in supplicant.text()
    is_success = is_success and authenticator.wait_for("AUTH_PAE entering state AUTHENTICATED", MOST_SECONDS)
    return server, [supplicant, authenticator], is_success


# What came of a login.

Verdict = Tuple[str, Optional[ends.Names]]


def verdict_of(script: Process) -> Verdict:
    """How the end of a script of ours stands, once that has ended."""
    return verdicts(script.ended(MOST_SECONDS))[0]


def verdicts(text: str) -> List[Verdict]:
    """The states and the names of the keys that one of our scripts tells of its logins; "none" where it tells of none."""
    found = [(it[1], (it[2], it[3]) if it[2] else None) for it in OUR_VERDICT.finditer(text)]
    return found or [("none", None)]


def keys_in(text: str) -> Optional[ends.Names]:
    """The names of the last MSK and EMSK in a log, or of those that a script of ours tells."""
    found = {name: name_of(bytes.fromhex(dump)) for name, dump in THEIR_KEY.findall(text)}
    return (found["MSK"], found["EMSK"]) if len(found) == 2 else verdicts(text)[0][1]


def link_in(text: str) -> str:
    """The name of the link keys that came to our client, or that a log has one behind the other; none where none came."""
    found, ours = dict(LINK_KEY.findall(text)), OUR_LINK.search(text)
    return ours[1] if ours else name_of(bytes.fromhex(found["Recv"] + found["Send"])) if len(found) == 2 else ""


# Each way: what runs it, and the programs that it takes.
WAYS: Dict[str, Tuple[Callable[[str, Login], Run], Tuple[str, ...]]] = {
    "radius": (by_radius, ()),
    "eapol_test": (by_eapol_test, ("eapol_test",)),
    "hostapd-radius": (partial(by_hostapd, "radius"), ("hostapd",)),
    "hostapd-wired": (partial(by_hostapd, "wired"), ("hostapd", "nsenter")),
    "wpa_supplicant": (by_wpa_supplicant, ("wpa_supplicant", "hostapd", "nsenter")),
}
# The state in which our end is left by a wrong key: a server gives the peer up, a peer is refused.
WITH_WRONG_KEY = {way: "FAILURE" if way.startswith("hostapd") else "TIMEOUT_FAILURE" for way in WAYS}


def reason_against(way: str, script_words: Sequence[str]) -> Optional[str]:
    """Why a way can't be tried on this machine, or None; then the script runs in a network namespace of its own."""
    missing = lacks(*WAYS[way][1])
    return f"{', '.join(missing)} isn't installed (live/install does that)" if missing else enter_namespace(script_words)


@dataclasses.dataclass
class Outcome:
    """How both ends stand after a login: what ours has said, its state and the names of its (MSK, EMSK); what the other has
    said, whether it succeeded, and the names of its keys; the name of the link keys as the access point has them, None
    where the way has none; and how long it was from the start of the peer's program until both had come to this."""

    trace: str
    state: str
    our_keys: Optional[ends.Names]
    their_text: str
    is_success: bool
    their_keys: Optional[ends.Names]
    link: Optional[str]
    seconds: float


def log_in(way: str, folder: str, login: Login) -> Outcome:
    """A login, after which nothing of it runs on."""
    try:
        end, others, is_success = WAYS[way][0](folder, login)
        # (the peer's program begins last)
        seconds = time.monotonic() - Process.began
    finally:
        started.close()
    here, there = end.text(), "".join(it.text() for it in others)
    link = None if way == "hostapd-wired" else link_in(here + there)
    return Outcome(here, *verdicts(here)[0], there, is_success, keys_in(there), link, seconds)


def complaints(login: Login, outcome: Outcome) -> List[str]:
    """What isn't as it should be after a login."""
    fails, ours, theirs, link = login.state != "SUCCESS", outcome.our_keys, outcome.their_keys, outcome.link
    held = {
        f"our end stands in {outcome.state}, and not in {login.state}": outcome.state == login.state,
        "the other end succeeds" if fails else "the other end doesn't succeed": outcome.is_success != fails,
        f"our end doesn't say {login.here}": re.search(login.here, outcome.trace, re.M),
        f"the other end doesn't say {login.there}": re.search(login.there, outcome.their_text, re.M),
        f"a wrong key is told after {outcome.seconds:.1f} s": not login.wrong_key or outcome.seconds < TOLD_SECONDS,
        "link keys come without a success": not fails or not link,
        "our end tells no keys": fails or ours,
        "the other end tells no keys": fails or theirs,
        f"the keys have the names {ours} here and {theirs} there": fails or ours == theirs,
        f"the link keys have the name {link or '(none)'}, and the MSK {ours and ours[0]}": fails or link in (None, ours and ours[0]),
    }
    return [text for text, it in held.items() if not it]
