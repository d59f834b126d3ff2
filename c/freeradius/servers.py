"""What c/freeradius/check and c/freeradius/speed run: FreeRADIUS, hostapd's RADIUS server, eapol_test and load."""

from __future__ import annotations

import pathlib
import re
import shutil
import sys
from typing import Mapping, NamedTuple, Sequence

HERE = pathlib.Path(__file__).resolve().parent
ROOT = HERE.parent.parent
sys.path.append(f"{ROOT}/live")
import ends  # noqa: E402
import programs  # noqa: E402
import ways  # noqa: E402
from programs import answer  # noqa: E402

SECRET, HOME_SECRET = "testing123", "homesecret"
PORT, HOMES = 1812, ("127.0.0.2", "127.0.0.3")
PAGE = ROOT / "docs/SERVERS.md"
USERS = 1000
# Logins that nobody goes on with, by `load begin`: their second packet is none, or a Response of a Type with an octet, which
# is of no method, or a Nak to EAP-PSK, or to EAP-MD5 where MD5 is one of the server's methods.
FLOODS: dict[str, tuple[int, ...]] = {"left open": (), "of another Type": (4, 0), "left open by PSK": (3, 47), "left open by MD5": (3, 4)}
MD5 = ("^eap {", "eap {\n\tmd5 {\n\t}")


def part(name: str) -> list[str]:
    """The lines of a part of logins.txt."""
    text = re.sub("\n +", " ", (HERE / "logins.txt").read_text())
    lines: str = re.findall(rf"\npart {name}\n(.*?)\n(?:\n|$)", text, re.S)[0]
    return lines.splitlines()


# Keys by a name of theirs, which is the user's where it is one.
KEYS: dict[str, dict[str, str]] = {}
for whose, method, *octets in map(str.split, part("keys")):
    KEYS.setdefault(whose, {})[method] = "".join(octets)
# The users of all stores beside those of load, and what is no key in hex of theirs.
PEOPLE = re.sub(r"\{(\w+) (G?PSK)\}", lambda it: KEYS[it[1]][it[2]], "\n".join(part("users")) + "\n")
PEOPLE = re.sub(r"\b(G?PSK) (?=[:+]=)", r"Tuvaddri-\1-Key ", PEOPLE)
PASSWORDS = re.findall('Password := "(a [^"]*)"', PEOPLE)


def write_users(work: str) -> None:
    """The users of all stores: those above, and those of load."""
    pathlib.Path(work, "users").write_text(PEOPLE.replace("; ", "\n\t") + keys_of(work, "freeradius"))
    pathlib.Path(work, "users.db").unlink(missing_ok=True)
    rows = "BEGIN;\n" + keys_of(work, "sql")
    for user, attributes in re.findall("(.*)\t(.*)", PEOPLE):
        for table, part in zip(("radcheck", "radreply"), attributes.split("; ")):
            for name, operator, value in re.findall('([A-Z][A-Za-z-]+) (:=|[+]=|==?) ("[^"]*"|[^,]*)', part):
                told = (user, name, operator, value.strip('"'))
                rows += f"INSERT INTO {table} (username, attribute, op, value) VALUES {told};\n"
    add_rows(work, pathlib.Path("/etc/freeradius/3.0/mods-config/sql/main/sqlite/schema.sql").read_text())
    add_rows(work, f"{rows}COMMIT;\n")
    know(PEOPLE + rows)


def add_rows(work: str, text: str) -> None:
    programs.run("sqlite3", f"{work}/users.db", given=text)


def keys_of(work: str, form: str) -> str:
    return answer([f"{work}/load", "keys", form, str(USERS)])[1]


class Server(programs.Process):
    """A program that listens, until the end of the block, however long that is."""

    limit = ()

    def __init__(self, folder: str, name: str, words: Sequence[str], ready: str, seconds: float = 120) -> None:
        super().__init__(folder, name, words)
        self.ready, self.seconds = ready, seconds

    def __enter__(self) -> Server:
        if not self.wait_for(self.ready, self.seconds):
            self.stop()
            raise ends.Failed(f"{self.name} doesn't begin: {self.text()[-1500:]}")
        return self

    def __exit__(self, *_: object) -> None:
        self.stop()

    def lines(self) -> list[str]:
        """What the modules have logged of logins."""
        return re.findall(r"^.{24} : Auth: (EAP.*)", self.text(), re.M)

    def refused(self, reason: str) -> bool:
        """Whether the last login was refused for this reason."""
        return bool(re.match(r"EAP-G?PSK refused user=", self.lines()[-1])) and reason in self.lines()[-1]


class Searched(Server):
    """A server in whose log keys and reasons are looked for at its end."""

    logs = 0
    leaks: list[str] = []
    reasons: set[str] = set()

    def stop(self) -> None:
        super().stop()
        Searched.logs += 1
        Searched.reasons.update(re.findall(r" reason=([a-z-]+): ", "\n".join(self.lines())))
        Searched.leaks += [f"{self.log}: {it}" for it in keys_in(self.text())]


# The keys of the stores, and those that logins have given, each as its runs of sixteen hex digits.
known: set[str] = set()


def know(text: str) -> None:
    for run in re.findall("[0-9a-f]{16,}", text):
        known.update(run[at : at + 16] for at in range(len(run) - 15))


def keys_in(text: str) -> list[str]:
    """What of a key stands in a text: sixteen digits in a row, eight octets of one of the people as they are, or a password."""
    found = [it for it in PASSWORDS if it in text]
    found += [it for it in re.findall("0x([0-9a-f]{16})", PEOPLE) if bytes.fromhex(it).decode("latin-1") in text]
    for run in re.findall("[0-9A-Fa-f]{16,}", text):
        found += [run for at in range(len(run) - 15) if run[at : at + 16].lower() in known]
    return found


RADDB = pathlib.Path("/etc/freeradius/3.0")
# What a server's site has in `authorize` where it isn't that of docs/SERVERS.md: its store is asked at each packet, also at
# the identity; or it hands all stations on to two servers.
AUTHORIZE = {
    "early": "files\n\t\teap",
    "sql": "sql\n\t\teap",
    "pool": """update control {
			&Proxy-To-Realm := "both"
			&Load-Balance-Key := "%{Calling-Station-Id}"
		}""",
}
# Rules in `post-auth`.
OF_NAME = re.sub("(?m)^#", "", re.findall("(?ms)^#\t\tif .&session.*?^#\t\t}", (HERE / "raddb/sites-available/tuvaddri").read_text())[0])
RULES = {"": "", "name": OF_NAME, "old-key": "if (&session-state:Tuvaddri-Key-Number == 1) {\n\t\t\treject\n\t\t}"}
# What one server can differ in from another beside its site; window is in seconds.
WORDS = {"first": "gpsk", "md5": "", "threads": "", "at": "", "rule": "", "secret": SECRET}
WORDS |= {"timer": "60", "sessions": "24576", "window": "20"}


def freeradius(
    work: str, words: str = "file", before: Sequence[str] = (), seconds: float = 120, name: str = "server", more: str = ""
) -> Server:
    """FreeRADIUS by docs/SERVERS.md, with a copy of Debian's configuration in a folder of this name. The words are a site, what
    it differs in, and settings of both methods; `before` stands before its program's words, `more` is another virtual server.
    A site is that of the page, over a `file` or `sqlite`; one of AUTHORIZE; that of the page before another server (`proxy`);
    or the `stock` one of Debian."""
    folder = pathlib.Path(work, name)
    shutil.rmtree(folder, ignore_errors=True)
    shutil.copytree(RADDB, folder, symlinks=True)
    programs.run(f"{HERE}/enable", work, "srv", str(folder))
    site, *given = words.split()
    settings = dict(it.split("=") for it in given)
    told = {it: settings.pop(it, word) for it, word in WORDS.items()}
    if site not in ("file", "sqlite", "proxy"):
        settings.setdefault("virtual_server", "")
    put_server(work, folder, told)
    put_site(work, folder, site, told)
    put_settings(folder, settings)
    others = "".join(f"server {it} {{\nauthorize {{\n{by}\n}}\n}}\n" for it, by in (("broken", "fail"), ("rejects", "reject")))
    (folder / "sites-enabled/more").write_text(others + more)
    return Searched(str(folder), "server", [*before, "freeradius", "-d", str(folder), "-f", "-l", "stdout"], READY, seconds)


READY = "Ready to process requests"


def edit(file: pathlib.Path, *edits: tuple[str, str]) -> None:
    """Replaces what these patterns find, each at least once."""
    text = file.read_text()
    for pattern, by in edits:
        text, count = re.subn(pattern, lambda _: by, text, flags=re.M)
        if not count:
            raise ends.Failed(f"{file} has no {pattern}")
    file.write_text(text)


def put_server(work: str, folder: pathlib.Path, told: Mapping[str, str]) -> None:
    """What isn't the site's: folders, who runs it, no second before a reject, and what the words say."""
    edits = [(f"^{it} = .*", f"{it} = {folder}") for it in ("logdir", "raddbdir", "run_dir")]
    edits += [("^libdir = ", f"libdir = {work}:"), ("^\t(user|group) = .*", ""), ("reject_delay = 1", "reject_delay = 0")]
    if told["threads"]:
        edits += [(f"^\t{it} = .*", f"\t{it} = {told['threads']}") for it in ("start_servers", "max_servers")]
    edit(folder / "radiusd.conf", *edits)
    edit(folder / "clients.conf", ("testing123", told["secret"]))
    eap = f'default_eap_type = {told["first"]}\n\ttimer_expire = {told["timer"]}'
    also = [MD5] if told["md5"] else []
    edit(folder / "mods-available/tuvaddri-eap", ("default_eap_type = gpsk", eap), ("24576", told["sessions"]), *also)


def put_site(work: str, folder: pathlib.Path, site: str, told: Mapping[str, str]) -> None:
    file = folder / "sites-enabled/tuvaddri"
    if site in AUTHORIZE:
        edit(file, ("(?<=^\tauthorize {)(\n#.*)*\n\t\tif.*(\n\t\t.*)+", f"\n\t\t{AUTHORIZE[site]}"))
    if told["rule"]:
        edit(file, ("^\tpost-auth {", f'\tpost-auth {{\n\t\t{RULES[told["rule"]]}'))
    if site in ("proxy", "pool"):
        text = re.sub("@(window|pool)", lambda it: {**told, "pool": pool()}[it[1]], (HERE / "proxy.conf").read_text())
        (folder / "proxy.conf").write_text(text)
    if site == "stock":
        file.unlink()
        file = folder / "sites-enabled/default"
        file.symlink_to("../sites-available/default")
    if told["at"]:
        edit(file, ("ipaddr = [*]", f'ipaddr = {told["at"]}'), ("^\tlisten {[^}]*ipv6addr[^}]*}", ""))
    if site in ("sqlite", "sql"):
        edit(folder / "mods-available/tuvaddri-sql", ("/var/lib/freeradius", work))
        (folder / "mods-enabled/sql").symlink_to("../mods-available/tuvaddri-sql")
    else:
        shutil.copy(f"{work}/users", folder / "mods-config/files/authorize")


def pool() -> str:
    """The pool of docs/SERVERS.md."""
    blocks: list[str] = re.findall("^```conf\n(.*?)^```$", PAGE.read_text(), re.M | re.S)
    return blocks[0]


def put_settings(folder: pathlib.Path, settings: Mapping[str, str]) -> None:
    """Settings of both methods; a word without a value is left out."""
    for file in (folder / "mods-available/tuvaddri", folder / "mods-config/tuvaddri/common"):
        for word in settings:
            file.write_text(re.sub(f"^#?\t?{word} = .*", "", file.read_text(), flags=re.M))
    lines = "".join(f'\n\t{word} = "{value}"' for word, value in settings.items() if value)
    edit(folder / "mods-available/tuvaddri", ("(?<=psk {)$", lines))


def anew(work: str, name: str) -> pathlib.Path:
    """A folder of this name in which nothing is."""
    folder = pathlib.Path(work, name)
    shutil.rmtree(folder, ignore_errors=True)
    folder.mkdir()
    return folder


def hostapd(work: str, method: str, before: Sequence[str] = ()) -> Server:
    """hostapd's RADIUS server, with its own methods."""
    users = programs.write(work, "hostapd.users", keys_of(work, method.lower()))
    clients = programs.write(work, "hostapd.clients", f"127.0.0.1 {SECRET}")
    lines = ["driver=none", "interface=lo0", "eap_server=1", f"eap_user_file={users}", "server_id=srv"]
    lines += [f"radius_server_clients={clients}", f"radius_server_auth_port={PORT}"]
    return Server(work, "hostapd", [*before, "hostapd", programs.write(work, "hostapd.conf", *lines)], "AP-ENABLED")


def home(work: str, number: int) -> Server:
    """A server behind a proxy, which has another secret for it."""
    return freeradius(work, f"file at={HOMES[number]} secret={HOME_SECRET}", name=f"home{number}")


class Station(NamedTuple):
    """A login of eapol_test: whether it succeeded, and with equal link keys; how many requests it took; what it said."""

    is_good: bool
    requests: int
    said: str


# A name with a line of a log in it, and how the log has it.
FORGED = 'x"\nSun Nov 29 21:36:05 2026 : Auth: EAP-GPSK proved user="root"\x1b\\\xe9'
SHOWN = r"x\x22\x0aSun Nov 29 21:36:05 2026 : Auth: EAP-GPSK proved user=\x22root\x22\x1b\x5c\xe9"


def station(work: str, words: str) -> Station:
    """A login by words of logins.txt."""
    if words.endswith(".conf"):
        return log_in(f"{work}/made/{words}")
    method, *rest = words.split()
    suite = rest.pop(0) if rest and rest[0].isdigit() else "1"
    named = dict(it.split("=") for it in rest if "=" in it)
    user = named.get("user", "alice")
    key = KEYS.get(named.get("key", user), KEYS["alice"]).get(method, "00")
    lines = ["ap_scan=0", "network={", "key_mgmt=IEEE8021X", "eapol_flags=0", f"eap={method}", f'phase1="cipher={suite}"']
    lines += [f"identity={octets_of(user)}", f"password={key}"]
    lines += [f'anonymous_identity="{named["outer"]}"'] if "outer" in named else []
    conf = programs.write(work, "station.conf", *lines, "}")
    return log_in(conf, [it.replace("FORGED", octets_of("FORGED")) for it in rest if "=" not in it])


def octets_of(name: str) -> str:
    if name.startswith("hex:"):
        return name[4:]
    return name.replace("FORGED", FORGED).replace("\\0", "\0").encode("latin-1").hex()


def log_in(conf: str, words: Sequence[str] = ()) -> Station:
    """By a file of wpa_supplicant's."""
    ask = ["eapol_test", "-c", conf, "-a", "127.0.0.1", "-p", str(PORT), "-s", SECRET, "-t", "30", *words]
    status, said = answer(ask)
    link, keys = dict(ways.LINK_KEY.findall(said)), dict(ways.THEIR_KEY.findall(said))
    know("\n".join(keys.values()).replace(" ", ""))
    # (eapol_test compares the first of the link keys, which are the halves of the MSK, by itself)
    is_same = status == 0 and ways.EQUAL_LINK_KEYS in said
    is_good = is_same and "MSK" in keys and link.get("Recv", "") + link.get("Send", "") == keys["MSK"]
    return Station(is_good, said.count("Sending RADIUS message"), said)


class Load(NamedTuple):
    """What load wrote at its end."""

    said: str
    good: int = 0
    mismatches: int = -1
    rate: float = 0


LOAD = re.compile(r"\d+ logins: (\d+) good, \d+ bad, (\d+) mppe mismatches, .* s, (\d+) logins/s")


def flood(work: str, named: str, count: int, at_once: int = 100) -> Load:
    """As many of FLOODS, each from a station of its own."""
    words = FLOODS[named]
    return load(work, "GPSK 1", count, at_once, *((count, *words) if words else ()), begins=True)


def load(work: str, method: str, count: int, at_once: int, *words: object, begins: bool = False) -> Load:
    """Logins by load, by a method with its suite, or such as are only begun; the words are those behind the users."""
    name, _, suite = method.partition(" ")
    told = (ways.TYPES[name], suite or 0, count, at_once, USERS, *words)
    ask = [f"{work}/load", *(["begin"] if begins else []), str(PORT), SECRET, *map(str, told)]
    said = answer(ask)[1].strip()
    found = LOAD.search(said)
    return Load(said, int(found[1]), int(found[2]), float(found[3])) if found else Load(said)
