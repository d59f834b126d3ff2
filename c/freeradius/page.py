#!/usr/bin/env -S python3 -B
"""Follows docs/SERVERS.md from its first command to its last, under Debian's systemd over a copy of this machine's files
(apart), as root: from a machine without FreeRADIUS and the stores on, which are installed, and whose source is fetched. Behind
each store it makes 64 logins at once while keys change, and 1,024 at once, and then what an operator may meet.

    c/freeradius/page.py FOLDER [SOURCE]

FOLDER is one in which c/freeradius/build has built. Where the source is given, there is no network, and what is installed is
taken with its stock configuration. What stands for the machine's own is sudo, where it isn't there, and apt-get, which alone
is in the machine's network. The last line is `page: N passed, M failed`, and the status is 0 where M is 0.
"""

from __future__ import annotations

import os
import pathlib
import re
import resource
import subprocess
import sys
import time
from concurrent.futures import ThreadPoolExecutor
from typing import Optional

import servers

import ends

HERE = pathlib.Path(__file__).resolve().parent
LOG = pathlib.Path("/var/log/freeradius/radius.log")
PLACE = pathlib.Path("/page")
WRAPPERS = {
    "sudo": 'if [ "$1" = -u ]; then user=$2; shift 2; exec runuser -u "$user" -- "$@"; fi\nexec "$@"',
    "apt-get": 'exec nsenter --net=/apart/net /usr/bin/apt-get "$@"',
}
FRESH = """export DEBIAN_FRONTEND=noninteractive
apt-get -qq -y purge 'freeradius*' 'libfreeradius*' eapoltest libtalloc-dev sqlite3 'postgresql*' 'mariadb-server*' slapd \
    ldap-utils >purged 2>&1 || cat purged
rm -rf /etc/freeradius /var/log/freeradius /var/lib/mysql /etc/ldap/slapd.d /var/lib/ldap
! command -v freeradius || exit 3
"""
STORES = {
    "sqlite": ["sqlite3", "-cmd", ".timeout 5000", "/var/lib/freeradius/users.db"],
    "PostgreSQL": ["runuser", "-u", "freerad", "--", "psql", "-q", "radius"],
    "MariaDB": ["runuser", "-u", "freerad", "--", "mysql", "radius"],
    "LDAP": ["ldapmodify", "-QY", "EXTERNAL", "-H", "ldapi:///"],
}
# What a store is as services, of which the first begins the others.
SERVICES = {"PostgreSQL": ["postgresql", "postgresql@*"], "MariaDB": ["mariadb"], "LDAP": ["slapd"]}
PROGRAMS = {"MariaDB": "/usr/sbin/mariadbd", "LDAP": "/usr/sbin/slapd"}
# The store's words for a user's attribute: a key or a bar, and what is for the reply.
IN_LDAP = {"radcheck": "radiusControlAttribute", "radreply": "radiusReplyAttribute"}
ENTRY = "dn: uid={0},dc=nodomain\nchangetype: add\nobjectClass: account\nobjectClass: radiusprofile\nuid: {0}\n\n"
KEY = "Tuvaddri-GPSK-Key"
# Those of load are gone.
OTHERS = "DELETE FROM radcheck WHERE username LIKE 'user%';\n"
# The logins of a store, and so many at once: first for long, and then as a whole site comes back.
LOGINS, AT_ONCE = 5000, 64
RETURNED, ALL_AT_ONCE = 2000, 1024
# Logins that nobody goes on with, and the real ones beside them.
OPENED, BESIDE, MOST_MEGABYTES = 160000, 2000, 850
# A read replica of the database, by a port of its own, and a store that asks either.
REPLICA = r"""main=$(echo /var/lib/postgresql/*/main)
version=$(basename "$(dirname "$main")")
pg_createcluster "$version" two
rm -r "${main%main}two"
runuser -u postgres -- pg_basebackup -R -D "${main%main}two"
pg_ctlcluster "$version" two start
cd /etc/freeradius/3.0
sed 's/^sql {/sql two {/; s/radius_db = .*/radius_db = "port=5433 dbname=radius"/' mods-available/tuvaddri-sql >mods-enabled/two
sed -i 's/^\t\t-sql$/redundant-load-balance {\nsql\ntwo\n}/' sites-available/tuvaddri
systemctl restart freeradius
"""
# LDAP and MariaDB are stores no more.
AGAIN = """rm -f /etc/freeradius/3.0/mods-enabled/ldap
sed -i 's/"mysql"/"postgresql"/' /etc/freeradius/3.0/mods-available/tuvaddri-sql
systemctl restart freeradius
"""
# What the site has ready: MAC authentication, and the number of a login's key in SQL.
SITE = servers.RADDB / "sites-available/tuvaddri"
READY = r"""sed -i~ -e '/^#\t\tif (!/,/^#\t\t}/s/^#//' -e '/^#\t\tAuth-Type PAP/,/^#\t\t}/s/^#//' -e '/^#\t\t"%{sql:/s/^#//' "$site"
systemctl restart freeradius
"""
MAC = "020000000009"


def blocks(language: str) -> list[str]:
    return re.findall(rf"^```{language}\n(.*?)^```$", servers.PAGE.read_text(), re.M | re.S)


def row(store: str, user: str, attribute: str, operator: str, value: str, table: str = "radcheck", verb: str = "add") -> str:
    """A user's attribute, for the store's own command."""
    if store == "LDAP":
        of = IN_LDAP[table]
        return f"dn: uid={user},dc=nodomain\nchangetype: modify\n{verb}: {of}\n{of}: {attribute} {operator} {value}\n\n"
    if verb == "delete":
        return f"DELETE FROM {table} WHERE username = '{user}' AND attribute = '{attribute}' AND op = '{operator}';\n"
    return f"INSERT INTO {table} (username, attribute, op, value) VALUES ('{user}', '{attribute}', '{operator}', '{value}');\n"


class Page:
    passed = failed = 0

    def __init__(self, work: str) -> None:
        self.work, self.said, self.asked = work, "", 0

    def that(self, named: str, is_so: bool, said: str = "") -> None:
        Page.passed += bool(is_so)
        Page.failed += not is_so
        print(f"page: {named}{'' if is_so else ' FAILED'}", flush=True)
        if not is_so:
            print("\n".join(f"    {line}" for line in said.splitlines()[-12:]), flush=True)

    def run(self, commands: str, named: str) -> None:
        words = ["sh", "-eu", "-c", commands]
        pipe, none = subprocess.PIPE, subprocess.DEVNULL
        done = subprocess.run(words, cwd=PLACE, stdin=none, stdout=pipe, stderr=subprocess.STDOUT, errors="replace")
        self.said += done.stdout
        self.asked += commands.count("eapol_test -c")
        self.that(named, done.returncode == 0, done.stdout)
        servers.know("".join(it.read_text() for it in PLACE.glob("*/radcheck.sql")))

    def store(self, name: str, rows: str) -> None:
        """Gives a store rows by its own command, in SQL all or none."""
        told = rows if name == "LDAP" else f"BEGIN;\n{rows}COMMIT;\n"
        done = subprocess.run(STORES[name], input=told, text=True, stdout=subprocess.PIPE, stderr=subprocess.STDOUT)
        if done.returncode or "rror" in done.stdout:
            raise ends.Failed(f"{name}: {done.stdout[-400:]}")

    def logins(self, named: str, done: servers.Load, least: int) -> None:
        self.that(f"{named}: {done.said}", done.good == least and done.mismatches == 0, done.said)

    def keys_of_all(self, name: str) -> None:
        if name != "LDAP":
            self.store(name, servers.keys_of(self.work, "sql"))
            return
        keys = re.findall(f"(?m)^(\\S+)\t.*?{KEY} := (\\w+)", servers.keys_of(self.work, "freeradius"))
        self.store(name, "".join(ENTRY.format(user) + row(name, user, KEY, "+=", key) for user, key in keys))

    def over(self, name: str) -> None:
        """64 logins at once over a store in which second keys come and go, and then a whole site at once."""
        self.keys_of_all(name)
        with ThreadPoolExecutor() as beside:
            done = beside.submit(servers.load, self.work, "GPSK 1", LOGINS, AT_ONCE, 4)
            while not done.done():
                keys = {f"user{it}": f"0x{os.urandom(32).hex()}" for it in range(0, servers.USERS, 10)}
                for verb in ("add", "delete"):
                    self.store(name, "".join(row(name, user, KEY, "+=", key, verb=verb) for user, key in keys.items()))
                    time.sleep(0.2)
        self.logins(f"{name}, {AT_ONCE} at once while keys change", done.result(), LOGINS)
        self.whole_site(name)

    def whole_site(self, name: str) -> None:
        self.logins(f"{name}, {ALL_AT_ONCE} at once", servers.load(self.work, "GPSK 1", RETURNED, ALL_AT_ONCE, 4), RETURNED)

    def rights(self, name: str, folder: str, user: str) -> None:
        """A VLAN, a second key, names that are nearly the user's, and a bar, each by the store's own command."""
        conf = f"{folder}/{user}.conf"
        self.vlan(name, user, conf)
        self.run(f"c/freeradius/make-keys {folder}2 {user}", f"{name}: a second key of {user} is made")
        self.store(name, row(name, user, KEY, "+=", f"0x{self.key(f'{folder}2/{user}.conf')}"))
        numbers = [self.station(it).is_good and self.last("key=(1|2)/2$") for it in (conf, f"{folder}2/{user}.conf")]
        self.that(f"{name}: both keys log in, each by its number", all(numbers) and numbers[0] != numbers[1], str(numbers))
        for it in (user.upper(), user.title(), user.translate({97: 225, 101: 233}), user + "\0"):
            done = self.station(self.as_another(conf, it))
            is_refused = not done.is_good and self.last("refused .* reason=(no-key|bad-packet)")
            self.that(f"{name}: {user}'s key is none of {ascii(it)}", bool(is_refused), done.said)
        self.blank_inside(name, user, conf)
        if name == "LDAP":
            self.shown(conf)
        self.store(name, row(name, user, "Auth-Type", ":=", "Reject"))
        done = self.station(conf)
        self.that(f"{name}: {user} is barred", not done.is_good and bool(self.last("reason=barred: ")), done.said)

    def blank_inside(self, name: str, user: str, conf: str) -> None:
        """By inner_identity a name inside that the store may take for the user's."""
        method = servers.RADDB / "mods-available/tuvaddri"
        text = method.read_text()
        servers.edit(method, ("^#\tinner_identity = no", "\tinner_identity = yes"))
        subprocess.run(["systemctl", "restart", "freeradius"], check=True)
        for inside, is_good in ((user, True), (f"{user} ", False)):
            done = self.station(self.as_another(conf, inside, "anonymous"))
            is_so = done.is_good == is_good and self.last("proved user=" if is_good else "reason=rejected: .*whitespace")
            self.that(f"{name}: {user}'s key by the name {inside!r} inside", bool(is_so), done.said)
        method.write_text(text)
        subprocess.run(["systemctl", "restart", "freeradius"], check=True)

    def shown(self, conf: str) -> None:
        """-X prints keys of LDAP, as the page says."""
        subprocess.run(["systemctl", "stop", "freeradius"], check=True)
        with servers.Server(str(PLACE), "debug", ["freeradius", "-X"], servers.READY) as server:
            done = self.station(conf)
        self.that("-X prints keys of LDAP", done.is_good and bool(servers.keys_in(server.text())), done.said)
        subprocess.run(["systemctl", "start", "freeradius"], check=True)

    def key(self, conf: str) -> str:
        return re.findall("\tpassword=(.*)", (PLACE / conf).read_text())[0]

    def as_another(self, conf: str, name: str, outside: str = "") -> str:
        """A network with the key of another one, and this name, which perhaps isn't that outside."""
        told = f"\tidentity={name.encode().hex()}" + (f'\n\tanonymous_identity="{outside}"' if outside else "")
        (PLACE / "another.conf").write_text(re.sub("\tidentity=.*", told, (PLACE / conf).read_text()))
        return "another.conf"

    def closed(self) -> None:
        """Nobody but FreeRADIUS and root reads a key in LDAP."""
        base, ours = ["-LLL", "-b", "dc=nodomain"], ["-QY", "EXTERNAL", "-H", "ldapi:///"]
        asks = {"anybody": ["-x"], "a user of the system": ours, "freerad": ours}
        for who, words in asks.items():
            user = {"freerad": "freerad"}.get(who, "nobody")
            ask = ["runuser", "-u", user, "--", "ldapsearch", *words, *base, "(|(uid=frank)(&(uid=user7)(radiusControlAttribute=*)))"]
            said = subprocess.run(ask, stdout=subprocess.PIPE, stderr=subprocess.STDOUT, text=True).stdout
            shown = [said.count(it) > 0 for it in ("uid: frank", "uid: user7", "radiusControlAttribute")]
            self.that(f"LDAP: what {who} may read", shown == [True, *[who == "freerad"] * 2], said)

    def station(self, conf: str) -> servers.Station:
        return servers.log_in(str(PLACE / conf))

    def last(self, pattern: str) -> Optional[str]:
        """What the last line of the log has of this."""
        found = re.search(pattern, LOG.read_text("latin-1").splitlines()[-1])
        return found[0] if found else None

    def database(self, name: str, *words: str) -> None:
        subprocess.run(["pg_ctlcluster", *os.listdir("/usr/lib/postgresql"), name, *words], check=True)

    def lost_store(self, name: str, conf: str) -> None:
        """The store stops, and comes back."""
        subprocess.run(["systemctl", "stop", *SERVICES[name]], check=True)
        done = self.station(conf)
        is_told = bool(self.last("user=.* reason=no-store: "))
        self.that(f"{name} stops: no login, which the log says", not done.is_good and is_told, done.said)
        subprocess.run(["systemctl", "start", SERVICES[name][0]], check=True)
        # (retry_delay)
        time.sleep(6)
        done = self.station(conf)
        self.that("it is back, and so are logins", done.is_good, done.said)

    def vlan(self, name: str, user: str, conf: str) -> None:
        self.store(name, row(name, user, "Tunnel-Private-Group-Id", ":=", "42", "radreply"))
        said = self.station(conf).said
        is_there = re.search(r"\(Tunnel-Private-Group-Id\) length=4\n *Value: 3432", said)
        self.that(f"{name}: a user's VLAN arrives", bool(is_there), said)

    def keys_end(self) -> None:
        """Expiration, with its Session-Timeout."""
        for day, is_over in (("1 Jan 2020", True), ("1 Jan 2037", False)):
            self.store("PostgreSQL", row("PostgreSQL", "carol", "Expiration", ":=", day))
            done = self.station("more/carol.conf")
            told = self.last('reason=rejected: "expiration: ') if is_over else re.search("(Session-Timeout)", done.said)
            self.that(f"Expiration on {day}", done.is_good != is_over and bool(told), done.said)
            self.store("PostgreSQL", row("PostgreSQL", "carol", "Expiration", ":=", day, verb="delete"))

    def ask(self, user: str, password: str, more: str = "Message-Authenticator = 0x00") -> str:
        """What FreeRADIUS answers a request without EAP."""
        words = ["radclient", "-r", "1", "-t", "2", "127.0.0.1:1812", "auth", servers.SECRET]
        told = f'User-Name = "{user}"\nUser-Password = "{password}"\n{more}\n'
        said = subprocess.run(words, input=told, stdout=subprocess.PIPE, stderr=subprocess.STDOUT, text=True).stdout
        return "".join(re.findall("Received (Access-\\w+)", said))

    def site_ready(self) -> None:
        """What the site has commented: MAC authentication, and SQL's column of the keys in use."""
        self.store("PostgreSQL", "ALTER TABLE radpostauth ADD key_number INTEGER;\n")
        self.store("PostgreSQL", row("PostgreSQL", MAC, "Cleartext-Password", ":=", MAC))
        self.run(f"site={SITE}\n{READY}", "the site's ready lines are taken")
        answers = [self.ask(MAC, MAC), self.ask(MAC, "another"), self.ask("alice", "alice"), self.ask(MAC, MAC, "")]
        wanted = ["Access-Accept", "Access-Reject", "Access-Reject", ""]
        self.that("MAC authentication, of its own clients alone, and signed", answers == wanted, str(answers))
        self.run("c/freeradius/make-keys newer carol", "a second key of carol is made")
        self.store("PostgreSQL", row("PostgreSQL", "carol", KEY, "+=", f"0x{self.key('newer/carol.conf')}"))
        done = self.station("newer/carol.conf")
        asked = [*STORES["PostgreSQL"], "-Atc", "SELECT username, reply, key_number FROM radpostauth ORDER BY id DESC LIMIT 1"]
        said = subprocess.run(asked, stdout=subprocess.PIPE, text=True).stdout
        self.that("SQL says which key is in use", done.is_good and said == "carol|Access-Accept|2\n", f"{said}\n{done.said}")
        self.run(f"mv {SITE}~ {SITE}\nsystemctl restart freeradius", "the site is the stock one again")

    def flood(self) -> None:
        """Logins that nobody goes on with take none from others, and no memory for good."""
        users = servers.RADDB / "mods-config/files/authorize"
        users.write_text(users.read_text() + servers.keys_of(self.work, "freeradius"))
        servers.edit(servers.RADDB / "mods-available/tuvaddri-eap", servers.MD5)
        self.store("PostgreSQL", OTHERS)
        subprocess.run(["systemctl", "restart", "freeradius"], check=True)
        self.logins(f"the file, {AT_ONCE} at once", servers.load(self.work, "GPSK 1", LOGINS, AT_ONCE, 4), LOGINS)
        self.whole_site("the file")
        words = ["systemctl", "show", "-P", "MainPID", "freeradius"]
        pid = subprocess.run(words, stdout=subprocess.PIPE, text=True).stdout.strip()
        for named in servers.FLOODS:
            pathlib.Path(f"/proc/{pid}/clear_refs").write_text("5")
            done: list[servers.Load] = []
            with ThreadPoolExecutor() as beside:
                other = beside.submit(servers.flood, self.work, named, OPENED)
                while not (done and other.done()):
                    done.append(servers.load(self.work, "GPSK 1", BESIDE, 8))
            good, count = sum(it.good for it in done), BESIDE * len(done)
            most = int(re.findall(r"VmHWM:\s+(\d+)", pathlib.Path(f"/proc/{pid}/status").read_text())[0]) / 1000
            is_so = good == count and other.result().good == OPENED and not any(it.mismatches for it in done)
            rate = f"{OPENED} {named}, {other.result().rate:.0f} a second"
            lines = LOG.read_text("latin-1").splitlines()
            lost = [it for it in lines if " : Error: " in it or ('station="02-00-00-' in it and " proved " not in it)]
            said = "\n".join([*lost[-8:], other.result().said, *(it.said for it in done[-3:])])
            self.that(f"beside {rate}, {good} of {count} logins are good, {most:.0f} MB", is_so and most < MOST_MEGABYTES, said)

    def replicas(self) -> None:
        """A database and a replica of it, each of which is lost once while logins go on."""
        self.run(REPLICA, "a replica of the database is made")
        for name in ("main", "two"):
            with ThreadPoolExecutor() as beside:
                done = beside.submit(servers.load, self.work, "GPSK 1", LOGINS, AT_ONCE, 4)
                time.sleep(0.5)
                self.database(name, "stop", "-m", "fast")
            self.logins(f"by redundant-load-balance, while the database {name} is lost", done.result(), LOGINS)
            self.that("a user of it alone logs in", self.station("more/carol.conf").is_good)
            self.database(name, "start")
            # (retry_delay)
            time.sleep(6)

    def follow(self, source: str) -> None:
        """The page's commands, each store's behind the one before."""
        commands = blocks("sh")
        at = [next(number for number, it in enumerate(commands) if word in it) for word in ("createuser", "mysql", "slapd")]
        before = "" if source else FRESH
        first = "".join(commands[: at[0]]).replace("modules fetch", f"modules {source or 'fetch'}")
        self.run(before + first, "its commands, up to those for PostgreSQL, end well")
        self.over("sqlite")
        self.that("the barred user is refused", not self.station("more/dave.conf").is_good)
        if source:
            subprocess.run(["systemctl", "start", "postgresql", "mariadb", "slapd"])
        self.run("".join(commands[at[0] : at[1]]), "its commands for PostgreSQL end well")
        self.over("PostgreSQL")
        for name, number, folder, user in (("MariaDB", at[1], "maria", "erin"), ("LDAP", at[2], "people", "frank")):
            if source and not os.path.exists(PROGRAMS[name]):
                print(f"page: not run: {name}: {PROGRAMS[name]} isn't here")
                continue
            self.run(commands[number], f"its commands for {name} end well")
            self.over(name)
            self.lost_store(name, f"{folder}/{user}.conf")
            self.rights(name, folder, user)
            if name == "MariaDB":
                # (a user with a key here and two in LDAP has three)
                self.store(name, OTHERS)
            if name == "LDAP":
                self.closed()
        self.run(AGAIN, "PostgreSQL is the store again")
        self.run("".join(commands[at[2] + 1 :]), "its other commands end well")

    def judge(self) -> None:
        count = self.asked
        logins = [len(re.findall(it, self.said, re.M)) for it in ("^SUCCESS$", "^MPPE keys OK: 1  mismatch: 0$")]
        self.that(f"its {count} logins succeed, with the same link keys", logins == [count, count], str(logins))
        self.lost_store("PostgreSQL", "more/carol.conf")
        self.vlan("PostgreSQL", "carol", "more/carol.conf")
        self.keys_end()
        self.site_ready()
        self.flood()
        self.replicas()
        log = LOG.read_text("latin-1")
        for line in "".join(blocks("text")).splitlines():
            self.that(f"its line is in the log: {line[:40]}..", f" : Auth: {line}\n" in log, log[-2000:])
        self.that("its counts are the status server's", '"EAP-GPSK proved=1"' in self.said, self.said)
        self.that("nothing of a key is in its log", bool(log) and not servers.keys_in(log))


def inside(work: str, source: str) -> None:
    (PLACE / "bin").mkdir(parents=True)
    (PLACE / "c").symlink_to(servers.ROOT / "c")
    for name, text in WRAPPERS.items():
        (PLACE / "bin" / name).write_text(f"#!/bin/sh\n{text}\n")
        (PLACE / "bin" / name).chmod(0o755)
    os.environ["PATH"] = f"{PLACE}/bin:{os.environ['PATH']}"
    # (load takes a socket for each login at once)
    resource.setrlimit(resource.RLIMIT_NOFILE, (4 * ALL_AT_ONCE, 4 * ALL_AT_ONCE))
    page = Page(work)
    try:
        page.follow(source)
        page.judge()
    except Exception as fault:
        page.that("it can't go on", False, str(fault) or repr(fault))
    print(f"page: {Page.passed} passed, {Page.failed} failed")
    sys.exit(1 if Page.failed else 0)


def main() -> int:
    words = sys.argv[1:]
    if words in (["--help"], ["-h"]):
        sys.exit(print(__doc__.strip()))
    if words[:1] == ["inside"]:
        inside(words[1], words[2] if len(words) > 2 else "")
    if not 1 <= len(words) <= 2 or words[0].startswith("-"):
        sys.exit("usage: c/freeradius/page.py FOLDER [SOURCE]")
    again = [sys.executable, "-B", f"{HERE}/page.py", "inside", *map(os.path.realpath, words)]
    told = {"EAP_LOGIN": ends.program(), "TUV_LIBRARY": os.environ.get("TUV_LIBRARY", "")}
    environment = [f"{name}={word}" for name, word in told.items()]
    # (descriptor 9 may be the machine's network)
    status = subprocess.run([f"{HERE}/apart", words[0], "env", *environment, *again], close_fds=False).returncode
    if status == 3:
        print("page: not run: docs/SERVERS.md: systemd can't be begun over a copy of this machine's files\npage: 0 passed, 0 failed")
        return 0
    return status


if __name__ == "__main__":
    ends.run("page.py", main)
