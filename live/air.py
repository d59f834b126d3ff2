"""Access points and a station in a guest (guest.py): their configurations, how they are started and stopped, and what they say.

Programs of `theirs` are Debian's, of `ours` those with the library's methods (c/hostapd/build).
"""

from __future__ import annotations

import re
from pathlib import Path
from typing import Any, Dict, List, Mapping, Optional, Tuple

import ends
import programs
from guest import Guest
from ways import KEYS, SECRET

# (hostapd takes the key of a user's first line, so each method has a user of its own; live/radius_server knows alice alone)
USERS = {"GPSK": "alice@example.org", "PSK": "psk@example.org"}
POINTS = ("02:00:00:00:00:00", "02:00:00:00:01:00")
STATION = "02:00:00:00:02:00"
CHANNELS = ((1, 2412), (6, 2437))
# The key under which access points give each other keys of FT.
BETWEEN = bytes(range(32)).hex()
# What a key management asks of both ends beside its name.
PMF = {"WPA-EAP": 1, "OKC": 1, "FT-EAP": 1, "WPA-EAP-SHA256": 2, "WPA-EAP-SUITE-B-192": 2, "FILS-SHA256": 1}
# What has begun an EAP login, and what has ended it, in a log of the station's.
EVENT = re.compile(r"^([\d.]+): wlan2: +CTRL-EVENT-(EAP-STARTED|EAP-FAILURE|DISCONNECTED|CONNECTED)", re.M)

Settings = Dict[str, Any]


def point_settings(at: int, management: str, more: Mapping[str, Any]) -> Settings:
    """An access point's, by name; `more` adds or replaces some, or takes them away by None."""
    name = "WPA-EAP" if management == "OKC" else management
    settings: Settings = {
        "interface": f"wlan{at}", "bridge": "br0", "driver": "nl80211", "ctrl_interface": "/run/hostapd", "ssid": "tuvaddri",
        "hw_mode": "g", "channel": CHANNELS[at][0], "wpa": 2, "wpa_key_mgmt": name, "rsn_pairwise": "CCMP", "ieee8021x": 1,
        "ieee80211w": PMF[management], "okc": int(management == "OKC"), "eapol_version": 2, "eap_server": 1,
        "eap_user_file": "/share/users", "nas_identifier": f"ap{at}.example.org",
    }
    if management == "WPA-EAP-SUITE-B-192":
        settings.update(rsn_pairwise="GCMP-256", group_mgmt_cipher="BIP-GMAC-256")
    if management == "FT-EAP":
        other = 1 - at
        settings.update(
            mobility_domain="a1b2", r0_key_lifetime=10000, r1_key_holder=f"00010203040{at}", reassociation_deadline=1000, ft_over_ds=0,
            pmk_r1_push=1, r0kh=f"{POINTS[other]} ap{other}.example.org {BETWEEN}", r1kh=f"{POINTS[other]} 00:01:02:03:04:0{other} {BETWEEN}",
        )
    return {**settings, **more}


def station_settings(management: str, method: str, more: Mapping[str, Any]) -> Settings:
    """The station's network; a method is PSK, or GPSK and its suite."""
    word, _, suite = method.partition(" ")
    name = "WPA-EAP" if management == "OKC" else management
    settings: Settings = {
        "ssid": '"tuvaddri"', "key_mgmt": name, "ieee80211w": PMF[management], "eap": word, "identity": f'"{USERS[word]}"',
        "password": KEYS[word], "phase1": f'"cipher={suite}"' if suite else None, "proactive_key_caching": int(management == "OKC"),
        "scan_freq": "2412 2437",
    }
    if management == "WPA-EAP-SUITE-B-192":
        settings.update(pairwise="GCMP-256", group="GCMP-256", group_mgmt="BIP-GMAC-256")
    return {**settings, **more}


def lines_of(settings: Settings) -> str:
    return "".join(f"{name}={it}\n" for name, it in settings.items() if it is not None)


def dumps(text: str, what: str) -> List[str]:
    """The octets that a log shows under this name, in hex."""
    return [it.replace(" ", "") for it in re.findall(rf"{what} - hexdump\(len=\d+\):((?: [0-9a-f]{{2}})+)", text)]


class Air:
    """What is started stays until it is stopped; /tmp/ap.log and /tmp/sta.log of the guest are the logs since the start."""

    def __init__(self, guest: Guest) -> None:
        self.guest = guest
        self.write("users", "".join(f'"{user}" {method} {KEYS[method]}\n' for method, user in USERS.items()))

    def write(self, name: str, text: str) -> None:
        Path(self.guest.share, name).write_text(text)

    def start_points(self, whose: str, management: str, count: int = 1, server: Optional[Settings] = None, **more: Any) -> None:
        """Access points, and a RADIUS server in the same process, if there are settings of one."""
        for at in range(count):
            self.write(f"ap{at}.conf", lines_of(point_settings(at, management, more)))
        names = " ".join(f"/share/ap{at}.conf" for at in range(count))
        if server:
            self.write("clients", f"127.0.0.1 {SECRET}\n")
            self.write("server.conf", lines_of(server))
            names += " /share/server.conf"
        self.guest.run(f"rm -f /tmp/ap.log; /{whose}/hostapd -K -dd -t -B -P /run/ap.pid -f /tmp/ap.log {names}")
        for at in range(count):
            self.guest.wait(f"grep -q \"wlan{at}: AP-ENABLED\" /tmp/ap.log")
        if server:
            self.guest.wait(f"grep -q \"{server['interface']}: AP-ENABLED\" /tmp/ap.log")

    def start_station(self, whose: str, management: str, method: str, **more: Any) -> None:
        network = lines_of(station_settings(management, method, more))
        self.write("sta.conf", f"ctrl_interface=/run/wpa\nap_scan=1\nnetwork={{\n{network}}}\n")
        self.station("iw dev wlan2 scan flush freq 2412 >/dev/null")
        words = "-K -dd -t -B -D nl80211 -i wlan2 -P /run/sta.pid -f /tmp/sta.log -c /share/sta.conf"
        self.guest.run("rm -f /tmp/sta.log")
        self.station(f"/{whose}/wpa_supplicant {words}")

    def stop(self, name: str) -> None:
        """The access points, `ap`, or the station, `sta`."""
        self.guest.run(f"kill $(cat /run/{name}.pid); while [ -e /run/{name}.pid ]; do sleep 0.05; done")

    def station(self, words: str) -> str:
        """A command where the station is."""
        return self.guest.output(f"nsenter -n -t $(cat /run/station) {words}")

    def ask(self, words: str) -> str:
        return self.station(f"wpa_cli -p /run/wpa -i wlan2 {words}")

    def status(self) -> Dict[str, str]:
        return dict(re.findall(r"^([^=\n]+)=(.*)$", self.ask("status"), re.M))

    def awaits(self, event: str, times: int = 1, log: str = "sta") -> bool:
        """Whether a log comes to have an event so often."""
        return self.guest.wait(f"[ $(grep -c \"{event}\" /tmp/{log}.log) -ge {times} ]")

    def count(self, event: str, log: str = "sta") -> int:
        return int(self.guest.output(f"grep -c '{event}' /tmp/{log}.log"))

    def pings(self, count: int = 2) -> bool:
        self.station("ip addr add 10.9.0.2/24 dev wlan2 2>/dev/null")
        return f"{count} packets received" in self.station(f"ping -c {count} -i 0.2 -W 5 10.9.0.1")

    def record(self) -> None:
        """Begins to record the air: what comes behind it is recorded."""
        # (the log of an earlier recording would say too soon that it listens; the buffer holds all frames of a row)
        self.guest.run("rm -f /tmp/air.pcap /tmp/tcpdump.log; ip link set hwsim0 up")
        self.guest.run("tcpdump -Z root -i hwsim0 -B 8192 -U -w /tmp/air.pcap 2>/tmp/tcpdump.log & echo $! >/run/tcpdump.pid")
        if not self.guest.wait("grep -q \"listening on\" /tmp/tcpdump.log"):
            raise ends.Failed(f"the air isn't recorded: {self.guest.output('cat /tmp/tcpdump.log')}")

    def recorded(self) -> str:
        """Ends the recording, air.pcap in the folder shared, once it has the last frame of a station that was stopped; says what it
        lacks. (tcpdump comes to a frame up to a second late, and not at all if it is ended before.)"""
        last = f"type mgt subtype deauth and wlan addr2 {STATION}"
        has_last = self.guest.wait(f"tcpdump -Z root -r /tmp/air.pcap {last} 2>/dev/null | grep -q .")
        self.guest.run("kill $(cat /run/tcpdump.pid); wait $(cat /run/tcpdump.pid); cp /tmp/air.pcap /share/air.pcap")
        there = programs.answer(["tcpdump", "--count", "-r", f"{self.guest.share}/air.pcap"])[1]
        told = f"{self.guest.output('cat /tmp/tcpdump.log')}\n{there}"
        count = {what: int(it) for it, what in re.findall("^([0-9]+) packets?( captured| dropped by kernel|)$", told, re.M)}
        if not has_last:
            return "the recording lacks the station's last frame"
        if count.get(" dropped by kernel"):
            return f"the recorder lost {count[' dropped by kernel']} frames"
        return f"the recording has {count.get('')} of {count.get(' captured')} frames" if count.get("") != count.get(" captured") else ""

    def logs(self) -> Tuple[str, str]:
        return self.guest.output("cat /tmp/ap.log"), self.guest.output("cat /tmp/sta.log")
