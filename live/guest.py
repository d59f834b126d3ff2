"""A small Linux with radios of mac80211_hwsim, in qemu without acceleration: its image, its start, and commands in it.

The kernel is Debian's, as its package has it; all else is an initramfs made here. The guest has three radios: two for access
points (wlan0, wlan1, on a bridge) and one for a station (wlan2), in a network namespace of its own, so that what passes
between them passes by radio. hwsim0 receives all of it. By eth0 the guest reaches 127.0.0.1 outside as 10.0.2.2.
"""

from __future__ import annotations

import glob
import lzma
import os
import re
import select
import stat
import subprocess
import time
from pathlib import Path
from typing import Dict, Iterator, List, Set, Tuple

import ends

# What live/install wifi unpacks: the packages of the kernel, busybox and iw.
UNPACKED = f"{ends.ROOT}/live/out/wifi/unpacked"
MODULES = "mac80211_hwsim ccm cmac gcm ctr ghash_generic bridge af_packet virtio_pci virtio_net virtio_console 9pnet_virtio 9p".split()
# (wlan2 goes where a ping to the bridge has no way but by radio; commands come by a port, since a serial line loses some)
INIT = """#!/bin/busybox sh
/bin/busybox --install -s /bin
mount -t proc p /proc; mount -t sysfs s /sys; mount -t devtmpfs d /dev
mkdir -p /tmp /run /share /etc
for it in MODULES; do
    case $it in mac80211_hwsim) more=radios=3 ;; *) more= ;; esac
    insmod /modules/$it.ko $more || echo "no module $it"
done
mount -t 9p -o trans=virtio,version=9p2000.L,msize=262144 share /share
echo root:x:0:0::/:/bin/sh >/etc/passwd
ip link set lo up
ip link add br0 type bridge; ip addr add 10.9.0.1/24 dev br0; ip link set br0 up
ip link set eth0 up; ip addr add 10.0.2.15/24 dev eth0
unshare -n sh -c 'ip link set lo up; echo $$ >/run/station; exec sleep 100000' &
until [ -s /run/station ]; do sleep 0.1; done
iw phy phy2 set netns $(cat /run/station)
exec 3<>/dev/vport0p1
printf '\\n@@0:0:\\n' >&3
cat <&3 | sh >&3 2>&1
"""
# What qemu emulates: a processor of the level x86-64-v2, with a source of random octets. Its clock goes by its instructions, two
# nanoseconds each, and by ours where it waits: timers and seconds in the guest are the same on a busy machine.
MACHINE = "-M pc -accel tcg -icount shift=1 -cpu Westmere,+rdrand -m 256 -nodefaults -no-user-config -display none -no-reboot".split()
KERNEL_WORDS = "console=ttyS0 quiet panic=-1 mitigations=off random.trust_cpu=on"
# How long a start or a command may last that has come to no end, in seconds.
MOST_SECONDS = 600


class Archive:
    """An initramfs: cpio, in its new form."""

    def __init__(self) -> None:
        self.parts: List[bytes] = []
        self.names: Set[str] = set()

    def add(self, name: str, mode: int, body: bytes = b"") -> None:
        name = name.strip("/")
        folder = os.path.dirname(name)
        if folder:
            self.add(folder, stat.S_IFDIR | 0o755)
        if name in self.names:
            return
        self.names.add(name)
        told = name.encode() + b"\0"
        numbers = [len(self.names), mode, 0, 0, 1, 0, len(body), 0, 0, 0, 0, len(told), 0]
        head = b"070701" + b"".join(b"%08x" % it for it in numbers) + told
        self.parts += [head, b"\0" * (-len(head) % 4), body, b"\0" * (-len(body) % 4)]

    def add_file(self, name: str, path: str) -> None:
        self.add(name, stat.S_IFREG | 0o755, Path(path).read_bytes())

    def octets(self) -> bytes:
        self.add("TRAILER!!!", 0)
        return b"".join(self.parts)


def modules_of(tree: str) -> Dict[str, str]:
    """The wanted modules and their files, each behind those that it needs."""
    places = {it.stem.replace("-", "_"): str(it) for it in Path(tree).rglob("*.ko")}
    found: Dict[str, str] = {}

    def add(name: str) -> None:
        if name in found or name not in places:
            return
        needs = re.search(rb"\0depends=([^\0]*)\0", Path(places[name]).read_bytes())
        for it in needs[1].decode().replace("-", "_").split(",") if needs else ():
            add(it)
        found[name] = places[name]

    for it in MODULES:
        add(it)
    return found


def libraries_of(program: str) -> Iterator[str]:
    """What the loader needs for a program."""
    told = subprocess.run(["ldd", program], stdout=subprocess.PIPE, text=True).stdout
    yield from re.findall(r"(?:=> )?(/\S+) \(0x", told)


def write_image(folder: str, programs: Dict[str, str]) -> None:
    """The kernel and the initramfs, with programs by their names in the guest. (The kernel is unpacked here: in the guest that
    takes longer than all of its start.)"""
    [packed] = glob.glob(f"{UNPACKED}/boot/vmlinuz-*")
    archive = Archive()
    modules = modules_of(f"{UNPACKED}/lib/modules")
    for name, path in modules.items():
        archive.add_file(f"modules/{name}.ko", path)
    for name, path in {**programs, "bin/busybox": f"{UNPACKED}/bin/busybox", "bin/iw": f"{UNPACKED}/sbin/iw"}.items():
        archive.add_file(name, path)
        for it in libraries_of(path):
            archive.add_file(it, os.path.realpath(it))
    for it in ("proc", "sys", "dev"):
        archive.add(it, stat.S_IFDIR | 0o755)
    archive.add("init", stat.S_IFREG | 0o755, INIT.replace("MODULES", " ".join(modules)).encode())
    Path(folder, "initramfs").write_bytes(archive.octets())
    octets = Path(packed).read_bytes()
    Path(folder, "vmlinux").write_bytes(lzma.LZMADecompressor().decompress(octets[octets.find(b"\xfd7zXZ\0") :]))


class Guest:
    """The guest, from its start to `stop`; the folder `share` of its own is /share in it."""

    def __init__(self, folder: str) -> None:
        self.share, self.console, self.count = f"{folder}/share", f"{folder}/console", 0
        os.mkdir(self.share)
        words = ["qemu-system-x86_64", *MACHINE, "-kernel", f"{folder}/vmlinux", "-initrd", f"{folder}/initramfs"]
        words += ["-append", KERNEL_WORDS, "-serial", f"file:{self.console}", "-chardev", "stdio,id=c,signal=off"]
        for it in ("virtio-serial-pci", "virtserialport,chardev=c,name=commands", "virtio-net-pci,netdev=n,romfile="):
            words += ["-device", it]
        words += ["-netdev", "user,id=n", "-fsdev", f"local,id=s,path={self.share},security_model=none"]
        words += ["-device", "virtio-9p-pci,fsdev=s,mount_tag=share"]
        with open(f"{folder}/qemu.log", "wb") as log:
            self.process = subprocess.Popen(words, stdin=subprocess.PIPE, stdout=subprocess.PIPE, stderr=log, bufsize=0)

    def run(self, command: str) -> Tuple[int, str]:
        """The status with which a command of the guest's shell ends, and what it says."""
        self.count += 1
        assert self.process.stdin
        self.process.stdin.write(f"{{ {command}\n}} </dev/null 2>&1; n=$?; echo; echo @@{self.count}:$n:\n".encode())
        return self.answer(command)

    def answer(self, command: str) -> Tuple[int, str]:
        assert self.process.stdout
        text, until = b"", time.monotonic() + MOST_SECONDS
        while True:
            found = re.search(rf"\n@@{self.count}:(\d+):\r?\n".encode(), text)
            if found:
                return int(found[1]), text[: found.start()].decode("latin-1").replace("\r", "").strip("\n")
            is_ready = select.select([self.process.stdout], [], [], max(0.0, until - time.monotonic()))[0]
            more = os.read(self.process.stdout.fileno(), 65536) if is_ready else b""
            if not more:
                raise ends.Failed(f"the guest gives no answer to {command!r}: {text[-300:]!r}")
            text += more

    def output(self, command: str) -> str:
        return self.run(command)[1]

    def wait(self, command: str, seconds: int = 60) -> bool:
        """Whether a command of the guest comes to end well within so many seconds."""
        return not self.run(f"timeout {seconds} sh -c 'until {command}; do sleep 0.1; done'")[0]

    def stop(self) -> None:
        self.process.kill()
        self.process.communicate()
