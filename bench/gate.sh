#!/bin/sh
# Measures the whole gate in a fresh clone, with nothing kept from earlier runs. README.md beside it says what is measured.
#
#   bench/gate.sh                        measures
#   bench/gate.sh compare BEFORE AFTER   puts what two runs wrote side by side, crate by crate
set -eu
. "$(dirname "$(readlink -f "$0")")/../.ci/help.sh"

case $#:${1-} in
0:) ;;
3:compare)
    exec awk '
        NF == 5 && $5 ~ /^[0-9]+$/ {
            if ($1 != "all" && !seen[$1]++) order[++count] = $1
            seconds[FNR == NR, $1] = $5
        }
        END {
            printf "%-18s%10s%10s%8s\n", "crate", "before, s", "after, s", "ratio"
            order[++count] = "all"
            for (place = 1; place <= count; place++) {
                one = seconds[1, order[place]]
                other = seconds[0, order[place]]
                printf "%-18s%10s%10s%8s\n", order[place], one == "" ? "-" : one, other == "" ? "-" : other, one * other == 0 ? "-" : sprintf("%.2f", other / one)
            }
        }' "$2" "$3"
    ;;
*)
    sed -n '4,5p' "$0" | sed 's/^# */usage: /' >&2
    exit 1
    ;;
esac

here=$(dirname "$(dirname "$(readlink -f "$0")")")
work=$(mktemp -d)
trap 'rm -rf "$work"' EXIT
trap 'exit 1' HUP INT
git clone -q "$here" "$work/repository"

# rt ci runs the checker once for each crate, once for its tests and, in a folder of its own each time, for each
# must-fail edit. A checker forks further processes, and a parent's count takes in the children that have ended.
log=$work/log
python3 -B - "$work/repository" "$log" <<'END'
import collections, glob, os, re, resource, subprocess, sys, time

sys.path.append(sys.argv[1] + "/tools")
from lib.common import Refused, need_rt_by_crate

try:
    need_rt_by_crate()
except Refused as why:
    sys.exit(f"bench/gate.sh: {why}")
TICK = os.sysconf("SC_CLK_TCK")


def processes():
    """Of each process the parent, the ticks used (those of ended children too), and the crate and part that it checks."""
    for folder in glob.glob("/proc/[0-9]*"):
        try:
            with open(f"{folder}/stat", errors="replace") as stat, open(f"{folder}/cmdline", errors="replace") as line:
                fields, words = stat.read().rpartition(")")[2].split(), line.read().split("\0")
            at = os.readlink(f"{folder}/cwd")
            parent, ticks = int(fields[1]), sum(map(int, fields[11:15]))
        except (OSError, IndexError, ValueError):
            continue
        crate = words[words.index("--crate-name") + 1] if "--crate-name" in words else None
        yield int(folder[6:]), (parent, ticks, crate, "edits" if "/rt-edit-" in at else "tests" if "--test" in words else "proof")


def sample(used, root):
    """Adds up what the checkers below this process have used so far: each with all below it is the topmost of a crate."""
    all, now = dict(processes()), collections.Counter()
    for pid, (_, ticks, _, _) in all.items():
        first, at = None, pid
        while at in all and at != root:
            first = at if all[at][2] else first
            at = all[at][0]
        if first and at == root:
            now[first] += ticks
    for pid, ticks in now.items():
        used[pid] = all[pid][2:], max(ticks, used.get(pid, (None, 0))[1])


def free():
    with open("/proc/meminfo", encoding="utf-8") as it:
        return int(re.search(r"MemAvailable:\s+(\d+)", it.read()).group(1))


begun, before, least = time.time(), free(), free()
used = {}
with open(sys.argv[2], "w", encoding="utf-8") as log:
    run = subprocess.Popen(["rt", "ci", "--anew"], cwd=sys.argv[1], stdin=subprocess.DEVNULL, stdout=log, stderr=subprocess.STDOUT)
    while run.poll() is None:
        sample(used, run.pid)
        least = min(least, free())
        time.sleep(0.25)
mine = resource.getrusage(resource.RUSAGE_CHILDREN)

rows = collections.defaultdict(collections.Counter)
for (crate, part), ticks in used.values():
    for it in (crate, "all"):
        rows[it][part] += ticks / TICK
print(f"{'crate':16}{'proof, s':>10}{'tests, s':>10}{'edits, s':>10}{'all, s':>10}")
for crate, parts in sorted(rows.items(), key=lambda it: (it[0] == "all", -sum(it[1].values()))):
    print(f"{crate:16}" + "".join(f"{parts[it]:10.0f}" for it in ("proof", "tests", "edits")) + f"{sum(parts.values()):10.0f}")
print(f"processor minutes {(mine.ru_utime + mine.ru_stime) / 60:.1f}")
print(f"minutes by the clock {(time.time() - begun) / 60:.1f}, on {os.cpu_count()} processors")
print(f"memory: the largest process {mine.ru_maxrss / 1e6:.1f} GB, all together {(before - least) / 1e6:.1f} GB")
with open(sys.argv[2], encoding="utf-8", errors="replace") as log:
    said = log.read().strip().splitlines()
print("\n".join(said if run.returncode else said[-1:]))
sys.exit(run.returncode)
END
