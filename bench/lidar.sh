#!/bin/sh
# Measures scans against those of another build, mostly that of commit 594f9b3, in which beams were
# walked as their points come and each voxel was tested in a box: the processor time of dense scans,
# by turns, and the instructions of sparse ones; and those of scans in four boxes against those of
# one map. Fails where a ratio is exceeded.
#
#     bench/lidar.sh BEFORE [PROGRAM]
#
# BEFORE and PROGRAM (the built one where it isn't given) are two builds of octomap_cli of one kind,
# both proved or both without proof. Needs python3 with numpy, and valgrind.

set -eu

here=$(CDPATH='' cd -- "$(dirname -- "$0")" && pwd)
before=$(realpath -- "${1:?the program to compare with}")
program=$(realpath -- "${2:-$here/../crates/octomap_cli/out/octomap_cli}")
folder=$(mktemp -d)
trap 'rm -rf -- "$folder"' EXIT
failed=0

python3 "$here/make_scans.py" 1 1 89446 >"$folder/random"
python3 "$here/make_lidar.py" room 4 1400 >"$folder/room"
python3 "$here/make_lidar.py" street 4 1400 >"$folder/street"
python3 "$here/make_scans.py" 1 20 2000 >"$folder/wide"
python3 "$here/make_scans.py" 1 5 500 >"$folder/small"

# expect WHAT CAME MOST: says a ratio, and whether it is at most as large as it may be.
expect() {
    echo "$1: $2 (at most $3)"
    awk "BEGIN { exit !($2 <= $3) }" || failed=1
}

# The seconds of processor time of the other program and of this one for a script: the medians of
# five runs each, by turns.
seconds() {
    python3 - "$before" "$program" "$folder/$1" <<'PYTHON'
import os, statistics, subprocess, sys
*programs, script = sys.argv[1:]
seconds = {it: [] for it in programs}
for _ in range(5):
    for it in programs:
        with open(script, "rb") as lines:
            words = [it, "session", "0.05"]
            child = subprocess.Popen(words, stdin=lines, stdout=subprocess.DEVNULL)
            _, status, usage = os.wait4(child.pid, 0)
        child.returncode = os.waitstatus_to_exitcode(status)
        if child.returncode:
            sys.exit(f"{it} ended with status {child.returncode}")
        seconds[it].append(usage.ru_utime + usage.ru_stime)
print(*(statistics.median(seconds[it]) for it in programs))
PYTHON
}

# The time of this program against that of the other one.
timed() {
    both=$(seconds "$1")
    awk "BEGIN { printf \"%.3f\", ${both#* } / ${both% *} }"
}

# The instructions that a program takes for a script.
instructions() {
    valgrind --tool=callgrind --callgrind-out-file=/dev/null "$1" session 0.05 <"$folder/$2" \
        2>&1 >"$folder/replies" | awk '/Collected/ { print $NF }'
}

# The same against those of the other one.
counted() {
    own=$(instructions "$program" "$1")
    awk "BEGIN { printf \"%.3f\", $own / $(instructions "$before" "$1") }"
}

expect '89,446 points in random directions, seconds' "$(timed random)" 0.66
expect 'a room, 4 turns of 64 rings, seconds' "$(timed room)" 0.74
expect 'a street, 4 turns of 64 rings, seconds' "$(timed street)" 0.90
expect '20 scans of 2,000 points, instructions' "$(counted wide)" 0.84
expect '5 scans of 500 points, instructions' "$(counted small)" 0.84

# Four boxes side by side across x, which have all voxels together.
boxes=0
for limits in '-1638.375 -4.025' '-3.975 -0.025' '0.025 3.975' '4.025 1638.375'; do
    low=${limits% *} high=${limits#* } far=1638.375
    { echo "limit $low -$far -$far $high $far $far" && cat -- "$folder/wide"; } >"$folder/boxed"
    boxes=$((boxes + $(instructions "$program" boxed)))
done
whole=$(instructions "$program" wide)
ratio=$(awk "BEGIN { printf \"%.3f\", $boxes / $whole }")
expect 'four boxes against one map, instructions' "$ratio" 1.35
exit "$failed"
