#!/bin/sh
# Measures sessions of scans at voxels of 5 cm: the instructions and the peak memory of 5 scans of
# 500 points, and how time grows where each scan has four times the points. Fails where a limit is
# exceeded. Needs python3 and valgrind.

set -eu

most_instructions=84000000
most_kilobytes=18432
most_growth=4

here=$(CDPATH='' cd -- "$(dirname -- "$0")" && pwd)
root=$here/..
. "$root/tools/check/options.sh" || exit 1
take_options --proved "$@"
need_program
folder=$(mktemp -d)
trap 'rm -rf -- "$folder"' EXIT

python3 "$here/make_scans.py" 1 5 500 >"$folder/small"
python3 "$here/make_scans.py" 1 5 2000 >"$folder/large"

# Runs the program on a script in this folder, and prints its seconds (the least of five runs) and
# its peak memory in kilobytes.
measure() {
    python3 - "$program" "$folder/$1" <<'PYTHON'
import resource, subprocess, sys, time
program, script = sys.argv[1:]
seconds = []
for _ in range(5):
    with open(script, "rb") as lines:
        start = time.perf_counter()
        words = [program, "session", "0.05"]
        subprocess.run(words, stdin=lines, stdout=subprocess.DEVNULL, check=True)
        seconds.append(time.perf_counter() - start)
print(f"{min(seconds):.4f}", resource.getrusage(resource.RUSAGE_CHILDREN).ru_maxrss)
PYTHON
}

valgrind --tool=callgrind --callgrind-out-file="$folder/callgrind" "$program" session 0.05 \
    <"$folder/small" >"$folder/replies" 2>"$folder/log"
instructions=$(awk '/Collected/ { print $NF }' "$folder/log")
small=$(measure small)
large=$(measure large)
kilobytes=${small#* }
growth=$(awk "BEGIN { print ${large% *} / ${small% *} }")

cat "$folder/replies"
echo "instructions: $instructions (at most $most_instructions)"
echo "peak memory in kilobytes: $kilobytes (at most $most_kilobytes)"
echo "seconds for 5 scans of 500 points: ${small% *}, of 2000 points: ${large% *}"
echo "grown $growth times (at most $most_growth)"
[ "$instructions" -le "$most_instructions" ] && [ "$kilobytes" -le "$most_kilobytes" ] &&
    awk "BEGIN { exit !($growth <= $most_growth) }"
