#!/bin/sh
# Measures the conversion of a canonical file of 409,748 bytes: the instructions and the peak
# memory, and how time grows where the map is of four times as many points. Fails where a limit is
# exceeded. Needs python3 and valgrind.

set -eu

most_instructions=24000000
most_kilobytes=40960
most_growth=5

here=$(CDPATH='' cd -- "$(dirname -- "$0")" && pwd)
root=$here/..
. "$root/tools/check/options.sh" || exit 1
take_options --proved "$@"
need_program
folder=$(mktemp -d)
trap 'rm -rf -- "$folder"' EXIT

python3 "$here/make_scans.py" 1 5 500 | "$program" build 0.05 >"$folder/small"
python3 "$here/make_scans.py" 1 5 2000 | "$program" build 0.05 >"$folder/large"

# Converts a file in this folder, and prints the seconds (the least of five runs) and the peak
# memory in kilobytes.
measure() {
    python3 - "$program" "$folder/$1" <<'PYTHON'
import resource, subprocess, sys, time
program, file = sys.argv[1:]
seconds = []
for _ in range(5):
    with open(file, "rb") as given:
        start = time.perf_counter()
        subprocess.run([program, "convert"], stdin=given, stdout=subprocess.DEVNULL, check=True)
        seconds.append(time.perf_counter() - start)
print(f"{min(seconds):.4f}", resource.getrusage(resource.RUSAGE_CHILDREN).ru_maxrss)
PYTHON
}

valgrind --tool=callgrind --callgrind-out-file="$folder/callgrind" "$program" convert \
    <"$folder/small" >"$folder/converted" 2>"$folder/log"
cmp "$folder/small" "$folder/converted"
instructions=$(awk '/Collected/ { print $NF }' "$folder/log")
small=$(measure small)
large=$(measure large)
kilobytes=${small#* }
bytes=$(wc -c <"$folder/large")
times=$(awk "BEGIN { print $bytes / $(wc -c <"$folder/small") }")
growth=$(awk "BEGIN { print ${large% *} / ${small% *} }")

echo "instructions: $instructions (at most $most_instructions)"
echo "peak memory in kilobytes: $kilobytes (at most $most_kilobytes)"
echo "seconds for the file: ${small% *}, for one of $times times the bytes: ${large% *}"
echo "grown $growth times (at most $most_growth)"
[ "$instructions" -le "$most_instructions" ] && [ "$kilobytes" -le "$most_kilobytes" ] &&
    awk "BEGIN { exit !($growth <= $most_growth) }"
