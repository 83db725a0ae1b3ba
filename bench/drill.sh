#!/bin/sh
# Measures drills, which make their script themselves: the four lines, the instructions, the seconds
# (the least of five runs) and the peak memory of `drill 1 5 500` and `drill 1 20 2000`. Needs
# python3 and valgrind.

set -eu

here=$(CDPATH='' cd -- "$(dirname -- "$0")" && pwd)
root=$here/..
. "$root/tools/check/options.sh" || exit 1
take_options --proved "$@"
need_program
folder=$(mktemp -d)
trap 'rm -rf -- "$folder"' EXIT


# Runs the program, and prints its seconds and its peak memory in kilobytes.
measure() {
    python3 - "$program" "$@" <<'PYTHON'
import resource, subprocess, sys, time
seconds = []
for _ in range(5):
    start = time.perf_counter()
    subprocess.run(sys.argv[1:], stdout=subprocess.DEVNULL, check=True)
    seconds.append(time.perf_counter() - start)
print(f"{min(seconds):.4f}", resource.getrusage(resource.RUSAGE_CHILDREN).ru_maxrss)
PYTHON
}

for numbers in '1 5 500' '1 20 2000'; do
    # (three words)
    # shellcheck disable=SC2086
    set -- drill $numbers
    echo "octomap $*"
    valgrind --tool=callgrind --callgrind-out-file="$folder/callgrind" "$program" "$@" \
        2>"$folder/log"
    measured=$(measure "$@")
    echo "instructions: $(awk '/Collected/ { print $NF }' "$folder/log")"
    echo "seconds: ${measured% *}"
    echo "peak memory in kilobytes: ${measured#* }"
done
