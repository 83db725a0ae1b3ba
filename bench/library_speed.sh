#!/bin/sh
# Measures calls of the library, and fails where a limit is exceeded: what a get takes beside its
# walk through the tree, a get of many points, the leaves of 500,000 nodes, a copy of as many, and
# an empty map, in nanoseconds, milliseconds and bytes; and the instructions of scans of 2,000
# points, against those of a session that does the same without reading the script.
#
#     bench/library_speed.sh [--program FILE] [--library FOLDER]
#
# Both have to be proved builds, since others check at run time. Needs gcc and valgrind. The times
# are the least of seven runs, and stand on a machine that does nothing else.

set -eu

most_get=200        # nanoseconds
most_get_all=100    # nanoseconds a point
most_leaves=15      # milliseconds
most_copy=15        # milliseconds
most_empty=4096     # bytes
most_scan=1.02      # times the session

here=$(CDPATH='' cd -- "$(dirname -- "$0")" && pwd)
root=$here/..
. "$root/tools/check/options.sh" || exit 1
take_options --proved "$@"
need_program
folder=$(mktemp -d)
trap 'rm -rf -- "$folder"' EXIT
need_library "$folder/library"
failed=0

# The instructions that a command takes; what it prints goes to the file 'replies'.
instructions() {
    valgrind --tool=callgrind --callgrind-out-file=/dev/null "$@" >"$folder/replies" \
        2>"$folder/log"
    awk '/Collected/ { print $NF }' "$folder/log"
}

# expect WHAT CAME MOST: says a number, and whether it is at most as large as it may be.
expect() {
    echo "$1: $2 (at most $3)"
    awk "BEGIN { exit !($2 <= $3) }" || failed=1
}

gcc -O2 -std=gnu11 -I"$here/../bindings/c" -o "$folder/speed" "$here/library_speed.c" \
    "$library/liboctofix.a" -lm
"$program" gen 1 3 2000 >"$folder/few"
"$program" gen 1 5 500 >"$folder/many"
sed 's/^\(scan [^ ]* [^ ]* [^ ]*\) 1 0 0 [^ ]*/\1 0 0 0 0/' "$folder/few" >"$folder/refused"

"$folder/speed" times "$folder/many" >"$folder/times"
number() { awk -v name="$1" '$1 == name { print $2 }' "$folder/times"; }
echo "a map of $(number nodes) nodes"
expect 'nanoseconds of a get beside its walk' "$(number get)" "$most_get"
expect 'nanoseconds a point of get_all' "$(number get_all)" "$most_get_all"
expect 'milliseconds of the leaves of 500,000 nodes' "$(number leaves)" "$most_leaves"
expect 'milliseconds of a copy of 500,000 nodes' "$(number copy)" "$most_copy"
expect 'bytes of an empty map' "$(number empty)" "$most_empty"

session=$(instructions "$program" session 0.05 <"$folder/few")
cp -- "$folder/replies" "$folder/wanted"
session=$((session - $(instructions "$program" session 0.05 <"$folder/refused" || true)))
calls=$(instructions "$folder/speed" scans "$folder/few")
cmp -- "$folder/wanted" "$folder/replies" || failed=1
calls=$((calls - $(instructions "$folder/speed" refused "$folder/few")))
echo "instructions of 3 scans of 2,000 points: $calls by the library, $session by the session"
expect 'times the session' "$(awk "BEGIN { print $calls / $session }")" "$most_scan"
exit "$failed"
