#!/bin/sh
# Counts the instructions of commands at voxels of 5 cm, on the map of 5 scans of 500 points (edits:
# on an empty one), and fails where a limit is exceeded: those of an edit, a query, a block that a
# list looks at, a cast, and a byte of a file and of a snapshot. Instructions don't show what the
# system takes for the replies, so the time of a session's edits stands beside that of a build,
# which writes no reply. Needs python3 and valgrind.

set -eu

here=$(CDPATH='' cd -- "$(dirname -- "$0")" && pwd)
root=$here/..
. "$root/tools/check/options.sh" || exit 1
take_options --proved "$@"
need_program
folder=$(mktemp -d)
trap 'rm -rf -- "$folder"' EXIT
failed=0

python3 "$here/make_scans.py" 1 5 500 | sed '/^quit$/d' >"$folder/scans"

# The instructions of the script of this name in the folder; its replies go to NAME.replies.
count() (
    cd -- "$folder"
    valgrind --tool=callgrind --callgrind-out-file=callgrind "$program" session 0.05 \
        <"$1" >"$1.replies" 2>log
    awk '/Collected/ { print $NF }' log
)

# Says what KIND took after these lines had been served, shared by so many, and at most how much.
measure() {
    kind=$1 before=$2 taken=$3 shares=$4 most=$5
    if [ "${before:-0}" -le 0 ] || [ "${taken:-0}" -le "${before:-0}" ]; then
        echo "$kind: nothing was counted"
        failed=1
        return
    fi
    each=$(((taken - before) / shares))
    echo "$kind: $each instructions each of $shares (at most $most)"
    [ "$each" -le "$most" ] || failed=1
}

# A script of this kind after the scans.
after_scans() {
    python3 "$here/make_commands.py" "$1" | cat -- "$folder/scans" - >"$folder/$1"
}

: >"$folder/nothing"
python3 "$here/make_commands.py" edits >"$folder/edits"
measure edits "$(count nothing)" "$(count edits)" 100000 1740
# The processor's milliseconds, the system's among them, of the edits by this task: the least of
# seven runs.
milliseconds() {
    python3 - "$folder/edits" "$program" "$1" 0.05 <<'PYTHON'
import os, subprocess, sys
def took():
    with open(sys.argv[1], "rb") as script:
        ran = subprocess.Popen(sys.argv[2:], stdin=script, stdout=subprocess.DEVNULL)
    used = os.wait4(ran.pid, 0)[2]
    return used.ru_utime + used.ru_stime
print(round(1000 * min(took() for _ in range(7))))
PYTHON
}
session=$(milliseconds session)
build=$(milliseconds build)
echo "edits in a file: $session ms in a session, $build in a build (at most as many)"
[ "$session" -le "$build" ] || failed=1
scans=$(count scans)
after_scans gets
measure gets "$scans" "$(count gets)" 20000 1280
after_scans list
measure 'blocks of a list' "$scans" "$(count list)" 1000000 210
after_scans casts
measure casts "$scans" "$(count casts)" 1000 2840
after_scans ignoring
measure 'casts that ignore unknown voxels' "$scans" "$(count ignoring)" 1000 16300
# The bytes that the script of this kind saved.
saved() {
    awk '/^saved/ { print $2 }' "$folder/$1.replies"
}

after_scans save
taken=$(count save)
measure 'bytes of a file that is saved' "$scans" "$taken" "$(saved save)" 450
after_scans snapshot
taken=$(count snapshot)
measure 'bytes of a snapshot, written and restored' "$scans" "$taken" "$(saved snapshot)" 225
exit "$failed"
