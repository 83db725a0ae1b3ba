#!/bin/sh
# Merges the files part.1, part.2 and so on of the current folder, and writes the merged one: by
# pairs, the pairs of a round side by side, as many at a time as there are processors (JOBS=N sets
# another number).
#
#     merge_parts.sh REGIONS >map.bt

here=$(CDPATH='' cd -- "$(dirname -- "$0")" && pwd) || exit 1
case $1 in
'' | 0* | *[!0-9]*)
    echo 'merge_parts.sh: REGIONS is needed, a number from 1 on' >&2
    exit 2
    ;;
esac
found=$(command -v -- "${OCTOMAP:-$here/../../octomap}") && OCTOMAP=$(realpath -- "$found") || {
    echo "merge_parts.sh: there is no program ${OCTOMAP:-$here/../../octomap}" >&2
    exit 1
}
export OCTOMAP
room=$(mktemp -d ./merging.XXXXXX) || exit 1
trap 'rm -rf -- "$room"' EXIT
# (a shell that a signal ends may leave that out)
trap 'exit 130' HUP INT TERM

count=$1 round=0
for number in $(seq "$count"); do
    ln -- "part.$number" "$room/0.$number" || exit 1
done
cd -- "$room" || exit 1
while [ "$count" -gt 1 ]; do
    pairs=$(((count + 1) / 2))
    seq "$pairs" | xargs -P "${JOBS:-$(nproc)}" -I % "$here/merge_pair.sh" "$round" "$count" % ||
        exit 1
    count=$pairs round=$((round + 1))
done
cat -- "$round.1"
status=$?
cd .. && exit "$status"
