#!/bin/sh
# Merges one pair of the files of a round: of ROUND.1 to ROUND.COUNT in the current folder the
# NUMBERth two, as file NUMBER of the next round. The last one of an odd count has no other, and
# goes on as it is. The files that were merged are removed.
#
#     merge_pair.sh ROUND COUNT NUMBER
#
# No voxel is known in two of them, so that any rule and any order give the same.

program=${OCTOMAP:-$(dirname -- "$0")/../../octomap}
one=$1.$((2 * $3 - 1)) other=$1.$((2 * $3)) merged=$(($1 + 1)).$3

if [ "$((2 * $3))" -gt "$2" ]; then
    mv -- "$one" "$merged"
else
    "$program" merge first "$one" "$other" >"$merged" && rm -- "$one" "$other"
fi
