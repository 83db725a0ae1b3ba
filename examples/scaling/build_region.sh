#!/bin/sh
# Builds the map of a script of scans in one of several regions, and writes its .bt file.
#
#     build_region.sh RES REGIONS LOW HIGH NUMBER SCRIPT [OPTION VALUE].. >part.bt
#
# The regions are slabs across x: LOW and HIGH are metres, between which the slabs are of one width,
# one voxel at least; the first one also has all below them and the last one all above. NUMBER is
# from 1 to REGIONS. The script has scans and no other line that changes the map or its box.
#
# The status is that of `octomap build`: 1 where a line or a scan was refused. Numbers that make no
# region end with 2 and nothing written. A script that can't be read to its end ends with 2, too:
# what is written then is no map of it.

program=${OCTOMAP:-$(dirname -- "$0")/../../octomap}

usage() {
    echo "build_region.sh: $1" >&2
    exit 2
}

[ $# -ge 6 ] || usage 'RES REGIONS LOW HIGH NUMBER SCRIPT [OPTION VALUE].. are needed'
res=$1 regions=$2 low=$3 high=$4 number=$5 script=$6
shift 6
for it in "$regions" "$number"; do
    case $it in
    '' | *[!0-9]* | ??????*) usage "'$it' is no whole number from 0 to 65535" ;;
    esac
done
for it in "$res" "$low" "$high"; do
    case ${it#-} in
    '' | . | *[!0-9.]* | *.*.*) usage "'$it' is no length in metres" ;;
    esac
done
if [ "$number" -lt 1 ] || [ "$number" -gt "$regions" ]; then
    usage "there is no region $number of $regions"
fi
[ -r "$script" ] || usage "$script can't be read"

# The line `limit` of the region, in metres of nine digits: the middles of its two corner voxels.
# (A millionth of a voxel more, so that a face counts as the upper voxel's, however awk rounds it.)
region=$(LC_ALL=C awk -v res="$res" -v regions="$regions" -v low="$low" -v high="$high" \
    -v number="$number" '
    function floor(x) { return int(x) > x ? int(x) - 1 : int(x) }
    function key(metres) { return floor(metres / res + 0.000001) + 32768 }
    function middle(voxel) { return sprintf("%.9f", (voxel - 32768 + 0.5) * res) }
    function cut(n) { return first + int((last - first) * n / regions) }
    BEGIN {
        if (res <= 0) { print "RES is no length above 0"; exit 1 }
        first = key(low)
        last = key(high)
        if (first < 0 || last > 65535) { print "LOW or HIGH lies outside the map"; exit 1 }
        if (last - first < regions) {
            print "between LOW and HIGH there is no room for " regions " regions"
            exit 1
        }
        from = number == 1 ? 0 : cut(number - 1)
        to = number == regions ? 65535 : cut(number) - 1
        ends = middle(0) " " middle(0)
        tops = middle(65535) " " middle(65535)
        print "limit", middle(from), ends, middle(to), tops
    }') || usage "$region"

# (what reads the script says how it ended to 3; the map goes to 4. A program that has read a line
# `quit` ends before it, which is told by SIGPIPE.)
exec 4>&1
ended=$({ { echo "$region" && cat -- "$script"; echo $? >&3; } |
    "$program" build "$res" "$@" 3>&- >&4; } 3>&1)
status=$?
case $ended in
0 | 141) exit "$status" ;;
*) usage "$script can't be read to its end" ;;
esac
