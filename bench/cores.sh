#!/bin/sh
# Measures maps that several threads make in C++ (octofix::mapper) of scans in a hall and of a lidar
# in a street, at 0.05 m, by the processor's time, against that of one map, by medians of five runs:
# until all scans are done, if as many cores share what is done beside scans of regions, and until
# the last merge is done, along the maps and merges that wait for each other. Fails where a map is
# another one, or where the scans of 4, 8 and 16 threads aren't done 3, 6 and 10 times as fast, or
# the maps of 4 and 8 merged 2.8 and 4 times. A run may differ by half from the next.
#
#     THREADS="2 4 8 16" bench/cores.sh [--library FOLDER]
#
# The library has to be proved, since others check at run time. THREADS are 2, 4, 8 and 16 where it
# isn't set, however many cores are here. Needs g++ and some minutes.

runs=5

set -eu

here=$(CDPATH='' cd -- "$(dirname -- "$0")" && pwd)
root=$here/..
. "$root/tools/check/options.sh" || exit 1
take_options --proved "$@"
folder=$(mktemp -d)
trap 'rm -rf -- "$folder"' EXIT
need_library "$folder/library"

g++ -std=c++17 -O2 -I"$here/../bindings/c" -I"$here/../bindings/cpp" -o "$folder/cores" \
    -Wl,--wrap=octofix_scan,--wrap=octofix_merge "$here/cores.cpp" \
    "$library/liboctofix.a" -pthread
# (the numbers are parted here)
"$folder/cores" "$runs" ${THREADS-2 4 8 16}
