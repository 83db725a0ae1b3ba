#!/bin/sh
# Builds the map of a script of scans by several processes, one for each region, and merges their
# files. What it writes is byte for byte what one process writes: `octomap build RES <SCRIPT`.
#
#     build_regions.sh RES REGIONS LOW HIGH SCRIPT [OPTION VALUE].. >map.bt
#
# build_region.sh says what the words mean. As many processes run at a time as there are processors
# (JOBS=N sets another number). It ends with 0 also where a scan was refused (status 1 of a region):
# such a script has a map all the same.

here=$(CDPATH='' cd -- "$(dirname -- "$0")" && pwd) || exit 1
[ $# -ge 5 ] || {
    echo 'build_regions.sh: RES REGIONS LOW HIGH SCRIPT [OPTION VALUE].. are needed' >&2
    exit 2
}
program=${OCTOMAP:-$here/../../octomap}
found=$(command -v -- "$program") || {
    echo "build_regions.sh: there is no program $program" >&2
    exit 1
}
program=$(realpath -- "$found") || exit 1
script=$(realpath -- "$5") || exit 1
room=$(mktemp -d) || exit 1
trap 'rm -rf -- "$room"' EXIT
# (a shell that a signal ends may leave that out)
trap 'exit 130' HUP INT TERM
export OCTOMAP="$program"

# One region, for its number and words of this script.
cat >"$room/one" <<'END'
#!/bin/sh
number=$1 room=$2 region=$3 res=$4 regions=$5 low=$6 high=$7 script=$8
shift 8
"$region" "$res" "$regions" "$low" "$high" "$number" "$script" "$@" >"$room/part.$number"
[ $? -le 1 ]
END
chmod +x "$room/one"
res=$1 regions=$2 low=$3 high=$4
shift 5

# (xargs puts the number where %number% stands)
seq "$regions" | xargs -P "${JOBS:-$(nproc)}" -I %number% \
    "$room/one" %number% "$room" "$here/build_region.sh" \
    "$res" "$regions" "$low" "$high" "$script" "$@" || exit

cd -- "$room" && "$here/merge_parts.sh" "$regions"
