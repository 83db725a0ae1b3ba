# What the launcher and the installed command have in common, in POSIX sh: their words and texts.

say() {
    printf 'octomap: %s\n' "$1" >&2
}

help() {
    cat <<'END'
usage: octomap session RES [OPTION VALUE]..   answers a script of map commands on standard input
       octomap build RES [OPTION VALUE]..     writes the .bt file of the map that a script leaves
       octomap convert [--max-bytes N]        writes the canonical form of a .bt file on the input
       octomap inspect [--max-bytes N]        writes six lines about a .bt file on standard input
       octomap frontier X Y Z X Y Z [--max-bytes N]
                                              lists the free voxels of that file between two points
                                              that have unknown ones beside them
       octomap project X Y Z X Y Z [--max-bytes N]
                                              writes the height band between two points as a PGM
       octomap vrml [--max-bytes N]           writes the occupied space of that file as VRML97 boxes
       octomap merge RULE A B                 merges two .bt files of this folder;
                                              RULE is greatest, least or first
       octomap table A B X Y Z X Y Z          counts voxels by their classes in two such files
       octomap gen SEED SCANS POINTS          writes a script of scans that these numbers make
       octomap drill SEED SCANS POINTS        does that script, and writes four lines about it
       octomap --help                         prints this
       octomap --version                      says which sources it was made of, and if it is proved

RES is the edge of a voxel in metres, from 0.0001 to 100. 'man octomap' has the script and the
replies.

options of a session or a build, in any order, each at most once:
  --hit N          what a hit adds, above 0 (850)
  --miss N         what a miss adds, below 0 (-400)
  --min N          the smallest value of a voxel, at most 0 (-2000)
  --max N          the largest value of a voxel, at least 0 (3500)
  --thr N          from this value on a voxel is occupied, above --min and at most --max (0)
  --max-groups N   the most groups of eight nodes that the map may have, 16 to 2^26 (2^24)
  --max-cells N    the most voxels that the beams of one scan may meet, 1 to 2^27 (2^26)
  --max-bytes N    the most bytes of the script, 0 to 2^40 (2^40)
The first five are whole thousandths of log-odds, of at most 1000000 in magnitude.
For convert, inspect, frontier, project and vrml --max-bytes is 0 to 2^32 (2^26, which is 64 MiB).

statuses: 0 all was done, 1 something was refused, 2 usage, 3 the input is no .bt file,
4 the input is longer than --max-bytes, 5 the input failed, 6 the output failed, 7 out of memory,
8 a file that a command names failed, 9 the program can't be built, started or installed.
END
}

# The words of the help that stand first, each with what it does behind a colon.
tasks() {
    help | awk '
        /^(usage:|      ) octomap / {
            word = substr($0, 16)
            sub(/ .*/, "", word)
            waits = 1
        }
        waits && substr($0, 44, 3) == "   " {
            does = substr($0, 47)
            sub(/;$/, "", does)
            print word ":" does
            waits = 0
        }'
}

# The options of the help.
options() {
    help | sed -n 's/^  \(--[a-z-]*\) .*/\1/p'
}

# What is wrong with the words.
usage() {
    say "$1 ('octomap --help' shows the usage)"
    exit 2
}

expect_task() {
    case ${1-} in
    session | build | convert | inspect | frontier | project | vrml) ;;
    merge | table | gen | drill) ;;
    '') usage 'a task is needed' ;;
    *) usage "there is no task '$1'" ;;
    esac
}

# Runs a program that isn't proved. A check of its own that fails ends it by SIGILL, which is 132.
run_unproved() {
    say 'this build is not proved'
    "$@"
    status=$?
    if [ "$status" -eq 132 ]; then
        say 'a run-time check stopped it: a sum overflowed, an index was out of bounds, or the like'
        say "the function is named by: gdb -batch -ex run -ex bt --args $* < INPUT"
    fi
    exit "$status"
}
