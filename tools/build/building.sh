# How the program and the library are built and kept, in POSIX sh. The caller sets `root`, and has
# read words.sh.

# (what Python is to leave out are the texts that the tools show, and make the man page of)
unset PYTHONOPTIMIZE

fail() {
    say "$1"
    exit 9
}

# Where a crate's program or library is kept, proved or unproved, with what its build said and a
# file as old as the start of that build; beside a library the module that it was compiled from.
choose() {
    crate=$1
    how=$2
    place=$root/crates/$crate/out
    [ "$how" = proved ] || place=$place/unproved
    case $crate in
    octofix) made=$place/liboctofix.a module=$place/octofix.ir ;;
    *) made=$place/$crate module=$place/$crate ;;
    esac
    stamp=$place/launcher.stamp
    log=$place/launcher.log
}

newer_sources() (
    cd -- "$root" && find crates.txt crates/*/* -name out -prune -o -newer "$stamp" -print
)

is_built() {
    [ -f "$made" ] && [ -f "$module" ] && [ -f "$stamp" ] && newer=$(newer_sources) &&
        [ -z "$newer" ]
}

# Fails where OCTOMAP_JOBS is set and no number from 1 on.
check_jobs() {
    case ${OCTOMAP_JOBS-1} in
    '' | 0* | *[!0-9]*) fail "OCTOMAP_JOBS is no number from 1 on: $OCTOMAP_JOBS" ;;
    esac
}

# How many jobs prove at once: one a processor, where each has 3 GB of free memory.
jobs_at_once() {
    processors=$(nproc)
    gigabytes=$(awk '/^MemAvailable:/ { print int($2 / 1000000) }' /proc/meminfo)
    jobs=$((gigabytes / 3 < processors ? gigabytes / 3 : processors))
    echo "${OCTOMAP_JOBS:-$((jobs > 1 ? jobs : 1))}"
}

# Runs a script of this folder, for which a Ctrl-C waits while Python starts: it would give a
# traceback there.
run_script() {
    script=$1
    shift
    block=--block-signal=INT
    env "$block" true 2>/dev/null || block=
    env ${block:+"$block"} "$root/tools/build/$script" "$@" </dev/null
}

build_proved() {
    say "$crate is proved now, which takes minutes; the kit's own words go to $log"
    run_script proved.py "$crate" "$(jobs_at_once)" "$log"
}

build_unproved() {
    say "$crate is built without proof now, which takes half a minute"
    run_script unproved.py "$crate" "$made" >"$log" 2>&1
}

# Only the built file says that there was a build.
build() {
    rm -f -- "$made" "$module" "$stamp" && mkdir -p -- "$place" || return
    : >"$stamp.new" && : >"$log" || return
    "build_$how"
    [ -f "$made" ] && mv -- "$stamp.new" "$stamp"
}

expect_kit() {
    command -v rt >/dev/null || fail 'the command rt of the kit is not on the path (see README.md)'
}

# One launcher proves at a time, and one builds without proof. One that had to wait looks again.
ensure_built() {
    choose "$1" "$2"
    is_built && return
    check_jobs
    expect_kit
    exec 9<"$root/tools/build/$how.py" || exit 9
    flock -n 9 || { say "waiting for another octomap to build $crate" && flock 9; } || exit 9
    is_built || build || fail "$crate can't be built; the last lines of $log say why"
    exec 9<&-
}

is_web_built() {
    [ -f "$web" ] && newer=$(find "$module" "$root/bindings/web/host.c" \
        "$root/tools/build/wasm.py" -newer "$web") && [ -z "$newer" ]
}

# The library, and made of its module the one for browsers and Node, octofix.wasm beside it.
ensure_web() {
    ensure_built octofix "$1"
    web=$place/octofix.wasm
    is_web_built && return
    expect_kit
    say 'the library is compiled for browsers and Node now'
    run_script wasm.py "$module" "$web" >"$log.web" 2>&1 ||
        fail "$web can't be made; the last lines of $log.web say why"
}
