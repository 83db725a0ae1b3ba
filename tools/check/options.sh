# What all checks take, in POSIX sh, and where it comes from. The caller sets `root`, the top of the
# repository.
#
#     --program FILE      a built octomap
#     --library FOLDER    the folder of liboctofix.a, liboctofix.so.1 and octofix.wasm
#
# in any order. What isn't given is built (see tools/check/built).

# Sets `program` and `library`, of which what isn't given is empty, and `proved`.
take_options() {
    program='' library='' proved=''
    while [ $# -gt 0 ]; do
        case $1 in
        --program) program=$(realpath -e -- "${2-}") || exit 2 ;;
        --library) library=$(realpath -e -- "${2-}") || exit 2 ;;
        --proved) proved=--proved && shift && continue ;;
        *)
            echo "usage: $0 [--proved] [--program FILE] [--library FOLDER]" >&2
            exit 2
            ;;
        esac
        shift 2
    done
}

need_program() {
    [ -n "$program" ] || program=$("$root/tools/check/built" ${proved:+"$proved"} program) ||
        exit 1
    "$program" session 0.1 </dev/null || { echo "$0: $program doesn't run" && exit 1; }
}

# Puts the library into a folder of the caller's where it isn't given.
need_library() {
    [ -n "$library" ] || library=$("$root/tools/check/built" ${proved:+"$proved"} library "$1") ||
        exit 1
}

# Sets `python` to one that can import these modules, or to nothing where there is none; PYTHON may
# name it.
find_python() {
    for python in ${PYTHON:-python3 /usr/bin/python3} ''; do
        "$python" -c "import $1" 2>/dev/null && break
    done
}
