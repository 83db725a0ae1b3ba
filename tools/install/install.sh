#!/bin/sh
# Installs the program and the library, once they are built, and says what stands where.
#
#     tools/install/install.sh HOW PREFIX PROGRAM ARCHIVE VERSION [LAYOUT [MODULE]]
#
# HOW is proved or unproved; what isn't proved gets names of its own. ARCHIVE is what the kit made
# of the library, beside which octofix.wasm stands, and VERSION what the installed command answers
# to --version. LAYOUT is debian where PREFIX is the folder usr of Debian; else, with none or
# prefix, all finds its files from where it stands. MODULE is the compiled module of the Python
# package; else it is compiled here, and where it can't be, the package and its tools aren't
# installed.

root=$(dirname -- "$(readlink -f -- "$0")")/../.. && . "$root/tools/install/words.sh" || exit 1
parts=$root/tools/install
how=$1 program=$3 archive=$4 version=$5 module=${7-}
suffix=
[ "$how" = proved ] || suffix=-unproved
number=$(printf '%s\n' "$version" | sed -n '1s/^octomap \([^ ]*\).*/\1/p')
room=$(mktemp -d) && trap 'rm -rf -- "$room"' EXIT || exit 1
# (a shell that a signal ends may leave that out)
trap 'exit 130' HUP INT TERM
mkdir -p -- "$2" && prefix=$(cd -- "$2" && pwd) || exit 1

case ${6-} in
debian)
    lib=lib/x86_64-linux-gnu packages=lib/python3/dist-packages python=/usr/bin/python3
    zsh=share/zsh/vendor-completions pc_prefix=/usr run_path=
    up=../../..
    ;;
*)
    lib=lib packages=lib/python3 python=python3 zsh=share/zsh/site-functions
    # (these dollars are for pkg-config)
    pc_prefix='${pcfiledir}/../..' run_path='-Wl,-rpath,${libdir} '
    up=../..
    ;;
esac

# put MODE SOURCE TARGET: a file, as TARGET below the prefix.
put() {
    install -D -m "$1" -- "$2" "$prefix/$3" || exit 1
}

# put_all FOLDER TARGET [TEST..]: the files of a folder and those below it, which find tells so.
put_all() {
    from=$1 to=$2
    shift 2
    (cd -- "$from" && find . -name __pycache__ -prune -o -type f "$@" -print) >"$room/files"
    while read -r file; do
        put 644 "$from/$file" "$to/${file#./}"
    done <"$room/files"
}

# put_filled MODE SOURCE TARGET: a text with the names and the folders of this build in it.
put_filled() {
    sed "s/@NAME@/octofix$suffix/g; s/@VERSION@/$number/g; s|@LIB@|$lib|g; s|@UP@|$up|g
        s|@PACKAGES@|$packages|g; s|@PYTHON@|$python|g
        s|@PREFIX@|$pc_prefix|g; s|@RUN_PATH@|$run_path|g" "$2" >"$room/text" || exit 1
    put "$1" "$room/text" "$3"
}

put_program() {
    home=libexec/octomap$suffix
    put 755 "$program" "$home/octomap"
    put 644 "$root/tools/install/words.sh" "$home/words.sh"
    printf '%s\n' "$version" >"$room/version" && put 644 "$room/version" "$home/version"
    put 755 "$parts/command.sh" "bin/octomap$suffix"
    # (a hyphen is a minus, as it is typed)
    help | sed 's/-/\\-/g' >"$room/help" || exit 1
    sed -e "/^@HELP@/r $room/help" -e '/^@HELP@/d' "$root/docs/octomap.1" >"$room/text" || exit 1
    put 644 "$room/text" share/man/man1/octomap.1
    put_completions
}

# The words that are completed are those of the help.
put_completions() {
    words=$(tasks | sed 's/:.*//' | paste -s -d ' ' -)
    options=$(options | paste -s -d ' ' -)
    tasks | sed "s/.*/    '&'/" >"$room/tasks" || exit 1
    for it in bash zsh; do
        sed -e "s/@WORDS@/$words/; s/@OPTIONS@/$options/" -e "/^@TASKS@/r $room/tasks" \
            -e '/^@TASKS@/d' "$parts/completion.$it" >"$room/$it" || exit 1
    done
    put 644 "$room/bash" "share/bash-completion/completions/octomap$suffix"
    put 644 "$room/zsh" "$zsh/_octomap"
}

put_library() {
    "$root/tools/build/link_library.py" "$archive" "octofix$suffix" "$room" || exit 1
    for it in a so.1; do
        put 644 "$room/liboctofix$suffix.$it" "$lib/liboctofix$suffix.$it"
    done
    ln -sfn "liboctofix$suffix.so.1" "$prefix/$lib/liboctofix$suffix.so" || exit 1
    put_all "$root/bindings/c" include -name octofix.h
    put_all "$root/bindings/cpp" include -name 'octofix*.hpp'
    put_all "$root/bindings/cpp/octofix" include/octofix '(' -name '*.hpp' -o -name '*.h' ')'
    put_filled 644 "$parts/octofix.pc" "$lib/pkgconfig/octofix$suffix.pc"
    cmake=$lib/cmake/octofix$suffix
    put_filled 644 "$parts/config.cmake" "$cmake/octofix${suffix}Config.cmake"
    put_filled 644 "$parts/version.cmake" "$cmake/octofix${suffix}ConfigVersion.cmake"
}

# A Python that can do this, or nothing.
python_that_can() {
    for it in python3 /usr/bin/python3; do
        "$it" -c "$1" 2>/dev/null && echo "$it" && return
    done
}

# Puts the module into the room, or says why there is none.
compile_module() {
    python=$(python_that_can 'import sys; sys.exit(sys.version_info < (3, 9))')
    if [ -n "$module" ]; then
        cp -- "$module" "$room/module"
    elif [ -z "$python" ]; then
        why='octofix: no python3 from 3.9 on is here'
        return 1
    else
        why=$("$python" "$root/bindings/python/octofix_compile.py" "$room/module" 2>&1)
    fi
}

put_package() {
    put_all "$root/bindings/python/octofix" "$packages/octofix" ! -name '*.so'
    put 644 "$room/module" "$packages/octofix/_native.abi3.so"
    put_filled 755 "$parts/tools.py" "bin/octofix$suffix"
    put 644 "$root/bindings/cpp/octofix_ot.cpp" share/octofix/octofix_ot.cpp
}

# The library for browsers and Node, as its package has it.
put_web() {
    web=share/octofix$suffix/web
    put 644 "${archive%/*}/octofix.wasm" "$web/octofix.wasm"
    put_all "$root/bindings/web" "$web" -path './octofix*'
    put_filled 644 "$root/bindings/web/package.json" "$web/package.json"
}

# The page into which maps are dropped.
put_page() {
    python=$(python_that_can 'import sys; sys.exit(sys.version_info < (3, 9))')
    "$python" "$root/bindings/web/make_page.py" "${archive%/*}/octofix.wasm" "$room/page" || exit 1
    put 644 "$room/page" "$packages/octofix/viewer/assets/viewer$suffix.html"
}

# The man page and the completions of the tools are made of what these say of their own words.
put_tool_words() {
    python=$(python_that_can 'import numpy')
    if [ -z "$python" ]; then
        say 'octofix gets no man page and no completions: no python3 with numpy is here'
        return
    fi
    OCTOFIX_LIBRARY=$prefix/$lib/liboctofix$suffix.so.1 PYTHONPATH=$prefix/$packages \
        "$python" "$parts/write_tool_words.py" "$room/words" || exit 1
    put 644 "$room/words/octofix.1" share/man/man1/octofix.1
    put 644 "$room/words/octofix.bash" "share/bash-completion/completions/octofix$suffix"
    put 644 "$room/words/_octofix" "$zsh/_octofix"
}

put_documents() {
    for it in FORMATS LIBRARY PROMISES RECIPES SCALING TOOLS; do
        put 644 "$root/docs/$it.md" "share/doc/octofix/$it.md"
    done
    put 644 "$root/CHANGELOG.md" share/doc/octofix/CHANGELOG.md
    put 644 "$root/bindings/python/README.md" share/doc/octofix/PYTHON.md
    put 644 "$root/LICENSE" share/doc/octofix/LICENSE
}

line() {
    printf '  %-34s %s\n' "$1" "$2"
}

tell_of_package() {
    line lib/python3/octofix "the Python package: export PYTHONPATH='$prefix/lib/python3'"
    [ "$how" = proved ] ||
        line '' "with OCTOFIX_LIBRARY='$prefix/lib/liboctofix$suffix.so.1'"
    line "bin/octofix$suffix" 'its tools'
}

tell() {
    printf 'octomap: installed in %s:\n' "$prefix"
    line "bin/octomap$suffix" "the program, $how"
    line "lib/liboctofix$suffix.a, .so" "the library for C, C++ and Python, $how"
    line 'include/octofix.h, .hpp' 'its headers for C and C++, and octofix_octree.hpp'
    line "lib/pkgconfig/octofix$suffix.pc" "pkg-config --cflags --libs octofix$suffix"
    line "lib/cmake/octofix$suffix" "find_package(octofix$suffix)"
    [ -z "$has_package" ] || tell_of_package
    line "share/octofix$suffix/web" 'the library for browsers and Node'
    line 'share/man, share/doc/octofix' 'man pages, and documents'
    line 'share/bash-completion, share/zsh' 'completions of all words'
    case :$PATH: in
    *:"$prefix/bin":*) ;;
    *) say "$prefix/bin is not on the path" ;;
    esac
}

put_program
put_library
put_web
has_package=
if compile_module; then
    has_package=yes
    put_package
    put_page
    put_tool_words
else
    say "the Python package and its tools aren't installed: ${why#octofix: }"
fi
put_documents
tell
