# shellcheck shell=bash disable=SC2154,SC2034
# Tries what a release has, as somebody does who hasn't the kit. Who reads this, in bash, sets
# `given`, a folder with README.md, bindings/ and examples/ of the sources, `release`, and `room`,
# an empty folder; then calls one of the functions try_packages, try_unpacked, try_wheel,
# try_tarball and try_compilers, each in a process of its own; `failed` says whether all was as it
# should be.

failed=0
version=$(cd -- "$release" && echo octofix-*-linux-x86_64.tar.gz) || exit 1
version=${version#octofix-} version=${version%-linux-x86_64.tar.gz}
number=${version%%+*}

# expect WHAT WANTED CAME
expect() {
    if [ "$2" != "$3" ]; then
        failed=1
        printf 'release: %s\nwanted: %s\ncame: %s\n' "$1" "$2" "$3"
    fi
}

# pass WHAT WORD..: runs a command, whose words are told where it fails.
pass() {
    local what=$1
    shift
    "$@" >"$room/said" 2>&1 || expect "$what" 'status 0' "status $?: $(tail -20 -- "$room/said")"
}

# The lines that README.md has for a way to install, as **Debian**.
readme_lines() {
    awk -v name="**$1**" 'index($0, name) == 1 { found = 1 }
        found && /^    / { print substr($0, 5); is_shown = 1; next }
        is_shown { exit }' "$given/README.md"
}

# Runs them in the folder of the release, with the home in the room, and then looks for the picture.
try_readme() {
    local lines
    lines=$(readme_lines "$1" && readme_lines Then)
    expect "the lines of README.md for $1" 3 "$(printf '%s\n' "$lines" | wc -l)"
    mkdir -p "$room/home" && cd -- "${2:-$release}" || exit 1
    export HOME=$room/home
    eval "$(printf '%s\n' "$lines" | sed '1s/$/ || exit/')" >"$room/said" 2>&1 ||
        expect "README.md's lines for $1" 'status 0' "$(tail -20 -- "$room/said")"
    expect "the picture after README.md's lines for $1" PNG "$(head -c 4 map.png | tail -c 3)"
}

# The commands as they are found on the path, which may be octofix alone.
try_commands() {
    expect 'octofix --version' "octofix $number" "$(octofix --version 2>&1)"
    # (a file of the reader's has the name of a module)
    mkdir -p "$room/home/own" && cd "$room/home/own" || exit 1
    echo 'raise SystemExit("this is the reader'\''s own")' | tee random.py numpy.py >/dev/null
    expect 'octofix beside modules of the reader' "octofix $number" "$(octofix --version 2>&1)"
    cd "$room/home" && rm -r own
    expect 'octofix in a plain locale' "octofix $number" "$(LC_ALL=C octofix --version 2>&1)"
    printf '2 0 0\n0 1 0\n' | octofix map --res 0.1 --quiet - -o two.bt
    expect 'the occupied voxels of a map of two points' 2 \
        "$(octofix points two.bt --format xyz -o - 2>/dev/null | grep -c .)"
    command -v octomap >"$room/said" || return
    expect 'octomap session' "$(<"$given/examples/first.replies")" \
        "$(octomap session 0.1 <"$given/examples/first.txt" 2>&1)"
    expect 'octomap --version' "octomap $number" "$(octomap --version | sed -n '1s/ (.*//p')"
}

# A Ctrl-C that comes while Python starts ends the command without a word.
try_ctrl_c() {
    mkdir "$room/site"
    printf 'import os, signal\nos.kill(os.getpid(), signal.SIGINT)\n' >"$room/site/sitecustomize.py"
    PYTHONPATH=$room/site env --default-signal=INT octofix --version >"$room/said" 2>&1
    expect 'the status of octofix that Ctrl-C ends' 130 $?
    expect 'what it says' '' "$(<"$room/said")"
}

# readme_block LANGUAGE: what README.md has between ```LANGUAGE and ```.
readme_block() {
    sed -n "/^\`\`\`$1\$/,/^\`\`\`\$/p" "$given/README.md" | sed '1d; $d'
}

# try_python PYTHON: README.md's example and the package's own, by a Python that finds it.
try_python() {
    local it examples=$given/bindings/python/examples
    cd "$room/home" || exit 1
    expect "README.md's example in Python" "$(readme_block text)" \
        "$("$1" -c "$(readme_block python)" 2>&1)"
    for it in room changes; do
        expect "the example $it in Python" "$(<"$examples/$it.out")" \
            "$("$1" "$examples/$it.py" 2>&1)"
    done
    expect 'what the package has of types' True \
        "$("$1" -c 'import octofix, pathlib
print((pathlib.Path(octofix.__file__).parent / "py.typed").is_file())')"
}

try_packages() {
    local it
    sudo() { "$@"; }
    try_readme 'Debian 12'
    try_commands
    try_python /usr/bin/python3
    expect 'the loader knows the library' 1 "$(ldconfig -p | grep -c 'liboctofix.so.1 ')"
    expect "the package's version in Python" "$version" \
        "$(cd / && python3 -c 'import importlib.metadata as m; print(m.version("octofix"))')"
    for it in octofix liboctofix1 liboctofix-dev python3-octofix; do
        pass "dpkg --verify $it" dpkg --verify "$it"
        pass "the copyright of $it" grep '^License: Expat' "/usr/share/doc/$it/copyright"
    done
    for it in man/man1/octofix.1.gz man/man1/octomap.1.gz zsh/vendor-completions/_octofix \
        bash-completion/completions/octofix bash-completion/completions/octomap; do
        dpkg -S "/usr/share/$it" >"$room/said" || expect "$it" 'a file' 'nothing'
    done
    pass 'the packages are purged' dpkg --purge octofix python3-octofix liboctofix-dev liboctofix1
    expect 'nothing is left of them' '' \
        "$(find /usr /etc /var/lib -name '*octofix*' -not -path "$room/*" | head)"
}

# The packages where there is no root to install them in.
try_unpacked() {
    local it
    for it in "$release"/*.deb; do
        pass "unpacking $it" dpkg-deb -x "$it" "$room/root"
    done
    mkdir "$room/home" && export PATH="$room/root/usr/bin:$PATH"
    try_commands
    export OCTOFIX_LIBRARY=$room/root/usr/lib/x86_64-linux-gnu/liboctofix.so.1
    PYTHONPATH=$room/root/usr/lib/python3/dist-packages try_python /usr/bin/python3
}

# Without a registry: numpy and Pillow are those of the system.
try_wheel() {
    local python=$room/home/octofix/bin/python it
    export PIP_NO_INDEX=1 PIP_DISABLE_PIP_VERSION_CHECK=1 PIP_ROOT_USER_ACTION=ignore
    python3() {
        [ "$1 $2" != '-m venv' ] || set -- "$1" "$2" --system-site-packages "${@:3}"
        command python3 "$@"
    }
    try_readme pip
    unset -f python3
    try_commands
    try_ctrl_c
    ln -s "$room/home/octofix/bin/octofix" "$room/linked"
    expect 'octofix through a link' "octofix $number" "$("$room/linked" --version 2>&1)"
    try_python "$python"
    expect 'python -m octofix' "octofix $number" "$("$python" -m octofix --version 2>&1)"
    expect 'pip knows the version' "$version" \
        "$("$python" -c 'import importlib.metadata as m; print(m.version("octofix"))')"
    # (a system may have faults of its own)
    expect 'what pip check says of it' '' "$("$python" -m pip check 2>&1 | grep octofix)"
    mkdir "$room/kept"
    mv "$room"/home/octofix/lib/python3*/site-packages/octofix/liboctofix.so.1 "$room/kept"
    pass 'pip uninstall' "$python" -m pip uninstall -y octofix
    expect 'nothing is left of the wheel' '' \
        "$(find "$room/home/octofix" -iname '*octofix?*' | head)"
    try_sources "$python" "$room/kept/liboctofix.so.1"
}

# try_sources PYTHON LIBRARY: pip builds the package of its sources alone where there are a library
# and a compiler, and else refuses.
try_sources() {
    local wanted="octofix can't be built: the library liboctofix.so.1 can't be loaded"
    cp -r "$given/bindings" "$room/sources"
    expect 'pip refuses sources without a library' "$wanted" \
        "$("$1" -m pip install "$room/sources/python" 2>&1 | grep -o "$wanted" | head -1)"
    (cd -- "$room/sources/python" &&
        "$1" -c "import octofix_build as b; b.build_sdist('$room')") >/dev/null
    wanted="octofix can't be built: no C compiler is here"
    export OCTOFIX_LIBRARY=$2
    CC=/no/cc "$1" -m pip install "$room"/octofix-*.tar.gz >"$room/said" 2>&1
    expect 'pip refuses sources without a compiler' "$wanted" \
        "$(grep -o "$wanted" "$room/said" | head -1)"
    command -v cc >/dev/null || return
    pass 'pip installs sources with a library' "$1" -m pip install "$room"/octofix-*.tar.gz
    unset OCTOFIX_LIBRARY
    expect 'the package of the sources' "$number 850" "$(cd / && "$1" -c 'import octofix
world = octofix.Map(0.1)
world.hit((0, 0, 0))
print(octofix.__version__, world.value_at((0, 0, 0)))' 2>&1)"
}

# In a folder with a blank in its name, to which it was moved, and which can't be written.
try_tarball() {
    local prefix="$room/a moved place/octofix"
    umask 077
    mkdir -p "$room/first" "$room/a moved place"
    cp "$release"/octofix-*.tar.gz "$room/first"
    try_readme Tarball "$room/first"
    mv "$room"/first/octofix-*/ "$prefix" || exit 1
    chmod -R a-w "$prefix"
    export PATH="$prefix/bin:$PATH"
    try_commands
    pass 'FILES.sha256' sh -c 'cd "$1" && sha256sum -c --strict FILES.sha256' _ "$prefix"
    PYTHONPATH=$prefix/lib/python3 try_python python3
    ln -s "$prefix/bin/octomap" "$prefix/bin/octofix" "$room/home"
    expect 'octofix through a link' "octofix $number" "$("$room/home/octofix" --version 2>&1)"
    expect 'octomap through a link' "octomap $number" \
        "$("$room/home/octomap" --version | sed -n '1s/ (.*//p')"
    mkdir "$room/none" &&
        echo 'import sys; sys.modules["numpy"] = None' >"$room/none/sitecustomize.py"
    expect 'octofix without numpy' \
        'octofix: no python3 with numpy is here (in Debian python3-numpy)' \
        "$(PYTHONPATH=$room/none octofix --version 2>&1)"
    python3 -m venv --without-pip "$room/bare"
    expect "octofix where the path's Python has no numpy" "octofix $number" \
        "$(PATH=$room/bare/bin:$PATH octofix --version 2>&1)"
    expect 'octofix without its library' "octofix: the library liboctofix.so.1 can't be loaded" \
        "$(OCTOFIX_LIBRARY=/nowhere octofix --version 2>&1 | sed -n '1s/;.*//p')"
    chmod -R u+w "$prefix"
}

# try_compilers PREFIX: C and C++ over what stands there, by pkg-config and CMake, and over the
# tarball, which CMake fetches; and the package for Python of its sources.
try_compilers() {
    local prefix=$1 words tarball it
    tarball=$(echo "$release"/octofix-*.tar.gz)
    export PKG_CONFIG_PATH=$prefix/lib/pkgconfig
    eval "words=($(pkg-config --cflags --libs octofix))"
    pass 'C by pkg-config' cc -std=c11 -Wall -Wextra -Werror -o "$room/c" \
        "$given/bindings/c/example.c" "${words[@]}"
    expect 'the example in C' "$(<"$given/bindings/c/example.out")" "$("$room/c" 2>&1)"
    /usr/bin/python3 "$given/bindings/doc_examples.py" "$room"
    pass "README.md's example in C++" c++ -std=c++17 -o "$room/first" "$room/example_0.cpp" \
        "${words[@]}"
    pass "LIBRARY.md's example in C" cc -o "$room/second" "$room/example_1.c" "${words[@]}"
    for it in first second; do
        expect "the $it example of the documents" 'known 850' "$("$room/$it" 2>&1)"
    done
    try_cmake found "-DCMAKE_PREFIX_PATH=$prefix"
    try_cmake fetched "-DOCTOFIX_URL=file://$tarball" \
        "-DOCTOFIX_SHA256=$(sha256sum "$tarball" | cut -d ' ' -f 1)"
    export PIP_NO_INDEX=1 PIP_DISABLE_PIP_VERSION_CHECK=1 PIP_ROOT_USER_ACTION=ignore
    python3 -m venv --system-site-packages "$room/venv"
    try_sources "$room/venv/bin/python" "$prefix/lib/liboctofix.so.1"
}

# try_cmake EXAMPLE WORD..
try_cmake() {
    local made=$room/made_$1 example=$1
    shift
    pass "CMake of examples/cmake/$example" \
        cmake -S "$given/examples/cmake/$example" -B "$made" "$@"
    pass "a build of examples/cmake/$example" cmake --build "$made"
    expect "examples/cmake/$example" "$(<"$given/bindings/cpp/example.out")" "$("$made/map" 2>&1)"
}
