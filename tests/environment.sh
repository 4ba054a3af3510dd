# What the shell scripts of this directory share: how a script fails, how it finds the tools, the library and the programs that it needs, and cargo's
# settings. A script goes to this directory and reads this file; $here is where it was called, and directories that are given relative are meant from there.
# shellcheck shell=sh disable=SC2154
CARGO_NET_OFFLINE=true
CARGO_TARGET_DIR=${CARGO_TARGET_DIR:-$(cd .. && pwd)/target/tests}
RUSTFLAGS=${RUSTFLAGS:--Dwarnings}
export CARGO_NET_OFFLINE CARGO_TARGET_DIR RUSTFLAGS
# A make that calls a script hands its variables on to every make below it; those of a script are its own.
unset MAKEFLAGS MFLAGS MAKELEVEL

fail() {
    echo "${0##*/}: FAILED: $*" >&2
    exit 1
}

# need_tools COMMAND..
need_tools() {
    for tool in "$@"; do
        command -v "$tool" >/dev/null || fail "$tool is missing; tests/needs.sh installs what the tests need"
    done
}

# found_directory VARIABLE DIRECTORY: the whole path of the directory that the variable names.
found_directory() {
    [ -n "$2" ] || fail "$1 is not set"
    (cd "$here" && cd "$2" && pwd) 2>/dev/null || fail "$1: there is no directory $2"
}

# The library to test is in SAGEPLIERS_LIB_DIR.
need_library() {
    found=$(found_directory SAGEPLIERS_LIB_DIR "${SAGEPLIERS_LIB_DIR:-}") || exit 1
    [ -f "$found/libsagepliers.a" ] || fail "no libsagepliers.a in $found"
    SAGEPLIERS_LIB_DIR=$found
    export SAGEPLIERS_LIB_DIR
}

# The programs to test are in SAGEPLIERS_BIN_DIR.
need_programs() {
    found=$(found_directory SAGEPLIERS_BIN_DIR "${SAGEPLIERS_BIN_DIR:-}") || exit 1
    for program in answer kernel verify push; do
        [ -x "$found/$program" ] || fail "no program $program in $found"
    done
    SAGEPLIERS_BIN_DIR=$found
    export SAGEPLIERS_BIN_DIR
}

# The Python that has cffi: the system's has the packages of the system, whichever comes first on PATH.
cffi_python() {
    for python in python3 /usr/bin/python3; do
        if "$python" -c 'import cffi' 2>/dev/null; then
            echo "$python"
            return
        fi
    done
    return 1
}

# The words in front of a program with the thread sanitizer, which does not start under the address randomisation of some kernels: it is started without,
# where that is allowed.
unrandomized() {
    if setarch "$(uname -m)" -R true 2>/dev/null; then echo "setarch $(uname -m) -R"; fi
}
