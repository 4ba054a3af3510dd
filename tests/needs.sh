#!/bin/sh
# Sees that everything is there that the gate needs. What Debian has and is missing is installed if root runs this; anybody else is told what to
# install. Prints one line and ends with status 0 if all is there (apt-get's own words go to standard error); else says what is missing, status 1.
set -eu
cd "$(dirname "$0")"
. ./environment.sh

# Each command with the Debian package that has it.
commands='
gp pari-gp
gcc gcc
cc gcc
g++ g++
c++ g++
make make
ar binutils
nm binutils
readelf binutils
pkg-config pkg-config
python3 python3
cmp diffutils
diff diffutils
setpriv util-linux
setarch util-linux
script bsdutils
bats bats
shellcheck shellcheck
valgrind valgrind
help2man help2man
man man-db
'

work=$(mktemp -d)
trap 'rm -rf "$work"' EXIT
trap 'exit 1' HUP INT TERM
printf '#include <stdio.h>\nint main(void) { return puts("") < 0; }\n' >"$work/small.c"

# The packages of what is missing, each once.
missing() {
    {
        echo "$commands" | while read -r command package; do
            [ -z "$command" ] || command -v "$command" >/dev/null || echo "$package"
        done
        cffi_python >/dev/null || echo python3-cffi
        # The C library's headers and the sanitizers' libraries are packages of their own; only a build shows that they are there.
        if command -v gcc >/dev/null; then
            gcc "$work/small.c" -o "$work/small" 2>/dev/null || echo libc6-dev
            for sanitizer in address,undefined thread; do
                gcc -fsanitize=$sanitizer "$work/small.c" -o "$work/small" 2>/dev/null || echo "libgcc-$(gcc -dumpversion)-dev"
            done
        fi
    } | sort -u | tr '\n' ' '
}

# Without a network apt-get may wait for long; another apt-get may be at work.
packages() {
    DEBIAN_FRONTEND=noninteractive timeout 300 apt-get -o DPkg::Lock::Timeout=120 "$@" >&2
}

# rt and Rust come from elsewhere: Debian has no rt, and its Rust may be too old for the tests.
for command in rt cargo rustc; do
    command -v $command >/dev/null || fail "there is no $command; install Rattle's toolchain (rt) and Rust (cargo, rustc) and put them on PATH"
done

wanted=$(missing)
if [ -n "$wanted" ]; then
    [ "$(id -u)" -eq 0 ] || fail "these packages are missing, and only root can install them: apt-get install $wanted"
    command -v apt-get >/dev/null || fail "what these Debian packages hold is missing, and there is no apt-get to install them: $wanted"
    packages update || echo "needs.sh: apt-get update failed; the lists of packages stay as they are" >&2
    # shellcheck disable=SC2086
    packages install -y --no-install-recommends $wanted || fail "these packages are missing and cannot be installed: $wanted"
    # A compiler that has just come may lack libraries still.
    wanted=$(missing)
    # shellcheck disable=SC2086
    [ -z "$wanted" ] || packages install -y --no-install-recommends $wanted || fail "these packages are missing and cannot be installed: $wanted"
    wanted=$(missing)
    [ -z "$wanted" ] || fail "these packages are installed, and something of theirs is still missing: $wanted"
fi
echo "needs: everything is there"
