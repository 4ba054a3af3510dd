#!/bin/sh
# Tests of the command sagepliers, of the libraries around the proved archive, and of what make install and make dist make of them.
#
#     SAGEPLIERS_LIB_DIR=directory/of/libsagepliers.a SAGEPLIERS_BIN_DIR=directory/of/programs tests/host.sh [--quick]
#
# Everything is built here, into a temporary directory: plain, with the address and undefined-behaviour sanitizers, and with the thread sanitizer. The
# tests are tests/host/*.bats. The quick form has the plain build alone, without the release archive. Any step that fails, or cannot be run here, ends the
# script with status 1 and says which; needs.sh installs what is needed.
set -eu
here=$(pwd)
cd "$(dirname "$0")"
. ./environment.sh
cd ..
umask 022

step() {
    echo "host: $*"
}

need_library
need_programs
need_tools ar bats c++ cc cmp diff gp help2man make man nm pkg-config python3 readelf rt script setpriv shellcheck valgrind
CFFI_PYTHON=$(cffi_python) || fail "no python3 has cffi; tests/needs.sh installs what the tests need"
[ -c /dev/full ] || fail "there is no /dev/full, which stands for a full disk"

# Some tests go on as nobody, who has to get at the command.
work=$(mktemp -d)
trap 'rm -rf "$work"' EXIT
trap 'exit 1' HUP INT TERM
chmod 755 "$work"

strict='-Wall -Wextra -Wpedantic -Wconversion -Wshadow -Werror'
ROOT=$(pwd)
PREFIX=$work/prefix
lib=$SAGEPLIERS_LIB_DIR
bin=$SAGEPLIERS_BIN_DIR
SAGEPLIERS_VERSION=$(sed -n 's/^.define SAGEPLIERS_VERSION "\(.*\)"/\1/p' include/sagepliers.h)
SAGEPLIERS_TOOLCHAIN=$(cat TOOLCHAIN)
ASAN_OPTIONS=detect_leaks=1:abort_on_error=0:exitcode=99
UBSAN_OPTIONS=print_stacktrace=1:halt_on_error=1:exitcode=99
TSAN_OPTIONS=exitcode=99
export CFFI_PYTHON ROOT PREFIX SAGEPLIERS_VERSION SAGEPLIERS_TOOLCHAIN ASAN_OPTIONS UBSAN_OPTIONS TSAN_OPTIONS

# Nothing that is proved may be built again here.
build() {
    make --no-print-directory RT=false LIBRARY="$lib/libsagepliers.a" BIN="$bin" "$@" >"$work/log" 2>&1 || { cat "$work/log"; fail "make $*"; }
}

# tests COMMAND FILE: runs the tests of a file with a command.
tests() {
    SAGEPLIERS=$1 bats "$2" || fail "$2 with $1"
}

toolchain=$(rt version | head -n 1)
[ "$toolchain" = "$SAGEPLIERS_TOOLCHAIN" ] || fail "TOOLCHAIN says $SAGEPLIERS_TOOLCHAIN, and rt is $toolchain"

step "the scripts of the repository"
shellcheck -x -P SCRIPTDIR .ci/run .ci/tests bench/run bench/pair bench/check.sh host/*.sh tests/*.sh || fail "shellcheck"
shellcheck -s bash host/sagepliers.bash || fail "shellcheck"

step "plain, without a warning"
build install BUILD="$work/plain" CFLAGS="-O2 $strict" PREFIX="$PREFIX"
for file in commands refusals files many installed; do tests "$PREFIX/bin/sagepliers" "tests/host/$file.bats"; done
if [ "${1:-}" = --quick ]; then
    step "all passed of the quick form"
    exit 0
fi

step "with the address and undefined-behaviour sanitizers"
build command BUILD="$work/address" CFLAGS="-O1 -g $strict -fsanitize=address,undefined -fno-sanitize-recover=all"
for file in commands refusals files; do tests "$work/address/sagepliers" "tests/host/$file.bats"; done

step "with the thread sanitizer"
build command BUILD="$work/thread" CFLAGS="-O1 -g $strict -fsanitize=thread"
tests "$(unrandomized) $work/thread/sagepliers" tests/host/many.bats

step "under valgrind"
tests "valgrind -q --error-exitcode=99 --leak-check=full --errors-for-leak-kinds=definite,indirect $work/plain/sagepliers" tests/host/smoke.bats

step "two builds in different places are equal to the bit"
for place in one/a another/place/with/a/longer/name; do
    mkdir -p "$work/$place"
    cp -R Makefile TOOLCHAIN sagepliers.pc.in include host "$work/$place"
    (cd "$work/$place" && make RT=false LIBRARY="$lib/libsagepliers.a" command >"$work/log" 2>&1) || { cat "$work/log"; fail "make command in $place"; }
done
for file in sagepliers libsagepliers.a "libsagepliers.so.$SAGEPLIERS_VERSION"; do
    cmp "$work/one/a/target/host/$file" "$work/another/place/with/a/longer/name/target/host/$file" || fail "two builds of $file differ"
done

step "make demo, make help and make dist"
build demo BUILD="$work/plain"
grep -q '^(1008, 1) -> (617, 44)$' "$work/log" || { cat "$work/log"; fail "make demo"; }
make --no-print-directory help >"$work/log"
# Of the targets without a file three are but steps of others.
awk '$1 == ".PHONY:" { on = 1 }
    on { for (i = 1; i <= NF; i++) if ($i !~ /^(\.PHONY:|\\|library|programs|paths)$/) print $i }
    on && $NF != "\\" { exit }' Makefile >"$work/targets"
grep -q -x test "$work/targets" || fail "the targets of the Makefile are not found"
while read -r target; do grep -q "^$target " "$work/log" || fail "make help does not tell of $target"; done <"$work/targets"
tests "$work/plain/sagepliers" tests/host/dist.bats

step "all passed"
