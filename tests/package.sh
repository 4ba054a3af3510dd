#!/bin/sh
# Tests the C package: installs it into a temporary directory, builds hosts against what was installed, and runs them and the programs on the rows of
# document 01.
#
#     SAGEPLIERS_LIB_DIR=directory/of/libsagepliers.a SAGEPLIERS_BIN_DIR=directory/of/programs tests/package.sh
#
# Any step that fails, or cannot be run here, ends the script with status 1 and says which. Needs a C and a C++ compiler (CC, CXX) with the address,
# undefined and thread sanitizers, pkg-config (PKG_CONFIG), make, nm, readelf, /dev/full, and for root setpriv; needs.sh installs them. Expectations
# come from documents 01 and 02: printed words and rows, the order of the questions, what request E2 reduces, what request E6 counts and what request E1
# composes; some counts of roots, and N where the documents print none, are PARI/GP's.
set -eu
here=$(pwd)
cd "$(dirname "$0")"
. ./environment.sh
. ./marked.sh
cd ..
root=$(pwd)
CC=${CC:-gcc}
CXX=${CXX:-g++}
PKG_CONFIG=${PKG_CONFIG:-pkg-config}
strict='-Wall -Wextra -Wpedantic -Wconversion -Werror'
umask 022

step() {
    echo "package: $*"
}

need_library
need_programs
need_tools "$CC" "$CXX" "$PKG_CONFIG" make nm readelf cmp diff
[ -c /dev/full ] || fail "there is no /dev/full, which stands for a full disk"
lib=$SAGEPLIERS_LIB_DIR
bin=$SAGEPLIERS_BIN_DIR

work=$(mktemp -d)
trap 'rm -rf "$work"' EXIT
trap 'exit 1' HUP INT TERM

# RT=false: nothing that is built already may be built again.
install() {
    make --no-print-directory RT=false LIBRARY="$lib/libsagepliers.a" BIN="$bin" BUILD="$work/build" "$@"
}

# Bytes of words given in hexadecimal, lowest byte first.
sheet() {
    for word in "$@"; do
        w=$((0x$word))
        # shellcheck disable=SC2059
        printf "$(printf '\\%03o\\%03o\\%03o\\%03o' $((w & 255)) $((w >> 8 & 255)) $((w >> 16 & 255)) $((w >> 24)))"
    done
}

# ---- the library itself

step "the library has the six entries, no state, and calls nothing but functions on memory"
nm -g --defined-only "$lib/libsagepliers.a" | awk '$2 == "T" { print $3 }' | sort >"$work/entries"
printf 'sagepliers_%s\n' check compose kernel name push solve >"$work/wanted"
cmp "$work/entries" "$work/wanted" || fail "the entries are not the six of the header"
nm -u "$lib/libsagepliers.a" | awk '$1 == "U" { print $2 }' | sort -u >"$work/uses"
while read -r used; do
    case $used in
    memcpy | memset | memmove | memcmp | bcmp) ;;
    *) fail "the library uses $used" ;;
    esac
done <"$work/uses"
# Writable memory of any size would be state. A section is a line "[n] name type address offset size entry flags ..".
readelf -SW "$lib/libsagepliers.a" | sed -n 's/^ *\[ *[0-9]*\] //p' >"$work/sections"
grep -q sagepliers_check "$work/sections" || fail "readelf shows no sections"
awk '$1 != "Name" && $5 !~ /^0*$/ && $7 ~ /W/ { print $1; found = 1 } END { exit found }' "$work/sections" || fail "the library has writable memory"

# ---- install

step "install and uninstall under DESTDIR"
stage=$work/stage
install install DESTDIR="$stage" PREFIX=/prefix >"$work/log" 2>&1 || { cat "$work/log"; fail "install"; }
(cd "$stage" && find . ! -type d | sort) >"$work/installed"
version=$(sed -n 's/^.define SAGEPLIERS_VERSION "\(.*\)"/\1/p' include/sagepliers.h)
{
    printf './prefix/lib/libsagepliers.%s\n' a so so.0 "so.$version"
    echo ./prefix/lib/pkgconfig/sagepliers.pc
    echo ./prefix/include/sagepliers.h
    echo ./prefix/bin/sagepliers
    echo ./prefix/bin/sagepliers-sheets
    echo ./prefix/share/man/man1/sagepliers.1
    echo ./prefix/share/bash-completion/completions/sagepliers
    printf './prefix/share/doc/sagepliers/%s\n' CHANGELOG.md LICENSE SPECIFICATION.md TRUST.md TUTORIAL.md
    printf './prefix/share/doc/sagepliers/examples/%s\n' compose.c host.c host.py kernel.c name.c solve.c
    printf './prefix/bin/sagepliers-%s\n' answer kernel verify push
} | sort >"$work/wanted"
diff "$work/wanted" "$work/installed" || fail "the installed files are not those wanted"
if grep -rn -e '@' -e "$work" "$stage/prefix/lib/pkgconfig/sagepliers.pc"; then fail "the pkg-config file names DESTDIR or has a gap"; fi
install uninstall DESTDIR="$stage" PREFIX=/prefix >"$work/log" 2>&1 || { cat "$work/log"; fail "uninstall"; }
[ -z "$(find "$stage" ! -type d)" ] || fail "uninstall left files behind"
[ ! -d "$stage/prefix/share/doc/sagepliers" ] || fail "uninstall left its directory behind"

step "make refuses what it cannot do"
if make RT=false LIBRARY="$work/none.a" PREFIX="$work/no" install-library >"$work/log" 2>&1; then fail "a LIBRARY that is not there was installed"; fi
grep -q "there is no $work/none.a" "$work/log" || { cat "$work/log"; fail "no plain word about the missing LIBRARY"; }
if make RT=false BIN="$work" PREFIX="$work/no" install-programs >"$work/log" 2>&1; then fail "programs that are not there were installed"; fi
grep -q "there is no $work/answer" "$work/log" || { cat "$work/log"; fail "no plain word about the missing programs"; }
for prefix in relative/path "$work/with blank" "$work/a&b" "$work/a|b"; do
    if install install-library PREFIX="$prefix" >"$work/log" 2>&1; then fail "PREFIX=$prefix was taken"; fi
    grep -q "^make: .*$(basename "$prefix")" "$work/log" || { cat "$work/log"; fail "no plain word about PREFIX=$prefix"; }
done
for left in "$work/no" relative; do
    [ ! -e "$left" ] || fail "a refused install left $left"
done

step "make builds with rt what is missing, and only that"
# A copy without what is built, and in place of rt a script that notes the crate and its words and makes empty files where rt would build. The command is
# not built of these.
mkdir "$work/copy"
cp -R Makefile TOOLCHAIN LICENSE CHANGELOG.md sagepliers.pc.in include host tools docs examples "$work/copy"
for name in sagepliers_c answer kernel verify push; do mkdir -p "$work/copy/crates/$name"; done
cat >"$work/copy/rt" <<'SH'
#!/bin/sh
crate=${PWD##*/}
echo "$crate: $*" >>../../calls
case "$crate: $*" in
"sagepliers_c: lib") mkdir -p out && : >out/libsagepliers_c.a ;;
"answer: run" | "kernel: run" | "verify: run" | "push: run") mkdir -p out && : >"out/$crate" ;;
*) exit 1 ;;
esac
SH
chmod +x "$work/copy/rt"
(
    cd "$work/copy"
    rt=$(pwd)/rt
    make RT=false PREFIX="$work/no" install >log 2>&1 && fail "make installs though rt failed"
    [ ! -e "$work/no/lib" ] || fail "make installed though rt failed"
    make RT="$rt" proved >log 2>&1 || { cat log; fail "make proved"; }
    printf '%s\n' 'sagepliers_c: lib' 'answer: run' 'kernel: run' 'verify: run' 'push: run' >all
    cp all wanted
    diff wanted calls || fail "make called rt with other words"
    for built in staticlib/libsagepliers.a bin/answer bin/kernel bin/verify bin/push; do
        [ -f "target/$built" ] || fail "make proved has not made target/$built"
    done
    make RT="$rt" proved >log 2>&1 || { cat log; fail "make proved, once more"; }
    diff wanted calls || fail "make built again what is built"
    rm target/bin/verify
    make RT="$rt" proved >log 2>&1 || { cat log; fail "make proved, with a program missing"; }
    echo 'verify: run' >>wanted
    diff wanted calls || fail "make did not build the missing program alone"
    make RT="$rt" rebuild >log 2>&1 || { cat log; fail "make rebuild"; }
    cat all >>wanted
    diff wanted calls || fail "make rebuild did not ask rt"
) || exit 1

step "install for the hosts"
prefix=$work/prefix
# Without the shared library, so that the hosts take the archive. host.sh sees that its objects are the proved ones, and tries the shared library.
install install-library install-programs install-tools PREFIX="$prefix" >"$work/log" 2>&1 || { cat "$work/log"; fail "install"; }
for name in answer kernel verify push; do
    cmp "$bin/$name" "$prefix/bin/sagepliers-$name" || fail "another program $name was installed"
done

# ---- what pkg-config says

flags=$(PKG_CONFIG_PATH="$prefix/lib/pkgconfig" "$PKG_CONFIG" --static --cflags --libs sagepliers) || fail "pkg-config does not take the file"
step "flags: $flags"
case $flags in
*"-I$prefix/include"*"-L$prefix/lib"*-lsagepliers*) ;;
*) fail "the flags do not name the installed package" ;;
esac

# ---- the example host, plain and under sanitizers

# The hosts are built outside the repository, so that only what is installed is found.
cd "$work"
host=$prefix/share/doc/sagepliers/examples/host.c
# shellcheck disable=SC2086
{
    $CC -std=c11 -O2 $strict "$host" $flags -o host_plain || fail "host.c does not build"
    $CC -std=c11 -g -O1 $strict -fsanitize=address,undefined -fno-sanitize-recover=all "$host" $flags -o host_sanitized ||
        fail "host.c does not build with sanitizers"
}

# shellcheck disable=SC2086
{
    sheet $header f0000000 >question.bin
    sheet $first >first.bin
    sheet $over_11 >over_11.bin
}

# runs STATUS TEXT ARGUMENTS..: every host prints exactly the text, on standard output if the status is 0 or 1, and ends with the status. It is run by
# the command $as, if there is one.
as=
runs() {
    status=$1
    printf '%s\n' "$2" >expected
    shift 2
    for build in plain sanitized; do
        got=0
        $as "./host_$build" "$@" >out 2>err || got=$?
        [ "$got" -eq "$status" ] || { cat out err; fail "host_$build $* ended with $got, not $status"; }
        if [ "$status" -lt 2 ]; then
            [ ! -s err ] || { cat err; fail "host_$build $* wrote to standard error"; }
            diff expected out || fail "host_$build $* printed something else"
        else
            [ ! -s out ] || { cat out; fail "host_$build $* wrote an answer"; }
            grep -q -F -e "$(cat expected)" err || { cat err; fail "host_$build $* does not say: $(cat expected)"; }
        fi
    done
}

# What the question with a number is about, in a word of document 01.
about() {
    case $1 in
    2) echo 'each of its kind' ;;
    3) echo 'prime from 11 to 2^28 - 1' ;;
    4) echo 'odd, from 3 to 255' ;;
    5) echo 'below p' ;;
    6) echo 'exactly those of the sheet' ;;
    7) echo 'singular' ;;
    8) echo 'R1' ;;
    9) echo 'R2' ;;
    10) echo 'R3' ;;
    esac
}

# prints PROGRAM TEXT FILE: the program prints exactly the text on the file's bytes.
prints() {
    printf '%s\n' "$2" >expected
    "$prefix/bin/sagepliers-$1" <"$3" >out || fail "$1 ended with $?"
    diff expected out || fail "$1 printed something else on $3 ($(stat -c %s "$3") bytes)"
}

# refused NUMBER WORDS..: host, verify and push refuse the certificate with the number, and the host's line says what the question is about.
refused() {
    number=$1
    shift
    sheet "$@" >damaged.bin
    refused_file "$number" damaged.bin
}

refused_file() {
    for build in plain sanitized; do
        got=0
        "./host_$build" "$2" 1008 1 >out 2>err || got=$?
        [ "$got" -eq 1 ] || { cat out err; fail "host_$build on a sheet that gets $1 ended with $got"; }
        grep -q "^the certificate is refused with $1: .*$(about "$1")" out || { cat out; fail "host_$build: not refused with $1"; }
        [ "$(wc -l <out)" -eq 1 ] || { cat out; fail "host_$build pushed a point through a refused certificate"; }
    done
    prints verify "refused $1" "$2"
    # (1008, 1), and a number above 2^56, which gets 12, but only through a certificate that passes.
    for point in '100003f0 00000000' '00000001 01000000'; do
        # shellcheck disable=SC2086
        { sheet $point && cat "$2"; } >pushed.bin
        prints push "refused $1" pushed.bin
    done
}

step "host: document 01's certificates and points"
passes='the certificate passes; rational abscissas: 1 of 1'
runs 0 "$passes" first.bin
runs 0 "$passes
(1008, 1) goes to (617, 44)
infinity goes to infinity" first.bin 1008 1 infinity
runs 0 "$passes
(2, 3) goes to (3, 0)
(0, 1) goes to infinity" over_11.bin 2 3 0 1
# 12: (1008, 2) is not on the curve, and 1009 is not below p.
runs 1 "$passes
(1008, 2) is refused with 12: the point is not one of the domain
(1009, 1) is refused with 12: the point is not one of the domain
(1008, 1) goes to (617, 44)" first.bin 1008 2 1009 1 1008 1

step "host, verify and push: refused certificates, by document 01's questions"
each_refused refused
# shellcheck disable=SC2086
sheet $first | dd bs=1 count=59 of=damaged.bin 2>/dev/null # a byte count that is no multiple of four
refused_file 2 damaged.bin

step "host: files and arguments that it cannot take"
: >empty.bin
dd if=/dev/zero of=long.bin bs=1 count=1573 2>/dev/null
mkdir directory
runs 2 'usage: host FILE'
runs 2 'cannot open missing.bin' missing.bin
runs 2 'cannot read directory' directory 1008 1
runs 2 'empty.bin is empty' empty.bin
runs 2 'long.bin is longer than any certificate' long.bin
runs 2 'has no v' first.bin 1008
runs 2 '-1 is neither' first.bin 1008 -1
runs 2 '268435456 is neither' first.bin 268435456 1
runs 2 '1x is neither' first.bin 1008 1x
runs 2 ' is neither' first.bin '' 1
# Root may read every file, so there it is nobody who may not.
cp first.bin unreadable.bin
chmod 000 unreadable.bin
if [ "$(id -u)" -eq 0 ]; then
    need_tools setpriv
    as='setpriv --reuid=65534 --regid=65534 --clear-groups'
    chmod 711 "$work"
fi
runs 0 "$passes" first.bin
runs 2 'cannot open unreadable.bin' unreadable.bin
as=
got=0
./host_plain first.bin 1008 1 >/dev/full 2>err || got=$?
[ "$got" -eq 2 ] || fail "host does not see that its answer cannot be written"
grep -q 'cannot write' err || { cat err; fail "host does not say that its answer cannot be written"; }

# ---- C++

step "the header in C++: included twice, all six entries linked and called"
cat >header.cpp <<'CPP'
#include <sagepliers.h>
#include <sagepliers.h>
#include <cstdio>
static_assert(SAGEPLIERS_INFINITY == 72057594037927936u && SAGEPLIERS_REFUSED == 2 * SAGEPLIERS_INFINITY, "2^56 and 2^57");
int main() {
    // Document 01: the first question and its certificate, (1008, 1) to (617, 44), the name of (1, 3) over 1009, the kernel sheet over 11. Request E1:
    // the second question, and that both certificates make the one of degree 9.
    const uint32_t question[8] = {0x100003f1, 0x20000001, 0x30000003, 0x40000109, 0x5000036d, 0x60000003, 0x7000002e, 0xf0000000};
    const uint32_t kernel[7] = {0x1000000b, 0x20000000, 0x30000001, 0x60000003, 0x80000000, 0x80000001, 0xf0000000};
    const uint32_t second[8] = {0x100003f1, 0x20000109, 0x3000036d, 0x40000051, 0x500000a9, 0x60000003, 0x70000367, 0xf0000000};
    uint32_t answer[SAGEPLIERS_ROOM], step[SAGEPLIERS_ROOM], composed[SAGEPLIERS_ROOM];
    uint8_t bytes[4 * 15];
    if (sagepliers_kernel(kernel, 7, answer, SAGEPLIERS_ROOM) != 15 || answer[4] != 0x50000006) return 1;
    if (sagepliers_solve(question, 8, answer, SAGEPLIERS_ROOM) != 15 || answer[7] != 0x800003da || answer[13] != 0xa0000001) return 2;
    for (unsigned i = 0; i < sizeof bytes; i++) bytes[i] = static_cast<uint8_t>(answer[i / 4] >> (8 * (i % 4)) & 255);
    if (sagepliers_check(bytes, sizeof bytes) != 0) return 3;
    if (sagepliers_push(bytes, sizeof bytes, 1008 + (UINT64_C(1) << 28)) != 617 + (UINT64_C(44) << 28)) return 4;
    if (sagepliers_name(1009, 1, 3) != 269) return 5;
    if (sagepliers_solve(second, 8, step, SAGEPLIERS_ROOM) != 15 || step[7] != 0x80000045) return 6;
    if (sagepliers_compose(answer, 15, step, 15, composed, SAGEPLIERS_ROOM) != 24 || composed[5] != 0x60000009 || composed[7] != 0x80000150) return 7;
    // One certificate in both places, which is lawful memory: no codomain is its own domain here.
    if (sagepliers_compose(answer, 15, answer, 15, composed, SAGEPLIERS_ROOM) != SAGEPLIERS_REFUSED + 13 || composed[7] != 0x80000150) return 8;
    std::puts("ok");
}
CPP
# shellcheck disable=SC2086
$CXX -std=c++11 -O2 $strict header.cpp $flags -o header || fail "the header does not build as C++"
[ "$(./header)" = ok ] || fail "the C++ host got another answer"

# ---- threads

step "two threads on distinct buffers, with the 64 KiB of stack that the header names"
# shellcheck disable=SC2086
$CC -std=c11 -O2 $strict -DSTACK=65536 "$root/tests/threads.c" $flags -pthread -o threads || fail "threads.c does not build"
./threads || fail "threads"
# The library is not instrumented: of its own accesses the sanitizer sees those through memcpy and memset. That it has no writable memory is seen above.
# shellcheck disable=SC2086
$CC -std=c11 -g -O1 $strict -fsanitize=thread "$root/tests/threads.c" $flags -pthread -o threads_sanitized ||
    fail "threads.c does not build with the thread sanitizer"
got=0
$(unrandomized) ./threads_sanitized 200 >out 2>&1 || got=$?
[ "$got" -eq 0 ] || { cat out; fail "threads under the thread sanitizer ended with $got"; }
echo "under the thread sanitizer: $(cat out)"

# ---- the programs

# says PROGRAM TEXT WORDS..: the program prints exactly the text on the words.
says() {
    program=$1
    text=$2
    shift 2
    sheet "$@" >sheet.bin
    prints "$program" "$text" sheet.bin
}

step "answer: document 01's questions"
# shellcheck disable=SC2086
{
    says answer "$(printf '%s\n' $first)" $header f0000000
    says answer "$(printf '%s\n' $over_11)" 1000000b 20000000 30000001 40000000 50000006 60000003 70000000 f0000000
    says answer 'refused 11' 100003f1 20000001 30000003 40000109 5000036d 60000003 70000030 f0000000 # sigma = 48
    says answer 'refused 11' 100003f1 20000001 30000003 40000109 5000036e 60000003 7000002e f0000000 # B~ = 878
    says answer 'refused 2' 100003f1 30000001 30000003 40000109 5000036d 60000003 7000002e f0000000  # the second word of another kind
    says answer 'refused 3' 100003e9 20000001 30000003 40000109 5000036d 60000003 7000002e f0000000  # p = 1001
    says answer 'refused 4' 1000000b 20000000 30000001 40000000 50000006 60000007 70000000 f0000000  # p = 11 with l = 7
    says answer 'refused 6' 1000000b 20000000 30000001 40000000 50000006 60000005 70000000           # with l = 5 it passes 4; there is no end
    says answer 'refused 4' 100003f1 20000001 30000003 40000109 5000036d 60000006 7000002e f0000000  # l = 6
    says answer 'refused 6' $header f0000000 f0000000                                                # a ninth word
    says answer 'refused 6' $header f0000001                                                         # an end with value 1
    says answer 'refused 6' $first                                                                   # a certificate is no question
    says answer 'refused 7' 100003f1 20000000 30000000 40000109 5000036d 60000003 7000002e f0000000  # A = B = 0
}

step "answer: request E2's values from p on"
# shellcheck disable=SC2086
{
    says answer "$(printf '%s\n' $over_11)" 1000000b 2000000b 30000001 40000000 50000006 60000003 70000000 f0000000 # A = p is read as 0
    says answer "$(printf '%s\n' $first)" 100003f1 200003f2 300003f4 400004fa 5000075e 60000003 7000041f f0000000   # each p more
    says answer "$(printf '%s\n' $over_11)" 1000000b 2ffffffd 3ffffffe 4ffffffd 5ffffff8 60000003 7ffffffd f0000000 # each the last of its class
    says answer 'refused 11' 100003f1 200003f1 30000003 40000109 5000036d 60000003 7000002e f0000000                # A = 0: 15 s_2 = 5 h_1 fails
    says answer 'refused 7' 100003f1 200003f1 300007e2 40000109 5000036d 60000003 7000002e f0000000                 # A = p, B = 2 p
    says answer 'refused 7' 100003f1 20000001 30000003 400003f1 50000000 60000003 7000002e f0000000                 # A~ = p, B~ = 0
    says answer 'refused 4' 1000000b 20000000 30000001 40000000 50000006 60000019 70000000 f0000000                 # l = 3 + 2 p
    says answer 'refused 6' $header f00003f1                                                                        # an end with value p
}

step "kernel: document 01's kernel sheets"
# shellcheck disable=SC2086
{
    says kernel "$(printf '%s\n' $over_11)" 1000000b 20000000 30000001 60000003 80000000 80000001 f0000000
    says kernel "$(printf '%s\n' $first)" 100003f1 20000001 30000003 60000003 $g f0000000
    says kernel 'refused 11' 1000000b 20000000 30000001 60000003 8000000a 80000001 f0000000         # g = x - 1
    says kernel 'refused 2' $header f0000000                                                        # a question: its fourth word is no l
    says kernel 'refused 3' 100003e9 20000000 30000001 60000003 80000000 80000001 f0000000          # p = 1001
    says kernel 'refused 4' 1000000b 20000000 30000001 60000006 80000000 80000001 f0000000          # l = 6
    says kernel 'refused 4' 1000000b 20000000 30000001 60000007 80000000 80000001 f0000000          # p = 11 with l = 7
    says kernel 'refused 6' 1000000b 20000000 30000001 60000005 80000000 80000001 f0000000          # with l = 5 it passes 4; g is too short
    says kernel 'refused 6' 1000000b 20000000 30000001 60000003 80000000 80000001 f0000001          # an end with value 1
    says kernel 'refused 7' 1000000b 20000000 30000000 60000003 80000000 80000001 f0000000          # A = B = 0
    says kernel 'refused 8' 1000000b 20000000 30000001 60000003 80000000 80000002 f0000000          # g with leading 2
}

step "kernel: request E2's values from p on"
for rest in '2000000b 3000000c 60000003 8000000b 8000000c' '20000000 30000001 60000003 80000000 8000000c' '2ffffffd 3ffffffe 60000003 8ffffffd 8ffffffe'; do
    # shellcheck disable=SC2086
    says kernel "$(printf '%s\n' $over_11)" 1000000b $rest f0000000
done
says kernel 'refused 8' 1000000b 20000000 30000001 60000003 80000000 8000000b f0000000 # a leading coefficient p
says kernel 'refused 7' 1000000b 2000000b 30000016 60000003 80000000 80000001 f0000000 # A = p, B = 2 p
says kernel 'refused 6' 1000000b 20000000 30000001 60000003 80000000 80000001 f000000b # an end with value p

step "verify and push: document 01's certificates and points"
prints verify passes first.bin
prints verify passes over_11.bin
# shellcheck disable=SC2086
{
    # A point's number is u + 2^28 v in eight bytes, the low word first.
    says push "$(printf '%016x' $((617 + (44 << 28))))" 100003f0 00000000 $first # (1008, 1)
    says push "$(printf '%016x' 3)" 30000002 00000000 $over_11                   # (2, 3) goes to (3, 0)
    says push 0100000000000000 10000000 00000000 $over_11                        # (0, 1) goes to infinity
    says push 0100000000000000 00000000 01000000 $first                          # infinity
    says push 'refused 12' 20000000 00000000 $over_11                            # (0, 2) is not on the domain
    says push 'refused 12' 100003f1 00000000 $first                              # u = p
    says push 'refused 12' 00000001 01000000 $first                              # a number above 2^56
    says push 'refused 12' ffffffff ffffffff $first
}

# agree COUNT LINE G RATIONAL QUESTION..: answer prints COUNT words, from the line LINE on the words G, which end the coefficients of g, and RATIONAL last
# but one; verify passes them, kernel finds them again from p, A, B, l and g, and push takes infinity to infinity.
agree() {
    count=$1
    line=$2
    coefficients=$3
    roots=$4
    shift 4
    sheet "$@" >sheet.bin
    "$prefix/bin/sagepliers-answer" <sheet.bin >words || fail "answer ended with $?"
    [ "$(wc -l <words)" -eq "$count" ] || { cat words; fail "answer did not print $count words"; }
    case $(tail -n "+$line" words | tr '\n' ' ') in "$coefficients 9"*" $roots f0000000 ") ;; *) cat words && fail "answer printed another g or count" ;; esac
    "$prefix/bin/sagepliers-sheets" bytes <words >certificate.bin || fail "what answer printed is no certificate"
    prints verify passes certificate.bin
    # shellcheck disable=SC2046
    says kernel "$(cat words)" $(grep -e '^[1236]' -e '^8' words) f0000000
    { sheet 00000000 01000000 && cat certificate.bin; } >pushed.bin
    prints push 0100000000000000 pushed.bin
}

step "the programs agree: the kernel that is not cyclic, and multiplication by 15, over two primes"
agree 24 8 '80000150 8000000c 80000002 80000000 80000001' a0000001 100003f1 20000001 30000003 40000051 500000a9 60000009 70000000 f0000000
# By 15 on y^2 = x^3 + x + 3, as threads.c says: degree 225, codomain (15^4, 3 * 15^6), sigma 0, so the last coefficients of g are 0 and 1. PARI/GP finds one
# and two roots of elldivpol(ellinit([1, 3]), 15).
for rational_over in 'a0000001 268435399' 'a0000002 457'; do
    p=${rational_over#* }
    # shellcheck disable=SC2046
    agree 348 119 '80000000 80000001' "${rational_over% *}" \
        $(printf '%x ' $((0x10000000 + p)) 0x20000001 0x30000003 $((0x40000000 + 50625 % p)) $((0x50000000 + 34171875 % p))) 600000e1 70000000 f0000000
done

step "the programs: sheets that are cut or go on"
sheet 1000000b 20000000 30000001 60000003 80000000 80000001 f0000000 >kernel.bin
cp question.bin answer.bin
cp first.bin verify.bin
{ sheet 100003f0 00000000 && cat first.bin; } >push.bin
# header_of PROGRAM: how many bytes stand before the coefficients, or the end. A sheet that is cut there or later gets 6, one that is cut earlier, or within
# a word, gets 2.
header_of() {
    case $1 in kernel) echo 16 ;; push) echo 36 ;; *) echo 28 ;; esac
}
for program in answer kernel verify push; do
    before=$(header_of $program)
    size=$(wc -c <$program.bin)
    cut=0
    while [ $cut -lt "$size" ]; do
        number=2
        if [ $((cut % 4)) -eq 0 ] && [ $cut -ge "$before" ]; then number=6; fi
        head -c $cut $program.bin >sheet.bin
        prints $program "refused $number" sheet.bin
        cut=$((cut + 1))
    done
    # All lengths about the programs' room, 1576 bytes and eight more, and about the first piece behind it; 4001 and 5000 bytes more; and millions.
    for whole in $(seq 1560 1590) $(seq 5660 5690) $((size + 1)) $((size + 2)) $((size + 3)) $((size + 4)) $((size + 4001)) $((size + 5000)) \
        8000000 8000001 8000002 8000003; do
        number=2
        if [ $((whole % 4)) -eq 0 ]; then number=6; fi
        { cat $program.bin && head -c $((whole - size)) /dev/zero; } >sheet.bin
        prints $program "refused $number" sheet.bin
    done
done

step "verify and push: the longest certificate"
# Degree 255, 393 words: g = x^127 meets R1 with sigma 0 and has one root, and N = 0 is not that of R2, whose highest coefficient is 1.
# shellcheck disable=SC2046
sheet 100003f1 20000001 30000003 40000109 5000036d 600000ff 70000000 \
    $(yes 80000000 | head -n 127) 80000001 $(yes 90000000 | head -n 256) a0000001 f0000000 >longest.bin
[ "$(wc -c <longest.bin)" -eq 1572 ] || fail "the longest certificate has 393 words"
refused_file 9 longest.bin
for more in 1 2 3 4; do
    { cat longest.bin && head -c $more /dev/zero; } >sheet.bin
    { sheet 100003f0 00000000 && cat sheet.bin; } >pushed.bin
    prints verify "refused $((more == 4 ? 6 : 2))" sheet.bin
    prints push "refused $((more == 4 ? 6 : 2))" pushed.bin
done

step "the programs: input that comes in parts, is empty or cannot be read, and output that cannot be written"
for program in answer kernel verify push; do
    called=$prefix/bin/sagepliers-$program
    "$called" <$program.bin >expected
    { head -c 5 $program.bin && sleep 0.1 && tail -c +6 $program.bin; } | "$called" >out || fail "$program ended with $?"
    cmp expected out || fail "$program printed something else on input that comes in parts"
    # An input without words fails question 2. Closed, a directory, and open for writing alone: nothing can be read.
    prints $program 'refused 2' empty.bin
    prints $program 'refused 2' directory
    echo 'refused 2' >expected
    "$called" <&- >out || fail "$program ended with $? on closed input"
    diff expected out || fail "$program printed something else on closed input"
    "$called" 0>written >out || fail "$program ended with $? on input that is open for writing"
    diff expected out || fail "$program printed something else on input that is open for writing"
    # A program has no exit status of its own, so it ends as ever; docs/TRUST.md says what follows.
    "$called" <$program.bin >&- 2>err || fail "$program ended with $? on closed output"
    "$called" <$program.bin >/dev/full 2>err || fail "$program ended with $? on a full disk"
done

step "all passed"
