#!/bin/sh
# Shows that the comparison can fail: it must pass against the faultless mock
# and find every deliberate fault. Needs no library.
set -eu
cd "$(dirname "$0")"
. ./environment.sh

cargo build -q -j1 --release -p mock
SAGEPLIERS_LIB_DIR=$CARGO_TARGET_DIR/release
export SAGEPLIERS_LIB_DIR
cargo build -q -j1 --release -p compare
compare=$CARGO_TARGET_DIR/release/compare
faults=$("$CARGO_TARGET_DIR/release/faults")
log=$CARGO_TARGET_DIR/selftest.log

unset SAGEPLIERS_FAULT
"$compare" --quick
echo "no fault: passed"
"$compare" --quick --watch-only >"$log"
echo "no fault, certificates watched alone: passed"

missed=0
found=0
# must_find FAULT ARGUMENT..: the comparison with these arguments.
must_find() {
    fault=$1
    shift
    if SAGEPLIERS_FAULT=$fault "$compare" --differences 1 "$@" >"$log" 2>&1; then
        echo "$fault: MISSED"
        missed=$((missed + 1))
    elif grep -q '^DIFFERENCE' "$log"; then
        where=$(sed -n 's/^DIFFERENCE.* in group \([^,]*\).*/\1/p' "$log" | sort -u | tr '\n' ';')
        echo "$fault: found (${where%;})"
        found=$((found + 1))
    else
        echo "$fault: the comparison broke down without a report"
        cat "$log"
        missed=$((missed + 1))
    fi
}

# The groups that can find a fault; with no name it is any group.
groups_of() {
    case $1 in
    *compose*) echo composition ;;
    *chain*) echo chains ;;
    esac
}

for fault in $faults; do must_find "$fault" --quick --only "$(groups_of "$fault")"; done
# Where nothing is known but the library's own answers, it is the ways to join a chain that have to differ.
for fault in first-composite second-composite falling of-four sigma-by-step 13-without-b 14-without-p; do
    must_find "chain-$fault" --quick --differences 100 --only 'chains, own answers'
    grep -q '^  the ways to join a chain do not agree' "$log" || fail "chain-$fault: the ways to join a chain agree"
done
# What the quick form leaves out.
must_find divisors-below-root --only 'every p'
# Where every answer is taken for right, the watch on certificates has to do without expectations.
for watched in 'factor- gcd(g, ' 'counted- [0-9]* abscissas are rational, and not '; do
    named=$(printf '%s\n' "$faults" | grep "^${watched%% *}") || fail "there is no fault ${watched%% *} for the watch on certificates"
    for fault in $named; do
        must_find "$fault" --quick --watch-only --only "$(groups_of "$fault")"
        grep -q "^  certificate: ${watched#* }" "$log" || fail "$fault: it was not the watch that found it"
    done
done
SAGEPLIERS_FAULT=push-negative "$compare" --quick --watch-only >"$log" 2>&1 || fail "--watch-only compares points"
# A library that refuses everything leaves nothing to watch.
if SAGEPLIERS_FAULT=refuse-everything "$compare" --quick --watch-only >"$log" 2>&1; then fail "no certificate was missed"; fi
grep -q '^too few certificates' "$log" || fail "the comparison does not say that there were no certificates"
echo "$found found, $missed missed"
[ "$missed" -eq 0 ]
