#!/bin/sh
# Compares kernel, solve, push, compose, name and question 3 with PARI/GP: some 5,000
# kernels of every odd degree, free of repetition and with their rational abscissas
# counted, points and j-values with them, composed maps, and primes.
# SAGEPLIERS_LIB_DIR names the directory of libsagepliers.a. Without gp it fails;
# needs.sh installs it.
set -eu
here=$(pwd)
cd "$(dirname "$0")"
. ./environment.sh

need_tools gp
need_library
cargo build -q -j1 --release -p pari
script=$CARGO_TARGET_DIR/pari.gp
"$CARGO_TARGET_DIR/release/pari" "$script" || fail "the comparison failed"
# gp goes on after an error and ends with status 0, so its last line counts.
verdict=$(gp -q -f --default parisize=128M pari/compare.gp "$script" </dev/null 2>&1 | tee "$CARGO_TARGET_DIR/pari.log" | tail -n 1)
case $verdict in
"PARI/GP "*": 0 differences") echo "$verdict" ;;
*)
    head -n 40 "$CARGO_TARGET_DIR/pari.log" >&2
    fail "the comparison failed"
    ;;
esac
