#!/bin/sh
# Measures `sagepliers check` on a folder of 10,000 certificates beside a C loop over sagepliers_check on the same files, in one run. No part of the gate.
#
#     bench/check.sh [ROUNDS]
#
# There are two folders. The first has certificates of degree 3, half of them over primes below 2000, a quarter over primes of 21 bits and a quarter over the
# largest. The second has the cheapest one alone, of degree 3 over 1009, where a call costs least and all else counts most. The loop is given the names;
# the command finds them in the folder and sorts them. Rounds alternate between the two, after one round each that does not count; what is printed are
# the medians of the time that the processor spent for the process, user and system, and of the wall time.
set -eu
rounds=${1:-15}
root=$(cd "$(dirname "$0")/.." && pwd)
cd "$root"
make --no-print-directory command >/dev/null
work=$(mktemp -d)
trap 'rm -rf "$work"' EXIT
cc -std=c11 -O2 -Iinclude bench/check_loop.c target/host/libsagepliers.a -o "$work/loop"
version=$(sed -n 's/^.define SAGEPLIERS_VERSION "\(.*\)"/\1/p' include/sagepliers.h)
WORK=$work ROUNDS=$rounds COMMAND=$root/target/host/sagepliers LIBRARY=$root/target/host/libsagepliers.so.$version python3 bench/check.py
