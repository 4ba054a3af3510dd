#!/bin/sh
# Runs the tests of the independent implementation. Needs no library.
set -eu
cd "$(dirname "$0")"
. ./environment.sh

cargo test -q -j1 -p reference
