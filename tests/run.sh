#!/bin/sh
# Compares the libsagepliers.a in the directory SAGEPLIERS_LIB_DIR with the
# independent implementation. Arguments go to the comparison (--quick,
# --count N, --threads N, --differences N, --only TEXT, --watch-only).
set -eu
here=$(pwd)
cd "$(dirname "$0")"
. ./environment.sh

need_library
cargo build -q -j1 --release -p compare
exec "$CARGO_TARGET_DIR/release/compare" "$@"
