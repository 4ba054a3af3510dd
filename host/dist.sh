#!/bin/sh
# Packs what make install installs into target/sagepliers-VERSION-x86_64-linux.tar.gz, for people without the toolchain:
#
#     host/dist.sh MAKE VERSION LIBRARY BIN BUILD
#
# The archive can be unpacked anywhere: its pkg-config file finds the tree by its own place. SHA256SUMS has a line for each file, and the archive's own
# checksum stands beside the archive. Names are in order, and owners and dates are fixed, so equal contents give equal archives.
set -eu
make=$1 version=$2 library=$3 bin=$4 build=$5
name=sagepliers-$version-x86_64-linux
work=$(mktemp -d)
trap 'rm -rf "$work"' EXIT

"$make" --no-print-directory install LIBRARY="$library" BIN="$bin" BUILD="$build" DESTDIR="$work/stage" PREFIX=/prefix >/dev/null
mv "$work/stage/prefix" "$work/$name"
cp README.md LICENSE CHANGELOG.md TOOLCHAIN "$work/$name"
# shellcheck disable=SC2016
sed -i -e 's|^prefix=.*|prefix=${pcfiledir}/../..|' -e 's|=/prefix/|=${prefix}/|' "$work/$name/lib/pkgconfig/sagepliers.pc"
(cd "$work/$name" && find . -type f | LC_ALL=C sort | sed 's|^\./||' | tr '\n' '\0' | xargs -0 sha256sum) >"$work/sums"
mv "$work/sums" "$work/$name/SHA256SUMS"
mkdir -p target
tar -C "$work" --sort=name --owner=0 --group=0 --numeric-owner --mode=go=rX,u+rw --mtime="@${SOURCE_DATE_EPOCH:-1794700800}" -cf "$work/dist.tar" "$name"
gzip -n -9 -c "$work/dist.tar" >"target/$name.tar.gz"
(cd target && sha256sum "$name.tar.gz" >"$name.tar.gz.sha256" && cat "$name.tar.gz.sha256")
