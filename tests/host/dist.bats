# The release archive, and an install from it by people without the toolchain.
load common

@test "make dist: checksums, a command that runs, and install from it with LIBRARY and BIN" {
    cp -R "$ROOT/Makefile" "$ROOT/TOOLCHAIN" "$ROOT/sagepliers.pc.in" "$ROOT/include" "$ROOT/host" "$ROOT/tools" "$ROOT/docs" "$ROOT/examples" \
        "$ROOT/README.md" "$ROOT/LICENSE" "$ROOT/CHANGELOG.md" .
    make RT=false LIBRARY="$SAGEPLIERS_LIB_DIR/libsagepliers.a" BIN="$SAGEPLIERS_BIN_DIR" dist >log 2>&1 || say "$(cat log)"
    name=sagepliers-$SAGEPLIERS_VERSION-x86_64-linux
    (cd target && sha256sum -c "$name.tar.gz.sha256")
    cp "target/$name.tar.gz" once.tar.gz
    make RT=false LIBRARY="$SAGEPLIERS_LIB_DIR/libsagepliers.a" BIN="$SAGEPLIERS_BIN_DIR" dist >log 2>&1 || say "$(cat log)"
    cmp once.tar.gz "target/$name.tar.gz" || say 'two archives of one tree differ'

    mkdir elsewhere
    tar -C elsewhere -xzf once.tar.gz
    cd "elsewhere/$name"
    sha256sum --quiet -c SHA256SUMS
    for file in bin/sagepliers bin/sagepliers-answer lib/libsagepliers.a lib/libsagepliers.so.0 include/sagepliers.h share/man/man1/sagepliers.1 LICENSE \
        TOOLCHAIN; do
        [ -e "$file" ] || say "no $file in the archive"
    done
    [ "$(bin/sagepliers name 1009 1 3)" = 269 ]
    # pkg-config finds the tree where it is.
    # shellcheck disable=SC2046
    cc share/doc/sagepliers/examples/name.c $(PKG_CONFIG_PATH=lib/pkgconfig pkg-config --cflags --libs sagepliers) -Wl,-rpath,"$PWD/lib" -o name
    [ "$(./name)" = 269 ]

    cd ../..
    rm -r target
    make RT=false LIBRARY="elsewhere/$name/lib/libsagepliers.a" BIN="elsewhere/$name/bin" PREFIX="$folder/prefix" install >log 2>&1 || say "$(cat log)"
    [ "$(prefix/bin/sagepliers name 1009 1 3)" = 269 ]
    cmp prefix/lib/libsagepliers.a "elsewhere/$name/lib/libsagepliers.a"
    cmp prefix/bin/sagepliers-verify "$SAGEPLIERS_BIN_DIR/verify"
    make PREFIX="$folder/prefix" uninstall >log 2>&1
    [ -z "$(find prefix ! -type d)" ] || say "left behind: $(find prefix ! -type d)"
}
