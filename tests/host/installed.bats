# What make install installs: libraries, header, man page, completion, examples; PREFIX is where, ROOT the repository.
load common

flags() {
    PKG_CONFIG_PATH=$PREFIX/lib/pkgconfig pkg-config "$@" sagepliers
}

strict='-std=c11 -Wall -Wextra -Wpedantic -Wconversion -Werror'

@test "both libraries have the entries, and nothing else to see" {
    printf 'sagepliers_%s\n' check compose kernel meaning name push solve >wanted
    nm -g --defined-only "$PREFIX/lib/libsagepliers.a" | awk '$2 == "T" { print $3 }' | sort >got
    diff wanted got
    nm -D --defined-only "$PREFIX/lib/libsagepliers.so" | awk '$2 == "T" { sub("@@.*", "", $3); print $3 }' | sort >got
    diff wanted got
    nm -D --defined-only "$PREFIX/lib/libsagepliers.so" | awk '$2 != "T" && $2 != "A"' >got
    [ ! -s got ] || say "$(cat got)"
}

@test "the archive is the proved one with meaning.o beside it" {
    mkdir proved installed
    (cd proved && ar x "$SAGEPLIERS_LIB_DIR/libsagepliers.a")
    (cd installed && ar x "$PREFIX/lib/libsagepliers.a")
    for object in proved/*; do
        cmp "$object" "installed/${object#proved/}"
        rm "installed/${object#proved/}"
    done
    [ "$(ls installed)" = meaning.o ]
}

@test "the shared library: its soname, no text relocations, and that it calls nothing but functions on memory" {
    readelf -dW "$PREFIX/lib/libsagepliers.so" >dynamic
    grep -q 'Library soname: \[libsagepliers.so.0\]' dynamic
    run grep TEXTREL dynamic
    [ "$status" -eq 1 ]
    [ "$(readlink "$PREFIX/lib/libsagepliers.so")" = libsagepliers.so.0 ]
    [ "$(readlink "$PREFIX/lib/libsagepliers.so.0")" = "libsagepliers.so.$SAGEPLIERS_VERSION" ]
    # The C library's needs apart: nothing but functions on memory is asked of anybody.
    nm -D --undefined-only "$PREFIX/lib/libsagepliers.so" | awk '$1 == "U" { sub("@.*", "", $2); print $2 }' >uses
    while read -r used; do
        case $used in
        memcpy | memset | memmove | memcmp | bcmp | __stack_chk_fail) ;;
        *) say "uses $used" ;;
        esac
    done <uses
}

@test "every example builds, linked either way, and answers as the specification says" {
    for link in shared static; do
        for source in "$PREFIX"/share/doc/sagepliers/examples/*.c; do
            program=$(basename "$source" .c)_$link
            if [ $link = shared ]; then
                # shellcheck disable=SC2046,SC2086
                cc $strict "$source" $(flags --cflags --libs) -Wl,-rpath,"$PREFIX/lib" -o "$program"
                readelf -dW "$program" | grep -q 'NEEDED.*libsagepliers.so.0'
            else
                # shellcheck disable=SC2046,SC2086
                cc $strict "$source" $(flags --cflags) "$PREFIX/lib/libsagepliers.a" -o "$program"
            fi
        done
        # shellcheck disable=SC2086
        [ "$(./solve_$link)" = "$(printf '%s\n' $first)" ]
        # shellcheck disable=SC2086
        [ "$(./kernel_$link)" = "$(printf '%s\n' $over_11)" ]
        # shellcheck disable=SC2086
        [ "$(./compose_$link)" = "$(printf '%s\n' $degree_9)" ]
        [ "$(./name_$link)" = 269 ]
        [ "$(./host_$link first.bin 1008 1)" = 'the certificate passes; rational abscissas: 1 of 1
(1008, 1) goes to (617, 44)' ]
        run "./host_$link" question.bin
        [ "$status" -eq 1 ]
        [ "$output" = "the certificate is refused with 6: $(meaning 6)" ]
    done
}

@test "Python takes the header by cffi, and every entry by it" {
    run "$CFFI_PYTHON" "$PREFIX/share/doc/sagepliers/examples/host.py" "$PREFIX/include/sagepliers.h" "$PREFIX/lib/libsagepliers.so.0"
    [ "$status" -eq 0 ] || say "$output"
    [ "$output" = "solve: 15 words, rational abscissas: 1
kernel: 15 words
compose: 24 words, degree 9, rational abscissas: 1
check: 0
push: (617, 44)
name: 269
meaning of 10: $(meaning 10)" ] || say "$output"
}

@test "C++ takes the header, and the meanings are those of the numbers" {
    cat >meanings.cpp <<'CPP'
#include <sagepliers.h>
#include <cstdio>
int main() {
    for (uint32_t i = 0; i <= 15; i++) std::puts(sagepliers_meaning(i));
    std::puts(sagepliers_meaning(UINT32_MAX));
    std::puts(SAGEPLIERS_VERSION);
}
CPP
    # shellcheck disable=SC2046
    c++ -std=c++11 -Wall -Wextra -Wpedantic -Wconversion -Werror meanings.cpp $(flags --cflags) "$PREFIX/lib/libsagepliers.a" -o meanings
    ./meanings >got
    {
        echo 'nothing is refused'
        for i in $(seq 14); do meaning "$i"; done
        echo 'no refusal has this number'
        echo 'no refusal has this number'
        flags --modversion
    } >expected
    diff expected got
}

@test "the man page is that of the help texts, and has no fault" {
    "$ROOT/host/man.sh" "$PREFIX/bin/sagepliers" >page
    diff page "$ROOT/host/sagepliers.1" || say 'host/sagepliers.1 is not up to date: make man'
    cmp "$ROOT/host/sagepliers.1" "$PREFIX/share/man/man1/sagepliers.1"
    LC_ALL=C man --warnings -l page >shown 2>warnings
    [ ! -s warnings ] || say "$(cat warnings)"
    for name in solve kernel compose check push name show; do
        grep -q "Usage: sagepliers $name" shown
    done
}

# completes WORDS..: what the last word may become.
completes() {
    COMP_WORDS=("$@")
    COMP_CWORD=$(($# - 1))
    COMPREPLY=()
    _sagepliers
    echo "${COMPREPLY[*]}"
}

@test "completion knows every subcommand and every option, and files" {
    # shellcheck disable=SC1091
    source "$PREFIX/share/bash-completion/completions/sagepliers"
    [ "$(completes sagepliers s)" = 'solve show' ]
    [ "$(completes sagepliers che)" = check ]
    [ "$(completes sagepliers co)" = compose ]
    [ "$(completes sagepliers compose fi)" = first.bin ]
    [ "$(completes sagepliers compose first.bin se)" = second.bin ]
    [ "$(completes sagepliers check --jo)" = --jobs ]
    [ "$(completes sagepliers check --input = h)" = hex ]
    [ "$(completes sagepliers check fi)" = first.bin ]
    [ "$(completes sagepliers solve -o que)" = question.bin ]
    [ "$(completes sagepliers show --form k)" = kernel ]
    [ -z "$(completes sagepliers name fi)" ]
    # Every long option of every help text, and no other.
    for name in solve kernel compose check push name show; do
        sagepliers $name --help | grep -o -e '--[a-z0-9]*' | sort -u >wanted
        completes sagepliers $name -- | tr ' ' '\n' | sort -u >got
        diff wanted got || say "options of $name"
    done
}

@test "the proved programs say the same, word for word" {
    for name in answer kernel verify push; do
        [ -x "$SAGEPLIERS_BIN_DIR/$name" ] || say "no program $name in $SAGEPLIERS_BIN_DIR"
    done
    for numbers in '1009 1 3 265 877 3 46' '1009 1 3 265 877 3 48' '1009 1 3 81 169 9 0' '11 0 1 0 6 3 0' '1001 1 3 265 877 3 46' \
        '1009 0 0 1 1 3 1' '1009 1 1009 1 1 3 1' '11 11 1 0 6 3 0'; do
        # shellcheck disable=SC2086
        sagepliers show -q -o question.bin $numbers
        "$SAGEPLIERS_BIN_DIR/answer" <question.bin >wanted
        sagepliers solve --hex question.bin | sed 's/^\(refused [0-9]*\): .*/\1/' >got || true
        diff wanted got
    done
    for numbers in '1009 1 3 3 -23 1' '1009 1 3 3 -22 1' '11 0 1 3 0 1' '1009 1 3 9 336 12 2 0 1' '1009 1 3 9 336 12 2 0 2' '11 11 12 3 11 12'; do
        # shellcheck disable=SC2086
        sagepliers show -q --form=kernel -o sheet.bin $numbers
        "$SAGEPLIERS_BIN_DIR/kernel" <sheet.bin >wanted
        sagepliers kernel --hex sheet.bin | sed 's/^\(refused [0-9]*\): .*/\1/' >got || true
        diff wanted got
    done
    for sheet in first.bin question.bin kernel.bin; do
        "$SAGEPLIERS_BIN_DIR/verify" <$sheet >wanted
        { sagepliers check $sheet || true; } | sed -e 's/^[^:]*: //' -e 's/^\(refused [0-9]*\): .*/\1/' >got
        diff wanted got
    done
    { printf '\360\003\000\020\000\000\000\000' && cat first.bin; } | "$SAGEPLIERS_BIN_DIR/push" >wanted
    sagepliers push --hex first.bin 1008 1 >got
    diff wanted got
}
