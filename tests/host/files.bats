# Files, folders, and output that cannot be written.
load common

@test "files that cannot be read: missing, a folder, nobody's" {
    mkdir folder
    for command in 'check missing' 'solve missing' 'kernel missing' 'show missing' 'push missing 1 1' 'compose missing first.bin' \
        'compose first.bin missing' 'compose question.bin first.bin missing'; do
        # shellcheck disable=SC2086
        fails 'missing: No such file or directory' $command
    done
    fails 'folder: Is a directory' solve folder
    fails 'folder: Is a directory' push folder 1008 1
    fails 'folder: Is a directory' compose first.bin folder
    fails ': No such file or directory' check ''
    fails 'there is no file to check' check folder
    fails 'there is no file to check' check --match '*.none' .
}

# nobody COMMAND..: as a user who may read only what everybody may.
nobody() {
    if [ "$(id -u)" -eq 0 ]; then
        setpriv --reuid=65534 --regid=65534 --clear-groups "$@"
    else
        "$@"
    fi
}

@test "files and folders without permission" {
    mkdir -p tree/shut
    cp first.bin tree/a.bin
    cp first.bin tree/b.bin
    cp first.bin tree/shut/c.bin
    chmod 000 tree/b.bin tree/shut
    # shellcheck disable=SC2086
    run --separate-stderr nobody $SAGEPLIERS check tree
    [ "$status" -eq 2 ]
    [ "$output" = '3 files: 1 pass, 0 refused, 2 not read' ] || say "$output"
    [ "$stderr" = 'sagepliers: tree/b.bin: Permission denied
sagepliers: tree/shut: Permission denied' ] || say "$stderr"
    # shellcheck disable=SC2086
    run --separate-stderr nobody $SAGEPLIERS check --json tree
    [ "$status" -eq 2 ]
    [ "$output" = '{"file":"tree/a.bin","result":"passes"}
{"file":"tree/b.bin","result":"unread","message":"Permission denied"}
{"file":"tree/shut","result":"unread","message":"Permission denied"}' ] || say "$output"
    # shellcheck disable=SC2086
    run --separate-stderr nobody $SAGEPLIERS solve 1009 1 3 265 877 3 46 -o tree/new.bin
    [ "$status" -eq 2 ]
    [ -z "$output" ]
    [[ $stderr == *'cannot write tree/new.bin: Permission denied'* ]]
}

@test "a refused one and an unread one: the status is 2" {
    run --separate-stderr sagepliers check question.bin missing.bin
    [ "$status" -eq 2 ]
    [ "$output" = "question.bin: $(refusal 6)
2 files: 0 pass, 1 refused, 1 not read" ] || say "$output"
    [ "$stderr" = 'sagepliers: missing.bin: No such file or directory' ]
}

@test "a tree: folders in folders, in the order of names; hidden files too" {
    mkdir -p tree/b/c tree/a
    cp question.bin tree/b/c/1
    cp question.bin tree/a/2
    cp first.bin tree/.hidden
    cp question.bin tree/z
    gives 1 "tree/a/2: $(refusal 6)
tree/b/c/1: $(refusal 6)
tree/z: $(refusal 6)
4 files: 1 pass, 3 refused" check tree
    gives 0 '1 file: 1 pass, 0 refused' check --match '.*' tree
}

@test "links: to a file, to a folder, to nowhere, in a circle" {
    mkdir -p tree/inner other
    cp first.bin other/a.bin
    ln -s ../other/a.bin tree/link.bin
    ln -s ../../tree tree/inner/circle
    ln -s ../other tree/other
    run --separate-stderr sagepliers check tree
    [ "$status" -eq 0 ]
    [ "$output" = '1 file: 1 pass, 0 refused; 2 links to folders left out' ] || say "$output"
    [ "${#stderr_lines[@]}" -eq 2 ]
    [[ $stderr == *'tree/inner/circle: a link to a folder, left out'* ]]
    run --separate-stderr sagepliers check --follow tree
    [ "$status" -eq 0 ]
    [ "$output" = '2 files: 2 pass, 0 refused' ] || say "$output"
    [[ $stderr == *'holds itself'* ]]
    ln -s nowhere tree/broken
    run --separate-stderr sagepliers check tree
    [ "$status" -eq 2 ]
    [[ $stderr == *'tree/broken: No such file or directory'* ]]
    run --separate-stderr sagepliers check --follow tree
    [ "$status" -eq 2 ]
    [[ $stderr == *'tree/broken: No such file or directory'* ]]
    ln -s tree/ way
    rm tree/broken
    run --separate-stderr sagepliers check way
    [ "$status" -eq 0 ]
    [ "$output" = '1 file: 1 pass, 0 refused; 2 links to folders left out' ] || say "$output"
}

@test "what is neither file nor folder: told in a folder, read when named" {
    mkdir tree
    mkfifo tree/pipe pipe
    python3 -c 'import socket; socket.socket(socket.AF_UNIX).bind("tree/socket")'
    ln -s /dev/null tree/null
    ln -s /dev/zero tree/zero
    cp first.bin tree
    : >tree/empty
    # shellcheck disable=SC2086
    run --separate-stderr timeout 20 $SAGEPLIERS check tree
    [ "$status" -eq 2 ]
    [ "$output" = "tree/empty: $(refusal 2)
6 files: 1 pass, 1 refused, 4 not read" ] || say "$output"
    [ "$stderr" = 'sagepliers: tree/null: neither a file nor a folder
sagepliers: tree/pipe: neither a file nor a folder
sagepliers: tree/socket: neither a file nor a folder
sagepliers: tree/zero: neither a file nor a folder' ] || say "$stderr"
    cat first.bin >pipe &
    gives 0 'pipe: passes' check pipe
    wait
    fails '/dev/zero: longer than any sheet' check /dev/zero
    [ "$(sagepliers check <(cat first.bin) | sed 's/.*: //')" = passes ]
}

@test "a sheet that arrives in pieces" {
    { head -c 3 first.bin && sleep 0.2 && tail -c +4 first.bin | head -c 30 && sleep 0.2 && tail -c +34 first.bin; } | sagepliers check >out
    [ "$(cat out)" = 'standard input: passes' ]
}

@test "huge files get the number of the first question that they fail, without being read whole" {
    truncate -s 20G zeros.bin
    gives 1 "zeros.bin: $(refusal 2)" check zeros.bin
    cp first.bin tail.bin
    truncate -s 20G tail.bin
    gives 1 "tail.bin: $(refusal 6)" check tail.bin
    truncate -s 21474836481 tail.bin
    gives 1 "tail.bin: $(refusal 2)" check tail.bin
    for size in 1568 1572 1576 16380 16384 16388 65536; do
        cp first.bin tail.bin
        truncate -s $size tail.bin
        gives 1 "tail.bin: $(refusal 6)" check tail.bin
        truncate -s $((size + 3)) tail.bin
        gives 1 "tail.bin: $(refusal 2)" check tail.bin
    done
    cp question.bin tail.bin
    truncate -s 1G tail.bin
    gives 1 "$(refusal 6)" solve tail.bin
    { sagepliers show --hex first.bin && head -c 20000 /dev/zero | tr '\0' ' '; } >blanks.hex
    fails 'blanks.hex: longer than any sheet' check blanks.hex
}

@test "a file that changes its length meanwhile gets an answer for what it was" {
    python3 - <<'PY' &
import os, time
sheet = open("first.bin", "rb").read()
end = time.monotonic() + 3
while time.monotonic() < end and not os.path.exists("stop"):
    for size in (60, 20, 64, 0, 40000, 60, 59):
        with open("moving.bin", "r+b" if os.path.exists("moving.bin") else "w+b") as file:
            file.write(sheet)
            file.truncate(size)
PY
    writer=$!
    for _ in $(seq 30); do
        [ -e moving.bin ] || sleep 0.05
        got=0
        sagepliers check moving.bin >out 2>err || got=$?
        case $got:$(cat out) in
        '0:moving.bin: passes' | "1:moving.bin: $(refusal 2)" | "1:moving.bin: $(refusal 6)") ;;
        2:) grep -q 'longer than any sheet' err || grep -q 'No such file' err ;;
        *) say "status $got, $(cat out err)" ;;
        esac
    done
    : >stop
    wait "$writer"
}

@test "names with blanks, line feeds, leading dashes, quotes, and bytes that are no UTF-8" {
    mkdir odd
    for name in 'a b' $'line\nfeed' '-dash' '--json' "quote'" 'back\slash' '"double"' $'\033[31mred' \
        $'bad\xff\xfe' $'\xc3\xa9t\xc3\xa9' '$home' "\$'x'" '-23' 1009 infinity $'turn\xe2\x80\xae' $'line\xe2\x80\xa8'; do
        cp question.bin "odd/$name"
    done
    run --separate-stderr sagepliers check odd
    [ "$status" -eq 1 ]
    [ "${#lines[@]}" -eq 18 ] || say "${#lines[@]} lines"
    [ "${lines[17]}" = '17 files: 0 pass, 17 refused' ]
    # Each name is read back by the shell to a file that is there.
    for line in "${lines[@]:0:17}"; do
        shown=${line%": $(refusal 6)"}
        case $shown in
        \$\'*) eval "name=$shown" ;;
        *) name=$shown ;;
        esac
        [ -f "$name" ] || say "no file $shown"
        [[ $shown != *$'\033'* && $shown != *$'\xe2\x80'* ]]
    done
    cd odd
    gives 1 "./-dash: $(refusal 6)" check ./-dash
    gives 1 "-dash: $(refusal 6)" check -- -dash
    gives 1 "-23: $(refusal 6)" check -23
    gives 1 "1009: $(refusal 6)" check 1009
    gives 1 "\$'line\\nfeed': $(refusal 6)" check $'line\nfeed'
    gives 1 "\$'bad\\377\\376': $(refusal 6)" check $'bad\xff\xfe'
    gives 0 '' solve -q -o -23 ./1009
    [ "$(sagepliers check -23)" = '-23: passes' ]
    gives 1 "$(refusal 6)" push infinity 1 1
    cp ../first.bin -- -5
    gives 1 "\$'bad\\377\\376': $(refusal 6)" compose -5 $'bad\xff\xfe'
    gives 1 "-5 and -23: $(refusal 13)" compose -5 -23
    gives 0 '' compose -q -5 ../second.bin -o -7
    cmp ./-7 ../degree_9.bin
    gives 1 '{"file":"bad\ufffd\ufffd","file_hex":"626164fffe","result":"refused","number":6,"meaning":"'"$(meaning 6)"'"}' compose --json -5 $'bad\xff\xfe'
}

@test "names in JSON: escaped, and with their bytes where they are no UTF-8" {
    mkdir odd
    for name in 'a b' $'line\nfeed' '"\' $'\001\177' $'bad\xff\xc3' $'\xed\xa0\x80' $'\xc0\xaf' $'\xf4\x90\x80\x80' $'\xf0\x9f\x99\x82\xe2\x82\xac\xc3\xa9'; do
        cp question.bin "odd/$name"
    done
    sagepliers check --json odd >out.json || [ $? -eq 1 ]
    python3 - <<'PY'
import json, os
lines = open("out.json", encoding="utf-8").read().splitlines()
records = [json.loads(line) for line in open("out.json", "rb").read().split(b"\n")[:-1]]
names = {os.path.join(b"odd", name) for name in os.listdir(b"odd")}
found = set()
for record in records:
    assert record["result"] == "refused" and record["number"] == 6, record
    exact = bytes.fromhex(record["file_hex"]) if "file_hex" in record else record["file"].encode()
    if "file_hex" in record:
        assert "\ufffd" in record["file"], record
    found.add(exact)
assert found == names and len(records) == len(names) == 9, (found ^ names)
assert sum("file_hex" in record for record in records) == 4
PY
}

@test "a full disk" {
    for command in 'solve 1009 1 3 265 877 3 46' 'solve 1009 1 3 265 877 3 46 -o -' 'solve 1009 1 3 265 877 3 48' 'kernel kernel.bin' 'check first.bin' \
        'compose first.bin second.bin' 'compose second.bin first.bin' 'compose first.bin second.bin -o -' \
        'check question.bin' 'check --json first.bin' 'push first.bin 1008 1' 'name 1009 1 3' 'show first.bin' \
        '--help' '--version' 'check --help' 'show --usage'; do
        got=0
        # shellcheck disable=SC2086
        sagepliers $command >/dev/full 2>err || got=$?
        [ "$got" -eq 2 ] || say "$command: status $got"
        grep -q 'cannot write the answer: No space left on device' err || say "$command: $(cat err)"
    done
    fails 'cannot write /dev/full: No space left on device' solve 1009 1 3 265 877 3 46 -o /dev/full
    fails 'cannot write /dev/full: No space left on device' show first.bin -o /dev/full
    fails 'cannot write /dev/full: No space left on device' compose first.bin second.bin -o /dev/full
    fails 'cannot write no/file: No such file or directory' kernel kernel.bin -o no/file
    fails 'cannot write .: Is a directory' kernel kernel.bin -o .
    # Quiet answers need no disk.
    sagepliers check -q first.bin >/dev/full
}

@test "a reader that has gone, and standard files that are closed" {
    { sleep 0.3; got=0; sagepliers check -v first.bin 2>err || got=$?; echo "$got" >status; } | :
    [ "$(cat status)" -eq 2 ]
    grep -q 'cannot write the answer' err
    # More than a pipe holds, for a reader that takes one line.
    mkdir tree
    for i in $(seq 300); do cp first.bin "tree/$i"; done
    # shellcheck disable=SC2046
    { got=0; sagepliers check -v $(yes tree | head -n 40) 2>err || got=$?; echo "$got" >status; } | head -n 1 >/dev/null
    [ "$(cat status)" -eq 2 ]
    grep -q 'cannot write the answer' err
    got=0
    sagepliers name 1009 1 3 >&- 2>err || got=$?
    [ "$got" -eq 2 ]
    grep -q 'cannot write the answer: Bad file descriptor' err
    got=0
    sagepliers check <&- >out 2>err || got=$?
    [ "$got" -eq 2 ]
    grep -q 'standard input: Bad file descriptor' err
    # With standard output closed, the file of -o must not get the answer's text.
    got=0
    sagepliers solve 1009 1 3 265 877 3 46 -o out.bin >&- 2>err || got=$?
    [ "$got" -eq 2 ]
    cmp out.bin first.bin
    got=0
    sagepliers check missing.bin 2>&- >out || got=$?
    [ "$got" -eq 2 ]
    # With standard input closed, no other file may get its place while a thread reads it.
    mkfifo pipe
    for _ in 1 2 3 4 5; do
        { sleep 0.1 && cat first.bin; } >pipe &
        got=0
        sagepliers check -v -j 2 pipe - <&- >out 2>err || got=$?
        wait
        [ "$got" -eq 2 ]
        [ "$(head -n 1 out)" = 'pipe: passes' ] || say "$(cat out err)"
        grep -q 'standard input: Bad file descriptor' err
    done
}
