# Ten thousand files, threads, progress.
load common

# folder_of COUNT: files in folders of a hundred; each hundredth is refused, by turns with 6, 2, 8 and 10.
folder_of() {
    COUNT=$1 python3 - <<'PY'
import os
first = open("first.bin", "rb").read()
wrong = [open("question.bin", "rb").read(), first[:-1], first[:32] + b"\2" + first[33:], first[:16] + b"\x6e" + first[17:]]
for i in range(int(os.environ["COUNT"])):
    folder = f"many/{i // 100:04}"
    if i % 100 == 0:
        os.makedirs(folder)
    with open(f"{folder}/{i:05}.bin", "wb") as file:
        file.write(wrong[i // 100 % 4] if i % 100 == 37 else first)
PY
}

# The lines that are wanted for that folder.
wanted() {
    local i number
    for ((i = 37; i < $1; i += 100)); do
        case $((i / 100 % 4)) in
        0) number=6 ;;
        1) number=2 ;;
        2) number=8 ;;
        3) number=10 ;;
        esac
        printf 'many/%04d/%05d.bin: %s\n' $((i / 100)) "$i" "$(refusal $number)"
    done
}

@test "10,000 files in one process, by one thread and by several: the same answers in the same order" {
    folder_of 10000
    wanted 10000 >expected
    echo '10000 files: 9900 pass, 100 refused' >>expected
    for jobs in 1 2 7 0; do
        got=0
        sagepliers check --jobs $jobs many >out 2>err || got=$?
        [ "$got" -eq 1 ] || say "status $got with $jobs jobs"
        cmp out expected
        [ ! -s err ]
    done
    rm -r many/*/*37.bin
    gives 0 '9900 files: 9900 pass, 0 refused' check -j 2 many
    [ "$(sagepliers check --json -j 2 many | sort -u | wc -l)" -eq 9900 ]
    [ "$(sagepliers check -v many | grep -c ': passes$')" -eq 9900 ]
}

@test "10,000 names on the command line" {
    folder_of 10000
    wanted 10000 >expected
    echo '10000 files: 9900 pass, 100 refused' >>expected
    got=0
    find many -type f | sort | tr '\n' '\0' | xargs -0 -s 2000000 $SAGEPLIERS check -j 2 >out || got=$?
    [ "$got" -ne 0 ]
    cmp out expected
}

@test "progress: on a terminal only, and gone at the end" {
    folder_of 3000
    run --separate-stderr sagepliers check --progress many
    [ "$status" -eq 1 ]
    [ -z "$stderr" ]
    # script lends a terminal to standard error alone.
    script -qec "$SAGEPLIERS check --progress -j 2 many many many many many many many many many many >out" terminal </dev/null >/dev/null || true
    tail -n 1 out | grep -q '^30000 files: 29700 pass, 300 refused$'
    tr '\r' '\n' <terminal | grep -q '^[0-9]* judged, [0-9]* refused, 0 not read' || say "no progress: $(cat -v terminal)"
    grep -q $'\033\[K' terminal
}
