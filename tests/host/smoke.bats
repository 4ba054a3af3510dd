# One or two calls of everything, for slow ways to run the command.
load common

@test "solve, kernel, compose, push, name, show, check, a tree, threads, wrong words" {
    gives 0 "$first_text" solve 1009 1 3 265 877 3 46 -o out.bin
    gives 0 "$first_json" kernel --json 1009 1 3 3 -23 1
    gives 1 "(1008, 1) -> (617, 44)
(1008, 2): $(refusal 12)" push out.bin -1 1 1008 2
    gives 0 "$degree_9_text" compose first.bin second.bin
    gives 1 "second.bin and out.bin: $(refusal 13)" compose first.bin second.bin out.bin
    gives 0 269 name 1009 1 3
    gives 0 "$first_text" show out.bin
    sagepliers show --hex out.bin >out.hex
    gives 0 "$first_text" show out.hex
    mkdir -p $'tree/odd\n'
    cp first.bin question.bin tree
    cp first.bin $'tree/odd\n/\xff'
    ln -s .. tree/up
    run --separate-stderr sagepliers check --json -j 3 tree missing
    [ "$status" -eq 2 ]
    [ "${#lines[@]}" -eq 4 ] || say "$output :: $stderr"
    gives 1 "tree/question.bin: $(refusal 6)
2 files: 1 pass, 1 refused" check tree/first.bin tree/question.bin
    truncate -s 1G tail.bin
    gives 1 "tail.bin: $(refusal 2)" check tail.bin
    fails 'points are missing' push first.bin
    fails 'No space left' solve 1009 1 3 265 877 3 46 -o /dev/full
}
