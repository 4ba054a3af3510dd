# Every refusal that each subcommand can give, by the questions' own rows. Question 1 cannot fail here: the command lends the room that it asks for.
load common

# check_refuses NUMBER WORDS..
check_refuses() {
    local number=$1
    shift
    words "$@" >damaged.bin
    gives 1 "damaged.bin: $(refusal "$number")" check damaged.bin
    gives 1 "$(refusal "$number")" push damaged.bin 1008 1
}

# sheet_refused COMMAND NUMBER WORDS..
sheet_refused() {
    local command=$1 number=$2
    shift 2
    words "$@" >damaged.bin
    gives 1 "$(refusal "$number")" "$command" damaged.bin
}

@test "check and push: 2 to 10" {
    each_refused check_refuses
}

# pari_sheet U: the certificate of what PARI/GP computes for the kernel polynomial x - U of (1, 3) over 1009, in decimal.
pari_sheet() {
    echo "v = ellisogeny(ellinit([1, 3], 1009), x - $1); c = lift(v[1]); n = Vecrev(lift(v[2][1]));
          print(strjoin([1009, 1, 3, c[4], c[5], 3, $((2 * $1)), -$1, 1, n[1], n[2], n[3], n[4], #polrootsmod(x - $1, 1009)], \" \"))" | gp -q -f
}

@test "check: what PARI/GP gives for x - 22, which is no kernel polynomial, gets 10; for x - 23 it passes" {
    pari_sheet 22 >pari.txt
    [ "$(cat pari.txt)" = '1009 1 3 606 295 3 44 -22 1 958 363 -44 1 1' ] || say "$(cat pari.txt)"
    gives 1 "pari.txt: $(refusal 10)" check pari.txt
    gives 1 "$(refusal 11)" kernel 1009 1 3 3 -22 1
    pari_sheet 23 >pari.txt
    gives 0 'pari.txt: passes' check pari.txt
}

@test "bytes that are no whole words get 2, and so does nothing at all" {
    head -c 59 first.bin >short.bin
    gives 1 "short.bin: $(refusal 2)" check short.bin
    { cat first.bin && printf '\0'; } >long.bin
    gives 1 "long.bin: $(refusal 2)" check long.bin
    head -c 31 question.bin >short.bin
    gives 1 "$(refusal 2)" solve short.bin
    head -c 27 kernel.bin >short.bin
    gives 1 "$(refusal 2)" kernel short.bin
    : >empty.bin
    gives 1 "empty.bin: $(refusal 2)" check empty.bin
    gives 1 "$(refusal 2)" solve empty.bin
    gives 1 "$(refusal 2)" kernel empty.bin
    gives 1 "$(refusal 2)" push empty.bin 1008 1
    gives 1 "/dev/null: $(refusal 2)" check /dev/null
}

@test "solve: 2 to 4, 6, 7 and 11, from words and from numbers" {
    # shellcheck disable=SC2086
    {
        sheet_refused solve 2 $g $n
        sheet_refused solve 6 $header f0000000 f0000000 # a ninth word
        sheet_refused solve 6 $header
        sheet_refused solve 6 $header f00003f1 # an end with value p
    }
    gives 1 "$(refusal 3)" solve 1001 1 3 265 877 3 46
    gives 1 "$(refusal 4)" solve 1009 1 3 265 877 6 46
    gives 1 "$(refusal 4)" solve 11 0 1 0 6 7 0
    gives 1 "$(refusal 4)" solve 1009 1 3 265 877 257 46
    gives 1 "$(refusal 4)" solve 11 0 1 0 6 25 0 # 3 + 2 p
    gives 1 "$(refusal 7)" solve 1009 0 0 265 877 3 46
    gives 1 "$(refusal 7)" solve 1009 1009 2018 265 877 3 46
    gives 1 "$(refusal 7)" solve 1009 1 3 0 1009 3 46
    gives 1 "$(refusal 11)" solve 1009 1009 3 265 877 3 46 # A = 0, where 15 s_2 = 5 h_1 = -265 does not hold
    gives 1 "$(refusal 11)" solve 1009 1 3 265 877 3 48
    gives 1 "$(refusal 11)" solve 1009 1 3 265 878 3 46
}

@test "kernel: 2 to 4, 6 to 8 and 11" {
    # shellcheck disable=SC2086
    sheet_refused kernel 2 $first
    gives 1 "$(refusal 3)" kernel 1001 1 3 3 986 1
    gives 1 "$(refusal 4)" kernel 1009 1 3 6 986 1
    gives 1 "$(refusal 6)" kernel 1009 1 3 3 986 1 1
    gives 1 "$(refusal 7)" kernel 1009 0 0 3 986 1
    gives 1 "$(refusal 7)" kernel 1009 1009 2018 3 986 1
    gives 1 "$(refusal 8)" kernel 1009 1 3 3 986 2
    gives 1 "$(refusal 8)" kernel 1009 1 3 3 986 1009 # 0
    gives 1 "$(refusal 11)" kernel 1009 1 3 3 1009 1  # x: 0 is no root of 3 x^4 + 6 x^2 + 36 x - 1
    gives 1 "$(refusal 11)" kernel 11 0 1 3 10 1
}

# compose_refuses NUMBER WORDS..: whichever of the two is damaged is named; of two damaged ones it is the first.
compose_refuses() {
    local number=$1
    shift
    words "$@" >damaged.bin
    gives 1 "damaged.bin: $(refusal "$number")" compose damaged.bin second.bin
    gives 1 "damaged.bin: $(refusal "$number")" compose first.bin damaged.bin
    gives 1 "damaged.bin: $(refusal "$number")" compose damaged.bin question.bin
}

@test "compose: 2 to 10 of the first certificate, then of the second" {
    each_refused compose_refuses
    gives 1 "question.bin: $(refusal 6)" compose question.bin kernel.bin
    gives 1 "kernel.bin: $(refusal 2)" compose kernel.bin question.bin
    head -c 59 first.bin >short.bin
    gives 1 "short.bin: $(refusal 2)" compose short.bin second.bin
    gives 1 "short.bin: $(refusal 2)" compose first.bin short.bin
    gives 1 "question.bin: $(refusal 6)" compose question.bin short.bin
    { cat second.bin && printf '\0'; } >long.bin
    gives 1 "long.bin: $(refusal 2)" compose first.bin long.bin
    : >empty.bin
    gives 1 "empty.bin: $(refusal 2)" compose first.bin empty.bin
    gives 1 "empty.bin: $(refusal 2)" compose empty.bin empty.bin
    gives 1 '{"file":"question.bin","result":"refused","number":6,"meaning":"the remaining words are not exactly those of the sheet"}' \
        compose --json first.bin question.bin
}

@test "compose: 13 and 14, in this order" {
    # shellcheck disable=SC2086
    {
        words $over_11 >over_11.bin
        words $next_over_11 >next_over_11.bin
    }
    # Both values differ; A alone; B alone, where 14 would fail too; p alone, with (0, 6) over 13.
    gives 1 "first.bin and first.bin: $(refusal 13)" compose first.bin first.bin
    gives 1 "second.bin and first.bin: $(refusal 13)" compose second.bin first.bin
    sagepliers solve -q -o other.bin 1009 1 877 81 $((877 * 729)) 9 0
    gives 1 "first.bin and other.bin: $(refusal 13)" compose first.bin other.bin
    gives 1 "over_11.bin and over_11.bin: $(refusal 13)" compose over_11.bin over_11.bin
    sagepliers kernel -q -o over_13.bin 13 0 6 3 0 1
    gives 1 "over_11.bin and over_13.bin: $(refusal 13)" compose over_11.bin over_13.bin
    # 2 * 9 - 1 is not below 11; each of the two passes, and they meet.
    gives 0 '2 files: 2 pass, 0 refused' check over_11.bin next_over_11.bin
    gives 1 "over_11.bin and next_over_11.bin: $(refusal 14)" compose over_11.bin next_over_11.bin
    gives 1 "{\"files\":[{\"file\":\"over_11.bin\"},{\"file\":\"next_over_11.bin\"}],\"result\":\"refused\",\"number\":14,\"meaning\":\"$(meaning 14)\"}" \
        compose --json over_11.bin next_over_11.bin
    gives 1 "next_over_11.bin and over_11.bin: $(refusal 13)" compose next_over_11.bin over_11.bin
}

@test "compose: 14 at its bounds" {
    # By 3 and by 5 is by 15, of degree 225, which is at most 255. 2 * 225 - 1 = 449 is a prime, and 457 is the next.
    for p in 457 449; do
        sagepliers solve -q -o three.bin $p 1 3 81 $((3 * 729)) 9 0
        sagepliers solve -q -o five.bin $p 81 $((3 * 729)) $((81 * 625)) $((3 * 729 * 15625)) 25 0
        sagepliers solve -q -o fifteen.bin $p 1 3 $((81 * 625)) $((3 * 729 * 15625)) 225 0 || [ $p = 449 ]
        if [ $p = 457 ]; then
            gives 0 '' compose -q three.bin five.bin -o out.bin
            cmp out.bin fifteen.bin
        else
            gives 1 "three.bin and five.bin: $(refusal 14)" compose three.bin five.bin
        fi
    done
    # A large prime forbids nothing: 3 and 5 again, but 5 and 5 make 625.
    p=268435399
    sagepliers solve -q -o five.bin $p 1 3 625 $((3 * 15625)) 25 0
    sagepliers solve -q -o three.bin $p 625 $((3 * 15625)) $((625 * 81)) $((3 * 15625 * 729)) 9 0
    sagepliers solve -q -o again.bin $p 625 $((3 * 15625)) $((625 * 625)) $((3 * 15625 * 15625 % p)) 25 0
    gives 0 '' compose -q five.bin three.bin
    gives 1 "five.bin and again.bin: $(refusal 14)" compose five.bin again.bin
}

@test "name: 3, 5 and 7, for all of 32 bits" {
    gives 1 "$(refusal 3)" name 1001 1 3
    gives 1 "$(refusal 3)" name 268435456 1 3
    gives 1 "$(refusal 3)" name 4294967295 1 3
    gives 1 "$(refusal 5)" name 1009 1 1009
    gives 1 "$(refusal 5)" name 1009 4294967295 3
    gives 1 "$(refusal 7)" name 1009 0 0
    gives 1 '{"result":"refused","number":7,"meaning":"a curve is singular"}' name --json 1009 0 0
}

@test "12 comes after the certificate's own questions" {
    gives 1 "(1009, 0): $(refusal 12)" push first.bin 1009 0
    gives 1 "(268435455, 268435455): $(refusal 12)" push first.bin 268435455 268435455
    gives 1 "$(refusal 6)" push question.bin 1009 0
}
