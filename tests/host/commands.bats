# Every subcommand: its answers, its ways to take a sheet and to show one, and what it says of a wrong command line.
load common

@test "solve: seven numbers, the answer in words, as JSON, in hexadecimal" {
    gives 0 "$first_text" solve 1009 1 3 265 877 3 46
    gives 0 "$first_json" solve --json 1009 1 3 265 877 3 46
    # shellcheck disable=SC2086
    gives 0 "$(printf '%s\n' $first)" solve --hex 1009 1 3 265 877 3 46
    gives 0 '' solve -q 1009 1 3 265 877 3 46
}

@test "solve: the other marked questions" {
    run --separate-stderr sagepliers solve --json 1009 1 3 81 169 9 0
    [ "$status" -eq 0 ]
    [[ $output == *'"g":[336,12,2,0,1]'*'"rational":1}' ]]
    gives 0 "$over_11_text" solve 11 0 1 0 6 3 0
}

@test "solve: a negative number stands for itself plus p" {
    gives 0 "$first_text" solve 1009 -1008 3 -744 877 3 -963
    gives 0 "$first_text" solve 1009 1 3 265 -132 3 46
}

@test "solve and kernel: a value of p or more stands for itself modulo p, and the certificate has what is left" {
    gives 0 "$over_11_text" solve 11 11 1 0 6 3 0
    gives 0 "$over_11_text" kernel 11 11 12 3 11 12
    # 2^28 - 3 is a multiple of 11.
    gives 0 "$over_11_text" solve 11 268435453 268435454 268435453 268435448 3 268435453
    gives 0 "$first_text" solve 1009 1010 -1006 1274 1886 3 1055 -o out.bin
    cmp out.bin first.bin
    gives 0 "$first_text" kernel 1009 2019 3 3 1995 1010 -o out.bin
    cmp out.bin first.bin
}

@test "check and push: a certificate's values are not reduced" {
    echo '1009 1010 3 265 877 3 46 -23 1 949 678 963 1 1' >header.txt
    gives 1 "header.txt: $(refusal 5)" check header.txt
    gives 1 "$(refusal 5)" push header.txt 1008 1
    echo '1009 1 3 265 877 3 46 -23 1010 949 678 963 1 1' >g.txt
    gives 1 "g.txt: $(refusal 6)" check g.txt
    echo '1009 1 3 265 877 3 46 -23 1 949 678 963 1010 1' >n.txt
    gives 1 "n.txt: $(refusal 6)" check n.txt
    echo '1009 1 3 265 877 3 46 -23 1 949 678 963 1 1010' >count.txt
    gives 1 "count.txt: $(refusal 9)" check count.txt
    gives 1 "$(refusal 9)" push count.txt 1008 1
}

@test "solve: -o writes the bytes, and a refusal leaves the file as it was" {
    gives 0 "$first_text" solve 1009 1 3 265 877 3 46 -o out.bin
    cmp out.bin first.bin
    gives 1 "$(refusal 11)" solve 1009 1 3 265 877 3 48 -o out.bin
    cmp out.bin first.bin
    gives 1 "$(refusal 11)" solve 1009 1 3 265 877 3 48 -o new.bin
    [ ! -e new.bin ]
    gives 0 '' solve -q --output=quiet.bin 1009 1 3 265 877 3 46
    cmp quiet.bin first.bin
}

@test "solve: -o - writes nothing but bytes to standard output" {
    sagepliers solve 1009 1 3 265 877 3 46 -o - >out.bin
    cmp out.bin first.bin
    run --separate-stderr sagepliers solve 1009 1 3 265 877 3 48 -o -
    [ "$status" -eq 1 ]
    [ -z "$output" ]
    [ "$stderr" = "sagepliers: $(refusal 11)" ]
}

@test "solve and kernel: sheets from files and standard input, in bytes, hexadecimal and decimal" {
    gives 0 "$first_text" solve question.bin
    # shellcheck disable=SC2086
    printf '%s\n' $header f0000000 >question.hex
    gives 0 "$first_text" solve question.hex
    tr 'a-f\n' 'A-F ' <question.hex >upper.hex
    gives 0 "$first_text" solve upper.hex
    printf '1009 1 3\r\n265 877\t3 -963\r\n' >question.txt
    gives 0 "$first_text" solve question.txt
    [ "$(sagepliers solve <question.bin)" = "$first_text" ]
    [ "$(sagepliers solve - <question.hex)" = "$first_text" ]
    printf '1009 1 3 3 -23 1' >kernel.txt
    gives 0 "$first_text" kernel kernel.txt
    gives 0 "$first_json" kernel --json kernel.txt
    [ "$(sagepliers kernel --json <kernel.bin)" = '{"form":"certificate","p":11,"domain":[0,1],"codomain":[0,6],"degree":3,"sigma":0,"g":[0,1],"N":[4,0,0,1],"rational":1}' ]
}

@test "kernel: numbers, and the marked refusals" {
    gives 0 "$first_text" kernel 1009 1 3 3 -23 1
    gives 0 "$first_text" kernel 1009 1 3 3 986 1 -o out.bin
    cmp out.bin first.bin
    gives 1 "$(refusal 11)" kernel 11 0 1 3 -1 1
    gives 1 '{"result":"refused","number":11,"meaning":"there is no answer: nothing meets the rules"}' kernel --json 11 0 1 3 -1 1
    # x - 22 is no kernel, though PARI/GP has a codomain for it
    gives 1 "$(refusal 11)" kernel 1009 1 3 3 -22 1
}

@test "compose: request E1's two steps are the marked sheet of degree 9, in every view" {
    gives 0 "$degree_9_text" compose first.bin second.bin
    # shellcheck disable=SC2086
    gives 0 "$(printf '%s\n' $degree_9)" compose --hex first.bin second.bin
    gives 0 "$(printf '%s' '{"form":"certificate","p":1009,"domain":[1,3],"codomain":[81,169],"degree":9,"sigma":0,"g":[336,12,2,0,1],' \
        '"N":[743,873,144,468,937,30,721,997,0,1],"rational":1}')" compose --json first.bin second.bin
    gives 0 '' compose -q first.bin second.bin
    # The words of the two sheets that the documents do not print: N by R2 and the count of roots, by PARI/GP.
    for given in '265 3 871 x+69 second' '1 9 0 x^4+2*x^2+12*x+336 degree_9'; do
        read -r a l sigma g name <<<"$given"
        b=$([ "$a" = 1 ] && echo 3 || echo 877)
        echo "g = Mod(1, 1009)*($g); h = g'; f = x^3 + $a*x + $b; n = ($l*x - $sigma)*g^2 - 2*(3*x^2 + $a)*g*h - 4*f*(g*h' - h^2);
              values = concat([[1009, $a, $b, 81, 169, $l, $sigma], Vecrev(lift(g)), Vecrev(lift(n)), [#polrootsmod(lift(g), 1009)]]);
              print(strjoin(values, \" \"))" | gp -q -f >pari.txt
        sagepliers show -o - pari.txt | cmp - "$name.bin"
    done
}

@test "compose: -o writes the bytes, and a refusal leaves the file as it was" {
    gives 0 "$degree_9_text" compose first.bin second.bin -o out.bin
    cmp out.bin degree_9.bin
    gives 1 "second.bin and first.bin: $(refusal 13)" compose second.bin first.bin -o out.bin
    cmp out.bin degree_9.bin
    gives 1 "question.bin: $(refusal 6)" compose first.bin question.bin -o out.bin
    cmp out.bin degree_9.bin
    gives 1 "second.bin and first.bin: $(refusal 13)" compose second.bin first.bin -o new.bin
    [ ! -e new.bin ]
    gives 0 '' compose -q first.bin second.bin --output=quiet.bin
    cmp quiet.bin degree_9.bin
    sagepliers compose first.bin second.bin -o - >out.bin
    cmp out.bin degree_9.bin
    run --separate-stderr sagepliers compose second.bin first.bin -o -
    [ "$status" -eq 1 ]
    [ -z "$output" ]
    [ "$stderr" = "sagepliers: second.bin and first.bin: $(refusal 13)" ] || say "$stderr"
    # All is read before anything is written.
    cp first.bin both.bin
    gives 0 "$degree_9_text" compose both.bin second.bin -o both.bin
    cmp both.bin degree_9.bin
}

@test "compose: certificates in bytes, hexadecimal and decimal, and one of them in standard input" {
    # shellcheck disable=SC2086
    printf '%s\n' $first >first.hex
    echo '1009 265 877 81 169 3 -138 69 1 394 560 138 1 1' >second.txt
    gives 0 "$degree_9_text" compose first.hex second.txt
    gives 0 "$degree_9_text" compose --input=bytes first.bin second.bin
    fails 'second.txt: this looks like decimal text' compose --input=bytes first.bin second.txt
    [ "$(sagepliers compose - second.txt <first.hex)" = "$degree_9_text" ]
    [ "$(sagepliers compose first.bin - <second.bin)" = "$degree_9_text" ]
    [ "$(sagepliers solve -o - 1009 265 877 81 169 3 871 | sagepliers compose first.bin -)" = "$degree_9_text" ]
    run --separate-stderr sagepliers compose - first.bin <second.bin
    [ "$status" -eq 1 ]
    [ "$output" = "standard input and first.bin: $(refusal 13)" ] || say "$output"
    run --separate-stderr sagepliers compose first.bin - --json <question.bin
    [ "$status" -eq 1 ]
    [ "$output" = '{"file":"-","result":"refused","number":6,"meaning":"the remaining words are not exactly those of the sheet"}' ] || say "$output"
    fails 'standard input can be only one of the certificates' compose - - </dev/null
}

# Multiplication by m on y^2 = x^3 + A x + B goes to (m^4 A, m^6 B), once it is normalized, with degree m^2 and kernel sum 0; and by 3, then by m, is by 3 m.
@test "compose: three files and more, from the left" {
    sagepliers solve -q -o three.bin 1009 81 169 $((81 * 81)) $((169 * 729)) 9 0
    sagepliers solve -q -o nine.bin 1009 1 3 $((81 * 81)) $((3 * 729 * 729)) 81 0
    gives 0 '' compose -q first.bin second.bin three.bin -o out.bin
    cmp out.bin nine.bin
    sagepliers compose -q second.bin three.bin -o tail.bin
    gives 0 '' compose -q first.bin tail.bin -o out.bin
    cmp out.bin nine.bin
    gives 0 'out.bin: passes' check out.bin
    # The same points by the one map and by the three in turn.
    read -r u v <<<"$(sagepliers push first.bin 1008 1 | sed 's/.*-> (\(.*\), \(.*\))/\1 \2/')"
    read -r u v <<<"$(sagepliers push second.bin "$u" "$v" | sed 's/.*-> (\(.*\), \(.*\))/\1 \2/')"
    gives 0 "(1008, 1) -> ($u, $v)" push degree_9.bin 1008 1
    image=$(sagepliers push three.bin "$u" "$v" | sed 's/.*-> //')
    gives 0 "(1008, 1) -> $image" push out.bin 1008 1
    # Which files do not go together.
    gives 1 "second.bin and first.bin: $(refusal 13)" compose first.bin second.bin first.bin three.bin
    gives 1 "question.bin: $(refusal 6)" compose first.bin second.bin question.bin
    gives 1 '{"files":[{"file":"second.bin"},{"file":"first.bin"}],"result":"refused","number":13,"meaning":"'"$(meaning 13)"'"}' \
        compose --json first.bin second.bin first.bin
    # 9 * 9 * 9 is too much, though 9 * 9 is not.
    sagepliers solve -q -o third.bin 1009 $((81 * 81)) $((169 * 729)) $((81 * 81 * 81)) $((169 * 729 * 729)) 9 0
    gives 0 '' compose -q three.bin third.bin
    gives 1 "degree_9.bin, three.bin and third.bin: $(refusal 14)" compose degree_9.bin three.bin third.bin
    gives 1 '' compose -q degree_9.bin three.bin third.bin
}

# join NAME FILE FILE: the two files in NAME.bin.
join() {
    gives 0 '' compose -q "$2" "$3" -o "$1.bin"
}

# Request E7. Two steps of degree 3, multiplication by 3, and the first step again, where that ends: abscissas times 9^2. The kernel sum of all is that of the
# last, and those before it times the degrees that follow.
@test "compose: a chain of four in each of its five ways, and of its parts" {
    local p=1009
    local a=$((81 * 81 * 265 % p)) b=$((81 * 81 * 81 * 877 % p))
    sagepliers solve -q -o three.bin $p 81 169 $((81 * 81)) $((169 * 729)) 9 0
    sagepliers solve -q -o again.bin $p $((81 * 81)) $((169 * 729)) $a $b 3 $((81 * 46))
    sagepliers solve -q -o whole.bin $p 1 3 $a $b 243 $((81 * 46 + 27 * 871 + 81 * 46))
    # Files given from the left, as typesetters join them, and the same files joined by hand.
    gives 0 '' compose -q first.bin second.bin three.bin again.bin -o out.bin
    cmp out.bin whole.bin
    join ab first.bin second.bin
    join bc second.bin three.bin
    join cd three.bin again.bin
    join abc ab.bin three.bin
    join right first.bin bc.bin
    cmp right.bin abc.bin
    join bcd bc.bin again.bin
    join right second.bin cd.bin
    cmp right.bin bcd.bin
    gives 0 '' compose -q second.bin three.bin again.bin -o out.bin
    cmp out.bin bcd.bin
    for way in 'abc again' 'ab cd' 'first bcd'; do
        # shellcheck disable=SC2086
        set -- $way
        join out "$1.bin" "$2.bin"
        cmp out.bin whole.bin
    done
    gives 0 'whole.bin: passes' check whole.bin
}

# refused_either_way LEFT RIGHT A B C: the numbers that three files get from the left and from the right; nothing is written.
refused_either_way() {
    local left=$1 right=$2 a=$3 b=$4 c=$5
    rm -f joined.bin out.bin
    run --separate-stderr sagepliers compose "$a" "$b" "$c" -o out.bin
    [ "$status" -eq 1 ] || say "status $status from the left: $a $b $c"
    [[ $output == *": $(refusal "$left")" ]] || say "from the left: $output"
    run --separate-stderr sagepliers compose "$a" "$b" -o joined.bin
    if [ "$status" -eq 0 ]; then run --separate-stderr sagepliers compose joined.bin "$c" -o out.bin; fi
    [ "$status" -eq 1 ] || say "status $status from the left, by two calls: $a $b $c"
    [[ $output == *": $(refusal "$left")" ]] || say "from the left, by two calls: $output"
    rm -f joined.bin
    run --separate-stderr sagepliers compose "$b" "$c" -o joined.bin
    if [ "$status" -eq 0 ]; then run --separate-stderr sagepliers compose "$a" joined.bin -o out.bin; fi
    [ "$status" -eq 1 ] || say "status $status from the right: $a $b $c"
    [[ $output == *": $(refusal "$right")" ]] || say "from the right: $output"
    [ ! -e out.bin ] || say "something was written: $a $b $c"
}

@test "compose: a chain is refused from the left exactly when it is from the right, though the numbers may differ" {
    sagepliers solve -q -o three.bin 1009 81 169 $((81 * 81)) $((169 * 729)) 9 0
    sagepliers solve -q -o third.bin 1009 $((81 * 81)) $((169 * 729)) $((81 * 81 * 81)) $((169 * 729 * 729)) 9 0
    sagepliers solve -q -o nine.bin 1009 1 3 $((81 * 81)) $((3 * 729 * 729)) 81 0
    head -c 59 first.bin >short.bin
    # One sheet, or one place where two do not meet.
    refused_either_way 6 6 question.bin second.bin three.bin
    refused_either_way 6 6 first.bin question.bin three.bin
    refused_either_way 6 6 first.bin second.bin question.bin
    refused_either_way 13 13 second.bin second.bin three.bin
    refused_either_way 13 13 first.bin second.bin second.bin
    refused_either_way 13 13 first.bin first.bin first.bin
    # 9 * 9 * 9, of which two are permitted; 81 * 9 at either end.
    refused_either_way 14 14 degree_9.bin three.bin third.bin
    refused_either_way 13 14 first.bin nine.bin third.bin
    refused_either_way 14 13 nine.bin third.bin first.bin
    # Two sheets; a sheet and two that do not meet; a sheet and too large a product.
    refused_either_way 6 2 question.bin second.bin short.bin
    refused_either_way 2 6 short.bin second.bin question.bin
    refused_either_way 13 6 first.bin first.bin question.bin
    refused_either_way 2 13 short.bin first.bin first.bin
    refused_either_way 14 2 nine.bin third.bin short.bin
    refused_either_way 6 14 question.bin nine.bin third.bin
}

@test "push: points, infinity, points of the kernel, and pairs that are no points" {
    gives 0 '(1008, 1) -> (617, 44)
infinity -> infinity' push first.bin 1008 1 infinity
    gives 0 '(1008, 1) -> (617, 44)' push first.bin -1 -1008
    # shellcheck disable=SC2086
    words $over_11 >over_11.bin
    gives 0 '(2, 3) -> (3, 0)
(0, 1) -> infinity' push over_11.bin 2 3 0 1
    gives 1 "(1008, 2): $(refusal 12)
(1009, 1): $(refusal 12)
(1008, 1) -> (617, 44)" push first.bin 1008 2 1009 1 1008 1
    gives 0 '00000002c0000269
0100000000000000' push --hex first.bin 1008 1 infinity
    gives 1 "$(refusal 12)" push --hex first.bin 1008 2
    gives 1 '{"point":[1008,1],"image":[617,44]}
{"point":"infinity","image":"infinity"}
{"point":[1008,2],"result":"refused","number":12,"meaning":"the point is not one of the domain"}' push --json first.bin 1008 1 infinity 1008 2
    gives 1 '' push --quiet first.bin 1008 2
    [ "$(sagepliers push - 1008 1 <first.bin)" = '(1008, 1) -> (617, 44)' ]
}

@test "push: a refused certificate pushes no point" {
    gives 1 "$(refusal 6)" push question.bin 1008 1
    gives 1 '{"result":"refused","number":6,"meaning":"the remaining words are not exactly those of the sheet"}' push --json question.bin 1008 1
}

@test "name: the j-value" {
    gives 0 269 name 1009 1 3
    gives 0 269 name 1009 -1008 3
    gives 0 '{"p":1009,"curve":[1,3],"j":269}' name --json 1009 1 3
    gives 0 '' name -q 1009 1 3
}

@test "check: one certificate" {
    gives 0 'first.bin: passes' check first.bin
    gives 0 '' check -q first.bin
    gives 0 '{"file":"first.bin","result":"passes"}' check --json first.bin
    [ "$(sagepliers check <first.bin)" = 'standard input: passes' ]
    [ "$(sagepliers check - <first.bin)" = 'standard input: passes' ]
    [ "$(sagepliers check --json - <first.bin)" = '{"file":"-","result":"passes"}' ]
    gives 1 "question.bin: $(refusal 6)" check question.bin
    gives 1 '{"file":"question.bin","result":"refused","number":6,"meaning":"the remaining words are not exactly those of the sheet"}' check --json question.bin
}

@test "check: several, with a summary" {
    gives 0 '2 files: 2 pass, 0 refused' check first.bin first.bin
    gives 1 "question.bin: $(refusal 6)
3 files: 2 pass, 1 refused" check first.bin question.bin first.bin
    gives 1 "first.bin: passes
question.bin: $(refusal 6)
2 files: 1 pass, 1 refused" check --verbose first.bin question.bin
}

@test "check: hexadecimal and decimal certificates are told apart" {
    # shellcheck disable=SC2086
    printf '%s\n' $first >first.hex
    echo '1009 1 3 265 877 3 46 -23 1 949 678 -46 1 1' >first.txt
    gives 0 '3 files: 3 pass, 0 refused' check first.bin first.hex first.txt
    gives 0 '1 file: 1 pass, 0 refused' check --match '*.hex' .
    gives 0 'first.hex: passes' check --input=hex first.hex
    gives 0 'first.txt: passes' check --input=decimal first.txt
    gives 0 'first.bin: passes' check --input=bytes first.bin
    fails 'first.hex: this looks like hexadecimal text' check --input=bytes first.hex
    fails 'first.hex: this looks like hexadecimal text' check --input=decimal first.hex
    fails 'first.txt: this looks like decimal text' check --input=bytes first.txt
    fails 'first.bin: this is no text' check --input=hex first.bin
}

@test "text that is no sheet is told as such, and is not refused" {
    echo 'refused 11' >refusal.txt
    fails 'refusal.txt: this looks like text, and not like a sheet' check refusal.txt
    fails 'refusal.txt: this looks like text, and not like a sheet' solve refusal.txt
    fails 'refusal.txt: this looks like text, and not like a sheet' push refusal.txt 1008 1
    fails 'refusal.txt: this looks like text, and not like a sheet' show refusal.txt
    fails 'refusal.txt: this looks like text, and not like a sheet' compose first.bin refusal.txt
    printf ' \n' >blank.txt
    fails 'not like a sheet' check blank.txt
    printf 'Grüße\n' >utf8.txt
    fails 'not like a sheet' check utf8.txt
    echo '1009 1 3 265 877 3 046' >zero.txt # no shortest decimal form
    fails 'not like a sheet' solve zero.txt
    echo '1009 1 3 265 877 3 268435456' >large.txt
    fails 'has no place in a word' solve large.txt
    echo '1009 1 3 265 877 3 -1010' >small.txt
    fails 'has no place in a word' solve small.txt
}

@test "show: the three forms in every view" {
    gives 0 "$first_text" show first.bin
    gives 0 "$first_json" show --json first.bin
    # shellcheck disable=SC2086
    gives 0 "$(printf '%s\n' $first)" show --hex first.bin
    gives 0 'question: p = 1009, degree 3, kernel sum 46
domain: y^2 = x^3 + x + 3
codomain: y^2 = x^3 + 265*x + 877' show question.bin
    gives 0 '{"form":"question","p":1009,"domain":[1,3],"codomain":[265,877],"degree":3,"sigma":46}' show --json question.bin
    gives 0 'kernel sheet: p = 11, degree 3
domain: y^2 = x^3 + 1
g = x' show kernel.bin
    gives 0 '{"form":"kernel","p":11,"domain":[0,1],"degree":3,"g":[0,1]}' show --json kernel.bin
    gives 0 '  0  1000000b  kind  1  p      11
  1  20000000  kind  2  A      0
  2  30000001  kind  3  B      1
  3  60000003  kind  6  l      3
  4  80000000  kind  8  g      0
  5  80000001  kind  8  g      1
  6  f0000000  kind 15  end    0' show --words kernel.bin
    gives 0 '' show -q first.bin
}

@test "show: judges nothing, and turns one writing into another" {
    gives 0 'question: p = 1001, degree 6, kernel sum 5000
domain: y^2 = x^3
codomain: y^2 = x^3 + 2*x' show 1001 0 0 2 0 6 5000 -o question.out
    words 100003e9 20000000 30000000 40000002 50000000 60000006 70001388 f0000000 | cmp - question.out
    sagepliers show --hex first.bin >first.hex
    sagepliers show -o - first.hex | cmp - first.bin
    gives 0 '' show -q -o again.bin 1009 1 3 265 877 3 46 -23 1 949 678 963 1 1
    cmp again.bin first.bin
    gives 0 '' show -q -o again.bin --form=kernel 11 0 1 3 0 1
    cmp again.bin kernel.bin
    # Seven numbers may be either; l = 5 and three coefficients of g
    gives 0 'kernel sheet: p = 1009, degree 5
domain: y^2 = x^3 + x + 3
g = x^2 + 7*x + 6' show --form=kernel 1009 1 3 5 6 7 1
}

@test "the count of rational abscissas: a line of its own, whatever it is, and nothing that a negative number may stand for" {
    # The count is not judged here.
    gives 0 "${first_text%1}1009" show 1009 1 3 265 877 3 46 -23 1 949 678 963 1 1009
    gives 0 '  0  1000000b  kind  1  p      11
  1  20000000  kind  2  A      0
  2  30000001  kind  3  B      1
  3  40000000  kind  4  A~     0
  4  50000006  kind  5  B~     6
  5  60000003  kind  6  l      3
  6  70000000  kind  7  sigma  0
  7  80000000  kind  8  g      0
  8  80000001  kind  8  g      1
  9  90000004  kind  9  N      4
 10  90000000  kind  9  N      0
 11  90000000  kind  9  N      0
 12  90000001  kind  9  N      1
 13  a0000001  kind 10  count  1
 14  f0000000  kind 15  end    0' show --words 11 0 1 0 6 3 0 0 1 4 0 0 1 1
    fails '-1 has no place in a word' show 1009 1 3 265 877 3 46 -23 1 949 678 963 1 -1
    # Multiplication by 3 on y^2 = x^3 + x + 3: some of its four abscissas or none, by PARI/GP's polrootsmod(3*x^4 + 6*x^2 + 36*x - 1, p).
    for given in '1009 169 1' '1013 161 0' '1019 149 2'; do
        read -r p b rational <<<"$given"
        sagepliers solve "$p" 1 3 81 "$b" 9 0 >answer.txt
        [ "$(tail -n 1 answer.txt)" = "rational abscissas: $rational" ] || say "$given: $(cat answer.txt)"
        [ "$(echo "print(#polrootsmod(3*x^4 + 6*x^2 + 36*x - 1, $p))" | gp -q -f)" = "$rational" ]
    done
    # Sheets of before, without the count or with it twice, are no certificates.
    echo '1009 1 3 265 877 3 46 -23 1 949 678 963 1' >without.txt
    gives 1 "without.txt: $(refusal 6)" check without.txt
    echo '1009 1 3 265 877 3 46 -23 1 949 678 963 1 1 1' >twice.txt
    gives 1 "twice.txt: $(refusal 6)" check twice.txt
    run --separate-stderr sagepliers show without.txt
    [ "$status" -eq 1 ]
    [[ $stderr == *'no question, certificate or kernel sheet'* ]]
}

@test "show: what is no sheet is shown word by word, with status 1" {
    # shellcheck disable=SC2086
    words $header $g $n >cut.bin
    printf 'xyz' >>cut.bin
    run --separate-stderr sagepliers show cut.bin
    [ "$status" -eq 1 ]
    [ "${lines[0]}" = '  0  100003f1  kind  1  p      1009' ]
    [ "${lines[13]}" = ' 13  78        left over' ]
    [[ $stderr == *'no question, certificate or kernel sheet'* ]]
    run --separate-stderr sagepliers show --json cut.bin
    [ "$status" -eq 1 ]
    [[ $output == '{"form":null,"bytes":55,"words":["100003f1",'*'"90000001"]}' ]]
    : >empty.bin
    run --separate-stderr sagepliers show empty.bin
    [ "$status" -eq 1 ]
    [ -z "$output" ]
}

@test "polynomials: coefficients 0 and 1, and none but 0" {
    gives 0 'kernel sheet: p = 1009, degree 7
domain: y^2 = x^3
g = x^3 + 2*x + 1' show --form=kernel 1009 0 0 7 1 2 0 1
    gives 0 'kernel sheet: p = 1009, degree 5
domain: y^2 = x^3 + x
g = 0' show --form=kernel 1009 1 0 5 0 0 0
    gives 0 'kernel sheet: p = 1009, degree 3
domain: y^2 = x^3 + 1
g = 5*x' show --form=kernel 1009 0 1 3 0 5
}

@test "polynomials are shown so that PARI/GP reads them back" {
    sagepliers solve --json 1009 1 3 81 169 9 0 >answer.json
    sagepliers solve 1009 1 3 81 169 9 0 >answer.txt
    for name in g N; do
        text=$(sed -n "s/^$name = //p" answer.txt)
        wanted=$(sed "s/.*\"$name\":\(\[[0-9,]*\]\).*/\1/" answer.json)
        got=$(echo "print(Vecrev($text))" | gp -q -f | tr -d ' ')
        [ "$got" = "$wanted" ] || say "$name: $got, not $wanted"
    done
}

@test "wrong command lines" {
    fails 'a command is missing'
    fails 'guess is no command' guess
    fails '-5 is no command' -5
    fails "unrecognized option '--guess'" --guess
    fails "unrecognized option '--guess'" solve --guess
    fails '6 numbers' solve 1009 1 3 265 877 3
    fails '8 numbers' solve 1009 1 3 265 877 3 46 1
    fails 'write ./1009' solve 1009
    fails 'x is no number' solve 1009 1 3 265 877 3 x
    fails '007 is no number' solve 1009 1 3 265 877 3 007
    fails ' is no number' solve 1009 1 3 265 877 3 ''
    fails '+3 is no number' solve 1009 1 +3 265 877 3 46
    fails 'first.bin is no number' solve first.bin b.bin
    fails '268435456 has no place in a word' solve 268435456 1 3 265 877 3 46
    fails '-1010 has no place in a word' solve 1009 1 3 265 877 3 -1010
    fails '-3 has no place in a word' solve 1009 1 3 265 877 -3 46
    fails '-1009 has no place in a word' solve -1009 1 3 265 877 3 46
    fails '4294967296 is no number' solve 4294967296 1 3 265 877 3 46
    fails '5 numbers' kernel 1009 1 3 3 1
    fails '0 files; wanted are two certificates or more' compose
    fails '1 file; wanted are two certificates or more' compose first.bin
    fails "unrecognized option '--words'" compose --words first.bin second.bin
    fails '--input=words' compose --input=words first.bin second.bin
    fails 'a certificate and points are missing' push
    fails 'points are missing' push first.bin
    fails 'has no v' push first.bin 1008
    fails 'x is neither a number nor infinity' push first.bin 1008 x
    fails '268435456 is no coordinate' push first.bin 268435456 1
    fails '-1010 is no coordinate' push first.bin 1008 -1010
    fails '2 arguments' name 1009 1
    fails '4 arguments' name 1009 1 3 4
    fails 'x is no number' name 1009 1 x
    fails '-1010 is out of range' name 1009 1 -1010
    fails '--jobs=x' check --jobs=x first.bin
    fails '--jobs=257' check --jobs 257 first.bin
    fails '--jobs=-1' check -j -1 first.bin
    fails '--input=words' check --input=words first.bin
    fails '--form=sheet' show --form=sheet first.bin
    fails "requires an argument" solve 1009 1 3 265 877 3 46 -o
}

@test "--help, --usage and --version, of the command and of each subcommand" {
    run --separate-stderr sagepliers --version
    [ "$status" -eq 0 ]
    [ "${lines[0]}" = "sagepliers $SAGEPLIERS_VERSION" ]
    [[ $output == *'every function behind its six entries is proved'*"toolchain $SAGEPLIERS_TOOLCHAIN"* ]]
    [[ $output == *'not proved'* ]]
    for name in solve kernel compose check push name show; do
        run --separate-stderr sagepliers --help
        [ "$status" -eq 0 ]
        [[ $output == *"  $name  "* ]]
        [ "$(sagepliers "$name" --version)" = "$(sagepliers --version)" ]
        run --separate-stderr sagepliers "$name" --help
        [ "$status" -eq 0 ]
        [[ $output == "Usage: sagepliers $name "* ]]
        run --separate-stderr sagepliers "$name" --usage
        [ "$status" -eq 0 ]
    done
}

@test "README shows what the command prints" {
    awk 'BEGIN { RS = "" } /^    \$ /' "$ROOT/README.md" | sed 's/^    //' >screen
    [ "$(grep -c '^\$ sagepliers' screen)" -eq 2 ]
    sed -n 's/^\$ //p' screen >lines
    # Refusals end with status 1.
    while IFS= read -r line; do eval "$line" </dev/null >>got || true; done <lines
    sed '/^\$ /d' screen | diff - got
}
