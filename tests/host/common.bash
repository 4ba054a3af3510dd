# What the tests of the command share. SAGEPLIERS is the command to test, in words that the shell splits (valgrind may stand in front).
#
# Expectations come from docs/SPECIFICATION.md: its marked sheets and their neighbours, and the order of its questions.
bats_require_minimum_version 1.5.0

# Bytes of words of eight hexadecimal digits, lowest byte first.
words() {
    local w
    for w in "$@"; do
        # shellcheck disable=SC2059
        printf "\\x${w:6:2}\\x${w:4:2}\\x${w:2:2}\\x${w:0:2}"
    done
}

. "$BATS_TEST_DIRNAME/../marked.sh"

# What the first certificate, and the one over 11, look like.
first_text='certificate: p = 1009, degree 3, kernel sum 46
domain: y^2 = x^3 + x + 3
codomain: y^2 = x^3 + 265*x + 877
g = x + 986
N = x^3 + 963*x^2 + 678*x + 949
rational abscissas: 1'
first_json='{"form":"certificate","p":1009,"domain":[1,3],"codomain":[265,877],"degree":3,"sigma":46,"g":[986,1],"N":[949,678,963,1],"rational":1}'

over_11_text='certificate: p = 11, degree 3, kernel sum 0
domain: y^2 = x^3 + 1
codomain: y^2 = x^3 + 6
g = x
N = x^3 + 4
rational abscissas: 1'

degree_9_text='certificate: p = 1009, degree 9, kernel sum 0
domain: y^2 = x^3 + x + 3
codomain: y^2 = x^3 + 81*x + 169
g = x^4 + 2*x^2 + 12*x + 336
N = x^9 + 997*x^7 + 721*x^6 + 30*x^5 + 937*x^4 + 468*x^3 + 144*x^2 + 873*x + 743
rational abscissas: 1'

# The refusals in words, by their numbers.
meaning() {
    case $1 in
    1) echo 'the answer has room for fewer than 393 words' ;;
    2) echo 'the words before the coefficients are not all there, each of its kind, or the bytes are no whole words' ;;
    3) echo 'p is not a prime from 11 to 2^28 - 1' ;;
    4) echo 'the degree l is not odd, from 3 to 255, with 2 l - 1 below p' ;;
    5) echo 'a curve value or sigma is not below p' ;;
    6) echo 'the remaining words are not exactly those of the sheet' ;;
    7) echo 'a curve is singular' ;;
    8) echo 'g does not meet rule R1' ;;
    9) echo 'N is not the one that rule R2 gives, or the count of rational abscissas is not that of g' ;;
    10) echo 'rule R3 does not hold' ;;
    11) echo 'there is no answer: nothing meets the rules' ;;
    12) echo 'the point is not one of the domain' ;;
    13) echo 'the two certificates have different primes, or the first codomain is not the second domain' ;;
    14) echo 'the product l of the degrees is above 255, or 2 l - 1 is not below p' ;;
    esac
}

refusal() {
    echo "refused $1: $(meaning "$1")"
}

sagepliers() {
    $SAGEPLIERS "$@"
}

say() {
    echo "$*" >&2
    return 1
}

# gives STATUS TEXT ARGUMENTS..: the command prints exactly the text, nothing on standard error, and ends with the status.
gives() {
    local status_wanted=$1 text=$2
    shift 2
    run --separate-stderr sagepliers "$@"
    [ "$status" -eq "$status_wanted" ] || say "status $status, not $status_wanted: $* :: $output :: $stderr"
    [ "$output" = "$text" ] || say "printed: $output :: wanted: $text"
    [ -z "$stderr" ] || say "on standard error: $stderr"
}

# fails PART ARGUMENTS..: status 2, no answer, and a message that has the part in it.
fails() {
    local part=$1
    shift
    run --separate-stderr sagepliers "$@"
    [ "$status" -eq 2 ] || say "status $status, not 2: $* :: $output :: $stderr"
    [ -z "$output" ] || say "an answer: $output"
    case $stderr in
    *"$part"*) ;;
    *) say "no word of \"$part\" in: $stderr" ;;
    esac
}

# Each test has an empty folder of its own, which everybody may enter: some tests go there as nobody.
setup() {
    [ -n "${SAGEPLIERS:-}" ] || say 'SAGEPLIERS is not set; tests/host.sh sets it'
    folder=$(mktemp -d)
    chmod 755 "$folder"
    cd "$folder"
    # shellcheck disable=SC2086
    {
        words $first >first.bin
        words $second >second.bin
        words $degree_9 >degree_9.bin
        words $header f0000000 >question.bin
        words 1000000b 20000000 30000001 60000003 80000000 80000001 f0000000 >kernel.bin
    }
}

teardown() {
    cd /
    chmod -R u+rwx "$folder"
    rm -rf "$folder"
}
