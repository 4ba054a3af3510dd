#!/bin/sh
# Shows the command at work, from a question to pushed points and composed maps: each line after a $ is run, in an empty directory, and what it prints follows.
#
#     host/demo.sh path/to/sagepliers
set -eu
here=$(cd "$(dirname "$1")" && pwd)
PATH=$here:$PATH
work=$(mktemp -d)
trap 'rm -rf "$work"' EXIT
cd "$work"

# run STATUS COMMAND: the command, what it prints, and a word about its status where that is not 0.
run() {
    printf '\n$ %s\n' "$2"
    got=0
    sh -c "$2" || got=$?
    [ "$got" -eq 0 ] || echo "(status $got)"
    [ "$got" -eq "$1" ] || { echo "demo: the status should be $1" >&2; exit 1; }
}

echo "Over the field of 1009 elements: is there a normalized isogeny of degree 3 from y^2 = x^3 + x + 3 to y^2 = x^3 + 265*x + 877"
echo "whose kernel has abscissas of sum 46?"
run 0 'sagepliers solve 1009 1 3 265 877 3 46 -o certificate.bin'
echo
echo "Anybody can check the certificate, whatever program it came from:"
run 0 'sagepliers check certificate.bin'
echo
echo "It takes points of the domain to points of the codomain:"
run 0 'sagepliers push certificate.bin 1008 1 infinity'
echo
echo "A second step follows, and both together are one map of degree 9:"
run 0 'sagepliers solve -q 1009 265 877 81 169 3 871 -o second.bin'
run 0 'sagepliers compose certificate.bin second.bin'
echo
echo "With the kernel polynomial g known, the codomain is found (here again the same), or there is none:"
run 0 'sagepliers kernel 1009 1 3 3 -23 1'
run 1 'sagepliers kernel 1009 1 3 3 -22 1'
echo
echo "PARI/GP's ellisogeny answers for x - 22 all the same, with the curve (606, 295). As a certificate, with the one root of g counted, its answer is refused:"
run 0 'sagepliers show 1009 1 3 606 295 3 44 -22 1 958 363 -44 1 1 -o pari.bin'
run 1 'sagepliers check pari.bin'
