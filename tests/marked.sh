# What the tests in shell share of document 01: the words of its certificates, and certificates beside them that check refuses.
# shellcheck shell=sh disable=SC2034,SC2086

# p = 1009: (1, 3) to (265, 877), g = x - 23, N = x^3 + 963 x^2 + 678 x + 949, and one rational abscissa
header='100003f1 20000001 30000003 40000109 5000036d 60000003 7000002e'
g='800003da 80000001'
n='900003b5 900002a6 900003c3 90000001'
rational=a0000001
first="$header $g $n $rational f0000000"
# p = 11: (0, 1) to (0, 6), g = x, N = x^3 + 4, and 0 for the rational abscissa
over_11='1000000b 20000000 30000001 40000000 50000006 60000003 70000000 80000000 80000001 90000004 90000000 90000000 90000001 a0000001 f0000000'
# Request E1: the step that follows the first, Q 1009, 265, 877, 81, 169, 3, 871, with g = x + 69 by R1, and the marked sheet of degree 9 that both make.
# N by R2 and the counts of roots are PARI/GP's.
second='100003f1 20000109 3000036d 40000051 500000a9 60000003 70000367 80000045 80000001 9000018a 90000230 9000008a 90000001 a0000001 f0000000'
degree_9='100003f1 20000001 30000003 40000051 500000a9 60000009 70000000 80000150 8000000c 80000002 80000000 80000001
    900002e7 90000369 90000090 900001d4 900003a9 9000001e 900002d1 900003e5 90000000 90000001 a0000001 f0000000'
# And the step that follows the one over 11: (0, 6) to (0, 3), g = x, N = x^3 + 2.
next_over_11='1000000b 20000000 30000006 40000000 50000003 60000003 70000000 80000000 80000001 90000002 90000000 90000000 90000001 a0000001 f0000000'

# each_refused CALL: CALL NUMBER WORDS.. for sheets that fail each of questions 2 to 10 first.
each_refused() {
    "$1" 2 200003f1 20000001 30000003 40000109 5000036d 60000003 7000002e $g $n $rational f0000000 # the first word of another kind
    "$1" 2 100003f1 20000001 30000003 40000109 5000036d 60000003                                   # no seven words
    "$1" 3 100003e9 20000001 30000003 40000109 5000036d 60000003 7000002e $g $n $rational f0000000 # p = 1001
    "$1" 3 10000007 20000001 30000003 40000001 50000003 60000003 70000002 $g $n $rational f0000000 # p = 7
    "$1" 4 100003f1 20000001 30000003 40000109 5000036d 60000006 7000002e $g $n $rational f0000000 # l = 6
    "$1" 4 1000000b 20000001 30000003 40000001 50000003 60000007 70000002 $g $n $rational f0000000 # p = 11 with l = 7
    "$1" 4 1000000b 20000000 30000001 40000000 50000006 60000007 70000000 f0000000                 # the same without coefficients
    "$1" 6 1000000b 20000001 30000003 40000001 50000003 60000005 70000002 $g $n $rational f0000000 # with l = 5 it passes 4
    "$1" 6 1000000b 20000000 30000001 40000000 50000006 60000005 70000000 f0000000                 # the same without coefficients
    "$1" 5 100003f1 200003f1 30000003 40000109 5000036d 60000003 7000002e $g $n $rational f0000000 # A = p
    "$1" 5 100003f1 20000001 30000003 40000109 5000036d 60000003 700003f1 $g $n $rational f0000000 # sigma = p
    "$1" 5 100003f1 200003f2 30000003 40000109 5000036d 60000003 7000002e $g $n $rational f0000000 # A = p + 1, which is 1 on a question
    "$1" 6 $header $g $n $rational                                                                 # no end
    "$1" 6 $header $g $n $rational f0000001                                                        # an end with value 1
    "$1" 6 $header $g $n $rational f0000000 f0000000                                               # a word after the end
    "$1" 6 $header 800003f1 80000001 $n $rational f0000000                                         # a coefficient p
    "$1" 6 $header 800003da 800003f2 $n $rational f0000000                                         # a leading p + 1, which is 1 on a kernel sheet
    "$1" 6 $header $g 900003b5 900002a6 900003c3 900003f2 $rational f0000000                       # the same of N
    "$1" 6 $header f0000000                                                                        # a question is no certificate
    "$1" 6 $header $g $n f0000000                                                                  # without the count, as certificates were once
    "$1" 6 $header $g $n $rational $rational f0000000                                              # the count twice
    "$1" 6 $header $g $rational $n f0000000                                                        # the count before N
    "$1" 6 $header $g $n 90000001 f0000000                                                         # a coefficient in its place
    "$1" 6 $header $g $n b0000001 f0000000                                                         # another kind
    "$1" 7 100003f1 20000000 30000000 40000109 5000036d 60000003 7000002e $g $n $rational f0000000 # A = B = 0
    "$1" 8 $header 800003da 80000002 $n $rational f0000000                                         # g with leading 2
    "$1" 9 1000000b 20000000 30000001 40000000 50000001 60000003 70000002 8000000a 80000001 90000000 90000001 90000009 90000001 a0000001 f0000000
    "$1" 9 $header $g $n a0000000 f0000000                                                         # none, where there is one
    "$1" 9 $header $g $n a0000002 f0000000                                                         # one too many
    "$1" 9 $header $g $n a00003f1 f0000000                                                         # p
    "$1" 9 $header $g $n a00003f2 f0000000                                                         # p + 1
    "$1" 9 $header $g $n a0000101 f0000000                                                         # 256 + 1
    "$1" 9 $header $g $n afffffff f0000000                                                         # 2^28 - 1
    "$1" 9 $header $g 900003b6 900002a6 900003c3 90000001 a0000000 f0000000                        # N and count
    "$1" 9 1000000b 20000000 30000001 40000000 50000007 60000003 70000000 80000000 80000001 90000004 90000000 90000000 90000001 a0000000 f0000000 # R3 and count
    "$1" 8 $header 800003da 80000002 $n a0000000 f0000000                                          # R1 and count
    "$1" 10 1000000b 20000000 30000001 40000000 50000007 60000003 70000000 80000000 80000001 90000004 90000000 90000000 90000001 a0000001 f0000000
}
