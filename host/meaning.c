/* The numbers of refusals in words. Stands beside the proved objects in the libraries, and is not proved. */
#include <stddef.h>

#include <sagepliers.h>

const char *sagepliers_meaning(uint32_t number)
{
    static const char *const meanings[] = {
        "nothing is refused",
        "the answer has room for fewer than 393 words",
        "the words before the coefficients are not all there, each of its kind, or the bytes are no whole words",
        "p is not a prime from 11 to 2^28 - 1",
        "the degree l is not odd, from 3 to 255, with 2 l - 1 below p",
        "a curve value or sigma is not below p",
        "the remaining words are not exactly those of the sheet",
        "a curve is singular",
        "g does not meet rule R1",
        "N is not the one that rule R2 gives, or the count of rational abscissas is not that of g",
        "rule R3 does not hold",
        "there is no answer: nothing meets the rules",
        "the point is not one of the domain",
        "the two certificates have different primes, or the first codomain is not the second domain",
        "the product l of the degrees is above 255, or 2 l - 1 is not below p",
    };
    return number < sizeof meanings / sizeof *meanings ? meanings[number] : "no refusal has this number";
}
