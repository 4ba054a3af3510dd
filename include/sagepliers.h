/* Sagepliers: isogenies between elliptic curves over prime fields, normalized and of odd degree. The C entries of the library.
 *
 * Isogenies. The domain is y^2 = x^3 + A x + B over the field of p elements, the codomain y^2 = x^3 + A~ x + B~, and the degree l is odd. An isogeny is
 * given by two polynomials: the kernel polynomial g, of degree d = (l - 1)/2, whose roots are the abscissas of the kernel, and the numerator N. It takes
 * (x, y) to (F, y F') with F = N/g^2; that no other factor stands before F' is what normalized means. sigma is twice the sum of the
 * roots of g, since a root is the abscissa of a point and of its negative. On a certificate that passes, g is square-free and coprime to
 * x^3 + A x + B and to N: no root is counted too often, and N/g^2 is in lowest terms.
 *
 * Words and sheets. A word has 32 bits, four of kind above 28 of value. Kinds: 1 p, 2 A, 3 B, 4 A~, 5 B~, 6 l, 7 sigma, 8 a coefficient
 * of g, 9 a coefficient of N, 10 the count of rational abscissas, which is how many u from 0 to p - 1 have g(u) = 0, 15 the end, with value 0.
 * A sheet is a run of words:
 *    question      kinds 1 to 7, end                                                              8 words
 *    certificate   kinds 1 to 7, d + 1 words of kind 8, 2 d + 2 of kind 9, one of kind 10, end    3 d + 12 words, at most SAGEPLIERS_ROOM
 *    kernel sheet  kinds 1, 2, 3, 6, d + 1 words of kind 8, end                                   d + 6 words, at most 133
 * Coefficients go from the constant term up. A sheet in bytes has four bytes to a word, lowest first, whatever the order of bytes of the machine.
 * On a question and a kernel sheet A, B, A~, B~, sigma and the coefficients of g may have any value of 28 bits: it is taken modulo p, and what is
 * left stands in the certificate. On a certificate they are below p. p, l and the count are never reduced.
 *
 * Refusals. Each entry puts its questions to its sheets in a fixed order, and what does not pass is refused with the number of the first question
 * that is answered with no:
 *    1  the answer has room for SAGEPLIERS_ROOM words
 *    2  the words before any coefficients are there, each of its kind; a sheet in bytes has whole words
 *    3  p is a prime from 11 to 2^28 - 1
 *    4  the degree l is odd, from 3 to 255, with 2 l - 1 < p
 *    5  the curve values, and on a certificate sigma, are below p (certificates and name; other sheets are reduced)
 *    6  behind these words is what the form has and nothing else: coefficients, on a certificate below p; on a certificate then the count, of any
 *       value; then an end with value 0
 *    7  no curve on the sheet is singular
 *    8  g is monic of degree d, and sigma is that of g (rule R1); of a kernel sheet only the leading coefficient is asked
 *    9  N is that of g: N = (l x - sigma) g^2 - 2 (3 x^2 + A) g g' - 4 f (g g'' - g'^2), where f = x^3 + A x + B (rule R2);
 *       and the count is how many u from 0 to p - 1 have g(u) = 0, each once
 *   10  f (N' g - 2 N g')^2 = N^3 + A~ N g^4 + B~ g^6 (rule R3)
 *   11  there is an answer: a g that meets the rules (solve), a codomain that is not singular and meets rule R3 (kernel)
 *   12  the point has coordinates below p and is on the domain, or is infinity (push)
 *   13  both certificates have the same p, and the codomain of the first is the domain of the second (compose)
 *   14  the product l of their degrees is at most 255, with 2 l - 1 < p (compose)
 * No input is undefined behaviour as long as the pointers are as said below: every sequence of bytes or words gets its answer.
 *
 * Lifetimes. A pointer with its count names that many elements in memory that is valid for the whole call: to read, and for `answer` also to write.
 * A pointer is not NULL, also where the count is 0, and the elements take at most PTRDIFF_MAX bytes. Nothing is kept and nothing is allocated: the memory
 * belongs to the caller again as soon as the call returns, and there is nothing to free. What `answer` holds before the call makes no difference to what
 * is written.
 *
 * Alignment. A pointer is aligned for its type: 4 bytes for uint32_t. Bytes may start anywhere, so a file that was read or mapped can be handed on
 * as it is; bytes are not to be cast to uint32_t, for the sake of alignment and of the order of bytes.
 *
 * Aliasing. `answer` and a sheet must not overlap, not even in part and not even where the sheet will be refused: solving in place is not possible, and
 * neither is composing onto one of the two certificates. These two are only read, so they may overlap each other or be the same memory.
 * During the call nobody else writes to the arguments, and nobody else reads `answer`.
 *
 * Threads. The entries have no state and do no input or output. Calls in parallel on distinct buffers are safe, with no lock and no initialization;
 * calls may share a sheet, which they only read, but each needs an answer of its own. Each call ends on every input, and 64 KiB of stack are enough for it.
 */
#ifndef SAGEPLIERS_H
#define SAGEPLIERS_H

#include <stddef.h>
#include <stdint.h>

#ifdef __cplusplus
extern "C" {
#endif

/* The version of the library and of this header. */
#define SAGEPLIERS_VERSION "0.1.0"

/* The words that an answer of solve, kernel and compose must have room for; no certificate has more. */
#define SAGEPLIERS_ROOM 393

/* The number of the point at infinity. Smaller numbers are those of affine points: u + 2^28 v. */
#define SAGEPLIERS_INFINITY (UINT64_C(1) << 56)

/* Added to the number of a refusal where the result is a uint64_t. Counts, j-values and the numbers of points are below it. */
#define SAGEPLIERS_REFUSED (UINT64_C(1) << 57)

/* Check: whether the certificate in `count` bytes passes. Puts questions 2 to 10.
 * Returns 0 if it passes, else the number of the refusal. */
uint32_t sagepliers_check(const uint8_t *bytes, size_t count);

/* Push: the image of a point under the certificate in `count` bytes. Puts questions 2 to 10, then 12.
 * `point` is u + 2^28 v for the affine point (u, v) of the domain, or SAGEPLIERS_INFINITY; any larger number gets 12. A u of 2^28 or more would run into
 * v, which the entry cannot see: it is for the caller to ask that u is below 2^28.
 * Returns the number of the image, a point of the codomain, or SAGEPLIERS_REFUSED plus the number of the refusal. */
uint64_t sagepliers_push(const uint8_t *bytes, size_t count, uint64_t point);

/* Solve: the certificate that answers the question of `words` words. Puts questions 1 to 7, of which 5 never fails, then 11.
 * Returns the count of the words written to the front of `answer`, or SAGEPLIERS_REFUSED plus the number of the refusal. The words of `answer`
 * after the count, and all of them after a refusal, stay as they were. */
uint64_t sagepliers_solve(const uint32_t *sheet, size_t words, uint32_t *answer, size_t room);

/* Kernel: the certificate of the domain and the kernel polynomial on the kernel sheet of `words` words, with its codomain. Puts questions 1 to 8,
 * of which 5 never fails, then 11. Returns and writes as solve does. */
uint64_t sagepliers_kernel(const uint32_t *sheet, size_t words, uint32_t *answer, size_t room);

/* Compose: the certificate of the map of the first certificate followed by that of the second: from the first domain to the second codomain, of degree
 * l1 l2, with sigma2 + l2 sigma1 modulo p for sigma. Puts question 1, then 2 to 10 to the first certificate, then 2 to 10 to the second, then 13 and 14.
 * A number from 2 to 10 does not say which of the two it is about; sagepliers_check on the first one's bytes tells.
 * Returns and writes as solve does. What it writes passes check, and takes each point to where the first and then the second take it. Of a longer chain
 * any two neighbours may be composed first: every order gives the same words in the end, or every order is refused, with numbers that may differ. */
uint64_t sagepliers_compose(const uint32_t *first, size_t first_words, const uint32_t *second, size_t second_words, uint32_t *answer, size_t room);

/* Name: the j-value of the curve y^2 = x^3 + a x + b over the prime p, 1728 * 4 a^3 / (4 a^3 + 27 b^2). Puts questions 3, 5 and 7.
 * Returns the j-value, below p, or SAGEPLIERS_REFUSED plus the number of the refusal. */
uint64_t sagepliers_name(uint32_t p, uint32_t a, uint32_t b);

/* Meaning: the refusal with a number in words, as "rule R3 does not hold"; for any other number it says that there is no such refusal.
 * The text is constant, never NULL, and without a full stop. This function is plain C and not proved; the six above are. */
const char *sagepliers_meaning(uint32_t number);

#ifdef __cplusplus
}
#endif

#endif
