/* sagepliers_solve: the certificate of the specification's first question, printed word by word. */
#include <inttypes.h>
#include <stdio.h>

#include <sagepliers.h>

int main(void)
{
    /* p = 1009, from y^2 = x^3 + x + 3 to y^2 = x^3 + 265 x + 877, degree 3, sigma = 46: the kind in the top four bits, the value below. */
    static const uint32_t values[7] = {1009, 1, 3, 265, 877, 3, 46};
    uint32_t question[8], certificate[SAGEPLIERS_ROOM];
    for (uint32_t i = 0; i < 7; i++)
        question[i] = (i + 1) << 28 | values[i];
    question[7] = UINT32_C(15) << 28;

    uint64_t result = sagepliers_solve(question, 8, certificate, SAGEPLIERS_ROOM);
    if (result >= SAGEPLIERS_REFUSED) {
        uint32_t number = (uint32_t)(result - SAGEPLIERS_REFUSED);
        printf("refused %" PRIu32 ": %s\n", number, sagepliers_meaning(number));
        return 1;
    }
    for (uint64_t i = 0; i < result; i++)
        printf("%08" PRIx32 "\n", certificate[i]);
    return 0;
}
