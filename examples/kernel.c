/* sagepliers_kernel: the certificate, codomain included, of the curve y^2 = x^3 + 1 over 11 and the kernel polynomial g = x. */
#include <inttypes.h>
#include <stdio.h>

#include <sagepliers.h>

int main(void)
{
    /* p, A, B, the degree l = 3, then the (l - 1)/2 + 1 coefficients of g from the constant term up, and the end. */
    static const uint32_t sheet[7] = {0x1000000b, 0x20000000, 0x30000001, 0x60000003, 0x80000000, 0x80000001, 0xf0000000};
    uint32_t certificate[SAGEPLIERS_ROOM];

    uint64_t result = sagepliers_kernel(sheet, 7, certificate, SAGEPLIERS_ROOM);
    if (result >= SAGEPLIERS_REFUSED) {
        uint32_t number = (uint32_t)(result - SAGEPLIERS_REFUSED);
        printf("refused %" PRIu32 ": %s\n", number, sagepliers_meaning(number));
        return 1;
    }
    for (uint64_t i = 0; i < result; i++)
        printf("%08" PRIx32 "\n", certificate[i]);
    return 0;
}
