/* sagepliers_compose: two steps of degree 3 over 1009, from y^2 = x^3 + x + 3 to (265, 877) and on to (81, 169), as one map of degree 9. */
#include <inttypes.h>
#include <stdio.h>

#include <sagepliers.h>

int main(void)
{
    /* p, A, B, A~, B~, the degree l = 3, sigma; g = x - 23 and g = x + 69, constant term first; N; how many roots g has in the field; the end. */
    static const uint32_t first[15] = {0x100003f1, 0x20000001, 0x30000003, 0x40000109, 0x5000036d, 0x60000003, 0x7000002e, 0x800003da,
                                       0x80000001, 0x900003b5, 0x900002a6, 0x900003c3, 0x90000001, 0xa0000001, 0xf0000000};
    static const uint32_t second[15] = {0x100003f1, 0x20000109, 0x3000036d, 0x40000051, 0x500000a9, 0x60000003, 0x70000367, 0x80000045,
                                        0x80000001, 0x9000018a, 0x90000230, 0x9000008a, 0x90000001, 0xa0000001, 0xf0000000};
    uint32_t certificate[SAGEPLIERS_ROOM];

    uint64_t result = sagepliers_compose(first, 15, second, 15, certificate, SAGEPLIERS_ROOM);
    if (result >= SAGEPLIERS_REFUSED) {
        uint32_t number = (uint32_t)(result - SAGEPLIERS_REFUSED);
        printf("refused %" PRIu32 ": %s\n", number, sagepliers_meaning(number));
        return 1;
    }
    for (uint64_t i = 0; i < result; i++)
        printf("%08" PRIx32 "\n", certificate[i]);
    return 0;
}
