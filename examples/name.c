/* sagepliers_name: the j-value of the curve y^2 = x^3 + x + 3 over 1009. */
#include <inttypes.h>
#include <stdio.h>

#include <sagepliers.h>

int main(void)
{
    uint64_t result = sagepliers_name(1009, 1, 3);
    if (result >= SAGEPLIERS_REFUSED) {
        uint32_t number = (uint32_t)(result - SAGEPLIERS_REFUSED);
        printf("refused %" PRIu32 ": %s\n", number, sagepliers_meaning(number));
        return 1;
    }
    printf("%" PRIu64 "\n", result);
    return 0;
}
