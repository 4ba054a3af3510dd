/* The loop that `sagepliers check` is measured against: opens, reads and closes each file of a list and hands its bytes to sagepliers_check.
 *
 *     check_loop < names        one name a line
 *
 * Prints how many pass and how many do not. Nothing else is done for a file, so this is about as fast as one process and one thread can be.
 */
#define _POSIX_C_SOURCE 200809L
#include <fcntl.h>
#include <stdio.h>
#include <string.h>
#include <unistd.h>

#include <sagepliers.h>

int main(void)
{
    static char name[4096];
    static uint8_t bytes[16384];
    size_t passing = 0, refused = 0;
    while (fgets(name, sizeof name, stdin) != NULL) {
        name[strcspn(name, "\n")] = '\0';
        int file = open(name, O_RDONLY);
        ssize_t count = file == -1 ? -1 : read(file, bytes, sizeof bytes);
        if (count < 0) {
            perror(name);
            return 2;
        }
        close(file);
        if (sagepliers_check(bytes, (size_t)count) == 0)
            passing++;
        else
            refused++;
    }
    printf("%zu pass, %zu refused\n", passing, refused);
    return 0;
}
