/* A small host of the library: checks the certificate in a file and pushes points through it.
 *
 *     host FILE [POINT ..]        POINT is two numbers u v, or the word infinity
 *
 * Prints one line for the certificate, with how many abscissas of its kernel lie in the field, and one for each point. Exit status: 0 if the certificate
 * passes and every point was pushed, 1 if the certificate or a point is refused, 2 if the arguments are wrong, the file cannot be read as a certificate, or
 * the lines cannot be written.
 *
 * Strict C11. Nothing is assumed of the order of bytes of the machine: the bytes of the file are handed on as they are.
 */
#include <errno.h>
#include <inttypes.h>
#include <stdint.h>
#include <stdio.h>
#include <string.h>

#include <sagepliers.h>

enum { ALL_PASSED = 0, REFUSED = 1, FAILED = 2 };

/* The longest certificate in bytes. */
enum { LONGEST = 4 * SAGEPLIERS_ROOM };

/* Reads a whole file of at most LONGEST bytes into `bytes`, which has room for one more. Returns 0 after a message if that is not possible. */
static int read_file(const char *name, uint8_t *bytes, size_t *count)
{
    FILE *file = fopen(name, "rb");
    if (file == NULL) {
        fprintf(stderr, "host: cannot open %s: %s\n", name, strerror(errno));
        return 0;
    }
    errno = 0;
    *count = fread(bytes, 1, LONGEST + 1, file);
    int error = ferror(file) ? errno : 0;
    int failed = ferror(file);
    fclose(file);
    if (failed) {
        fprintf(stderr, "host: cannot read %s: %s\n", name, error != 0 ? strerror(error) : "input error");
        return 0;
    }
    if (*count == 0) {
        fprintf(stderr, "host: %s is empty\n", name);
        return 0;
    }
    if (*count > LONGEST) {
        fprintf(stderr, "host: %s is longer than any certificate, which has at most %d bytes\n", name, LONGEST);
        return 0;
    }
    return 1;
}

/* Reads a decimal number below 2^28 that fills the whole text. A larger coordinate has no place in a point's number: it would run into the other one. */
static int read_coordinate(const char *text, uint64_t *value)
{
    *value = 0;
    if (*text == '\0')
        return 0;
    for (; *text != '\0'; text++) {
        if (*text < '0' || *text > '9')
            return 0;
        *value = 10 * *value + (uint64_t)(*text - '0');
        if (*value >> 28 != 0)
            return 0;
    }
    return 1;
}

/* Reads the point at the front of `count` arguments. Returns how many of them it takes, or 0 after a message. */
static int read_point(char **arguments, int count, uint64_t *point)
{
    if (strcmp(arguments[0], "infinity") == 0) {
        *point = SAGEPLIERS_INFINITY;
        return 1;
    }
    uint64_t coordinates[2];
    for (int i = 0; i < 2; i++) {
        if (i == count) {
            fprintf(stderr, "host: the point with u = %s has no v\n", arguments[0]);
            return 0;
        }
        if (!read_coordinate(arguments[i], &coordinates[i])) {
            fprintf(stderr, "host: %s is neither a number from 0 to 2^28 - 1 nor infinity\n", arguments[i]);
            return 0;
        }
    }
    *point = coordinates[0] + (coordinates[1] << 28);
    return 2;
}

/* The value of the word at a place: the low 28 bits of its four bytes, the lowest of which comes first. */
static uint32_t value_at(const uint8_t *bytes, size_t place)
{
    const uint8_t *word = bytes + 4 * place;
    return (uint32_t)word[0] | (uint32_t)word[1] << 8 | (uint32_t)word[2] << 16 | (uint32_t)(word[3] & 15) << 24;
}

/* Prints an affine point or infinity. */
static void print_point(uint64_t point)
{
    if (point == SAGEPLIERS_INFINITY)
        printf("infinity");
    else
        printf("(%" PRIu64 ", %" PRIu64 ")", point & ((UINT64_C(1) << 28) - 1), point >> 28);
}

static int usage(void)
{
    fprintf(stderr, "usage: host FILE [POINT ..]   where POINT is two numbers u v, or infinity\n");
    return FAILED;
}

int main(int argc, char **argv)
{
    if (argc < 2)
        return usage();

    /* The points are looked at before anything is done, so that a slip of the pen gives no half answer. */
    uint64_t point = 0;
    for (int i = 2, taken; i < argc; i += taken) {
        taken = read_point(argv + i, argc - i, &point);
        if (taken == 0)
            return usage();
    }

    uint8_t bytes[LONGEST + 1];
    size_t count = 0;
    if (!read_file(argv[1], bytes, &count))
        return FAILED;

    int status = ALL_PASSED;
    uint32_t verdict = sagepliers_check(bytes, count);
    if (verdict == 0) {
        /* The degree is the sixth word, the count of rational abscissas the last but one: both are as the check has found them. */
        uint32_t degree = value_at(bytes, 5), rational = value_at(bytes, count / 4 - 2);
        printf("the certificate passes; rational abscissas: %" PRIu32 " of %" PRIu32 "\n", rational, (degree - 1) / 2);
    } else {
        printf("the certificate is refused with %" PRIu32 ": %s\n", verdict, sagepliers_meaning(verdict));
        status = REFUSED;
    }

    /* A refused certificate pushes no point: every one would get the same number. */
    for (int i = 2, taken; verdict == 0 && i < argc; i += taken) {
        taken = read_point(argv + i, argc - i, &point);
        uint64_t image = sagepliers_push(bytes, count, point);
        print_point(point);
        if (image < SAGEPLIERS_REFUSED) {
            printf(" goes to ");
            print_point(image);
            printf("\n");
        } else {
            uint32_t number = (uint32_t)(image - SAGEPLIERS_REFUSED);
            printf(" is refused with %" PRIu32 ": %s\n", number, sagepliers_meaning(number));
            status = REFUSED;
        }
    }

    if (fflush(stdout) != 0 || ferror(stdout)) {
        fprintf(stderr, "host: cannot write the answer\n");
        return FAILED;
    }
    return status;
}
