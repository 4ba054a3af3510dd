/* Arguments of the command line: negative numbers, which are no options, and lists of numbers.
 *
 * argp takes -23 for an option. So main parses a copy of the arguments in which such a one has a mark in front; whoever takes an argument out asks
 * `plain`, which takes the mark off. No file name is touched: the mark is known by its address and not by its letters.
 */
#include "arguments.h"

#include <stdlib.h>
#include <string.h>

#include "output.h"

bool read_number(const char *text, size_t length, int64_t *value)
{
    bool minus = length > 0 && text[0] == '-';
    size_t i = minus ? 1 : 0;
    if (i == length || (text[i] == '0' && (minus || length > 1)))
        return false;
    int64_t size = 0;
    for (; i < length; i++) {
        if (text[i] < '0' || text[i] > '9')
            return false;
        size = 10 * size + (text[i] - '0');
        if (size > UINT32_MAX)
            return false;
    }
    *value = minus ? -size : size;
    return true;
}

/* The marked arguments, and how many there are. */
static char **marked;
static size_t marks;

char **shield(int argc, char **argv)
{
    char **copy = need(calloc((size_t)argc + 1, sizeof *copy));
    marked = need(calloc((size_t)argc + 1, sizeof *marked));
    for (int i = 0; i < argc; i++) {
        int64_t number = 0;
        size_t length = strlen(argv[i]);
        copy[i] = argv[i];
        if (argv[i][0] == '-' && read_number(argv[i], length, &number)) {
            copy[i] = need(malloc(length + 2));
            copy[i][0] = ' ';
            memcpy(copy[i] + 1, argv[i], length + 1);
            marked[marks++] = copy[i];
        }
    }
    return copy;
}

const char *plain(const char *argument)
{
    for (size_t i = 0; i < marks; i++)
        if (argument == marked[i])
            return argument + 1;
    return argument;
}

void free_shield(int argc, char **shielded)
{
    (void)argc;
    for (size_t i = 0; i < marks; i++)
        free(marked[i]);
    marks = 0;
    free(marked);
    free(shielded);
}

bool read_numbers(char **arguments, size_t count, int64_t *numbers, const char **stray)
{
    for (size_t i = 0; i < count; i++) {
        const char *text = plain(arguments[i]);
        if (!read_number(text, strlen(text), &numbers[i])) {
            *stray = text;
            return false;
        }
    }
    return true;
}

bool reduce(int64_t number, int64_t p, int64_t bound, uint32_t *value)
{
    int64_t reduced = number < 0 ? number + p : number;
    if (reduced < 0 || reduced >= bound)
        return false;
    *value = (uint32_t)reduced;
    return true;
}
