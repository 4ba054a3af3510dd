/* Arguments of the command line: negative numbers, which are no options, and lists of numbers. */
#ifndef ARGUMENTS_H
#define ARGUMENTS_H

#include <stdbool.h>
#include <stddef.h>
#include <stdint.h>

/* A whole number in shortest decimal form (no leading zero, no minus zero, no plus), of at most 2^32 - 1 in size. */
bool read_number(const char *text, size_t length, int64_t *value);

/* A copy of argv in which an argument like -23 does not look like an option. `plain` gives the argument back as it was. */
char **shield(int argc, char **argv);
const char *plain(const char *argument);
void free_shield(int argc, char **shielded);

/* Arguments that are all numbers. Returns false, with the first that is none in `stray`, if there is one. */
bool read_numbers(char **arguments, size_t count, int64_t *numbers, const char **stray);

/* A negative value stands for itself plus p. Returns false if the value then still has no place below `bound`. */
bool reduce(int64_t number, int64_t p, int64_t bound, uint32_t *value);

#endif
