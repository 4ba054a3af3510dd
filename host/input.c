/* Sheets from files: bytes, hexadecimal words and decimal numbers, told apart.
 *
 * A sheet in bytes starts with a word of kind 1, so its fourth byte is a control character, from 16 to 31, and no text has one. Text is
 * hexadecimal if every piece of it has eight hexadecimal digits; a decimal sheet has a degree of at most three digits, so no lawful one looks so.
 */
#define _POSIX_C_SOURCE 200809L
#include "input.h"

#include <errno.h>
#include <fcntl.h>
#include <string.h>
#include <sys/stat.h>
#include <unistd.h>

#include "arguments.h"
#include "output.h"

static struct problem problem(enum trouble trouble)
{
    return (struct problem){trouble, 0};
}

static struct problem system_error(void)
{
    return (struct problem){SYSTEM_ERROR, errno};
}

/* Reads until the end or until the buffer is full. */
static bool read_to_end(int file, uint8_t *bytes, size_t *count)
{
    *count = 0;
    while (*count < LONGEST_INPUT) {
        ssize_t got = read(file, bytes + *count, LONGEST_INPUT - *count);
        if (got < 0 && errno == EINTR)
            continue;
        if (got < 0)
            return false;
        if (got == 0)
            break;
        *count += (size_t)got;
    }
    return true;
}

/* Cuts a file that is longer than any sheet to the buffer. The library judges such a sheet by its first words and by whether it has whole words, so
 * what is kept leaves as many bytes over as the file does. Of what is no regular file nobody knows the length. */
static struct problem cut(int file, size_t *count)
{
    struct stat status;
    if (fstat(file, &status) != 0)
        return system_error();
    if (!S_ISREG(status.st_mode) || status.st_size < LONGEST_INPUT)
        return problem(TOO_LONG);
    *count = LONGEST_INPUT - 4 + (size_t)(status.st_size % 4);
    return problem(NO_TROUBLE);
}

/* A file that was found in a folder. Reading at a place tells files from pipes, sockets, terminals and folders, so one call does for nearly all; and a
 * short read of a regular file has reached its end. Devices remain, which give nothing or no end of bytes: then it is asked what the thing is. */
static struct problem read_found(int file, uint8_t *bytes, size_t *count)
{
    ssize_t got = pread(file, bytes, LONGEST_INPUT, 0);
    struct stat status;
    if (got < 0 && errno == EISDIR)
        return problem(LINK_TO_FOLDER);
    if (got < 0 && (errno == ESPIPE || errno == EAGAIN))
        return problem(NOT_A_FILE);
    if (got < 0)
        return system_error();
    if ((got == 0 || got == LONGEST_INPUT) && (fstat(file, &status) != 0 || !S_ISREG(status.st_mode)))
        return problem(NOT_A_FILE);
    *count = (size_t)got;
    return problem(NO_TROUBLE);
}

static struct problem read_bytes(const char *name, bool in_folder, uint8_t *bytes, size_t *count, bool *whole)
{
    bool standard = !in_folder && strcmp(name, "-") == 0;
    /* Opening a pipe in a folder must not wait for somebody to write. */
    int file = standard ? STDIN_FILENO : open(name, O_RDONLY | O_CLOEXEC | O_NOCTTY | (in_folder ? O_NONBLOCK : 0));
    if (file == -1)
        return in_folder && errno == ENXIO ? problem(NOT_A_FILE) : system_error(); /* a socket */
    struct problem found = problem(NO_TROUBLE);
    if (in_folder)
        found = read_found(file, bytes, count);
    else if (!read_to_end(file, bytes, count))
        found = system_error();
    *whole = *count < LONGEST_INPUT;
    if (found.trouble == NO_TROUBLE && !*whole)
        found = cut(file, count);
    if (!standard)
        close(file);
    return found;
}

static bool is_blank(uint8_t c)
{
    return c == ' ' || (c >= '\t' && c <= '\r');
}

static bool looks_like_text(const uint8_t *bytes, size_t count)
{
    for (size_t i = 0; i < count; i++)
        if ((bytes[i] < ' ' && !is_blank(bytes[i])) || bytes[i] == 0x7f)
            return false;
    return count > 0;
}

/* The piece of text between blanks that starts at `*place` or after; false if there is none. */
static bool next_piece(const char *text, size_t count, size_t *place, size_t *length)
{
    while (*place < count && is_blank((uint8_t)text[*place]))
        ++*place;
    size_t end = *place;
    while (end < count && !is_blank((uint8_t)text[end]))
        end++;
    *length = end - *place;
    return *length > 0;
}

static bool read_hex(const char *text, size_t length, uint32_t *word)
{
    *word = 0;
    for (size_t i = 0; i < length; i++) {
        char c = text[i];
        int digit = c >= '0' && c <= '9' ? c - '0' : c >= 'a' && c <= 'f' ? c - 'a' + 10 : c >= 'A' && c <= 'F' ? c - 'A' + 10 : -1;
        if (digit < 0)
            return false;
        *word = *word << 4 | (uint32_t)digit;
    }
    return length == 8;
}

/* Whether all pieces are words of eight hexadecimal digits; they are then in the sheet. */
static bool all_hex(const char *text, size_t count, struct sheet *sheet)
{
    sheet->count = 0;
    for (size_t place = 0, length = 0; next_piece(text, count, &place, &length); place += length) {
        uint32_t word = 0;
        if (!read_hex(text + place, length, &word))
            return false;
        add_word(sheet, word);
    }
    return sheet->count > 0;
}

static bool all_decimal(const char *text, size_t count, int64_t *numbers, size_t *found)
{
    *found = 0;
    for (size_t place = 0, length = 0; next_piece(text, count, &place, &length); place += length)
        if (!read_number(text + place, length, &numbers[(*found)++]))
            return false;
    return *found > 0;
}

static struct problem read_text(const char *text, size_t count, enum form form, enum writing writing, struct sheet *sheet)
{
    if (all_hex(text, count, sheet))
        return problem(writing == ANY_WRITING || writing == HEXADECIMAL ? NO_TROUBLE : FOUND_HEX);
    int64_t numbers[MOST_WORDS], stray = 0;
    size_t found = 0;
    if (!all_decimal(text, count, numbers, &found))
        return problem(NO_SHEET);
    if (writing != ANY_WRITING && writing != DECIMAL)
        return problem(FOUND_DECIMAL);
    return problem(sheet_of_numbers(form, numbers, found, sheet, &stray) ? NO_TROUBLE : NUMBER_TOO_LARGE);
}

struct problem read_sheet(const char *name, bool in_folder, enum form form, enum writing writing, struct sheet *sheet)
{
    bool whole = false;
    sheet->count = 0;
    struct problem found = read_bytes(name, in_folder, sheet->bytes, &sheet->count, &whole);
    if (found.trouble != NO_TROUBLE)
        return found;
    if (!looks_like_text(sheet->bytes, sheet->count))
        return problem(writing == ANY_WRITING || writing == BYTES ? NO_TROUBLE : FOUND_BYTES);
    if (!whole)
        return problem(TOO_LONG);
    char text[LONGEST_INPUT];
    size_t count = sheet->count;
    memcpy(text, sheet->bytes, count);
    return read_text(text, count, form, writing, sheet);
}

const char *problem_text(struct problem problem)
{
    switch (problem.trouble) {
    case NO_TROUBLE: return "nothing is wrong";
    case SYSTEM_ERROR: return strerror(problem.error);
    case NOT_A_FILE: return "neither a file nor a folder";
    case LINK_TO_FOLDER: return "a link to a folder, left out (--follow goes there)";
    case TOO_LONG: return "longer than any sheet, and not read to its end";
    case NO_SHEET: return "this looks like text, and not like a sheet: neither hexadecimal words nor decimal numbers";
    case FOUND_HEX: return "this looks like hexadecimal text (--input=hex reads it)";
    case FOUND_DECIMAL: return "this looks like decimal text (--input=decimal reads it)";
    case FOUND_BYTES: return "this is no text (--input=bytes reads it)";
    case NUMBER_TOO_LARGE: return "this looks like decimal text, but a number in it has no place in a word: values are below 2^28, and above -p";
    }
    return "unknown";
}

const char *input_name(const char *name)
{
    return strcmp(name, "-") == 0 ? "standard input" : shown_name(name);
}

bool read_writing(const char *text, enum writing *writing)
{
    static const char *const names[] = {"any", "bytes", "hex", "decimal"};
    for (size_t i = 0; i < sizeof names / sizeof *names; i++)
        if (strcmp(text, names[i]) == 0) {
            *writing = (enum writing)i;
            return true;
        }
    return false;
}
