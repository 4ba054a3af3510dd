/* Sheets: their forms, their words and bytes, and how they are shown. Nothing here judges a sheet; that is the library's part. */
#ifndef SHEET_H
#define SHEET_H

#include <stdbool.h>
#include <stddef.h>
#include <stdint.h>

enum form { NO_FORM, QUESTION, CERTIFICATE, KERNEL_SHEET };

/* How an answer is shown. */
enum view { AS_TEXT, AS_JSON, AS_HEX, AS_WORDS };

/* Bytes of input that are looked at: several times what the longest sheet takes, also as text. */
enum { LONGEST_INPUT = 16384 };

/* A text of that length has at most half as many numbers, and an end is added. */
enum { MOST_WORDS = LONGEST_INPUT / 2 + 1 };

struct sheet {
    size_t count; /* bytes; a count that is no multiple of four is for the library to refuse */
    uint8_t bytes[4 * MOST_WORDS];
};

/* The word at a place, and its two parts. */
uint32_t word_at(const struct sheet *sheet, size_t place);
uint32_t kind_of(uint32_t word);
uint32_t value_of(uint32_t word);

void add_word(struct sheet *sheet, uint32_t word);
void set_words(struct sheet *sheet, const uint32_t *words, size_t count);

/* The words into `words`, which has room for MOST_WORDS, and how many whole ones there are. */
size_t get_words(const struct sheet *sheet, uint32_t *words);

/* The sheet of a form whose values in their order are the numbers; p is the first. A negative number stands for itself plus p where
 * the value is an element of the field. Too few and too many numbers make a sheet that the library refuses. Returns false if a number has no place in a
 * word; `stray` is then the first such number. */
bool sheet_of_numbers(enum form form, const int64_t *numbers, size_t count, struct sheet *sheet, int64_t *stray);

/* The form whose kinds and length the sheet has. */
enum form form_of(const struct sheet *sheet);

/* Shows a sheet of a form on standard output; a sheet of no form only as words, in hexadecimal or as JSON. */
void put_sheet(const struct sheet *sheet, enum form form, enum view view);

#endif
