/* Sheets: their forms, words and bytes. */
#include "sheet.h"

#include <inttypes.h>

#include <sagepliers.h>

#include "arguments.h"

enum { KIND_G = 8, KIND_N = 9, KIND_RATIONAL = 10, KIND_END = 15 };

uint32_t word_at(const struct sheet *sheet, size_t place)
{
    const uint8_t *b = sheet->bytes + 4 * place;
    return (uint32_t)b[0] | (uint32_t)b[1] << 8 | (uint32_t)b[2] << 16 | (uint32_t)b[3] << 24;
}

uint32_t kind_of(uint32_t word)
{
    return word >> 28;
}

uint32_t value_of(uint32_t word)
{
    return word & 0x0fffffff;
}

void add_word(struct sheet *sheet, uint32_t word)
{
    for (int i = 0; i < 4; i++)
        sheet->bytes[sheet->count++] = (uint8_t)(word >> 8 * i & 0xff);
}

void set_words(struct sheet *sheet, const uint32_t *words, size_t count)
{
    sheet->count = 0;
    for (size_t i = 0; i < count; i++)
        add_word(sheet, words[i]);
}

size_t get_words(const struct sheet *sheet, uint32_t *words)
{
    for (size_t i = 0; i < sheet->count / 4; i++)
        words[i] = word_at(sheet, i);
    return sheet->count / 4;
}

/* d = (l - 1)/2 for the odd l that are lawful; what it is for others makes no difference, since question 4 comes before the coefficients. */
static size_t half(uint32_t degree)
{
    return degree == 0 ? 0 : (degree - 1) / 2;
}

/* The kind of the word at a place of a form, the end apart. */
static uint32_t kind_at(enum form form, size_t place, uint32_t degree)
{
    static const uint32_t kernel_kinds[4] = {1, 2, 3, 6};
    if (form == KERNEL_SHEET)
        return place < 4 ? kernel_kinds[place] : KIND_G;
    if (place < 7)
        return (uint32_t)place + 1;
    if (form == QUESTION || place - 7 <= half(degree))
        return KIND_G;
    return place - 7 == 3 * half(degree) + 3 ? KIND_RATIONAL : KIND_N;
}

bool sheet_of_numbers(enum form form, const int64_t *numbers, size_t count, struct sheet *sheet, int64_t *stray)
{
    const int64_t bound = INT64_C(1) << 28;
    uint32_t degree = 0;
    sheet->count = 0;
    for (size_t i = 0; i < count; i++) {
        uint32_t kind = kind_at(form, i, degree), value = 0;
        /* p, l and the count stand for themselves. */
        if (!reduce(numbers[i], kind == 1 || kind == 6 || kind == KIND_RATIONAL ? 0 : numbers[0], bound, &value)) {
            *stray = numbers[i];
            return false;
        }
        if (kind == 6)
            degree = value;
        add_word(sheet, kind << 28 | value);
    }
    add_word(sheet, (uint32_t)KIND_END << 28);
    return true;
}

/* Whether the sheet has the kinds of the form, at their places, and its length. */
static bool has_form(const struct sheet *sheet, enum form form)
{
    size_t header = form == KERNEL_SHEET ? 4 : 7;
    if (sheet->count % 4 != 0 || sheet->count < 4 * (header + 1))
        return false;
    uint32_t degree = value_of(word_at(sheet, form == KERNEL_SHEET ? 3 : 5));
    /* Coefficients, and on a certificate the count. */
    size_t between = form == QUESTION ? 0 : form == KERNEL_SHEET ? half(degree) + 1 : 3 * half(degree) + 4;
    size_t words = header + between + 1;
    if (sheet->count != 4 * words)
        return false;
    for (size_t i = 0; i + 1 < words; i++)
        if (kind_of(word_at(sheet, i)) != kind_at(form, i, degree))
            return false;
    return word_at(sheet, words - 1) == (uint32_t)KIND_END << 28;
}

enum form form_of(const struct sheet *sheet)
{
    static const enum form forms[3] = {QUESTION, CERTIFICATE, KERNEL_SHEET};
    for (size_t i = 0; i < 3; i++)
        if (has_form(sheet, forms[i]))
            return forms[i];
    return NO_FORM;
}
