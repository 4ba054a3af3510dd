/* How a sheet is shown: in words with polynomials that PARI and Sage read back, as JSON, in hexadecimal, or word by word. */
#include <inttypes.h>
#include <stdio.h>

#include "sheet.h"

/* c_n*x^n + .. + c_1*x + c_0, highest first, from the values of `count` words at `start`. */
static void put_polynomial(const struct sheet *sheet, size_t start, size_t count)
{
    const char *between = "";
    for (size_t i = count; i-- > 0;) {
        uint32_t c = value_of(word_at(sheet, start + i));
        if (c == 0)
            continue;
        fputs(between, stdout);
        between = " + ";
        if (c != 1 || i == 0)
            printf("%" PRIu32 "%s", c, i > 0 ? "*" : "");
        if (i == 1)
            putchar('x');
        else if (i > 1)
            printf("x^%zu", i);
    }
    if (*between == '\0')
        putchar('0');
}

/* y^2 = x^3 + A*x + B, with A and B from the two words at `start`. */
static void put_curve(const char *name, const struct sheet *sheet, size_t start)
{
    uint32_t a = value_of(word_at(sheet, start)), b = value_of(word_at(sheet, start + 1));
    printf("%s: y^2 = x^3", name);
    if (a == 1)
        printf(" + x");
    else if (a != 0)
        printf(" + %" PRIu32 "*x", a);
    if (b != 0)
        printf(" + %" PRIu32, b);
    putchar('\n');
}

static void put_values(const struct sheet *sheet, size_t start, size_t count)
{
    for (size_t i = 0; i < count; i++)
        printf("%s%" PRIu32, i == 0 ? "[" : ",", value_of(word_at(sheet, start + i)));
    putchar(']');
}

/* Where the parts of a sheet stand. */
struct parts {
    const char *title, *name;
    size_t degree; /* the place of l */
    size_t g, g_count, n, n_count;
    size_t rational; /* the place of the count of rational abscissas; 0 if there is none */
};

static struct parts parts_of(const struct sheet *sheet, enum form form)
{
    struct parts parts = {"question", "question", 5, 7, 0, 7, 0, 0};
    size_t words = sheet->count / 4;
    if (form == KERNEL_SHEET)
        parts = (struct parts){"kernel sheet", "kernel", 3, 4, words - 5, 0, 0, 0};
    if (form == CERTIFICATE) {
        size_t g_count = (words - 9) / 3;
        parts = (struct parts){"certificate", "certificate", 5, 7, g_count, 7 + g_count, 2 * g_count, words - 2};
    }
    return parts;
}

static void put_text(const struct sheet *sheet, enum form form)
{
    struct parts parts = parts_of(sheet, form);
    printf("%s: p = %" PRIu32 ", degree %" PRIu32, parts.title, value_of(word_at(sheet, 0)), value_of(word_at(sheet, parts.degree)));
    if (form != KERNEL_SHEET)
        printf(", kernel sum %" PRIu32, value_of(word_at(sheet, 6)));
    putchar('\n');
    put_curve("domain", sheet, 1);
    if (form != KERNEL_SHEET)
        put_curve("codomain", sheet, 3);
    if (parts.g_count > 0) {
        printf("g = ");
        put_polynomial(sheet, parts.g, parts.g_count);
        putchar('\n');
    }
    if (parts.n_count > 0) {
        printf("N = ");
        put_polynomial(sheet, parts.n, parts.n_count);
        putchar('\n');
    }
    if (parts.rational > 0)
        printf("rational abscissas: %" PRIu32 "\n", value_of(word_at(sheet, parts.rational)));
}

static void put_json(const struct sheet *sheet, enum form form)
{
    if (form == NO_FORM) {
        printf("{\"form\":null,\"bytes\":%zu,\"words\":[", sheet->count);
        for (size_t i = 0; i < sheet->count / 4; i++)
            printf("%s\"%08" PRIx32 "\"", i == 0 ? "" : ",", word_at(sheet, i));
        printf("]}\n");
        return;
    }
    struct parts parts = parts_of(sheet, form);
    printf("{\"form\":\"%s\",\"p\":%" PRIu32 ",\"domain\":", parts.name, value_of(word_at(sheet, 0)));
    put_values(sheet, 1, 2);
    if (form != KERNEL_SHEET) {
        printf(",\"codomain\":");
        put_values(sheet, 3, 2);
    }
    printf(",\"degree\":%" PRIu32, value_of(word_at(sheet, parts.degree)));
    if (form != KERNEL_SHEET)
        printf(",\"sigma\":%" PRIu32, value_of(word_at(sheet, 6)));
    if (parts.g_count > 0) {
        printf(",\"g\":");
        put_values(sheet, parts.g, parts.g_count);
    }
    if (parts.n_count > 0) {
        printf(",\"N\":");
        put_values(sheet, parts.n, parts.n_count);
    }
    if (parts.rational > 0)
        printf(",\"rational\":%" PRIu32, value_of(word_at(sheet, parts.rational)));
    printf("}\n");
}

/* The name of a kind, as the header of the library has it. */
static const char *name_of(uint32_t kind)
{
    static const char *const names[16] = {"-", "p", "A", "B", "A~", "B~", "l", "sigma", "g", "N", "count", "-", "-", "-", "-", "end"};
    return names[kind];
}

static void put_words(const struct sheet *sheet)
{
    for (size_t i = 0; i < sheet->count / 4; i++) {
        uint32_t word = word_at(sheet, i);
        printf("%3zu  %08" PRIx32 "  kind %2" PRIu32 "  %-5s  %" PRIu32 "\n", i, word, kind_of(word), name_of(kind_of(word)), value_of(word));
    }
    for (size_t i = sheet->count / 4 * 4; i < sheet->count; i++)
        printf("%3zu  %02x        left over\n", i / 4, (unsigned)sheet->bytes[i]);
}

static void put_hex(const struct sheet *sheet)
{
    for (size_t i = 0; i < sheet->count / 4; i++)
        printf("%08" PRIx32 "\n", word_at(sheet, i));
}

void put_sheet(const struct sheet *sheet, enum form form, enum view view)
{
    if (view == AS_JSON)
        put_json(sheet, form);
    else if (view == AS_HEX)
        put_hex(sheet);
    else if (view == AS_WORDS || form == NO_FORM)
        put_words(sheet);
    else
        put_text(sheet, form);
}
