/* compose: the certificate of maps one after the other.
 *
 * The entry takes two certificates, and its number alone does not say which of them failed a question from 2 to 10. So each is checked by itself, in
 * its turn, before it is composed; what the entry still refuses is about both.
 */
#include <stdint.h>
#include <stdlib.h>
#include <string.h>

#include <sagepliers.h>

#include "answers.h"
#include "arguments.h"
#include "output.h"

static const struct argp_option option_table[] = {
    OPTION_OUTPUT, OPTION_JSON, {"hex", KEY_HEX, NULL, 0, "answer with the words, eight hexadecimal digits a line", 0}, OPTION_QUIET, OPTION_INPUT, {0},
};

/* The bytes of a sheet, without the room that reading one takes. */
struct part {
    size_t count;
    uint8_t *bytes;
};

struct call {
    struct options options;
    struct sheet *sheet; /* the one at hand, and the answer */
    const char **names;
    struct part *parts;
    bool taken;
};

static bool read_part(struct call *call, size_t i)
{
    struct problem problem = read_sheet(call->names[i], false, CERTIFICATE, call->options.writing, call->sheet);
    if (problem.trouble != NO_TROUBLE) {
        complain("%s: %s", input_name(call->names[i]), problem_text(problem));
        return false;
    }
    struct part *part = &call->parts[i];
    part->count = call->sheet->count;
    part->bytes = need(malloc(part->count + 1)); /* never of size 0 */
    memcpy(part->bytes, call->sheet->bytes, part->count);
    return true;
}

/* All files are read before anything is judged: one that cannot be read makes the status 2, whatever the others hold. */
static void take_all(struct argp_state *state, struct call *call)
{
    size_t count = call->options.count, from_input = 0;
    if (count < 2)
        argp_error(state, "%zu file%s; wanted are two certificates or more", count, count == 1 ? "" : "s");
    call->names = need(calloc(count, sizeof *call->names));
    call->parts = need(calloc(count, sizeof *call->parts));
    for (size_t i = 0; i < count; i++) {
        call->names[i] = plain(call->options.arguments[i]);
        from_input += strcmp(call->names[i], "-") == 0;
    }
    if (from_input > 1)
        argp_error(state, "standard input can be only one of the certificates");
    call->taken = true;
    for (size_t i = 0; i < count; i++)
        if (!read_part(call, i))
            call->taken = false;
}

static error_t parse(int key, char *argument, struct argp_state *state)
{
    struct call *call = state->input;
    if (key != ARGP_KEY_END)
        return common_option(key, argument, state, &call->options);
    take_all(state, call);
    return 0;
}

/* The files that a refusal of the entry is about, when the one at `last` was to follow those before it: 13 is about that one and its neighbour, whose
 * codomain is that of all before; 14 is about the degrees of all. */
static enum status answer_not_together(const struct call *call, size_t last, uint32_t number)
{
    size_t first = number == 13 ? last - 1 : 0;
    return answer_refused_files(call->names + first, last + 1 - first, number, &call->options);
}

/* Checks the certificate in a file; if it passes, its words are in `words`. */
static uint32_t judge(const struct call *call, size_t i, uint32_t *words, size_t *count)
{
    call->sheet->count = call->parts[i].count;
    memcpy(call->sheet->bytes, call->parts[i].bytes, call->sheet->count);
    uint32_t verdict = sagepliers_check(call->sheet->bytes, call->sheet->count);
    *count = get_words(call->sheet, words);
    return verdict;
}

static enum status answer(const struct call *call)
{
    static uint32_t words[MOST_WORDS], left[SAGEPLIERS_ROOM], composed[SAGEPLIERS_ROOM];
    size_t count = 0, left_count = 0;
    for (size_t i = 0; i < call->options.count; i++) {
        uint32_t verdict = judge(call, i, words, &count);
        if (verdict != 0)
            return answer_refused_files(&call->names[i], 1, verdict, &call->options);
        /* What passes has at most SAGEPLIERS_ROOM words. */
        if (i == 0) {
            memcpy(left, words, count * sizeof *left);
            left_count = count;
            continue;
        }
        uint64_t result = sagepliers_compose(left, left_count, words, count, composed, SAGEPLIERS_ROOM);
        if (result >= SAGEPLIERS_REFUSED)
            return answer_not_together(call, i, (uint32_t)(result - SAGEPLIERS_REFUSED));
        left_count = (size_t)result;
        memcpy(left, composed, left_count * sizeof *left);
    }
    set_words(call->sheet, left, left_count);
    return answer_sheet(call->sheet, CERTIFICATE, &call->options);
}

enum status command_compose(int argc, char **argv)
{
    struct call call = {.sheet = need(malloc(sizeof *call.sheet))};
    const struct argp argp = {option_table, parse, "FIRST SECOND [NEXT...]",
                              "Shows the certificate of the first map followed by the second, and by any after it.\v"
                              "Each argument is a file with a certificate, and one of them may be `-' for standard input. They are composed from the left: all "
                              "are over one field, the codomain of each is the domain of the next, and the product L of the degrees is at most 255, with "
                              "2*L - 1 below P. A refusal names the file that it is about, or those that do not go together, and leaves the FILE of -o as "
                              "it was.",
                              NULL, NULL, NULL};
    enum status status = take_options(&argp, argc, argv, &call, &call.options) && call.taken ? answer(&call) : FAILED;
    for (size_t i = 0; call.parts != NULL && i < call.options.count; i++)
        free(call.parts[i].bytes);
    end_options(&call.options);
    free(call.parts);
    free(call.names);
    free(call.sheet);
    return status;
}
