/* show: what is on a sheet, and one way to write a sheet turned into another. */
#include <stdlib.h>
#include <string.h>

#include "answers.h"
#include "arguments.h"
#include "output.h"

static const struct argp_option option_table[] = {
    OPTION_OUTPUT,
    OPTION_JSON,
    {"hex", KEY_HEX, NULL, 0, "show the words, eight hexadecimal digits a line", 0},
    {"words", KEY_WORDS, NULL, 0, "show every word with its kind and value", 0},
    {"form", KEY_FORM, "FORM", 0, "what decimal numbers are: question, certificate or kernel; by default seven are a question, and more a certificate", 0},
    OPTION_QUIET,
    OPTION_INPUT,
    {0},
};

struct call {
    struct options options;
    enum form form;
    struct sheet *sheet;
    bool taken;
};

static enum form read_form(const char *text)
{
    static const char *const names[] = {"question", "certificate", "kernel"};
    static const enum form forms[] = {QUESTION, CERTIFICATE, KERNEL_SHEET};
    for (size_t i = 0; i < sizeof forms / sizeof *forms; i++)
        if (strcmp(text, names[i]) == 0)
            return forms[i];
    return NO_FORM;
}

static error_t parse(int key, char *argument, struct argp_state *state)
{
    struct call *call = state->input;
    switch (key) {
    case KEY_WORDS: call->options.view = AS_WORDS; return 0;
    case KEY_FORM:
        call->form = read_form(argument);
        if (call->form == NO_FORM)
            argp_error(state, "--form=%s: the forms are question, certificate and kernel", shown_name(argument));
        return 0;
    case ARGP_KEY_END:
        /* The first seven values of a certificate are those of its question, so decimal numbers of either are read alike. */
        call->taken = take_sheet(state, &call->options, call->form == NO_FORM ? CERTIFICATE : call->form, 1, MOST_WORDS - 1,
                                 "the values of a sheet in their order", call->sheet);
        return 0;
    default: return common_option(key, argument, state, &call->options);
    }
}

/* A sheet of no form is shown word by word, with a remark. */
static enum status answer(const struct call *call)
{
    enum form form = form_of(call->sheet);
    enum status status = answer_sheet(call->sheet, form, &call->options);
    if (status == ALL_PASS && form == NO_FORM) {
        complain("this is no question, certificate or kernel sheet by its words' kinds and their number");
        status = REFUSED;
    }
    return status;
}

enum status command_show(int argc, char **argv)
{
    struct call call = {.sheet = need(malloc(sizeof *call.sheet))};
    const struct argp argp = {option_table, parse, "[FILE]\nNUMBER...",
                              "Shows what is on a sheet: the field, the curves, the degree, the polynomials and, of a certificate, how many abscissas of the "
                              "kernel it says are rational. Judges nothing.\v"
                              "The sheet is in FILE or, without arguments, in standard input, or is given by its values in their order: a certificate's are "
                              "those of its question, the coefficients of g and those of N from the constant term up, and the count. With -o it is written as "
                              "bytes, whatever it was written as. Status 1 means that it is neither question nor certificate nor kernel sheet.",
                              NULL, NULL, NULL};
    enum status status = take_options(&argp, argc, argv, &call, &call.options) && call.taken ? answer(&call) : FAILED;
    end_options(&call.options);
    free(call.sheet);
    return status;
}
