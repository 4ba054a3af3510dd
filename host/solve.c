/* solve and kernel: the certificate that answers a sheet. */
#include <stdint.h>
#include <stdlib.h>

#include <sagepliers.h>

#include "answers.h"
#include "output.h"

/* What tells the two apart. */
struct service {
    enum form form;
    size_t least, most; /* numbers on the command line */
    const char *wanted;
    uint64_t (*entry)(const uint32_t *sheet, size_t words, uint32_t *answer, size_t room);
};

static const struct argp_option option_table[] = {
    OPTION_OUTPUT, OPTION_JSON, {"hex", KEY_HEX, NULL, 0, "answer with the words, eight hexadecimal digits a line", 0}, OPTION_QUIET, OPTION_INPUT, {0},
};

struct call {
    const struct service *service;
    struct options options;
    struct sheet *sheet;
    bool taken;
};

static error_t parse(int key, char *argument, struct argp_state *state)
{
    struct call *call = state->input;
    const struct service *service = call->service;
    if (key != ARGP_KEY_END)
        return common_option(key, argument, state, &call->options);
    call->taken = take_sheet(state, &call->options, service->form, service->least, service->most, service->wanted, call->sheet);
    return 0;
}

static enum status answer(const struct call *call)
{
    static uint32_t words[MOST_WORDS], certificate[SAGEPLIERS_ROOM];
    /* The entry takes words: that there are only whole ones, which question 2 asks, is asked here. */
    if (call->sheet->count % 4 != 0)
        return answer_refused(2, &call->options);
    uint64_t result = call->service->entry(words, get_words(call->sheet, words), certificate, SAGEPLIERS_ROOM);
    if (result >= SAGEPLIERS_REFUSED)
        return answer_refused((uint32_t)(result - SAGEPLIERS_REFUSED), &call->options);
    set_words(call->sheet, certificate, (size_t)result);
    return answer_sheet(call->sheet, CERTIFICATE, &call->options);
}

static enum status run(int argc, char **argv, const struct service *service, const char *args, const char *doc)
{
    struct call call = {.service = service, .sheet = need(malloc(sizeof *call.sheet))};
    const struct argp argp = {option_table, parse, args, doc, NULL, NULL, NULL};
    enum status status = take_options(&argp, argc, argv, &call, &call.options) && call.taken ? answer(&call) : FAILED;
    end_options(&call.options);
    free(call.sheet);
    return status;
}

enum status command_solve(int argc, char **argv)
{
    static const struct service solve = {QUESTION, 7, 7, "the seven p A B A~ B~ l sigma", sagepliers_solve};
    return run(argc, argv, &solve, "P A B A~ B~ L SIGMA\n[FILE]",
               "Solves a question: finds the normalized isogeny of degree L from y^2 = x^3 + A*x + B to y^2 = x^3 + A~*x + B~ over the field of P elements "
               "whose kernel has abscissas of sum SIGMA, and shows its certificate.\v"
               "The question is seven numbers, or a sheet in FILE or, without arguments, in standard input. A negative number stands for itself plus P; "
               "a value of P or more, L apart, is taken modulo P. A refused question leaves the FILE of -o as it was.");
}

enum status command_kernel(int argc, char **argv)
{
    static const struct service kernel = {KERNEL_SHEET, 6, MOST_WORDS - 1, "p A B l and the coefficients of g from the constant term up", sagepliers_kernel};
    return run(argc, argv, &kernel, "P A B L G0 G1 [G2...]\n[FILE]",
               "Finds the codomain of the normalized isogeny of degree L from y^2 = x^3 + A*x + B over the field of P elements whose kernel polynomial is "
               "G0 + G1*x + .., and shows its certificate.\v"
               "The kernel sheet is given by its numbers, or in FILE or, without arguments, in standard input. G has (L - 1)/2 + 1 coefficients, from the "
               "constant term up. A negative number stands for itself plus P; a value of P or more, L apart, is taken modulo P. A refused sheet leaves the "
               "FILE of -o as it was.");
}
