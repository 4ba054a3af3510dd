/* name: the j-value of a curve. */
#include <inttypes.h>
#include <stdio.h>

#include <sagepliers.h>

#include "answers.h"
#include "arguments.h"
#include "output.h"

static const struct argp_option option_table[] = {OPTION_JSON, OPTION_QUIET, {0}};

struct call {
    struct options options;
    uint32_t values[3];
};

/* The entry takes any three words of 32 bits, and judges them. */
static void take_values(struct argp_state *state, struct call *call)
{
    int64_t numbers[3];
    const char *stray = NULL;
    if (call->options.count != 3)
        argp_error(state, "%zu arguments; wanted are the three numbers p A B", call->options.count);
    if (!read_numbers(call->options.arguments, 3, numbers, &stray))
        argp_error(state, "%s is no number; wanted are p A B", shown_name(stray));
    for (size_t i = 0; i < 3; i++)
        if (!reduce(numbers[i], i == 0 ? 0 : numbers[0], INT64_C(1) << 32, &call->values[i]))
            argp_error(state, "%" PRId64 " is out of range: below -p", numbers[i]);
}

static error_t parse(int key, char *argument, struct argp_state *state)
{
    struct call *call = state->input;
    if (key != ARGP_KEY_END)
        return common_option(key, argument, state, &call->options);
    take_values(state, call);
    return 0;
}

static enum status answer(const struct call *call)
{
    const uint32_t *v = call->values;
    uint64_t result = sagepliers_name(v[0], v[1], v[2]);
    if (result >= SAGEPLIERS_REFUSED)
        return answer_refused((uint32_t)(result - SAGEPLIERS_REFUSED), &call->options);
    if (call->options.quiet)
        return ALL_PASS;
    if (call->options.view == AS_JSON)
        printf("{\"p\":%" PRIu32 ",\"curve\":[%" PRIu32 ",%" PRIu32 "],\"j\":%" PRIu64 "}\n", v[0], v[1], v[2], result);
    else
        printf("%" PRIu64 "\n", result);
    return ALL_PASS;
}

enum status command_name(int argc, char **argv)
{
    struct call call = {0};
    const struct argp argp = {option_table, parse, "P A B",
                              "Prints the j-value of the curve y^2 = x^3 + A*x + B over the field of P elements.\v"
                              "A negative number stands for itself plus P.",
                              NULL, NULL, NULL};
    enum status status = take_options(&argp, argc, argv, &call, &call.options) ? answer(&call) : FAILED;
    end_options(&call.options);
    return status;
}
