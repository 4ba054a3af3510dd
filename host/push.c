/* push: the images of points under a certificate. */
#include <inttypes.h>
#include <stdio.h>
#include <stdlib.h>
#include <string.h>

#include <sagepliers.h>

#include "answers.h"
#include "arguments.h"
#include "output.h"

static const struct argp_option option_table[] = {
    OPTION_JSON, {"hex", KEY_HEX, NULL, 0, "answer with the images' numbers u + 2^28 v, sixteen hexadecimal digits each", 0}, OPTION_QUIET, OPTION_INPUT, {0},
};

struct call {
    struct options options;
    struct sheet *sheet;
    bool taken;
    uint64_t *points;
    size_t count;
};

static const int64_t coordinate_bound = INT64_C(1) << 28;

/* Reads the points behind the file's name before anything is answered, so that a slip of the pen gives no half answer. p is for negative coordinates. */
static void take_points(struct argp_state *state, struct call *call, uint32_t p)
{
    const struct options *options = &call->options;
    for (size_t i = 1; i < options->count; i++) {
        int64_t number = 0;
        const char *text = plain(options->arguments[i]);
        uint32_t coordinates[2] = {0, 0};
        if (strcmp(text, "infinity") == 0) {
            call->points[call->count++] = SAGEPLIERS_INFINITY;
            continue;
        }
        for (size_t k = 0; k < 2; k++) {
            if (i + k == options->count)
                argp_error(state, "the point with u = %s has no v", text);
            text = plain(options->arguments[i + k]);
            if (!read_number(text, strlen(text), &number))
                argp_error(state, "%s is neither a number nor infinity", shown_name(text));
            if (!reduce(number, p, coordinate_bound, &coordinates[k]))
                argp_error(state, "%s is no coordinate: they are below 2^28, and above -p", text);
        }
        call->points[call->count++] = coordinates[0] + ((uint64_t)coordinates[1] << 28);
        i++;
    }
}

static void take_all(struct argp_state *state, struct call *call)
{
    const struct options *options = &call->options;
    if (options->count < 2)
        argp_error(state, options->count == 0 ? "a certificate and points are missing" : "points are missing");
    const char *name = plain(options->arguments[0]);
    struct problem problem = read_sheet(name, false, CERTIFICATE, options->writing, call->sheet);
    if (problem.trouble != NO_TROUBLE) {
        complain("%s: %s", input_name(name), problem_text(problem));
        return;
    }
    call->points = need(calloc(options->count, sizeof *call->points));
    take_points(state, call, call->sheet->count < 4 ? 0 : value_of(word_at(call->sheet, 0)));
    call->taken = true;
}

static error_t parse(int key, char *argument, struct argp_state *state)
{
    struct call *call = state->input;
    if (key != ARGP_KEY_END)
        return common_option(key, argument, state, &call->options);
    take_all(state, call);
    return 0;
}

static void put_point(uint64_t point, enum view view)
{
    if (view == AS_HEX)
        printf("%016" PRIx64, point);
    else if (point == SAGEPLIERS_INFINITY)
        fputs(view == AS_JSON ? "\"infinity\"" : "infinity", stdout);
    else if (view == AS_JSON)
        printf("[%" PRIu64 ",%" PRIu64 "]", point & 0xfffffff, point >> 28);
    else
        printf("(%" PRIu64 ", %" PRIu64 ")", point & 0xfffffff, point >> 28);
}

/* One line for a point and its image or refusal. */
static void put_answer(uint64_t point, uint64_t image, enum view view)
{
    uint32_t number = (uint32_t)(image - SAGEPLIERS_REFUSED);
    bool refused = image >= SAGEPLIERS_REFUSED;
    if (view == AS_JSON) {
        printf("{\"point\":");
        put_point(point, view);
        if (refused) {
            putchar(',');
            put_json_refusal(number);
        } else {
            printf(",\"image\":");
            put_point(image, view);
        }
        printf("}\n");
        return;
    }
    if (view != AS_HEX) {
        put_point(point, view);
        printf(refused ? ": " : " -> ");
    }
    if (refused)
        printf("refused %" PRIu32 ": %s", number, sagepliers_meaning(number));
    else
        put_point(image, view);
    putchar('\n');
}

static enum status answer(const struct call *call)
{
    enum status status = ALL_PASS;
    /* A refused certificate pushes no point: each would get the same number. */
    uint32_t verdict = sagepliers_check(call->sheet->bytes, call->sheet->count);
    if (verdict != 0)
        return answer_refused(verdict, &call->options);
    for (size_t i = 0; i < call->count && !output_failed(); i++) {
        uint64_t image = sagepliers_push(call->sheet->bytes, call->sheet->count, call->points[i]);
        if (image >= SAGEPLIERS_REFUSED)
            status = REFUSED;
        if (!call->options.quiet)
            put_answer(call->points[i], image, call->options.view);
    }
    return status;
}

enum status command_push(int argc, char **argv)
{
    struct call call = {.sheet = need(malloc(sizeof *call.sheet))};
    const struct argp argp = {option_table, parse, "FILE POINT...",
                              "Pushes points of the domain through the certificate in FILE and shows their images.\v"
                              "FILE may be `-' for standard input. A POINT is two numbers U V, or the word infinity; a negative number stands for itself plus "
                              "the certificate's P.",
                              NULL, NULL, NULL};
    enum status status = take_options(&argp, argc, argv, &call, &call.options) && call.taken ? answer(&call) : FAILED;
    end_options(&call.options);
    free(call.points);
    free(call.sheet);
    return status;
}
