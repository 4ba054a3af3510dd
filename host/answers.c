/* Answers that several subcommands give: refusals, and sheets shown and written; and how they take their sheet. */
#include "answers.h"

#include <inttypes.h>
#include <stdio.h>
#include <stdlib.h>
#include <string.h>

#include <sagepliers.h>

#include "arguments.h"
#include "output.h"

void put_json_refusal(uint32_t number)
{
    printf("\"result\":\"refused\",\"number\":%" PRIu32 ",\"meaning\":", number);
    put_json_string(sagepliers_meaning(number));
}

/* Whether the sheet's bytes go to standard output, where nothing else may then stand. */
static bool bytes_on_output(const struct options *options)
{
    return options->output != NULL && strcmp(options->output, "-") == 0;
}

/* The members that say which files a refusal is about: one as check has it, several as a list of such objects. */
static void put_json_names(const char *const *names, size_t count)
{
    if (count == 0)
        return;
    if (count == 1) {
        put_json_file(names[0]);
    } else {
        printf("\"files\":[");
        for (size_t i = 0; i < count; i++) {
            printf(i == 0 ? "{" : ",{");
            put_json_file(names[i]);
            putchar('}');
        }
        putchar(']');
    }
    putchar(',');
}

static void put_refusal(FILE *stream, const char *const *names, size_t count, uint32_t number)
{
    for (size_t i = 0; i < count; i++)
        fprintf(stream, "%s%s", i == 0 ? "" : i + 1 < count ? ", " : " and ", input_name(names[i]));
    fprintf(stream, "%srefused %" PRIu32 ": %s\n", count > 0 ? ": " : "", number, sagepliers_meaning(number));
}

enum status answer_refused_files(const char *const *names, size_t count, uint32_t number, const struct options *options)
{
    if (options->quiet)
        return REFUSED;
    if (bytes_on_output(options)) {
        fputs("sagepliers: ", stderr);
        put_refusal(stderr, names, count, number);
    } else if (options->view == AS_JSON) {
        putchar('{');
        put_json_names(names, count);
        put_json_refusal(number);
        printf("}\n");
    } else {
        put_refusal(stdout, names, count, number);
    }
    return REFUSED;
}

enum status answer_refused(uint32_t number, const struct options *options)
{
    return answer_refused_files(NULL, 0, number, options);
}

enum status answer_sheet(const struct sheet *sheet, enum form form, const struct options *options)
{
    if (options->output != NULL && !write_file(options->output, sheet->bytes, sheet->count))
        return FAILED;
    if (!options->quiet && !bytes_on_output(options))
        put_sheet(sheet, form, options->view);
    return ALL_PASS;
}

bool take_sheet(struct argp_state *state, const struct options *options, enum form form, size_t least, size_t most, const char *wanted, struct sheet *sheet)
{
    int64_t first = 0, stray_number = 0;
    const char *name = options->count == 0 ? "-" : plain(options->arguments[0]);
    if (options->count <= 1 && !read_number(name, strlen(name), &first)) {
        struct problem problem = read_sheet(name, false, form, options->writing, sheet);
        if (problem.trouble != NO_TROUBLE)
            complain("%s: %s", input_name(name), problem_text(problem));
        return problem.trouble == NO_TROUBLE;
    }
    int64_t *numbers = need(calloc(options->count, sizeof *numbers));
    const char *stray = NULL;
    bool taken = false;
    if (!read_numbers(options->arguments, options->count, numbers, &stray))
        argp_error(state, "%s is no number; wanted are %s, or one file", shown_name(stray), wanted);
    else if (options->count < least || options->count > most)
        argp_error(state, "%zu numbers; wanted are %s, or one file (for a file of such a name write ./%s)", options->count, wanted, name);
    else if (!sheet_of_numbers(form, numbers, options->count, sheet, &stray_number))
        argp_error(state, "%" PRId64 " has no place in a word: values are below 2^28 and, p, l and the count apart, above -p", stray_number);
    else
        taken = true;
    free(numbers);
    return taken;
}
