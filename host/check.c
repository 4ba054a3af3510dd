/* check: whether certificates pass, one or folders of them.
 *
 * Files are gathered until a window is full; then the threads judge it, each taking the next file that nobody has, and the main thread prints the
 * answers in the order of the files. So memory is bounded, and what is printed does not depend on the number of threads.
 */
#define _POSIX_C_SOURCE 200809L
#include <errno.h>
#include <inttypes.h>
#include <pthread.h>
#include <stdatomic.h>
#include <stdio.h>
#include <stdlib.h>
#include <string.h>
#include <time.h>
#include <unistd.h>

#include <sagepliers.h>

#include "answers.h"
#include "arguments.h"
#include "output.h"
#include "walk.h"

enum { WINDOW = 4096, MOST_JOBS = 256 };

static const struct argp_option option_table[] = {
    {"jobs", 'j', "N", 0, "judge in N threads; 0 means one for each processor", 0},
    {"verbose", 'v', NULL, 0, "print a line for each certificate that passes, too", 0},
    {"progress", KEY_PROGRESS, NULL, 0, "show on standard error, if it is a terminal, how far the work has come", 0},
    {"match", KEY_MATCH, "PATTERN", 0, "in folders, only files whose names match the shell pattern", 0},
    {"follow", KEY_FOLLOW, NULL, 0, "in folders, go through links to folders too", 0},
    OPTION_JSON,
    OPTION_QUIET,
    OPTION_INPUT,
    {0},
};

/* A file and what was found of it. */
struct item {
    size_t name; /* where it starts among the names */
    bool in_folder;
    struct problem problem;
    uint32_t verdict;
};

struct call {
    struct options options;
    struct walk walk;
    bool verbose, progress, single;
    size_t jobs;
    struct item window[WINDOW];
    size_t filled;
    char *names; /* of the window, one after the other */
    size_t names_length, names_room;
    atomic_size_t next, judged; /* of the window: the next item to take, and how many have been judged */
    size_t files, refused, unread;
    size_t left_out; /* links to folders that were not followed */
    struct timespec told; /* when progress was last shown */
};

static size_t read_jobs(const char *text, struct argp_state *state)
{
    int64_t number = 0;
    if (!read_number(text, strlen(text), &number) || number < 0 || number > MOST_JOBS)
        argp_error(state, "--jobs=%s: wanted is a number from 0 to %d", shown_name(text), MOST_JOBS);
    return (size_t)number;
}

static error_t parse(int key, char *argument, struct argp_state *state)
{
    struct call *call = state->input;
    switch (key) {
    case 'j': call->jobs = read_jobs(plain(argument), state); return 0;
    case 'v': call->verbose = true; return 0;
    case KEY_PROGRESS: call->progress = isatty(STDERR_FILENO); return 0;
    case KEY_MATCH: call->walk.match = argument; return 0;
    case KEY_FOLLOW: call->walk.follow = true; return 0;
    default: return common_option(key, argument, state, &call->options);
    }
}

/* ---- judging */

static void show_progress(struct call *call, bool last)
{
    struct timespec now;
    clock_gettime(CLOCK_MONOTONIC, &now);
    double since = (double)(now.tv_sec - call->told.tv_sec) + 1e-9 * (double)(now.tv_nsec - call->told.tv_nsec);
    if (!last && since < 0.1)
        return;
    call->told = now;
    if (last)
        fprintf(stderr, "\r\033[K");
    else
        fprintf(stderr, "\r%zu judged, %zu refused, %zu not read", call->files + atomic_load(&call->judged), call->refused, call->unread);
    fflush(stderr);
}

/* Judges items until none is left. Only the main thread shows progress. */
static void judge(struct call *call, bool main_thread)
{
    struct sheet *sheet = malloc(sizeof *sheet);
    for (;;) {
        size_t i = atomic_fetch_add(&call->next, 1);
        if (i >= call->filled)
            break;
        struct item *item = &call->window[i];
        if (sheet == NULL)
            item->problem = (struct problem){SYSTEM_ERROR, ENOMEM};
        else if (item->problem.trouble == NO_TROUBLE)
            item->problem = read_sheet(call->names + item->name, item->in_folder, CERTIFICATE, call->options.writing, sheet);
        if (item->problem.trouble == NO_TROUBLE)
            item->verdict = sagepliers_check(sheet->bytes, sheet->count);
        atomic_fetch_add(&call->judged, 1);
        if (main_thread && call->progress)
            show_progress(call, false);
    }
    free(sheet);
}

static void *judge_beside(void *call)
{
    judge(call, false);
    return NULL;
}

/* Judges the window. Fewer threads than asked for are no error: the main thread does what is left. */
static void judge_window(struct call *call)
{
    pthread_t threads[MOST_JOBS];
    size_t started = 0;
    atomic_store(&call->next, 0);
    atomic_store(&call->judged, 0);
    while (started + 1 < call->jobs && started + 1 < call->filled && pthread_create(&threads[started], NULL, judge_beside, call) == 0)
        started++;
    judge(call, true);
    for (size_t i = 0; i < started; i++)
        pthread_join(threads[i], NULL);
}

/* ---- answers */

static void put_item(const struct call *call, const struct item *item)
{
    const char *name = call->names + item->name;
    bool read = item->problem.trouble == NO_TROUBLE;
    if (!read)
        complain("%s: %s", input_name(name), problem_text(item->problem));
    if (call->options.quiet || item->problem.trouble == LINK_TO_FOLDER)
        return;
    if (call->options.view == AS_JSON) {
        putchar('{');
        put_json_file(name);
        putchar(',');
        if (!read) {
            printf("\"result\":\"unread\",\"message\":");
            put_json_string(problem_text(item->problem));
        } else if (item->verdict == 0) {
            printf("\"result\":\"passes\"");
        } else {
            put_json_refusal(item->verdict);
        }
        printf("}\n");
    } else if (read && item->verdict != 0) {
        printf("%s: refused %" PRIu32 ": %s\n", input_name(name), item->verdict, sagepliers_meaning(item->verdict));
    } else if (read && (call->verbose || call->single)) {
        printf("%s: passes\n", input_name(name));
    }
}

static void count_item(struct call *call, const struct item *item)
{
    switch (item->problem.trouble) {
    case LINK_TO_FOLDER: call->left_out++; return;
    case NO_TROUBLE: call->refused += item->verdict != 0; break;
    default: call->unread++; break;
    }
    call->files++;
}

/* Judges what is gathered and prints it. Returns false if nobody can read the answers any more. */
static bool close_window(struct call *call)
{
    if (call->filled > 0)
        judge_window(call);
    if (call->progress)
        show_progress(call, true);
    for (size_t i = 0; i < call->filled; i++) {
        struct item *item = &call->window[i];
        count_item(call, item);
        put_item(call, item);
    }
    call->filled = 0;
    call->names_length = 0;
    return !output_failed();
}

static size_t add_name(struct call *call, const char *name)
{
    size_t start = call->names_length, size = strlen(name) + 1;
    if (call->names_room - start < size) {
        call->names_room = 2 * (call->names_room + size);
        call->names = need(realloc(call->names, call->names_room));
    }
    memcpy(call->names + start, name, size);
    call->names_length += size;
    return start;
}

static bool gather(void *context, const char *name, bool in_folder, struct problem problem)
{
    struct call *call = context;
    call->window[call->filled++] = (struct item){add_name(call, name), in_folder, problem, 0};
    return call->filled < WINDOW || close_window(call);
}

static void put_summary(const struct call *call)
{
    printf("%zu file%s: %zu pass", call->files, call->files == 1 ? "" : "s", call->files - call->refused - call->unread);
    printf(", %zu refused", call->refused);
    if (call->unread > 0)
        printf(", %zu not read", call->unread);
    if (call->left_out > 0)
        printf("; %zu link%s to folders left out", call->left_out, call->left_out == 1 ? "" : "s");
    putchar('\n');
}

static enum status check_all(struct call *call)
{
    static char standard_input[] = "-";
    char *alone[1] = {standard_input};
    char **names = call->options.count == 0 ? alone : call->options.arguments;
    size_t count = call->options.count == 0 ? 1 : call->options.count;
    bool go_on = true;
    for (size_t i = 0; i < count && go_on; i++)
        go_on = walk(&call->walk, plain(names[i]));
    /* One file that was named itself has its line, and needs no summary. */
    call->single = go_on && count == 1 && call->walk.folders == 0;
    close_window(call);
    if (!go_on)
        return FAILED;
    if (call->files == 0) {
        complain("there is no file to check");
        return FAILED;
    }
    if (!call->single && !call->options.quiet && call->options.view != AS_JSON)
        put_summary(call);
    return call->unread > 0 ? FAILED : call->refused > 0 ? REFUSED : ALL_PASS;
}

enum status command_check(int argc, char **argv)
{
    struct call *call = need(calloc(1, sizeof *call));
    const struct argp argp = {option_table, parse, "[FILE|FOLDER...]",
                              "Checks certificates: says of each that is refused which question it fails first.\v"
                              "Of a folder all files are checked, also those in folders in it. Without arguments, and where one is `-', standard input is the "
                              "certificate. A file that is not read (no permission, or text that is no sheet) is said on standard error and makes the "
                              "status 2, as does having no file at all. Names that do not fit on one line are shown as the shell's $'..'.",
                              NULL, NULL, NULL};
    call->jobs = 1;
    call->walk.found = gather;
    call->walk.context = call;
    enum status status = FAILED;
    if (take_options(&argp, argc, argv, call, &call->options)) {
        if (call->jobs == 0) {
            long processors = sysconf(_SC_NPROCESSORS_ONLN);
            call->jobs = processors < 1 ? 1 : processors > MOST_JOBS ? MOST_JOBS : (size_t)processors;
        }
        status = check_all(call);
    }
    end_options(&call->options);
    free(call->names);
    free(call);
    return status;
}
