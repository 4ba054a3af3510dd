/* The command `sagepliers`: the table of subcommands, --help and --version. */
#include <argp.h>
#include <signal.h>
#include <stdio.h>
#include <stdlib.h>
#include <string.h>

#include <sagepliers.h>

#include "arguments.h"
#include "command.h"
#include "output.h"

#ifndef TOOLCHAIN
#define TOOLCHAIN "not known"
#endif

static const struct subcommand {
    const char *name;
    char *title; /* the name for messages */
    enum status (*run)(int argc, char **argv);
} subcommands[] = {
    {"solve", "sagepliers solve", command_solve},
    {"kernel", "sagepliers kernel", command_kernel},
    {"compose", "sagepliers compose", command_compose},
    {"check", "sagepliers check", command_check},
    {"push", "sagepliers push", command_push},
    {"name", "sagepliers name", command_name},
    {"show", "sagepliers show", command_show},
};

static void print_version(FILE *stream, struct argp_state *state)
{
    (void)state;
    fprintf(stream,
            "sagepliers " SAGEPLIERS_VERSION "\n"
            "Library " SAGEPLIERS_VERSION ": every function behind its six entries is proved to meet its contract (toolchain " TOOLCHAIN ").\n"
            "This command around it is C11: tested, not proved.\n");
}

void (*argp_program_version_hook)(FILE *, struct argp_state *) = print_version;

static const char before[] = "Normalized isogenies of odd degree between elliptic curves over prime fields.\v";
static const char after[] =
    "Commands:\n"
    "  solve    the certificate that answers a question\n"
    "  kernel   the certificate of a curve and a kernel polynomial\n"
    "  compose  the certificate of one map followed by another\n"
    "  check    whether certificates pass, one or a folder of them\n"
    "  push     the images of points under a certificate\n"
    "  name     the j-value of a curve\n"
    "  show     what is on a sheet; turns one way to write a sheet into another\n"
    "\n"
    "`sagepliers COMMAND --help' has each command's own words. Answers go to standard output, everything else to standard error. A sheet that does "
    "not pass is refused with the number of the first question that it fails, and what that question asks.\n"
    "\n"
    "Exit status: 0 if all passed, 1 if something was refused, 2 if something could not be read or written or the command line is wrong.";

static error_t parse(int key, char *argument, struct argp_state *state)
{
    enum status *status = state->input;
    switch (key) {
    case ARGP_KEY_ARG:
        for (size_t i = 0; i < sizeof subcommands / sizeof *subcommands; i++)
            if (strcmp(argument, subcommands[i].name) == 0) {
                int first = state->next - 1;
                state->argv[first] = subcommands[i].title;
                *status = subcommands[i].run(state->argc - first, state->argv + first);
                state->next = state->argc;
                return 0;
            }
        argp_error(state, "%s is no command", shown_name(plain(argument)));
        return 0;
    case ARGP_KEY_NO_ARGS:
        argp_error(state, "a command is missing");
        return 0;
    default:
        return ARGP_ERR_UNKNOWN;
    }
}

int main(int argc, char **argv)
{
    /* A reader that has gone is an error of writing like any other, with a message and a status. */
    signal(SIGPIPE, SIG_IGN);
    hold_standard_files();
    atexit(close_output);
    argp_err_exit_status = FAILED;

    char help[sizeof before + sizeof after];
    snprintf(help, sizeof help, "%s%s", before, after);
    const struct argp argp = {.parser = parse, .args_doc = "COMMAND [ARGUMENT...]", .doc = help};
    enum status status = FAILED;
    char name[] = "sagepliers";
    if (argc > 0)
        argv[0] = name;
    char **arguments = shield(argc, argv);
    if (argp_parse(&argp, argc, arguments, ARGP_IN_ORDER, NULL, &status) != 0)
        status = FAILED;
    free_shield(argc, arguments);
    return (int)status;
}
