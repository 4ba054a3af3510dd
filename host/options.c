/* Options that several subcommands have. */
#include "options.h"

#include <stdlib.h>

#include "arguments.h"
#include "output.h"

error_t common_option(int key, char *argument, struct argp_state *state, struct options *options)
{
    switch (key) {
    case KEY_JSON: options->view = AS_JSON; return 0;
    case KEY_HEX: options->view = AS_HEX; return 0;
    case 'q': options->quiet = true; return 0;
    case 'o': options->output = plain(argument); return 0;
    case KEY_INPUT:
        if (!read_writing(argument, &options->writing))
            argp_error(state, "--input=%s: the kinds are any, bytes, hex and decimal", shown_name(argument));
        return 0;
    case ARGP_KEY_ARG: options->arguments[options->count++] = argument; return 0;
    default: return ARGP_ERR_UNKNOWN;
    }
}

bool take_options(const struct argp *argp, int argc, char **argv, void *call, struct options *options)
{
    options->arguments = need(calloc((size_t)argc + 1, sizeof *options->arguments));
    return argp_parse(argp, argc, argv, 0, NULL, call) == 0;
}

void end_options(struct options *options)
{
    free(options->arguments);
}
