/* Options that several subcommands have: how an answer is shown, and how a sheet is written. */
#ifndef OPTIONS_H
#define OPTIONS_H

#include <argp.h>

#include "input.h"
#include "sheet.h"

enum { KEY_JSON = 0x100, KEY_HEX, KEY_INPUT, KEY_PROGRESS, KEY_FOLLOW, KEY_MATCH, KEY_WORDS, KEY_FORM };

#define OPTION_JSON {"json", KEY_JSON, NULL, 0, "answer with one JSON object a line", 0}
#define OPTION_QUIET {"quiet", 'q', NULL, 0, "print no answer: the exit status tells", 0}
#define OPTION_OUTPUT {"output", 'o', "FILE", 0, "write the sheet's bytes to FILE; `-' is standard output, which then gets nothing else", 0}
#define OPTION_INPUT {"input", KEY_INPUT, "KIND", 0, "how sheets are written: bytes, hex, decimal, or any of them (the default), told apart", 0}

/* What a subcommand was told. */
struct options {
    enum view view;
    enum writing writing;
    bool quiet;
    const char *output; /* or NULL */
    char **arguments;   /* those that are no options */
    size_t count;
};

/* Takes the options above and gathers the arguments; ends the program with a message if a word is wrong. */
error_t common_option(int key, char *argument, struct argp_state *state, struct options *options);

/* Takes the command line: argp's parser gets the call, of which the options are a part. False if argp cannot; the arguments are there until end_options. */
bool take_options(const struct argp *argp, int argc, char **argv, void *call, struct options *options);
void end_options(struct options *options);

#endif
