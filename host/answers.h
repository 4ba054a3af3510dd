/* Answers that several subcommands give: refusals, and sheets shown and written. */
#ifndef ANSWERS_H
#define ANSWERS_H

#include "command.h"
#include "options.h"

/* The members of a refusal in a JSON object. */
void put_json_refusal(uint32_t number);

/* A refusal of the one sheet that a command was asked about. */
enum status answer_refused(uint32_t number, const struct options *options);

/* A refusal that is about these files, where a command was asked about several. */
enum status answer_refused_files(const char *const *names, size_t count, uint32_t number, const struct options *options);

/* Shows a sheet of a form and writes it to the file of the options. */
enum status answer_sheet(const struct sheet *sheet, enum form form, const struct options *options);

/* The one sheet that a command takes: numbers on the command line, a file, or standard input where there is no argument. Says what is wrong and returns
 * false if it cannot be had. `wanted` says how many numbers there are to be, for the message; at least and at most so many are taken. */
bool take_sheet(struct argp_state *state, const struct options *options, enum form form, size_t least, size_t most, const char *wanted, struct sheet *sheet);

#endif
