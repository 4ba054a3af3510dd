/* The command's subcommands and exit statuses. */
#ifndef COMMAND_H
#define COMMAND_H

/* The worst that has happened is the exit status, so a greater one wins. */
enum status {
    ALL_PASS = 0,
    REFUSED = 1, /* the library refused something */
    FAILED = 2   /* something could not be read or written, or the command line is wrong */
};

/* Each takes its own part of the command line; argv[0] is the name for messages, as "sagepliers solve". */
enum status command_solve(int argc, char **argv);
enum status command_kernel(int argc, char **argv);
enum status command_compose(int argc, char **argv);
enum status command_check(int argc, char **argv);
enum status command_push(int argc, char **argv);
enum status command_name(int argc, char **argv);
enum status command_show(int argc, char **argv);

#endif
