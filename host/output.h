/* Writing: messages, file names and JSON strings on one line, files of bytes, and that nothing written is lost unnoticed. */
#ifndef OUTPUT_H
#define OUTPUT_H

#include <stdbool.h>
#include <stddef.h>
#include <stdint.h>
#include <stdio.h>

/* A line on standard error, behind the name of the program. */
void complain(const char *format, ...) __attribute__((format(printf, 1, 2)));

/* The memory that was asked for, or the end of the program with status 2. */
void *need(void *memory);

/* Takes the places of standard files that are closed, so that no other file gets their numbers; using them fails as before. */
void hold_standard_files(void);

/* At the end of the program: status 2 with a message if standard output did not take all. */
void close_output(void);

/* Whether standard output has failed: nothing more can be answered. */
bool output_failed(void);

/* Writes the bytes to a file, or to standard output if the name is "-". Returns false after a message. */
bool write_file(const char *name, const uint8_t *bytes, size_t count);

/* A name on one line: as it is where all of it can be printed, else in the shell's form $'..'. The pointer is good until the fourth call after. */
const char *shown_name(const char *name);

/* "..", valid JSON whatever the bytes: those that are no UTF-8 become U+FFFD. */
void put_json_string(const char *text);

/* The members "file" and, where the name is no UTF-8, "file_hex" with its bytes. */
void put_json_file(const char *name);

#endif
