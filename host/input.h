/* Sheets from files: bytes, hexadecimal words and decimal numbers, told apart. */
#ifndef INPUT_H
#define INPUT_H

#include "sheet.h"

/* How a sheet is written. */
enum writing { ANY_WRITING, BYTES, HEXADECIMAL, DECIMAL };

/* Why a file gives no sheet. */
enum trouble {
    NO_TROUBLE,
    SYSTEM_ERROR,    /* `error` has its number */
    NOT_A_FILE,      /* a device, a pipe or a socket in a folder */
    LINK_TO_FOLDER,  /* in a folder, where links to folders are not followed */
    TOO_LONG,        /* more than any sheet, with no end in sight */
    NO_SHEET,        /* text, and neither hexadecimal words nor decimal numbers */
    FOUND_HEX,       /* hexadecimal words where something else is wanted */
    FOUND_DECIMAL,   /* decimal numbers where something else is wanted */
    FOUND_BYTES,     /* bytes where text is wanted */
    NUMBER_TOO_LARGE /* a decimal number that has no place in a word */
};

struct problem {
    enum trouble trouble;
    int error;
};

/* Reads the sheet in a file, or in standard input if the name is "-". Decimal numbers become a sheet of the form. What was found in a folder is taken
 * only if it is a regular file; what somebody has named may be a pipe or a device too. */
struct problem read_sheet(const char *name, bool in_folder, enum form form, enum writing writing, struct sheet *sheet);

/* What is wrong, as the end of a sentence. */
const char *problem_text(struct problem problem);

/* A name for people: "standard input", or the name of the file on one line. */
const char *input_name(const char *name);

/* Reads the word of the option --input. */
bool read_writing(const char *text, enum writing *writing);

#endif
