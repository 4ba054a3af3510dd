/* Files and the files in folders, in the order of their names. */
#ifndef WALK_H
#define WALK_H

#include <stdbool.h>
#include <stddef.h>

#include "input.h"

struct walk {
    bool follow;       /* links to folders too */
    const char *match; /* a pattern for the names of files in folders, or NULL */
    /* Called for each file, with NO_TROUBLE, and for whatever cannot be had. Returns false to end the walk. The name is the callee's to copy. */
    bool (*found)(void *context, const char *name, bool in_folder, struct problem problem);
    void *context;
    size_t folders; /* folders seen */
};

/* Walks through one argument of the command line, a file, a folder or "-". Returns false if it was ended. */
bool walk(struct walk *walk, const char *name);

#endif
