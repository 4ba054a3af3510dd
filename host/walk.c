/* Files and the files in folders, in the order of their names.
 *
 * Whether an entry of a folder is a regular file, or a link to one, is seen when it is opened and not asked here, which saves a look at each. Links to
 * folders are followed only if that is asked for.
 */
#define _DEFAULT_SOURCE
#include "walk.h"

#include <errno.h>
#include <fnmatch.h>
#include <fts.h>
#include <stdlib.h>
#include <string.h>
#include <sys/stat.h>
#include <sys/types.h>

#include "output.h"

static int by_name(const FTSENT **a, const FTSENT **b)
{
    return strcmp((*a)->fts_name, (*b)->fts_name);
}

static bool tell(const struct walk *walk, const char *name, bool in_folder, int error)
{
    return walk->found(walk->context, name, in_folder, (struct problem){error == 0 ? NO_TROUBLE : SYSTEM_ERROR, error});
}

static bool visit(struct walk *walk, const FTSENT *entry)
{
    switch (entry->fts_info) {
    case FTS_D: walk->folders++; return true;
    case FTS_DP: return true;
    case FTS_DC: complain("%s: a folder that holds itself, not entered again", shown_name(entry->fts_path)); return true;
    case FTS_DNR:
    case FTS_ERR:
    case FTS_NS: return tell(walk, entry->fts_path, true, entry->fts_errno);
    default: return (walk->match != NULL && fnmatch(walk->match, entry->fts_name, 0) != 0) || tell(walk, entry->fts_path, true, 0);
    }
}

static bool walk_folder(struct walk *walk, const char *name)
{
    char *names[2] = {need(strdup(name)), NULL};
    FTS *tree = fts_open(names, (walk->follow ? FTS_LOGICAL : FTS_PHYSICAL | FTS_COMFOLLOW | FTS_NOSTAT) | FTS_NOCHDIR, by_name);
    bool go_on = true;
    if (tree == NULL) {
        go_on = tell(walk, name, false, errno);
    } else {
        const FTSENT *entry = NULL;
        while (go_on && (errno = 0, entry = fts_read(tree)) != NULL)
            go_on = visit(walk, entry);
        if (go_on && errno != 0)
            go_on = tell(walk, name, false, errno);
        fts_close(tree);
    }
    free(names[0]);
    return go_on;
}

bool walk(struct walk *walk, const char *name)
{
    struct stat status;
    if (strcmp(name, "-") == 0)
        return tell(walk, name, false, 0);
    if (stat(name, &status) != 0)
        return tell(walk, name, false, errno);
    return S_ISDIR(status.st_mode) ? walk_folder(walk, name) : tell(walk, name, false, 0);
}
