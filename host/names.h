/*
 * The names of items, in the file `names` of a replica's folder: a line for each with the item's id in 48 digits, a blank, the tag that
 * the file had when it was last seen (or - if it is not in the directory), a blank, and the name. The lines stand in the order of the
 * ids. The id is made from the name, so a line that was damaged there is noticed. Only scan and renew write the file.
 */

#ifndef NAMES_H
#define NAMES_H

#include "ids.h"
#include "replica.h"

/* A name is a path with slashes, of at most so many bytes. A store has at most so many records, and a folder at most so many names. */
enum { NAME_MOST = 1000, NAMES_MOST = 256 };

struct name {
    uint8_t item[SYNC_ITEM];
    int is_seen; /* whether the file was in the directory when that was last scanned; if so, what was seen of it: */
    uint8_t seen[SYNC_TAG];
    char text[NAME_MOST + 1];
};

/*
 * Reads the names of a folder, if it has any, in addition to those that were read before; what was seen is then as this folder says, for
 * all names that it has. If the file is damaged, need_names ends the program; load_names warns and goes on without the folder's names.
 */
void need_names(const struct folder *folder);
void load_names(const struct folder *folder);

/* Likewise, if the name is that of a folder. */
void load_names_of(const char *name);

/* The name of an item, or null. */
const char *name_of(const uint8_t *item);
struct name *find_name(const uint8_t *item);

/* The names in the order of their items, from 0 on; null behind the last. */
struct name *name_at(size_t at);

/* The name with this text, which has at most NAME_MOST bytes and no line feed. It is added, as not seen, unless it is there. */
struct name *add_name(const char *text);

/* Lets no file have been seen. */
void forget_seen(void);

/* The id of the item that has a name. */
void item_of(const char *text, size_t n, uint8_t item[SYNC_ITEM]);

/*
 * Writes the names of items that have a record in the store beside the folder's file, to be put in its place by finish (files.h). The
 * program must have the lock. Whether there is something to finish: nothing is written if the file has these names already.
 */
int prepare_names(struct replacement *new, const struct folder *folder, const struct file *store);

/* A name with other signs for those that would change the lines, valid until the next call. */
const char *printable(const char *name);

#endif
