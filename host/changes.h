/* What an apply changes, record by record. */

#ifndef CHANGES_H
#define CHANGES_H

#include "replica.h"

/* NEW: live now, and not before. LOST: a version of the store or of the batch lost to one that was made without knowing it. */
enum change_kind { CHANGE_NEW, CHANGE_CHANGED, CHANGE_DELETED, CHANGE_LOST };
extern const char *const change_names[];

struct change {
    enum change_kind kind;
    const uint8_t *record; /* that the item has now, or that was lost */
};

struct changes {
    size_t count;
    struct change of[512]; /* at most two for each record of a batch */
};

/* Whether a record is live; none (null) is not. */
int is_live(const uint8_t *record);

/* Whether the first record's change version is the greater: by tick, then replica. */
int is_greater(const uint8_t *first, const uint8_t *second);

/* The changes that a batch makes to a valid store which it is applied to. The records are parts of the two. */
void find_changes(struct changes *changes, const struct file *store, const struct file *batch);

/* How many records of the store change. */
size_t changed_records(const struct changes *changes);

/* The list as text, a line for each: CHANGE ITEM TAG REPLICA TICK [NAME]; and as a member "changes" of a JSON object. */
void print_changes(FILE *out, const struct changes *changes);
void json_changes(const struct changes *changes);

#endif
