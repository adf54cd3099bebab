/* New stores, and stores that change several times before they are kept. */

#ifndef CHANGING_H
#define CHANGING_H

#include "replica.h"

/* Writes the store of a replica that has seen nothing, under the id, or under one that is drawn at random if that is null. */
void begin_store(struct file *store, const char *folder, const char *id);

/* A store in memory: each change writes from the one buffer to the other. */
struct draft {
    struct file *now, *next;
};

/* Edits an item, or deletes it if the tag is null. The engine's number; if that is not 0 the draft stays as it was. */
uint32_t change(struct draft *draft, const uint8_t *item, const uint8_t *tag);

#endif
