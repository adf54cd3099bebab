/* The commands that change one replica by themselves. */

#define _DEFAULT_SOURCE

#include <inttypes.h>
#include <stdio.h>
#include <string.h>
#include <sys/random.h>

#include "changing.h"
#include "commands.h"
#include "messages.h"
#include "options.h"
#include "replica.h"
#include "show.h"
#include "status.h"
#include "sync_format.h"

static struct file result, store;
static struct replica replica;

void begin_store(struct file *new, const char *folder, const char *id)
{
    uint8_t own[SYNC_REPLICA];
    uint64_t written = 0;
    uint32_t number;
    if (id)
        read_id(&replicas, id, own);
    else if (getrandom(own, sizeof own, 0) != sizeof own)
        trouble("random bytes", "could not be obtained; give an id");
    number = sync_new(own, SYNC_REPLICA, new->bytes, sizeof new->bytes, &written);
    if (number != 0)
        refused(folder, number, NULL);
    new->name = folder;
    new->n = (size_t)written;
}

int command_new(char **arguments)
{
    char text[ID_TEXT];
    begin_store(&result, arguments[0], arguments[1]);
    save_new(arguments[0], &result);
    full_ids = full_ids || !arguments[1];
    printf("%s is replica %s\n", arguments[0], id_text(&replicas, result.bytes + SYNC_STORE_OWN, text));
    return 0;
}

uint32_t change(struct draft *draft, const uint8_t *item, const uint8_t *tag)
{
    struct file *now = draft->now, *next = draft->next;
    uint64_t written = 0;
    uint32_t number = tag ? sync_edit(now->bytes, now->n, item, SYNC_ITEM, tag, SYNC_TAG, next->bytes, sizeof next->bytes, &written)
                          : sync_delete(now->bytes, now->n, item, SYNC_ITEM, next->bytes, sizeof next->bytes, &written);
    if (number != 0)
        return number;
    next->name = now->name;
    next->form = now->form;
    next->n = (size_t)written;
    draft->now = next;
    draft->next = now;
    return 0;
}

/* Edits an item, or deletes it if the tag is null, and says what it came to. */
static int change_item(const char *folder, const char *item_given, const uint8_t *tag)
{
    struct draft draft = {&store, &result};
    uint8_t item[SYNC_ITEM];
    char text[ID_TEXT], own[ID_TEXT];
    uint32_t number;
    load_to_change(&replica, &store, folder);
    add_ids(&store);
    read_id(&items, item_given, item);
    number = change(&draft, item, tag);
    if (number != 0)
        refused(folder, number, NULL);
    save(&replica, draft.now);
    add_id(&items, item);
    printf("%s item %s: tick %" PRIu64 " of replica %s\n", tag ? "edited" : "deleted", id_text(&items, item, text), own_tick(draft.now),
           id_text(&replicas, draft.now->bytes + SYNC_STORE_OWN, own));
    warn_limits(draft.now);
    return 0;
}

int command_edit(char **arguments)
{
    uint8_t tag[SYNC_TAG];
    need_id(&items, arguments[1]);
    read_tag(arguments[2], tag);
    return change_item(arguments[0], arguments[1], tag);
}

int command_delete(char **arguments)
{
    need_id(&items, arguments[1]);
    return change_item(arguments[0], arguments[1], NULL);
}

int command_seal(char **arguments)
{
    enum form after, before = seal_again(arguments[0], &after);
    printf("%s: its files were %s, and are %s now\n", arguments[0], form_names[before], form_names[after]);
    return 0;
}
