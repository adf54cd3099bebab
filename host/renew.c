/* The command that begins again with what old replicas hold. */

#include <stdio.h>
#include <stdlib.h>
#include <string.h>
#include <sys/stat.h>

#include "changes.h"
#include "changing.h"
#include "commands.h"
#include "json.h"
#include "messages.h"
#include "names.h"
#include "options.h"
#include "replica.h"
#include "show.h"
#include "status.h"
#include "sync_format.h"

static struct file store, spare;

/* The old replicas, and their stores. */
static char **folders;
static struct file *stores;
static size_t folder_count;

/* For each item the greatest of the records that the old replicas have. */
struct winner {
    const uint8_t *record;
    size_t of;   /* the first of the old replicas that has it */
    int is_only; /* whether no other one has this version */
};
static struct winner *winners;
static size_t winner_count, live_count;

/* ---- reading */

/* Finds which file the store is that a name stands for. Whether there is one. */
static int find_store(const char *name, struct stat *about)
{
    struct path in_folder = inside(name, "store");
    return !is_standard(name) && stat(is_folder(name) ? in_folder.text : name, about) == 0;
}

/* Ends the program if two of the names, of which the first is the new folder, stand for one store. */
static void need_different(char **names)
{
    struct stat first, second;
    size_t at, other;
    for (at = 0; names[at]; at++)
        for (other = at + 1; names[other] && find_store(names[at], &first); other++)
            if (find_store(names[other], &second) && first.st_dev == second.st_dev && first.st_ino == second.st_ino)
                wrong_usage(at == 0 ? "%s and %s are the same: the new replica needs a folder of its own"
                                    : "%s and %s are the same store; give each one once", names[at], names[other]);
}

/* Reads the stores, also those that are held. */
static void load_stores(void)
{
    size_t at;
    stores = need_memory(malloc(folder_count * sizeof *stores));
    for (at = 0; at < folder_count; at++) {
        load(&stores[at], folders[at]);
        need_store(&stores[at]);
        add_ids(&stores[at]);
    }
}

/* Ends the program if the id of the new replica is one of an old one, or of one that they know edits of: ticks would be given twice. */
static void need_new_id(const uint8_t *id)
{
    size_t at;
    for (at = 0; at < folder_count; at++)
        if (memcmp(stores[at].bytes + SYNC_STORE_OWN, id, SYNC_REPLICA) == 0 || largest_tick(knowledge_of(&stores[at]), id) > 0)
            wrong_usage("--id: %s knows a replica with this id, and no two may ever have the same; give another one", folders[at]);
}

/*
 * Reads the names of all old replicas. What was seen is as the first of them says, for its directory is the one that the new replica goes
 * on with: of what only the others have seen there may be nothing in it yet, and so nothing that could be gone.
 */
static void load_old_names(void)
{
    size_t at;
    for (at = 1; at < folder_count; at++)
        load_names_of(folders[at]);
    forget_seen();
    if (is_folder(folders[0])) {
        struct folder first = open_folder(folders[0]);
        need_names(&first);
        close_folder(&first);
    }
}

/* ---- the greatest versions */

/* By item, the greatest version first, and of equal ones that of the replica that was given first. */
static int by_version(const void *one, const void *another)
{
    const struct winner *first = one, *second = another;
    int order = memcmp(first->record + SYNC_RECORD_ITEM, second->record + SYNC_RECORD_ITEM, SYNC_ITEM);
    if (order == 0)
        order = is_greater(second->record, first->record) - is_greater(first->record, second->record);
    return order != 0 ? order : first->of < second->of ? -1 : first->of > second->of;
}

/* All records of all old replicas. */
static void collect_records(void)
{
    size_t at, place, total = 0;
    for (at = 0; at < folder_count; at++)
        total += records_of(&stores[at]).n / SYNC_RECORD_LENGTH;
    winners = need_memory(malloc((total + 1) * sizeof *winners));
    for (at = 0; at < folder_count; at++) {
        struct part table = records_of(&stores[at]);
        for (place = 0; place + SYNC_RECORD_LENGTH <= table.n; place += SYNC_RECORD_LENGTH, winner_count++) {
            winners[winner_count].record = table.bytes + place;
            winners[winner_count].of = at;
            winners[winner_count].is_only = 1;
        }
    }
    if (winner_count > 0)
        qsort(winners, winner_count, sizeof *winners, by_version);
}

/* Says that two old replicas have unlike records under one version, which cannot be unless ticks were given twice. */
static void warn_unlike(const struct winner *winner, const struct winner *other)
{
    char text[ID_TEXT];
    warn(folders[other->of], "holds another record of item %s than %s, under the same version: a store was put back from a copy, or an id "
         "was used twice; that of %s is taken", id_text(&items, winner->record + SYNC_RECORD_ITEM, text), folders[winner->of],
         folders[winner->of]);
}

/* Keeps the greatest record of each item. */
static void keep_greatest(void)
{
    size_t at, kept = 0;
    for (at = 0; at < winner_count; at++) {
        struct winner *last = kept > 0 ? &winners[kept - 1] : NULL;
        if (!last || memcmp(last->record + SYNC_RECORD_ITEM, winners[at].record + SYNC_RECORD_ITEM, SYNC_ITEM) != 0) {
            winners[kept++] = winners[at];
        } else if (!is_greater(last->record, winners[at].record)) {
            last->is_only = 0;
            if (memcmp(last->record, winners[at].record, SYNC_RECORD_LENGTH) != 0)
                warn_unlike(last, &winners[at]);
        }
    }
    winner_count = kept;
    for (at = 0; at < winner_count; at++)
        live_count += (size_t)is_live(winners[at].record);
}

/* Edits the live items into the new store. */
static void edit_all(struct draft *draft)
{
    size_t at;
    if (live_count > NAMES_MOST) {
        warn(draft->now->name, "%d: the old replicas hold %zu live items together, and a store has room for %d; nothing is written\n"
             "  Delete items in one of the old replicas and renew again, or put some of the old replicas' items into another folder.",
             SYNC_OVER_RECORDS, live_count, NAMES_MOST);
        exit(STATUS_REFUSED);
    }
    for (at = 0; at < winner_count; at++) {
        const uint8_t *record = winners[at].record;
        uint32_t number = is_live(winners[at].record) ? change(draft, record + SYNC_RECORD_ITEM, record + SYNC_RECORD_TAG) : 0;
        if (number != 0)
            refused(draft->now->name, number, NULL);
    }
}

/* ---- what is said */

/* The next item, from a place on, whose greatest version only one old replica has, or null; moves the place behind it. */
static const struct winner *next_only(size_t folder, size_t *at)
{
    while (*at < winner_count) {
        const struct winner *winner = &winners[(*at)++];
        if (winner->is_only && winner->of == folder)
            return winner;
    }
    return NULL;
}

static void say_only_in(size_t folder)
{
    char text[ID_TEXT];
    const struct winner *winner;
    size_t at = 0, count = 0;
    while (next_only(folder, &at))
        count++;
    if (count == 0)
        printf("%s had nothing that the others lacked\n", folders[folder]);
    else
        printf("only %s had the greatest version of %zu %s:\n", folders[folder], count, count == 1 ? "item" : "items");
    for (at = 0; (winner = next_only(folder, &at));) {
        const char *name = name_of(winner->record + SYNC_RECORD_ITEM);
        printf("  item %s", id_text(&items, winner->record + SYNC_RECORD_ITEM, text));
        if (name)
            printf(" (%s)", printable(name));
        puts(is_live(winner->record) ? "" : ", deleted");
    }
}

static void say_renewed(const struct file *new)
{
    char text[ID_TEXT];
    size_t at;
    id_text(&replicas, new->bytes + SYNC_STORE_OWN, text);
    if (!options.id)
        all_digits(new->bytes + SYNC_STORE_OWN, SYNC_REPLICA, text);
    printf("%s is replica %s: ", new->name, text);
    show_count(live_count, "item, ", "items, ");
    show_count(winner_count - live_count, "deleted item is left out\n", "deleted items are left out\n");
    for (at = 0; at < folder_count; at++)
        say_only_in(at);
    puts("From now on the old replicas must not be asked, made from or edited. Let new replicas on the other servers take batches\n"
         "from the new one.");
}

static void json_only_in(size_t folder)
{
    const struct winner *winner;
    size_t at = 0;
    json_open(NULL, '{');
    json_text("folder", folders[folder]);
    json_open("items", '[');
    while ((winner = next_only(folder, &at))) {
        const char *name = name_of(winner->record + SYNC_RECORD_ITEM);
        json_open(NULL, '{');
        json_digits("item", winner->record + SYNC_RECORD_ITEM, SYNC_ITEM);
        if (name)
            json_text("name", name);
        json_text("state", is_live(winner->record) ? "live" : "deleted");
        json_close('}');
    }
    json_close(']');
    json_close('}');
}

static void json_renewed(const struct file *new)
{
    size_t at;
    json_open(NULL, '{');
    json_text("folder", new->name);
    json_digits("replica", new->bytes + SYNC_STORE_OWN, SYNC_REPLICA);
    json_number("items", live_count);
    json_number("deleted_left_out", winner_count - live_count);
    json_open("only_in", '[');
    for (at = 0; at < folder_count; at++)
        json_only_in(at);
    json_close(']');
    json_close('}');
    json_end();
}

/* The new store does not know what was deleted, so a file of such an item that is still in the directory would be a new item. */
static void warn_deleted(const char *folder)
{
    size_t at;
    for (at = 0; at < winner_count; at++) {
        const struct name *name = is_live(winners[at].record) ? NULL : find_name(winners[at].record + SYNC_RECORD_ITEM);
        if (name && name->is_seen)
            warn(folder, "warning: %s is deleted, and was in the directory of %s at its last scan: remove it there before the next one",
                 printable(name->text), folders[0]);
    }
}

/* Writes the new folder: the replica, and the names of its items. */
static void write_folder(const struct file *new)
{
    static struct replacement names;
    struct folder folder;
    save_new(new->name, new);
    folder = open_folder(new->name);
    if (prepare_names(&names, &folder, new))
        finish(&names, "the new replica has no names of its items");
    close_folder(&folder);
}

int command_renew(char **arguments)
{
    struct draft draft = {&store, &spare};
    folders = arguments + 1;
    while (folders[folder_count])
        folder_count++;
    begin_store(&store, arguments[0], options.id);
    need_different(arguments);
    load_stores();
    need_new_id(store.bytes + SYNC_STORE_OWN);
    load_old_names();
    collect_records();
    keep_greatest();
    edit_all(&draft);
    write_folder(draft.now);
    add_ids(draft.now);
    if (options.json)
        json_renewed(draft.now);
    else
        say_renewed(draft.now);
    warn_deleted(draft.now->name);
    warn_limits(draft.now);
    return 0;
}
