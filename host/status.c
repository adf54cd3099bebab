#include "status.h"

#include <inttypes.h>
#include <stdio.h>
#include <string.h>

#include "commands.h"
#include "json.h"
#include "messages.h"
#include "options.h"
#include "show.h"
#include "sync_format.h"

#define LAST_TICK_EVER INT64_MAX

/* What a store has of something, and how much it may have. */
struct limit {
    const char *what, *many;
    uint64_t count, most;
    const char *way_out;
};

enum { RECORDS, REPLICAS, RANGES, TICK, LIMITS };

struct figures {
    struct limit limits[LIMITS];
    uint64_t live, deleted, own;
};

static struct figures figures_of(const struct file *store)
{
    struct part knowledge = knowledge_of(store), table = records_of(store);
    struct figures figures = {{{"records", "records", 0, 256, "collector renew leaves deleted items out"},
                               {"replicas", "replicas that have edited", 0, 16, "let no further server edit; collector renew begins again"},
                               {"ranges", "ranges", 0, 64, "take batches over all items, which join ranges"},
                               {"largest tick", "ticks", 0, LAST_TICK_EVER, "collector renew begins again"}},
                              0, 0, own_tick(store)};
    uint64_t sizes[4] = {0}, at, tick;
    sync_check(knowledge.bytes, knowledge.n, sizes);
    for (at = 0; at + SYNC_RECORD_LENGTH <= table.n; at += SYNC_RECORD_LENGTH)
        if (table.bytes[at] == SYNC_KIND_LIVE)
            figures.live++;
        else
            figures.deleted++;
    figures.limits[RECORDS].count = figures.live + figures.deleted;
    figures.limits[REPLICAS].count = sizes[0];
    figures.limits[RANGES].count = sizes[3];
    for (at = 0; at < sizes[0]; at++) {
        tick = largest_tick(knowledge, knowledge.bytes + SYNC_KNOWLEDGE_REPLICAS + SYNC_REPLICA * at);
        if (tick > figures.limits[TICK].count)
            figures.limits[TICK].count = tick;
    }
    return figures;
}

/* From four fifths on. */
static int is_near(const struct limit *limit)
{
    return limit->count >= limit->most - limit->most / 5;
}

/* The warning of a limit, in words. */
static const char *words(const struct limit *limit)
{
    static char text[200];
    snprintf(text, sizeof text, "%" PRIu64 " of at most %" PRIu64 " %s: %s", limit->count, limit->most, limit->many, limit->way_out);
    return text;
}

void warn_limits(const struct file *store)
{
    struct figures figures = figures_of(store);
    size_t at;
    for (at = 0; at < LIMITS; at++)
        if (is_near(&figures.limits[at]))
            warn(store->name, "warning: %s", words(&figures.limits[at]));
}

/* That the folder is held, in words, or null. */
static const char *held_words(const struct replica *replica, const struct file *store)
{
    static char text[160];
    if (is_latest(&replica->last, store))
        return NULL;
    if (!replica->last.is_there || memcmp(replica->last.own, store->bytes + SYNC_STORE_OWN, SYNC_REPLICA) != 0)
        return "the store was put here from elsewhere; it is only read";
    snprintf(text, sizeof text, "held: its own tick is %" PRIu64 ", and this replica has given ticks up to %" PRIu64
             "; it is only read", own_tick(store), replica->last.tick);
    return text;
}

static void json_status(const struct file *store, const struct figures *figures, const char *held)
{
    size_t at;
    json_open(NULL, '{');
    json_text("folder", store->name);
    json_digits("replica", store->bytes + SYNC_STORE_OWN, SYNC_REPLICA);
    for (at = 0; at < TICK; at++) {
        json_open(figures->limits[at].what, '{');
        json_number("count", figures->limits[at].count);
        json_number("most", figures->limits[at].most);
        json_close('}');
    }
    json_number("live", figures->live);
    json_number("deleted", figures->deleted);
    json_number("own_tick", figures->own);
    json_number("largest_tick", figures->limits[TICK].count);
    json_text("form", form_names[store->form]);
    json_number("bytes", store->n);
    json_truth("held", held != NULL);
    json_open("warnings", '[');
    if (held)
        json_text(NULL, held);
    for (at = 0; at < LIMITS; at++)
        if (is_near(&figures->limits[at]))
            json_text(NULL, words(&figures->limits[at]));
    json_close(']');
    json_close('}');
    json_end();
}

static void say_status(const struct file *store, const struct figures *figures, const char *held)
{
    char text[ID_TEXT];
    size_t at;
    printf("%s is replica %s\n", store->name, id_text(&replicas, store->bytes + SYNC_STORE_OWN, text));
    printf("  records       %" PRIu64 " of %" PRIu64 ": %" PRIu64 " live, %" PRIu64 " deleted\n", figures->limits[RECORDS].count,
           figures->limits[RECORDS].most, figures->live, figures->deleted);
    printf("  replicas      %" PRIu64 " of %" PRIu64 "\n", figures->limits[REPLICAS].count, figures->limits[REPLICAS].most);
    printf("  ranges        %" PRIu64 " of %" PRIu64 "\n", figures->limits[RANGES].count, figures->limits[RANGES].most);
    printf("  own tick      %" PRIu64 "\n", figures->own);
    printf("  largest tick  %" PRIu64 " of %" PRIu64 "\n", figures->limits[TICK].count, figures->limits[TICK].most);
    printf("  file          %s, %zu bytes\n", form_names[store->form], store->n);
    if (held)
        printf("warning: %s\n", held);
    for (at = 0; at < LIMITS; at++)
        if (is_near(&figures->limits[at]))
            printf("warning: %s\n", words(&figures->limits[at]));
}

int command_status(char **arguments)
{
    static struct replica replica;
    static struct file store;
    struct figures figures;
    const char *held;
    size_t at;
    int near;
    refusals_are_trouble = 1;
    open_replica(&replica, arguments[0]);
    read_store(&replica, &store);
    need_store(&store);
    add_ids(&store);
    figures = figures_of(&store);
    held = held_words(&replica, &store);
    near = held != NULL;
    if (options.json)
        json_status(&store, &figures, held);
    else
        say_status(&store, &figures, held);
    for (at = 0; at < LIMITS; at++)
        near |= is_near(&figures.limits[at]);
    return near ? STATUS_NO : 0;
}
