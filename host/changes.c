#include <inttypes.h>
#include <stdio.h>
#include <string.h>

#include "changes.h"
#include "ids.h"
#include "json.h"
#include "names.h"
#include "show.h"
#include "sync_format.h"

const char *const change_names[] = {
    [CHANGE_NEW] = "new", [CHANGE_CHANGED] = "changed", [CHANGE_DELETED] = "deleted", [CHANGE_LOST] = "lost"};

static void add(struct changes *changes, enum change_kind kind, const uint8_t *record)
{
    if (changes->count < sizeof changes->of / sizeof *changes->of) {
        changes->of[changes->count].kind = kind;
        changes->of[changes->count++].record = record;
    }
}

int is_live(const uint8_t *record)
{
    return record && record[0] == SYNC_KIND_LIVE;
}

/* Whether a knowledge contains the version that a record was changed with. */
static int contains(struct part knowledge, const uint8_t *record)
{
    uint32_t contained = 0;
    return sync_contain(knowledge.bytes, knowledge.n, record + SYNC_RECORD_ITEM, SYNC_ITEM, record + SYNC_RECORD_CHANGE, SYNC_REPLICA,
                        sync_number_at(record + SYNC_RECORD_CHANGE + SYNC_VERSION_TICK, 8), &contained) == 0 && contained;
}

int is_greater(const uint8_t *first, const uint8_t *second)
{
    int ticks = memcmp(first + SYNC_RECORD_CHANGE + SYNC_VERSION_TICK, second + SYNC_RECORD_CHANGE + SYNC_VERSION_TICK, 8);
    return (ticks != 0 ? ticks : memcmp(first + SYNC_RECORD_CHANGE, second + SYNC_RECORD_CHANGE, SYNC_REPLICA)) > 0;
}

/* What one record of the batch comes to. */
static void find_change(struct changes *changes, const struct file *store, const struct file *batch, const uint8_t *record)
{
    const uint8_t *old = find_record(records_of(store), record + SYNC_RECORD_ITEM);
    if (!old || is_greater(record, old)) {
        if (old && !contains(knowledge_of(batch), old))
            add(changes, CHANGE_LOST, old);
        add(changes, !is_live(record) ? CHANGE_DELETED : is_live(old) ? CHANGE_CHANGED : CHANGE_NEW, record);
    } else if (is_greater(old, record) && !contains(knowledge_of(store), record)) {
        add(changes, CHANGE_LOST, record);
    }
}

void find_changes(struct changes *changes, const struct file *store, const struct file *batch)
{
    struct part table = records_of(batch);
    size_t at;
    changes->count = 0;
    for (at = 0; at + SYNC_RECORD_LENGTH <= table.n; at += SYNC_RECORD_LENGTH)
        find_change(changes, store, batch, table.bytes + at);
}

size_t changed_records(const struct changes *changes)
{
    size_t at, count = 0;
    for (at = 0; at < changes->count; at++)
        count += changes->of[at].kind != CHANGE_LOST;
    return count;
}

static void print_digits(FILE *out, const uint8_t *bytes, size_t n)
{
    char text[ID_TEXT];
    all_digits(bytes, n, text);
    fprintf(out, " %s", text);
}

void print_changes(FILE *out, const struct changes *changes)
{
    size_t at;
    for (at = 0; at < changes->count; at++) {
        const uint8_t *record = changes->of[at].record;
        const char *name = name_of(record + SYNC_RECORD_ITEM);
        fputs(change_names[changes->of[at].kind], out);
        print_digits(out, record + SYNC_RECORD_ITEM, SYNC_ITEM);
        if (is_live(record))
            print_digits(out, record + SYNC_RECORD_TAG, SYNC_TAG);
        else
            fputs(" -", out);
        print_digits(out, record + SYNC_RECORD_CHANGE, SYNC_REPLICA);
        fprintf(out, " %" PRIu64 "%s%s\n", sync_number_at(record + SYNC_RECORD_CHANGE + SYNC_VERSION_TICK, 8), name ? " " : "",
                name ? name : "");
    }
}

void json_changes(const struct changes *changes)
{
    size_t at;
    json_open("changes", '[');
    for (at = 0; at < changes->count; at++) {
        json_open(NULL, '{');
        json_text("change", change_names[changes->of[at].kind]);
        json_record(changes->of[at].record);
        json_close('}');
    }
    json_close(']');
}
