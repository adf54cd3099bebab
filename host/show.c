#include "show.h"

#include <inttypes.h>
#include <stdio.h>
#include <string.h>

#include "ids.h"
#include "json.h"
#include "names.h"
#include "sync_format.h"

/* A table of text cells, with columns as wide as their widest cell. */
enum { CELL = ID_TEXT + 208, COLUMNS = 17, ROWS = 257 };
static char cells[ROWS][COLUMNS][CELL];

/* Prints the first rows and columns; the columns from the given one on stand to the right, as numbers do. */
static void print_table(int rows, int columns, int right)
{
    int widths[COLUMNS] = {0}, row, column;
    for (row = 0; row < rows; row++)
        for (column = 0; column < columns; column++)
            if ((int)strlen(cells[row][column]) > widths[column])
                widths[column] = (int)strlen(cells[row][column]);
    if (right == columns)
        widths[columns - 1] = 0; /* no blanks at the end of a line */
    for (row = 0; row < rows; row++) {
        for (column = 0; column < columns; column++)
            printf(column < right ? "  %-*s" : "  %*s", widths[column], cells[row][column]);
        putchar('\n');
    }
}

static void put_tick(char *cell, uint64_t tick)
{
    if (tick > 0)
        snprintf(cell, CELL, "%" PRIu64, tick);
    else
        strcpy(cell, "-");
}

void show_count(uint64_t count, const char *one, const char *many)
{
    printf("%" PRIu64 " %s", count, count == 1 ? one : many);
}

struct part records_of(const struct file *file)
{
    struct part part;
    size_t at = kind_of(file) == STORE
        ? SYNC_STORE_KNOWLEDGE + (size_t)sync_number_at(file->bytes + SYNC_STORE_KNOWLEDGE_LENGTH, 4)
        : SYNC_BATCH_NEEDED + (size_t)sync_number_at(file->bytes + SYNC_BATCH_NEEDED_LENGTH, 4) +
            (size_t)sync_number_at(file->bytes + SYNC_BATCH_LEARNED_LENGTH, 4);
    part.bytes = file->bytes + at;
    part.n = file->n - at;
    return part;
}

/* The record at a place of a table, or null; moves the place behind it. */
static const uint8_t *next_record(struct part table, uint64_t *at)
{
    uint64_t length, here = *at;
    if (sync_walk(table.bytes, table.n, here, &length) != 0 || length == 0)
        return NULL;
    *at += length;
    return table.bytes + here;
}

const uint8_t *find_record(struct part table, const uint8_t *item)
{
    uint64_t at = 0;
    const uint8_t *record;
    while ((record = next_record(table, &at)))
        if (memcmp(record + SYNC_RECORD_ITEM, item, SYNC_ITEM) == 0)
            return record;
    return NULL;
}

/* The sizes of a knowledge that is valid: r, v, e and g. */
struct sizes {
    uint64_t of[4];
};

static struct sizes sizes_of(struct part knowledge)
{
    struct sizes sizes = {{0, 0, 0, 0}};
    sync_check(knowledge.bytes, knowledge.n, sizes.of);
    return sizes;
}

static struct part needed_of(const struct file *batch)
{
    struct part part = {batch->bytes + SYNC_BATCH_NEEDED, (size_t)sync_number_at(batch->bytes + SYNC_BATCH_NEEDED_LENGTH, 4)};
    return part;
}

static void add_knowledge(struct part knowledge)
{
    struct sizes sizes = sizes_of(knowledge);
    uint64_t at;
    for (at = 0; at < sizes.of[0]; at++)
        add_id(&replicas, knowledge.bytes + SYNC_KNOWLEDGE_REPLICAS + SYNC_REPLICA * at);
    for (at = 0; at < sizes.of[3]; at++)
        add_id(&items, knowledge.bytes + sync_ranges_at(sizes.of) + SYNC_RANGE_LENGTH * at);
}

static void add_records(struct part table)
{
    uint64_t at = 0;
    const uint8_t *record;
    while ((record = next_record(table, &at))) {
        add_id(&items, record + SYNC_RECORD_ITEM);
        add_id(&replicas, record + SYNC_RECORD_CHANGE);
        add_id(&replicas, record + SYNC_RECORD_CREATE);
    }
}

void add_ids(const struct file *file)
{
    enum kind kind = kind_of(file);
    add_knowledge(knowledge_of(file));
    if (kind == STORE)
        add_id(&replicas, file->bytes + SYNC_STORE_OWN);
    if (kind == BATCH) {
        add_knowledge(needed_of(file));
        add_id(&items, file->bytes + SYNC_BATCH_FIRST);
        add_id(&items, file->bytes + SYNC_BATCH_LAST);
    }
    if (kind != KNOWLEDGE)
        add_records(records_of(file));
}

/* Whether a knowledge is as the engine would write it. */
static int is_normal(struct part knowledge)
{
    static uint8_t normal[SYNC_LARGEST_KNOWLEDGE];
    uint64_t written;
    return sync_normalise(knowledge.bytes, knowledge.n, normal, sizeof normal, &written) == 0 && written == knowledge.n &&
        memcmp(normal, knowledge.bytes, knowledge.n) == 0;
}

void show_kind(const struct file *file)
{
    char first[ID_TEXT], last[ID_TEXT];
    enum kind kind = kind_of(file);
    if (kind == KNOWLEDGE) {
        struct part knowledge = knowledge_of(file);
        struct sizes sizes = sizes_of(knowledge);
        printf("knowledge, %zu bytes: ", file->n);
        show_count(sizes.of[0], "replica, ", "replicas, ");
        show_count(sizes.of[1], "clock vector, ", "clock vectors, ");
        show_count(sizes.of[2], "element, ", "elements, ");
        show_count(sizes.of[3], "range", "ranges");
        printf("%s\n", is_normal(knowledge) ? "" : "; not in normal form");
    } else if (kind == STORE) {
        printf("store of replica %s, %zu bytes: ", id_text(&replicas, file->bytes + SYNC_STORE_OWN, first), file->n);
        show_count(records_of(file).n / SYNC_RECORD_LENGTH, "record\n", "records\n");
    } else {
        printf("batch for items %s to %s, %zu bytes: ", id_text(&items, file->bytes + SYNC_BATCH_FIRST, first),
               id_text(&items, file->bytes + SYNC_BATCH_LAST, last), file->n);
        show_count(records_of(file).n / SYNC_RECORD_LENGTH, "record\n", "records\n");
    }
}

/* A line for each range with the ticks that are known from its item on, a column for each replica. */
static void show_ticks(struct part knowledge)
{
    struct sizes sizes = sizes_of(knowledge);
    int r = (int)sizes.of[0], g = (int)sizes.of[3], row, column;
    if (sizes.of[2] == 0) {
        puts("  nothing");
        return;
    }
    strcpy(cells[0][0], "from item");
    for (row = 1; row <= g; row++)
        id_text(&items, knowledge.bytes + sync_ranges_at(sizes.of) + SYNC_RANGE_LENGTH * (row - 1), cells[row][0]);
    for (column = 1; column <= r; column++) {
        const uint8_t *replica = knowledge.bytes + SYNC_KNOWLEDGE_REPLICAS + SYNC_REPLICA * (column - 1);
        id_text(&replicas, replica, cells[0][column]);
        for (row = 1; row <= g; row++)
            put_tick(cells[row][column],
                     known_tick(knowledge, knowledge.bytes + sync_ranges_at(sizes.of) + SYNC_RANGE_LENGTH * (row - 1), replica));
    }
    print_table(1 + g, 1 + r, 1);
}

/* The name of an item, cut to a cell, with other signs for those that would change the lines. */
static void put_item_name(char *cell, const uint8_t *item)
{
    const char *name = name_of(item);
    snprintf(cell, CELL, "%s", name ? printable(name) : "-");
}

static void put_version(char *cell, const uint8_t *version)
{
    char text[ID_TEXT];
    snprintf(cell, CELL, "%s %" PRIu64, id_text(&replicas, version, text), sync_number_at(version + SYNC_VERSION_TICK, 8));
}

/* Whether one of the records has a name. */
static int has_names(struct part table)
{
    uint64_t at = 0;
    const uint8_t *record;
    while ((record = next_record(table, &at)))
        if (name_of(record + SYNC_RECORD_ITEM))
            return 1;
    return 0;
}

static void show_records(struct part table)
{
    static const char *const titles[] = {"item", "state", "changed", "created", "tag", "name"};
    const int columns = has_names(table) ? 6 : 5;
    int row, column;
    uint64_t at = 0;
    const uint8_t *record;
    for (column = 0; column < columns; column++)
        strcpy(cells[0][column], titles[column]);
    for (row = 1; row < ROWS && (record = next_record(table, &at)); row++) {
        int live = record[0] == SYNC_KIND_LIVE;
        id_text(&items, record + SYNC_RECORD_ITEM, cells[row][0]);
        strcpy(cells[row][1], live ? "live" : "deleted");
        put_version(cells[row][2], record + SYNC_RECORD_CHANGE);
        put_version(cells[row][3], record + SYNC_RECORD_CREATE);
        strcpy(cells[row][4], "-");
        if (live)
            tag_text(record + SYNC_RECORD_TAG, cells[row][4]);
        if (columns == 6)
            put_item_name(cells[row][5], record + SYNC_RECORD_ITEM);
    }
    print_table(row, columns, columns);
}

void show(const struct file *file)
{
    enum kind kind = kind_of(file);
    struct part table;
    show_kind(file);
    if (kind == BATCH) {
        puts("for a replica that knows at least, in these items:");
        show_ticks(needed_of(file));
    }
    puts(kind == BATCH ? "it then also knows:" : "knows, from each item on, the edits of each replica up to this tick:");
    show_ticks(knowledge_of(file));
    if (kind == KNOWLEDGE)
        return;
    table = records_of(file);
    puts(kind == STORE ? "holds:" : "carries:");
    if (table.n > 0)
        show_records(table);
    else
        puts("  nothing");
}

void show_list(struct part table)
{
    uint64_t at = 0;
    const uint8_t *record;
    char item[ID_TEXT], tag[ID_TEXT];
    full_ids = 1;
    while ((record = next_record(table, &at))) {
        const char *name = name_of(record + SYNC_RECORD_ITEM);
        if (record[0] == SYNC_KIND_LIVE)
            printf("%s %s%s%s\n", id_text(&items, record + SYNC_RECORD_ITEM, item), tag_text(record + SYNC_RECORD_TAG, tag),
                   name ? " " : "", name ? name : "");
    }
}

void show_record(const uint8_t *record)
{
    char text[ID_TEXT];
    printf("%s, changed by %s at tick %" PRIu64, record[0] == SYNC_KIND_LIVE ? "live" : "deleted",
           id_text(&replicas, record + SYNC_RECORD_CHANGE, text), sync_number_at(record + SYNC_RECORD_CHANGE + SYNC_VERSION_TICK, 8));
    printf(", created by %s at tick %" PRIu64, id_text(&replicas, record + SYNC_RECORD_CREATE, text),
           sync_number_at(record + SYNC_RECORD_CREATE + SYNC_VERSION_TICK, 8));
    if (record[0] == SYNC_KIND_LIVE)
        printf(", tag %s", tag_text(record + SYNC_RECORD_TAG, text));
}

static void json_version(const char *name, const uint8_t *version)
{
    json_open(name, '{');
    json_digits("replica", version, SYNC_REPLICA);
    json_number("tick", sync_number_at(version + SYNC_VERSION_TICK, 8));
    json_close('}');
}

void json_record(const uint8_t *record)
{
    const char *name = name_of(record + SYNC_RECORD_ITEM);
    json_digits("item", record + SYNC_RECORD_ITEM, SYNC_ITEM);
    if (name)
        json_text("name", name);
    json_text("state", record[0] == SYNC_KIND_LIVE ? "live" : "deleted");
    json_version("changed", record + SYNC_RECORD_CHANGE);
    json_version("created", record + SYNC_RECORD_CREATE);
    if (record[0] == SYNC_KIND_LIVE)
        json_digits("tag", record + SYNC_RECORD_TAG, SYNC_TAG);
}

/* The ticks from each range's item on, of each replica that has one there. */
static void json_ticks(const char *name, struct part knowledge)
{
    struct sizes sizes = sizes_of(knowledge);
    uint64_t row, column, tick;
    char text[ID_TEXT];
    json_open(name, '[');
    for (row = 0; row < sizes.of[3]; row++) {
        const uint8_t *item = knowledge.bytes + sync_ranges_at(sizes.of) + SYNC_RANGE_LENGTH * row;
        json_open(NULL, '{');
        json_digits("from", item, SYNC_ITEM);
        json_open("ticks", '{');
        for (column = 0; column < sizes.of[0]; column++) {
            const uint8_t *replica = knowledge.bytes + SYNC_KNOWLEDGE_REPLICAS + SYNC_REPLICA * column;
            tick = known_tick(knowledge, item, replica);
            all_digits(replica, SYNC_REPLICA, text);
            if (tick > 0)
                json_number(text, tick);
        }
        json_close('}');
        json_close('}');
    }
    json_close(']');
}

void json_kind(const struct file *file)
{
    enum kind kind = kind_of(file);
    struct sizes sizes = sizes_of(knowledge_of(file));
    json_text("file", file->name);
    json_text("kind", kind_names[kind]);
    json_text("form", form_names[file->form]);
    json_number("bytes", file->n);
    json_number("replicas", sizes.of[0]);
    json_number("ranges", sizes.of[3]);
    if (kind == KNOWLEDGE)
        json_truth("normal_form", is_normal(knowledge_of(file)));
    if (kind == STORE)
        json_digits("replica", file->bytes + SYNC_STORE_OWN, SYNC_REPLICA);
    if (kind == BATCH) {
        json_digits("first", file->bytes + SYNC_BATCH_FIRST, SYNC_ITEM);
        json_digits("last", file->bytes + SYNC_BATCH_LAST, SYNC_ITEM);
    }
}

void json_show(const struct file *file)
{
    enum kind kind = kind_of(file);
    struct part table;
    uint64_t at = 0;
    const uint8_t *record;
    json_kind(file);
    if (kind == BATCH)
        json_ticks("needs", needed_of(file));
    json_ticks("knows", knowledge_of(file));
    if (kind == KNOWLEDGE)
        return;
    table = records_of(file);
    json_open("records", '[');
    while ((record = next_record(table, &at))) {
        json_open(NULL, '{');
        json_record(record);
        json_close('}');
    }
    json_close(']');
}
