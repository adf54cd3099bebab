/* The commands that answer a question and change nothing. */

#include <inttypes.h>
#include <stdio.h>
#include <string.h>

#include "commands.h"
#include "json.h"
#include "messages.h"
#include "names.h"
#include "options.h"
#include "replica.h"
#include "show.h"
#include "sync_format.h"

static struct file store, other, after;

/* Reads a file, and the names of its items if it is a folder's store. */
static void load_with_names(struct file *file, const char *name)
{
    load_names_of(name);
    load(file, name);
}

/* ---- check, show */

/* What check says of a file that is not valid. */
static int say_not_valid(uint32_t number)
{
    enum kind kind = kind_of(&store);
    if (!options.json)
        refused(store.name, number, kind == KNOWLEDGE ? NULL : fault_of(&store, kind));
    json_open(NULL, '{');
    json_text("file", store.name);
    json_truth("valid", 0);
    json_number("number", number);
    json_text("reason", words_of(number));
    json_close('}');
    json_end();
    return STATUS_NO;
}

int command_check(char **arguments)
{
    struct replica replica;
    uint32_t number;
    int folder = is_folder(arguments[0]);
    if (folder) {
        open_replica(&replica, arguments[0]);
        read_store(&replica, &store);
    } else {
        load(&store, arguments[0]);
    }
    number = number_of(&store);
    if (number != 0)
        return say_not_valid(number);
    add_ids(&store);
    if (folder)
        need_latest(&replica, &store);
    if (!options.json) {
        printf("%s: valid ", store.name);
        show_kind(&store);
        return 0;
    }
    json_open(NULL, '{');
    json_truth("valid", 1);
    json_kind(&store);
    json_close('}');
    json_end();
    return 0;
}

int command_show(char **arguments)
{
    load_with_names(&store, arguments[0]);
    knowledge_of(&store);
    add_ids(&store);
    if (options.list && kind_of(&store) == KNOWLEDGE)
        wrong_usage("%s: a knowledge has no items to list", store.name);
    if (options.list) {
        show_list(records_of(&store));
    } else if (options.json) {
        json_open(NULL, '{');
        json_show(&store);
        json_close('}');
        json_end();
    } else {
        show(&store);
    }
    return 0;
}

/* ---- why */

/* What a store knows of an item: the ticks of all replicas that it knows. */
static void say_known(const uint8_t *item)
{
    struct part own = knowledge_of(&store);
    uint64_t sizes[4] = {0}, at;
    char text[ID_TEXT];
    sync_check(own.bytes, own.n, sizes);
    printf("  knows   ");
    for (at = 0; at < sizes[0]; at++) {
        const uint8_t *replica = own.bytes + SYNC_KNOWLEDGE_REPLICAS + SYNC_REPLICA * at;
        uint64_t tick = known_tick(own, item, replica);
        printf(tick > 0 ? "%s%s's edits to tick %" PRIu64 : "%snone of %s's edits", at > 0 ? ", " : "",
               id_text(&replicas, replica, text), tick);
    }
    puts(sizes[0] == 0 ? "no edit of any replica" : "");
}

static void json_known(const uint8_t *item)
{
    struct part own = knowledge_of(&store);
    uint64_t sizes[4] = {0}, at;
    char text[ID_TEXT];
    sync_check(own.bytes, own.n, sizes);
    json_open("knows", '{');
    for (at = 0; at < sizes[0]; at++) {
        const uint8_t *replica = own.bytes + SYNC_KNOWLEDGE_REPLICAS + SYNC_REPLICA * at;
        all_digits(replica, SYNC_REPLICA, text);
        json_number(text, known_tick(own, item, replica));
    }
    json_close('}');
}

/* What apply would do with the batch: its number, why it would refuse, or null, and the record that the item would have. */
struct outcome {
    uint32_t number, side;
    const char *words;
    const uint8_t *record;
};

static struct outcome outcome_of(int is_held, const uint8_t *item)
{
    struct outcome outcome = {0, 0, NULL, NULL};
    uint64_t written, at = 0, length = 0;
    if (is_held) {
        outcome.words = "the folder is held, because its store is not the one that was written last";
        return outcome;
    }
    outcome.number = sync_apply(store.bytes, store.n, other.bytes, other.n, after.bytes, sizeof after.bytes, &written);
    if (outcome.number != 0)
        outcome.words = words_of(outcome.number);
    if (outcome.number == SYNC_NOT_COVERED && largest_tick(knowledge_of(&other), store.bytes + SYNC_STORE_OWN) > own_tick(&store))
        outcome.words = behind_words;
    if (outcome.number == 0)
        sync_winner(store.bytes, store.n, other.bytes, other.n, item, SYNC_ITEM, &outcome.side, &at, &length);
    outcome.record = outcome.side == 2 ? other.bytes + at : NULL;
    return outcome;
}

static void say_outcome(const struct outcome *outcome)
{
    printf("  %s ", other.name);
    if (outcome->number != 0) {
        printf("would be refused with %u: %s\n", (unsigned)outcome->number, outcome->words);
    } else if (outcome->words) {
        printf("would be refused: %s\n", outcome->words);
    } else if (outcome->side == 0) {
        puts("has nothing of it");
    } else if (outcome->side == 1) {
        puts("would leave it as it is");
    } else {
        printf("would make it ");
        show_record(outcome->record);
        putchar('\n');
    }
}

static void json_outcome(const struct outcome *outcome)
{
    static const char *const names[] = {"nothing", "leave", "change"};
    json_open("batch", '{');
    json_text("file", other.name);
    json_text("would", outcome->words ? "refuse" : names[outcome->side]);
    if (outcome->number != 0)
        json_number("number", outcome->number);
    if (outcome->words)
        json_text("reason", outcome->words);
    if (outcome->record) {
        json_open("record", '{');
        json_record(outcome->record);
        json_close('}');
    }
    json_close('}');
}

static void say_why(const uint8_t *item, const uint8_t *record, const struct outcome *outcome)
{
    char text[ID_TEXT], own[ID_TEXT];
    const char *name = name_of(item);
    printf("item %s", id_text(&items, item, text));
    if (name)
        printf(" (%s)", printable(name));
    printf(" on replica %s\n  holds   ", id_text(&replicas, store.bytes + SYNC_STORE_OWN, own));
    if (record)
        show_record(record);
    else
        printf("nothing");
    putchar('\n');
    say_known(item);
    puts(record ? "  because of all versions of the item that were ever made up to these ticks, this is the greatest by tick, then replica"
                : "  because no version of the item was ever made up to these ticks");
    if (outcome)
        say_outcome(outcome);
}

static void json_why(const uint8_t *item, const uint8_t *record, const struct outcome *outcome)
{
    json_open(NULL, '{');
    json_digits("item", item, SYNC_ITEM);
    if (name_of(item))
        json_text("name", name_of(item));
    json_digits("replica", store.bytes + SYNC_STORE_OWN, SYNC_REPLICA);
    if (record) {
        json_open("holds", '{');
        json_record(record);
        json_close('}');
    } else {
        json_null("holds");
    }
    json_known(item);
    if (outcome)
        json_outcome(outcome);
    json_close('}');
    json_end();
}

/* Reads the store of a folder, or a store that stands elsewhere. Whether it is not the one that was written last in its folder. */
static int load_and_look(const char *name)
{
    struct replica replica;
    int folder = is_folder(name);
    if (folder) {
        open_replica(&replica, name);
        load_names(&replica.folder);
        read_store(&replica, &store);
        close_folder(&replica.folder);
    } else {
        load(&store, name);
    }
    need_store(&store);
    return folder && !is_latest(&replica.last, &store);
}

int command_why(char **arguments)
{
    uint8_t item[SYNC_ITEM];
    struct outcome outcome = {0, 0, NULL, NULL};
    const uint8_t *record;
    int is_held;
    refusals_are_trouble = 1;
    need_id(&items, arguments[1]);
    is_held = load_and_look(arguments[0]);
    add_ids(&store);
    if (arguments[2]) {
        load(&other, arguments[2]);
        need_batch(&other);
        add_ids(&other);
    }
    read_id(&items, arguments[1], item);
    add_id(&items, item);
    record = find_record(records_of(&store), item);
    if (arguments[2])
        outcome = outcome_of(is_held, item);
    if (options.json)
        json_why(item, record, arguments[2] ? &outcome : NULL);
    else
        say_why(item, record, arguments[2] ? &outcome : NULL);
    return outcome.words ? STATUS_NO : 0;
}

/* ---- compare */

/* Whether the first knows at least as much as the second in a span. */
static uint32_t covers(struct part first, struct part second, const struct span *span)
{
    uint32_t answer = 0;
    uint32_t number = sync_cover(first.bytes, first.n, second.bytes, second.n, span->first, SYNC_ITEM, span->last, SYNC_ITEM, &answer);
    if (number == SYNC_ARGUMENT)
        wrong_usage("FIRST and LAST: %s", words_of(number));
    if (number != 0)
        refused("the comparison", number, NULL);
    return answer;
}

/* What two files were found to be: the order, what each lacks first, and the items that two stores hold unlike records of. */
struct comparison {
    uint32_t order;
    const uint8_t *lacks[2]; /* of the first and of the second, or null */
    int is_put_back[2];      /* the other knows later edits by its replica than it does */
    size_t unlike_count;
    const uint8_t *unlike[512];
};

/* Notes the items inside the span of which the first table has another record than the second, or of which only it has one. */
static void find_unlike(struct comparison *found, struct part first, struct part second, const struct span *span, int only_missing)
{
    size_t at;
    for (at = 0; at + SYNC_RECORD_LENGTH <= first.n; at += SYNC_RECORD_LENGTH) {
        const uint8_t *item = first.bytes + at + SYNC_RECORD_ITEM, *same = find_record(second, item);
        int differs = !same || (!only_missing && memcmp(same, first.bytes + at, SYNC_RECORD_LENGTH) != 0);
        if (differs && memcmp(span->first, item, SYNC_ITEM) <= 0 && memcmp(item, span->last, SYNC_ITEM) <= 0)
            found->unlike[found->unlike_count++] = item;
    }
}

/* Whether a file is a store, and others know later edits by its own replica than it does. */
static int is_put_back(const struct file *file, struct part others)
{
    return kind_of(file) == STORE && largest_tick(others, file->bytes + SYNC_STORE_OWN) > own_tick(file);
}

static void say_put_back(const struct file *file, const struct file *others)
{
    printf("  %s knows later edits by the replica of %s than %s does: it was put back from a copy, or two servers have one id;\n"
           "  do not edit %s\n", others->name, file->name, file->name, file->name);
}

static const char *const order_names[] = {
    [SYNC_ALIKE] = "alike", [SYNC_BEHIND] = "behind", [SYNC_AHEAD] = "ahead", [SYNC_APART] = "apart"};

static void say_order(uint32_t order)
{
    if (order == SYNC_ALIKE)
        printf("%s and %s know the same\n", store.name, other.name);
    else if (order == SYNC_APART)
        printf("%s and %s each know something that the other does not\n", store.name, other.name);
    else if (order == SYNC_AHEAD)
        printf("%s knows all that %s knows, and more\n", store.name, other.name);
    else
        printf("%s knows all that %s knows, and more\n", other.name, store.name);
}

/* Says what a file first lacks that the other one knows. */
static void say_lack(const struct file *file, const uint8_t *lack)
{
    int is_first = file == &store;
    uint64_t first = sync_number_at(lack + SYNC_LACK_FIRST_TICK, 8), second = sync_number_at(lack + SYNC_LACK_SECOND_TICK, 8);
    char item[ID_TEXT], replica[ID_TEXT];
    printf("  %s lacks first: item %s of replica %s, where it knows %" PRIu64 " and %s knows %" PRIu64 "\n", file->name,
           id_text(&items, lack + SYNC_LACK_ITEM, item), id_text(&replicas, lack + SYNC_LACK_REPLICA, replica), is_first ? first : second,
           is_first ? other.name : store.name, is_first ? second : first);
}

static void say_comparison(const struct comparison *found)
{
    char text[ID_TEXT];
    size_t at;
    add_ids(&store);
    add_ids(&other);
    say_order(found->order);
    if (found->lacks[0])
        say_lack(&store, found->lacks[0]);
    if (found->lacks[1])
        say_lack(&other, found->lacks[1]);
    if (found->is_put_back[0])
        say_put_back(&store, &other);
    if (found->is_put_back[1])
        say_put_back(&other, &store);
    if (found->unlike_count > 0)
        puts("BUT THEY HOLD UNLIKE RECORDS, which cannot be unless an assumption was broken: a store was put back from a copy, an id\n"
             "was used twice, or a file was changed. Edit neither; README, \"Never put a store back from a copy\", has the way out.");
    for (at = 0; at < found->unlike_count; at++) {
        const char *name = name_of(found->unlike[at]);
        printf("  item %s%s%s%s differs\n", id_text(&items, found->unlike[at], text), name ? " (" : "",
               name ? printable(name) : "", name ? ")" : "");
    }
}

static void json_lack(const struct file *file, const uint8_t *lack)
{
    json_open(NULL, '{');
    json_text("file", file->name);
    json_digits("item", lack + SYNC_LACK_ITEM, SYNC_ITEM);
    json_digits("replica", lack + SYNC_LACK_REPLICA, SYNC_REPLICA);
    json_number("first_knows", sync_number_at(lack + SYNC_LACK_FIRST_TICK, 8));
    json_number("second_knows", sync_number_at(lack + SYNC_LACK_SECOND_TICK, 8));
    json_close('}');
}

static void json_comparison(const struct comparison *found)
{
    size_t at;
    json_open(NULL, '{');
    json_text("first", store.name);
    json_text("second", other.name);
    json_text("order", order_names[found->order]);
    json_open("lacks", '[');
    if (found->lacks[0])
        json_lack(&store, found->lacks[0]);
    if (found->lacks[1])
        json_lack(&other, found->lacks[1]);
    json_close(']');
    json_open("put_back", '[');
    if (found->is_put_back[0])
        json_text(NULL, store.name);
    if (found->is_put_back[1])
        json_text(NULL, other.name);
    json_close(']');
    json_open("unlike", '[');
    for (at = 0; at < found->unlike_count; at++)
        json_digits(NULL, found->unlike[at], SYNC_ITEM);
    json_close(']');
    json_close('}');
    json_end();
}

/* Compares over all items, with what each lacks first. */
static void compare_all(struct comparison *found, struct part first, struct part second)
{
    static uint8_t lacks[SYNC_LARGEST_COMPARISON];
    uint64_t written = 0;
    uint32_t number = sync_compare(first.bytes, first.n, second.bytes, second.n, &found->order, lacks, sizeof lacks, &written);
    if (number != 0)
        refused("the comparison", number, NULL);
    if (found->order & SYNC_BEHIND)
        found->lacks[0] = lacks;
    if (found->order & SYNC_AHEAD)
        found->lacks[1] = found->order & SYNC_BEHIND ? lacks + SYNC_LACK_LENGTH : lacks;
}

/* Compares the two files that were read. Over all items it also finds what each lacks first. */
static void compare_files(struct comparison *found, const struct span *span, int is_all)
{
    struct part first = knowledge_of(&store), second = knowledge_of(&other);
    memset(found, 0, sizeof *found);
    if (is_all)
        compare_all(found, first, second);
    else
        found->order = (covers(first, second, span) ? 0 : SYNC_BEHIND) | (covers(second, first, span) ? 0 : SYNC_AHEAD);
    found->is_put_back[0] = is_put_back(&store, second);
    found->is_put_back[1] = is_put_back(&other, first);
    if (found->order == SYNC_ALIKE && kind_of(&store) == STORE && kind_of(&other) == STORE) {
        find_unlike(found, records_of(&store), records_of(&other), span, 0);
        find_unlike(found, records_of(&other), records_of(&store), span, 1);
    }
}

int command_compare(char **arguments)
{
    static struct comparison found;
    struct span span = read_span(arguments + 2);
    refusals_are_trouble = 1;
    load_with_names(&store, arguments[0]);
    load_with_names(&other, arguments[1]);
    compare_files(&found, &span, !arguments[2]);
    if (found.is_put_back[0] && is_folder(arguments[0])) {
        /* It was read first: an edit that was made meanwhile may have reached the second already. */
        load(&store, arguments[0]);
        compare_files(&found, &span, !arguments[2]);
    }
    if (options.json)
        json_comparison(&found);
    else
        say_comparison(&found);
    return found.order != SYNC_ALIKE || found.unlike_count > 0 || found.is_put_back[0] || found.is_put_back[1] ? STATUS_NO : 0;
}

/* ---- coverage */

int command_coverage(char **arguments)
{
    struct part knowledge;
    uint64_t contained = 0, all = 0, thousandths = 0, jump;
    uint32_t number;
    load(&store, arguments[0]);
    need_store(&store);
    load(&other, arguments[1]);
    knowledge = knowledge_of(&other);
    number = sync_coverage(store.bytes, store.n, knowledge.bytes, knowledge.n, &contained, &all, &thousandths);
    if (number != 0)
        refused(arguments[0], number, NULL);
    jump = (1000 + all) / (all + 1); /* 1000 / (all + 1), rounded up */
    if (options.json) {
        json_open(NULL, '{');
        json_text("store", store.name);
        json_text("by", other.name);
        json_number("contained", contained);
        json_number("records", all);
        json_number("thousandths", thousandths);
        json_number("one_more_moves", jump);
        json_close('}');
        json_end();
        return 0;
    }
    printf("%s knows %" PRIu64 " of the ", other.name, contained);
    show_count(all, "record", "records");
    printf(" of %s: %" PRIu64 ".%" PRIu64 " %%\n", store.name, thousandths / 10, thousandths % 10);
    printf("one more file moves this by at most %" PRIu64 ".%" PRIu64 " points\n", jump / 10, jump % 10);
    return 0;
}
