/* The commands by which servers bring one another up to date. */

#define _GNU_SOURCE

#include <inttypes.h>
#include <signal.h>
#include <stdio.h>
#include <stdlib.h>
#include <string.h>

#include "changes.h"
#include "commands.h"
#include "json.h"
#include "messages.h"
#include "names.h"
#include "options.h"
#include "replica.h"
#include "show.h"
#include "start.h"
#include "status.h"
#include "sync_format.h"

static struct file result, store, other;
static struct replica replica;
static struct changes changes;

struct span read_span(char **arguments)
{
    struct span span;
    memset(span.first, 0, SYNC_ITEM);
    memset(span.last, 255, SYNC_ITEM);
    if (arguments[0]) {
        if (!arguments[1])
            wrong_usage("a span has two items, FIRST and LAST");
        read_id(&items, arguments[0], span.first);
        read_id(&items, arguments[1], span.last);
    }
    return span;
}

int command_knowledge(char **arguments)
{
    struct part knowledge;
    load(&store, arguments[0]);
    knowledge = knowledge_of(&store);
    write_out(arguments[1], KNOWLEDGE, knowledge.bytes, knowledge.n);
    if (is_standard(arguments[1]))
        return 0;
    printf("%s has what %s %s, %zu bytes\n", arguments[1], arguments[0], kind_of(&store) == BATCH ? "teaches" : "knows", knowledge.n);
    return 0;
}

/* ---- a store that was put back */

/* Says that others know later edits of the replica than its store has, and holds the folder. That it is held is said when it is. */
static void hold_behind(const char *name, const char *number, uint64_t known)
{
    signal(SIGPIPE, SIG_IGN); /* a reader of the message that is gone must not keep the folder from being held */
    fflush(stdout);
    fprintf(stderr, "collector: %s: %s%s\n", name, number, behind_words);
    hold(&replica, &store, known);
    fputs(behind_more, stderr);
}

/*
 * Ends the program if the asker knows later edits of the maker than its store has: the folder is held then, under the lock, for the store
 * may have changed since it was read. A copy of a store, which stands in no folder of a replica, is made from all the same.
 */
static void need_no_later_edits(const char *name, struct part knowledge)
{
    uint64_t known = largest_tick(knowledge, store.bytes + SYNC_STORE_OWN);
    if (known <= own_tick(&store) || !is_folder(name))
        return;
    trouble_means("other servers seem to know later edits by this replica than its store has, so let nothing edit it until this is tried"
                  " again: ");
    open_locked(&replica, name);
    read_store(&replica, &store);
    need_store(&store);
    trouble_means("");
    if (replica.last.is_there && known > own_tick(&store)) {
        hold_behind(name, "", known);
        exit(STATUS_FILES);
    }
    close_folder(&replica.folder);
}

/* Makes the batch for a knowledge, into result. */
static void make_batch(const char *folder, const char *asked, char **span_arguments)
{
    struct span span = read_span(span_arguments);
    struct part knowledge;
    uint64_t written = 0;
    uint32_t number;
    load(&store, folder);
    need_store(&store);
    load(&other, asked);
    knowledge = knowledge_of(&other);
    need_no_later_edits(folder, knowledge);
    number = sync_make(store.bytes, store.n, knowledge.bytes, knowledge.n, span.first, SYNC_ITEM, span.last, SYNC_ITEM, result.bytes,
                       sizeof result.bytes, &written);
    if (number != 0)
        refused(number == SYNC_ARGUMENT ? "FIRST and LAST" : store.name, number, NULL);
    result.n = (size_t)written;
}

/* Writes a file where the user wants it, and says what it is unless that is where the message would go. */
static int write_and_say(const char *name, const struct file *file)
{
    write_out(name, kind_of(file), file->bytes, file->n);
    if (!is_standard(name)) {
        add_ids(file);
        printf("%s is a ", name);
        show_kind(file);
    }
    return 0;
}

int command_make(char **arguments)
{
    make_batch(arguments[0], arguments[1], arguments + 3);
    return write_and_say(arguments[2], &result);
}

int command_answer(char **arguments)
{
    make_batch(arguments[0], "-", arguments + 1);
    write_out("-", BATCH, result.bytes, result.n);
    return 0;
}

/* ---- applying */

/* Refuses with 18, in the words of its second half if that holds: then the folder is held too. */
static _Noreturn void refuse_batch(void)
{
    uint64_t known = largest_tick(knowledge_of(&other), store.bytes + SYNC_STORE_OWN);
    if (known <= own_tick(&store))
        refused(other.name, SYNC_NOT_COVERED, NULL);
    hold_behind(other.name, "18: ", known);
    exit(STATUS_REFUSED);
}

/* Prints the message, the list or the JSON. */
static void say_applied(FILE *out, int as_list, int is_other)
{
    if (options.json) {
        json_out = out;
        json_open(NULL, '{');
        json_text("folder", store.name);
        json_text("batch", other.name);
        json_truth("changed", is_other);
        json_changes(&changes);
        json_close('}');
        json_end();
        json_out = NULL;
    } else if (as_list) {
        print_changes(out, &changes);
    } else if (!is_other) {
        fprintf(out, "applied %s: nothing in it was new\n", other.name);
    } else if (changed_records(&changes) == 0) {
        fprintf(out, "applied %s: no record changes, but %s knows more now\n", other.name, store.name);
    } else {
        fprintf(out, "applied %s: %zu %s new or changed\n", other.name, changed_records(&changes),
                changed_records(&changes) == 1 ? "record is" : "records are");
    }
}

/* Starts the command of --run with the list as its input. */
static void run_with_list(int is_other)
{
    char *command[] = {"sh", "-c", (char *)options.run, NULL}, *list = NULL;
    size_t n = 0;
    FILE *out = need_memory(open_memstream(&list, &n));
    int ended;
    say_applied(out, 1, is_other);
    if (fclose(out) != 0)
        need_memory(NULL);
    ended = start(command, list, n, NULL, 0, NULL);
    free(list);
    if (ended != 0)
        trouble(options.run, "ended with status %d", ended);
}

/* Applies the batch that was read, and says what it came to. */
static int apply_to(const char *folder)
{
    uint64_t written = 0;
    uint32_t number;
    int is_other;
    need_batch(&other);
    load_to_change(&replica, &store, folder);
    load_names(&replica.folder);
    number = sync_apply(store.bytes, store.n, other.bytes, other.n, result.bytes, sizeof result.bytes, &written);
    if (number == SYNC_NOT_COVERED)
        refuse_batch();
    if (number != 0)
        refused(folder, number, NULL);
    find_changes(&changes, &store, &other);
    result.name = folder;
    result.n = (size_t)written;
    is_other = result.n != store.n || memcmp(result.bytes, store.bytes, store.n) != 0;
    if (is_other)
        save(&replica, &result);
    close_folder(&replica.folder); /* so that the command of --run finds the folder unlocked */
    say_applied(stdout, options.list, is_other);
    warn_limits(&result);
    if (options.run && changes.count > 0) {
        fflush(stdout); /* if that fails it is said at the end: nobody gives the command this list again */
        run_with_list(is_other);
    }
    return 0;
}

int command_apply(char **arguments)
{
    load(&other, arguments[1]);
    return apply_to(arguments[0]);
}

int command_exchange(char **arguments)
{
    static uint8_t answered[FILE_MOST];
    static struct path name;
    struct part knowledge;
    const uint8_t *asked;
    size_t n, got;
    int ended;
    open_replica(&replica, arguments[0]);
    read_store(&replica, &store);
    need_store(&store);
    need_latest(&replica, &store);
    close_folder(&replica.folder);
    knowledge = knowledge_of(&store);
    n = knowledge.n;
    asked = options.bare ? knowledge.bytes : in_envelope(KNOWLEDGE, knowledge.bytes, &n);
    ended = start(arguments + 1, asked, n, answered, sizeof answered, &got);
    if (got > sizeof answered) /* no more was read, which may have ended the command */
        trouble(arguments[1], "printed over %zu bytes, which no batch has; " NOTHING_CHANGED, sizeof answered);
    if (ended != 0)
        trouble(arguments[1], "ended with status %d; " NOTHING_CHANGED, ended);
    name = path_of("the answer of ", arguments[1], "");
    take_file(&other, name.text, answered, got);
    return apply_to(arguments[0]);
}

/* ---- envelopes for other programs */

int command_pack(char **arguments)
{
    load_bare(&other, arguments[0]);
    knowledge_of(&other); /* which refuses bytes that are not valid */
    return write_and_say(arguments[1], &other);
}

int command_unpack(char **arguments)
{
    load(&other, arguments[0]);
    write_bare(arguments[1], other.bytes, other.n);
    if (is_standard(arguments[1]))
        return 0;
    printf("%s has the %zu bytes of the %s in %s\n", arguments[1], other.n, kind_names[kind_of(&other)], other.name);
    return 0;
}
