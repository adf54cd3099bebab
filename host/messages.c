/* The words of the refusals, and the ends of the program. */

#include "messages.h"

#include <errno.h>
#include <signal.h>
#include <stdarg.h>
#include <stdio.h>
#include <stdlib.h>
#include <string.h>

#include "sync.h"

#define SEND_AGAIN "the file was damaged on its way, or its sender keeps to another format; have it sent again"

#define RENEW \
    "  This does not pass by itself. Begin again in a new folder, from all the servers' folders (or copies of them), so\n" \
    "  that nothing is lost; deleted items are left out, which makes room. The old folders are only read from then on:\n" \
    "    collector renew NEW-FOLDER FOLDER...\n" \
    "  and let new replicas on the other servers take batches from it.\n"

#define NEW_ID FROM_COPY "\n  and use FRESH from now on.\n"

/* By number: what it means and what to do, in one line; and more lines where it does not pass by itself. */
static const struct {
    const char *line, *more;
} words[] = {
    [SYNC_CUT] = {"the bytes end too early; the file was cut on its way: have it sent again", ""},
    [SYNC_FIXED_FIELD] = {"a fixed field differs, so this is not a knowledge; look whether it is the right file", ""},
    [SYNC_COUNT] = {"a count is over its limit (16 replicas, 65 clock vectors, 64 ranges); " SEND_AGAIN, ""},
    [SYNC_FIRST_VECTOR] = {"the first clock vector is not empty; " SEND_AGAIN, ""},
    [SYNC_REPLICA_ID] = {"a replica id stands there twice; " SEND_AGAIN, ""},
    [SYNC_KEY] = {"a replica key has no replica, or stands twice in a clock vector; " SEND_AGAIN, ""},
    [SYNC_TICK] = {"a tick is above 9223372036854775807; " SEND_AGAIN, ""},
    [SYNC_BOUND] = {"a range does not begin above the one before; " SEND_AGAIN, ""},
    [SYNC_INDEX] = {"a range has no clock vector; " SEND_AGAIN, ""},
    [SYNC_LEFT_OVER] = {"bytes are left over behind the knowledge; " SEND_AGAIN, ""},
    [SYNC_OVER_REPLICAS] = {"over 16 replicas would have edited; a replica that has never edited does not count",
                            RENEW "  Let at most 16 servers edit. Those that only apply batches may be any number.\n"},
    [SYNC_OVER_RANGES] = {"the knowledge would have over 64 ranges; use batches over all items instead of spans",
                          "  This does not pass by itself: each span adds up to two ranges. A batch over all items, made by a server that\n"
                          "  has caught up, joins them: ask it with your present knowledge, and give no FIRST and LAST.\n"},
    [SYNC_OVER_RECORDS] = {"the store would have over 256 records; put further items into another folder",
                           RENEW "  Another folder has replicas with ids of their own. If most items are live, only that helps.\n"},
    [SYNC_SHORT_BUFFER] = {"the buffer is too short; this program's buffers never are: please report it", ""},
    [SYNC_STORE] = {"this is not a valid store; do not mend it, and do not put a copy in its place",
                    "  This does not pass by itself: something else wrote the file, or the disk damaged it. Keep it, and take what it\n"
                    "  held from a copy that is only read, or from the other servers:\n" NEW_ID},
    [SYNC_BATCH] = {"this is not a valid batch; have it sent again, or made again with your present knowledge", ""},
    [SYNC_ARGUMENT] = {"the first item is above the last; give the lower one first", ""},
    [SYNC_NOT_COVERED] = {"this batch builds on one that has not arrived yet; ask again with your present knowledge", ""},
    [SYNC_ABSENT] = {"the item is not there, or is deleted already; there is nothing to delete", ""},
    [SYNC_LAST_TICK] = {"the last tick, 9223372036854775807, has been given; nothing can be edited or deleted any more", RENEW}
};

int refusals_are_trouble;

const char *words_of(uint32_t number)
{
    if (number == 0 || number >= sizeof words / sizeof *words)
        trouble("the engine", "gave %u, which has no meaning; please report it", (unsigned)number);
    return words[number].line;
}

const char *more_words_of(uint32_t number)
{
    words_of(number);
    return words[number].more;
}

_Noreturn void refused(const char *name, uint32_t number, const char *note)
{
    fflush(stdout);
    fprintf(stderr, "collector: %s: %u: %s%s%s\n%s", name, (unsigned)number, note ? note : "", note ? "; " : "", words_of(number),
            more_words_of(number));
    exit(refusals_are_trouble ? STATUS_FILES : STATUS_REFUSED);
}

const char behind_words[] = "other servers know later edits by this replica than its store has; do not edit this store";
const char behind_more[] =
    "  This does not pass by itself. The store was put back from a copy, or two servers use one id. The ticks that are missing\n"
    "  would be given a second time, and others would never ask for these versions. The folder is held from now on: edit,\n"
    "  delete and apply refuse it. Only read it:\n" NEW_ID;

_Noreturn void wrong_usage(const char *format, ...)
{
    va_list rest;
    fputs("collector: ", stderr);
    va_start(rest, format);
    vfprintf(stderr, format, rest);
    va_end(rest);
    fputc('\n', stderr);
    exit(STATUS_USAGE);
}

/* What a message about a failure begins with, and the status. */
static const char *front_words = "";
static int trouble_status = STATUS_FILES;

void trouble_means(const char *front)
{
    front_words = front;
}

void change_is_made(void)
{
    trouble_means("the change was made, but what was to follow was not done: ");
    trouble_status = STATUS_AFTER;
    signal(SIGPIPE, SIG_IGN); /* so that a reader that is gone is told from a change that was not made */
}

_Noreturn void trouble(const char *name, const char *format, ...)
{
    va_list rest;
    fprintf(stderr, "collector: %s%s: ", front_words, name);
    va_start(rest, format);
    vfprintf(stderr, format, rest);
    va_end(rest);
    fputc('\n', stderr);
    exit(trouble_status);
}

void *need_memory(void *memory)
{
    if (!memory)
        trouble("memory", "there is not enough of it");
    return memory;
}

void warn(const char *name, const char *format, ...)
{
    va_list rest;
    fflush(stdout);
    fprintf(stderr, "collector: %s: ", name);
    va_start(rest, format);
    vfprintf(stderr, format, rest);
    va_end(rest);
    fputc('\n', stderr);
}

void flush_output(void)
{
    if (fflush(stdout) != 0 || ferror(stdout))
        trouble("standard output", "cannot be written: %s", errno == ENOSPC ? "no space is left where it goes" : strerror(errno));
}
