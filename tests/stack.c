/*
 * How much stack each call of the engine takes: it runs on a stack of its own that is filled with a pattern, and what the pattern has lost
 * is counted. The inputs are as large as they can be, and such that nothing is copied instead of built. Fails if a call takes more than
 * the header says of it, or so much less that the header should say less. Prints the most of all of them; with any argument, each of them.
 */

#define _XOPEN_SOURCE 700

#include <inttypes.h>
#include <stdio.h>
#include <string.h>
#include <ucontext.h>

#include "sync.h"

enum { PROMISED = SYNC_STACK, ROOM = 8 * PROMISED, PATTERN = 0xa5 };
enum { REPLICAS = 16, RANGES = 64, RECORDS = 256 };

static uint8_t stack[ROOM];
static uint8_t knowledge[SYNC_LARGEST_KNOWLEDGE], other[SYNC_LARGEST_KNOWLEDGE], falling[SYNC_LARGEST_KNOWLEDGE];
static uint8_t store[SYNC_LARGEST_STORE], unedited[SYNC_LARGEST_STORE], batch[SYNC_LARGEST_BATCH], out[SYNC_LARGEST_BATCH];
static uint64_t knowledge_n, other_n, store_n, unedited_n, batch_n;
static uint8_t first[24], last[24], middle[24], item[24], replica[16], tag[16];

static uint8_t *put(uint8_t *to, uint64_t number, int width)
{
    int at;
    for (at = 0; at < width; at++)
        to[at] = (uint8_t)(number >> 8 * (width - 1 - at));
    return to + width;
}

static uint8_t *put_id(uint8_t *to, uint64_t number, int width)
{
    memset(to, 0, (size_t)width);
    put(to + width - 8, number, 8);
    return to + width;
}

/* A knowledge of so many replicas and all ranges. The first has the same tick everywhere, the others one that grows from range to range. */
static uint64_t put_knowledge(uint8_t *bytes, uint64_t replicas, uint64_t base, uint64_t step)
{
    uint8_t *to = bytes;
    uint64_t range, key;
    to = put(put(put(put(to, 5, 4), 0, 4), 1, 4), 0, 4);
    to = put(put(put(put(to, 5, 4), 0, 1), 16, 2), replicas, 4);
    for (key = 0; key < replicas; key++)
        to = put_id(to, 1 + key, 16);
    to = put(put(put(put(put(put(put(to, 24, 4), 0, 1), 16, 2), 0, 1), 24, 2), 0, 1), 1, 2);
    to = put(put(to, 21, 4), 1 + RANGES, 4);
    to = put(put(to, 1, 4), 0, 4);
    for (range = 0; range < RANGES; range++) {
        to = put(put(to, 1, 4), replicas, 4);
        for (key = 0; key < replicas; key++)
            to = put(put(to, key, 4), key == 0 ? 9000 : base + step * range + key, 8);
    }
    to = put(put(put(put(to, 23, 4), 1, 4), 22, 4), RANGES, 4);
    for (range = 0; range < RANGES; range++)
        to = put(put_id(to, 4 * range, 24), 1 + range, 4);
    to = put(put(put(put(to, 0, 4), 25, 4), 1, 1), 0, 4);
    return (uint64_t)(to - bytes);
}

static uint8_t *put_records(uint8_t *to)
{
    uint64_t at;
    for (at = 0; at < RECORDS; at++) {
        *to++ = 1;
        to = put(put_id(put_id(to, at, 24), 2, 16), 1 + at / 4, 8);
        to = put(put_id(to, 2, 16), 1, 8);
        to = put_id(to, at, 16);
    }
    return to;
}

/* A store of a knowledge and all records; its length. */
static uint64_t put_store(uint8_t *bytes, uint64_t own, const uint8_t *known, uint64_t known_n)
{
    uint8_t *to = put(put(put_id(put(bytes, 3, 1), own, 16), known_n, 4), RECORDS, 4);
    memcpy(to, known, known_n);
    return (uint64_t)(put_records(to + known_n) - bytes);
}

/*
 * The largest inputs: two knowledges of which each knows something that the other does not, and the second with its last two ids in
 * falling order, which is not normal form; a store, one whose replica has not edited yet, and a batch that the first can take.
 */
static void put_all(void)
{
    uint8_t *to;
    knowledge_n = put_knowledge(knowledge, REPLICAS - 1, 1000, 16);
    unedited_n = put_store(unedited, REPLICAS, knowledge, knowledge_n);
    knowledge_n = put_knowledge(knowledge, REPLICAS, 1000, 16);
    other_n = put_knowledge(other, REPLICAS, 1500, 8);
    memcpy(falling, other, other_n);
    put_id(put_id(falling + 27 + 16 * (REPLICAS - 2), REPLICAS, 16), REPLICAS - 1, 16);
    memset(last, 255, sizeof last);
    put_id(middle, 100, 24);
    put_id(item, 255, 24);
    put_id(replica, REPLICAS, 16);
    store_n = put_store(store, 1, knowledge, knowledge_n);
    to = put(put_id(put(batch, 4, 1), 0, 24), 0, 0);
    memcpy(to, last, 24);
    to = put(put(put(to + 24, knowledge_n, 4), other_n, 4), 0, 4);
    memcpy(to, knowledge, knowledge_n);
    memcpy(to + knowledge_n, other, other_n);
    batch_n = (uint64_t)(to - batch) + knowledge_n + other_n;
}

/* Compares the two knowledges; 99 where it does not find that each lacks something. */
static uint32_t compare(void)
{
    uint64_t written;
    uint32_t order = 0;
    uint32_t number = sync_compare(knowledge, knowledge_n, other, other_n, &order, out, sizeof out, &written);
    return number != 0 || order == SYNC_APART ? number : 99;
}

/* Each call by its number; 0 where it did what it should. */
static uint32_t call(int number)
{
    static const uint8_t *k = knowledge, *o = other;
    uint64_t sizes[4], written, at, length;
    uint32_t word;
    int64_t lead;
    switch (number) {
    case 0: return sync_check(k, knowledge_n, sizes);
    case 1: return sync_contain(k, knowledge_n, item, 24, replica, 16, 1, &word);
    case 2: return sync_lead(k, knowledge_n, o, other_n, item, 24, replica, 16, &lead);
    case 3: return sync_cover(k, knowledge_n, o, other_n, first, 24, last, 24, &word);
    case 4: return sync_normalise(falling, other_n, out, sizeof out, &written);
    case 5: return sync_merge(k, knowledge_n, o, other_n, out, sizeof out, &written);
    case 6: return sync_project(k, knowledge_n, first, 24, last, 24, out, sizeof out, &written);
    case 7: return sync_new(replica, 16, out, sizeof out, &written);
    case 8: return sync_edit(unedited, unedited_n, item, 24, tag, 16, out, sizeof out, &written);
    case 9: return sync_delete(unedited, unedited_n, item, 24, out, sizeof out, &written);
    case 10: return sync_make(store, store_n, falling, other_n, first, 24, middle, 24, out, sizeof out, &written);
    case 11: return sync_apply(store, store_n, batch, batch_n, out, sizeof out, &written);
    case 12: return sync_winner(store, store_n, batch, batch_n, item, 24, &word, &at, &length);
    case 13: return sync_learned(batch, batch_n, &at, &length);
    case 14: return sync_coverage(store, store_n, k, knowledge_n, &at, &length, &written);
    case 15: return sync_knowledge(store, store_n, &at, &length);
    case 16: return sync_walk(store + 25 + knowledge_n, store_n - 25 - knowledge_n, 0, &length);
    case 17: return compare();
    default: return 99;
    }
}

/* What the header says that each call takes at most, by its number. */
static const struct {
    const char *name;
    size_t bound;
} calls[] = {
    {"check", SYNC_STACK_CHECK},
    {"contain", SYNC_STACK_CONTAIN},
    {"lead", SYNC_STACK_LEAD},
    {"cover", SYNC_STACK_COVER},
    {"normalise", SYNC_STACK_NORMALISE},
    {"merge", SYNC_STACK_MERGE},
    {"project", SYNC_STACK_PROJECT},
    {"new", SYNC_STACK_NEW},
    {"edit", SYNC_STACK_EDIT},
    {"delete", SYNC_STACK_DELETE},
    {"make", SYNC_STACK_MAKE},
    {"apply", SYNC_STACK_APPLY},
    {"winner", SYNC_STACK_WINNER},
    {"learned", SYNC_STACK_LEARNED},
    {"coverage", SYNC_STACK_COVERAGE},
    {"knowledge", SYNC_STACK_KNOWLEDGE},
    {"walk", SYNC_STACK_WALK},
    {"compare", SYNC_STACK_COMPARE}
};

static ucontext_t here, there;
static int present;
static uint32_t answer;

static void run(void)
{
    answer = call(present);
}

/* What the present call takes, in bytes; 0 if it cannot be run or does not do what it should. */
static size_t taken(void)
{
    static size_t untouched;
    memset(stack, PATTERN, sizeof stack);
    if (getcontext(&there) != 0)
        return 0;
    there.uc_stack.ss_sp = stack;
    there.uc_stack.ss_size = sizeof stack;
    there.uc_link = &here;
    makecontext(&there, run, 0);
    if (swapcontext(&here, &there) != 0 || answer != 0)
        return 0;
    for (untouched = 0; untouched < ROOM && stack[untouched] == PATTERN; untouched++)
        ;
    return ROOM - untouched;
}

/* Whether what the header says of the present call is enough, and at most 4096 bytes more than twice what it takes. */
static int right(size_t bytes)
{
    const char *name = calls[present].name;
    size_t bound = calls[present].bound;
    if (bytes == 0)
        fprintf(stderr, "stack: %s gave %" PRIu32 "\n", name, answer);
    else if (bytes > bound || bound > PROMISED)
        fprintf(stderr, "stack: %s takes %zu bytes; the header says %zu, and %d for all calls\n", name, bytes, bound, PROMISED);
    else if (bound > 2 * bytes + 4096)
        fprintf(stderr, "stack: %s takes %zu bytes, far less than the %zu that the header says\n", name, bytes, bound);
    else
        return 1;
    return 0;
}

int main(int count, char **arguments)
{
    static size_t bytes, most;
    (void)arguments;
    put_all();
    for (present = 0; present < (int)(sizeof calls / sizeof *calls); present++) {
        bytes = taken();
        if (!right(bytes))
            return 1;
        if (count > 1)
            printf("%-9s %5zu of %5zu\n", calls[present].name, bytes, calls[present].bound);
        if (bytes > most)
            most = bytes;
    }
    printf("stack: the most of all calls is %zu bytes of the %d that the header says\n", most, PROMISED);
    return 0;
}
