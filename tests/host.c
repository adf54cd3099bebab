/* A host program in C that keeps stores and batches in byte buffers and plays the paper's instances K9 to K12 to the byte: what each call
   returns, every byte that it writes, and that it writes no other. Then the paper's figures of coverage, knowledges of the instances K4 and
   K6 compared, inputs that are parts of others, and the fields of what the engine wrote, where sync_format.h says that they stand. */

#include <inttypes.h>
#include <stdio.h>
#include <string.h>

#include "sync.h"
#include "sync_format.h"

#include "knowledges.h"
#include "wrote.h"

#define TAG 9, 9, 9, 9, 9, 9, 9, 9, 9, 9, 9, 9, 9, 9, 9, 9

#define STORE(own, knowledge, records) 3, REPLICA(own), NUMBER(knowledge), NUMBER(records)
#define BATCH(needed, learned, records) 4, ITEM(0), TOP, NUMBER(needed), NUMBER(learned), NUMBER(records)
#define EDITED(item, replica, tick) 1, ITEM(item), REPLICA(replica), TICK(tick), REPLICA(replica), TICK(tick), TAG

static const uint8_t p[] = {REPLICA(P)};
static const uint8_t q[] = {REPLICA(Q)};
static const uint8_t item_1[] = {ITEM(1)};
static const uint8_t item_2[] = {ITEM(2)};
static const uint8_t bottom[] = {ITEM(0)};
static const uint8_t top[] = {TOP};
static const uint8_t tag[] = {TAG};
static const uint8_t nothing[] = {NOTHING};

/* What the calls must write. */
static const uint8_t new_p[] = {STORE(P, 113, 0), NOTHING};
static const uint8_t new_q[] = {STORE(Q, 113, 0), NOTHING};
static const uint8_t edited_p[] = {STORE(P, 149, 1), KNOWS(P, 1), EDITED(1, P, 1)};
static const uint8_t edited_q[] = {STORE(Q, 149, 1), KNOWS(Q, 1), EDITED(1, Q, 1)};
static const uint8_t batch_q[] = {BATCH(113, 149, 1), NOTHING, KNOWS(Q, 1), EDITED(1, Q, 1)};
static const uint8_t p_after_q[] = {STORE(P, 177, 1), KNOWS_BOTH(1, 1), EDITED(1, Q, 1)};
static const uint8_t p_next[] = {STORE(P, 177, 2), KNOWS_BOTH(2, 1), EDITED(1, Q, 1), EDITED(2, P, 2)};
static const uint8_t batch_one[] = {BATCH(113, 149, 1), NOTHING, KNOWS(P, 1), EDITED(1, P, 1)};
static const uint8_t p_twice[] = {STORE(P, 149, 2), KNOWS(P, 2), EDITED(1, P, 1), EDITED(2, P, 2)};
static const uint8_t batch_two[] = {BATCH(149, 149, 1), KNOWS(P, 1), KNOWS(P, 2), EDITED(2, P, 2)};
static const uint8_t q_after_one[] = {STORE(Q, 149, 1), KNOWS(P, 1), EDITED(1, P, 1)};
static const uint8_t q_after_two[] = {STORE(Q, 149, 2), KNOWS(P, 2), EDITED(1, P, 1), EDITED(2, P, 2)};

/* Sixteen edits of P, and what it knew after the first and after the third. */
#define FOUR(n) EDITED(n, P, n), EDITED(n + 1, P, n + 1), EDITED(n + 2, P, n + 2), EDITED(n + 3, P, n + 3)
static const uint8_t p_sixteen[] = {STORE(P, 149, 16), KNOWS(P, 16), FOUR(1), FOUR(5), FOUR(9), FOUR(13)};
static const uint8_t after_one[] = {KNOWS(P, 1)};
static const uint8_t after_three[] = {KNOWS(P, 3)};

/* The knowledges A and B of K4, and A on the span of item 1 alone, as in K6: from item 1 on what A knows, and from item 2 on nothing. */
static const uint8_t a[] = {KNOWS(P, 5)};
static const uint8_t b[] = {KNOWS_BOTH(3, 2)};
static const uint8_t a_on_1[] = {
    OPENING, NUMBER(1), REPLICA(P), BEFORE_VECTORS, NUMBER(2), NO_ELEMENTS, NUMBER(1), NUMBER(1), NUMBER(0), TICK(5),
    BEFORE_RANGES, NUMBER(3), ITEM(0), NUMBER(0), ITEM(1), NUMBER(1), ITEM(2), NUMBER(0), CLOSING
};

/* A on all items but the last. */
static const uint8_t a_but_top[] = {
    OPENING, NUMBER(1), REPLICA(P), BEFORE_VECTORS, NUMBER(2), NO_ELEMENTS, NUMBER(1), NUMBER(1), NUMBER(0), TICK(5),
    BEFORE_RANGES, NUMBER(2), ITEM(0), NUMBER(1), TOP, NUMBER(0), CLOSING
};

/* Two that are not in normal form: B with its replicas the other way round, and A from item 2 on, which is all that it says. */
static const uint8_t b_exchanged[] = {
    OPENING, NUMBER(2), REPLICA(Q), REPLICA(P), BEFORE_VECTORS, NUMBER(2), NO_ELEMENTS,
    NUMBER(1), NUMBER(2), NUMBER(0), TICK(2), NUMBER(1), TICK(3), BEFORE_RANGES, NUMBER(1), ITEM(0), NUMBER(1), CLOSING
};
static const uint8_t a_from_2[] = {
    OPENING, NUMBER(1), REPLICA(P), BEFORE_VECTORS, NUMBER(2), NO_ELEMENTS, NUMBER(1), NUMBER(1), NUMBER(0), TICK(5),
    BEFORE_RANGES, NUMBER(1), ITEM(2), NUMBER(1), CLOSING
};

/* Where one lacks something first. */
static const uint8_t a_and_b[] = {LACK(0, Q, 0, 2), LACK(0, P, 5, 3)};
static const uint8_t none_of_a[] = {LACK(0, P, 0, 5)};
static const uint8_t all_of_a[] = {LACK(0, P, 5, 0)};
static const uint8_t none_of_b[] = {LACK(0, P, 0, 3)};
static const uint8_t top_of_a[] = {TOP, REPLICA(P), TICK(0), TICK(5)};
static const uint8_t item_by_item[] = {LACK(1, P, 0, 5), LACK(2, P, 5, 0)};

/* Two knowledges, their order, and what is written. */
#define BYTES(array) array, sizeof array
static const struct comparison {
    const uint8_t *first;
    size_t first_n;
    const uint8_t *second;
    size_t second_n;
    uint32_t order;
    const uint8_t *wanted;
    size_t n;
} comparisons[] = {
    {BYTES(a), BYTES(b), 3, BYTES(a_and_b)},
    {BYTES(nothing), BYTES(a), 1, BYTES(none_of_a)},
    {BYTES(a_on_1), BYTES(a), 1, BYTES(none_of_a)},
    {BYTES(a), BYTES(a), 0, out, 0},
    {BYTES(a), BYTES(a_on_1), 2, BYTES(all_of_a)},
    {BYTES(a_but_top), BYTES(a), 1, BYTES(top_of_a)},
    {BYTES(b), BYTES(b_exchanged), 0, out, 0},
    {BYTES(nothing), BYTES(b_exchanged), 1, BYTES(none_of_b)},
    {BYTES(a_from_2), BYTES(a_on_1), 3, BYTES(item_by_item)}
};

static int make(const uint8_t *store, size_t store_n, const uint8_t *knowledge, size_t knowledge_n, const uint8_t *wanted, size_t n)
{
    uint32_t given = sync_make(store, store_n, knowledge, knowledge_n, bottom, 24, top, 24, out, ROOM, &written);
    return wrote("make", given, 0, wanted, n);
}

static int edit(const uint8_t *store, size_t store_n, const uint8_t *item, const uint8_t *wanted, size_t n)
{
    return wrote("edit", sync_edit(store, store_n, item, 24, tag, 16, out, ROOM, &written), 0, wanted, n)
        && wrote("edit", sync_edit(store, store_n, item, 24, tag, 16, out, n, &written), 0, wanted, n)
        && wrote("edit", sync_edit(store, store_n, item, 24, tag, 16, out, n - 1, &written), SYNC_SHORT_BUFFER, out, 0);
}

static int apply(const uint8_t *store, size_t store_n, const uint8_t *batch, size_t batch_n, const uint8_t *wanted, size_t n)
{
    return wrote("apply", sync_apply(store, store_n, batch, batch_n, out, ROOM, &written), 0, wanted, n)
        && wrote("apply", sync_apply(store, store_n, batch, batch_n, out, n - 1, &written), SYNC_SHORT_BUFFER, out, 0);
}

/* K9: a new store has 138 bytes, and 263 after one edit. */
static int k9(void)
{
    return sizeof new_p == 138
        && sizeof edited_p == 263
        && wrote("new", sync_new(p, 16, out, ROOM, &written), 0, new_p, sizeof new_p)
        && wrote("new", sync_new(q, 16, out, 138, &written), 0, new_q, sizeof new_q)
        && wrote("new", sync_new(p, 15, out, ROOM, &written), SYNC_ARGUMENT, out, 0)
        && wrote("new", sync_new(p, 16, out, 137, &written), SYNC_SHORT_BUFFER, out, 0)
        && edit(new_p, sizeof new_p, item_1, edited_p, sizeof edited_p);
}

/* K10: P and Q both edit item 1 first, and P applies Q's batch. Q's record wins, and P's next tick is 2. */
static int k10(void)
{
    return edit(new_q, sizeof new_q, item_1, edited_q, sizeof edited_q)
        && make(edited_q, sizeof edited_q, nothing, sizeof nothing, batch_q, sizeof batch_q)
        && apply(edited_p, sizeof edited_p, batch_q, sizeof batch_q, p_after_q, sizeof p_after_q)
        && edit(p_after_q, sizeof p_after_q, item_2, p_next, sizeof p_next);
}

/* K11: the batch of K9's edited store for empty knowledge, over all ids, has 412 bytes. */
static int k11(void)
{
    return sizeof batch_one == 412
        && make(edited_p, sizeof edited_p, nothing, sizeof nothing, batch_one, sizeof batch_one);
}

/* K12: P's second batch is made for what the first has learned. A new Q refuses the second, takes the first and then the second. */
static int k12(void)
{
    uint64_t at = 7, length = 7;
    uint64_t sizes[4];
    if (sync_learned(batch_one, sizeof batch_one, &at, &length) != 0 || at != 174 || length != 149) {
        fprintf(stderr, "host: learned: place %" PRIu64 ", length %" PRIu64 "\n", at, length);
        return 0;
    }
    if (sync_check(batch_one + at, (size_t)length, sizes) != 0 || sizes[0] != 1) {
        fprintf(stderr, "host: what a batch has learned is a knowledge of one replica\n");
        return 0;
    }
    return edit(edited_p, sizeof edited_p, item_2, p_twice, sizeof p_twice)
        && make(p_twice, sizeof p_twice, batch_one + at, (size_t)length, batch_two, sizeof batch_two)
        && wrote("apply", sync_apply(new_q, sizeof new_q, batch_two, sizeof batch_two, out, ROOM, &written), SYNC_NOT_COVERED, out, 0)
        && apply(new_q, sizeof new_q, batch_one, sizeof batch_one, q_after_one, sizeof q_after_one)
        && apply(q_after_one, sizeof q_after_one, batch_two, sizeof batch_two, q_after_two, sizeof q_after_two);
}

/* The other calls, on the stores and batches above. */
static int others(void)
{
    uint32_t side = 7;
    uint64_t at = 7, length = 7, contained = 7, all = 7, thousandths = 7;
    int right = sync_winner(edited_p, sizeof edited_p, batch_q, sizeof batch_q, item_1, 24, &side, &at, &length) == 0
        && side == 2 && at == 323 && length == 89
        && memcmp(batch_q + at, p_after_q + sizeof p_after_q - 89, 89) == 0
        && sync_winner(edited_p, sizeof edited_p, batch_q, sizeof batch_q, item_2, 24, &side, &at, &length) == 0
        && side == 0 && at == 0 && length == 0
        && sync_knowledge(edited_p, sizeof edited_p, &at, &length) == 0 && at == 25 && length == 149
        && sync_knowledge(batch_q, sizeof batch_q, &at, &length) == SYNC_STORE && at == 25 && length == 149
        && sync_coverage(p_twice, sizeof p_twice, edited_p + at, (size_t)length, &contained, &all, &thousandths) == 0
        && contained == 1 && all == 2 && thousandths == 500
        && sync_walk(p_twice, sizeof p_twice, 174, &length) == 0 && length == 89
        && sync_walk(p_twice, sizeof p_twice, 175, &length) == 0 && length == 0
        && sync_walk(p_twice, sizeof p_twice, UINT64_MAX, &length) == 0 && length == 0;
    if (!right)
        fprintf(stderr, "host: winner, knowledge, coverage or walk: %" PRIu32 " %" PRIu64 " %" PRIu64 " %" PRIu64 " %" PRIu64 " %" PRIu64 "\n",
                side, at, length, contained, all, thousandths);
    return right
        && wrote("delete", sync_delete(new_p, sizeof new_p, item_1, 24, out, 0, &written), SYNC_ABSENT, out, 0);
}

static int covered(const uint8_t *store, size_t store_n, const uint8_t *knowledge, size_t knowledge_n, const uint64_t wanted[3])
{
    uint64_t given[3] = {7, 7, 7};
    int right = sync_coverage(store, store_n, knowledge, knowledge_n, &given[0], &given[1], &given[2]) == 0
        && memcmp(given, wanted, sizeof given) == 0;
    if (!right)
        fprintf(stderr, "host: coverage: %" PRIu64 " of %" PRIu64 " is %" PRIu64 ", not %" PRIu64 "\n",
                given[0], given[1], given[2], wanted[2]);
    return right;
}

/* Coverage to the nearest thousandth, an exact half going up: one record of 16 is 62.5, and three are 187.5. */
static int figures(void)
{
    static const uint64_t one[] = {1, 16, 63}, three[] = {3, 16, 188}, every[] = {1, 1, 1000}, none[] = {0, 16, 0}, empty[] = {0, 0, 1000};
    return covered(p_sixteen, sizeof p_sixteen, after_one, sizeof after_one, one)
        && covered(p_sixteen, sizeof p_sixteen, after_three, sizeof after_three, three)
        && covered(edited_p, sizeof edited_p, after_one, sizeof after_one, every)
        && covered(p_sixteen, sizeof p_sixteen, nothing, sizeof nothing, none)
        && covered(new_p, sizeof new_p, nothing, sizeof nothing, empty);
}

/* Whether comparing two, with so much room, gives what it should: where that does not fit, 14, and the order stays 7. */
static int compared(const struct comparison *two, size_t room)
{
    int fits = room >= two->n;
    uint32_t order = 7, wanted = fits ? two->order : 7;
    uint32_t given = sync_compare(two->first, two->first_n, two->second, two->second_n, &order, out, room, &written);
    if (order != wanted) {
        fprintf(stderr, "host: compare with room for %zu bytes: order %" PRIu32 ", not %" PRIu32 "\n", room, order, wanted);
        return 0;
    }
    return fits ? wrote("compare", given, 0, two->wanted, two->n) : wrote("compare", given, SYNC_SHORT_BUFFER, out, 0);
}

/* Each comparison with every room up to one byte more than any needs. */
static int orders(void)
{
    size_t at, room;
    for (at = 0; at < sizeof comparisons / sizeof *comparisons; at++)
        for (room = 0; room <= SYNC_LARGEST_COMPARISON + 1; room++)
            if (!compared(&comparisons[at], room))
                return 0;
    return 1;
}

/* What P, who knows its tick 1 already, is made from its own store: no records. */
static const uint8_t batch_none[] = {BATCH(149, 149, 0), KNOWS(P, 1), KNOWS(P, 1)};

/* Inputs that are parts of others: the knowledge of a store, and the item of its record. */
static int parts(void)
{
    static const uint64_t every[] = {1, 1, 1000};
    const uint8_t *own = edited_p + SYNC_STORE_KNOWLEDGE, *item = edited_p + 174 + SYNC_RECORD_ITEM;
    uint32_t side = 7;
    uint64_t at = 7, length = 7;
    if (sync_winner(edited_p, sizeof edited_p, batch_q, sizeof batch_q, item, SYNC_ITEM, &side, &at, &length) != 0 || side != 2) {
        fprintf(stderr, "host: winner of an item that stands in the store: side %" PRIu32 "\n", side);
        return 0;
    }
    return make(edited_p, sizeof edited_p, own, 149, batch_none, sizeof batch_none)
        && covered(edited_p, sizeof edited_p, own, 149, every);
}

/* Whether a number is as wanted. */
static int same(const char *name, uint64_t number, uint64_t wanted)
{
    if (number != wanted)
        fprintf(stderr, "host: %s is %" PRIu64 ", not %" PRIu64 "\n", name, number, wanted);
    return number == wanted;
}

/* Whether the bytes at a place are these, the number of these n bytes, or a version. */
static int bytes_at(const char *field, const uint8_t *place, const uint8_t *wanted, size_t n)
{
    int right = memcmp(place, wanted, n) == 0;
    if (!right)
        fprintf(stderr, "host: %s does not stand where sync_format.h says\n", field);
    return right;
}

static int number_at(const char *field, const uint8_t *place, size_t n, uint64_t wanted)
{
    return same(field, sync_number_at(place, n), wanted);
}

static int version_at(const char *field, const uint8_t *place, const uint8_t *replica, uint64_t tick)
{
    return bytes_at(field, place, replica, SYNC_REPLICA) && number_at(field, place + SYNC_VERSION_TICK, 8, tick);
}

/* The store in which P deletes item 1, which Q had created, and item 2 is live. */
static int places_of_store(void)
{
    static const uint8_t no_tag[SYNC_TAG] = {0};
    const uint8_t *gone = out + SYNC_STORE_KNOWLEDGE + 177, *live = gone + SYNC_RECORD_LENGTH;
    uint64_t at = 7, length = 7;
    return same("what delete gives", sync_delete(p_next, sizeof p_next, item_1, SYNC_ITEM, out, ROOM, &written), 0)
        && same("what knowledge gives", sync_knowledge(out, (size_t)written, &at, &length), 0)
        && number_at("kind", out, 1, SYNC_KIND_STORE)
        && bytes_at("own", out + SYNC_STORE_OWN, p, SYNC_REPLICA)
        && same("the place of the knowledge", at, SYNC_STORE_KNOWLEDGE)
        && number_at("knowledge length", out + SYNC_STORE_KNOWLEDGE_LENGTH, 4, length)
        && number_at("count", out + SYNC_STORE_COUNT, 4, 2)
        && number_at("kind", gone, 1, SYNC_KIND_TOMBSTONE)
        && bytes_at("item", gone + SYNC_RECORD_ITEM, item_1, SYNC_ITEM)
        && version_at("change", gone + SYNC_RECORD_CHANGE, p, 3)
        && version_at("create", gone + SYNC_RECORD_CREATE, q, 1)
        && bytes_at("tag", gone + SYNC_RECORD_TAG, no_tag, SYNC_TAG)
        && number_at("kind", live, 1, SYNC_KIND_LIVE)
        && bytes_at("item", live + SYNC_RECORD_ITEM, item_2, SYNC_ITEM)
        && version_at("change", live + SYNC_RECORD_CHANGE, p, 2)
        && bytes_at("tag", live + SYNC_RECORD_TAG, tag, SYNC_TAG)
        && same("the length of the store", written, (uint64_t)(live + SYNC_RECORD_LENGTH - out));
}

/* What P knows from item 1 on: P 2 and Q 1. */
static int places_of_knowledge(const uint8_t *knowledge, size_t n)
{
    const uint8_t *ranges;
    uint64_t sizes[4] = {7, 7, 7, 7};
    if (!same("what check gives", sync_check(knowledge, n, sizes), 0) || !same("the count of ranges", sizes[3], 2))
        return 0;
    ranges = knowledge + sync_ranges_at(sizes);
    return bytes_at("replica 0", knowledge + SYNC_KNOWLEDGE_REPLICAS, p, SYNC_REPLICA)
        && bytes_at("replica 1", knowledge + SYNC_KNOWLEDGE_REPLICAS + SYNC_REPLICA, q, SYNC_REPLICA)
        && bytes_at("range 0", ranges, bottom, SYNC_ITEM)
        && number_at("its index", ranges + SYNC_RANGE_INDEX, 4, 0)
        && bytes_at("range 1", ranges + SYNC_RANGE_LENGTH, item_1, SYNC_ITEM)
        && number_at("its index", ranges + SYNC_RANGE_LENGTH + SYNC_RANGE_INDEX, 4, 1);
}

/* A batch of both records for nothing, from item 1 to the last. */
static int places_of_batch(void)
{
    uint64_t at = 7, length = 7;
    uint32_t given;
    forget();
    given = sync_make(p_next, sizeof p_next, nothing, sizeof nothing, item_1, SYNC_ITEM, top, SYNC_ITEM, out, ROOM, &written);
    return same("what make gives", given, 0)
        && same("what learned gives", sync_learned(out, (size_t)written, &at, &length), 0)
        && number_at("kind", out, 1, SYNC_KIND_BATCH)
        && bytes_at("first", out + SYNC_BATCH_FIRST, item_1, SYNC_ITEM)
        && bytes_at("last", out + SYNC_BATCH_LAST, top, SYNC_ITEM)
        && number_at("needed length", out + SYNC_BATCH_NEEDED_LENGTH, 4, sizeof nothing)
        && number_at("learned length", out + SYNC_BATCH_LEARNED_LENGTH, 4, length)
        && number_at("count", out + SYNC_BATCH_COUNT, 4, 2)
        && bytes_at("needed", out + SYNC_BATCH_NEEDED, nothing, sizeof nothing)
        && same("the place of what was learned", at, SYNC_BATCH_NEEDED + sizeof nothing)
        && bytes_at("item", out + at + length + SYNC_RECORD_LENGTH + SYNC_RECORD_ITEM, item_2, SYNC_ITEM)
        && places_of_knowledge(out + at, (size_t)length);
}

/* A from item 2 on lacks tick 5 of P at item 1, and A on item 1 alone lacks it at item 2. */
static int places_of_comparison(void)
{
    const uint8_t *second = out + SYNC_LACK_LENGTH;
    uint32_t order = 7;
    forget();
    return same("what compare gives", sync_compare(a_from_2, sizeof a_from_2, a_on_1, sizeof a_on_1, &order, out, ROOM, &written), 0)
        && bytes_at("item", out + SYNC_LACK_ITEM, item_1, SYNC_ITEM)
        && bytes_at("replica", out + SYNC_LACK_REPLICA, p, SYNC_REPLICA)
        && number_at("first tick", out + SYNC_LACK_FIRST_TICK, 8, 0)
        && number_at("second tick", out + SYNC_LACK_SECOND_TICK, 8, 5)
        && bytes_at("item", second + SYNC_LACK_ITEM, item_2, SYNC_ITEM)
        && number_at("first tick", second + SYNC_LACK_FIRST_TICK, 8, 5)
        && number_at("second tick", second + SYNC_LACK_SECOND_TICK, 8, 0)
        && same("the length of the comparison", written, 2 * SYNC_LACK_LENGTH);
}

int main(void)
{
    forget();
    return k9() && k10() && k11() && k12() && others() && figures() && orders() && parts()
        && places_of_store() && places_of_batch() && places_of_comparison() ? 0 : 1;
}
