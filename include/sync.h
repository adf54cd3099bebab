/*
 * The sync knowledge engine, for programs in C and C++. Link with libcollector.a. The places of the fields of stores,
 * batches and comparisons are in sync_format.h.
 *
 * What the caller of any function here must see to:
 *
 * - No pointer is null, not even if the length that belongs to it is 0.
 * - Behind a pointer to bytes, as many bytes can be read as the length that belongs to it says. Any length will do, and
 *   bytes need no alignment.
 * - Inputs are only read. They may overlap each other, or be the same bytes.
 * - A buffer that is written overlaps no other buffer of the same call, neither an input nor another that is written.
 * - Pointers to numbers that a call sets, such as written, order or sizes, overlap neither each other nor any buffer of
 *   the call.
 *
 * What every function here does:
 *
 * - It returns 0 if it did what it says. Otherwise it returns the number of the refusal and changes nothing behind any
 *   pointer.
 * - It keeps no state, allocates nothing, and calls nothing but memset, memcpy and the like. So it may be called from
 *   any thread, and from several at once, each with its own output buffers.
 * - It always ends; docs/BENCHMARKS.md has times.
 */

#ifndef SYNC_H
#define SYNC_H

#include <stddef.h>
#include <stdint.h>

#ifdef __cplusplus
extern "C" {
#endif

/* The version of this header, of the library and of the program, which are made together. */
#define SYNC_VERSION "0.1.0"

/*
 * The lengths of the longest knowledge, store and batch, in bytes. A buffer of this length is never too short for a
 * result. That is proved by theorem `enough`, crates/corollaries/proofs/Enough.antt, for stores and batches, and by
 * `lawful-length`, crates/layout/proofs/Lengths.antt, for knowledges.
 */
#define SYNC_LARGEST_KNOWLEDGE 14933
#define SYNC_LARGEST_STORE 37742
#define SYNC_LARGEST_BATCH 52711

/* No call takes more stack than this, in bytes. This is measured, and read off the machine code, not proved. */
#define SYNC_STACK 131072

/*
 * The same for each call by itself: the stack that it took on the largest inputs, on x86-64, rounded up. This too is
 * measured, not proved. The rounding leaves room for the dynamic linker, which took 2.5 KiB more when a call was the
 * first to need memset or memcpy. tests/stack.c fails if a call takes more than its number, or if the number is far
 * above what the call takes. tests/frames adds up the frames of the machine code along the calls, and fails if that is
 * more than the number.
 */
#define SYNC_STACK_CHECK 1024
#define SYNC_STACK_CONTAIN 1024
#define SYNC_STACK_LEAD 1024
#define SYNC_STACK_COVER 2048
#define SYNC_STACK_COMPARE 2048
#define SYNC_STACK_NORMALISE 28672
#define SYNC_STACK_MERGE 49152
#define SYNC_STACK_PROJECT 28672
#define SYNC_STACK_WINNER 6144
#define SYNC_STACK_LEARNED 6144
#define SYNC_STACK_COVERAGE 6144
#define SYNC_STACK_KNOWLEDGE 6144
#define SYNC_STACK_WALK 1024
#define SYNC_STACK_NEW 1024
#define SYNC_STACK_EDIT 32768
#define SYNC_STACK_DELETE 32768
#define SYNC_STACK_MAKE 57344
#define SYNC_STACK_APPLY 53248

/*
 * The numbers of the refusals. A knowledge is read from left to right, and the number is that of the first field with a
 * fault. Each id, count, key, tick, bound and index is a field of its own.
 *
 * If several inputs have a fault, the first knowledge comes before the second, a store before a batch or a knowledge,
 * and all of these before ids. Inputs come before the result. Each function says which numbers it returns.
 */
enum sync_refusal {
    /* The bytes end inside the field. This comes before any other fault of the field. */
    SYNC_CUT = 1,
    /* A fixed field has another value. */
    SYNC_FIXED_FIELD = 2,
    /* The count of replicas is above 16, the count of vectors is not from 1 to 65, the count of ranges is not from 1 to
       64, or an element count is above the count of replicas. */
    SYNC_COUNT = 3,
    /* The first clock vector is not empty, whatever its count. */
    SYNC_FIRST_VECTOR = 4,
    /* A replica id has been seen before. */
    SYNC_REPLICA_ID = 5,
    /* A replica key is at or above the count of replicas, or repeated in its vector. */
    SYNC_KEY = 6,
    /* A tick is above 9,223,372,036,854,775,807 (2^63 - 1). */
    SYNC_TICK = 7,
    /* A range's bound is not above the one before. */
    SYNC_BOUND = 8,
    /* A clock vector index is at or above the count of vectors. */
    SYNC_INDEX = 9,
    /* Bytes are left over after a knowledge that is otherwise without fault. */
    SYNC_LEFT_OVER = 10,
    /* The result has over 16 replicas. */
    SYNC_OVER_REPLICAS = 11,
    /* The result has over 64 ranges. */
    SYNC_OVER_RANGES = 12,
    /* The result has over 256 records. */
    SYNC_OVER_RECORDS = 13,
    /* The output buffer is shorter than the result. */
    SYNC_SHORT_BUFFER = 14,
    /* The store is not valid. */
    SYNC_STORE = 15,
    /* The batch is not valid. */
    SYNC_BATCH = 16,
    /* An item id, replica id or tag is not 24, 16 or 16 bytes long, or the first id of a span is above the last. */
    SYNC_ARGUMENT = 17,
    /* The store does not cover the batch's needed knowledge in the span, or the batch's learned knowledge has, for some
       item, a tick of the store's own replica above the store's. */
    SYNC_NOT_COVERED = 18,
    /* The item is absent or a tombstone. */
    SYNC_ABSENT = 19,
    /* The largest tick is 9,223,372,036,854,775,807 (2^63 - 1), so no edit can follow. */
    SYNC_LAST_TICK = 20
};

/*
 * Checks whether the n bytes are a knowledge.
 *
 * If they are, returns 0 and sets
 *   sizes[0] to r, the count of replicas,
 *   sizes[1] to v, the count of clock vectors,
 *   sizes[2] to e, the count of elements of all clock vectors together,
 *   sizes[3] to g, the count of ranges,
 * each as it is in the bytes, whether or not they are in normal form.
 *
 * Otherwise returns the number of the refusal, 1 to 10, and leaves sizes as they were.
 */
uint32_t sync_check(const uint8_t *knowledge, size_t n, uint64_t sizes[4]);

/*
 * Says whether a knowledge contains the version of an item, a replica and a tick: the tick is 1 or more and at most the
 * one that the knowledge knows for the item and the replica. An item id has 24 bytes and a replica id 16. Any tick may
 * be given: 0, and those above 2^63 - 1, are not contained.
 *
 * Returns 0 and sets *contained to 1 if it does and to 0 if it does not.
 *
 * Otherwise returns the number of the refusal, 1 to 10 for the knowledge and then 17 for the ids, and leaves *contained
 * as it was.
 */
uint32_t sync_contain(const uint8_t *knowledge, size_t knowledge_n, const uint8_t *item, size_t item_n,
                      const uint8_t *replica, size_t replica_n, uint64_t tick, uint32_t *contained);

/*
 * Gives the lead of the first knowledge over the second for an item and a replica: the tick that the first knows minus
 * the tick that the second knows. A tick that is absent counts as 0. An item id has 24 bytes and a replica id 16.
 *
 * Returns 0 and sets *lead to the difference, which may be negative.
 *
 * Otherwise returns the number of the refusal, 1 to 10 for the first knowledge, then 1 to 10 for the second, then 17
 * for the ids, and leaves *lead as it was.
 */
uint32_t sync_lead(const uint8_t *first, size_t first_n, const uint8_t *second, size_t second_n, const uint8_t *item,
                   size_t item_n, const uint8_t *replica, size_t replica_n, int64_t *lead);

/*
 * Says whether one knowledge knows at least as much as another throughout a span of item ids: for every item from the
 * first id to the last, both included, and every replica, the first knowledge's tick is at least the second's. An item
 * id has 24 bytes.
 *
 * Returns 0 and sets *covers to 1 if it does and to 0 if it does not.
 *
 * Otherwise returns the number of the refusal, 1 to 10 for the first knowledge, then 1 to 10 for the second, then 17
 * for the ids or if the first id is above the last, and leaves *covers as it was.
 */
uint32_t sync_cover(const uint8_t *first_knowledge, size_t first_knowledge_n, const uint8_t *second_knowledge,
                    size_t second_knowledge_n, const uint8_t *first, size_t first_n, const uint8_t *last, size_t last_n,
                    uint32_t *covers);

/*
 * Which of two knowledges is ahead, as sync_compare gives it: bit 0 is set if the first lacks something, and bit 1 if
 * the second does.
 */
enum sync_order {
    /* Both know the same. */
    SYNC_ALIKE = 0,
    /* The first is behind: the second knows all that the first knows, and more. */
    SYNC_BEHIND = 1,
    /* The first is ahead: it knows all that the second knows, and more. */
    SYNC_AHEAD = 2,
    /* Each lacks something that the other knows. */
    SYNC_APART = 3
};

/*
 * The length of the longest result of sync_compare, in bytes. A buffer of this length is never too short for it:
 * theorem `compared-length`, crates/ticks/proofs/Comparing.antt.
 */
#define SYNC_LARGEST_COMPARISON 112

/*
 * Says which of two knowledges is ahead, over all item ids, and gives, for each of the two that lacks something, the
 * first place where it does. A knowledge lacks something at an item and a replica if its tick for them is smaller than
 * the other's.
 *
 * Returns 0 and sets *order to one of the four numbers above. Writes to the front of a buffer (out, which has out_n
 * bytes) 56 bytes for each of the two that lacks something, those for the first before those for the second:
 *   24 bytes: the lowest item id at which its tick for some replica is smaller,
 *   16 bytes: the lowest replica id for which its tick at that item is smaller,
 *    8 bytes: the tick that the first knows for that item and that replica,
 *    8 bytes: the tick that the second knows for them.
 * Each tick has its highest byte first, and is 0 if it is absent. Sets *written to the length of the result, which is
 * 0, 56 or 112. The bytes of the buffer after the result stay as they were.
 *
 * Otherwise returns the number of the refusal, 1 to 10 for the first knowledge, then 1 to 10 for the second, then 14
 * for the result, and leaves *order, out and *written as they were.
 */
uint32_t sync_compare(const uint8_t *first, size_t first_n, const uint8_t *second, size_t second_n, uint32_t *order,
                      uint8_t *out, size_t out_n, uint64_t *written);

/*
 * The next three functions write a knowledge in normal form to the front of a buffer: out, which has out_n bytes. The
 * bytes of the buffer after the result stay as they were. No result has over 14,933 bytes.
 */

/*
 * Writes the normal form of a knowledge, which knows the same ticks.
 *
 * Returns 0 and sets *written to the length of the result.
 *
 * Otherwise returns the number of the refusal, 1 to 10 for the knowledge, then 12 and 14 for the result, and leaves out
 * and *written as they were. A knowledge of 64 ranges that begins above the first item id can have 65 in normal form.
 */
uint32_t sync_normalise(const uint8_t *knowledge, size_t knowledge_n, uint8_t *out, size_t out_n, uint64_t *written);

/*
 * Merges two knowledges: writes the knowledge that knows, for every item and every replica, the larger of the two ticks
 * that they know.
 *
 * Returns 0 and sets *written to the length of the result.
 *
 * Otherwise returns the number of the refusal, 1 to 10 for the first knowledge, then 1 to 10 for the second, then 11,
 * 12 and 14 for the result, in this order, and leaves out and *written as they were.
 */
uint32_t sync_merge(const uint8_t *first, size_t first_n, const uint8_t *second, size_t second_n, uint8_t *out,
                    size_t out_n, uint64_t *written);

/*
 * Projects a knowledge onto a span of item ids: writes the knowledge that knows the same ticks for every item from the
 * first id to the last, both included, and none for any other item. An item id has 24 bytes.
 *
 * Returns 0 and sets *written to the length of the result.
 *
 * Otherwise returns the number of the refusal, 1 to 10 for the knowledge, then 17 for the ids or if the first id is
 * above the last, then 12 and 14 for the result, and leaves out and *written as they were.
 */
uint32_t sync_project(const uint8_t *knowledge, size_t knowledge_n, const uint8_t *first, size_t first_n,
                      const uint8_t *last, size_t last_n, uint8_t *out, size_t out_n, uint64_t *written);

/*
 * Stores, batches and records. A store is what a replica holds: its own replica id, its knowledge and a record for each
 * item. A batch is what one replica hands to others: a part of its knowledge, the knowledge that a replica must have
 * already to apply it, and records. A record is live or a tombstone, and has 89 bytes.
 *
 * A part of an input is given by its place, counted from the input's first byte, and its length. Nothing is copied.
 */

/*
 * Finds the record that an item would have if a batch were applied to a store: of the store's record and the batch's,
 * the one with the greater change tick. If the ticks are equal, it is the one with the greater change replica, and if
 * these are equal too, the store's. If only one of the two has a record of the item, it is that one. An item id has 24
 * bytes.
 *
 * Returns 0 and sets
 *   *side to 1 if the record is the store's, to 2 if it is the batch's, and to 0 if neither has one,
 *   *at to its place in the store or the batch, and *length to its length; both to 0 if neither has one.
 *
 * Otherwise returns the number of the refusal, 15 for the store, then 16 for the batch, then 17 for the id, and leaves
 * *side, *at and *length as they were.
 */
uint32_t sync_winner(const uint8_t *store, size_t store_n, const uint8_t *batch, size_t batch_n, const uint8_t *item,
                     size_t item_n, uint32_t *side, uint64_t *at, uint64_t *length);

/*
 * Finds the learned knowledge of a batch: what its maker knew of the span.
 *
 * Returns 0 and sets *at to its place in the batch and *length to its length.
 *
 * Otherwise returns 16 and leaves *at and *length as they were.
 */
uint32_t sync_learned(const uint8_t *batch, size_t batch_n, uint64_t *at, uint64_t *length);

/*
 * Says how much of a store a knowledge contains.
 *
 * Returns 0 and sets
 *   *contained to the count of records whose change version the knowledge contains,
 *   *all to the count of all records, tombstones included,
 *   *thousandths to 1000 times the first divided by the second, rounded to the nearest whole number, an exact half up,
 *   and to 1000 if there are no records.
 *
 * *thousandths is 1000 only if all records are contained. With the same knowledge, one record of a new item moves it,
 * up or down, by at most 1000 / (*all + 1), rounded up, with *all as it was before.
 *
 * Otherwise returns the number of the refusal, 15 for the store and then 1 to 10 for the knowledge, and leaves
 * *contained, *all and *thousandths as they were.
 */
uint32_t sync_coverage(const uint8_t *store, size_t store_n, const uint8_t *knowledge, size_t knowledge_n,
                       uint64_t *contained, uint64_t *all, uint64_t *thousandths);

/*
 * Finds the knowledge of a store. A replica sends it to another to ask for a batch.
 *
 * Returns 0 and sets *at to its place in the store and *length to its length.
 *
 * Otherwise returns 15 and leaves *at and *length as they were.
 */
uint32_t sync_knowledge(const uint8_t *store, size_t store_n, uint64_t *at, uint64_t *length);

/*
 * Looks at a place in a table of records, which are live or tombstones. To go through the table, start at place 0 and
 * add each length.
 *
 * Always returns 0. Sets *length to the length of the record at the place, or to 0 if no whole record follows there or
 * the place is beyond the table. It looks only at the record's kind and length.
 */
uint32_t sync_walk(const uint8_t *table, size_t table_n, uint64_t at, uint64_t *length);

/*
 * The functions below write a store or a batch to the front of a buffer: out, which has out_n bytes. The bytes of the
 * buffer after the result stay as they were. No store has over 37,742 bytes, and no batch over 52,711. The store that
 * is given is never changed. The caller must keep the new one in its place.
 */

/*
 * Writes the store of a new replica, which knows nothing and holds nothing; it has 138 bytes. A replica id has 16
 * bytes, and no two replicas have the same.
 *
 * Returns 0 and sets *written to the length of the result.
 *
 * Otherwise returns the number of the refusal, 17 for the id and then 14 for the result, and leaves out and *written as
 * they were.
 */
uint32_t sync_new(const uint8_t *own, size_t own_n, uint8_t *out, size_t out_n, uint64_t *written);

/*
 * Edits an item: writes the store in which the item has a live record with the given tag. The record's change version
 * is made by the store's own replica, at a tick of 1 more than the largest that the store knows. An item that has a
 * record, even a tombstone, keeps its create version. An item id has 24 bytes and a tag 16.
 *
 * Returns 0 and sets *written to the length of the result.
 *
 * Otherwise returns the number of the refusal, 15 for the store, then 17 for the id and the tag, then 20, then 11, 13
 * and 14 for the result, in this order, and leaves out and *written as they were.
 */
uint32_t sync_edit(const uint8_t *store, size_t store_n, const uint8_t *item, size_t item_n, const uint8_t *tag,
                   size_t tag_n, uint8_t *out, size_t out_n, uint64_t *written);

/*
 * Deletes an item: writes the store in which its record is a tombstone. The change version is made as in an edit. An
 * item id has 24 bytes.
 *
 * Returns 0 and sets *written to the length of the result.
 *
 * Otherwise returns the number of the refusal, 15 for the store, then 17 for the id, then 19, then 20, then 11 and 14
 * for the result, in this order, and leaves out and *written as they were.
 */
uint32_t sync_delete(const uint8_t *store, size_t store_n, const uint8_t *item, size_t item_n, uint8_t *out,
                     size_t out_n, uint64_t *written);

/*
 * Makes a batch for a replica with a given knowledge. The batch has what the store knows of a span of item ids, from
 * the first id to the last, both included, and the records in the span whose change version the given knowledge does
 * not contain. Only a store that covers the given knowledge in the span accepts the batch; for any other, sync_apply
 * refuses it with 18. An item id has 24 bytes.
 *
 * Returns 0 and sets *written to the length of the result.
 *
 * Otherwise returns the number of the refusal, 15 for the store, then 1 to 10 for the knowledge, then 17 for the ids or
 * if the first id is above the last, then 12 and 14 for the result, and leaves out and *written as they were.
 */
uint32_t sync_make(const uint8_t *store, size_t store_n, const uint8_t *knowledge, size_t knowledge_n,
                   const uint8_t *first, size_t first_n, const uint8_t *last, size_t last_n, uint8_t *out, size_t out_n,
                   uint64_t *written);

/*
 * Applies a batch: writes the store that has, for each item, the record that sync_winner finds. Its knowledge is the
 * store's merged with the learned knowledge of the batch.
 *
 * Returns 0 and sets *written to the length of the result.
 *
 * Otherwise returns the number of the refusal, 15 for the store, then 16 for the batch, then 18, then 11, 12, 13 and 14
 * for the result, in this order, and leaves out and *written as they were. A batch that is refused with 18 may be
 * accepted later.
 */
uint32_t sync_apply(const uint8_t *store, size_t store_n, const uint8_t *batch, size_t batch_n, uint8_t *out,
                    size_t out_n, uint64_t *written);

#ifdef __cplusplus
}
#endif

#endif
