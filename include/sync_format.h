/*
 * Where the fields of a record, a store, a batch, a knowledge and a comparison stand, for programs in C and C++ that
 * read what the engine has written or found valid. sync_knowledge refuses a store that is not valid, sync_learned such
 * a batch, and sync_check bytes that are no knowledge. Nothing here looks for faults.
 *
 * Places and lengths are in bytes; places count from the first byte of the thing that is named. docs/FORMAT.md has the
 * whole layout, and what the fields mean.
 */

#ifndef SYNC_FORMAT_H
#define SYNC_FORMAT_H

#include <stddef.h>
#include <stdint.h>

enum sync_format {
    /* The lengths of an item id, a replica id and a content tag. */
    SYNC_ITEM = 24,
    SYNC_REPLICA = 16,
    SYNC_TAG = 16,

    /* The first byte of a record, a store or a batch is its kind. A record is live or a tombstone. */
    SYNC_KIND_LIVE = 1,
    SYNC_KIND_TOMBSTONE = 2,
    SYNC_KIND_STORE = 3,
    SYNC_KIND_BATCH = 4,

    /* A record: item id, change version, create version and content tag, which is all 0 in a tombstone. */
    SYNC_RECORD_ITEM = 1,
    SYNC_RECORD_CHANGE = 25,
    SYNC_RECORD_CREATE = 49,
    SYNC_RECORD_TAG = 73,
    SYNC_RECORD_LENGTH = 89,

    /* A version in a record: a replica id, then at this place its tick, 8 bytes. */
    SYNC_VERSION_TICK = 16,

    /* A store: its replica's id, the length of its knowledge and the count of its records, 4 bytes each, then the
       knowledge. The records follow the knowledge. */
    SYNC_STORE_OWN = 1,
    SYNC_STORE_KNOWLEDGE_LENGTH = 17,
    SYNC_STORE_COUNT = 21,
    SYNC_STORE_KNOWLEDGE = 25,

    /* A batch: the first and the last item id of its span, the lengths of the needed and of the learned knowledge and
       the count of its records, 4 bytes each, then the needed knowledge. The learned knowledge follows it, then the
       records. */
    SYNC_BATCH_FIRST = 1,
    SYNC_BATCH_LAST = 25,
    SYNC_BATCH_NEEDED_LENGTH = 49,
    SYNC_BATCH_LEARNED_LENGTH = 53,
    SYNC_BATCH_COUNT = 57,
    SYNC_BATCH_NEEDED = 61,

    /* A knowledge: where its replica ids begin. Where its ranges begin, sync_ranges_at says. */
    SYNC_KNOWLEDGE_REPLICAS = 27,

    /* A range: the item id that it begins at, then at this place the index of its clock vector, 4 bytes. */
    SYNC_RANGE_INDEX = 24,
    SYNC_RANGE_LENGTH = 28,

    /* A comparison has, for each knowledge that lacks something, where it lacks it first: an item id, a replica id, and
       the ticks there of the first and of the second knowledge, 8 bytes each. */
    SYNC_LACK_ITEM = 0,
    SYNC_LACK_REPLICA = 24,
    SYNC_LACK_FIRST_TICK = 40,
    SYNC_LACK_SECOND_TICK = 48,
    SYNC_LACK_LENGTH = 56
};

/* Where the ranges of a knowledge begin, by the sizes that sync_check gives. There are sizes[3] of them. */
static inline size_t sync_ranges_at(const uint64_t sizes[4])
{
    return (size_t)(64 + 16 * sizes[0] + 8 * sizes[1] + 12 * sizes[2]);
}

/* The number that n bytes are, at most 8, of which the first is the highest. */
static inline uint64_t sync_number_at(const uint8_t *bytes, size_t n)
{
    uint64_t number = 0;
    while (n-- > 0)
        number = number << 8 | *bytes++;
    return number;
}

#endif
