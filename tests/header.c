/* Calls the engine through its C header, as C and as C++: the smallest knowledge, cut, and with a byte left over;
   the other calls on the paper's knowledges A and B; and inputs that overlap. */

#include <inttypes.h>
#include <stdio.h>
#include <string.h>

#include "sync.h"

#include "knowledges.h"
#include "wrote.h"

#define LENGTH 113

/* The smallest knowledge, and one byte more. */
static const uint8_t bytes[LENGTH + 1] = {
    0, 0, 0, 5,  0, 0, 0, 0,  0, 0, 0, 1,  0, 0, 0, 0,
    0, 0, 0, 5,  0,  0, 16,  0, 0, 0, 0,
    0, 0, 0, 24,  0,  0, 16,  0,  0, 24,  0,  0, 1,
    0, 0, 0, 21,  0, 0, 0, 1,
    0, 0, 0, 1,  0, 0, 0, 0,
    0, 0, 0, 23,  0, 0, 0, 1,  0, 0, 0, 22,  0, 0, 0, 1,
    0, 0, 0, 0, 0, 0, 0, 0, 0, 0, 0, 0, 0, 0, 0, 0, 0, 0, 0, 0, 0, 0, 0, 0,  0, 0, 0, 0,
    0, 0, 0, 0,  0, 0, 0, 25,  1,  0, 0, 0, 0,
    0
};

/* Whether the first n bytes get the number, and the sizes end as these. */
static int right(size_t n, uint32_t number, uint64_t r, uint64_t v, uint64_t e, uint64_t g)
{
    uint64_t sizes[4] = {7, 7, 7, 7};
    uint32_t given = sync_check(bytes, n, sizes);
    if (given == number && sizes[0] == r && sizes[1] == v && sizes[2] == e && sizes[3] == g)
        return 1;
    fprintf(stderr,
            "header: %zu bytes: %" PRIu32 " and sizes %" PRIu64 " %" PRIu64 " %" PRIu64 " %" PRIu64
            ", not %" PRIu32 " and %" PRIu64 " %" PRIu64 " %" PRIu64 " %" PRIu64 "\n",
            n, given, sizes[0], sizes[1], sizes[2], sizes[3], number, r, v, e, g);
    return 0;
}

#define ITEM_LENGTH 24
#define REPLICA_LENGTH 16

/* The knowledges of K4, everywhere: A with tick 5 of replica P; B with tick 3 of P and tick 2 of Q; and the two merged. */
static const uint8_t a[] = {KNOWS(P, 5)};
static const uint8_t b[] = {KNOWS_BOTH(3, 2)};
static const uint8_t merged[] = {KNOWS_BOTH(5, 2)};

/* A from item 1 to the top: nothing, and from item 1 on tick 5 of replica P. */
static const uint8_t part[] = {
    OPENING, NUMBER(1), REPLICA(P), BEFORE_VECTORS, NUMBER(2), NO_ELEMENTS, NUMBER(1), NUMBER(1), NUMBER(0), TICK(5),
    BEFORE_RANGES, NUMBER(2), ITEM(0), NUMBER(0), ITEM(1), NUMBER(1), CLOSING
};

static const uint8_t p[] = {REPLICA(P)};
static const uint8_t q[] = {REPLICA(Q)};
static const uint8_t first[] = {ITEM(0)};
static const uint8_t one[] = {ITEM(1)};
static const uint8_t last[] = {TOP};

/* Whether a call gave the number, and the value ended as this one. */
static int gave(const char *call, uint32_t given, uint32_t number, int64_t value, int64_t wanted)
{
    if (given == number && value == wanted)
        return 1;
    fprintf(stderr, "header: %s: %" PRIu32 " and %" PRId64 ", not %" PRIu32 " and %" PRId64 "\n",
            call, given, value, number, wanted);
    return 0;
}

static int contain(const uint8_t *knowledge, size_t n, size_t replica, uint64_t tick, uint32_t number, uint32_t wanted)
{
    uint32_t contained = 7;
    uint32_t given = sync_contain(knowledge, n, last, ITEM_LENGTH, p, replica, tick, &contained);
    return gave("contain", given, number, contained, wanted);
}

static int lead(const uint8_t *replica, size_t item, uint32_t number, int64_t wanted)
{
    int64_t value = 7;
    uint32_t given = sync_lead(a, sizeof a, b, sizeof b, first, item, replica, REPLICA_LENGTH, &value);
    return gave("lead", given, number, value, wanted);
}

static int cover(const uint8_t *knowledge, size_t n, const uint8_t *from, const uint8_t *to, uint32_t number, uint32_t wanted)
{
    uint32_t covers = 7;
    uint32_t given = sync_cover(knowledge, n, a, sizeof a, from, ITEM_LENGTH, to, ITEM_LENGTH, &covers);
    return gave("cover", given, number, covers, wanted);
}

static int calls(void)
{
    return contain(a, sizeof a, REPLICA_LENGTH, 5, 0, 1)
        && contain(a, sizeof a, REPLICA_LENGTH, 6, 0, 0)
        && contain(a, sizeof a, REPLICA_LENGTH, 0, 0, 0)
        && contain(a, sizeof a - 1, REPLICA_LENGTH - 1, 5, SYNC_CUT, 7)
        && contain(a, sizeof a, REPLICA_LENGTH - 1, 5, 17, 7)
        && lead(p, ITEM_LENGTH, 0, 2)
        && lead(q, ITEM_LENGTH, 0, -2)
        && lead(q, 0, 17, 7)
        && cover(a, sizeof a, first, last, 0, 1)
        && cover(b, sizeof b, first, last, 0, 0)
        && cover(b, sizeof b, last, first, 17, 7)
        && cover(b, 0, last, first, SYNC_CUT, 7);
}

static int writing(void)
{
    forget();
    return wrote("normalise", sync_normalise(a, sizeof a, out, ROOM, &written), 0, a, sizeof a)
        && wrote("normalise", sync_normalise(bytes, LENGTH, out, LENGTH, &written), 0, bytes, LENGTH)
        && wrote("normalise", sync_normalise(a, 0, out, 0, &written), SYNC_CUT, out, 0)
        && wrote("normalise", sync_normalise(a, sizeof a, out, sizeof a - 1, &written), SYNC_SHORT_BUFFER, out, 0)
        && wrote("merge", sync_merge(a, sizeof a, b, sizeof b, out, ROOM, &written), 0, merged, sizeof merged)
        && wrote("merge", sync_merge(b, sizeof b, a, sizeof a, out, sizeof merged, &written), 0, merged, sizeof merged)
        && wrote("merge", sync_merge(a, sizeof a, b, sizeof b - 1, out, ROOM, &written), SYNC_CUT, out, 0)
        && wrote("merge", sync_merge(a, sizeof a, b, sizeof b, out, 0, &written), SYNC_SHORT_BUFFER, out, 0)
        && wrote("project", sync_project(a, sizeof a, one, ITEM_LENGTH, last, ITEM_LENGTH, out, ROOM, &written), 0, part, sizeof part)
        && wrote("project", sync_project(a, sizeof a, first, ITEM_LENGTH, last, ITEM_LENGTH, out, ROOM, &written), 0, a, sizeof a)
        && wrote("project", sync_project(a, sizeof a, last, ITEM_LENGTH, one, ITEM_LENGTH, out, ROOM, &written), SYNC_ARGUMENT, out, 0)
        && wrote("project", sync_project(a, sizeof a, one, ITEM_LENGTH - 1, last, ITEM_LENGTH, out, ROOM, &written), SYNC_ARGUMENT, out, 0)
        && wrote("project", sync_project(a, sizeof a, one, ITEM_LENGTH, last, ITEM_LENGTH, out, sizeof part - 1, &written),
                 SYNC_SHORT_BUFFER, out, 0);
}

/* A knowledge as it is given to a call, or other bytes. */
struct input {
    const uint8_t *bytes;
    size_t n;
};

static const struct input in_a = {a, sizeof a}, in_b = {b, sizeof b}, in_merged = {merged, sizeof merged};
static const struct input in_cut = {a, sizeof a - 1}, in_longer = {bytes, LENGTH + 1};

/* What A lacks of B, tick 2 of replica Q at item 0, and what B lacks of A, which knows tick 5 of replica P there and not 3. */
#define LACK_LENGTH 56
static const uint8_t lacks[SYNC_LARGEST_COMPARISON] = {LACK(0, Q, 0, 2), LACK(0, P, 5, 3)};

/* Whether comparing two, with so much room, gives the number, the order and these n bytes; the order stays 7 on a refusal. */
static int compare(struct input x, struct input y, size_t room, uint32_t number, uint32_t order, const uint8_t *wanted, size_t n)
{
    uint32_t value = 7;
    uint32_t given = sync_compare(x.bytes, x.n, y.bytes, y.n, &value, out, room, &written);
    return gave("compare", given, number, value, order) && wrote("compare", given, number, wanted, n);
}

static int comparing(void)
{
    forget();
    return compare(in_a, in_a, 0, 0, SYNC_ALIKE, lacks, 0)
        && compare(in_a, in_merged, LACK_LENGTH, 0, SYNC_BEHIND, lacks, LACK_LENGTH)
        && compare(in_merged, in_b, LACK_LENGTH, 0, SYNC_AHEAD, lacks + LACK_LENGTH, LACK_LENGTH)
        && compare(in_a, in_b, SYNC_LARGEST_COMPARISON, 0, SYNC_APART, lacks, sizeof lacks)
        && compare(in_a, in_b, ROOM, 0, SYNC_APART, lacks, sizeof lacks)
        && compare(in_cut, in_longer, 0, SYNC_CUT, 7, out, 0)
        && compare(in_b, in_longer, 0, SYNC_LEFT_OVER, 7, out, 0)
        && compare(in_merged, in_b, LACK_LENGTH - 1, SYNC_SHORT_BUFFER, 7, out, 0)
        && compare(in_a, in_b, SYNC_LARGEST_COMPARISON - 1, SYNC_SHORT_BUFFER, 7, out, 0);
}

/* Inputs may overlap: the same knowledge twice, the same id twice, and ids that are parts of each other or of the knowledge. */
static int overlapping(void)
{
    const uint8_t *inside = a + 16;
    uint32_t covers = 7, contained = 7;
    int64_t value = 7;
    uint32_t cover_gave = sync_cover(b, sizeof b, b, sizeof b, inside, ITEM_LENGTH, inside, ITEM_LENGTH, &covers);
    uint32_t lead_gave = sync_lead(a, sizeof a, a, sizeof a, inside, ITEM_LENGTH, inside + 4, REPLICA_LENGTH, &value);
    uint32_t contain_gave = sync_contain(a, sizeof a, inside, ITEM_LENGTH, a + 27, REPLICA_LENGTH, 5, &contained);
    forget();
    return gave("cover", cover_gave, 0, covers, 1)
        && gave("lead", lead_gave, 0, value, 0)
        && gave("contain", contain_gave, 0, contained, 1)
        && compare(in_b, in_b, 0, 0, SYNC_ALIKE, lacks, 0)
        && wrote("merge", sync_merge(b, sizeof b, b, sizeof b, out, ROOM, &written), 0, b, sizeof b)
        && wrote("project", sync_project(a, sizeof a, inside, ITEM_LENGTH, inside, ITEM_LENGTH, out, 0, &written),
                 SYNC_SHORT_BUFFER, out, 0);
}

int main(void)
{
    return right(LENGTH, 0, 0, 1, 0, 1)
        && right(LENGTH - 1, SYNC_CUT, 7, 7, 7, 7)
        && right(LENGTH + 1, SYNC_LEFT_OVER, 7, 7, 7, 7)
        && right(0, SYNC_CUT, 7, 7, 7, 7)
        && calls()
        && comparing()
        && writing()
        && overlapping()
        ? 0 : 1;
}
