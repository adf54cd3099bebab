/* Knowledges and comparisons as bytes, field by field, for the C tests. */

#ifndef KNOWLEDGES_H
#define KNOWLEDGES_H

#define NUMBER(n) 0, 0, 0, n
#define TICK(n) NUMBER(0), NUMBER(n)
#define REPLICA(n) NUMBER(0), NUMBER(0), NUMBER(0), NUMBER(n)
#define ITEM(n) NUMBER(0), NUMBER(0), REPLICA(n)
#define TOP 255, 255, 255, 255, 255, 255, 255, 255, 255, 255, 255, 255, 255, 255, 255, 255, 255, 255, 255, 255, 255, 255, 255, 255

/* The replicas P and Q. */
#define P 1
#define Q 2

/* The parts of a knowledge around its replicas and its clock vectors. */
#define OPENING NUMBER(5), NUMBER(0), NUMBER(1), NUMBER(0), NUMBER(5), 0, 0, 16
#define BEFORE_VECTORS NUMBER(24), 0, 0, 16, 0, 0, 24, 0, 0, 1, NUMBER(21)
#define NO_ELEMENTS NUMBER(1), NUMBER(0)
#define BEFORE_RANGES NUMBER(23), NUMBER(1), NUMBER(22)
#define CLOSING NUMBER(0), NUMBER(25), 1, NUMBER(0)

/* Nothing; one tick of a replica everywhere; one of P and one of Q everywhere. */
#define NOTHING \
    OPENING, NUMBER(0), BEFORE_VECTORS, NUMBER(1), NO_ELEMENTS, BEFORE_RANGES, NUMBER(1), ITEM(0), NUMBER(0), CLOSING
#define KNOWS(replica, tick) \
    OPENING, NUMBER(1), REPLICA(replica), BEFORE_VECTORS, NUMBER(2), NO_ELEMENTS, \
    NUMBER(1), NUMBER(1), NUMBER(0), TICK(tick), BEFORE_RANGES, NUMBER(1), ITEM(0), NUMBER(1), CLOSING
#define KNOWS_BOTH(p, q) \
    OPENING, NUMBER(2), REPLICA(P), REPLICA(Q), BEFORE_VECTORS, NUMBER(2), NO_ELEMENTS, \
    NUMBER(1), NUMBER(2), NUMBER(0), TICK(p), NUMBER(1), TICK(q), BEFORE_RANGES, NUMBER(1), ITEM(0), NUMBER(1), CLOSING

/* Where one lacks something first: an item, a replica, the first's tick there and the second's. */
#define LACK(item, replica, first, second) ITEM(item), REPLICA(replica), TICK(first), TICK(second)

#endif
