/* What a call of a C test wrote into the one buffer of the program: these bytes and no others. */

#ifndef WROTE_H
#define WROTE_H

#include <inttypes.h>
#include <stdio.h>
#include <string.h>

/* A buffer that is longer than all results of these programs, and the length written. */
#define ROOM 600
static uint8_t out[ROOM];
static uint64_t written;

/* Forgets what was written. */
static void forget(void)
{
    memset(out, 7, sizeof out);
    written = 7;
}

/* Whether a call gave the number, and wrote these n bytes and no others; on a refusal n is 0. Forgets what was written. */
static int wrote(const char *call, uint32_t given, uint32_t number, const uint8_t *wanted, size_t n)
{
    size_t place;
    int right = given == number && written == (number == 0 ? n : 7) && memcmp(out, wanted, n) == 0;
    for (place = n; place < ROOM; place++)
        right = right && out[place] == 7;
    if (!right)
        fprintf(stderr, "%s: %" PRIu32 " and length %" PRIu64 ", not %" PRIu32 " and these %zu bytes\n",
                call, given, written, number, n);
    forget();
    return right;
}

#endif
