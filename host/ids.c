#include "ids.h"

#include <stdio.h>
#include <stdlib.h>
#include <string.h>

#include "messages.h"

#define WHOLE 16 /* an id of so many digits, without leading zeros, is shown whole */
#define FRONT 4  /* of a longer one at least so many bytes */

struct ids items = {.length = SYNC_ITEM, .front = FRONT};
struct ids replicas = {.length = SYNC_REPLICA, .front = FRONT};
int full_ids;

void all_digits(const uint8_t *bytes, size_t n, char *text)
{
    size_t at;
    for (at = 0; at < n; at++)
        sprintf(text + 2 * at, "%02x", bytes[at]);
}

/* How many digits there are without leading zeros; 1 for zero. */
static size_t digits_of(const uint8_t *bytes, size_t n)
{
    size_t at = 0;
    while (at + 1 < n && bytes[at] == 0)
        at++;
    return 2 * (n - at) - (bytes[at] < 16);
}

static int is_long(const struct ids *ids, const uint8_t *id)
{
    return digits_of(id, ids->length) > WHOLE;
}

void add_id(struct ids *ids, const uint8_t *id)
{
    size_t at;
    for (at = 0; at < ids->count; at++)
        if (memcmp(ids->id[at], id, ids->length) == 0)
            return;
    for (at = 0; is_long(ids, id) && at < ids->count; at++)
        while (is_long(ids, ids->id[at]) && memcmp(ids->id[at], id, ids->front) == 0)
            ids->front++;
    if (ids->count == ids->room) {
        ids->room = 2 * ids->room + 256;
        ids->id = need_memory(realloc(ids->id, ids->room * sizeof *ids->id));
    }
    ids->id[ids->count++] = id;
}

static int is_top(const struct ids *ids, const uint8_t *id)
{
    size_t at = 0;
    while (at < ids->length && id[at] == 255)
        at++;
    return ids->length == SYNC_ITEM && at == SYNC_ITEM;
}

const char *id_text(const struct ids *ids, const uint8_t *id, char text[ID_TEXT])
{
    size_t digits = digits_of(id, ids->length);
    all_digits(id, ids->length, text);
    if (full_ids)
        return text;
    if (is_top(ids, id))
        strcpy(text, "top");
    else if (digits <= WHOLE)
        memmove(text, text + 2 * ids->length - digits, digits + 1);
    else if (ids->front + 1 < ids->length)
        strcpy(text + 2 * ids->front, "..");
    return text;
}

/* The value of a hexadecimal digit, or -1. */
static int digit(char c)
{
    static const char digits[] = "0123456789abcdef0123456789ABCDEF";
    const char *found = c ? strchr(digits, c) : NULL;
    return found ? (int)((found - digits) % 16) : -1;
}

int read_digits(const char *text, size_t length, uint8_t *bytes, size_t n)
{
    size_t at;
    memset(bytes, 0, n);
    if (length == 0 || length > 2 * n)
        return 0;
    for (at = 0; at < length; at++) {
        size_t place = 2 * n - length + at;
        if (digit(text[at]) < 0)
            return 0;
        bytes[place / 2] |= (uint8_t)(digit(text[at]) << (place % 2 ? 0 : 4));
    }
    return 1;
}

/* Finds the one id that begins with these digits. */
static void find_id(const struct ids *ids, const char *text, size_t length, uint8_t *id)
{
    size_t at, found = 0;
    for (at = 0; at < ids->count; at++) {
        char whole[ID_TEXT];
        size_t same = 0;
        all_digits(ids->id[at], ids->length, whole);
        while (same < length && digit(text[same]) == digit(whole[same]))
            same++;
        if (same == length && found++ == 0)
            memcpy(id, ids->id[at], ids->length);
    }
    if (found != 1)
        wrong_usage("%s: %s here begins so; give all of its digits", text, found ? "more than one id" : "no id");
}

/* How many digits the text of an id has before its "..", and 0 where it has none. */
static size_t front_of(const char *text)
{
    size_t length = strlen(text);
    return length > 2 && strcmp(text + length - 2, "..") == 0 ? length - 2 : 0;
}

static int is_top_text(const struct ids *ids, const char *text)
{
    return ids->length == SYNC_ITEM && strcmp(text, "top") == 0;
}

void need_id(const struct ids *ids, const char *text)
{
    uint8_t id[SYNC_ITEM];
    size_t front = front_of(text);
    if (!is_top_text(ids, text) && !read_digits(text, front ? front : strlen(text), id, ids->length))
        wrong_usage("%s: %s id is 1 to %zu hexadecimal digits", text, ids->length == SYNC_ITEM ? "an item's" : "a replica's",
                    2 * ids->length);
}

void read_id(const struct ids *ids, const char *text, uint8_t *id)
{
    need_id(ids, text);
    if (is_top_text(ids, text))
        memset(id, 255, SYNC_ITEM);
    else if (front_of(text) > 0)
        find_id(ids, text, front_of(text), id);
    else
        read_digits(text, strlen(text), id, ids->length);
}

void read_tag(const char *text, uint8_t tag[SYNC_TAG])
{
    if (!read_digits(text, strlen(text), tag, SYNC_TAG))
        wrong_usage("%s: a tag is 1 to %d hexadecimal digits", text, 2 * SYNC_TAG);
}

const char *tag_text(const uint8_t *tag, char text[ID_TEXT])
{
    size_t digits = full_ids ? 2 * SYNC_TAG : digits_of(tag, SYNC_TAG);
    all_digits(tag, SYNC_TAG, text);
    return memmove(text, text + 2 * SYNC_TAG - digits, digits + 1);
}
