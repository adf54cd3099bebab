/* Ids as people read and write them: in hexadecimal, padded with zeros on the left, long ones shortened where that leaves no doubt. */

#ifndef IDS_H
#define IDS_H

#include <stddef.h>
#include <stdint.h>

#include "sync_format.h"

#define ID_TEXT (2 * SYNC_ITEM + 1) /* room for any id as text */

/* The ids that are shown together. Each is shown so that it is none of the others. */
struct ids {
    size_t length;        /* of each, in bytes */
    size_t front;         /* how many bytes of a long one are shown */
    size_t count, room;
    const uint8_t **id;
};
extern struct ids items, replicas;

/* If set, ids are shown with all their digits. */
extern int full_ids;

void add_id(struct ids *ids, const uint8_t *id);

/* Writes an id as text and returns it. The item of 24 bytes 255 is "top" unless ids are shown in full. */
const char *id_text(const struct ids *ids, const uint8_t *id, char text[ID_TEXT]);

/* Ends the program unless the text can be an id. */
void need_id(const struct ids *ids, const char *text);

/* Reads an id from text, or ends the program. "8f3a.." is the one of the ids that begins so. */
void read_id(const struct ids *ids, const char *text, uint8_t *id);

/* Reads digits into the last places of n bytes; the others are 0. Whether these are digits, and not too many. */
int read_digits(const char *text, size_t length, uint8_t *bytes, size_t n);

/* Writes all digits of n bytes. */
void all_digits(const uint8_t *bytes, size_t n, char *text);

/* Reads a tag, whose digits are shown and read like those of an id. */
void read_tag(const char *text, uint8_t tag[SYNC_TAG]);
const char *tag_text(const uint8_t *tag, char text[ID_TEXT]);

#endif
