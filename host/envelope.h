/*
 * The envelope of a file: a line that says what the file is, the length of its bytes (four bytes, the first the highest), the bytes, and
 * a digest of 32 bytes over all of it. The line is "sync KIND 1 sha256", or with a key "sync KIND 1 hmac-sha256".
 */

#ifndef ENVELOPE_H
#define ENVELOPE_H

#include <stddef.h>
#include <stdint.h>

enum kind { KNOWLEDGE, STORE, BATCH, LAST_TICK };
extern const char *const kind_names[];

/* No file of ours has more bytes in its envelope than a batch, nor an envelope more than this. */
enum { ENVELOPE_MOST = 80, DIGEST = 32, KEY_LEAST = 16, KEY_MOST = 1024 };

/* What a server seals its files with; no bytes if it has no key. */
struct key {
    size_t n;
    uint8_t bytes[KEY_MOST];
};
extern const struct key no_key;

/* How a file stands on the disk. */
enum form { BARE, SEALED, KEYED };
extern const char *const form_names[];

/* Writes the envelope with the bytes in it to out, which has room for both; its length. */
size_t seal(enum kind kind, const struct key *key, const uint8_t *bytes, size_t n, uint8_t *out);

/* What was found in an envelope. */
struct opened {
    const char *fault; /* in words, or null; if there is one, nothing else but this is found: */
    int is_damaged;    /* the fault is damage, and no matter of keys or options */
    enum kind kind;
    enum form form;
    const uint8_t *bytes;
    size_t n;
};

/* Whether the bytes begin as an envelope does. No knowledge, store or batch of the engine begins so. */
int is_envelope(const uint8_t *file, size_t n);

/* Whether they are an envelope whose line says that it is sealed with a key. */
int is_keyed(const uint8_t *file, size_t n);

/* Opens an envelope and compares its digest. */
struct opened open_envelope(const struct key *key, const uint8_t *file, size_t n);

/* SHA-256 of bytes, and of a file that is read to its end; the latter is 0, or -1 and errno. */
void digest_of(const void *bytes, size_t n, uint8_t digest[DIGEST]);
int digest_of_file(int descriptor, uint8_t digest[DIGEST]);

#endif
