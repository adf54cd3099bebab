#include "envelope.h"

#include <errno.h>
#include <stdio.h>
#include <stdlib.h>
#include <string.h>
#include <unistd.h>

#include <openssl/crypto.h>
#include <openssl/evp.h>
#include <openssl/hmac.h>

#include "messages.h"

#define MARK "sync " /* what every envelope begins with; the engine's bytes begin with 0, 3 or 4 */

const char *const kind_names[] = {[KNOWLEDGE] = "knowledge", [STORE] = "store", [BATCH] = "batch", [LAST_TICK] = "last-tick"};
const char *const form_names[] = {[BARE] = "bare", [SEALED] = "sealed", [KEYED] = "sealed with a key"};
const struct key no_key;

enum { LENGTH = 4, LINE_MOST = 40 };

static _Noreturn void no_digest(void)
{
    trouble("libcrypto", "cannot compute a digest");
}

void digest_of(const void *bytes, size_t n, uint8_t digest[DIGEST])
{
    if (EVP_Digest(bytes, n, digest, NULL, EVP_sha256(), NULL) != 1)
        no_digest();
}

int digest_of_file(int descriptor, uint8_t digest[DIGEST])
{
    static uint8_t part[65536];
    EVP_MD_CTX *context = EVP_MD_CTX_new();
    ssize_t got = 0;
    if (!context || EVP_DigestInit_ex(context, EVP_sha256(), NULL) != 1)
        no_digest();
    while ((got = read(descriptor, part, sizeof part)) != 0) {
        if (got < 0 && errno != EINTR)
            break;
        if (got > 0 && EVP_DigestUpdate(context, part, (size_t)got) != 1)
            no_digest();
    }
    if (got == 0 && EVP_DigestFinal_ex(context, digest, NULL) != 1)
        no_digest();
    EVP_MD_CTX_free(context);
    return got == 0 ? 0 : -1;
}

static void sealed_digest(const struct key *key, const uint8_t *bytes, size_t n, uint8_t digest[DIGEST])
{
    if (key->n == 0)
        digest_of(bytes, n, digest);
    else if (!HMAC(EVP_sha256(), key->bytes, (int)key->n, bytes, n, digest, NULL))
        no_digest();
}

/* The line of an envelope; its length. */
static size_t line_of(enum kind kind, enum form form, char line[LINE_MOST])
{
    return (size_t)sprintf(line, MARK "%s 1 %s\n", kind_names[kind], form == KEYED ? "hmac-sha256" : "sha256");
}

size_t seal(enum kind kind, const struct key *key, const uint8_t *bytes, size_t n, uint8_t *out)
{
    char line[LINE_MOST];
    size_t at, front = line_of(kind, key->n > 0 ? KEYED : SEALED, line);
    memcpy(out, line, front);
    for (at = 0; at < LENGTH; at++)
        out[front + at] = (uint8_t)(n >> 8 * (LENGTH - 1 - at));
    memcpy(out + front + LENGTH, bytes, n);
    sealed_digest(key, out, front + LENGTH + n, out + front + LENGTH + n);
    return front + LENGTH + n + DIGEST;
}

int is_envelope(const uint8_t *file, size_t n)
{
    return n >= strlen(MARK) && memcmp(file, MARK, strlen(MARK)) == 0;
}

/* Reads the line; its length, or 0 if it is none of ours. */
static size_t read_line(const uint8_t *file, size_t n, enum kind *kind, enum form *form)
{
    static const enum form forms[] = {SEALED, KEYED};
    char line[LINE_MOST];
    size_t at, length;
    for (*kind = KNOWLEDGE; *kind <= LAST_TICK; (*kind)++)
        for (at = 0; at < 2; at++) {
            *form = forms[at];
            length = line_of(*kind, *form, line);
            if (n >= length && memcmp(file, line, length) == 0)
                return length;
        }
    return 0;
}

int is_keyed(const uint8_t *file, size_t n)
{
    enum kind kind;
    enum form form;
    return read_line(file, n, &kind, &form) > 0 && form == KEYED;
}

static struct opened fault(const char *words, int is_damaged)
{
    struct opened opened = {words, is_damaged, KNOWLEDGE, BARE, NULL, 0};
    return opened;
}

struct opened open_envelope(const struct key *key, const uint8_t *file, size_t n)
{
    struct opened opened = {NULL, 0, KNOWLEDGE, BARE, NULL, 0};
    uint8_t digest[DIGEST];
    size_t at, length = 0, front = read_line(file, n, &opened.kind, &opened.form);
    if (n == 0)
        return fault("the file is empty", 1);
    if (front == 0 && is_envelope(file, n))
        return fault("its first line is damaged, or is that of a later version of this program: then use that one", 1);
    if (front == 0)
        return fault("it has no envelope; --bare reads bytes without one", 0);
    if (n < front + LENGTH + DIGEST)
        return fault("it was cut: the envelope is not whole", 1);
    for (at = 0; at < LENGTH; at++)
        length = length << 8 | file[front + at];
    if (length != n - front - LENGTH - DIGEST)
        return fault("its length is not the one that it says; it was cut or damaged", 1);
    if (opened.form == KEYED && key->n == 0)
        return fault("it is sealed with a key; copy the key into the folder, or give it with --key", 0);
    if (opened.form == SEALED && key->n > 0)
        return fault("it is not sealed with the key, so it may come from a stranger", 0);
    sealed_digest(key, file, n - DIGEST, digest);
    if (CRYPTO_memcmp(digest, file + n - DIGEST, DIGEST) != 0)
        return fault(key->n > 0 ? "it was damaged, or sealed with another key: its digest is wrong" : "it was damaged: its digest is wrong",
                     1);
    opened.bytes = file + front + LENGTH;
    opened.n = length;
    return opened;
}
