/*
 * A replica is a folder with
 *   store      the store
 *   last-tick  its id, and the last tick that it has given to an edit or a deletion, as far as this folder or other servers know
 *   key        if it is there, what its server and those that it trades with seal their files with
 *   names      if it is there, the names of items (names.h)
 * and the files of ours are knowledges, stores and batches, each in an envelope. Where one may be named for reading, a folder stands for
 * its store. A program that changes the store holds the folder's lock meanwhile.
 */

#ifndef REPLICA_H
#define REPLICA_H

#include "envelope.h"
#include "files.h"
#include "sync.h"

/* The bytes of a file, without the envelope, whose name is as the user gave it. */
struct file {
    const char *name;
    enum form form; /* how it stands on the disk */
    size_t n;
    uint8_t bytes[SYNC_LARGEST_BATCH + 1];
};

/* A part of a file's bytes. */
struct part {
    const uint8_t *bytes;
    size_t n;
};

/*
 * What a folder's file last-tick says. It is read before the store: a program that changes both at that moment changes the store first, so
 * a store that is read later is not behind. If it has an envelope, so has the store.
 */
struct last {
    int is_there;
    enum form form;
    uint8_t own[16];
    uint64_t tick;
};

struct replica {
    struct folder folder;
    struct key key;
    struct last last;
};

/* By its first byte, which is all that is looked at. */
enum kind kind_of(const struct file *file);

/* Sets the key of files that stand in no replica's folder: that of the first of the names that is a folder with a key, or of --key. */
void choose_key(char **names, int count);

/* Opens a replica's folder, locked or not, and reads its key and its last tick; reads its store. */
void open_replica(struct replica *replica, const char *name);
void open_locked(struct replica *replica, const char *name);
void read_store(const struct replica *replica, struct file *store);

/* Reads a file, or a folder's store. */
void load(struct file *file, const char *name);

/* Reads bytes of a knowledge, store or batch as a program that calls the library has them, without an envelope. */
void load_bare(struct file *file, const char *name);

/* Takes the bytes of a file, of which n bytes were read from somewhere, out of their envelope, or as they are with --bare. */
void take_file(struct file *file, const char *name, const uint8_t *read, size_t n);

/* No file has more bytes than these, with its envelope. */
enum { FILE_MOST = SYNC_LARGEST_BATCH + ENVELOPE_MOST };

/* Writes a knowledge or a batch where the user wants it, in an envelope unless --bare is given, but not in the place of a store. */
void write_out(const char *name, enum kind kind, const uint8_t *bytes, size_t n);
void write_bare(const char *name, const uint8_t *bytes, size_t n);

/* The same bytes in an envelope, in memory of the program's own; *n becomes their length. */
const uint8_t *in_envelope(enum kind kind, const uint8_t *bytes, size_t *n);

/* What a file knows: a knowledge itself, a store its own, a batch what it has learned. Refuses a file that is not valid. */
struct part knowledge_of(const struct file *file);

/* The number that the engine has for a file, 0 if it is valid; and what can be seen from outside of one that is not, or null. */
uint32_t number_of(const struct file *file);
const char *fault_of(const struct file *file, enum kind wanted);

/* Refuses a file that is no valid store, or no valid batch, and says why as far as that can be seen from outside. */
void need_store(const struct file *file);
void need_batch(const struct file *file);

/* The tick that a knowledge knows for an item and a replica, 0 for none; and the largest one that it knows for the replica. */
uint64_t known_tick(struct part knowledge, const uint8_t *item, const uint8_t *replica);
uint64_t largest_tick(struct part knowledge, const uint8_t *replica);

/* The tick that a store knows of its own replica, which is the same for all items. */
uint64_t own_tick(const struct file *store);

/* Whether a store is the one that was written last in its folder; refuses one that is not. */
int is_latest(const struct last *last, const struct file *store);
void need_latest(const struct replica *replica, const struct file *store);

/* Opens and locks a replica's folder and reads its store, to change it. Refuses one that is not valid or not the latest. */
void load_to_change(struct replica *replica, struct file *store, const char *name);

/*
 * Others know this tick of the folder's replica, and its store does not: the store was put back. Remembers it in the folder, so that the
 * store is changed no more.
 */
void hold(struct replica *replica, const struct file *store, uint64_t tick);

/* Makes the folder and puts a new store into it, unless there is one; the key goes with it if there is one. */
void save_new(const char *name, const struct file *store);

/* Replaces the store, which is the change (messages.h), and the tick beside it if that has grown or has no envelope yet. */
void save(struct replica *replica, const struct file *store);

/* Puts the files of a folder under the key that stands there now. What they were under before, and are under after it. */
enum form seal_again(const char *name, enum form *after);

#endif
