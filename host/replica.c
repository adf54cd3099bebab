#define _DEFAULT_SOURCE

#include "replica.h"

#include <inttypes.h>
#include <stdio.h>
#include <stdlib.h>
#include <string.h>
#include <sys/stat.h>

#include "ids.h"
#include "messages.h"
#include "options.h"
#include "sync_format.h"

static uint8_t raw[FILE_MOST]; /* a file as it stands on the disk */

enum kind kind_of(const struct file *file)
{
    return file->n > 0 && file->bytes[0] == SYNC_KIND_STORE ? STORE : file->n > 0 && file->bytes[0] == SYNC_KIND_BATCH ? BATCH : KNOWLEDGE;
}

/* ---- keys */

static struct key files_key; /* of files that stand in no replica's folder */
static struct key given_key; /* of --key; it is read once, for it may come through a pipe */

/* Takes the line ends off a key and looks at its length. */
static void trim_key(struct key *key, const char *name)
{
    while (key->n > 0 && (key->bytes[key->n - 1] == '\n' || key->bytes[key->n - 1] == '\r'))
        key->n--;
    if (key->n < KEY_LEAST)
        trouble(name, "is not a key: it has fewer than %d bytes", KEY_LEAST);
}

static void read_folder_key(struct key *key, const struct folder *folder)
{
    size_t n = read_in(folder, "key", key->bytes, sizeof key->bytes);
    key->n = n == NOT_THERE ? 0 : n;
    if (n != NOT_THERE)
        trim_key(key, inside(folder->name, "key").text);
}

void choose_key(char **names, int count)
{
    int at;
    if (options.key) {
        given_key.n = read_named(options.key, given_key.bytes, sizeof given_key.bytes);
        trim_key(&given_key, is_standard(options.key) ? "standard input" : options.key);
    }
    for (at = 0; at < count && files_key.n == 0; at++)
        if (names[at] && is_folder(names[at])) {
            struct folder folder = open_folder(names[at]);
            read_folder_key(&files_key, &folder);
            close_folder(&folder);
        }
    if (files_key.n == 0)
        files_key = given_key;
    if (options.bare && files_key.n > 0)
        wrong_usage("--bare is not for servers with a key; collector pack and unpack change the form of a file");
}

/* ---- reading */

static void put_bytes(struct file *file, const char *name, enum form form, const uint8_t *bytes, size_t n)
{
    if (n > SYNC_LARGEST_BATCH)
        trouble(name, "has over %d bytes, which no file of ours has", SYNC_LARGEST_BATCH);
    file->name = name;
    file->form = form;
    file->n = n;
    memcpy(file->bytes, bytes, n);
}

void take_file(struct file *file, const char *name, const uint8_t *read, size_t n)
{
    struct opened opened;
    if (options.bare && !is_envelope(read, n)) {
        put_bytes(file, name, BARE, read, n);
        return;
    }
    opened = open_envelope(&files_key, read, n);
    if (opened.fault)
        trouble(name, "%s%s", opened.fault, opened.is_damaged ? "; have it sent again" : "");
    if (opened.kind == LAST_TICK)
        trouble(name, "is the last tick of a replica, and the command takes a knowledge, a store or a batch there");
    put_bytes(file, name, opened.form, opened.bytes, opened.n);
    if (kind_of(file) != opened.kind)
        trouble(name, "its first line says %s, and the bytes in it are another thing", kind_names[opened.kind]);
}

/* What to do about a store that cannot be used. */
static const char way_out[] =
    "\n"
    "  Only read what is there, and take what it held from a copy or from the other servers into a replica under a new\n"
    "  id, to be used instead:\n" FROM_COPY;

/* Takes a file of a replica's folder out of its envelope. A folder that has no key, such as a copy, has the one of --key. */
static struct opened open_own(const struct folder *folder, const char *name, const struct key *key, size_t n)
{
    struct opened opened = open_envelope(key->n == 0 && is_keyed(raw, n) ? &given_key : key, raw, n);
    struct path place = inside(folder->name, name);
    int is_before = n > 0 && !is_envelope(raw, n) && strcmp(name, "last-tick") == 0; /* the store beside it may then be so too */
    if (opened.fault && key->n > 0 && (is_before || !open_envelope(&no_key, raw, n).fault)) {
        if (strcmp(name, "last-tick") == 0)
            trouble(place.text, "is not sealed with the key of its folder; collector seal %s puts it under the key", folder->name);
        /* The store is sealed before the tick, which was read already. */
        trouble(place.text, "is not sealed with the key of its folder: something else put it there%s", way_out);
    }
    if (opened.fault && !opened.is_damaged && is_keyed(raw, n) && key->n == 0)
        trouble(place.text, "is sealed with a key, and its folder has none; copy the key to %s", inside(folder->name, "key").text);
    if (opened.fault)
        trouble(place.text, "%s%s", opened.fault, opened.is_damaged ? way_out : "");
    if (strcmp(kind_names[opened.kind], name) != 0)
        trouble(place.text, "is not a %s: its first line says %s", name, kind_names[opened.kind]);
    return opened;
}

/* The text of a file last-tick, and its length: a replica id in 32 digits, a space, a tick in decimal digits, a line feed. */
enum { LAST_TEXT = 2 * SYNC_REPLICA + 24 };

static size_t last_text(const uint8_t *own, uint64_t tick, char text[LAST_TEXT])
{
    all_digits(own, SYNC_REPLICA, text);
    return 2 * SYNC_REPLICA + (size_t)sprintf(text + 2 * SYNC_REPLICA, " %" PRIu64 "\n", tick);
}

/* Reads the text of a file last-tick. Whether it is one. */
static int read_last_text(const uint8_t *bytes, size_t n, struct last *last)
{
    char text[LAST_TEXT], same[LAST_TEXT];
    if (n <= 2 * SYNC_REPLICA || n >= LAST_TEXT)
        return 0;
    memcpy(text, bytes, n);
    text[n] = 0;
    if (!read_digits(text, 2 * SYNC_REPLICA, last->own, SYNC_REPLICA))
        return 0;
    last->tick = strtoull(text + 2 * SYNC_REPLICA, NULL, 10);
    return last_text(last->own, last->tick, same) == n && memcmp(same, text, n) == 0;
}

static struct last read_last(const struct folder *folder, const struct key *key)
{
    struct last last = {0, BARE, {0}, 0};
    struct opened opened = {NULL, 0, LAST_TICK, BARE, raw, read_in(folder, "last-tick", raw, sizeof raw)};
    if (opened.n == NOT_THERE)
        return last;
    if (key->n > 0 || is_envelope(raw, opened.n))
        opened = open_own(folder, "last-tick", key, opened.n);
    last.form = opened.form;
    last.is_there = read_last_text(opened.bytes, opened.n, &last);
    if (!last.is_there)
        trouble(inside(folder->name, "last-tick").text, "is not as this program wrote it; the store beside it is only read from now on");
    return last;
}

/* Reads what stands beside the store. A key that was given is that of the folder too if its files have one and it is not there. */
static void read_beside(struct replica *replica)
{
    read_folder_key(&replica->key, &replica->folder);
    replica->last = read_last(&replica->folder, &replica->key);
    if (replica->key.n == 0 && replica->last.form == KEYED)
        replica->key = given_key;
}

void open_replica(struct replica *replica, const char *name)
{
    replica->folder = open_folder(name);
    read_beside(replica);
}

void open_locked(struct replica *replica, const char *name)
{
    replica->folder = open_folder(name);
    lock_folder(&replica->folder);
    read_beside(replica);
}

/* Whether a store without an envelope is one of before: the folder's last tick has none either. */
static int may_be_bare(const struct replica *replica)
{
    return replica->key.n == 0 && (replica->last.is_there ? replica->last.form == BARE : options.bare);
}

void read_store(const struct replica *replica, struct file *store)
{
    const char *name = replica->folder.name;
    struct opened opened = {NULL, 0, STORE, BARE, raw, read_in(&replica->folder, "store", raw, sizeof raw)};
    if (opened.n == NOT_THERE)
        trouble(name, "has no store in it, so it is not a replica; collector new makes one");
    if (opened.n > 0 && !is_envelope(raw, opened.n) && !may_be_bare(replica) && replica->last.is_there)
        trouble(inside(name, "store").text, "has no envelope, and the tick beside it has one: something else put it there%s", way_out);
    if (is_envelope(raw, opened.n) || !may_be_bare(replica))
        opened = open_own(&replica->folder, "store", &replica->key, opened.n);
    put_bytes(store, name, opened.form, opened.bytes, opened.n);
    if (opened.form != BARE && kind_of(store) != STORE)
        trouble(inside(name, "store").text, "its first line says store, and the bytes in it are another thing\n%s", way_out);
}

void load(struct file *file, const char *name)
{
    static struct replica replica;
    if (is_folder(name)) {
        open_replica(&replica, name);
        read_store(&replica, file);
        close_folder(&replica.folder);
    } else {
        size_t n = read_named(name, raw, sizeof raw);
        take_file(file, is_standard(name) ? "standard input" : name, raw, n);
    }
}

void load_bare(struct file *file, const char *name)
{
    size_t n = read_named(name, raw, sizeof raw);
    if (is_envelope(raw, n))
        trouble(name, "is in an envelope already");
    put_bytes(file, is_standard(name) ? "standard input" : name, BARE, raw, n);
}

/* ---- writing what the user wants elsewhere */

/* Whether a file that is there is a store, with an envelope or without. */
static int is_store_file(const char *name)
{
    static const char line[] = "sync store ";
    uint8_t front[sizeof line] = {0};
    struct stat about;
    FILE *old = is_standard(name) || stat(name, &about) != 0 || !S_ISREG(about.st_mode) ? NULL : fopen(name, "rb");
    size_t n = old ? fread(front, 1, sizeof front, old) : 0;
    if (old)
        fclose(old);
    return n > 0 && (front[0] == SYNC_KIND_STORE || memcmp(front, line, sizeof line - 1) == 0);
}

void write_bare(const char *name, const uint8_t *bytes, size_t n)
{
    if (is_store_file(name))
        trouble(name, "is a store, which is not replaced; give another name");
    write_result(name, bytes, n);
}

const uint8_t *in_envelope(enum kind kind, const uint8_t *bytes, size_t *n)
{
    static uint8_t sealed[FILE_MOST];
    *n = seal(kind, &files_key, bytes, *n, sealed);
    return sealed;
}

void write_out(const char *name, enum kind kind, const uint8_t *bytes, size_t n)
{
    if (!options.bare)
        bytes = in_envelope(kind, bytes, &n);
    write_bare(name, bytes, n);
}

/* ---- what the engine says of a file */

const char *fault_of(const struct file *file, enum kind wanted)
{
    static char note[128];
    size_t front = wanted == STORE ? SYNC_STORE_KNOWLEDGE : SYNC_BATCH_NEEDED;
    uint64_t length;
    if (file->n == 0)
        return "the file is empty";
    if (kind_of(file) != wanted) {
        int known = number_of(file) == 0;
        snprintf(note, sizeof note, "the file is not a %s%s%s", kind_names[wanted], known ? " but a " : "",
                 known ? kind_names[kind_of(file)] : "");
        return note;
    }
    if (file->n < front)
        return "the file ends inside its header";
    length = wanted == STORE
        ? front + sync_number_at(file->bytes + SYNC_STORE_KNOWLEDGE_LENGTH, 4) +
            SYNC_RECORD_LENGTH * sync_number_at(file->bytes + SYNC_STORE_COUNT, 4)
        : front + sync_number_at(file->bytes + SYNC_BATCH_NEEDED_LENGTH, 4) + sync_number_at(file->bytes + SYNC_BATCH_LEARNED_LENGTH, 4) +
            SYNC_RECORD_LENGTH * sync_number_at(file->bytes + SYNC_BATCH_COUNT, 4);
    if (length == file->n)
        return "the length is right, but not all that stands in it";
    snprintf(note, sizeof note, "its header says %" PRIu64 " bytes, and it has %zu", length, file->n);
    return note;
}

/* Finds what a file knows; the engine's number. */
static uint32_t find_knowledge(const struct file *file, struct part *part)
{
    uint64_t at = 0, length = file->n, sizes[4];
    enum kind kind = kind_of(file);
    uint32_t number = kind == STORE ? sync_knowledge(file->bytes, file->n, &at, &length)
        : kind == BATCH             ? sync_learned(file->bytes, file->n, &at, &length)
                                    : sync_check(file->bytes, file->n, sizes);
    part->bytes = file->bytes + at;
    part->n = (size_t)length;
    return number;
}

uint32_t number_of(const struct file *file)
{
    struct part part;
    return find_knowledge(file, &part);
}

struct part knowledge_of(const struct file *file)
{
    struct part part;
    enum kind kind = kind_of(file);
    uint32_t number = find_knowledge(file, &part);
    if (number != 0)
        refused(file->name, number, kind == KNOWLEDGE ? NULL : fault_of(file, kind));
    return part;
}

/* A valid file of another kind is no damage: the arguments are in another order than the command takes them. */
static void need_kind(const struct file *file, enum kind wanted, uint32_t number)
{
    if (kind_of(file) != wanted && file->n > 0 && number_of(file) == 0)
        wrong_usage("%s is a %s, and the command takes a %s there; look at the order of its arguments", file->name,
                    kind_names[kind_of(file)], kind_names[wanted]);
    refused(file->name, number, fault_of(file, wanted));
}

void need_store(const struct file *file)
{
    uint64_t at, length;
    uint32_t number = sync_knowledge(file->bytes, file->n, &at, &length);
    if (number != 0)
        need_kind(file, STORE, number);
}

void need_batch(const struct file *file)
{
    uint64_t at, length;
    uint32_t number = sync_learned(file->bytes, file->n, &at, &length);
    if (number != 0)
        need_kind(file, BATCH, number);
}

uint64_t known_tick(struct part knowledge, const uint8_t *item, const uint8_t *replica)
{
    /* The lead over a knowledge that knows nothing, which a new store has. */
    uint8_t empty[SYNC_STORE_KNOWLEDGE + 113];
    uint64_t written;
    int64_t tick = 0;
    uint32_t number = sync_new(replica, SYNC_REPLICA, empty, sizeof empty, &written);
    if (number == 0)
        number = sync_lead(knowledge.bytes, knowledge.n, empty + SYNC_STORE_KNOWLEDGE, sizeof empty - SYNC_STORE_KNOWLEDGE, item, SYNC_ITEM,
                           replica, SYNC_REPLICA, &tick);
    if (number != 0)
        refused("the known tick", number, NULL);
    return (uint64_t)tick;
}

uint64_t largest_tick(struct part knowledge, const uint8_t *replica)
{
    uint64_t sizes[4] = {0}, at, tick, largest = 0;
    sync_check(knowledge.bytes, knowledge.n, sizes);
    for (at = 0; at < sizes[3]; at++) {
        tick = known_tick(knowledge, knowledge.bytes + sync_ranges_at(sizes) + SYNC_RANGE_LENGTH * at, replica);
        largest = tick > largest ? tick : largest;
    }
    return largest;
}

uint64_t own_tick(const struct file *store)
{
    static const uint8_t any[SYNC_ITEM];
    return known_tick(knowledge_of(store), any, store->bytes + SYNC_STORE_OWN);
}

/* ---- the latest store */

/* Ends the program because a store is not the one that was written last in its folder. */
static _Noreturn void not_latest(const char *folder, const char *words)
{
    trouble(folder,
            "%s\n"
            "  Ticks would be given a second time, and other servers would never ask for these versions (collector --help).\n"
            "  Only read this store from now on, and take what it holds into a replica under a new id, to be used instead:\n"
            INTO_FRESH("%s asked answer"), words, folder);
}

int is_latest(const struct last *last, const struct file *store)
{
    return last->is_there && memcmp(last->own, store->bytes + SYNC_STORE_OWN, SYNC_REPLICA) == 0 && own_tick(store) >= last->tick;
}

void need_latest(const struct replica *replica, const struct file *store)
{
    const struct last *last = &replica->last;
    char text[ID_TEXT], words[240];
    if (is_latest(last, store))
        return;
    if (!last->is_there)
        not_latest(replica->folder.name, "the store was put here from elsewhere: there is no file last-tick beside it");
    if (memcmp(last->own, store->bytes + SYNC_STORE_OWN, SYNC_REPLICA) != 0)
        snprintf(words, sizeof words, "the store was put here from elsewhere: this folder is replica %s's",
                 id_text(&replicas, last->own, text));
    else
        snprintf(words, sizeof words, "the store was put back from a copy, or another server has its id: its own tick is %" PRIu64
                 ", and this replica has given ticks up to %" PRIu64, own_tick(store), last->tick);
    not_latest(replica->folder.name, words);
}

/* Says so if a file was given in the place of a folder. */
static void need_folder(const char *name)
{
    struct stat about;
    static const char *const lines[] = {"sync knowledge ", "sync store ", "sync batch "};
    size_t at, n;
    if (stat(name, &about) != 0 || !S_ISREG(about.st_mode))
        return;
    n = read_named(name, raw, sizeof raw);
    for (at = 0; at < 3; at++)
        if (n > strlen(lines[at]) && memcmp(raw, lines[at], strlen(lines[at])) == 0)
            wrong_usage("%s is a %s, and the command takes a folder there; look at the order of its arguments", name,
                        kind_names[at]);
}

void load_to_change(struct replica *replica, struct file *store, const char *name)
{
    need_folder(name);
    open_locked(replica, name);
    read_store(replica, store);
    need_store(store);
    need_latest(replica, store);
}

/* ---- changing a folder */

/* Writes a file of a folder beside its place, in its envelope. */
static void prepare_own(struct replacement *new, const struct replica *replica, enum kind kind, const void *bytes, size_t n)
{
    static uint8_t sealed[FILE_MOST];
    prepare(new, &replica->folder, kind_names[kind], sealed, seal(kind, &replica->key, bytes, n, sealed));
}

static void prepare_tick(struct replacement *new, const struct replica *replica, const uint8_t *own, uint64_t tick)
{
    char text[LAST_TEXT];
    prepare_own(new, replica, LAST_TICK, text, last_text(own, tick, text));
}

void hold(struct replica *replica, const struct file *store, uint64_t tick)
{
    struct replacement new;
    char text[LAST_TEXT];
    /* A store from elsewhere is held as it is, and the tick of the folder's own replica must not be forgotten for it. */
    if (tick <= replica->last.tick || memcmp(replica->last.own, store->bytes + SYNC_STORE_OWN, SYNC_REPLICA) != 0)
        return;
    trouble_means("the folder could not be held, so let nothing edit it: ");
    /* A tick without an envelope stays so: one with an envelope would say that the store beside it has one too. */
    if (replica->last.form == BARE)
        prepare(&new, &replica->folder, kind_names[LAST_TICK], text, last_text(replica->last.own, tick, text));
    else
        prepare_tick(&new, replica, replica->last.own, tick);
    finish(&new, NOTHING_CHANGED);
    trouble_means("");
    replica->last.tick = tick;
}

/* Writes the key beside its place, for its owner alone. */
static void prepare_key(struct replacement *new, const struct replica *replica)
{
    mode_t before = umask(077);
    prepare(new, &replica->folder, "key", replica->key.bytes, replica->key.n);
    umask(before);
}

void save_new(const char *name, const struct file *store)
{
    struct replica replica;
    struct replacement key, tick, place;
    int has_key;
    make_folder(name);
    open_locked(&replica, name);
    if (read_in(&replica.folder, "store", raw, sizeof raw) != NOT_THERE)
        trouble(name, "there is a store in it already");
    if (replica.last.tick > 0)
        trouble(name, "its store is gone, and had given ticks up to %" PRIu64 "; make the new replica in another folder",
                replica.last.tick);
    has_key = replica.key.n > 0;
    if (has_key && given_key.n > 0 && (replica.key.n != given_key.n || memcmp(replica.key.bytes, given_key.bytes, given_key.n) != 0))
        trouble(name, "there is another key in it already; " NOTHING_CHANGED);
    if (!has_key)
        replica.key = given_key.n > 0 ? given_key : files_key;
    if (!has_key && replica.key.n > 0)
        prepare_key(&key, &replica);
    /* The tick before the store, so that no store of ours is ever without one. */
    prepare_tick(&tick, &replica, store->bytes + SYNC_STORE_OWN, own_tick(store));
    prepare_own(&place, &replica, STORE, store->bytes, store->n);
    if (!has_key && replica.key.n > 0)
        finish(&key, NOTHING_CHANGED);
    finish(&tick, "there is no replica yet");
    finish_change(&place, "there is no replica yet");
}

void save(struct replica *replica, const struct file *store)
{
    struct replacement tick, place;
    int grown = replica->last.tick != own_tick(store) || replica->last.form == BARE;
    if (grown)
        prepare_tick(&tick, replica, store->bytes + SYNC_STORE_OWN, own_tick(store));
    prepare_own(&place, replica, STORE, store->bytes, store->n);
    need_still_there(&replica->folder); /* a change of a folder that was moved away would be lost in the one that has its name now */
    /* The store before the tick: a crash between the two leaves a store that is ahead of the tick, which is no fault. */
    finish_change(&place, NOTHING_CHANGED);
    if (grown)
        finish(&tick, "the store has changed, and only the tick beside it has not");
}

/* ---- another key */

/* Opens a file of a folder under one of the keys, or as it is if it may be bare. Which of the keys it was becomes *which. */
static struct opened open_any(const struct folder *folder, const char *name, const struct key *keys, size_t count, int may_bare,
                              size_t *which)
{
    struct opened opened = {NULL, 0, LAST_TICK, BARE, raw, read_in(folder, name, raw, sizeof raw)};
    size_t n = opened.n;
    if (n == NOT_THERE)
        trouble(folder->name, "has no file %s, so there is nothing to seal", name);
    *which = count;
    if (may_bare && !is_envelope(raw, n))
        return opened;
    for (*which = 0; *which < count; (*which)++) {
        opened = open_envelope(&keys[*which], raw, n);
        if (!opened.fault && strcmp(kind_names[opened.kind], name) == 0)
            return opened;
    }
    trouble(inside(folder->name, name).text, "cannot be opened with any of these keys: %s",
            opened.fault ? opened.fault : "it is another file");
}

enum form seal_again(const char *name, enum form *after)
{
    static struct file store;
    struct key keys[3];
    struct replica replica;
    struct replacement tick, place;
    struct opened opened;
    enum form before;
    size_t which;
    replica.folder = open_folder(name);
    lock_folder(&replica.folder);
    read_folder_key(&replica.key, &replica.folder);
    *after = replica.key.n > 0 ? KEYED : SEALED;
    keys[0] = replica.key;
    keys[1] = given_key;
    keys[2] = no_key;
    opened = open_any(&replica.folder, "last-tick", keys, 3, 1, &which);
    replica.last.form = opened.form;
    replica.last.is_there = read_last_text(opened.bytes, opened.n, &replica.last);
    if (!replica.last.is_there)
        trouble(inside(name, "last-tick").text, "is not as this program wrote it");
    /* The store is sealed first: beside a tick that is under the folder's key already, only a store that is too is the replica's. */
    opened = open_any(&replica.folder, "store", keys, which == 0 ? 1 : 3, opened.form == BARE, &which);
    before = opened.form;
    put_bytes(&store, name, opened.form, opened.bytes, opened.n);
    need_store(&store);
    prepare_tick(&tick, &replica, replica.last.own, replica.last.tick);
    prepare_own(&place, &replica, STORE, store.bytes, store.n);
    finish_change(&place, NOTHING_CHANGED);
    finish(&tick, "the store is sealed, and the tick beside it is not; seal the folder again");
    return before;
}
