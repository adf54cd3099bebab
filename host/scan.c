/* The command that takes the files in a directory as items. */

#define _DEFAULT_SOURCE

#include <dirent.h>
#include <errno.h>
#include <fcntl.h>
#include <inttypes.h>
#include <stdio.h>
#include <stdlib.h>
#include <string.h>
#include <sys/stat.h>
#include <unistd.h>

#include "changing.h"
#include "commands.h"
#include "json.h"
#include "messages.h"
#include "names.h"
#include "options.h"
#include "replica.h"
#include "show.h"
#include "status.h"
#include "sync_format.h"

static struct file store, spare;
static struct replica replica;

/* ---- the files in the directory */

/* The directory, and the files that were found there; the count is also that of files for which there is no room. */
static const char *top_name;
static int top;
static size_t file_count;
static struct found {
    const char *name;
    uint8_t item[SYNC_ITEM], tag[SYNC_TAG];
} found[NAMES_MOST];

/* The place of a name in the directory, for messages. */
static const char *place(const char *name)
{
    return printable(*name ? inside(top_name, name).text : top_name);
}

static int by_text(const void *first, const void *second)
{
    return strcmp(*(char *const *)first, *(char *const *)second);
}

/* What stands in a directory, sorted, so that all that is done and said is the same everywhere. */
static char **entries_of(int directory, const char *name, size_t *count)
{
    int copy = openat(directory, ".", O_RDONLY | O_DIRECTORY | O_CLOEXEC);
    DIR *stream = copy < 0 ? NULL : fdopendir(copy);
    struct dirent *entry;
    char **entries = NULL;
    size_t room = 0;
    for (*count = 0; stream && (errno = 0, entry = readdir(stream));) {
        if (strcmp(entry->d_name, ".") == 0 || strcmp(entry->d_name, "..") == 0)
            continue;
        if (*count == room) {
            room = 2 * room + 64;
            entries = need_memory(realloc(entries, room * sizeof *entries));
        }
        entries[(*count)++] = need_memory(strdup(entry->d_name));
    }
    if (!stream || errno != 0)
        trouble(place(name), "cannot be read: %s; " NOTHING_CHANGED, reason(errno));
    closedir(stream);
    if (*count > 0)
        qsort(entries, *count, sizeof *entries, by_text);
    return entries;
}

/* The tag of the content of a regular file. */
static void read_content(int directory, const char *entry, const char *name, uint8_t tag[SYNC_TAG])
{
    struct stat before, after;
    uint8_t digest[DIGEST];
    int descriptor = openat(directory, entry, O_RDONLY | O_NOFOLLOW | O_NONBLOCK | O_CLOEXEC);
    if (descriptor < 0 || fstat(descriptor, &before) != 0)
        trouble(place(name), "cannot be opened: %s; " NOTHING_CHANGED, reason(errno));
    if (!S_ISREG(before.st_mode))
        trouble(place(name), "was replaced by something else while the directory was read; " NOTHING_CHANGED);
    if (digest_of_file(descriptor, digest) != 0 || fstat(descriptor, &after) != 0)
        trouble(place(name), "cannot be read: %s; " NOTHING_CHANGED, reason(errno));
    if (before.st_size != after.st_size || before.st_mtim.tv_sec != after.st_mtim.tv_sec || before.st_mtim.tv_nsec != after.st_mtim.tv_nsec)
        trouble(place(name), "was written to while it was read; " NOTHING_CHANGED ", try again");
    close(descriptor);
    memcpy(tag, digest, SYNC_TAG);
}

/* Takes a regular file, or only counts it if there is no room for so many. */
static void add_file(int directory, const char *entry, const char *name)
{
    struct found *file;
    if (strchr(name, '\n'))
        trouble(place(name), "has a line feed in its name, which cannot be kept so; " NOTHING_CHANGED);
    if (file_count++ >= NAMES_MOST)
        return;
    file = &found[file_count - 1];
    file->name = need_memory(strdup(name));
    item_of(name, strlen(name), file->item);
    read_content(directory, entry, name, file->tag);
}

static const char *kind_of_other(mode_t mode)
{
    return S_ISLNK(mode) ? "a symbolic link, which is not followed"
        : S_ISFIFO(mode) ? "a fifo, which is not opened"
        : S_ISSOCK(mode) ? "a socket, which is not opened"
                         : "a device, which is not opened";
}

static void walk(int directory, const char *path);

/* Looks at what stands in a directory under the name of an entry. The name is the whole one, from the top on. */
static void look_at(int directory, const char *entry, const char *path)
{
    char name[NAME_MOST + 2];
    struct stat about;
    int n = snprintf(name, sizeof name, "%s%s%s", path, *path ? "/" : "", entry);
    if (n < 0 || n > NAME_MOST)
        trouble(place(name), "its name, from the directory on, is longer than %d bytes; " NOTHING_CHANGED, NAME_MOST);
    if (fstatat(directory, entry, &about, AT_SYMLINK_NOFOLLOW) != 0)
        trouble(place(name), "cannot be looked at: %s; " NOTHING_CHANGED, reason(errno));
    if (S_ISDIR(about.st_mode)) {
        int inner = openat(directory, entry, O_RDONLY | O_DIRECTORY | O_NOFOLLOW | O_CLOEXEC);
        if (inner < 0)
            trouble(place(name), "cannot be opened: %s; " NOTHING_CHANGED, reason(errno));
        walk(inner, name);
        close(inner);
    } else if (S_ISREG(about.st_mode)) {
        add_file(directory, entry, name);
    } else {
        warn(place(name), "is %s", kind_of_other(about.st_mode));
    }
}

/* Goes through a directory and those in it. The replica's own folder must not be among them: its files change with each scan. */
static void walk(int directory, const char *path)
{
    struct stat here, own;
    char **entries;
    size_t at, count;
    if (fstat(directory, &here) == 0 && fstat(replica.folder.descriptor, &own) == 0 && here.st_dev == own.st_dev &&
        here.st_ino == own.st_ino)
        wrong_usage("%s is the replica's own folder, which cannot be in the directory that is scanned; move it elsewhere", place(path));
    entries = entries_of(directory, path, &count);
    for (at = 0; at < count; at++) {
        look_at(directory, entries[at], path);
        free(entries[at]);
    }
    free(entries);
}

static int by_item(const void *first, const void *second)
{
    return memcmp(((const struct found *)first)->item, ((const struct found *)second)->item, SYNC_ITEM);
}

/* Ends the program because a store has no room for so many records. */
static _Noreturn void refuse_count(void)
{
    char note[80];
    snprintf(note, sizeof note, "there %s %zu file%s in the directory", file_count == 1 ? "is" : "are", file_count,
             file_count == 1 ? "" : "s");
    refused(store.name, SYNC_OVER_RECORDS, note);
}

/* Finds all files in the directory, in the order of their items. */
static void find_files(void)
{
    top = open(top_name, O_RDONLY | O_DIRECTORY | O_CLOEXEC);
    if (top < 0)
        trouble(top_name, "cannot be opened: %s; " NOTHING_CHANGED, reason(errno));
    walk(top, "");
    if (file_count > NAMES_MOST)
        refuse_count();
    qsort(found, file_count, sizeof *found, by_item);
}

static int is_found(const uint8_t *item)
{
    size_t at = 0;
    while (at < file_count && memcmp(found[at].item, item, SYNC_ITEM) != 0)
        at++;
    return at < file_count;
}

/*
 * Whether a file that was not found may be there all the same: something that is not followed stands in its place or in that of a
 * directory above it, or it came after the directory was read.
 */
static int may_be_there(const char *name)
{
    char front[NAME_MOST + 1];
    struct stat about;
    size_t at, length = strlen(name);
    for (at = 1; at <= length; at++) {
        if (name[at] != '/' && at < length)
            continue;
        memcpy(front, name, at);
        front[at] = 0;
        if (fstatat(top, front, &about, AT_SYMLINK_NOFOLLOW) != 0) {
            if (errno != ENOENT && errno != ENOTDIR)
                trouble(place(front), "cannot be looked at: %s; " NOTHING_CHANGED, reason(errno));
            return 0;
        }
        if (!S_ISDIR(about.st_mode) && (at == length || !S_ISREG(about.st_mode)))
            return 1;
    }
    return 0;
}

/* ---- what is to be changed */

/* The edits and deletions, in the order of their items; a deletion has no tag. */
static size_t step_count, edit_count;
static struct step {
    const uint8_t *item, *tag;
    const char *name;
} steps[2 * NAMES_MOST];

static void add_step(const uint8_t *item, const uint8_t *tag, const char *name)
{
    steps[step_count].item = item;
    steps[step_count].tag = tag;
    steps[step_count++].name = name;
    edit_count += tag != NULL;
}

/* Whether a record, or null, is live and has the tag. */
static int has_tag(const uint8_t *record, const uint8_t *tag)
{
    return record && record[0] == SYNC_KIND_LIVE && memcmp(record + SYNC_RECORD_TAG, tag, SYNC_TAG) == 0;
}

/*
 * A file is edited if it has changed since it was last seen, unless it is now what the store says: then another server's version has
 * arrived. A file that stayed as it was is left alone, also if the store has a later version, whose content is still on its way.
 */
static void find_edits(struct part records)
{
    size_t at;
    for (at = 0; at < file_count; at++) {
        const struct found *file = &found[at];
        const uint8_t *record = find_record(records, file->item);
        struct name *name = add_name(file->name);
        int stayed = record && name->is_seen && memcmp(name->seen, file->tag, SYNC_TAG) == 0;
        if (!stayed && !has_tag(record, file->tag))
            add_step(file->item, file->tag, file->name);
        name->is_seen = 1;
        memcpy(name->seen, file->tag, SYNC_TAG);
    }
}

/* A file that was seen and is gone is deleted, unless the store has another version: nobody here has seen that one yet. */
static void find_deletions(struct part records)
{
    struct name *name;
    size_t at;
    for (at = 0; (name = name_at(at)); at++) {
        if (!name->is_seen || is_found(name->item) || may_be_there(name->text))
            continue;
        if (has_tag(find_record(records, name->item), name->seen))
            add_step(name->item, NULL, name->text);
        name->is_seen = 0;
    }
}

static int by_step(const void *first, const void *second)
{
    return memcmp(((const struct step *)first)->item, ((const struct step *)second)->item, SYNC_ITEM);
}

/* Finds what is to be changed, and makes the changes in memory. */
static void change_all(struct draft *draft)
{
    size_t at;
    find_edits(records_of(&store));
    find_deletions(records_of(&store));
    qsort(steps, step_count, sizeof *steps, by_step);
    for (at = 0; at < step_count; at++) {
        uint32_t number = change(draft, steps[at].item, steps[at].tag);
        if (number == SYNC_OVER_RECORDS)
            refuse_count();
        if (number != 0)
            refused(store.name, number, NULL);
    }
}

/* ---- what is said */

/* The tick that a change was made at. */
static uint64_t tick_of(const struct file *after, const struct step *step)
{
    return sync_number_at(find_record(records_of(after), step->item) + SYNC_RECORD_CHANGE + SYNC_VERSION_TICK, 8);
}

static void json_steps(const struct file *after)
{
    size_t at;
    json_open(NULL, '{');
    json_text("folder", store.name);
    json_text("directory", top_name);
    json_truth("dry_run", options.dry_run);
    json_open("changes", '[');
    for (at = 0; at < step_count; at++) {
        json_open(NULL, '{');
        json_text("change", steps[at].tag ? "edited" : "deleted");
        json_text("name", steps[at].name);
        json_digits("item", steps[at].item, SYNC_ITEM);
        if (steps[at].tag)
            json_digits("tag", steps[at].tag, SYNC_TAG);
        json_number("tick", tick_of(after, &steps[at]));
        json_close('}');
    }
    json_close(']');
    json_number("unchanged", file_count - edit_count);
    json_close('}');
    json_end();
}

static void list_steps(void)
{
    char item[ID_TEXT], tag[ID_TEXT];
    size_t at;
    for (at = 0; at < step_count; at++) {
        all_digits(steps[at].item, SYNC_ITEM, item);
        strcpy(tag, "-");
        if (steps[at].tag)
            all_digits(steps[at].tag, SYNC_TAG, tag);
        printf("%s %s %s %s\n", steps[at].tag ? "edited" : "deleted", item, tag, steps[at].name);
    }
}

static void say_steps(const struct file *after)
{
    static const char *const verbs[2][2] = {{"deleted", "edited"}, {"would delete", "would edit"}};
    const char *would = options.dry_run ? "would be " : "";
    char item[ID_TEXT], own[ID_TEXT];
    size_t at;
    add_ids(after);
    for (at = 0; at < step_count; at++)
        printf("%s %s: item %s, tick %" PRIu64 " of replica %s\n", verbs[options.dry_run][steps[at].tag != NULL], printable(steps[at].name),
               id_text(&items, steps[at].item, item), tick_of(after, &steps[at]), id_text(&replicas, after->bytes + SYNC_STORE_OWN, own));
    printf("%zu %sedited, %zu %sdeleted, %zu unchanged in %s\n", edit_count, would, step_count - edit_count, would,
           file_count - edit_count, top_name);
}

static void say(const struct file *after)
{
    if (options.json)
        json_steps(after);
    else if (options.list)
        list_steps();
    else
        say_steps(after);
}

/* A directory from which several files are gone and in which there is nothing may be the place of a disk that is not there. */
static void need_files(void)
{
    if (file_count == 0 && step_count > 1 && !options.empty)
        trouble(top_name, "has no file in it, and %zu were there at the last scan: is a disk missing? " NOTHING_CHANGED "\n"
                "  If they are gone for good, scan with --empty, which deletes them here and then on all servers.", step_count);
}

/* Opens the folder to change it, or only to read it if nothing is to be changed. */
static void open_to_scan(const char *name)
{
    if (!options.dry_run) {
        load_to_change(&replica, &store, name);
        return;
    }
    open_replica(&replica, name);
    read_store(&replica, &store);
    need_store(&store);
    need_latest(&replica, &store);
}

int command_scan(char **arguments)
{
    static struct replacement names;
    struct draft draft = {&store, &spare};
    const char *folder = arguments[0];
    int is_other;
    top_name = arguments[1];
    open_to_scan(folder);
    need_names(&replica.folder);
    find_files();
    change_all(&draft);
    if (options.dry_run) {
        say(draft.now);
        return step_count > 0 ? STATUS_NO : 0;
    }
    need_files();
    /* The names are put in their place behind the store: a name that is behind it is no fault, but one that is ahead hides an edit. */
    is_other = prepare_names(&names, &replica.folder, draft.now);
    if (step_count > 0)
        save(&replica, draft.now);
    if (is_other)
        finish_change(&names, step_count > 0 ? "the store has changed, and the names beside it have not; scan again" : NOTHING_CHANGED);
    say(draft.now);
    warn_limits(draft.now);
    return 0;
}
