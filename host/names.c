#define _DEFAULT_SOURCE

#include "names.h"

#include <errno.h>
#include <fcntl.h>
#include <stdio.h>
#include <stdlib.h>
#include <string.h>
#include <sys/stat.h>
#include <unistd.h>

#include "messages.h"
#include "show.h"

enum { LINE_MOST = 2 * SYNC_ITEM + 1 + 2 * SYNC_TAG + 1 + NAME_MOST + 1, TEXT_MOST = NAMES_MOST * LINE_MOST };

/* All names, in the order of their items. */
static struct name **names;
static size_t count, room;

void item_of(const char *text, size_t n, uint8_t item[SYNC_ITEM])
{
    uint8_t digest[DIGEST];
    digest_of(text, n, digest);
    memcpy(item, digest, SYNC_ITEM);
    item[0] |= 0x80; /* 1 for a file and 0 for a directory: [MS-FSVCA] 2.1 */
}

/* The place of the first name whose item is not below the given one. */
static size_t place_of(const uint8_t *item)
{
    size_t low = 0, high = count;
    while (low < high) {
        size_t middle = low + (high - low) / 2;
        if (memcmp(names[middle]->item, item, SYNC_ITEM) < 0)
            low = middle + 1;
        else
            high = middle;
    }
    return low;
}

struct name *find_name(const uint8_t *item)
{
    size_t at = place_of(item);
    return at < count && memcmp(names[at]->item, item, SYNC_ITEM) == 0 ? names[at] : NULL;
}

const char *name_of(const uint8_t *item)
{
    const struct name *name = find_name(item);
    return name ? name->text : NULL;
}

struct name *name_at(size_t at)
{
    return at < count ? names[at] : NULL;
}

/* Puts a name among the others, or what was seen of its file to it if it is there. */
static struct name *put(const struct name *name)
{
    size_t at = place_of(name->item);
    if (at == count || memcmp(names[at]->item, name->item, SYNC_ITEM) != 0) {
        if (count == room) {
            room = 2 * room + NAMES_MOST;
            names = need_memory(realloc(names, room * sizeof *names));
        }
        memmove(names + at + 1, names + at, (count - at) * sizeof *names);
        names[at] = need_memory(malloc(sizeof **names));
        count++;
    }
    *names[at] = *name;
    return names[at];
}

struct name *add_name(const char *text)
{
    struct name name = {0};
    struct name *there;
    item_of(text, strlen(text), name.item);
    there = find_name(name.item);
    snprintf(name.text, sizeof name.text, "%s", text);
    return there ? there : put(&name);
}

void forget_seen(void)
{
    size_t at;
    for (at = 0; at < count; at++)
        names[at]->is_seen = 0;
}

/* ---- the file */

/* Reads the file into the text; its length, 0 if there is none. What is wrong with it becomes *fault. */
static size_t read_text(const struct folder *folder, char text[TEXT_MOST + 1], const char **fault)
{
    struct stat about;
    long n = 0;
    int descriptor = openat(folder->descriptor, "names", O_RDONLY | O_NOFOLLOW | O_NONBLOCK | O_CLOEXEC);
    *fault = NULL;
    if (descriptor < 0) {
        *fault = errno == ENOENT ? NULL : reason(errno);
        return 0;
    }
    if (fstat(descriptor, &about) != 0 || !S_ISREG(about.st_mode))
        *fault = "it is not a regular file";
    else if ((n = read_all(descriptor, (uint8_t *)text, TEXT_MOST + 1)) < 0)
        *fault = reason(errno);
    else if (n > TEXT_MOST)
        *fault = "it is longer than the names of a folder can be";
    close(descriptor);
    return *fault ? 0 : (size_t)n;
}

/* Reads a line of n bytes. Whether it is one. */
static int read_line(const char *line, size_t n, struct name *name)
{
    size_t front = 2 * SYNC_ITEM + 1, length;
    uint8_t item[SYNC_ITEM];
    memset(name, 0, sizeof *name);
    if (n < front + 2 || !read_digits(line, 2 * SYNC_ITEM, name->item, SYNC_ITEM) || line[front - 1] != ' ')
        return 0;
    name->is_seen = line[front] != '-';
    if (name->is_seen && (n < front + 2 * SYNC_TAG || !read_digits(line + front, 2 * SYNC_TAG, name->seen, SYNC_TAG)))
        return 0;
    front += name->is_seen ? 2 * SYNC_TAG : 1;
    if (front + 1 >= n || line[front] != ' ')
        return 0;
    length = n - front - 1;
    if (length > NAME_MOST || memchr(line + front + 1, 0, length))
        return 0;
    memcpy(name->text, line + front + 1, length);
    item_of(name->text, length, item);
    return memcmp(item, name->item, SYNC_ITEM) == 0;
}

/* Goes through the lines of a text, and puts the names among the others if that is wanted. What is wrong with the text, or null. */
static const char *read_lines(const char *text, size_t n, int are_wanted)
{
    static char fault[64];
    struct name name;
    uint8_t before[SYNC_ITEM] = {0};
    size_t at, length, line = 1;
    for (at = 0; at < n; at += length + 1, line++) {
        const char *end = memchr(text + at, '\n', n - at);
        length = end ? (size_t)(end - text) - at : 0;
        if (!end || line > NAMES_MOST || !read_line(text + at, length, &name) || memcmp(before, name.item, SYNC_ITEM) >= 0) {
            snprintf(fault, sizeof fault, "line %zu is not as this program wrote it", line);
            return fault;
        }
        memcpy(before, name.item, SYNC_ITEM);
        if (are_wanted)
            put(&name);
    }
    return NULL;
}

/* Reads the names of a folder, all or none. What is wrong with the file, or null. */
static const char *read_names(const struct folder *folder)
{
    static char text[TEXT_MOST + 1];
    const char *fault;
    size_t n = read_text(folder, text, &fault);
    if (!fault)
        fault = read_lines(text, n, 0);
    return fault ? fault : read_lines(text, n, 1);
}

void need_names(const struct folder *folder)
{
    const char *fault = read_names(folder);
    if (fault)
        trouble(inside(folder->name, "names").text,
                "%s; " NOTHING_CHANGED "\n"
                "  Put the file back from a copy. Or remove it, after all files in the directory are as the store says: without it,\n"
                "  each file that is not is taken for an edit, and none for deleted.", fault);
}

void load_names(const struct folder *folder)
{
    const char *fault = read_names(folder);
    if (fault)
        warn(inside(folder->name, "names").text, "%s; going on without names", fault);
}

void load_names_of(const char *name)
{
    if (is_folder(name)) {
        struct folder folder = open_folder(name);
        load_names(&folder);
        close_folder(&folder);
    }
}

/* The text of the names of items that have a record; its length. */
static size_t write_text(struct part records, char text[TEXT_MOST])
{
    size_t at, n = 0;
    for (at = 0; at < count; at++) {
        if (!find_record(records, names[at]->item))
            continue;
        all_digits(names[at]->item, SYNC_ITEM, text + n);
        n += 2 * SYNC_ITEM;
        text[n++] = ' ';
        if (names[at]->is_seen)
            all_digits(names[at]->seen, SYNC_TAG, text + n);
        else
            text[n] = '-';
        n += names[at]->is_seen ? 2 * SYNC_TAG : 1;
        n += (size_t)sprintf(text + n, " %s\n", names[at]->text);
    }
    return n;
}

int prepare_names(struct replacement *new, const struct folder *folder, const struct file *store)
{
    static char text[TEXT_MOST + 1], old[TEXT_MOST + 1];
    const char *fault;
    size_t n = write_text(records_of(store), text), old_n = read_text(folder, old, &fault);
    if (!fault && n == old_n && memcmp(text, old, n) == 0)
        return 0;
    prepare(new, folder, "names", text, n);
    return 1;
}

const char *printable(const char *name)
{
    static char text[sizeof(struct path)];
    size_t at;
    snprintf(text, sizeof text, "%s", name);
    for (at = 0; text[at]; at++)
        if ((unsigned char)text[at] < 0x20 || text[at] == 0x7f)
            text[at] = '?';
    return text;
}
