#define _DEFAULT_SOURCE

#include "files.h"

#include <dirent.h>
#include <errno.h>
#include <fcntl.h>
#include <libgen.h>
#include <stdio.h>
#include <stdlib.h>
#include <string.h>
#include <sys/file.h>
#include <sys/random.h>
#include <sys/stat.h>
#include <time.h>
#include <unistd.h>

#include "messages.h"

/* The names of files in a replica's folder; what begins so and ends in .new is one that is being written. */
static const char *const own_names[] = {"store", "last-tick", "names", "key", "lock"};
#define OWN_NAMES (sizeof own_names / sizeof *own_names)

/* What a program of before this one wrote first, and may have left over. */
static const char *const names_before[] = {"store.new", "last-tick.new"};

const char *reason(int error)
{
    if (error == EACCES || error == EPERM)
        return "no permission; ask its owner, or run this as its owner";
    return error == ELOOP ? "it is a link, and a replica's files are no links" : strerror(error);
}

struct path path_of(const char *front, const char *middle, const char *end)
{
    struct path path;
    int n = snprintf(path.text, sizeof path.text, "%s%s%s", front, middle, end);
    if (n < 0 || (size_t)n >= sizeof path.text)
        trouble(front, "the name is too long");
    return path;
}

struct path inside(const char *folder, const char *name)
{
    size_t length = strlen(folder);
    return path_of(folder, length > 0 && folder[length - 1] == '/' ? "" : "/", name);
}

int is_standard(const char *name)
{
    return strcmp(name, "-") == 0;
}

int is_folder(const char *name)
{
    struct stat about;
    return !is_standard(name) && stat(name, &about) == 0 && S_ISDIR(about.st_mode);
}

/* Ends the program if the name of a folder is the one of standard input. */
static void need_folder_name(const char *name)
{
    if (is_standard(name))
        wrong_usage("- is standard input or output, and the command takes a folder there; a folder of that name is ./-");
}

struct folder open_folder(const char *name)
{
    struct folder folder = {name, -1};
    need_folder_name(name);
    folder.descriptor = open(name, O_RDONLY | O_DIRECTORY | O_CLOEXEC);
    if (folder.descriptor >= 0)
        return folder;
    if (errno == ENOENT)
        trouble(name, "is not there; collector new makes a replica");
    if (errno == ENOTDIR)
        trouble(name, "is not a folder, so it is not a replica");
    trouble(name, "cannot be opened: %s", reason(errno));
}

void close_folder(struct folder *folder)
{
    close(folder->descriptor);
    folder->descriptor = -1;
}

long read_all(int descriptor, uint8_t *bytes, size_t room)
{
    size_t n = 0;
    while (n < room) {
        ssize_t got = read(descriptor, bytes + n, room - n);
        if (got == 0)
            break;
        if (got > 0)
            n += (size_t)got;
        else if (errno != EINTR)
            return -1;
    }
    return (long)n;
}

int write_all(int descriptor, const void *bytes, size_t n)
{
    const uint8_t *rest = bytes;
    while (n > 0) {
        ssize_t done = write(descriptor, rest, n);
        if (done >= 0) {
            rest += done;
            n -= (size_t)done;
        } else if (errno != EINTR) {
            return -1;
        }
    }
    return 0;
}

/* Reads an open file and closes it. One byte beyond the room would show that it is too long. */
static size_t read_open(int descriptor, const char *name, uint8_t *bytes, size_t room, const struct stat *about)
{
    uint8_t more;
    long n = read_all(descriptor, bytes, room);
    if (n < 0)
        trouble(name, "cannot be read: %s", reason(errno));
    if ((size_t)n == room && read_all(descriptor, &more, 1) == 1)
        trouble(name, "has over %zu bytes, which no file of ours has", room);
    if (S_ISREG(about->st_mode) && descriptor != STDIN_FILENO && n < (long)about->st_size)
        trouble(name, "ended after %ld of its %lld bytes while it was read; try again", n, (long long)about->st_size);
    if (descriptor != STDIN_FILENO)
        close(descriptor);
    return (size_t)n;
}

size_t read_in(const struct folder *folder, const char *name, uint8_t *bytes, size_t room)
{
    struct stat about;
    struct path place = inside(folder->name, name);
    int descriptor = openat(folder->descriptor, name, O_RDONLY | O_NOFOLLOW | O_NONBLOCK | O_CLOEXEC);
    if (descriptor < 0 && errno == ENOENT)
        return NOT_THERE;
    if (descriptor < 0 || fstat(descriptor, &about) != 0)
        trouble(place.text, "cannot be opened: %s", reason(errno));
    if (!S_ISREG(about.st_mode))
        trouble(place.text, "is not a regular file; something else put it there");
    return read_open(descriptor, place.text, bytes, room, &about);
}

size_t read_named(const char *name, uint8_t *bytes, size_t room)
{
    struct stat about;
    int descriptor = is_standard(name) ? STDIN_FILENO : open(name, O_RDONLY | O_CLOEXEC);
    const char *said = is_standard(name) ? "standard input" : name;
    if (descriptor < 0 || fstat(descriptor, &about) != 0)
        trouble(said, "cannot be opened: %s", reason(errno));
    if (S_ISDIR(about.st_mode))
        trouble(said, "is a folder, not a file");
    return read_open(descriptor, said, bytes, room, &about);
}

/* Whether a name is one that a file of ours has while it is written: ".NAME.16 DIGITS.new". */
static int is_left_over(const char *name)
{
    size_t at, length;
    for (at = 0; at < OWN_NAMES; at++) {
        length = strlen(own_names[at]);
        if (name[0] == '.' && strncmp(name + 1, own_names[at], length) == 0 && name[1 + length] == '.' &&
            strspn(name + 2 + length, "0123456789abcdef") == 16 && strcmp(name + 18 + length, ".new") == 0)
            return 1;
    }
    return 0;
}

/* Removes what was left over, also by a program of before this one. */
static void clean(const struct folder *folder)
{
    struct stat about;
    struct dirent *entry;
    size_t at;
    int descriptor = openat(folder->descriptor, ".", O_RDONLY | O_DIRECTORY | O_CLOEXEC);
    DIR *entries = descriptor < 0 ? NULL : fdopendir(descriptor);
    while (entries && (entry = readdir(entries)))
        if (is_left_over(entry->d_name))
            unlinkat(folder->descriptor, entry->d_name, 0);
    if (entries)
        closedir(entries);
    for (at = 0; at < 2; at++)
        if (fstatat(folder->descriptor, names_before[at], &about, AT_SYMLINK_NOFOLLOW) == 0 && S_ISREG(about.st_mode))
            unlinkat(folder->descriptor, names_before[at], 0);
}

/* Whether the folder is still the one that its name leads to. */
static int is_still_there(const struct folder *folder)
{
    struct stat open, named;
    return fstat(folder->descriptor, &open) == 0 && stat(folder->name, &named) == 0 && open.st_dev == named.st_dev &&
        open.st_ino == named.st_ino;
}

void need_still_there(const struct folder *folder)
{
    if (!is_still_there(folder))
        trouble(folder->name, "was replaced by another folder while this program worked on it; " NOTHING_CHANGED ", try again");
}

unsigned wait_seconds = 10;

void lock_folder(struct folder *folder)
{
    const struct timespec pause = {0, 10000000};
    unsigned long tries;
    for (tries = 0; flock(folder->descriptor, LOCK_EX | LOCK_NB) != 0; tries++) {
        if (errno != EWOULDBLOCK && errno != EINTR)
            trouble(folder->name, "cannot be locked: %s", reason(errno));
        if (tries == 100ul * wait_seconds)
            trouble(folder->name, "another program has been working on it for %u second%s; try again, or --wait longer", wait_seconds,
                    wait_seconds == 1 ? "" : "s");
        nanosleep(&pause, NULL);
    }
    if (!is_still_there(folder))
        trouble(folder->name, "was replaced by another folder while this program waited for it; try again");
    clean(folder);
}

/* Brings the entries of a folder down to the disk. */
static void sync_folder(const struct folder *folder, const char *name)
{
    if (fsync(folder->descriptor) != 0)
        trouble(inside(folder->name, name).text, "is written, but may not outlast a crash: %s", reason(errno));
}

/* The files that are written and not renamed yet. */
static const struct replacement *pending[8];
static size_t pending_count;

static void remove_pending(void)
{
    while (pending_count > 0) {
        pending_count--;
        unlinkat(pending[pending_count]->folder->descriptor, pending[pending_count]->beside, 0);
    }
}

static void add_pending(const struct replacement *new)
{
    static int is_set;
    if (!is_set)
        is_set = atexit(remove_pending) == 0;
    if (pending_count < sizeof pending / sizeof *pending)
        pending[pending_count++] = new;
}

static void drop_pending(const struct replacement *new)
{
    size_t at;
    for (at = 0; at < pending_count; at++)
        if (pending[at] == new)
            pending[at] = pending[--pending_count];
}

/*
 * Gives a new file the owner, the group and the rights of the one that it replaces. Only the superuser can give a file away; others can
 * keep the group if they are in it.
 */
static int take_rights(int descriptor, const struct replacement *new)
{
    struct stat old;
    if (fstatat(new->folder->descriptor, new->name, &old, AT_SYMLINK_NOFOLLOW) != 0 || !S_ISREG(old.st_mode))
        return 0;
    if (fchown(descriptor, geteuid() == 0 ? old.st_uid : (uid_t)-1, old.st_gid) != 0 && geteuid() == 0)
        return -1;
    return old.st_uid == geteuid() || geteuid() == 0 ? fchmod(descriptor, old.st_mode & 07777) : 0;
}

/* Makes the file that is written first, under a name that nobody can know before. */
static int open_beside(struct replacement *new)
{
    uint64_t drawn;
    if (getrandom(&drawn, sizeof drawn, 0) != sizeof drawn)
        return -1;
    snprintf(new->beside, sizeof new->beside, ".%s.%016llx.new", new->name, (unsigned long long)drawn);
    return openat(new->folder->descriptor, new->beside, O_WRONLY | O_CREAT | O_EXCL | O_NOFOLLOW | O_CLOEXEC, 0666);
}

void prepare(struct replacement *new, const struct folder *folder, const char *name, const void *bytes, size_t n)
{
    struct path place = inside(folder->name, name);
    int descriptor;
    new->folder = folder;
    if ((size_t)snprintf(new->name, sizeof new->name, "%s", name) >= sizeof new->name - 24)
        trouble(place.text, "the name is too long");
    descriptor = open_beside(new);
    if (descriptor < 0)
        trouble(place.text, "cannot be written: %s; " NOTHING_CHANGED, reason(errno));
    add_pending(new);
    if (take_rights(descriptor, new) != 0 || write_all(descriptor, bytes, n) != 0 || fsync(descriptor) != 0 || close(descriptor) != 0)
        trouble(place.text, "cannot be written: %s; " NOTHING_CHANGED, reason(errno));
}

static void put_in_place(struct replacement *new, const char *otherwise)
{
    const int folder = new->folder->descriptor;
    if (renameat(folder, new->beside, folder, new->name) != 0)
        trouble(inside(new->folder->name, new->name).text, "cannot be replaced: %s; %s", reason(errno), otherwise);
    drop_pending(new);
}

void finish(struct replacement *new, const char *otherwise)
{
    put_in_place(new, otherwise);
    sync_folder(new->folder, new->name);
}

void finish_change(struct replacement *new, const char *otherwise)
{
    put_in_place(new, otherwise);
    change_is_made();
    sync_folder(new->folder, new->name);
}

void make_folder(const char *name)
{
    struct path copy = path_of(name, "", "");
    struct folder above;
    need_folder_name(name);
    if (mkdir(name, 0777) == 0) {
        above = open_folder(dirname(copy.text));
        sync_folder(&above, name);
        close_folder(&above);
    } else if (errno != EEXIST || !is_folder(name)) {
        trouble(name, "cannot be made: %s", reason(errno));
    }
}

/* Whether a folder is a replica's. */
static int is_replica(const struct folder *folder)
{
    struct stat about;
    return fstatat(folder->descriptor, "store", &about, AT_SYMLINK_NOFOLLOW) == 0 ||
        fstatat(folder->descriptor, "last-tick", &about, AT_SYMLINK_NOFOLLOW) == 0;
}

/* Ends the program if a result would stand in the way of a replica's own files. */
static void need_outside(const struct folder *folder, const char *base, const char *said)
{
    struct stat about;
    size_t at;
    if (!is_replica(folder))
        return;
    for (at = 0; at < OWN_NAMES; at++)
        if (strcmp(base, own_names[at]) == 0)
            trouble(said, "is a file of a replica, which only its own commands change; give another name");
    if (is_left_over(base) || strcmp(base, names_before[0]) == 0 || strcmp(base, names_before[1]) == 0)
        trouble(said, "would be removed from the replica's folder with its next change; give another name");
    if (fstatat(folder->descriptor, base, &about, AT_SYMLINK_NOFOLLOW) == 0)
        trouble(said, "is in a replica's folder already, where nothing is written over; give another name");
}

/* Where a name leads to: through links, so that it is not a link that is replaced. */
static struct path place_of(const char *name)
{
    struct stat about;
    struct path place;
    if (lstat(name, &about) == 0 && S_ISLNK(about.st_mode) && realpath(name, place.text))
        return place;
    return path_of(name, "", "");
}

/* Writes to something that is not a regular file. */
static void write_through(const char *name, int descriptor, const uint8_t *bytes, size_t n)
{
    if (descriptor < 0 || write_all(descriptor, bytes, n) != 0)
        trouble(name, "cannot be written: %s", reason(errno));
}

static void write_named(const char *name, const uint8_t *bytes, size_t n)
{
    struct path place = place_of(name), copy = place;
    struct replacement new;
    struct stat about;
    struct folder folder = {dirname(copy.text), -1};
    const char *slash = strrchr(place.text, '/'), *base = slash ? slash + 1 : place.text;
    folder.descriptor = open(folder.name, O_RDONLY | O_DIRECTORY | O_CLOEXEC);
    if (folder.descriptor < 0)
        trouble(name, "cannot be written: %s; " NOTHING_CHANGED, reason(errno));
    need_outside(&folder, base, name);
    if (stat(name, &about) != 0 || S_ISREG(about.st_mode)) {
        prepare(&new, &folder, base, bytes, n);
        finish_change(&new, NOTHING_CHANGED);
    } else {
        write_through(name, open(name, O_WRONLY | O_CLOEXEC), bytes, n);
        change_is_made();
    }
    close_folder(&folder);
}

void write_result(const char *name, const uint8_t *bytes, size_t n)
{
    if (is_standard(name))
        write_through("standard output", STDOUT_FILENO, bytes, n);
    else if (is_folder(name))
        trouble(name, "is a folder, not a file");
    else
        write_named(name, bytes, n);
}
