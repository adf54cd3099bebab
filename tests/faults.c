/*
 * Faults for the tests of the host program. It is linked with the program, in front of the calls that touch files (gcc -Wl,--wrap=open and
 * so on). The environment variable COLLECTOR_FAULT says what happens:
 *
 *   stop N   the program ends right after the N-th call of open, openat, write, fsync, rename, renameat, unlinkat or mkdir
 *   half N   likewise, and if that is a write only half of its bytes are written
 *   lose N   likewise, and as after a power failure the bytes of files that were not synced are lost
 *   undo N   likewise, and the first renaming that no sync of a folder has followed is undone
 *   full N   the N-th call fails: no space left on the device
 *   slow     each read gives one byte
 *   cut      each file ends after 20 bytes
 *   broken   each read fails: input or output error
 *   busy     another program has the lock, and time flies
 *
 * half, lose and undo count from the first file or folder on that the program makes: before that they would do what stop does.
 * If COLLECTOR_UNSYNCED is set, fsync does nothing: what is then lost shows that the tests would notice a missing one. A program that is
 * stopped says after which call, and has the status 77.
 */

#define _DEFAULT_SOURCE

#include <errno.h>
#include <fcntl.h>
#include <stdarg.h>
#include <stdio.h>
#include <stdlib.h>
#include <string.h>
#include <sys/stat.h>
#include <time.h>
#include <unistd.h>

int __real_open(const char *path, int flags, ...);
int __real_openat(int folder, const char *name, int flags, ...);
ssize_t __real_read(int descriptor, void *bytes, size_t n);
ssize_t __real_write(int descriptor, const void *bytes, size_t n);
int __real_fsync(int descriptor);
int __real_rename(const char *from, const char *to);
int __real_renameat(int from_folder, const char *from, int to_folder, const char *to);
int __real_unlinkat(int folder, const char *name, int flags);
int __real_mkdir(const char *path, mode_t mode);
int __real_flock(int descriptor, int operation);
int __real_nanosleep(const struct timespec *time, struct timespec *left);

enum { ROOM = 4200, MOST = 16 };

/* The files that were opened for writing, under their present names. */
static struct {
    char path[ROOM];
    int descriptor, unsynced;
} files[MOST];
static int file_count;

/* The renamings that no sync of a folder has followed yet; what was there before has a second name. */
static struct {
    char path[ROOM], before[ROOM + 8];
} renamings[MOST];
static int renaming_count;

static int calls;
static int has_begun; /* to change something */

/* The path of a name in an open folder, or of the name alone. */
static void put_path(char path[ROOM], int folder, const char *name)
{
    char link[40];
    ssize_t n = 0;
    snprintf(link, sizeof link, "/proc/self/fd/%d", folder);
    if (folder != AT_FDCWD && name[0] != '/' && (n = readlink(link, path, ROOM - 1)) < 0)
        abort();
    snprintf(path + n, (size_t)(ROOM - n), "%s%s", n > 0 ? "/" : "", name);
}

static int is_mode(const char *mode)
{
    const char *fault = getenv("COLLECTOR_FAULT");
    return fault && strncmp(fault, mode, strlen(mode)) == 0;
}

/* Whether this is the call that the fault names. */
static int is_now(void)
{
    const char *number = getenv("COLLECTOR_FAULT");
    number = number ? strchr(number, ' ') : NULL;
    return number && calls == atoi(number);
}

static void lose(void)
{
    int at;
    for (at = 0; at < file_count; at++)
        if (files[at].unsynced && truncate(files[at].path, 0) != 0)
            abort();
}

static void undo(void)
{
    if (renaming_count > 0 && __real_rename(renamings[0].before, renamings[0].path) != 0)
        unlink(renamings[0].path);
}

/* Counts a call that has been made, and stops the program behind it. */
static void stop(const char *call)
{
    if (!is_now() || !(is_mode("stop") || is_mode("half") || is_mode("lose") || is_mode("undo")))
        return;
    if (is_mode("lose"))
        lose();
    if (is_mode("undo"))
        undo();
    fprintf(stderr, "stopped after %s\n", call);
    _exit(77);
}

/* Counts a call that is to be made. Whether it fails. */
static int fails(const char *call)
{
    if (has_begun || is_mode("stop") || is_mode("full"))
        calls++;
    if (!is_now() || !is_mode("full"))
        return 0;
    fprintf(stderr, "no space for %s\n", call);
    errno = ENOSPC;
    return 1;
}

/* Keeps in mind a file that has been opened. */
static void add_file(int descriptor, int folder, const char *name, int flags)
{
    int at;
    for (at = 0; at < file_count; at++)
        if (files[at].descriptor == descriptor)
            files[at].descriptor = -1; /* it was closed */
    if (descriptor < 0 || !(flags & O_WRONLY))
        return;
    if (file_count == MOST)
        abort();
    put_path(files[file_count].path, folder, name);
    files[file_count++].descriptor = descriptor;
}

int __wrap_open(const char *path, int flags, ...)
{
    int descriptor;
    if (fails("open"))
        return -1;
    descriptor = __real_open(path, flags); /* the program makes files with openat only */
    add_file(descriptor, AT_FDCWD, path, flags);
    stop("open");
    return descriptor;
}

int __wrap_openat(int folder, const char *name, int flags, ...)
{
    mode_t mode = 0;
    int descriptor;
    if (flags & O_CREAT) {
        va_list rest;
        has_begun = 1;
        va_start(rest, flags);
        mode = va_arg(rest, mode_t);
        va_end(rest);
    }
    if (fails("openat"))
        return -1;
    descriptor = __real_openat(folder, name, flags, mode);
    add_file(descriptor, folder, name, flags);
    stop("openat");
    return descriptor;
}

ssize_t __wrap_read(int descriptor, void *bytes, size_t n)
{
    if (is_mode("broken")) {
        errno = EIO;
        return -1;
    }
    if (is_mode("cut") && lseek(descriptor, 0, SEEK_CUR) >= 20)
        return 0;
    if (is_mode("cut") && n > 20)
        n = 20;
    return __real_read(descriptor, bytes, is_mode("slow") && n > 1 ? 1 : n);
}

ssize_t __wrap_write(int descriptor, const void *bytes, size_t n)
{
    ssize_t done;
    int at;
    if (fails("write"))
        return -1;
    done = __real_write(descriptor, bytes, is_now() && is_mode("half") ? n / 2 : n);
    for (at = 0; at < file_count; at++)
        if (files[at].descriptor == descriptor)
            files[at].unsynced = 1;
    stop("write");
    return done;
}

int __wrap_fsync(int descriptor)
{
    struct stat about;
    int done, at;
    if (fails("fsync"))
        return -1;
    done = getenv("COLLECTOR_UNSYNCED") ? 0 : __real_fsync(descriptor);
    for (at = 0; at < file_count; at++)
        if (files[at].descriptor == descriptor && !getenv("COLLECTOR_UNSYNCED"))
            files[at].unsynced = 0;
    if (fstat(descriptor, &about) == 0 && S_ISDIR(about.st_mode) && !getenv("COLLECTOR_UNSYNCED"))
        while (renaming_count > 0)
            unlink(renamings[--renaming_count].before);
    stop("fsync");
    return done;
}

/* Keeps in mind what a renaming is about to replace, under a second name. */
static void add_renaming(const char *to)
{
    if (renaming_count == MOST)
        abort();
    snprintf(renamings[renaming_count].path, ROOM, "%s", to);
    snprintf(renamings[renaming_count].before, ROOM + 8, "%s.before", to);
    if (link(to, renamings[renaming_count].before) != 0 && errno != ENOENT)
        abort();
    renaming_count++;
}

int __wrap_renameat(int from_folder, const char *from, int to_folder, const char *to)
{
    static char from_path[ROOM], to_path[ROOM];
    int done, at;
    if (fails("renameat"))
        return -1;
    put_path(from_path, from_folder, from);
    put_path(to_path, to_folder, to);
    if (is_mode("undo"))
        add_renaming(to_path);
    done = __real_renameat(from_folder, from, to_folder, to);
    for (at = 0; at < file_count; at++)
        if (strcmp(files[at].path, from_path) == 0)
            strcpy(files[at].path, to_path);
    stop("renameat");
    return done;
}

int __wrap_rename(const char *from, const char *to)
{
    return __wrap_renameat(AT_FDCWD, from, AT_FDCWD, to);
}

int __wrap_unlinkat(int folder, const char *name, int flags)
{
    int done;
    if (fails("unlinkat"))
        return -1;
    done = __real_unlinkat(folder, name, flags);
    stop("unlinkat");
    return done;
}

int __wrap_mkdir(const char *path, mode_t mode)
{
    int done;
    has_begun = 1;
    if (fails("mkdir"))
        return -1;
    done = __real_mkdir(path, mode);
    stop("mkdir");
    return done;
}

int __wrap_flock(int descriptor, int operation)
{
    if (is_mode("busy")) {
        errno = EWOULDBLOCK;
        return -1;
    }
    return __real_flock(descriptor, operation);
}

int __wrap_nanosleep(const struct timespec *time, struct timespec *left)
{
    return is_mode("busy") ? 0 : __real_nanosleep(time, left);
}
