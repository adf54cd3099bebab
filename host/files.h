/* Whole files: reading one, and replacing one so that the old one or the new one is there, whole, whatever happens. */

#ifndef FILES_H
#define FILES_H

#include <stddef.h>
#include <stdint.h>

/* A folder that is open, under the name that the user gave. */
struct folder {
    const char *name;
    int descriptor;
};

/* Whether the name is that of a folder; - is none. */
int is_folder(const char *name);

/* Whether a name stands for standard input or output: "-". */
int is_standard(const char *name);

/* Opens a folder; ends the program if there is none, or if it may not be read. */
struct folder open_folder(const char *name);
void close_folder(struct folder *folder);

/* Makes a folder, unless it is there. */
void make_folder(const char *name);

/* How many seconds lock_folder waits. */
extern unsigned wait_seconds;

/*
 * Takes the lock of an open folder, which the program holds until it ends: it is on the folder itself, so nobody can replace it. Waits
 * for another program that has it, but not for ever. Then removes what programs that were stopped have left over there.
 */
void lock_folder(struct folder *folder);

/* Ends the program if the name of a folder that is open leads to another one now. */
void need_still_there(const struct folder *folder);

/*
 * Reads a file of a folder, at most so many bytes as there is room for; its length, or NOT_THERE. Ends the program if the file cannot be
 * read, is longer, or is no regular file.
 */
#define NOT_THERE ((size_t)-1)
size_t read_in(const struct folder *folder, const char *name, uint8_t *bytes, size_t room);

/* Reads a whole file that the user named, or standard input; its length. Ends the program if it cannot, or if it is longer. */
size_t read_named(const char *name, uint8_t *bytes, size_t room);

/* Writes all bytes; 0, or -1 and errno. */
int write_all(int descriptor, const void *bytes, size_t n);

/* Reads until the end or until the room is full; how many bytes, or -1 and errno. */
long read_all(int descriptor, uint8_t *bytes, size_t room);

/*
 * Replacing a file of a folder takes two steps: it is written beside its place, down to the disk, and then renamed. So several files can
 * all be written before the first is renamed, and a full disk changes none. If the renaming fails, the program ends and says what holds
 * otherwise. Files that were written and not renamed are removed when the program ends.
 */
struct replacement {
    const struct folder *folder;
    char name[256], beside[288];
};
#define NOTHING_CHANGED "nothing has changed"
void prepare(struct replacement *new, const struct folder *folder, const char *name, const void *bytes, size_t n);
void finish(struct replacement *new, const char *otherwise);

/* Likewise for the file whose renaming is the change itself: what fails behind it comes after the change (messages.h). */
void finish_change(struct replacement *new, const char *otherwise);

/*
 * Writes a result where the user wants it: replaces the file, or writes to standard output, a pipe or a device. In a folder of a replica
 * it writes neither over a file that is there nor under a name that this program uses. A result that has a name is a change (messages.h).
 */
void write_result(const char *name, const uint8_t *bytes, size_t n);

/* The three texts one after the other. */
struct path {
    char text[4096];
};
struct path path_of(const char *front, const char *middle, const char *end);

/* The path of a name in a folder. */
struct path inside(const char *folder, const char *name);

/* What the last error of the system means, in words of our own for those that users meet. */
const char *reason(int error);

#endif
