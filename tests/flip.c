/*
 * Damages a file, each bit flipped, each length cut, one byte more, and runs a command each time.
 *
 *   flip STEP FILE [FOLDER]... -- COMMAND [ARGUMENT]...
 *
 * Each time the command must end with status 3 and say nothing but a message of the program, and must leave the file,
 * and all files in the folders, byte for byte as they were: none may be gone, and none be there that was not. STEP 1
 * tries each bit and each length, a larger one only each STEP-th. At the end the file is as it was at first. Prints how
 * many bits, lengths and bytes more were tried. The status is 0 if all was noticed, and 1 if not.
 */

#define _GNU_SOURCE

#include <dirent.h>
#include <fcntl.h>
#include <spawn.h>
#include <stdio.h>
#include <stdlib.h>
#include <string.h>
#include <sys/wait.h>
#include <unistd.h>

enum { FILE_MOST = 60000, STATE_MOST = 1000000, NOTICED = 3 };

static const char said_in[] = "flip.said"; /* what the command prints */
static const char prefix[] = "collector: ";

static struct job {
    const char *file;
    char **folders, **command;
    int folder_count;
} job;

static unsigned char whole[FILE_MOST + 1]; /* the file as it was at first, with room for one byte more */
static size_t whole_n;

static _Noreturn void failed(const char *what, const char *name)
{
    printf("flip: %s: %s\n", name, what);
    exit(1);
}

static size_t read_file(const char *name, unsigned char *bytes, size_t room)
{
    int from = open(name, O_RDONLY);
    ssize_t n = from < 0 ? -1 : read(from, bytes, room);
    if (n < 0 || (size_t)n == room)
        failed("cannot be read", name);
    close(from);
    return (size_t)n;
}

static void write_file(const unsigned char *bytes, size_t n)
{
    int to = open(job.file, O_WRONLY | O_TRUNC);
    if (to < 0 || write(to, bytes, n) != (ssize_t)n || close(to) != 0)
        failed("cannot be written", job.file);
}

/* ---- what must not change */

struct state {
    size_t n;
    unsigned char bytes[STATE_MOST];
};

/* Adds the name, the length and the bytes of a file. */
static void add_file(struct state *state, const char *name)
{
    size_t front = strlen(name) + 1, n;
    if (state->n + front + sizeof n + FILE_MOST > STATE_MOST)
        failed("there is no room for all files", name);
    memcpy(state->bytes + state->n, name, front);
    n = read_file(name, state->bytes + state->n + front + sizeof n, FILE_MOST);
    memcpy(state->bytes + state->n + front, &n, sizeof n);
    state->n += front + sizeof n + n;
}

static int is_entry(const struct dirent *entry)
{
    return strcmp(entry->d_name, ".") != 0 && strcmp(entry->d_name, "..") != 0;
}

static void add_folder(struct state *state, const char *folder)
{
    struct dirent **entries;
    char name[4096];
    int at, count = scandir(folder, &entries, is_entry, alphasort);
    if (count < 0)
        failed("is no folder", folder);
    for (at = 0; at < count; at++) {
        snprintf(name, sizeof name, "%s/%s", folder, entries[at]->d_name);
        add_file(state, name);
        free(entries[at]);
    }
    free(entries);
}

static void look(struct state *state)
{
    int at;
    state->n = 0;
    add_file(state, job.file);
    for (at = 0; at < job.folder_count; at++)
        add_folder(state, job.folders[at]);
}

/* ---- one trial */

/* Runs the command; its status, or 128 and its signal. */
static int run(void)
{
    extern char **environ;
    posix_spawn_file_actions_t actions;
    pid_t child;
    int ended, number;
    posix_spawn_file_actions_init(&actions);
    posix_spawn_file_actions_addopen(&actions, STDOUT_FILENO, said_in, O_WRONLY | O_CREAT | O_TRUNC | O_APPEND, 0600);
    posix_spawn_file_actions_adddup2(&actions, STDOUT_FILENO, STDERR_FILENO);
    number = posix_spawnp(&child, job.command[0], &actions, NULL, job.command, environ);
    if (number != 0 || waitpid(child, &ended, 0) != child)
        failed("cannot be started", job.command[0]);
    posix_spawn_file_actions_destroy(&actions);
    return WIFEXITED(ended) ? WEXITSTATUS(ended) : 128 + WTERMSIG(ended);
}

/* Whether the command has printed nothing but a message. */
static int is_message(void)
{
    static unsigned char said[FILE_MOST];
    size_t n = read_file(said_in, said, sizeof said);
    return n > strlen(prefix) && memcmp(said, prefix, strlen(prefix)) == 0;
}

static _Noreturn void not_noticed(const char *what, const char *damage, size_t place)
{
    char **argument;
    printf("flip: %s, %s %zu:", job.file, damage, place);
    for (argument = job.command; *argument; argument++)
        printf(" %s", *argument);
    printf(": %s\n", what);
    exit(1);
}

static void try_bytes(const unsigned char *bytes, size_t n, const char *damage, size_t place)
{
    static struct state before, after;
    char text[40];
    int ended;
    write_file(bytes, n);
    look(&before);
    ended = run();
    look(&after);
    snprintf(text, sizeof text, "ended with %d", ended);
    if (ended != NOTICED)
        not_noticed(text, damage, place);
    if (!is_message())
        not_noticed("printed something else than a message", damage, place);
    if (before.n != after.n || memcmp(before.bytes, after.bytes, before.n) != 0)
        not_noticed("has changed something", damage, place);
}

/* ---- all of them */

static size_t try_bits(size_t step)
{
    size_t bit, count = 0;
    for (bit = 0; bit < 8 * whole_n; bit += step, count++) {
        whole[bit / 8] ^= (unsigned char)(1 << bit % 8);
        try_bytes(whole, whole_n, "bit", bit);
        whole[bit / 8] ^= (unsigned char)(1 << bit % 8);
    }
    return count;
}

static size_t try_lengths(size_t step)
{
    size_t n, count = 0;
    for (n = 0; n < whole_n; n += step, count++)
        try_bytes(whole, n, "cut to length", n);
    return count;
}

static size_t try_one_more(void)
{
    static const unsigned char more[] = {0, '\n', '0', 255};
    size_t at;
    for (at = 0; at < sizeof more; at++) {
        whole[whole_n] = more[at];
        try_bytes(whole, whole_n + 1, "one byte more,", more[at]);
    }
    return sizeof more;
}

int main(int count, char **arguments)
{
    size_t step, bits, lengths, longer;
    int at;
    for (at = 3; at < count && strcmp(arguments[at], "--") != 0; at++)
        ;
    if (at + 1 >= count || (step = strtoul(arguments[1], NULL, 10)) == 0)
        failed("usage: flip STEP FILE [FOLDER]... -- COMMAND [ARGUMENT]...", "arguments");
    job.file = arguments[2];
    job.folders = arguments + 3;
    job.folder_count = at - 3;
    job.command = arguments + at + 1;
    whole_n = read_file(job.file, whole, FILE_MOST);
    bits = try_bits(step);
    lengths = try_lengths(step);
    longer = try_one_more();
    write_file(whole, whole_n);
    printf("%zu %zu %zu\n", bits, lengths, longer);
    return 0;
}
