#define _GNU_SOURCE

#include "start.h"

#include <errno.h>
#include <fcntl.h>
#include <poll.h>
#include <signal.h>
#include <stdio.h>
#include <string.h>
#include <sys/wait.h>
#include <unistd.h>

#include "files.h"
#include "messages.h"

/* In the new process: the two ends of the pipes become its standard input and output. */
static _Noreturn void become(char *const *command, int in, int out)
{
    signal(SIGPIPE, SIG_DFL);
    if (dup2(in, STDIN_FILENO) < 0 || (out >= 0 && dup2(out, STDOUT_FILENO) < 0))
        _exit(126);
    execvp(command[0], command);
    fprintf(stderr, "collector: %s: cannot be started: %s\n", command[0], strerror(errno));
    _exit(127);
}

/* A pipe. Its ends are none of the three standard descriptors, even where one of these is closed: those are the command's own. */
static void make_pipe(int ends[2])
{
    int low[2], at;
    if (pipe2(low, O_CLOEXEC) != 0)
        trouble("a pipe", "cannot be made: %s", strerror(errno));
    for (at = 0; at < 2; at++) {
        ends[at] = fcntl(low[at], F_DUPFD_CLOEXEC, STDERR_FILENO + 1);
        if (ends[at] < 0)
            trouble("a pipe", "cannot be made: %s", strerror(errno));
    }
    close(low[0]);
    close(low[1]);
}

/* Writes some of the input. How much is done; all of it if the program reads no more. */
static size_t give(int to, const uint8_t *input, size_t n)
{
    ssize_t done = write(to, input, n);
    return done >= 0 ? (size_t)done : errno == EINTR || errno == EAGAIN ? 0 : n;
}

/* Writes the input and reads the output at once, so that neither program waits for the other. */
static void talk(int to, const uint8_t *input, size_t input_n, int from, uint8_t *output, size_t room, size_t *n)
{
    struct pollfd ends[2] = {{to, POLLOUT, 0}, {from, POLLIN, 0}};
    uint8_t more;
    ssize_t got;
    fcntl(to, F_SETFL, O_NONBLOCK);
    while (ends[0].fd >= 0 || ends[1].fd >= 0) {
        if (ends[0].fd >= 0 && input_n == 0) {
            close(to);
            ends[0].fd = -1;
            continue;
        }
        if (poll(ends, 2, -1) < 0 && errno != EINTR)
            break;
        if (ends[0].fd >= 0 && ends[0].revents) {
            size_t done = give(to, input, input_n);
            input += done;
            input_n -= done;
        }
        if (ends[1].fd >= 0 && ends[1].revents) {
            got = *n < room ? read(from, output + *n, room - *n) : read(from, &more, 1);
            if (got > 0 && *n <= room)
                *n += (size_t)got;
            if (got == 0 || (got < 0 && errno != EINTR) || *n > room)
                ends[1].fd = -1;
            if (*n > room)
                input_n = 0; /* its answer is not wanted any more, and it may not read before it has printed all of it */
        }
    }
    if (ends[0].fd >= 0)
        close(to);
}

int start(char *const *command, const void *input, size_t input_n, uint8_t *output, size_t room, size_t *n)
{
    int in[2], out[2] = {-1, -1}, ended = 0;
    size_t none = 0;
    pid_t child;
    signal(SIGPIPE, SIG_IGN);
    make_pipe(in);
    if (output)
        make_pipe(out);
    child = fork();
    if (child < 0)
        trouble(command[0], "cannot be started: %s", strerror(errno));
    if (child == 0)
        become(command, in[0], out[1]);
    close(in[0]);
    if (output)
        close(out[1]);
    if (n)
        *n = 0;
    talk(in[1], input, input_n, out[0], output, room, n ? n : &none);
    if (output)
        close(out[0]);
    while (waitpid(child, &ended, 0) < 0 && errno == EINTR)
        ;
    return WIFEXITED(ended) ? WEXITSTATUS(ended) : 128 + WTERMSIG(ended);
}
