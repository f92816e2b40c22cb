/* See clfs_program.h.
 *
 * Standard error is read here, since nothing but its text tells a folder that another process has from a disk that failed. What was read goes on
 * to where the caller wants it. A descriptor there that takes nothing for a second loses what comes until it takes something again, so this
 * side waits neither for itself nor for a program that waits for it. The input is a socket, since a write to one can be told to raise no signal, and since its end can be told to
 * the program though a child of the caller has a copy of it.
 */
#define _GNU_SOURCE
#include "clfs_connection.h"

#include <errno.h>
#include <fcntl.h>
#include <poll.h>
#include <signal.h>
#include <spawn.h>
#include <string.h>
#include <sys/socket.h>
#include <sys/wait.h>
#include <time.h>
#include <unistd.h>

/* As much as a pipe that has room takes at once. */
#define PIECE 4096
/* More pieces than a pipe holds. */
#define MOST_PIECES 64
#define LONGEST_WAIT 1000
#define SHORT_WAIT 10

static const struct {
    int cause;
    const char *text;
} beginnings[] = {
    {CLFS_LOCKED, "clfs: locked: "}, {CLFS_NO_FOLDER, "clfs: no folder: "}, {CLFS_NO_PERMISSION, "clfs: no permission: "},
};

/* Starting. */

int clfs_above_standard(int from)
{
    if (from < 0 || from > 2) return from;
    int to = fcntl(from, F_DUPFD_CLOEXEC, 3);
    int error = errno;
    close(from);
    errno = error;
    return to;
}

/* A process group of its own, so that no signal of the caller's terminal reaches the program; and no signal blocked or ignored, whatever the caller
 * does about its own. */
static int set_attributes(posix_spawnattr_t *attributes)
{
    sigset_t none, all;
    sigemptyset(&none);
    sigfillset(&all);
    sigdelset(&all, SIGKILL);
    sigdelset(&all, SIGSTOP);
    int error = posix_spawnattr_setflags(attributes, POSIX_SPAWN_SETPGROUP | POSIX_SPAWN_SETSIGMASK | POSIX_SPAWN_SETSIGDEF);
    if (!error) error = posix_spawnattr_setpgroup(attributes, 0);
    if (!error) error = posix_spawnattr_setsigmask(attributes, &none);
    if (!error) error = posix_spawnattr_setsigdefault(attributes, &all);
    return error;
}

/* Starts a process with these three as its standard streams, each of which is above them. */
static int spawn(pid_t *process, char *const words[], const int streams[3])
{
    posix_spawn_file_actions_t actions;
    posix_spawnattr_t attributes;
    int error = posix_spawn_file_actions_init(&actions);
    if (error) return error;
    error = posix_spawnattr_init(&attributes);
    if (!error) {
        error = set_attributes(&attributes);
        for (int to = 0; to < 3 && !error; to++) error = posix_spawn_file_actions_adddup2(&actions, streams[to], to);
        if (!error) error = posix_spawnp(process, words[0], &actions, &attributes, words, environ);
        posix_spawnattr_destroy(&attributes);
    }
    posix_spawn_file_actions_destroy(&actions);
    return error;
}

void clfs_close_one(int *descriptor)
{
    if (*descriptor >= 0) close(*descriptor);
    *descriptor = -1;
}

void clfs_close_pipes(struct clfs_program *program)
{
    clfs_close_one(&program->input);
    clfs_close_one(&program->output);
    clfs_close_one(&program->errors);
    clfs_close_one(&program->pass_to);
    clfs_close_one(&program->guard);
    clfs_close_one(&program->door);
}

/* A copy of where standard error goes on to. The caller may have no standard error. */
static int open_pass_to(struct clfs_program *program, int errors)
{
    if (errors >= 0) program->pass_to = fcntl(errors ? errors : 2, F_DUPFD_CLOEXEC, 3);
    return errors > 0 && program->pass_to < 0 ? errno : 0;
}

/* Makes the three pipes; their other ends are the streams. */
static int open_pipes(struct clfs_program *program, int streams[3])
{
    int pairs[3][2] = {{-1, -1}, {-1, -1}, {-1, -1}};
    int error = 0;
    if (socketpair(AF_UNIX, SOCK_STREAM | SOCK_CLOEXEC, 0, pairs[0]) || pipe2(pairs[1], O_CLOEXEC) || pipe2(pairs[2], O_CLOEXEC)) error = errno;
    for (int pair = 0; pair < 3; pair++) {
        for (int end = 0; end < 2; end++) {
            pairs[pair][end] = clfs_above_standard(pairs[pair][end]);
            if (pairs[pair][end] < 0 && !error) error = errno;
        }
        streams[pair] = pairs[pair][1];
    }
    program->input = pairs[0][0];
    program->output = pairs[1][0];
    program->errors = pairs[2][0];
    return error;
}

int clfs_launch(struct clfs_program *program, char *const words[], int errors)
{
    int streams[3] = {-1, -1, -1};
    *program = CLFS_NOTHING_OPEN;
    int error = open_pass_to(program, errors);
    if (!error) error = open_pipes(program, streams);
    if (!error && (fcntl(program->input, F_SETFL, O_NONBLOCK) || fcntl(program->errors, F_SETFL, O_NONBLOCK))) error = errno;
    if (!error) error = spawn(&program->process, words, streams);
    for (int stream = 0; stream < 3; stream++) clfs_close_one(&streams[stream]);
    if (error) clfs_close_pipes(program);
    return error;
}

/* Standard error. */

/* Looks at a byte of standard error for the beginning of a line that tells a cause. */
static void look(struct clfs_program *program, char byte)
{
    if (byte == '\n') {
        program->known = 0;
    } else if (program->known < sizeof program->line) {
        program->line[program->known++] = byte;
        for (size_t at = 0; at < sizeof beginnings / sizeof *beginnings; at++) {
            const char *text = beginnings[at].text;
            if (program->known == strlen(text) && !memcmp(program->line, text, program->known)) program->cause = beginnings[at].cause;
        }
    }
}

ssize_t clfs_write_silently(int to, const char *bytes, size_t size)
{
    sigset_t only, before, pending;
    sigemptyset(&only);
    sigaddset(&only, SIGPIPE);
    sigpending(&pending);
    sigprocmask(SIG_BLOCK, &only, &before);
    ssize_t written = write(to, bytes, size);
    if (written < 0 && errno == EPIPE && !sigismember(&pending, SIGPIPE)) sigtimedwait(&only, NULL, &(struct timespec){0, 0});
    sigprocmask(SIG_SETMASK, &before, NULL);
    return written;
}

/* Passes a piece on, as far as it is taken. */
static void pass_on(struct clfs_program *program, const char *bytes, size_t size)
{
    struct pollfd target = {.fd = program->pass_to, .events = POLLOUT};
    while (size > 0) {
        int ready = poll(&target, 1, program->is_stuck ? 0 : LONGEST_WAIT);
        if (ready < 0 && errno == EINTR) continue;
        ssize_t written = ready > 0 && target.revents == POLLOUT ? clfs_write_silently(program->pass_to, bytes, size) : -1;
        program->is_stuck = written < 0;
        if (written < 0) return;
        bytes += written;
        size -= (size_t)written;
    }
}

/* Handles a piece of standard error. False if there is none. */
static bool take_errors(struct clfs_program *program)
{
    char piece[PIECE];
    ssize_t size = read(program->errors, piece, sizeof piece);
    if (size < 0 && (errno == EAGAIN || errno == EWOULDBLOCK || errno == EINTR)) return false;
    if (size <= 0) {
        clfs_close_one(&program->errors);
        return false;
    }
    for (ssize_t at = 0; at < size; at++) look(program, piece[at]);
    if (program->pass_to >= 0) pass_on(program, piece, (size_t)size);
    return true;
}

/* Waiting. */

int clfs_ready(struct clfs_program *program, int wanted)
{
    struct pollfd pipes[3] = {
        {.fd = wanted & POLLIN ? program->output : -1, .events = POLLIN},
        {.fd = wanted & POLLOUT ? program->input : -1, .events = POLLOUT},
        {.fd = program->errors, .events = POLLIN},
    };
    if (poll(pipes, 3, -1) < 0) return errno == EINTR ? 0 : -1;
    if (pipes[2].revents) take_errors(program);
    return (pipes[0].revents ? POLLIN : 0) | (pipes[1].revents ? POLLOUT : 0);
}

ssize_t clfs_write(struct clfs_program *program, const char *bytes, size_t size)
{
    return program->is_connection ? clfs_write_silently(program->input, bytes, size) : send(program->input, bytes, size, MSG_NOSIGNAL);
}

bool clfs_end_input(struct clfs_program *program)
{
    if (!program->is_connection) return !shutdown(program->input, SHUT_WR) || errno != EINTR;
    clfs_leave(program);
    return true;
}

void clfs_stop(struct clfs_program *program)
{
    if (!program->is_connection) kill(program->process, SIGKILL);
}

/* The process is waited for while its standard error is read, and no longer than for the process: a child of its may keep its standard error. */
void clfs_reap(struct clfs_program *program, struct clfs_ending *ending)
{
    int status = 0;
    pid_t reaped;
    if (program->is_connection) {
        ending->status = program->has_left ? 0 : -1;
        clfs_let_go(program);
        return;
    }
    do {
        struct pollfd errors = {.fd = program->errors, .events = POLLIN};
        if (program->errors >= 0 && poll(&errors, 1, SHORT_WAIT) > 0) take_errors(program);
        reaped = waitpid(program->process, &status, program->errors >= 0 ? WNOHANG : 0);
    } while (reaped == 0 || (reaped < 0 && errno == EINTR));
    for (int piece = 0; piece < MOST_PIECES && program->errors >= 0 && take_errors(program); piece++) continue;
    bool known = reaped == program->process;
    ending->status = known && WIFEXITED(status) ? WEXITSTATUS(status) : -1;
    ending->signal = known && WIFSIGNALED(status) ? WTERMSIG(status) : 0;
    clfs_close_pipes(program);
}

int clfs_answer_of_end(const struct clfs_program *program, const struct clfs_ending *ending)
{
    if (program->is_connection) return program->has_left && !ending->unanswered ? CLFS_ENDED : CLFS_SERVICE_ENDED;
    bool failed = ending->status == CLFS_STATUS_DISK_FAILED;
    bool is_none = ending->status == CLFS_STATUS_NOT_A_LOG && program->cause == CLFS_NO_FOLDER;
    return program->cause && (failed || is_none) ? program->cause : CLFS_ENDED;
}
