/* See clfs_connection.h.
 *
 * Who comes to a door makes two pipes of its own beside it, writes their name to the door, and waits for the number of its client. The end of the
 * pipe to the service ends the visit; a program that dies ends it so too. No open waits for a service that isn't there: until the service has
 * opened the pipes, this side is a reader and a writer of its own input (the guard), and the door tells whether somebody reads it.
 *
 * A child that the caller forks gets copies of the pipes, which would keep the visit open. So the connections of this process stand in a list, and
 * a child closes them first of all. The list is locked while descriptors are opened and closed, so that a fork of another thread finds all of them.
 */
#define _GNU_SOURCE
#include "clfs_connection.h"

#include <errno.h>
#include <fcntl.h>
#include <poll.h>
#include <pthread.h>
#include <stdio.h>
#include <string.h>
#include <sys/stat.h>
#include <time.h>
#include <unistd.h>

#define PATH_ROOM 4096
#define NAME_ROOM 64
/* As many names are tried, of which each is likely to be free. */
#define MOST_NAMES 100
#define MOST_CLIENTS 64
/* How long the looks for a service at a pair of pipes are apart, at first and at most, in milliseconds. */
#define FIRST_PAUSE 1
#define LONGEST_PAUSE 50
/* The reply to an empty line, whatever the log is like. */
#define BAD_LINE "0 refused 28 BadLine 0"

/* The connections of this process. */

static pthread_mutex_t lock = PTHREAD_MUTEX_INITIALIZER;
static pthread_once_t once = PTHREAD_ONCE_INIT;
static struct clfs_program *connections;
static int watching;    /* the answer to the request to be told of forks */

static void take_lock(void) { pthread_mutex_lock(&lock); }

static void give_lock(void) { pthread_mutex_unlock(&lock); }

/* In a child: none of the connections is its own. */
static void leave_all(void)
{
    for (struct clfs_program *one = connections; one; one = one->next) {
        clfs_close_pipes(one);
        one->failed = CLFS_OTHER_PROCESS;
    }
    connections = NULL;
    give_lock();
}

static void watch_forks(void) { watching = pthread_atfork(take_lock, give_lock, leave_all); }

/* Puts a connection, of which nothing is open, into the list, and keeps the lock. */
static int begin_opening(struct clfs_program *connection)
{
    pthread_once(&once, watch_forks);
    errno = watching;
    if (watching) return CLFS_SYSTEM;
    take_lock();
    connection->next = connections;
    connections = connection;
    return 0;
}

void clfs_leave(struct clfs_program *connection)
{
    take_lock();
    clfs_close_one(&connection->input);
    connection->has_left = true;
    give_lock();
}

void clfs_let_go(struct clfs_program *connection)
{
    int error = errno;
    take_lock();
    struct clfs_program **place = &connections;
    while (*place && *place != connection) place = &(*place)->next;
    if (*place) *place = connection->next;
    clfs_close_pipes(connection);
    give_lock();
    errno = error;
}

/* Waiting. */

static long long milliseconds_now(void)
{
    struct timespec now;
    clock_gettime(CLOCK_MONOTONIC, &now);
    return now.tv_sec * 1000LL + now.tv_nsec / 1000000;
}

/* The moment at which so many milliseconds are over; -1 if they are without a limit. */
static long long deadline_after(int milliseconds) { return milliseconds < 0 ? -1 : milliseconds_now() + milliseconds; }

static int milliseconds_to(long long deadline)
{
    long long left = deadline - milliseconds_now();
    return deadline < 0 ? -1 : left > 0 ? (int)left : 0;
}

/* Waits for one of these up to the deadline, as poll does. */
static int wait_for(struct pollfd *pipes, nfds_t count, long long deadline)
{
    int ready;
    do ready = poll(pipes, count, milliseconds_to(deadline));
    while (ready < 0 && errno == EINTR);
    return ready;
}

/* Reads the first line of the replies, while a pipe that the service reads tells whether it is there. Answers `late` if it doesn't come in time. */
static int first_line(int replies, int read_by_service, long long deadline, int late, char line[CLFS_SAID])
{
    struct pollfd pipes[2] = {{.fd = replies, .events = POLLIN}, {.fd = read_by_service}};
    size_t size = 0;
    while (size + 1 < CLFS_SAID) {
        int ready = wait_for(pipes, 2, deadline);
        if (ready <= 0) return ready ? CLFS_SYSTEM : late;
        ssize_t got = pipes[0].revents & POLLIN ? read(replies, line + size, 1) : 0;
        if (got == 0) return CLFS_NO_SERVICE;
        if (got < 0 && errno != EINTR && errno != EAGAIN) return CLFS_SYSTEM;
        if (got > 0 && line[size++] == '\n') break;
    }
    bool is_whole = line[size - 1] == '\n';
    line[is_whole ? size - 1 : size] = 0;
    return is_whole ? 0 : CLFS_UNKNOWN_REPLY;
}

/* Opening. */

/* Opens a named pipe without waiting. Anything else is as a pipe that nobody reads (ENXIO): a line that is written into a file would change it. */
static bool open_pipe(int *descriptor, const char *path, int flags)
{
    struct stat found;
    if (stat(path, &found)) return false;
    if (S_ISFIFO(found.st_mode)) {
        *descriptor = clfs_above_standard(open(path, flags | O_NONBLOCK | O_CLOEXEC));
        if (*descriptor < 0) return false;
        /* (it may have been replaced meanwhile) */
        if (!fstat(*descriptor, &found) && S_ISFIFO(found.st_mode)) return true;
        clfs_close_one(descriptor);
    }
    errno = ENXIO;
    return false;
}

/* Opens a pipe of a service. CLFS_NO_SERVICE if it is none, or if it is opened for writing and nobody reads it. */
static int open_of_service(int *descriptor, const char *path, int flags)
{
    if (open_pipe(descriptor, path, flags)) return 0;
    return errno == ENXIO ? CLFS_NO_SERVICE : CLFS_SYSTEM;
}

static bool make_pipe(const char *path, mode_t rights)
{
    /* (whatever this process's mask is: whoever may use the door serves these too) */
    return !mkfifo(path, rights) && !chmod(path, rights);
}

/* The door of a folder, and the pipes that are made beside it. */
struct paths {
    char name[NAME_ROOM], door[PATH_ROOM], in[PATH_ROOM], out[PATH_ROOM];
};

static bool has_path(char path[PATH_ROOM], const char *place, const char *name, const char *end)
{
    errno = ENAMETOOLONG;
    return snprintf(path, PATH_ROOM, "%s/%s%s", place, name, end) < PATH_ROOM;
}

/* Makes the pipes, with the rights of the door. */
static int make_pipes(struct paths *paths, const char *place)
{
    struct stat door;
    if (!has_path(paths->door, place, "door", "")) return CLFS_SYSTEM;
    if (stat(paths->door, &door)) return errno == ENOENT || errno == ENOTDIR ? CLFS_NO_SERVICE : CLFS_SYSTEM;
    if (!S_ISFIFO(door.st_mode)) return CLFS_NO_SERVICE;
    mode_t rights = door.st_mode & 0666;
    for (unsigned at = 0; at < MOST_NAMES; at++) {
        struct timespec now;
        clock_gettime(CLOCK_REALTIME, &now);
        snprintf(paths->name, NAME_ROOM, "%ld-%lld-%ld-%u", (long)getpid(), (long long)now.tv_sec, now.tv_nsec, at);
        if (!has_path(paths->in, place, paths->name, ".in") || !has_path(paths->out, place, paths->name, ".out")) return CLFS_SYSTEM;
        if (make_pipe(paths->in, rights)) {
            if (make_pipe(paths->out, rights)) return 0;
            int error = errno;
            unlink(paths->in);
            errno = error;
        }
        if (errno != EEXIST) return CLFS_SYSTEM;
    }
    return CLFS_SYSTEM;
}

/* Opens the pipes that were made, and the door. */
static int open_visit(struct clfs_program *visit, const struct paths *paths)
{
    int answer = begin_opening(visit);
    if (answer) return answer;
    bool made = open_pipe(&visit->guard, paths->in, O_RDWR) && open_pipe(&visit->input, paths->in, O_WRONLY);
    made = made && open_pipe(&visit->output, paths->out, O_RDONLY);
    answer = made ? open_of_service(&visit->door, paths->door, O_WRONLY) : CLFS_SYSTEM;
    give_lock();
    return answer;
}

/* Writes the name to the door, which is full where very many wait. */
static int ring(int door, const char *name, long long deadline)
{
    char line[NAME_ROOM + 1];
    size_t size = (size_t)snprintf(line, sizeof line, "%s\n", name);
    while (clfs_write_silently(door, line, size) < 0) {
        if (errno == EPIPE) return CLFS_NO_SERVICE;
        if (errno != EAGAIN && errno != EINTR) return CLFS_SYSTEM;
        int ready = wait_for(&(struct pollfd){.fd = door, .events = POLLOUT}, 1, deadline);
        if (ready <= 0) return ready ? CLFS_SYSTEM : CLFS_NO_FREE_NUMBER;
    }
    return 0;
}

/* The number of the line "NUMBER client", or 0. */
static unsigned number_of(const char *line)
{
    unsigned number = 0;
    char again[CLFS_SAID];
    if (sscanf(line, "%2u client", &number) != 1 || number > MOST_CLIENTS) return 0;
    snprintf(again, sizeof again, "%u client", number);
    return strcmp(line, again) ? 0 : number;
}

int clfs_visit(struct clfs_program *connection, const char *place, int milliseconds, char said[CLFS_SAID], unsigned *number)
{
    long long deadline = deadline_after(milliseconds);
    struct paths paths;
    *connection = CLFS_NOTHING_OPEN;
    connection->is_connection = true;
    int answer = make_pipes(&paths, place);
    if (answer) return answer;
    answer = open_visit(connection, &paths);
    if (!answer) answer = ring(connection->door, paths.name, deadline);
    if (!answer) answer = first_line(connection->output, connection->door, deadline, CLFS_NO_FREE_NUMBER, said);
    if (!answer && !(*number = number_of(said))) answer = CLFS_UNKNOWN_REPLY;
    int error = errno;
    /* (the service has removed the names if it has these) */
    unlink(paths.in);
    unlink(paths.out);
    errno = error;
    if (answer) {
        clfs_let_go(connection);
        return answer;
    }
    take_lock();
    clfs_close_one(&connection->guard);
    clfs_close_one(&connection->door);
    give_lock();
    return 0;
}

/* Opens a pair of pipes once somebody reads the first one. */
static int open_pair(struct clfs_program *pair, const char *in, const char *out, long long deadline)
{
    int answer = begin_opening(pair);
    if (answer) return answer;
    /* (before the input, so that the service finds a reader when it opens this one) */
    answer = open_of_service(&pair->output, out, O_RDONLY);
    if (!answer) answer = open_of_service(&pair->input, in, O_WRONLY);
    bool may_begin = pair->output >= 0;
    give_lock();
    for (int pause = FIRST_PAUSE; may_begin && answer == CLFS_NO_SERVICE && milliseconds_to(deadline); pause = pause < LONGEST_PAUSE ? 2 * pause : pause) {
        poll(NULL, 0, pause);
        take_lock();
        answer = open_of_service(&pair->input, in, O_WRONLY);
        give_lock();
    }
    return answer;
}

int clfs_pair(struct clfs_program *connection, const char *in, const char *out, int milliseconds, char said[CLFS_SAID])
{
    long long deadline = deadline_after(milliseconds);
    *connection = CLFS_NOTHING_OPEN;
    connection->is_connection = true;
    int answer = open_pair(connection, in, out, deadline);
    if (!answer && clfs_write_silently(connection->input, "\n", 1) < 0) answer = errno == EPIPE ? CLFS_NO_SERVICE : CLFS_SYSTEM;
    if (!answer) answer = first_line(connection->output, connection->input, deadline, CLFS_NO_SERVICE, said);
    if (!answer && strcmp(said, BAD_LINE)) answer = CLFS_UNKNOWN_REPLY;
    if (answer) clfs_let_go(connection);
    return answer;
}
