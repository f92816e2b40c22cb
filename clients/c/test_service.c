/* Tests of connections to a service: test_service PROGRAM FOLDER, with a folder that is empty. */
#define _GNU_SOURCE
#include "clfs.h"

#include <dirent.h>
#include <errno.h>
#include <fcntl.h>
#include <signal.h>
#include <stdio.h>
#include <stdlib.h>
#include <string.h>
#include <sys/stat.h>
#include <sys/wait.h>
#include <time.h>
#include <unistd.h>

static const char *program;
static unsigned failures, rooms;

#define CHECK(condition) \
    do { \
        if (!(condition)) { \
            fprintf(stderr, "%s:%d: not so: %s\n", __FILE__, __LINE__, #condition); \
            failures++; \
        } \
    } while (0)

#define SECOND 1000

/* Each test has a log and a place of its own. */
static char folder[32], place[32], door[64];

static void new_room(void)
{
    snprintf(folder, sizeof folder, "log%u", rooms);
    snprintf(place, sizeof place, "place%u", rooms++);
    snprintf(door, sizeof door, "%s/door", place);
    CHECK(clfs_format(&(struct clfs_sizes){folder, program, 2, 64, 4, false}) == 0);
}

/* A service of the program, which is ready. */
struct service {
    pid_t process;
};

static struct service serve(const char *clients)
{
    int output[2];
    char said[8] = "";
    mkdir(place, S_IRWXU);
    if (mkfifo(door, 0600) && errno != EEXIST) CHECK(!"a door can be made");
    CHECK(pipe2(output, O_CLOEXEC) == 0);
    struct service service = {.process = fork()};
    if (service.process == 0) {
        dup2(output[1], 1);
        execlp(program, program, folder, "share", "--door", place, "--clients", clients, (char *)NULL);
        _exit(127);
    }
    close(output[1]);
    for (size_t size = 0; size < 6 && read(output[0], said + size, 1) == 1;) size++;
    CHECK(!strcmp(said, "ready\n"));
    close(output[0]);
    return service;
}

static void send_stop(void)
{
    int to = open(door, O_WRONLY | O_NONBLOCK);
    CHECK(to >= 0 && write(to, "stop\n", 5) == 5);
    close(to);
}

static void wait_for_end(struct service service)
{
    int status;
    CHECK(waitpid(service.process, &status, 0) == service.process && WIFEXITED(status) && WEXITSTATUS(status) == 0);
}

static void stop(struct service service)
{
    send_stop();
    wait_for_end(service);
}

static void kill_service(struct service service)
{
    kill(service.process, SIGKILL);
    waitpid(service.process, NULL, 0);
}

static struct clfs *come(void)
{
    struct clfs *log;
    int answer = clfs_connect(&log, place, 10 * SECOND);
    if (answer) {
        fprintf(stderr, "connect: %s\n", clfs_message(log));
        exit(1);
    }
    return log;
}

/* An area on the stream of the tests. */
static unsigned area_of(struct clfs *log, uint32_t largest)
{
    unsigned stream, area = 0;
    CHECK(clfs_open(log, 0, "orders", &stream) == 0 && stream == 1 && clfs_area(log, 0, stream, largest, 1, &area) == 0);
    return area;
}

static struct clfs_draft flushed(const char *text)
{
    return (struct clfs_draft){.data = text, .size = strlen(text), .flush = true};
}

static int append(struct clfs *log, unsigned area, const char *text, clfs_lsn *lsn)
{
    struct clfs_draft draft = flushed(text);
    return clfs_append(log, 0, area, &draft, lsn);
}

/* Where the first record of a log lies. */
#define FIRST ((clfs_lsn)1 << 32)

/* How many records of the log have these data, read by a program of its own. */
static unsigned count_of(const char *text)
{
    struct clfs *log;
    unsigned stream, area = 0, cursor, count = 0;
    struct clfs_found record;
    CHECK(clfs_start(&log, &(struct clfs_options){.folder = folder, .program = program}) == 0 && clfs_number(log) == 1);
    CHECK(clfs_open(log, 1, "orders", &stream) == 0 && clfs_area(log, 1, stream, 500, 1, &area) == 0);
    int answer = clfs_read(log, 1, area, FIRST, CLFS_FORWARD, &cursor, &record);
    for (; !answer; answer = clfs_next(log, 1, area, cursor, &record)) count += record.size == strlen(text) && !memcmp(record.data, text, record.size);
    CHECK(answer == CLFS_END_OF_LOG || answer == CLFS_RECORD_NONEXISTENT);
    CHECK(clfs_close(log, NULL) == 0);
    return count;
}

/* How many names the place has. */
static unsigned names(void)
{
    unsigned count = 0;
    DIR *names = opendir(place);
    for (struct dirent *name; (name = readdir(names));) count += name->d_name[0] != '.';
    closedir(names);
    return count;
}

static long long milliseconds_now(void)
{
    struct timespec now;
    clock_gettime(CLOCK_MONOTONIC, &now);
    return now.tv_sec * 1000LL + now.tv_nsec / 1000000;
}

/* Whether a child has ended with this status, within so many milliseconds. */
static bool ends_within(pid_t child, int wanted, int milliseconds)
{
    int status;
    for (long long end = milliseconds_now() + milliseconds; milliseconds_now() < end; usleep(1000)) {
        if (waitpid(child, &status, WNOHANG) == child) return WIFEXITED(status) && WEXITSTATUS(status) == wanted;
    }
    kill(child, SIGKILL);
    waitpid(child, NULL, 0);
    return false;
}

static void one_visit_after_the_other(void)
{
    new_room();
    struct service service = serve("4");
    static const char *const texts[] = {"first", "second", "third"};
    clfs_lsn lsn, before = 0;
    for (int visit = 0; visit < 3; visit++) {
        struct clfs *log = come();
        CHECK(clfs_number(log) >= 1 && clfs_number(log) <= 4 && clfs_process(log) == 0);
        unsigned area = area_of(log, 500);
        CHECK(area == 1 && append(log, area, texts[visit], &lsn) == 0 && lsn > before);
        before = lsn;
        CHECK(clfs_close(log, NULL) == 0);
    }
    CHECK(names() == 1);
    stop(service);
    for (int visit = 0; visit < 3; visit++) CHECK(count_of(texts[visit]) == 1);
}

static void the_number_is_the_connections(void)
{
    new_room();
    struct service service = serve("4");
    struct clfs *log = come();
    unsigned stream, number = clfs_number(log);
    struct clfs_info info;
    CHECK(clfs_open(log, number, "orders", &stream) == 0 && clfs_open(log, 0, "orders", &stream) == 0);
    CHECK(clfs_open(log, number + 1, "orders", &stream) == CLFS_UNSAYABLE && clfs_open(log, 65, "orders", &stream) == CLFS_UNSAYABLE);
    CHECK(clfs_send_flush(log, number + 1, 1) == CLFS_UNSAYABLE && clfs_under_way(log) == 0);
    CHECK(clfs_info(log, number, stream, &info) == 0 && info.containers == 4);
    CHECK(clfs_close(log, NULL) == 0);
    stop(service);
}

static void several_at_a_time(void)
{
    enum { CLIENTS = 3, LINES = 10 };
    new_room();
    struct service service = serve("3");
    struct clfs *logs[CLIENTS];
    unsigned areas[CLIENTS], seen = 0;
    struct clfs_draft draft = flushed("of several");
    for (int at = 0; at < CLIENTS; at++) {
        logs[at] = come();
        areas[at] = area_of(logs[at], 500);
        seen |= 1u << clfs_number(logs[at]);
    }
    CHECK(seen == (1 << 1 | 1 << 2 | 1 << 3));
    for (int line = 0; line < LINES; line++) {
        for (int at = 0; at < CLIENTS; at++) CHECK(clfs_send_append(logs[at], 0, areas[at], &draft) == 0);
    }
    for (int at = 0; at < CLIENTS; at++) {
        clfs_lsn last = 0;
        unsigned answers = 0;
        struct clfs_reply reply;
        CHECK(clfs_under_way(logs[at]) == 2 * LINES && clfs_push(logs[at]) == 0);
        for (; clfs_under_way(logs[at]); answers++) {
            CHECK(clfs_await(logs[at], &reply) == 0 && reply.lsn > last);
            last = reply.lsn;
        }
        CHECK(answers == LINES && clfs_await(logs[at], &reply) == CLFS_NOTHING && clfs_close(logs[at], NULL) == 0);
    }
    stop(service);
    CHECK(count_of("of several") == CLIENTS * LINES);
}

static int connect_and_close(int milliseconds)
{
    struct clfs *log;
    int answer = clfs_connect(&log, place, milliseconds);
    CHECK(log && clfs_close(log, NULL) == answer);
    return answer;
}

static void no_service(void)
{
    new_room();
    struct stat state;
    CHECK(connect_and_close(SECOND) == CLFS_NO_SERVICE);
    mkdir(place, S_IRWXU);
    CHECK(connect_and_close(SECOND) == CLFS_NO_SERVICE);
    close(open(door, O_WRONLY | O_CREAT, 0600));
    CHECK(connect_and_close(SECOND) == CLFS_NO_SERVICE && stat(door, &state) == 0 && state.st_size == 0);
    unlink(door);
    mkfifo(door, 0600);
    struct clfs *log;
    CHECK(clfs_connect(&log, place, -1) == CLFS_NO_SERVICE && !strcmp(clfs_message(log), "nobody serves there"));
    unsigned stream;
    CHECK(clfs_open(log, 0, "orders", &stream) == CLFS_NO_SERVICE && clfs_close(log, NULL) == CLFS_NO_SERVICE);
    CHECK(names() == 1);
}

static void no_free_number(void)
{
    new_room();
    struct service service = serve("1");
    struct clfs *log = come();
    long long began = milliseconds_now();
    CHECK(connect_and_close(300) == CLFS_NO_FREE_NUMBER && milliseconds_now() - began >= 300 && names() == 1);
    CHECK(clfs_close(log, NULL) == 0 && connect_and_close(10 * SECOND) == 0 && names() == 1);
    stop(service);
}

static void one_that_waits_comes_in(void)
{
    new_room();
    struct service service = serve("1");
    struct clfs *log = come();
    pid_t child = fork();
    if (child == 0) _exit(connect_and_close(10 * SECOND) ? 1 : 7);
    usleep(200000);
    CHECK(waitpid(child, NULL, WNOHANG) == 0 && clfs_close(log, NULL) == 0 && ends_within(child, 7, 5 * SECOND));
    stop(service);
}

static void programs_that_die(void)
{
    enum { DEATHS = 20 };
    new_room();
    struct service service = serve("1");
    for (int death = 0; death < DEATHS; death++) {
        pid_t child = fork();
        if (child == 0) {
            struct clfs_draft draft = flushed("under way");
            clfs_lsn lsn;
            struct clfs *log = come();
            unsigned area = area_of(log, 500);
            bool told = append(log, area, "told", &lsn) == 0 && clfs_send_append(log, 0, area, &draft) == 0 && clfs_push(log) == 0;
            _exit(told ? 7 : 1);
        }
        CHECK(ends_within(child, 7, 10 * SECOND));
    }
    struct clfs *log = come();
    CHECK(area_of(log, 500) == 1 && clfs_close(log, NULL) == 0);
    stop(service);
    CHECK(count_of("told") == DEATHS);
}

/* A child neither uses the connection nor keeps the visit. */
static void a_child_that_was_forked(void)
{
    new_room();
    struct service service = serve("1");
    struct clfs *log = come();
    unsigned area = area_of(log, 500), stream;
    clfs_lsn lsn;
    int rest[2];
    CHECK(pipe2(rest, O_CLOEXEC) == 0);
    pid_t child = fork();
    if (child == 0) {
        struct clfs_reply reply;
        bool right = clfs_open(log, 0, "orders", &stream) == CLFS_OTHER_PROCESS && append(log, area, "never", &lsn) == CLFS_OTHER_PROCESS;
        right = right && clfs_await(log, &reply) == CLFS_OTHER_PROCESS && clfs_push(log) == CLFS_OTHER_PROCESS && strstr(clfs_message(log), "forked");
        right = right && clfs_close(log, NULL) == CLFS_OTHER_PROCESS;
        close(rest[1]);
        read(rest[0], &(char){0}, 1);
        _exit(right ? 7 : 1);
    }
    CHECK(append(log, area, "of the parent", &lsn) == 0);
    CHECK(clfs_close(log, NULL) == 0 && connect_and_close(10 * SECOND) == 0 && waitpid(child, NULL, WNOHANG) == 0);
    close(rest[1]);
    CHECK(ends_within(child, 7, 5 * SECOND));
    stop(service);
    CHECK(count_of("of the parent") == 1 && count_of("never") == 0);
}

static void rights_of_the_door(void)
{
    new_room();
    mkdir(place, S_IRWXU);
    mkfifo(door, 0600);
    chmod(door, 0660);
    mode_t mask = umask(0777);
    int both = open(door, O_RDWR | O_NONBLOCK);
    CHECK(connect_and_close(0) == CLFS_NO_FREE_NUMBER);
    pid_t child = fork();
    if (child == 0) _exit(connect_and_close(500) == CLFS_NO_FREE_NUMBER ? 7 : 1);
    usleep(200000);
    DIR *names = opendir(place);
    unsigned pipes = 0;
    for (struct dirent *name; (name = readdir(names));) {
        struct stat state;
        CHECK(fstatat(dirfd(names), name->d_name, &state, 0) == 0);
        pipes += S_ISFIFO(state.st_mode) && (state.st_mode & 0777) == 0660;
    }
    closedir(names);
    CHECK(pipes == 3 && ends_within(child, 7, 5 * SECOND));
    close(both);
    umask(mask);
}

static void an_append_that_is_refused(void)
{
    new_room();
    struct service service = serve("2");
    struct clfs *log = come();
    unsigned area = area_of(log, 10);
    struct clfs_info info;
    clfs_lsn lsn, waiting;
    CHECK(clfs_append(log, 0, area, &(struct clfs_draft){.data = "waits", .size = 5}, &waiting) == 0);
    CHECK(clfs_info(log, 0, 1, &info) == 0 && info.flushed <= waiting);
    CHECK(append(log, area, "more than ten bytes", &lsn) == CLFS_RECORD_TOO_LONG && clfs_refused(log)->record_too_long.length == 19);
    CHECK(!strcmp(clfs_message(log), "refused 7 RecordTooLong 19 10"));
    CHECK(clfs_info(log, 0, 1, &info) == 0 && info.flushed > waiting);
    CHECK(append(log, area + 1, "", &lsn) == CLFS_NO_SUCH_AREA && append(log, area, "fits", &lsn) == 0 && lsn > waiting);
    CHECK(clfs_close(log, NULL) == 0);
    stop(service);
}

static void what_cannot_be_said(void)
{
    new_room();
    struct service service = serve("2");
    struct clfs *log = come();
    unsigned area = area_of(log, 500), answers = 0;
    static char data[70000];
    struct clfs_draft draft = {.data = data, .size = 65530, .flush = true};
    struct clfs_reply reply;
    clfs_lsn lsn;
    CHECK(clfs_append(log, 0, area, &draft, &lsn) == CLFS_UNSAYABLE && clfs_under_way(log) == 0);
    draft.size = SIZE_MAX;
    CHECK(clfs_append(log, 0, area, &draft, &lsn) == CLFS_UNSAYABLE && clfs_under_way(log) == 0);
    /* There has to be a place for both lines. */
    draft = flushed("x");
    for (int line = 0; line < CLFS_WINDOW - 1; line++) CHECK(clfs_send_flush_to(log, 0, area, CLFS_NULL) == 0);
    CHECK(clfs_send_append(log, 0, area, &draft) == CLFS_BUSY && clfs_under_way(log) == CLFS_WINDOW - 1);
    CHECK(clfs_append(log, 0, area, &draft, &lsn) == CLFS_BUSY);
    clfs_await(log, &reply);
    CHECK(clfs_send_append(log, 0, area, &draft) == 0 && clfs_under_way(log) == CLFS_WINDOW);
    for (; clfs_under_way(log); answers++) clfs_await(log, &reply);
    CHECK(answers == CLFS_WINDOW - 1 && clfs_append(log, 0, area, &draft, &lsn) == 0 && clfs_close(log, NULL) == 0);
    stop(service);
}

/* Lines and replies fill both pipes: who only writes, or only reads, waits for ever. */
static void both_pipes_full(void)
{
    new_room();
    snprintf(folder, sizeof folder, "large%u", rooms);
    CHECK(clfs_format(&(struct clfs_sizes){folder, program, 128, 1024, 4, false}) == 0);
    struct service service = serve("1");
    struct clfs *log = come();
    unsigned stream, area = 0, answers = 0;
    static char data[30000];
    struct clfs_draft draft = {.data = data, .size = sizeof data, .flush = true};
    struct clfs_reply reply;
    clfs_lsn lsn;
    memset(data, 'x', sizeof data);
    CHECK(clfs_open(log, 0, "orders", &stream) == 0 && clfs_area(log, 0, stream, 64000, 16, &area) == 0);
    CHECK(clfs_append(log, 0, area, &draft, &lsn) == 0);
    for (unsigned line = 0; line < 20; line++) {
        int answer;
        do {
            answer = line < 10 ? clfs_send_read(log, 0, area, lsn, CLFS_FORWARD) : clfs_send_append(log, 0, area, &draft);
            if (answer == CLFS_BUSY) {
                CHECK(clfs_await(log, &reply) == 0 && (answers >= 10 || (reply.number == answers + 1 && reply.record.size == sizeof data)));
                answers++;
            }
        } while (answer == CLFS_BUSY);
        CHECK(answer == 0);
    }
    for (; clfs_under_way(log); answers++) CHECK(clfs_await(log, &reply) == 0);
    CHECK(answers == 20 && clfs_close(log, NULL) == 0);
    stop(service);
}

static void a_service_that_is_killed(void)
{
    new_room();
    struct service service = serve("1");
    struct clfs *log = come();
    struct clfs_ending ending;
    unsigned area = area_of(log, 500);
    clfs_lsn lsn;
    CHECK(append(log, area, "told", &lsn) == 0);
    pid_t child = fork();
    if (child == 0) _exit(connect_and_close(20 * SECOND) == CLFS_NO_SERVICE ? 7 : 1);
    usleep(300000);
    CHECK(waitpid(child, NULL, WNOHANG) == 0);
    kill_service(service);
    CHECK(ends_within(child, 7, SECOND));
    CHECK(append(log, area, "never", &lsn) == CLFS_SERVICE_ENDED && clfs_ended(log)->unanswered == 2 && clfs_ended(log)->status == -1);
    CHECK(!strcmp(clfs_message(log), "the service has ended (lines without a reply: 2)"));
    CHECK(clfs_push(log) == CLFS_SERVICE_ENDED && clfs_close(log, &ending) == CLFS_SERVICE_ENDED && ending.unanswered == 2);
    CHECK(connect_and_close(SECOND) == CLFS_NO_SERVICE);
    service = serve("1");
    log = come();
    CHECK(area_of(log, 500) == 1);
    struct clfs_draft draft = flushed("under way");
    kill(service.process, SIGSTOP);
    CHECK(clfs_send_append(log, 0, 1, &draft) == 0 && clfs_push(log) == 0);
    kill_service(service);
    CHECK(clfs_close(log, &ending) == CLFS_SERVICE_ENDED && ending.unanswered == 2);
    CHECK(count_of("told") == 1 && count_of("never") == 0);
}

/* A signal that a write to a pipe which nobody reads would raise comes neither to the caller's handler nor to its default action. */
static void no_signal_is_raised(void)
{
    new_room();
    struct service service = serve("1");
    struct clfs *log = come();
    unsigned area = area_of(log, 500);
    clfs_lsn lsn;
    struct sigaction before;
    sigset_t pipes, pending;
    sigemptyset(&pipes);
    sigaddset(&pipes, SIGPIPE);
    sigaction(SIGPIPE, &(struct sigaction){.sa_handler = SIG_DFL}, &before);
    kill_service(service);
    CHECK(append(log, area, "never", &lsn) == CLFS_SERVICE_ENDED);
    sigprocmask(SIG_BLOCK, &pipes, NULL);
    sigpending(&pending);
    CHECK(!sigismember(&pending, SIGPIPE));
    sigprocmask(SIG_UNBLOCK, &pipes, NULL);
    sigaction(SIGPIPE, &before, NULL);
    clfs_close(log, NULL);
}

static void a_stop_waits_for_those_inside(void)
{
    new_room();
    struct service service = serve("4");
    struct clfs *log = come();
    clfs_lsn lsn;
    send_stop();
    usleep(300000);
    CHECK(waitpid(service.process, NULL, WNOHANG) == 0);
    CHECK(append(log, area_of(log, 500), "after the stop", &lsn) == 0 && clfs_close(log, NULL) == 0);
    wait_for_end(service);
    CHECK(count_of("after the stop") == 1);
}

/* Nothing but pipes is opened, and a file stays as it is. */
static void what_is_no_pipe(void)
{
    static const char *const paths[][2] = {{"file", "out0"}, {"in0", "file"}, {"file", "file"}};
    struct clfs *log;
    struct stat state;
    mkfifo("in0", 0600);
    mkfifo("out0", 0600);
    close(open("file", O_WRONLY | O_CREAT, 0600));
    for (int at = 0; at < 3; at++) {
        CHECK(clfs_attach(&log, 1, paths[at][0], paths[at][1], 100) == CLFS_NO_SERVICE && clfs_close(log, NULL) == CLFS_NO_SERVICE);
        CHECK(stat("file", &state) == 0 && state.st_size == 0);
    }
}

static void pairs(void)
{
    static const char *const paths[] = {"in1", "out1", "in2", "out2"};
    new_room();
    for (int at = 0; at < 4; at++) mkfifo(paths[at], 0600);
    struct clfs *logs[2];
    clfs_lsn lsn;
    CHECK(clfs_attach(&logs[0], 1, paths[0], paths[1], 100) == CLFS_NO_SERVICE && clfs_close(logs[0], NULL) == CLFS_NO_SERVICE);
    CHECK(clfs_attach(&logs[0], 0, paths[0], paths[1], 100) == CLFS_UNSAYABLE && clfs_close(logs[0], NULL) == CLFS_UNSAYABLE);
    CHECK(clfs_attach(&logs[0], 1, paths[0], "none", 100) == CLFS_SYSTEM && errno == ENOENT && !logs[0]);
    pid_t share = fork();
    if (share == 0) {
        execlp(program, program, folder, "share", paths[0], paths[1], paths[2], paths[3], (char *)NULL);
        _exit(127);
    }
    for (unsigned at = 0; at < 2; at++) {
        CHECK(clfs_attach(&logs[at], at + 1, paths[2 * at], paths[2 * at + 1], 10 * SECOND) == 0 && clfs_number(logs[at]) == at + 1);
        CHECK(append(logs[at], area_of(logs[at], 500), "of a pair", &lsn) == 0);
    }
    for (int at = 0; at < 2; at++) CHECK(clfs_close(logs[at], NULL) == 0);
    wait_for_end((struct service){share});
    CHECK(count_of("of a pair") == 2);
}

/* A service that is none of the program: it has this pair, reads a first line, and says this. Then it reads once more, and ends well if that is `read`. */
static pid_t serve_pair(const char *in, const char *out, const char *says, const char *wanted)
{
    pid_t child = fork();
    if (child) return child;
    char bytes[256] = "";
    int from = open(in, O_RDONLY), to = open(out, O_WRONLY);
    bool right = read(from, bytes, 1) == 1 && bytes[0] == '\n' && write(to, says, strlen(says)) == (ssize_t)strlen(says);
    ssize_t size = read(from, bytes, sizeof bytes - 1);
    bytes[size > 0 ? size : 0] = 0;
    _exit(right && !strcmp(bytes, wanted) ? 7 : 1);
}

/* An append with its flush is two lines, which are written at once. */
static void what_is_written_and_said(void)
{
    static const char lines[] = "7 append 1 78 0:0:0 0:0:0\n7 flush 1\n", in[] = "in3", out[] = "out3";
    struct clfs *log;
    clfs_lsn lsn;
    mkfifo(in, 0600);
    mkfifo(out, 0600);
    pid_t child = serve_pair(in, out, "0 refused 28 BadLine 0\n", lines);
    CHECK(clfs_attach(&log, 7, in, out, 10 * SECOND) == 0 && clfs_number(log) == 7);
    CHECK(append(log, 1, "x", &lsn) == CLFS_SERVICE_ENDED && ends_within(child, 7, 5 * SECOND));
    clfs_close(log, NULL);
    child = serve_pair(in, out, "a door of another kind\n", "");
    CHECK(clfs_attach(&log, 7, in, out, 10 * SECOND) == CLFS_UNKNOWN_REPLY && !strcmp(clfs_message(log), "unknown reply: a door of another kind"));
    CHECK(clfs_close(log, NULL) == CLFS_UNKNOWN_REPLY && ends_within(child, 7, 5 * SECOND));
    child = serve_pair(in, out, "0 refused 28 BadLine 0\n7 lsn 1:0:0\n7 flushed 1:200:0\n", lines);
    CHECK(clfs_attach(&log, 7, in, out, 10 * SECOND) == 0 && append(log, 1, "x", &lsn) == 0 && lsn == FIRST);
    CHECK(ends_within(child, 7, 5 * SECOND) && clfs_close(log, NULL) == 0);
    child = serve_pair(in, out, "0 refused 28 BadLine 0\n7 lsn 1:0:0\n7 refused 2 DiskFault\n", lines);
    CHECK(clfs_attach(&log, 7, in, out, 10 * SECOND) == 0 && append(log, 1, "x", &lsn) == CLFS_DISK_FAULT);
    CHECK(ends_within(child, 7, 5 * SECOND) && clfs_close(log, NULL) == 0);
    child = serve_pair(in, out, "0 refused 28 BadLine 0\n7 lsn 1:0:0\n", lines);
    CHECK(clfs_attach(&log, 7, in, out, 10 * SECOND) == 0 && append(log, 1, "x", &lsn) == CLFS_SERVICE_ENDED && clfs_ended(log)->unanswered == 1);
    CHECK(ends_within(child, 7, 5 * SECOND) && clfs_close(log, NULL) == CLFS_SERVICE_ENDED);
}

int main(int count, char **words)
{
    if (count != 3 || chdir(words[2])) return 2;
    program = words[1];
    alarm(120);
    one_visit_after_the_other();
    the_number_is_the_connections();
    several_at_a_time();
    no_service();
    no_free_number();
    one_that_waits_comes_in();
    programs_that_die();
    a_child_that_was_forked();
    rights_of_the_door();
    an_append_that_is_refused();
    what_cannot_be_said();
    both_pipes_full();
    a_service_that_is_killed();
    no_signal_is_raised();
    a_stop_waits_for_those_inside();
    what_is_no_pipe();
    pairs();
    what_is_written_and_said();
    if (failures == 0) printf("all well\n");
    return failures != 0;
}
