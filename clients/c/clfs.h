/* A client of the log manager clfs, for C11 and POSIX: it starts the program over a folder, or comes to a service, sends lines of the script and reads
 * the replies.
 *
 *     struct clfs *log;
 *     unsigned stream, area;
 *     clfs_lsn lsn;
 *     int answer = clfs_start(&log, &(struct clfs_options){.folder = "log"});
 *     if (!answer) answer = clfs_open(log, 1, "orders", &stream);
 *     if (!answer) answer = clfs_area(log, 1, stream, 1000, 4, &area);
 *     if (!answer) answer = clfs_append(log, 1, area, &(struct clfs_draft){.data = "hello", .size = 5, .flush = true}, &lsn);
 *     if (answer) fprintf(stderr, "%s\n", clfs_message(log));
 *     clfs_close(log, NULL);
 *
 * Every call answers 0 if it was done, the number of the log's refusal (1 to 29; clfs_refused has its fields), or one of the negative numbers
 * of enum clfs_answer, at which the line has no reply. What a call gives is set only if it answers 0.
 *
 * A record is safe once a flush was answered: an append with .flush, clfs_flush, clfs_flush_to, clfs_restart, clfs_advance. Closing doesn't
 * flush. A handle is for one thread at a time. Memory is taken in clfs_start, clfs_connect and clfs_attach, and no call after it takes any.
 */
#ifndef CLFS_H
#define CLFS_H

#include <stdbool.h>
#include <stddef.h>
#include <stdint.h>
#include <sys/types.h>

#ifdef __cplusplus
extern "C" {
#endif

/* A program that serves a log, or a connection to a service. */
struct clfs;

/* Where a record lies: container * 2^32 + offset + sequence. Later records have greater LSNs. */
typedef uint64_t clfs_lsn;

/* The LSN that names no record. */
#define CLFS_NULL ((clfs_lsn)0)

/* Room for an LSN as text, as "1:400:0", with its zero. */
#define CLFS_LSN_ROOM 24
void clfs_text_of_lsn(clfs_lsn lsn, char text[CLFS_LSN_ROOM]);

enum clfs_answer {
    CLFS_DONE = 0,

    /* Why the log refused the call. Except after 2 and 11 it is as it was; after these two it is broken until the next start. */
    CLFS_NO_MEMORY = 1,
    CLFS_DISK_FAULT = 2,
    CLFS_BROKEN = 3,
    CLFS_NOT_ENOUGH_CONTAINERS = 4,
    CLFS_FULL = 5,
    CLFS_RESERVATION_SHORT = 6,
    CLFS_RECORD_TOO_LONG = 7,
    CLFS_LINK_INVALID = 8,
    CLFS_NO_SUCH_STREAM = 9,
    CLFS_NO_SUCH_AREA = 10,
    CLFS_DAMAGED = 11,
    CLFS_NO_SUCH_CURSOR = 12,
    CLFS_STREAM_LIMIT = 13,
    CLFS_AREA_LIMIT = 14,
    CLFS_CURSOR_LIMIT = 15,
    CLFS_NAME_INVALID = 16,
    CLFS_RECORD_NONEXISTENT = 17,
    CLFS_END_OF_LOG = 18,
    CLFS_START_OF_LOG = 19,
    CLFS_NO_RESTART = 20,
    CLFS_TAIL_INVALID = 21,
    CLFS_ARCHIVE_TAIL_INVALID = 22,
    CLFS_EPHEMERAL = 23,
    CLFS_CANT_SHRINK = 24,
    CLFS_CONTAINER_LIMIT = 25,
    CLFS_POLICY_CONFLICT = 26,
    CLFS_POLICY_NOT_INSTALLED = 27,
    CLFS_BAD_LINE = 28,
    CLFS_DEDICATED = 29,

    /* The program has ended or was killed; clfs_ended says how. Of the lines without a reply a first part may have been done. */
    CLFS_ENDED = -1,
    /* The program wrote what the language doesn't have. What it means is not guessed; the program was killed. */
    CLFS_UNKNOWN_REPLY = -2,
    /* A call of the system failed; errno says why. */
    CLFS_SYSTEM = -3,
    /* No line can say it: it would have more than 131,072 bytes, a name isn't one word, or it is another client's than the connection's. Nothing was
     * sent. */
    CLFS_UNSAYABLE = -4,
    /* Too much is under way, or a call that waits was made while lines were. Nothing was sent; take a reply by clfs_await first. */
    CLFS_BUSY = -5,
    /* No line is under way. */
    CLFS_NOTHING = -6,

    /* In place of CLFS_ENDED, if the program's standard error says so: before the log was open another process had the folder, there was no such
     * folder, or the folder or a file of it may not be read or written. */
    CLFS_LOCKED = -7,
    CLFS_NO_FOLDER = -8,
    CLFS_NO_PERMISSION = -9,

    /* Of connections. Nobody serves there, or the service ended before it gave a number. */
    CLFS_NO_SERVICE = -10,
    /* The service gave no number in time: all that it has are taken. */
    CLFS_NO_FREE_NUMBER = -11,
    /* In place of CLFS_ENDED: the service has ended, or has ended the visit. */
    CLFS_SERVICE_ENDED = -12,
    /* The connection is that of the process from which this one was forked. */
    CLFS_OTHER_PROCESS = -13
};

/* The fields of a refusal. Those without fields are left out. */
struct clfs_refusal {
    int number;
    union {
        struct { uint32_t have; } not_enough_containers;
        struct { uint32_t free, reserved, need; } full;
        struct { uint32_t held, need; } reservation_short;
        struct { uint32_t length, most; } record_too_long;
        struct { clfs_lsn lsn; } link_invalid;
        struct { uint32_t container, offset, at; } damaged;
        struct { uint32_t count; } stream_limit, area_limit;
        struct { uint32_t open; } cursor_limit;
        struct { uint32_t at; } name_invalid;
        struct { clfs_lsn lsn; } record_nonexistent;
        struct { clfs_lsn lsn, base, last; } tail_invalid;
        struct { clfs_lsn lsn, tail, flushed; } archive_tail_invalid;
        struct { uint32_t active, need; } cant_shrink;
        struct { uint32_t limit; } container_limit;
        struct { uint32_t least, most; } policy_conflict;
        struct { uint32_t at; } bad_line;
        uint32_t numbers[3];
        clfs_lsn lsns[3];
    };
};

/* The statuses with which the program ends. */
enum clfs_status {
    CLFS_STATUS_WELL = 0,
    CLFS_STATUS_NO_COMMAND = 1,
    CLFS_STATUS_INPUT_FAILED = 2,
    CLFS_STATUS_OUTPUT_FAILED = 3,
    CLFS_STATUS_DISK_FAILED = 4,     /* before the log was open; the program's standard error says in which call */
    CLFS_STATUS_NO_MEMORY = 5,
    CLFS_STATUS_NOT_A_LOG = 6,
    CLFS_STATUS_INPUT_TOO_LONG = 7,  /* this run has taken a line that is too long, or as many bytes as it may: start it again */
    CLFS_STATUS_LOG_EXISTS = 8,
    CLFS_STATUS_LAUNCHER = 70        /* ./clfs couldn't bring the program up to date */
};

/* How the program has ended. */
struct clfs_ending {
    int status;             /* its exit status; -1 if a signal ended it, if the caller's process ignores SIGCHLD and so can't know, or of a service */
    int signal;             /* that signal, or 0 */
    unsigned unanswered;    /* lines without a reply */
    bool has_place;         /* at CLFS_STATUS_NOT_A_LOG: whether bytes at a place aren't a log's; else no base copy counts */
    uint32_t container, offset, at;
};

enum clfs_mode { CLFS_PREVIOUS, CLFS_UNDO_NEXT, CLFS_FORWARD };

enum clfs_policy { CLFS_MAXIMUM, CLFS_MINIMUM, CLFS_GROWTH, CLFS_AUTOMATIC };

/* A record to be appended. What is left out is null, or not asked for. */
struct clfs_draft {
    const void *data;
    size_t size;
    clfs_lsn previous, undo_next;
    bool reserved;          /* takes its sectors from what the area holds */
    bool seal;              /* lets no further record into its block */
    bool flush;             /* brings the log to the disk before the reply */
    const uint32_t *hold;   /* holds sectors for later records of these lengths */
    size_t holds;           /* how many lengths, at most 16 */
};

/* A record that was read. Its data lie in the handle, until its next call. */
struct clfs_found {
    clfs_lsn lsn, previous, undo_next, base;
    bool is_restart;        /* a restart area, whose new base is base */
    const void *data;
    size_t size;
};

/* Bytes low to high of a container, which are to be archived. */
struct clfs_extent {
    uint32_t container, low, high;
};

/* What the log and one of its streams are like. */
struct clfs_info {
    uint32_t containers, free_containers, container_sectors, free_sectors, reserved;
    clfs_lsn base, last, flushed, restart;
    bool archiving;
    clfs_lsn archive_tail;
};

/* The answer to a line that was sent. */
struct clfs_reply {
    uint32_t number;        /* a stream, an area, sectors, a cursor or containers */
    clfs_lsn lsn;           /* an LSN, and that of a record */
    struct clfs_found record;
    struct clfs_info info;
    const struct clfs_extent *extents;  /* they lie in the handle, until its next call */
    size_t extent_count;
};

/* Starting and closing. */

struct clfs_options {
    const char *folder;
    const char *program;        /* looked for as execvp does; "clfs" if it is left out */
    unsigned write_buffers;     /* 1 to 64; the program's own number if it is left out */
    int errors;                 /* where its standard error goes on to: the caller's if it is left out, nowhere if it is negative */
    unsigned read_buffers;      /* 1 to 4,096; the program's own number if it is left out */
};

/* Starts the program and waits until the log is open. What the program writes to its standard error is read here and passed on while a call waits,
 * so what `errors` leads to may be of any kind, but where it takes nothing for a second a part is left out. After each answer but CLFS_SYSTEM there is a handle, which is to be closed. */
int clfs_start(struct clfs **log, const struct clfs_options *options);

/* Ends the input, waits for the end of the program, or of the visit to a service, and frees the handle. What isn't flushed is gone with the program, and
 * replies under way are thrown away. Answers 0 if the program ended with status 0 and had answered all lines, else CLFS_ENDED, or what made the handle
 * useless before. The ending is told if it isn't NULL. */
int clfs_close(struct clfs *log, struct clfs_ending *ending);

/* The process of the program; 0 of a connection. To kill it is as a crash: the next call answers CLFS_ENDED. */
pid_t clfs_process(const struct clfs *log);

/* Connections to a service, `clfs FOLDER share`, beside other programs. Each is a handle as that of clfs_start, of one client: its calls name that
 * client's number, or 0 in its place, and with another one they answer CLFS_UNSAYABLE. It begins without areas, and the end of the visit deletes those
 * that it made. An append with .flush is two lines, the append and a flush, and is answered with the second: so connections share a sync. If the append
 * is refused, the log is flushed all the same. When the service has ended, connect again: nothing is done anew, and areas are to be made again.
 *
 * To connect may answer CLFS_NO_SERVICE, CLFS_NO_FREE_NUMBER, CLFS_UNKNOWN_REPLY or CLFS_SYSTEM. After each answer but CLFS_SYSTEM there is a handle,
 * which is to be closed. It waits for so many milliseconds, without a limit if they are negative; calls wait without a limit. In a child that is forked
 * the pipes are closed, each call answers CLFS_OTHER_PROCESS, and clfs_close frees the handle. */

/* Comes to the service whose door is in the folder `place`, as the next client whose number is free. */
int clfs_connect(struct clfs **log, const char *place, int milliseconds);

/* Comes as this client of `clfs FOLDER share IN OUT ..`, by that client's pair of named pipes. Each pair serves once. */
int clfs_attach(struct clfs **log, unsigned number, const char *in, const char *out, int milliseconds);

/* The number of a connection's client; 1 of a program of the caller's own, whose calls may name any from 1 to 64. */
unsigned clfs_number(const struct clfs *log);

struct clfs_sizes {
    const char *folder;
    const char *program;
    unsigned block_sectors, container_sectors, containers;
    bool dedicated;
};

/* Makes a log. Answers 0, the status with which the program ended, 256 and a signal, CLFS_LOCKED, CLFS_NO_FOLDER, CLFS_NO_PERMISSION,
 * CLFS_UNKNOWN_REPLY, CLFS_SYSTEM, or CLFS_ENDED if its end isn't known. */
int clfs_format(const struct clfs_sizes *sizes);

/* What went wrong. */

/* The last refusal. */
const struct clfs_refusal *clfs_refused(const struct clfs *log);

/* How the program has ended, after CLFS_ENDED and the answers in its place. */
const struct clfs_ending *clfs_ended(const struct clfs *log);

/* The last answer that wasn't 0, in words. It lies in the handle. */
const char *clfs_message(struct clfs *log);

/* Calls that wait for their reply. CLFS_BUSY if lines are under way. */

int clfs_open(struct clfs *log, unsigned client, const char *name, unsigned *stream);
int clfs_area(struct clfs *log, unsigned client, unsigned stream, uint32_t largest, unsigned reads, unsigned *area);
int clfs_drop(struct clfs *log, unsigned client, unsigned area);
int clfs_reserve(struct clfs *log, unsigned client, unsigned area, const uint32_t *lengths, size_t count, uint32_t *held);
int clfs_release(struct clfs *log, unsigned client, unsigned area, uint32_t sectors, uint32_t *held);
int clfs_align(struct clfs *log, unsigned client, unsigned area, const uint32_t *lengths, size_t count, uint32_t *sectors);
int clfs_append(struct clfs *log, unsigned client, unsigned area, const struct clfs_draft *draft, clfs_lsn *lsn);
int clfs_flush(struct clfs *log, unsigned client, unsigned area, clfs_lsn *flushed);
int clfs_flush_to(struct clfs *log, unsigned client, unsigned area, clfs_lsn lsn, clfs_lsn *flushed);
int clfs_read(struct clfs *log, unsigned client, unsigned area, clfs_lsn lsn, enum clfs_mode mode, unsigned *cursor, struct clfs_found *record);
int clfs_next(struct clfs *log, unsigned client, unsigned area, unsigned cursor, struct clfs_found *record);
int clfs_end(struct clfs *log, unsigned client, unsigned area, unsigned cursor);
int clfs_restart(struct clfs *log, unsigned client, unsigned area, const void *data, size_t size, clfs_lsn base, bool reserved, clfs_lsn *lsn);
int clfs_read_restart(struct clfs *log, unsigned client, unsigned area, unsigned *cursor, struct clfs_found *record);
int clfs_previous_restart(struct clfs *log, unsigned client, unsigned area, unsigned cursor, struct clfs_found *record);
int clfs_advance(struct clfs *log, unsigned client, unsigned area, clfs_lsn lsn, clfs_lsn *base);
int clfs_archive(struct clfs *log, unsigned client, bool on);
int clfs_tail(struct clfs *log, unsigned client, clfs_lsn lsn, clfs_lsn *tail);
int clfs_extents(struct clfs *log, unsigned client, const struct clfs_extent **extents, size_t *count);
int clfs_set_policy(struct clfs *log, unsigned client, enum clfs_policy policy, unsigned value);   /* the value of CLFS_AUTOMATIC isn't read */
int clfs_unset_policy(struct clfs *log, unsigned client, enum clfs_policy policy);
int clfs_size(struct clfs *log, unsigned client, unsigned containers, uint32_t *now);
int clfs_info(struct clfs *log, unsigned client, unsigned stream, struct clfs_info *info);
int clfs_reopen(struct clfs *log, unsigned client, clfs_lsn *flushed);

/* Many lines under way. A line is sent without waiting; clfs_await gives the replies, in the order of the lines. Lines are gathered, and written
 * when a reply is waited for, when there are 64 KiB of them, and by clfs_push. At most CLFS_WINDOW lines are under way: then, and if replies
 * that weren't taken fill the handle's room, sending answers CLFS_BUSY. An append of two lines counts as two, and clfs_await gives one answer to it. */

#define CLFS_WINDOW 4096

int clfs_send_append(struct clfs *log, unsigned client, unsigned area, const struct clfs_draft *draft);
int clfs_send_flush(struct clfs *log, unsigned client, unsigned area);
int clfs_send_flush_to(struct clfs *log, unsigned client, unsigned area, clfs_lsn lsn);
int clfs_send_read(struct clfs *log, unsigned client, unsigned area, clfs_lsn lsn, enum clfs_mode mode);
int clfs_send_next(struct clfs *log, unsigned client, unsigned area, unsigned cursor);
int clfs_send_end(struct clfs *log, unsigned client, unsigned area, unsigned cursor);
int clfs_await(struct clfs *log, struct clfs_reply *reply);
int clfs_push(struct clfs *log);
unsigned clfs_under_way(const struct clfs *log);

#ifdef __cplusplus
}
#endif
#endif
