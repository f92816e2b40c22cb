/* See clfs.h.
 *
 * Lines are put together in `lines` and written from there; replies are read into `replies` and judged where they lie. `waiting` has the lines
 * under way, each with its client and the kind of reply that it wants. A write waits with poll for both pipes, so the program never waits for
 * room in its output while this side waits for room in its input.
 */
#define _GNU_SOURCE
#include "clfs_connection.h"
#include "clfs_reply.h"

#include <errno.h>
#include <poll.h>
#include <stdio.h>
#include <stdlib.h>
#include <string.h>
#include <unistd.h>

/* Words for `serve` that each start passes: a run may take any number of bytes. */
#define SERVE_OPTIONS "--endless"

#define LONGEST_LINE 131072
/* Each room is larger than a longest line, and than a longest reply, which has 128,928 digits of data and some 130 bytes beside them. */
#define LINES_ROOM (256 * 1024)
#define REPLIES_ROOM (256 * 1024)
#define GATHERED (64 * 1024)
/* A line without data or a name: a verb, 16 lengths, and a few numbers. */
#define SHORT_LINE 512
#define MOST_LENGTHS 16

struct clfs {
    struct clfs_program program;
    bool over;                      /* whether the output has ended */
    unsigned number;                /* the client's number of a connection, or 0 */
    int answer, error;              /* the last answer that wasn't 0, and errno */
    struct clfs_refusal refusal;
    struct clfs_ending ending;
    char said[CLFS_SAID];           /* the line that nobody knows */
    char message[256];
    struct clfs_waiting waiting[CLFS_WINDOW];
    unsigned first, count;
    size_t written, line, gathered; /* lines: [written, gathered) is to be written; the line that is put together begins at `line` */
    size_t taken, looked, filled;   /* replies: [taken, filled) is there; up to `looked` it has no line feed */
    struct clfs_extent extents[CLFS_MOST_EXTENTS];
    char lines[LINES_ROOM];
    char replies[REPLIES_ROOM];
};

static int told(struct clfs *log, int answer)
{
    log->answer = answer;
    log->error = errno;
    return answer;
}

/* The handle is of no use any more. */
static int fail(struct clfs *log, int answer)
{
    int error = errno;
    if (answer != CLFS_ENDED) clfs_stop(&log->program);
    clfs_reap(&log->program, &log->ending);
    log->ending.unanswered = log->count;
    if (answer == CLFS_ENDED) answer = clfs_answer_of_end(&log->program, &log->ending);
    errno = error;
    log->count = 0;
    log->program.failed = answer;
    return told(log, answer);
}

/* Writing lines, reading replies. */

/* Reads what there is of the output, or waits for some. There has to be room. */
static int take(struct clfs *log)
{
    ssize_t size = 0;
    int ready;
    do {
        ready = clfs_ready(&log->program, POLLIN);
        if (ready > 0) size = read(log->program.output, log->replies + log->filled, REPLIES_ROOM - log->filled);
    } while (ready == 0 || (ready > 0 && size < 0 && (errno == EINTR || errno == EAGAIN)));
    if (ready < 0 || size < 0) return fail(log, CLFS_SYSTEM);
    log->over = size == 0;
    log->filled += (size_t)size;
    return 0;
}

static void make_room_for_replies(struct clfs *log)
{
    memmove(log->replies, log->replies + log->taken, log->filled - log->taken);
    log->looked -= log->taken;
    log->filled -= log->taken;
    log->taken = 0;
}

/* Waits until the program takes more of its input: at first for that alone, since to be woken by each reply costs time on both sides; then for replies
 * too, which are read as far as there is room for them, since the program takes nothing while its output is full. */
static int wait_for_room(struct clfs *log)
{
    if (log->filled == REPLIES_ROOM) make_room_for_replies(log);
    if (log->filled == REPLIES_ROOM) return told(log, CLFS_BUSY);
    int ready = poll(&(struct pollfd){.fd = log->program.input, .events = POLLOUT}, 1, 1);
    if (ready == 0) ready = clfs_ready(&log->program, log->over ? POLLOUT : POLLOUT | POLLIN);
    else if (ready < 0 && errno == EINTR) return 0;
    if (ready < 0) return fail(log, CLFS_SYSTEM);
    return ready & POLLIN ? take(log) : 0;
}

/* Writes the lines that were gathered; up to the first wait for room, if it isn't to wait. */
static int write_lines(struct clfs *log, bool waits)
{
    while (log->written < log->gathered) {
        ssize_t size = clfs_write(&log->program, log->lines + log->written, log->gathered - log->written);
        if (size >= 0) {
            log->written += (size_t)size;
        } else if (errno == EAGAIN || errno == EWOULDBLOCK) {
            if (!waits) return 0;
            int answer = wait_for_room(log);
            if (answer) return answer;
        } else if (errno == EPIPE || errno == ECONNRESET) {
            /* The program has ended. What it said before is still to be read. */
            log->written = log->gathered;
        } else if (errno != EINTR) {
            return fail(log, CLFS_SYSTEM);
        }
    }
    log->written = log->gathered = 0;
    return 0;
}

int clfs_push(struct clfs *log)
{
    return log->program.failed ? log->program.failed : write_lines(log, true);
}

/* The next line of the output, without its line feed, and a zero in its place; NULL for the end, or for a line that no reply is as long as. */
static int next_line(struct clfs *log, char **line, size_t *length)
{
    *line = NULL;
    for (;;) {
        char *end = memchr(log->replies + log->looked, '\n', log->filled - log->looked);
        if (end) {
            *end = 0;
            *line = log->replies + log->taken;
            *length = (size_t)(end - *line);
            log->taken = log->looked = (size_t)(end + 1 - log->replies);
            return 0;
        }
        log->looked = log->filled;
        if (log->over) return 0;
        make_room_for_replies(log);
        if (log->filled == REPLIES_ROOM) return 0;
        size_t before = log->filled;
        int answer = write_lines(log, true);
        if (!answer && log->filled == before && !log->over) answer = take(log);
        if (answer && answer != CLFS_BUSY) return answer;
    }
}

/* The program wrote a line that is no reply: the last one before its end, or one that nobody knows. */
static int last_line(struct clfs *log, const char *line, size_t length)
{
    int status = clfs_status_after(line, length, &log->ending);
    snprintf(log->said, sizeof log->said, "%.*s", (int)sizeof log->said - 1, line);
    if (status < 0 || log->taken < log->filled) return fail(log, CLFS_UNKNOWN_REPLY);
    log->taken = log->looked = log->filled = 0;
    int answer = log->over ? 0 : take(log);
    if (answer) return answer;
    if (!log->over) return fail(log, CLFS_UNKNOWN_REPLY);
    fail(log, CLFS_ENDED);
    bool known = log->ending.status >= 0 || log->ending.signal;
    if (known && log->ending.status != status) return log->program.failed = told(log, CLFS_UNKNOWN_REPLY);
    log->ending.status = status;
    return log->program.failed = told(log, clfs_answer_of_end(&log->program, &log->ending));
}

/* The answer to the first line under way. */
static int await_line(struct clfs *log, struct clfs_reply *reply)
{
    char *line;
    size_t length;
    int answer = next_line(log, &line, &length);
    if (answer) return answer;
    if (!line) return fail(log, log->over ? CLFS_ENDED : CLFS_UNKNOWN_REPLY);
    struct clfs_answered into = {.reply = reply, .refusal = &log->refusal, .extents = log->extents};
    answer = clfs_judge(line, length, log->waiting[log->first], into);
    if (answer == CLFS_UNKNOWN_REPLY) return last_line(log, line, length);
    log->first = (log->first + 1) % CLFS_WINDOW;
    log->count--;
    return answer ? told(log, answer) : 0;
}

/* The answer to an append and to the flush after it: that of the append, unless only the flush was refused. */
static int await_both(struct clfs *log, struct clfs_reply *reply)
{
    int appended = await_line(log, reply);
    if (appended < 0) return appended;
    struct clfs_refusal refusal = log->refusal;
    clfs_lsn lsn = reply->lsn;
    int flushed = await_line(log, reply);
    reply->lsn = lsn;
    if (flushed < 0 || !appended) return flushed;
    log->refusal = refusal;
    return told(log, appended);
}

int clfs_await(struct clfs *log, struct clfs_reply *reply)
{
    if (log->program.failed) return log->program.failed;
    if (log->count == 0) return told(log, CLFS_NOTHING);
    return log->waiting[log->first].has_flush ? await_both(log, reply) : await_line(log, reply);
}

/* Putting a line together. */

static void add_text(struct clfs *log, const char *text, size_t size)
{
    memcpy(log->lines + log->gathered, text, size);
    log->gathered += size;
}

static void add_word(struct clfs *log, const char *word)
{
    log->lines[log->gathered++] = ' ';
    add_text(log, word, strlen(word));
}

static void add_decimal(struct clfs *log, uint32_t number)
{
    char text[10];
    char *at = text + sizeof text;
    do *--at = (char)('0' + number % 10);
    while (number /= 10);
    add_text(log, at, (size_t)(text + sizeof text - at));
}

static void add_number(struct clfs *log, uint32_t number)
{
    log->lines[log->gathered++] = ' ';
    add_decimal(log, number);
}

static void add_lsn(struct clfs *log, clfs_lsn lsn)
{
    char text[CLFS_LSN_ROOM];
    clfs_text_of_lsn(lsn, text);
    add_word(log, text);
}

static void add_data(struct clfs *log, const unsigned char *data, size_t size)
{
    char *at = log->lines + log->gathered;
    *at++ = ' ';
    if (size == 0) *at++ = '-';
    for (size_t byte = 0; byte < size; byte++) {
        *at++ = clfs_digits[data[byte] >> 4];
        *at++ = clfs_digits[data[byte] & 15];
    }
    log->gathered = (size_t)(at - log->lines);
}

static void add_numbers(struct clfs *log, const uint32_t *numbers, size_t count)
{
    for (size_t at = 0; at < count; at++) add_number(log, numbers[at]);
}

/* Begins a line, for which there is room. */
static void begin_line(struct clfs *log, unsigned client, const char *verb)
{
    log->line = log->gathered;
    add_decimal(log, client);
    add_word(log, verb);
    log->waiting[(log->first + log->count) % CLFS_WINDOW].client = client;
}

/* Begins a line, with room for so many bytes beside its short words, and for a flush after it. */
static int begin(struct clfs *log, unsigned client, const char *verb, size_t room)
{
    if (log->program.failed) return log->program.failed;
    if (room > LONGEST_LINE || (log->number && client && client != log->number)) return told(log, CLFS_UNSAYABLE);
    if (log->count == CLFS_WINDOW) return told(log, CLFS_BUSY);
    if (LINES_ROOM - log->gathered < room + SHORT_LINE) {
        int answer = write_lines(log, true);
        if (answer) return answer;
    }
    begin_line(log, log->number ? log->number : client, verb);
    return 0;
}

/* Ends a line. From now on it is under way. */
static int end_line(struct clfs *log, enum clfs_kind kind, bool has_flush)
{
    if (log->gathered - log->line > LONGEST_LINE) {
        log->gathered = log->line;
        return told(log, CLFS_UNSAYABLE);
    }
    log->lines[log->gathered++] = '\n';
    struct clfs_waiting *waiting = &log->waiting[(log->first + log->count++) % CLFS_WINDOW];
    waiting->kind = kind;
    waiting->has_flush = has_flush;
    return 0;
}

static int finish(struct clfs *log, enum clfs_kind kind)
{
    int answer = end_line(log, kind, false);
    return answer || log->gathered - log->written < GATHERED ? answer : write_lines(log, false);
}

/* Ends an append whose flush is a line of its own, and writes that after it: connections that send both at about the same time share a sync, as one
 * line that does both never does. */
static int finish_with_flush(struct clfs *log, unsigned area)
{
    int answer = end_line(log, LSN, true);
    if (answer) return answer;
    begin_line(log, log->number, "flush");
    add_number(log, area);
    return finish(log, FLUSHED);
}

/* Begins a line with an area. */
static int begin_area(struct clfs *log, unsigned client, const char *verb, unsigned area, size_t room)
{
    int answer = begin(log, client, verb, room);
    if (!answer) add_number(log, area);
    return answer;
}

/* A call that waits has no line under way before its own. */
static int alone(struct clfs *log)
{
    return log->count && !log->program.failed ? told(log, CLFS_BUSY) : 0;
}

static int begin_alone(struct clfs *log, unsigned client, const char *verb, size_t room)
{
    int answer = alone(log);
    return answer ? answer : begin(log, client, verb, room);
}

static int begin_area_alone(struct clfs *log, unsigned client, const char *verb, unsigned area, size_t room)
{
    int answer = alone(log);
    return answer ? answer : begin_area(log, client, verb, area, room);
}

/* The answers of the calls that wait, if their line was sent. */

static int answer_number(struct clfs *log, int sent, uint32_t *number)
{
    struct clfs_reply reply;
    int answer = sent ? sent : clfs_await(log, &reply);
    if (!answer) *number = reply.number;
    return answer;
}

static int answer_lsn(struct clfs *log, int sent, clfs_lsn *lsn)
{
    struct clfs_reply reply;
    int answer = sent ? sent : clfs_await(log, &reply);
    if (!answer) *lsn = reply.lsn;
    return answer;
}

static int answer_record(struct clfs *log, int sent, unsigned *cursor, struct clfs_found *record)
{
    struct clfs_reply reply;
    int answer = sent ? sent : clfs_await(log, &reply);
    if (answer) return answer;
    if (cursor) *cursor = reply.number;
    *record = reply.record;
    return 0;
}

static int answer_ok(struct clfs *log, int sent)
{
    struct clfs_reply reply;
    return sent ? sent : clfs_await(log, &reply);
}

/* The calls. */

int clfs_send_append(struct clfs *log, unsigned client, unsigned area, const struct clfs_draft *draft)
{
    if (draft->size > LONGEST_LINE / 2 || draft->holds > MOST_LENGTHS) return log->program.failed ? log->program.failed : told(log, CLFS_UNSAYABLE);
    bool has_flush = draft->flush && log->number;
    if (has_flush && log->count == CLFS_WINDOW - 1) return told(log, CLFS_BUSY);
    int answer = begin_area(log, client, "append", area, 2 * draft->size);
    if (answer) return answer;
    add_data(log, draft->data, draft->size);
    add_lsn(log, draft->previous);
    add_lsn(log, draft->undo_next);
    if (draft->reserved) add_word(log, "reserved");
    if (draft->seal) add_word(log, "seal");
    if (draft->flush && !has_flush) add_word(log, "flush");
    if (draft->holds) add_word(log, "hold");
    add_numbers(log, draft->hold, draft->holds);
    return has_flush ? finish_with_flush(log, area) : finish(log, LSN);
}

int clfs_append(struct clfs *log, unsigned client, unsigned area, const struct clfs_draft *draft, clfs_lsn *lsn)
{
    int sent = alone(log);
    return answer_lsn(log, sent ? sent : clfs_send_append(log, client, area, draft), lsn);
}

int clfs_send_flush(struct clfs *log, unsigned client, unsigned area)
{
    int answer = begin_area(log, client, "flush", area, 0);
    return answer ? answer : finish(log, FLUSHED);
}

int clfs_flush(struct clfs *log, unsigned client, unsigned area, clfs_lsn *flushed)
{
    int sent = alone(log);
    return answer_lsn(log, sent ? sent : clfs_send_flush(log, client, area), flushed);
}

int clfs_send_flush_to(struct clfs *log, unsigned client, unsigned area, clfs_lsn lsn)
{
    int answer = begin_area(log, client, "flushto", area, 0);
    if (answer) return answer;
    add_lsn(log, lsn);
    return finish(log, FLUSHED);
}

int clfs_flush_to(struct clfs *log, unsigned client, unsigned area, clfs_lsn lsn, clfs_lsn *flushed)
{
    int sent = alone(log);
    return answer_lsn(log, sent ? sent : clfs_send_flush_to(log, client, area, lsn), flushed);
}

int clfs_send_read(struct clfs *log, unsigned client, unsigned area, clfs_lsn lsn, enum clfs_mode mode)
{
    static const char *const modes[] = {[CLFS_PREVIOUS] = "previous", [CLFS_UNDO_NEXT] = "undo", [CLFS_FORWARD] = "forward"};
    int answer = begin_area(log, client, "read", area, 0);
    if (answer) return answer;
    add_lsn(log, lsn);
    add_word(log, modes[mode]);
    return finish(log, FOUND);
}

int clfs_read(struct clfs *log, unsigned client, unsigned area, clfs_lsn lsn, enum clfs_mode mode, unsigned *cursor, struct clfs_found *record)
{
    int sent = alone(log);
    return answer_record(log, sent ? sent : clfs_send_read(log, client, area, lsn, mode), cursor, record);
}

int clfs_send_next(struct clfs *log, unsigned client, unsigned area, unsigned cursor)
{
    int answer = begin_area(log, client, "next", area, 0);
    if (answer) return answer;
    add_number(log, cursor);
    return finish(log, RECORD);
}

int clfs_next(struct clfs *log, unsigned client, unsigned area, unsigned cursor, struct clfs_found *record)
{
    int sent = alone(log);
    return answer_record(log, sent ? sent : clfs_send_next(log, client, area, cursor), NULL, record);
}

int clfs_send_end(struct clfs *log, unsigned client, unsigned area, unsigned cursor)
{
    int answer = begin_area(log, client, "end", area, 0);
    if (answer) return answer;
    add_number(log, cursor);
    return finish(log, OK);
}

int clfs_end(struct clfs *log, unsigned client, unsigned area, unsigned cursor)
{
    int sent = alone(log);
    return answer_ok(log, sent ? sent : clfs_send_end(log, client, area, cursor));
}

/* A name is one word; which words are legal names, the log decides. */
static bool is_word(const char *name)
{
    return *name && !name[strcspn(name, " \t\n\v\f\r")];
}

int clfs_open(struct clfs *log, unsigned client, const char *name, unsigned *stream)
{
    if (!is_word(name)) return log->program.failed ? log->program.failed : told(log, CLFS_UNSAYABLE);
    int sent = begin_alone(log, client, "open", strlen(name));
    if (sent) return sent;
    add_word(log, name);
    return answer_number(log, finish(log, STREAM), stream);
}

int clfs_area(struct clfs *log, unsigned client, unsigned stream, uint32_t largest, unsigned reads, unsigned *area)
{
    int sent = begin_area_alone(log, client, "area", stream, 0);
    if (sent) return sent;
    add_number(log, largest);
    add_number(log, reads);
    return answer_number(log, finish(log, AREA), area);
}

int clfs_drop(struct clfs *log, unsigned client, unsigned area)
{
    int sent = begin_area_alone(log, client, "drop", area, 0);
    return sent ? sent : answer_ok(log, finish(log, OK));
}

static int with_lengths(struct clfs *log, unsigned client, const char *verb, unsigned area, const uint32_t *lengths, size_t count)
{
    int sent = alone(log);
    if (!sent && count > MOST_LENGTHS) sent = told(log, CLFS_UNSAYABLE);
    if (!sent) sent = begin_area(log, client, verb, area, 0);
    if (!sent) add_numbers(log, lengths, count);
    return sent;
}

int clfs_reserve(struct clfs *log, unsigned client, unsigned area, const uint32_t *lengths, size_t count, uint32_t *held)
{
    int sent = with_lengths(log, client, "reserve", area, lengths, count);
    return sent ? sent : answer_number(log, finish(log, HELD), held);
}

int clfs_release(struct clfs *log, unsigned client, unsigned area, uint32_t sectors, uint32_t *held)
{
    int sent = with_lengths(log, client, "release", area, &sectors, 1);
    return sent ? sent : answer_number(log, finish(log, HELD), held);
}

int clfs_align(struct clfs *log, unsigned client, unsigned area, const uint32_t *lengths, size_t count, uint32_t *sectors)
{
    int sent = with_lengths(log, client, "align", area, lengths, count);
    return sent ? sent : answer_number(log, finish(log, SECTORS), sectors);
}

int clfs_restart(struct clfs *log, unsigned client, unsigned area, const void *data, size_t size, clfs_lsn base, bool reserved, clfs_lsn *lsn)
{
    int sent = alone(log);
    if (!sent && size > LONGEST_LINE / 2) sent = told(log, CLFS_UNSAYABLE);
    if (!sent) sent = begin_area(log, client, "restart", area, 2 * size);
    if (sent) return sent;
    add_data(log, data, size);
    add_lsn(log, base);
    if (reserved) add_word(log, "reserved");
    return answer_lsn(log, finish(log, LSN), lsn);
}

int clfs_read_restart(struct clfs *log, unsigned client, unsigned area, unsigned *cursor, struct clfs_found *record)
{
    int sent = begin_area_alone(log, client, "readrestart", area, 0);
    return sent ? sent : answer_record(log, finish(log, FOUND), cursor, record);
}

int clfs_previous_restart(struct clfs *log, unsigned client, unsigned area, unsigned cursor, struct clfs_found *record)
{
    int sent = begin_area_alone(log, client, "prevrestart", area, 0);
    if (sent) return sent;
    add_number(log, cursor);
    return answer_record(log, finish(log, RECORD), NULL, record);
}

int clfs_advance(struct clfs *log, unsigned client, unsigned area, clfs_lsn lsn, clfs_lsn *base)
{
    int sent = begin_area_alone(log, client, "advance", area, 0);
    if (sent) return sent;
    add_lsn(log, lsn);
    return answer_lsn(log, finish(log, BASE), base);
}

int clfs_archive(struct clfs *log, unsigned client, bool on)
{
    int sent = begin_alone(log, client, "archive", 0);
    if (sent) return sent;
    add_word(log, on ? "on" : "off");
    return answer_ok(log, finish(log, OK));
}

int clfs_tail(struct clfs *log, unsigned client, clfs_lsn lsn, clfs_lsn *tail)
{
    int sent = begin_alone(log, client, "tail", 0);
    if (sent) return sent;
    add_lsn(log, lsn);
    return answer_lsn(log, finish(log, TAIL), tail);
}

int clfs_extents(struct clfs *log, unsigned client, const struct clfs_extent **extents, size_t *count)
{
    struct clfs_reply reply;
    int answer = begin_alone(log, client, "extents", 0);
    if (!answer) answer = finish(log, EXTENTS);
    if (!answer) answer = clfs_await(log, &reply);
    if (answer) return answer;
    *extents = reply.extents;
    *count = reply.extent_count;
    return 0;
}

static const char *const policies[] = {
    [CLFS_MAXIMUM] = "max", [CLFS_MINIMUM] = "min", [CLFS_GROWTH] = "growth", [CLFS_AUTOMATIC] = "auto",
};

int clfs_set_policy(struct clfs *log, unsigned client, enum clfs_policy policy, unsigned value)
{
    int sent = begin_alone(log, client, "policy", 0);
    if (sent) return sent;
    add_word(log, policies[policy]);
    if (policy != CLFS_AUTOMATIC) add_number(log, value);
    return answer_ok(log, finish(log, OK));
}

int clfs_unset_policy(struct clfs *log, unsigned client, enum clfs_policy policy)
{
    int sent = begin_alone(log, client, "unpolicy", 0);
    if (sent) return sent;
    add_word(log, policies[policy]);
    return answer_ok(log, finish(log, OK));
}

int clfs_size(struct clfs *log, unsigned client, unsigned containers, uint32_t *now)
{
    int sent = begin_alone(log, client, "size", 0);
    if (sent) return sent;
    add_number(log, containers);
    return answer_number(log, finish(log, CONTAINERS), now);
}

int clfs_info(struct clfs *log, unsigned client, unsigned stream, struct clfs_info *info)
{
    struct clfs_reply reply;
    int answer = begin_area_alone(log, client, "info", stream, 0);
    if (!answer) answer = finish(log, INFO);
    if (!answer) answer = clfs_await(log, &reply);
    if (!answer) *info = reply.info;
    return answer;
}

int clfs_reopen(struct clfs *log, unsigned client, clfs_lsn *flushed)
{
    int sent = begin_alone(log, client, "reopen", 0);
    return sent ? sent : answer_lsn(log, finish(log, FLUSHED), flushed);
}

/* Starting and closing. */

/* Waits until the log is open: an empty line is answered as a bad one, whatever the log is like. */
static int meet(struct clfs *log)
{
    struct clfs_reply reply;
    log->waiting[0] = (struct clfs_waiting){.client = 0, .kind = NO_REPLY};
    log->count = 1;
    log->lines[log->gathered++] = '\n';
    int answer = clfs_await(log, &reply);
    if (answer == CLFS_BAD_LINE || answer < 0) return answer < 0 ? answer : 0;
    return fail(log, CLFS_UNKNOWN_REPLY);
}

int clfs_start(struct clfs **log, const struct clfs_options *options)
{
    char write_buffers[12], read_buffers[12];
    const char *words[9] = {options->program ? options->program : "clfs", options->folder, "serve", SERVE_OPTIONS};
    size_t count = 3;
    while (words[count]) count++;
    if (options->write_buffers) {
        snprintf(write_buffers, sizeof write_buffers, "%u", options->write_buffers);
        words[count++] = "--write-buffers";
        words[count++] = write_buffers;
    }
    if (options->read_buffers) {
        snprintf(read_buffers, sizeof read_buffers, "%u", options->read_buffers);
        words[count++] = "--read-buffers";
        words[count++] = read_buffers;
    }
    *log = calloc(1, sizeof **log);
    if (!*log) return CLFS_SYSTEM;
    int error = clfs_launch(&(*log)->program, (char *const *)words, options->errors);
    if (!error) return meet(*log);
    free(*log);
    *log = NULL;
    errno = error;
    return CLFS_SYSTEM;
}

/* Begins a handle with the answer of its connection. */
static int begun(struct clfs **log, int answer)
{
    int error = errno;
    if (answer) (*log)->ending.status = -1;
    if (answer) (*log)->program.failed = told(*log, answer);
    if (answer == CLFS_SYSTEM) {
        free(*log);
        *log = NULL;
    }
    errno = error;
    return answer;
}

int clfs_connect(struct clfs **log, const char *place, int milliseconds)
{
    *log = calloc(1, sizeof **log);
    return !*log ? CLFS_SYSTEM : begun(log, clfs_visit(&(*log)->program, place, milliseconds, (*log)->said, &(*log)->number));
}

int clfs_attach(struct clfs **log, unsigned number, const char *in, const char *out, int milliseconds)
{
    *log = calloc(1, sizeof **log);
    if (!*log) return CLFS_SYSTEM;
    (*log)->number = number;
    return begun(log, number ? clfs_pair(&(*log)->program, in, out, milliseconds, (*log)->said) : CLFS_UNSAYABLE);
}

/* Writes what was gathered, ends the input, and throws away what is answered up to the end. */
static int end_input(struct clfs *log)
{
    bool ended = false;
    while (!log->over) {
        int answer = ended ? 0 : write_lines(log, true);
        if (!answer && !ended) ended = clfs_end_input(&log->program);
        for (; log->taken < log->filled; log->taken++) log->count -= log->count && log->replies[log->taken] == '\n';
        log->taken = log->looked = log->filled = 0;
        if (!answer) answer = take(log);
        if (answer && answer != CLFS_BUSY) return answer;
    }
    return fail(log, CLFS_ENDED);
}

int clfs_close(struct clfs *log, struct clfs_ending *ending)
{
    if (!log) return 0;
    int answer = log->program.failed ? log->program.failed : end_input(log);
    if (answer == CLFS_ENDED && log->ending.status == 0 && log->ending.unanswered == 0) answer = 0;
    if (ending) *ending = log->ending;
    free(log);
    return answer;
}

pid_t clfs_process(const struct clfs *log) { return log->program.process; }

unsigned clfs_number(const struct clfs *log) { return log->number ? log->number : 1; }

unsigned clfs_under_way(const struct clfs *log) { return log->count; }

/* Reads the output of a program to its end, at most as much as there is room for, and gives its status, or 256 and its signal. */
static int status_after(struct clfs *log)
{
    while (!log->over && log->filled < sizeof log->replies) {
        int answer = take(log);
        if (answer) return answer;
    }
    if (!log->over) clfs_stop(&log->program);
    if (!log->over || (log->filled && log->replies[log->filled - 1] == '\n')) log->filled--;
    log->replies[log->filled] = 0;
    clfs_reap(&log->program, &log->ending);
    return log->ending.signal ? 256 + log->ending.signal : log->ending.status;
}

int clfs_format(const struct clfs_sizes *sizes)
{
    char block[12], container[12], containers[12];
    snprintf(block, sizeof block, "%u", sizes->block_sectors);
    snprintf(container, sizeof container, "%u", sizes->container_sectors);
    snprintf(containers, sizeof containers, "%u", sizes->containers);
    const char *words[] = {
        sizes->program ? sizes->program : "clfs", sizes->folder, "format", "--block-sectors", block, "--container-sectors", container,
        "--containers", containers, sizes->dedicated ? "--dedicated" : NULL, NULL,
    };
    struct clfs *log = calloc(1, sizeof *log);
    if (!log) return CLFS_SYSTEM;
    int error = clfs_launch(&log->program, (char *const *)words, 0);
    int status = error ? CLFS_SYSTEM : status_after(log);
    int said = !strcmp(log->replies, "formatted") ? 0 : clfs_status_after(log->replies, log->filled, &log->ending);
    if (status == CLFS_ENDED) status = log->ending.status = said;
    bool known = status == said || (log->filled == 0 && status != 0);
    int cause = clfs_answer_of_end(&log->program, &log->ending);
    if (known && cause != CLFS_ENDED) status = cause;
    error = error ? error : log->error;
    free(log);
    errno = error;
    return known || status < 0 ? status : CLFS_UNKNOWN_REPLY;
}

/* What went wrong. */

const struct clfs_refusal *clfs_refused(const struct clfs *log) { return &log->refusal; }

const struct clfs_ending *clfs_ended(const struct clfs *log) { return &log->ending; }

const char *clfs_message(struct clfs *log)
{
    if (!log) return strerror(errno);
    int answer = log->program.failed ? log->program.failed : log->answer;
    char *to = log->message;
    size_t room = sizeof log->message;
    switch (answer) {
    case CLFS_ENDED: clfs_ending_text(&log->ending, to, room); break;
    case CLFS_SERVICE_ENDED: snprintf(to, room, "the service has ended (lines without a reply: %u)", log->ending.unanswered); break;
    case CLFS_UNKNOWN_REPLY: snprintf(to, room, "unknown reply: %s", log->said); break;
    case CLFS_SYSTEM: snprintf(to, room, "the system: %s", strerror(log->error)); break;
    default:
        if (answer > 0) clfs_refusal_text(&log->refusal, to, room);
        else snprintf(to, room, "%s", clfs_answer_text(answer));
    }
    return log->message;
}
