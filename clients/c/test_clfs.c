/* Tests of the C client: test_clfs PROGRAM FOLDER, with a folder that is empty. */
#define _GNU_SOURCE
#include "clfs.h"

#include <signal.h>
#include <stdio.h>
#include <stdlib.h>
#include <string.h>
#include <sys/stat.h>
#include <sys/wait.h>
#include <unistd.h>

static const char *program;
static unsigned failures, rooms;

#define CHECK(condition) \
    do { \
        if (!(condition)) { \
            fprintf(stderr, "%s:%d: not so: %s\n", __FILE__, __LINE__, #condition); \
            failures++; \
        } \
    } while (0)

/* A name in the folder of the tests that no other has. */
static const char *new_name(void)
{
    static char name[32];
    snprintf(name, sizeof name, "log%u", rooms++);
    return name;
}

static const char *format(unsigned block_sectors, unsigned container_sectors, unsigned containers)
{
    const char *folder = new_name();
    CHECK(clfs_format(&(struct clfs_sizes){folder, program, block_sectors, container_sectors, containers, false}) == 0);
    return folder;
}

static struct clfs *start(const char *folder)
{
    struct clfs *log;
    int answer = clfs_start(&log, &(struct clfs_options){.folder = folder, .program = program});
    if (answer) {
        fprintf(stderr, "start: %s\n", clfs_message(log));
        exit(1);
    }
    return log;
}

static clfs_lsn lsn_of(uint32_t container, uint32_t offset, uint32_t sequence)
{
    return (clfs_lsn)container << 32 | offset | sequence;
}

static bool has(const struct clfs_found *record, clfs_lsn lsn, const char *data)
{
    return record->lsn == lsn && record->size == strlen(data) && !memcmp(record->data, data, record->size);
}

/* The path of a program of the shell that does what the text says. */
static const char *shell(const char *text)
{
    static char path[40];
    const char *name = new_name();
    FILE *file = fopen(name, "w");
    fprintf(file, "#!/bin/sh\n%s", text);
    fclose(file);
    chmod(name, S_IRWXU);
    snprintf(path, sizeof path, "./%s", name);
    return path;
}

/* A log whose program, one of the shell, has answered the line by which the start waits, and then does what the text says. */
static struct clfs *start_shell(const char *text)
{
    char all[512];
    struct clfs *log;
    snprintf(all, sizeof all, "read line\necho '0 refused 28 BadLine 0'\n%s", text);
    CHECK(clfs_start(&log, &(struct clfs_options){.folder = ".", .program = shell(all), .errors = -1}) == 0);
    return log;
}

/* A log whose program answers one line so. */
static struct clfs *start_answering(const char *reply)
{
    char text[256];
    snprintf(text, sizeof text, "read line\necho '%s'\nread line\nexit 0\n", reply);
    return start_shell(text);
}

static void the_example_of_the_manual(void)
{
    struct clfs *log = start(format(2, 8, 2));
    unsigned stream, area = 0, cursor;
    uint32_t number;
    clfs_lsn lsn, first = lsn_of(1, 0, 0), second = lsn_of(1, 0, 1), third = lsn_of(1, 0x200, 0);
    struct clfs_found record;
    CHECK(clfs_open(log, 1, "orders", &stream) == 0 && stream == 1);
    CHECK(clfs_area(log, 1, stream, 960, 4, &area) == 0 && area == 1);
    CHECK(clfs_append(log, 1, area, &(struct clfs_draft){.data = "hello", .size = 5}, &lsn) == 0 && lsn == first);
    struct clfs_draft draft = {.data = "world", .size = 5, .previous = first, .undo_next = first, .flush = true};
    CHECK(clfs_append(log, 1, area, &draft, &lsn) == 0 && lsn == second);
    CHECK(clfs_read(log, 1, area, second, CLFS_PREVIOUS, &cursor, &record) == 0 && cursor == 1 && has(&record, second, "world"));
    CHECK(record.previous == first && record.undo_next == first && record.base == CLFS_NULL && !record.is_restart);
    CHECK(clfs_next(log, 1, area, cursor, &record) == 0 && has(&record, first, "hello"));
    CHECK(clfs_next(log, 1, area, cursor, &record) == CLFS_START_OF_LOG);
    CHECK(clfs_end(log, 1, area, cursor) == 0);
    CHECK(clfs_reserve(log, 1, area, (uint32_t[]){100, 200}, 2, &number) == 0 && number == 2);
    CHECK(clfs_append(log, 1, area, &(struct clfs_draft){.data = "\xaa", .size = 1, .reserved = true}, &lsn) == 0 && lsn == third);
    draft = (struct clfs_draft){.data = "\xbb", .size = 1, .seal = true, .hold = (uint32_t[]){300}, .holds = 1};
    CHECK(clfs_append(log, 1, area, &draft, &lsn) == 0 && lsn == third + 1);
    CHECK(clfs_release(log, 1, area, 1, &number) == 0 && number == 1);
    CHECK(clfs_align(log, 1, area, (uint32_t[]){456, 457}, 2, &number) == 0 && number == 3);
    CHECK(clfs_flush(log, 1, area, &lsn) == 0 && lsn == lsn_of(1, 0x400, 0));
    CHECK(clfs_flush_to(log, 1, area, second, &lsn) == 0 && lsn == lsn_of(1, 0x400, 0));
    CHECK(clfs_restart(log, 1, area, "\1\2", 2, CLFS_NULL, false, &lsn) == 0 && lsn == lsn_of(1, 0x400, 0));
    CHECK(clfs_restart(log, 1, area, "\3\4", 2, second, true, &lsn) == 0 && lsn == lsn_of(1, 0x600, 0));
    CHECK(clfs_read_restart(log, 1, area, &cursor, &record) == 0 && has(&record, lsn, "\3\4") && record.is_restart && record.base == second);
    CHECK(clfs_previous_restart(log, 1, area, cursor, &record) == 0 && has(&record, lsn_of(1, 0x400, 0), "\1\2"));
    CHECK(clfs_previous_restart(log, 1, area, cursor, &record) == CLFS_NO_RESTART);
    CHECK(clfs_advance(log, 1, area, third, &lsn) == 0 && lsn == third);
    const struct clfs_extent *extents;
    size_t count;
    CHECK(clfs_archive(log, 1, true) == 0 && clfs_tail(log, 1, third, &lsn) == 0 && lsn == third);
    CHECK(clfs_extents(log, 1, &extents, &count) == 0 && count == 1);
    CHECK(extents[0].container == 1 && extents[0].low == 0x200 && extents[0].high == 0x800);
    CHECK(clfs_set_policy(log, 1, CLFS_MAXIMUM, 4) == 0 && clfs_set_policy(log, 1, CLFS_GROWTH, 1) == 0);
    CHECK(clfs_set_policy(log, 1, CLFS_AUTOMATIC, 0) == 0 && clfs_size(log, 1, 3, &number) == 0 && number == 3);
    CHECK(clfs_unset_policy(log, 1, CLFS_MAXIMUM) == 0);
    struct clfs_info info;
    CHECK(clfs_info(log, 1, stream, &info) == 0 && info.archiving && info.archive_tail == third);
    CHECK(clfs_archive(log, 1, false) == 0 && clfs_info(log, 1, stream, &info) == 0 && !info.archiving);
    CHECK(info.containers == 3 && info.free_containers == 2 && info.container_sectors == 8 && info.free_sectors == 17 && info.reserved == 0);
    CHECK(info.base == third && info.last == lsn_of(1, 0x600, 0) && info.flushed == lsn_of(1, 0x800, 0) && info.restart == info.last);
    CHECK(clfs_drop(log, 1, area) == 0 && clfs_reopen(log, 1, &lsn) == 0 && lsn == info.flushed);
    CHECK(clfs_flush(log, 5, area, &lsn) == CLFS_NO_SUCH_AREA);
    CHECK(clfs_flush(log, 65, area, &lsn) == CLFS_BAD_LINE && clfs_refused(log)->bad_line.at == 0);
    CHECK(clfs_close(log, NULL) == 0);
}

static void refusals_and_what_cannot_be_said(void)
{
    struct clfs *log = start(format(2, 8, 2));
    unsigned stream, area = 0;
    clfs_lsn lsn;
    static char data[70000];
    CHECK(clfs_open(log, 1, "orders", &stream) == 0 && clfs_area(log, 1, stream, 960, 1, &area) == 0);
    CHECK(clfs_append(log, 1, area, &(struct clfs_draft){.data = data, .size = 961}, &lsn) == CLFS_RECORD_TOO_LONG);
    CHECK(clfs_refused(log)->record_too_long.length == 961 && clfs_refused(log)->record_too_long.most == 960);
    CHECK(!strcmp(clfs_message(log), "refused 7 RecordTooLong 961 960"));
    CHECK(clfs_append(log, 1, area, &(struct clfs_draft){.previous = lsn_of(9, 0, 0)}, &lsn) == CLFS_LINK_INVALID);
    CHECK(clfs_refused(log)->link_invalid.lsn == lsn_of(9, 0, 0) && !strcmp(clfs_message(log), "refused 8 LinkInvalid 9:0:0"));
    int answer;
    do answer = clfs_append(log, 1, area, &(struct clfs_draft){.data = data, .size = 960}, &lsn);
    while (!answer);
    CHECK(answer == CLFS_FULL && clfs_refused(log)->full.free == 1 && clfs_refused(log)->full.reserved == 0 && clfs_refused(log)->full.need == 2);
    CHECK(clfs_append(log, 1, area, &(struct clfs_draft){.data = data, .size = 65530}, &lsn) == CLFS_UNSAYABLE);
    CHECK(clfs_append(log, 1, area, &(struct clfs_draft){.data = data, .size = SIZE_MAX}, &lsn) == CLFS_UNSAYABLE);
    CHECK(clfs_open(log, 1, "", &stream) == CLFS_UNSAYABLE && clfs_open(log, 1, "two words", &stream) == CLFS_UNSAYABLE);
    CHECK(clfs_open(log, 1, "a\n1 reopen", &stream) == CLFS_UNSAYABLE && clfs_open(log, 1, "a\r", &stream) == CLFS_UNSAYABLE);
    CHECK(clfs_open(log, 1, "ord\xc3\xa9rs", &stream) == CLFS_NAME_INVALID && clfs_refused(log)->name_invalid.at == 3);
    CHECK(clfs_flush(log, 1, area, &lsn) == 0);
    CHECK(clfs_close(log, NULL) == 0);
}

static void many_lines_under_way(void)
{
    struct clfs *log = start(format(128, 1024, 4));
    unsigned stream, area = 0, sent = 0, answered = 0;
    struct clfs_reply reply;
    clfs_lsn lsn, last = 0;
    char data[8];
    CHECK(clfs_open(log, 1, "orders", &stream) == 0 && clfs_area(log, 1, stream, 100, 1, &area) == 0);
    while (answered < 5000 && failures == 0) {
        int answer = sent == 5000 ? CLFS_BUSY : 0;
        if (!answer) {
            snprintf(data, sizeof data, "%u", sent);
            answer = clfs_send_append(log, 1, area, &(struct clfs_draft){.data = data, .size = strlen(data)});
        }
        if (answer == CLFS_BUSY) {
            CHECK(clfs_flush(log, 1, area, &lsn) == CLFS_BUSY);
            CHECK(clfs_await(log, &reply) == 0 && reply.lsn > last);
            last = reply.lsn;
            answered++;
        } else {
            CHECK(answer == 0);
            sent++;
        }
    }
    CHECK(clfs_await(log, &reply) == CLFS_NOTHING && clfs_flush(log, 1, area, &lsn) == 0);
    unsigned cursor;
    struct clfs_found record;
    CHECK(clfs_read(log, 1, area, last, CLFS_FORWARD, &cursor, &record) == 0 && has(&record, last, "4999"));
    CHECK(clfs_close(log, NULL) == 0);
}

/* The program's replies fill its output while the lines fill its input: who only writes, or only reads, waits for ever. */
static void both_pipes_full(void)
{
    struct clfs *log = start(format(128, 1024, 4));
    unsigned stream, area = 0, answered = 0;
    struct clfs_reply reply;
    clfs_lsn lsn;
    static char data[30000];
    memset(data, 'x', sizeof data);
    CHECK(clfs_open(log, 1, "orders", &stream) == 0 && clfs_area(log, 1, stream, 64000, 16, &area) == 0);
    CHECK(clfs_append(log, 1, area, &(struct clfs_draft){.data = data, .size = sizeof data}, &lsn) == 0);
    for (unsigned line = 0; line < 20; line++) {
        int answer;
        do {
            struct clfs_draft draft = {.data = data, .size = sizeof data};
            answer = line < 10 ? clfs_send_read(log, 1, area, lsn, CLFS_FORWARD) : clfs_send_append(log, 1, area, &draft);
            if (answer == CLFS_BUSY) {
                CHECK(clfs_await(log, &reply) == 0 && (answered >= 10 || (reply.number == answered + 1 && reply.record.size == sizeof data)));
                answered++;
            }
        } while (answer == CLFS_BUSY);
        CHECK(answer == 0);
    }
    for (; clfs_under_way(log); answered++) CHECK(clfs_await(log, &reply) == 0);
    CHECK(answered == 20 && clfs_close(log, NULL) == 0);
}

static void a_killed_program_is_told(void)
{
    const char *folder = format(2, 8, 2);
    struct clfs *log = start(folder);
    struct clfs_reply reply;
    struct clfs_ending ending;
    unsigned stream, area = 0;
    clfs_lsn lsn;
    CHECK(clfs_open(log, 1, "orders", &stream) == 0 && clfs_area(log, 1, stream, 100, 1, &area) == 0);
    for (int line = 0; line < 3; line++) CHECK(clfs_send_flush(log, 1, area) == 0);
    kill(clfs_process(log), SIGKILL);
    CHECK(clfs_await(log, &reply) == CLFS_ENDED && clfs_ended(log)->signal == SIGKILL && clfs_ended(log)->unanswered == 3);
    CHECK(!strcmp(clfs_message(log), "the program was ended by signal 9 (lines without a reply: 3)"));
    CHECK(clfs_flush(log, 1, area, &lsn) == CLFS_ENDED && clfs_await(log, &reply) == CLFS_ENDED && clfs_push(log) == CLFS_ENDED);
    CHECK(clfs_close(log, &ending) == CLFS_ENDED && ending.signal == SIGKILL);
    log = start(folder);
    kill(clfs_process(log), SIGKILL);
    CHECK(clfs_close(log, &ending) == CLFS_ENDED && ending.signal == SIGKILL);
}

static void what_starting_and_formatting_tell(void)
{
    struct clfs *log, *other;
    CHECK(clfs_start(&log, &(struct clfs_options){.folder = "none", .program = program, .errors = -1}) == CLFS_NO_FOLDER);
    CHECK(clfs_ended(log)->status == CLFS_STATUS_NOT_A_LOG && !clfs_ended(log)->has_place);
    CHECK(clfs_close(log, NULL) == CLFS_NO_FOLDER);
    mkdir("empty", S_IRWXU);
    CHECK(clfs_start(&log, &(struct clfs_options){.folder = "empty", .program = program}) == CLFS_ENDED);
    CHECK(clfs_ended(log)->status == CLFS_STATUS_NOT_A_LOG && !clfs_ended(log)->has_place);
    CHECK(clfs_close(log, NULL) == CLFS_ENDED);
    CHECK(clfs_start(&log, &(struct clfs_options){.folder = "none", .program = "./none"}) == CLFS_SYSTEM && !log);
    signal(SIGCHLD, SIG_IGN);
    CHECK(clfs_format(&(struct clfs_sizes){"ignored", program, 2, 8, 2, false}) == 0);
    CHECK(clfs_format(&(struct clfs_sizes){"ignored", program, 2, 8, 2, false}) == CLFS_STATUS_LOG_EXISTS);
    CHECK(clfs_start(&log, &(struct clfs_options){.folder = "none", .program = program, .errors = -1}) == CLFS_NO_FOLDER);
    CHECK(clfs_ended(log)->status == CLFS_STATUS_NOT_A_LOG && clfs_close(log, NULL) == CLFS_NO_FOLDER);
    signal(SIGCHLD, SIG_DFL);
    const char *folder = format(2, 8, 2);
    CHECK(clfs_format(&(struct clfs_sizes){folder, program, 2, 8, 2, false}) == CLFS_STATUS_LOG_EXISTS);
    CHECK(clfs_format(&(struct clfs_sizes){"none", program, 2, 8, 257, false}) == CLFS_STATUS_NO_COMMAND);
    CHECK(clfs_format(&(struct clfs_sizes){"none", "./none", 2, 8, 2, false}) == CLFS_SYSTEM);
    log = start(folder);
    FILE *told = tmpfile();
    char line[128] = "";
    CHECK(clfs_start(&other, &(struct clfs_options){.folder = folder, .program = program, .errors = fileno(told)}) == CLFS_LOCKED);
    CHECK(clfs_ended(other)->status == CLFS_STATUS_DISK_FAILED && !strcmp(clfs_message(other), "locked: another process has the folder"));
    CHECK(clfs_close(other, NULL) == CLFS_LOCKED);
    CHECK(clfs_format(&(struct clfs_sizes){folder, program, 2, 8, 2, false}) == CLFS_LOCKED);
    rewind(told);
    CHECK(fgets(line, sizeof line, told) && strstr(line, "another process has the folder"));
    fclose(told);
    unsigned stream, area = 0;
    clfs_lsn lsn;
    CHECK(clfs_open(log, 1, "orders", &stream) == 0 && clfs_area(log, 1, stream, 960, 1, &area) == 0);
    CHECK(clfs_append(log, 1, area, &(struct clfs_draft){.data = "x", .size = 1, .flush = true}, &lsn) == 0 && clfs_close(log, NULL) == 0);
    char path[40];
    snprintf(path, sizeof path, "%s/c1", folder);
    FILE *file = fopen(path, "r+");
    fseek(file, 20, SEEK_SET);
    fputc(255, file);
    fclose(file);
    CHECK(clfs_start(&log, &(struct clfs_options){.folder = folder, .program = program, .write_buffers = 64}) == CLFS_ENDED);
    CHECK(clfs_ended(log)->status == CLFS_STATUS_NOT_A_LOG && clfs_ended(log)->has_place && clfs_ended(log)->container == 1);
    CHECK(!strncmp(clfs_message(log), "not a log: container 1 offset 0 byte ", 37));
    CHECK(clfs_close(log, NULL) == CLFS_ENDED);
}

static void each_refusal(void)
{
    static const char *const replies[] = {
        "1 NoMemory", "2 DiskFault", "3 Broken", "4 NotEnoughContainers 7", "5 Full 7 8 9", "6 ReservationShort 7 8", "7 RecordTooLong 7 8",
        "8 LinkInvalid 1:200:3", "9 NoSuchStream", "10 NoSuchArea", "11 Damaged 7 8 9", "12 NoSuchCursor", "13 StreamLimit 7", "14 AreaLimit 7",
        "15 CursorLimit 7", "16 NameInvalid 7", "17 RecordNonexistent 1:200:3", "18 EndOfLog", "19 StartOfLog", "20 NoRestart",
        "21 TailInvalid 1:200:3 1:200:4 1:200:5", "22 ArchiveTailInvalid 1:200:3 1:200:4 ffffffff:fffffe00:1ff", "23 Ephemeral",
        "24 CantShrink 7 8", "25 ContainerLimit 7", "26 PolicyConflict 7 8", "27 PolicyNotInstalled", "28 BadLine 7", "29 Dedicated",
    };
    for (int number = 1; number <= 29; number++) {
        char reply[80];
        clfs_lsn lsn;
        snprintf(reply, sizeof reply, "%d refused %s", number == CLFS_BAD_LINE ? 0 : 1, replies[number - 1]);
        struct clfs *log = start_answering(reply);
        CHECK(clfs_reopen(log, 1, &lsn) == number && !strcmp(clfs_message(log), reply + 2));
        CHECK(clfs_close(log, NULL) == 0);
    }
}

static void replies_that_the_language_does_not_have(void)
{
    static const char *const flushed[] = {
        "1 flushed", "1 flushed 1:0:0 1", "1 flushed 01:0:0", "1 flushed 1:100:0", "1 flushed 1:0:200", "1 flushed 1:0:A",
        "1 flushed 100000000:0:0", "1  flushed 1:0:0", "2 flushed 1:0:0", "0 flushed 1:0:0", "1 lsn 1:0:0", "1 ok", "1", "flushed 1:0:0", "",
        "1 refused", "1 refused 3", "1 refused 3 Full 1 2 3", "1 refused 5 Full 1 2", "1 refused 5 Full 1 2 3 4", "1 refused 5 Full 1 2 03",
        "1 refused 5 Full 1 2 -3", "1 refused 5 Full 1 2 4294967296", "1 refused 8 LinkInvalid 5", "1 refused 0 ", "1 refused 30 Tired",
        "1 refused 28 BadLine 0", "0 refused 3 Broken", "2 refused 3 Broken", "not a log",
    };
    static const char *const found[] = {
        "1 cursor 1", "1 cursor record 1:0:0 data 0:0:0 0:0:0 0:0:0 61", "1 cursor 1 record 1:0:0 note 0:0:0 0:0:0 0:0:0 61",
        "1 cursor 1 record 1:0:0 data 0:0:0 0:0:0 61", "1 cursor 1 record 1:0:0 data 0:0:0 0:0:0 0:0:0 6",
        "1 cursor 1 record 1:0:0 data 0:0:0 0:0:0 0:0:0 6g", "1 cursor 1 record 1:0:0 data 0:0:0 0:0:0 0:0:0 6A",
        "1 cursor 1 record 1:0:0 data 0:0:0 0:0:0 0:0:0 61 61", "1 cursor 1 record 1:0:0 data 0:0:0 0:0:0 0:0:0 ",
    };
    static const char *const lists[] = {
        "1 extents", "1 extents 1", "1 extents 2 1:0-200", "1 extents 1 1:0", "1 extents 1 1:0-0200", "1 extents 1 1-0:200", "1 extents 257",
        "1 extents 0 1:0-200", "1 extents 1 -1:0-200", "1 extents 1 1:0--200", "1 extents 1 1:0-100000000",
    };
    clfs_lsn lsn;
    unsigned cursor;
    struct clfs_found record;
    const struct clfs_extent *extents;
    size_t count;
    for (size_t at = 0; at < sizeof flushed / sizeof *flushed; at++) {
        struct clfs *log = start_answering(flushed[at]);
        CHECK(clfs_reopen(log, 1, &lsn) == CLFS_UNKNOWN_REPLY && clfs_reopen(log, 1, &lsn) == CLFS_UNKNOWN_REPLY);
        CHECK(clfs_close(log, NULL) == CLFS_UNKNOWN_REPLY);
    }
    for (size_t at = 0; at < sizeof found / sizeof *found; at++) {
        struct clfs *log = start_answering(found[at]);
        CHECK(clfs_read(log, 1, 1, 0, CLFS_FORWARD, &cursor, &record) == CLFS_UNKNOWN_REPLY && clfs_close(log, NULL) == CLFS_UNKNOWN_REPLY);
    }
    for (size_t at = 0; at < sizeof lists / sizeof *lists; at++) {
        struct clfs *log = start_answering(lists[at]);
        CHECK(clfs_extents(log, 1, &extents, &count) == CLFS_UNKNOWN_REPLY && clfs_close(log, NULL) == CLFS_UNKNOWN_REPLY);
    }
}

/* A byte 0 in a reply isn't its end. */
static void a_zero_in_a_reply(void)
{
    static const char *const lines[] = {
        "1 flushed 1:0:0\\0000", "1 flushed 1:0:0\\000", "1 flushed 1:0\\000:0", "1 flushed\\000 1:0:0", "1 refused 3 Broken\\000", "input too long\\000",
    };
    char text[128];
    clfs_lsn lsn;
    for (size_t at = 0; at < sizeof lines / sizeof *lines; at++) {
        snprintf(text, sizeof text, "read line\nprintf '%s\\n'\nexit 7\n", lines[at]);
        struct clfs *log = start_shell(text);
        CHECK(clfs_reopen(log, 1, &lsn) == CLFS_UNKNOWN_REPLY && clfs_close(log, NULL) == CLFS_UNKNOWN_REPLY);
    }
    const struct clfs_extent *extents;
    size_t count;
    struct clfs *log = start_shell("read line\nprintf '1 extents 1 1:0-200\\000x\\n'\nread line\n");
    CHECK(clfs_extents(log, 1, &extents, &count) == CLFS_UNKNOWN_REPLY && clfs_close(log, NULL) == CLFS_UNKNOWN_REPLY);
}

static void each_end(void)
{
    static const struct {
        const char *text;
        int answer, status;
    } ends[] = {
        {"read line\nexit 0\n", CLFS_ENDED, 0}, {"read line\nexit 2\n", CLFS_ENDED, 2}, {"read line\nexit 3\n", CLFS_ENDED, 3},
        {"read line\nexit 5\n", CLFS_ENDED, 5}, {"read line\nexit 70\n", CLFS_ENDED, 70},
        {"read line\necho 'input too long'\nexit 7\n", CLFS_ENDED, 7}, {"read line\necho 'input too long'\nexit 0\n", CLFS_UNKNOWN_REPLY, 0},
        {"read line\nprintf '1 flushed 1:0'\nexit 3\n", CLFS_ENDED, 3},
    };
    for (size_t at = 0; at < sizeof ends / sizeof *ends; at++) {
        struct clfs *log = start_shell(ends[at].text);
        clfs_lsn lsn;
        CHECK(clfs_reopen(log, 1, &lsn) == ends[at].answer && clfs_ended(log)->status == ends[at].status && clfs_ended(log)->unanswered == 1);
        CHECK(clfs_close(log, NULL) == ends[at].answer);
    }
}

/* A start of a program of the shell, with the descriptor for its standard error, and what it answers. */
static int start_failing(const char *text, int errors)
{
    struct clfs *log;
    int answer = clfs_start(&log, &(struct clfs_options){.folder = ".", .program = shell(text), .errors = errors});
    CHECK(log && clfs_close(log, NULL) == answer);
    return answer;
}

static void causes_on_standard_error(void)
{
    static const struct {
        const char *text;
        int answer;
    } ends[] = {
        {"echo 'clfs: locked: log: another process has the folder' >&2\necho 'disk fault'\nexit 4\n", CLFS_LOCKED},
        {"echo 'clfs: locked: log: another process has the folder' >&2\nexit 4\n", CLFS_LOCKED},
        {"printf 'building\nclfs: loc' >&2\nsleep 0.1\necho 'ked: log' >&2\necho more >&2\necho 'disk fault'\nexit 4\n", CLFS_LOCKED},
        {"sleep 3 >/dev/null &\nhead -c 20000 /dev/zero >&2\necho >&2\necho 'clfs: locked: log' >&2\nexit 4\n", CLFS_LOCKED},
        {"echo 'clfs: no permission: log/c1: open: denied' >&2\necho 'disk fault'\nexit 4\n", CLFS_NO_PERMISSION},
        {"echo 'clfs: no folder: log: it is not there' >&2\necho 'not a log: no open slot'\nexit 6\n", CLFS_NO_FOLDER},
        {"echo 'clfs: no folder: log: it is not there' >&2\necho 'disk fault'\nexit 4\n", CLFS_NO_FOLDER},
        {"echo 'clfs: log/c1: read: clfs: locked: x' >&2\necho 'disk fault'\nexit 4\n", CLFS_ENDED},
        {"echo 'clfs: locked: log' >&2\necho 'not a log: no open slot'\nexit 6\n", CLFS_ENDED},
        {"echo 'clfs: locked: log' >&2\nexit 5\n", CLFS_ENDED},
        {"echo 'clfs: locked: log' >&2\nkill -9 $$\n", CLFS_ENDED},
    };
    for (size_t at = 0; at < sizeof ends / sizeof *ends; at++) CHECK(start_failing(ends[at].text, -1) == ends[at].answer);
    struct clfs_sizes sizes = {".", shell(ends[0].text), 2, 8, 2, false};
    CHECK(clfs_format(&sizes) == CLFS_LOCKED);
    sizes.program = shell(ends[5].text);
    CHECK(clfs_format(&sizes) == CLFS_NO_FOLDER);
}

/* Descriptor 1 of the caller is a file for a while; it gets the program's standard error, and the replies come as ever. */
static void standard_error_to_descriptor_1(void)
{
    FILE *told = tmpfile();
    char line[128] = "";
    fflush(stdout);
    int before = dup(1);
    dup2(fileno(told), 1);
    int answer = start_failing("echo 'clfs: log/c1: read: failed' >&2\necho 'disk fault'\nexit 4\n", 1);
    dup2(before, 1);
    close(before);
    CHECK(answer == CLFS_ENDED);
    rewind(told);
    CHECK(fgets(line, sizeof line, told) && !strcmp(line, "clfs: log/c1: read: failed\n") && !fgets(line, sizeof line, told));
    fclose(told);
}

/* A program that writes more to its standard error than pipes hold is served, though nobody reads there, or can. */
static void standard_error_that_nobody_reads(void)
{
    static const char text[] = "read line\nhead -c 300000 /dev/zero >&2\necho '0 refused 28 BadLine 0'\nread line\nhead -c 300000 /dev/zero >&2\n"
        "echo '1 flushed 1:0:0'\nread line\nexec >&-\nhead -c 300000 /dev/zero >&2\n";
    int pipes[2];
    for (int closed = 0; closed < 2; closed++) {
        struct clfs *log;
        clfs_lsn lsn;
        CHECK(pipe(pipes) == 0);
        if (closed) close(pipes[0]);
        CHECK(clfs_start(&log, &(struct clfs_options){.folder = ".", .program = shell(text), .errors = pipes[1]}) == 0);
        CHECK(clfs_reopen(log, 1, &lsn) == 0 && clfs_close(log, NULL) == 0);
        close(pipes[1]);
        if (!closed) close(pipes[0]);
    }
}

/* The caller's blocked and ignored signals aren't the program's. */
static void signals_of_the_caller(void)
{
    const char *folder = format(2, 8, 2);
    struct sigaction before, ignored = {.sa_handler = SIG_IGN};
    sigset_t all, mask;
    unsigned stream;
    sigfillset(&all);
    sigprocmask(SIG_SETMASK, &all, &mask);
    sigaction(SIGTERM, &ignored, &before);
    struct clfs *log = start(folder);
    sigaction(SIGTERM, &before, NULL);
    sigprocmask(SIG_SETMASK, &mask, NULL);
    kill(clfs_process(log), SIGTERM);
    CHECK(clfs_open(log, 1, "orders", &stream) == CLFS_ENDED && clfs_ended(log)->signal == SIGTERM);
    CHECK(clfs_close(log, NULL) == CLFS_ENDED);
}

/* A child that the caller forked has copies of the pipes, and closing ends the program all the same. */
static void a_child_of_the_caller(void)
{
    struct clfs *log = start(format(2, 8, 2));
    pid_t child = fork();
    if (child == 0) {
        pause();
        _exit(0);
    }
    CHECK(clfs_close(log, NULL) == 0);
    kill(child, SIGKILL);
    waitpid(child, NULL, 0);
}

static void buffers_for_reading(void)
{
    const char *folder = format(2, 8, 2);
    struct clfs *log;
    CHECK(clfs_start(&log, &(struct clfs_options){.folder = folder, .program = program, .write_buffers = 1, .read_buffers = 4096}) == 0);
    CHECK(clfs_close(log, NULL) == 0);
    CHECK(clfs_start(&log, &(struct clfs_options){.folder = folder, .program = program, .read_buffers = 4097, .errors = -1}) == CLFS_ENDED);
    CHECK(clfs_ended(log)->status == CLFS_STATUS_NO_COMMAND && clfs_close(log, NULL) == CLFS_ENDED);
}

int main(int count, char **words)
{
    if (count != 3 || chdir(words[2])) return 2;
    program = words[1];
    alarm(120);
    the_example_of_the_manual();
    refusals_and_what_cannot_be_said();
    many_lines_under_way();
    both_pipes_full();
    a_killed_program_is_told();
    what_starting_and_formatting_tell();
    each_refusal();
    replies_that_the_language_does_not_have();
    a_zero_in_a_reply();
    each_end();
    causes_on_standard_error();
    standard_error_to_descriptor_1();
    standard_error_that_nobody_reads();
    signals_of_the_caller();
    a_child_of_the_caller();
    buffers_for_reading();
    if (failures == 0) printf("all well\n");
    return failures != 0;
}
