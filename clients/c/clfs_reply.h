/* What clfs.c asks of clfs_reply.c: a reply judged strictly, where it lies. What the language doesn't have is never guessed. */
#ifndef CLFS_REPLY_H
#define CLFS_REPLY_H

#include "clfs.h"

#define CLFS_MOST_EXTENTS 256

/* The kinds of replies, by which each call says what it wants. */
enum clfs_kind {
    NO_REPLY, STREAM, AREA, OK, HELD, SECTORS, LSN, FLUSHED, FOUND, RECORD, BASE, TAIL, EXTENTS, CONTAINERS, INFO
};

/* A line under way: its client, the reply that it wants, and whether the next line is its flush, with which it is answered. */
struct clfs_waiting {
    uint32_t client;
    enum clfs_kind kind;
    bool has_flush;
};

/* What a reply is read into. */
struct clfs_answered {
    struct clfs_reply *reply;
    struct clfs_refusal *refusal;
    struct clfs_extent *extents;    /* room for CLFS_MOST_EXTENTS */
};

/* The answer that a line gives to the one under way, 0 or a refusal; CLFS_UNKNOWN_REPLY if it is no reply to that. The line ends with a zero. Data
 * are decoded where they lie. */
int clfs_judge(char *line, size_t length, struct clfs_waiting waiting, struct clfs_answered into);

/* The status with which the program ends after this line, which ends with a zero, or -1 if it isn't such a line. Tells the ending where the line
 * does. */
int clfs_status_after(const char *line, size_t length, struct clfs_ending *ending);

/* An answer without fields, a refusal, and an ending, in words. */
const char *clfs_answer_text(int answer);
void clfs_refusal_text(const struct clfs_refusal *refusal, char *text, size_t room);
void clfs_ending_text(const struct clfs_ending *ending, char *text, size_t room);

/* The lower-case hexadecimal digits. */
extern const char clfs_digits[];

#endif
