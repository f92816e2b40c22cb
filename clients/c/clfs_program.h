/* What clfs.c asks of clfs_program.c: the program, with the pipes to its input and from its output and its standard error; or a connection to a
 * service, which clfs_connection.c makes. */
#ifndef CLFS_PROGRAM_H
#define CLFS_PROGRAM_H

#include "clfs.h"

struct clfs_program {
    bool is_connection; /* which has no process */
    pid_t process;
    int failed;         /* the answer to every call from now on, or 0 */
    int input, output;  /* this side's ends, or -1 */
    int errors;         /* what its standard error is read from, or -1 once that has ended */
    int pass_to;        /* where its standard error goes on to, or -1 */
    bool is_stuck;      /* whether a piece for there was left out, and none was taken since */
    int cause;          /* CLFS_LOCKED, CLFS_NO_FOLDER or CLFS_NO_PERMISSION, if a line of its standard error began so; else 0 */
    size_t known;       /* the bytes of `line` that are there */
    char line[24];      /* the beginning of the line that its standard error is in */
    bool has_left;      /* whether this side has ended the input of a connection */
    int guard, door;    /* of a connection that waits for its number, or -1 */
    struct clfs_program *next;  /* in the list of this process's connections */
};

/* Nothing of a program is open. */
#define CLFS_NOTHING_OPEN ((struct clfs_program){.input = -1, .output = -1, .errors = -1, .pass_to = -1, .guard = -1, .door = -1})

/* Starts a program. Its standard error goes on to the descriptor `errors`; to the caller's own standard error if that is 0, and nowhere if it
 * is negative. Answers 0, or an error of the system, and then nothing is left open. */
int clfs_launch(struct clfs_program *program, char *const words[], int errors);

/* Waits for what is wanted, POLLIN for output and POLLOUT for room in the input, or for a piece of standard error, which is handled. Answers what
 * there is of it, perhaps 0, or -1. The end of the output counts as output. */
int clfs_ready(struct clfs_program *program, int wanted);

/* Writes as much as there is room for. As write, but no signal is raised. */
ssize_t clfs_write(struct clfs_program *program, const char *bytes, size_t size);

/* Ends the input. False if a signal came in between. */
bool clfs_end_input(struct clfs_program *program);

/* Kills the program. A connection ends when its pipes are closed. */
void clfs_stop(struct clfs_program *program);

/* Waits for the end of the program, notes its status or signal, and closes the pipes. Of a connection the status is 0 if this side has ended it, else
 * -1. */
void clfs_reap(struct clfs_program *program, struct clfs_ending *ending);

/* CLFS_LOCKED, CLFS_NO_FOLDER or CLFS_NO_PERMISSION if the program has ended for that; CLFS_SERVICE_ENDED if a connection's service has; else
 * CLFS_ENDED. */
int clfs_answer_of_end(const struct clfs_program *program, const struct clfs_ending *ending);

/* What clfs_connection.c asks, too. */

/* Moves a descriptor out of the way of the standard streams. */
int clfs_above_standard(int from);

/* A write that raises no signal, though nobody reads there. (On Linux the mask is that of the thread alone.) */
ssize_t clfs_write_silently(int to, const char *bytes, size_t size);

/* Closes a descriptor, unless it is -1, which it is from then on. */
void clfs_close_one(int *descriptor);

void clfs_close_pipes(struct clfs_program *program);

#endif
