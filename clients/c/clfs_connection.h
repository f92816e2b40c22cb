/* What clfs.c and clfs_program.c ask of clfs_connection.c: a connection to a service, which is a clfs_program without a process. */
#ifndef CLFS_CONNECTION_H
#define CLFS_CONNECTION_H

#include "clfs_program.h"

/* Room for the beginning of a line that the service said, with its zero. */
#define CLFS_SAID 128

/* Comes to the service whose door is in the folder. Answers 0 and the number; CLFS_NO_SERVICE; CLFS_NO_FREE_NUMBER if none came in so many
 * milliseconds, without a limit if they are negative; CLFS_UNKNOWN_REPLY, with what was said; or CLFS_SYSTEM. Nothing is open after these. */
int clfs_visit(struct clfs_program *connection, const char *place, int milliseconds, char said[CLFS_SAID], unsigned *number);

/* As that, by a pair of pipes: CLFS_NO_SERVICE if nobody serves it in time. */
int clfs_pair(struct clfs_program *connection, const char *in, const char *out, int milliseconds, char said[CLFS_SAID]);

/* Ends the input, which ends the visit once all is answered. */
void clfs_leave(struct clfs_program *connection);

/* Closes all of a connection. */
void clfs_let_go(struct clfs_program *connection);

#endif
