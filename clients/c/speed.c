/* Measures commits over the client: speed serve FOLDER PROGRAM COUNT, speed share PLACE PROGRAMS COUNT, speed visit PLACE PROGRAMS COUNT
 *
 * A commit is a record of 100 bytes and its flush, sent at once, one after the other. `serve` has a program of its own, `share` so many processes with
 * a connection each, `visit` the same with a connection, an area and a close for each commit. It prints the commits a second, and in microseconds how
 * long half of them take at most, 99 of a hundred, and the longest. */
#define _GNU_SOURCE
#include "clfs.h"
#include <stdio.h>
#include <stdlib.h>
#include <string.h>
#include <sys/mman.h>
#include <sys/wait.h>
#include <time.h>
#include <unistd.h>

#define SIZE 100
#define PATIENCE 60000

static double now(void)
{
    struct timespec time;
    clock_gettime(CLOCK_MONOTONIC, &time);
    return time.tv_sec * 1e6 + time.tv_nsec / 1e3;
}

static void check(int answer, struct clfs *log, const char *what)
{
    if (!answer) return;
    fprintf(stderr, "speed: %s: %s\n", what, log ? clfs_message(log) : "no log");
    exit(1);
}

static unsigned begin(struct clfs *log, unsigned client)
{
    unsigned stream, area;
    check(clfs_open(log, client, "speed", &stream), log, "open");
    check(clfs_area(log, client, stream, SIZE, 1, &area), log, "area");
    return area;
}

static void commit(struct clfs *log, unsigned client, unsigned area)
{
    char data[SIZE];
    clfs_lsn lsn;
    memset(data, 'x', SIZE);
    check(clfs_append(log, client, area, &(struct clfs_draft){.data = data, .size = SIZE, .flush = true}, &lsn), log, "append");
}

/* The times of so many commits over a log that is open. */
static void measure(struct clfs *log, unsigned client, double *times, int count)
{
    unsigned area = begin(log, client);
    for (int i = 0; i < count; i++) {
        double start = now();
        commit(log, client, area);
        times[i] = now() - start;
    }
}

static void measure_visits(const char *place, double *times, int count)
{
    for (int i = 0; i < count; i++) {
        struct clfs *log = NULL;
        double start = now();
        check(clfs_connect(&log, place, PATIENCE), log, "connect");
        commit(log, clfs_number(log), begin(log, clfs_number(log)));
        check(clfs_close(log, NULL), NULL, "close");
        times[i] = now() - start;
    }
}

/* One of the processes. */
static void run(const char *kind, const char *place, double *times, int count)
{
    struct clfs *log = NULL;
    if (!strcmp(kind, "visit")) {
        measure_visits(place, times, count);
        return;
    }
    check(clfs_connect(&log, place, PATIENCE), log, "connect");
    measure(log, clfs_number(log), times, count);
    check(clfs_close(log, NULL), NULL, "close");
}

static int order(const void *left, const void *right)
{
    double difference = *(const double *)left - *(const double *)right;
    return (difference > 0) - (difference < 0);
}

static void tell(double *times, int count, double all)
{
    qsort(times, count, sizeof *times, order);
    printf("%.0f %.0f %.0f %.0f\n", count / all * 1e6, times[count / 2], times[(int)(count * 0.99)], times[count - 1]);
}

/* The processes together; the time is that from the first one's start to the last one's end. */
static int run_all(const char *kind, const char *place, int programs, int count)
{
    size_t all = (size_t)programs * count;
    double *times = mmap(NULL, all * sizeof *times, PROT_READ | PROT_WRITE, MAP_SHARED | MAP_ANONYMOUS, -1, 0);
    if (times == MAP_FAILED) return 1;
    double start = now();
    for (int i = 0; i < programs; i++) {
        pid_t child = fork();
        if (child < 0) return 1;
        if (child == 0) {
            run(kind, place, times + (size_t)i * count, count);
            _exit(0);
        }
    }
    for (int i = 0; i < programs; i++) {
        int status;
        if (wait(&status) < 0 || status) return 1;
    }
    tell(times, (int)all, now() - start);
    return 0;
}

static int run_alone(const char *folder, const char *program, int count)
{
    struct clfs *log = NULL;
    double *times = malloc(count * sizeof *times);
    if (!times) return 1;
    check(clfs_start(&log, &(struct clfs_options){.folder = folder, .program = program}), log, "start");
    double start = now();
    measure(log, 1, times, count);
    tell(times, count, now() - start);
    free(times);
    return clfs_close(log, NULL);
}

int main(int count, char *words[])
{
    if (count != 5 || atoi(words[4]) < 1) return 2;
    if (!strcmp(words[1], "serve")) return run_alone(words[2], words[3], atoi(words[4]));
    return run_all(words[1], words[2], atoi(words[3]), atoi(words[4]));
}
