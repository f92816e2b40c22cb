/* A bank whose money is moved at random while its log is killed at random: bank PROGRAM FOLDER [KILLS [PLACE]], with a folder that is empty. With PLACE,
 * a folder, each bank is a process of its own, which comes to a service by the door that is made there, and either it or the service is killed.
 *
 * A transfer takes money from one account and gives it to another, each by a record "move ACCOUNT AMOUNT". The records of a transfer are linked:
 * `previous` names its record before, and `undo_next` the record that is to be undone after this one. It ends with "commit", which is flushed, or
 * is undone: by reading back along `undo_next`, with a record "back ACCOUNT AMOUNT" for each "move", and "undone" at the end. A "back" names in
 * `undo_next` what is still to be undone after it, so an undo that was cut short goes on where it was. The room for these records is held from the
 * "move" on, and a commit takes that of "undone", so neither is ever refused because the log is full.
 *
 * A restart area has all balances; what is before it isn't needed any more, so the log goes round in its four containers. After a start the
 * newest restart area is read and then each record after it, forward; transfers without an end are undone.
 */
#define _GNU_SOURCE
#include "clfs.h"

#include <errno.h>
#include <fcntl.h>
#include <signal.h>
#include <stdatomic.h>
#include <stdio.h>
#include <stdlib.h>
#include <string.h>
#include <sys/mman.h>
#include <sys/stat.h>
#include <sys/time.h>
#include <sys/wait.h>
#include <time.h>
#include <unistd.h>

enum { PATIENCE = 10000 };   /* milliseconds */
enum { ACCOUNTS = 100, MONEY = 1000, AT_ONCE = 3, STEPS = 3, A_RECORD = 40, LARGEST = 1000 };

struct bank {
    struct clfs *log;
    unsigned client, stream, area;
    int balances[ACCOUNTS];
};

struct transfer {
    int giver, taker, amount;
    clfs_lsn last;
    int steps;                      /* that were done */
    bool gives_up;                  /* whether it is undone in place of its commit */
    bool committing, committed;
};

#define TRY(call) \
    do { \
        int answer_ = (call); \
        if (answer_) return answer_; \
    } while (0)

static void fail(const char *what)
{
    fprintf(stderr, "bank: %s\n", what);
    exit(1);
}

static int random_below(int limit)
{
    return (int)(random() % limit);
}

/* Appends a record of a transfer. */
static int append(struct bank *bank, struct clfs_draft draft, const char *text, clfs_lsn *lsn)
{
    draft.data = text;
    draft.size = strlen(text);
    return clfs_append(bank->log, bank->client, bank->area, &draft, lsn);
}

/* Goes on with the transfer whose last record is `last`, null for a new one. */
static int move(struct bank *bank, int account, int amount, clfs_lsn *last)
{
    char text[A_RECORD];
    uint32_t holds[2] = {A_RECORD, A_RECORD};
    snprintf(text, sizeof text, "move %d %d", account, amount);
    struct clfs_draft draft = {.previous = *last, .undo_next = *last, .hold = holds, .holds = *last ? 1 : 2};
    TRY(append(bank, draft, text, last));
    bank->balances[account] += amount;
    return 0;
}

/* Ends a transfer of so many moves, in the sector held for its end. It is safe once this returns 0. */
static int commit(struct bank *bank, clfs_lsn last, uint32_t moves)
{
    uint32_t held;
    TRY(append(bank, (struct clfs_draft){.previous = last, .reserved = true, .flush = true}, "commit", &last));
    return clfs_release(bank->log, bank->client, bank->area, moves, &held);
}

/* Reads the record that lies in the handle, as "move ACCOUNT AMOUNT". */
static void read_change(const struct clfs_found *record, char word[8], int *account, int *amount)
{
    char text[A_RECORD + 1];
    snprintf(text, sizeof text, "%.*s", (int)record->size, (const char *)record->data);
    word[0] = 0;
    *account = *amount = 0;
    sscanf(text, "%7s %d %d", word, account, amount);
}

/* Takes a transfer back and ends it. */
static int undo(struct bank *bank, clfs_lsn last, bool reserved)
{
    unsigned cursor;
    struct clfs_found record;
    int answer = clfs_read(bank->log, bank->client, bank->area, last, CLFS_UNDO_NEXT, &cursor, &record);
    for (; !answer; answer = clfs_next(bank->log, bank->client, bank->area, cursor, &record)) {
        char word[8], text[A_RECORD];
        int account, amount;
        read_change(&record, word, &account, &amount);
        if (strcmp(word, "move")) continue;
        bank->balances[account] -= amount;
        snprintf(text, sizeof text, "back %d %d", account, -amount);
        struct clfs_draft draft = {.previous = last, .undo_next = record.undo_next, .reserved = reserved};
        TRY(append(bank, draft, text, &last));
    }
    if (answer != CLFS_START_OF_LOG) return answer;
    TRY(clfs_end(bank->log, bank->client, bank->area, cursor));
    return append(bank, (struct clfs_draft){.previous = last, .reserved = reserved}, "undone", &last);
}

/* Writes down the balances, while no transfer is under way. No record before is needed any more. */
static int checkpoint(struct bank *bank)
{
    char text[LARGEST];
    size_t size = 0;
    struct clfs_info info;
    clfs_lsn lsn;
    for (int at = 0; at < ACCOUNTS; at++) size += (size_t)snprintf(text + size, sizeof text - size, "%d ", bank->balances[at]);
    TRY(clfs_info(bank->log, bank->client, bank->stream, &info));
    return clfs_restart(bank->log, bank->client, bank->area, text, size - 1, info.last ? info.last + 1 : CLFS_NULL, false, &lsn);
}

/* The last records of transfers without an end. */
struct unfinished {
    clfs_lsn last[2 * AT_ONCE];
    int count;
};

/* Does again what a record says. The links tell which transfer it goes on with. */
static void redo(struct bank *bank, const struct clfs_found *record, struct unfinished *unfinished)
{
    char word[8];
    int account, amount, at = 0;
    while (at < unfinished->count && unfinished->last[at] != record->previous) at++;
    if (at < unfinished->count) unfinished->last[at] = unfinished->last[--unfinished->count];
    read_change(record, word, &account, &amount);
    if (strcmp(word, "move") && strcmp(word, "back")) return;
    if (unfinished->count == 2 * AT_ONCE || account < 0 || account >= ACCOUNTS) fail("the log isn't a bank's");
    bank->balances[account] += amount;
    unfinished->last[unfinished->count++] = record->lsn;
}

/* Brings the balances to what the log says. */
static int recover(struct bank *bank)
{
    unsigned cursor;
    struct clfs_found record;
    struct unfinished unfinished = {.count = 0};
    for (int at = 0; at < ACCOUNTS; at++) bank->balances[at] = MONEY;
    int answer = clfs_read_restart(bank->log, bank->client, bank->area, &cursor, &record);
    if (answer == CLFS_NO_RESTART) return checkpoint(bank);
    TRY(answer);
    char text[LARGEST + 1], *rest = text;
    snprintf(text, sizeof text, "%.*s", (int)record.size, (const char *)record.data);
    for (int at = 0; at < ACCOUNTS; at++) bank->balances[at] = (int)strtol(rest, &rest, 10);
    clfs_lsn newest = record.lsn;
    TRY(clfs_end(bank->log, bank->client, bank->area, cursor));
    TRY(clfs_read(bank->log, bank->client, bank->area, newest, CLFS_FORWARD, &cursor, &record));
    while (!(answer = clfs_next(bank->log, bank->client, bank->area, cursor, &record))) redo(bank, &record, &unfinished);
    if (answer != CLFS_END_OF_LOG) return answer;
    TRY(clfs_end(bank->log, bank->client, bank->area, cursor));
    /* Nothing is held after a start, but the room that was held is still free. */
    for (int at = 0; at < unfinished.count; at++) TRY(undo(bank, unfinished.last[at], false));
    return checkpoint(bank);
}

static int open_bank(struct bank *bank, struct clfs *log)
{
    bank->log = log;
    bank->client = clfs_number(log);
    TRY(clfs_open(log, bank->client, "bank", &bank->stream));
    TRY(clfs_area(log, bank->client, bank->stream, LARGEST, 2, &bank->area));
    return recover(bank);
}

static struct transfer new_transfer(void)
{
    struct transfer transfer = {.giver = random_below(ACCOUNTS), .amount = 1 + random_below(100), .gives_up = random_below(5) == 0};
    transfer.taker = (transfer.giver + 1 + random_below(ACCOUNTS - 1)) % ACCOUNTS;
    return transfer;
}

static int step(struct bank *bank, struct transfer *transfer)
{
    switch (transfer->steps++) {
    case 0: return move(bank, transfer->giver, -transfer->amount, &transfer->last);
    case 1: return move(bank, transfer->taker, transfer->amount, &transfer->last);
    default:
        if (transfer->gives_up) return undo(bank, transfer->last, true);
        transfer->committing = true;
        return commit(bank, transfer->last, 2);
    }
}

/* Runs of banks on one log, and what has to be found after the next start. It lies in memory that all banks share, so a bank that is killed leaves it as it
 * is to the next one: the balances that are known change at once, by `current`. */
struct trial {
    const char *program, *folder;
    const char *place;              /* where the service's door is, or NULL */
    pid_t service;
    int known[2][ACCOUNTS];
    atomic_int current;             /* which of both are known */
    struct transfer transfers[AT_ONCE];
    unsigned starts, committed;
};

static bool is_with(const int balances[], const int before[], const struct transfer *transfer)
{
    for (int at = 0; at < ACCOUNTS; at++) {
        int change = !transfer ? 0 : at == transfer->giver ? -transfer->amount : at == transfer->taker ? transfer->amount : 0;
        if (balances[at] != before[at] + change) return false;
    }
    return true;
}

static const int *known(const struct trial *trial) { return trial->known[trial->current]; }

/* From now on the balances are known with this transfer, or are these. */
static void know(struct trial *trial, const int balances[], const struct transfer *transfer)
{
    int *next = trial->known[!trial->current];
    memcpy(next, balances, sizeof trial->known[0]);
    if (transfer) next[transfer->giver] -= transfer->amount;
    if (transfer) next[transfer->taker] += transfer->amount;
    trial->current = !trial->current;
}

/* The money is all there, and so is each transfer whose commit was answered. One whose commit wasn't may be there. */
static void look_at(struct trial *trial, const struct bank *bank)
{
    int sum = 0;
    for (int at = 0; at < ACCOUNTS; at++) sum += bank->balances[at];
    if (sum != ACCOUNTS * MONEY) fail("the sum is wrong");
    bool right = is_with(bank->balances, known(trial), NULL);
    for (int at = 0; at < AT_ONCE; at++) {
        const struct transfer *transfer = &trial->transfers[at];
        if (transfer->committing && !transfer->committed) right = right || is_with(bank->balances, known(trial), transfer);
    }
    if (!right) fail("a transfer is lost");
    know(trial, bank->balances, NULL);
    memset(trial->transfers, 0, sizeof trial->transfers);
    trial->starts++;
}

/* Three transfers at a time, which take turns at random; five times. */
static int transfer_money(struct trial *trial, struct bank *bank)
{
    for (int round = 0; round < 5; round++) {
        for (int at = 0; at < AT_ONCE; at++) trial->transfers[at] = new_transfer();
        for (int left = AT_ONCE * STEPS; left > 0;) {
            struct transfer *transfer = &trial->transfers[random_below(AT_ONCE)];
            if (transfer->steps == STEPS) continue;
            int answer = step(bank, transfer);
            if (answer) return answer;
            left--;
            if (!transfer->committing || transfer->committed) continue;
            know(trial, known(trial), transfer);
            transfer->committed = true;
            trial->committed++;
        }
    }
    return checkpoint(bank);
}

static volatile sig_atomic_t victim;

static void kill_it(int signal)
{
    (void)signal;
    kill(victim, SIGKILL);
}

/* Starts a service over the log, and waits until it is ready. */
static void serve(struct trial *trial)
{
    int output[2];
    char said[6];
    if (pipe2(output, O_CLOEXEC)) fail("no pipe");
    pid_t service = fork();
    if (service < 0) fail("no process");
    if (service == 0) {
        dup2(output[1], STDOUT_FILENO);
        execlp(trial->program, trial->program, trial->folder, "share", "--door", trial->place, "--clients", "1", (char *)NULL);
        _exit(127);
    }
    trial->service = service;
    close(output[1]);
    for (size_t size = 0; size < sizeof said; size++) {
        if (read(output[0], said + size, 1) != 1) fail("the service doesn't start");
    }
    close(output[0]);
}

static void make_door(const char *place)
{
    char door[4096];
    snprintf(door, sizeof door, "%s/door", place);
    if (mkdir(place, S_IRWXU) && errno != EEXIST) fail("the place can't be made");
    if (mkfifo(door, S_IRUSR | S_IWUSR) && errno != EEXIST) fail("the door can't be made");
}

/* Opens the bank, looks at it, and moves money: once, or for as long as there is a log. */
static int use(struct trial *trial, struct clfs *log, bool is_endless)
{
    struct bank bank;
    TRY(open_bank(&bank, log));
    look_at(trial, &bank);
    do TRY(transfer_money(trial, &bank));
    while (is_endless);
    return 0;
}

/* Runs the bank once, or until a kill at some moment within so many microseconds, be it while it is opened, moves money, or undoes. */
static void run(struct trial *trial, long within)
{
    struct clfs *log;
    int answer = clfs_start(&log, &(struct clfs_options){.folder = trial->folder, .program = trial->program});
    if (answer) fail(clfs_message(log));
    victim = clfs_process(log);
    if (within) {
        long after = 1 + random() % within;
        setitimer(ITIMER_REAL, &(struct itimerval){.it_value = {after / 1000000, after % 1000000}}, NULL);
    }
    answer = use(trial, log, within);
    if (within && (answer != CLFS_ENDED || clfs_ended(log)->signal != SIGKILL)) fail(clfs_message(log));
    if (!within && answer) fail(clfs_message(log));
    clfs_close(log, NULL);
}

/* As that, of a bank that comes to the service. It comes once the visit before has ended: until then lines of it may still be done. */
static void visit(struct trial *trial, bool is_endless)
{
    struct clfs *log;
    int answer = clfs_connect(&log, trial->place, PATIENCE);
    bool has_come = !answer;
    if (has_come) answer = use(trial, log, is_endless);
    int wanted = !is_endless ? 0 : has_come ? CLFS_SERVICE_ENDED : CLFS_NO_SERVICE;
    if (answer != wanted) fail(clfs_message(log));
    clfs_close(log, NULL);
}

/* Runs a bank in a process of its own, and kills either that or the service within twice the time, since it comes later than a program is started. */
static void run_as_process(struct trial *trial, long within)
{
    int status;
    bool kills_service = random() % 2;
    useconds_t after = (useconds_t)(random() % (2 * within));
    pid_t bank = fork();
    if (bank < 0) fail("no process");
    if (bank == 0) {
        srandom((unsigned)getpid());
        visit(trial, true);
        _exit(0);
    }
    usleep(after);
    kill(kills_service ? trial->service : bank, SIGKILL);
    if (waitpid(bank, &status, 0) != bank) fail("the bank's process is lost");
    if (kills_service ? status != 0 : !WIFSIGNALED(status)) fail("the bank's process ended otherwise");
    if (!kills_service) return;
    waitpid(trial->service, NULL, 0);
    serve(trial);
}

static long microseconds_now(void)
{
    struct timespec now;
    clock_gettime(CLOCK_MONOTONIC, &now);
    return now.tv_sec * 1000000 + now.tv_nsec / 1000;
}

/* Once without a kill, and then with so many. */
static void run_all(struct trial *trial, int kills)
{
    long began = microseconds_now();
    if (trial->place) visit(trial, false);
    else run(trial, 0);
    long within = microseconds_now() - began;
    for (int kill = 0; kill < kills; kill++) {
        if (trial->place) run_as_process(trial, within);
        else run(trial, within);
    }
}

int main(int count, char **words)
{
    if (count < 3) fail("usage: bank PROGRAM FOLDER [KILLS [PLACE]]");
    int kills = count > 3 ? atoi(words[3]) : 100;
    struct trial *trial = mmap(NULL, sizeof *trial, PROT_READ | PROT_WRITE, MAP_SHARED | MAP_ANONYMOUS, -1, 0);
    if (trial == MAP_FAILED) fail("no memory");
    trial->program = words[1];
    trial->folder = words[2];
    trial->place = count > 4 ? words[4] : NULL;
    for (int at = 0; at < ACCOUNTS; at++) trial->known[0][at] = MONEY;
    srandom((unsigned)time(NULL));
    sigaction(SIGALRM, &(struct sigaction){.sa_handler = kill_it, .sa_flags = SA_RESTART}, NULL);
    if (clfs_format(&(struct clfs_sizes){trial->folder, trial->program, 8, 64, 4, false})) fail("the log can't be made");
    if (trial->place) make_door(trial->place);
    if (trial->place) serve(trial);
    run_all(trial, kills);
    if (trial->place) kill(trial->service, SIGKILL);
    printf("killed %d times%s; %u transfers, and the sum was right after each of %u starts\n", kills, trial->place ? " over a service" : "", trial->committed,
           trial->starts);
    return 0;
}
