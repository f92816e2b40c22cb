/* See clfs_reply.h. */
#include "clfs_reply.h"

#include <stdio.h>
#include <string.h>

const char clfs_digits[] = "0123456789abcdef";

static char *hex_text(uint32_t number, char *at)
{
    int shift = 28;
    while (shift > 0 && number >> shift == 0) shift -= 4;
    for (; shift >= 0; shift -= 4) *at++ = clfs_digits[number >> shift & 15];
    return at;
}

void clfs_text_of_lsn(clfs_lsn lsn, char text[CLFS_LSN_ROOM])
{
    char *at = hex_text((uint32_t)(lsn >> 32), text);
    *at++ = ':';
    at = hex_text((uint32_t)lsn & ~(uint32_t)511, at);
    *at++ = ':';
    at = hex_text((uint32_t)lsn & 511, at);
    *at = 0;
}

/* Each of these takes the next word and says whether it is in its form. */

struct words {
    char *at;   /* NULL after the last one */
    char *end;
};

static bool take_word(struct words *words, char **word, size_t *length)
{
    if (!words->at) return false;
    *word = words->at;
    char *space = memchr(words->at, ' ', (size_t)(words->end - words->at));
    *length = (size_t)((space ? space : words->end) - *word);
    words->at = space ? space + 1 : NULL;
    return true;
}

static bool take_text(struct words *words, const char *text)
{
    char *word;
    size_t length;
    return take_word(words, &word, &length) && length == strlen(text) && !memcmp(word, text, length);
}

static bool take_number(struct words *words, uint32_t *number)
{
    char *word;
    size_t length;
    if (!take_word(words, &word, &length) || length == 0 || length > 10 || (word[0] == '0' && length > 1)) return false;
    uint64_t value = 0;
    for (size_t at = 0; at < length; at++) {
        if (word[at] < '0' || word[at] > '9') return false;
        value = value * 10 + (uint64_t)(word[at] - '0');
    }
    *number = (uint32_t)value;
    return value <= UINT32_MAX;
}

/* One more than the value of a lower-case hexadecimal digit, and 0 for other bytes. */
static const unsigned char digits[256] = {
    ['0'] = 1, ['1'] = 2, ['2'] = 3, ['3'] = 4, ['4'] = 5, ['5'] = 6, ['6'] = 7, ['7'] = 8, ['8'] = 9, ['9'] = 10,
    ['a'] = 11, ['b'] = 12, ['c'] = 13, ['d'] = 14, ['e'] = 15, ['f'] = 16,
};

/* The value of a hexadecimal digit, or -1. */
static int digit(char byte)
{
    return digits[(unsigned char)byte] - 1;
}

/* A hexadecimal number at the start of a text, up to the byte `end`. Gives what stands after that, or NULL. */
static char *hexadecimal(char *text, char end, uint32_t *number)
{
    size_t length = 0;
    for (*number = 0; length < 8 && digit(text[length]) >= 0; length++) *number = *number << 4 | (uint32_t)digit(text[length]);
    bool right = length > 0 && (text[0] != '0' || length == 1) && text[length] == end;
    return right ? text + length + 1 : NULL;
}

/* What ends the word: the space after it, or the zero at the end of the line. A zero may stand inside the word, too. */
static char end_of(const struct words *words)
{
    return words->at ? ' ' : 0;
}

static bool take_lsn(struct words *words, clfs_lsn *lsn)
{
    char *at;
    size_t length;
    uint32_t container, offset, sequence;
    if (!take_word(words, &at, &length)) return false;
    char *after = at + length + 1;
    at = hexadecimal(at, ':', &container);
    if (at) at = hexadecimal(at, ':', &offset);
    if (at) at = hexadecimal(at, end_of(words), &sequence);
    if (at != after || offset % 512 || sequence > 511) return false;
    *lsn = (clfs_lsn)container << 32 | offset | sequence;
    return true;
}

/* Data, which are decoded where they lie. */
static bool take_data(struct words *words, struct clfs_found *record)
{
    char *word;
    size_t length;
    if (!take_word(words, &word, &length) || length == 0) return false;
    record->data = word;
    record->size = 0;
    if (length == 1 && word[0] == '-') return true;
    if (length % 2) return false;
    for (size_t at = 0; at < length; at++) {
        if (digit(word[at]) < 0) return false;
    }
    for (size_t at = 0; at < length; at += 2) word[record->size++] = (char)(digit(word[at]) << 4 | digit(word[at + 1]));
    return true;
}

static bool take_record(struct words *words, struct clfs_found *record)
{
    char *kind;
    size_t length;
    if (!take_text(words, "record") || !take_lsn(words, &record->lsn) || !take_word(words, &kind, &length)) return false;
    record->is_restart = length == 7 && !memcmp(kind, "restart", 7);
    if (!record->is_restart && (length != 4 || memcmp(kind, "data", 4))) return false;
    return take_lsn(words, &record->previous) && take_lsn(words, &record->undo_next) && take_lsn(words, &record->base)
        && take_data(words, record);
}

static bool take_extents(struct words *words, struct clfs_extent *extents, struct clfs_reply *reply)
{
    uint32_t count;
    if (!take_text(words, "extents") || !take_number(words, &count) || count > CLFS_MOST_EXTENTS) return false;
    for (uint32_t at = 0; at < count; at++) {
        char *word;
        size_t length;
        struct clfs_extent *extent = &extents[at];
        if (!take_word(words, &word, &length)) return false;
        char *after = word + length + 1;
        word = hexadecimal(word, ':', &extent->container);
        if (word) word = hexadecimal(word, '-', &extent->low);
        if (word) word = hexadecimal(word, end_of(words), &extent->high);
        if (word != after) return false;
    }
    reply->extents = extents;
    reply->extent_count = count;
    return true;
}

static bool take_info(struct words *words, struct clfs_info *info)
{
    if (!take_text(words, "info") || !take_text(words, "containers") || !take_number(words, &info->containers)
        || !take_text(words, "free") || !take_number(words, &info->free_containers)
        || !take_text(words, "size") || !take_number(words, &info->container_sectors)
        || !take_text(words, "sectors") || !take_number(words, &info->free_sectors)
        || !take_text(words, "reserved") || !take_number(words, &info->reserved)
        || !take_text(words, "base") || !take_lsn(words, &info->base)
        || !take_text(words, "last") || !take_lsn(words, &info->last)
        || !take_text(words, "flushed") || !take_lsn(words, &info->flushed)
        || !take_text(words, "restart") || !take_lsn(words, &info->restart) || !take_text(words, "archive")) return false;
    struct words before = *words;
    info->archive_tail = CLFS_NULL;
    info->archiving = !take_text(words, "off");
    if (!info->archiving) return true;
    *words = before;
    return take_lsn(words, &info->archive_tail);
}

/* Each refusal: its name, and its fields, n for a number and l for an LSN. */
static const struct {
    const char *name, *fields;
} refusals[] = {
    {"", ""}, {"NoMemory", ""}, {"DiskFault", ""}, {"Broken", ""}, {"NotEnoughContainers", "n"}, {"Full", "nnn"}, {"ReservationShort", "nn"},
    {"RecordTooLong", "nn"}, {"LinkInvalid", "l"}, {"NoSuchStream", ""}, {"NoSuchArea", ""}, {"Damaged", "nnn"}, {"NoSuchCursor", ""},
    {"StreamLimit", "n"}, {"AreaLimit", "n"}, {"CursorLimit", "n"}, {"NameInvalid", "n"}, {"RecordNonexistent", "l"}, {"EndOfLog", ""},
    {"StartOfLog", ""}, {"NoRestart", ""}, {"TailInvalid", "lll"}, {"ArchiveTailInvalid", "lll"}, {"Ephemeral", ""}, {"CantShrink", "nn"},
    {"ContainerLimit", "n"}, {"PolicyConflict", "nn"}, {"PolicyNotInstalled", ""}, {"BadLine", "n"}, {"Dedicated", ""},
};

static bool take_refusal(struct words *words, struct clfs_refusal *refusal)
{
    uint32_t number;
    if (!take_text(words, "refused") || !take_number(words, &number) || number == 0) return false;
    if (number >= sizeof refusals / sizeof *refusals || !take_text(words, refusals[number].name)) return false;
    refusal->number = (int)number;
    const char *fields = refusals[number].fields;
    for (size_t at = 0; fields[at]; at++) {
        if (!(fields[at] == 'n' ? take_number(words, &refusal->numbers[at]) : take_lsn(words, &refusal->lsns[at]))) return false;
    }
    return !words->at;
}

static bool take_named_number(struct words *words, const char *name, struct clfs_reply *reply)
{
    return take_text(words, name) && take_number(words, &reply->number);
}

static bool take_named_lsn(struct words *words, const char *name, struct clfs_reply *reply)
{
    return take_text(words, name) && take_lsn(words, &reply->lsn);
}

static bool take_found(struct words *words, bool with_cursor, struct clfs_reply *reply)
{
    if (with_cursor && !take_named_number(words, "cursor", reply)) return false;
    if (!take_record(words, &reply->record)) return false;
    reply->lsn = reply->record.lsn;
    return true;
}

static bool take_reply(struct words *words, enum clfs_kind kind, struct clfs_answered into)
{
    struct clfs_reply *reply = into.reply;
    switch (kind) {
    case STREAM: return take_named_number(words, "stream", reply);
    case AREA: return take_named_number(words, "area", reply);
    case OK: return take_text(words, "ok");
    case HELD: return take_named_number(words, "held", reply);
    case SECTORS: return take_named_number(words, "sectors", reply);
    case CONTAINERS: return take_named_number(words, "containers", reply);
    case LSN: return take_named_lsn(words, "lsn", reply);
    case FLUSHED: return take_named_lsn(words, "flushed", reply);
    case BASE: return take_named_lsn(words, "base", reply);
    case TAIL: return take_named_lsn(words, "tail", reply);
    case FOUND: return take_found(words, true, reply);
    case RECORD: return take_found(words, false, reply);
    case EXTENTS: return take_extents(words, into.extents, reply);
    case INFO: return take_info(words, &reply->info);
    case NO_REPLY: break;
    }
    return false;
}

int clfs_judge(char *line, size_t length, struct clfs_waiting waiting, struct clfs_answered into)
{
    struct words words = {line, line + length};
    uint32_t client;
    if (!take_number(&words, &client)) return CLFS_UNKNOWN_REPLY;
    struct words after_client = words;
    if (take_refusal(&words, into.refusal)) {
        int number = into.refusal->number;
        return client == (number == CLFS_BAD_LINE ? 0 : waiting.client) ? number : CLFS_UNKNOWN_REPLY;
    }
    words = after_client;
    bool right = client == waiting.client && take_reply(&words, waiting.kind, into) && !words.at;
    return right ? 0 : CLFS_UNKNOWN_REPLY;
}

int clfs_status_after(const char *line, size_t length, struct clfs_ending *ending)
{
    char again[80];
    if (strlen(line) != length) return -1;
    if (!strncmp(line, "usage: clfs ", 12)) return CLFS_STATUS_NO_COMMAND;
    if (!strcmp(line, "disk fault")) return CLFS_STATUS_DISK_FAILED;
    if (!strcmp(line, "not a log: no open slot")) return CLFS_STATUS_NOT_A_LOG;
    if (!strcmp(line, "input too long")) return CLFS_STATUS_INPUT_TOO_LONG;
    if (!strcmp(line, "a log is there")) return CLFS_STATUS_LOG_EXISTS;
    unsigned container, offset, at;
    if (sscanf(line, "not a log: container %u offset %u byte %u", &container, &offset, &at) != 3) return -1;
    snprintf(again, sizeof again, "not a log: container %u offset %u byte %u", container, offset, at);
    if (strcmp(line, again)) return -1;
    *ending = (struct clfs_ending){.has_place = true, .container = container, .offset = offset, .at = at};
    return CLFS_STATUS_NOT_A_LOG;
}

const char *clfs_answer_text(int answer)
{
    switch (answer) {
    case CLFS_UNSAYABLE: return "no line of the language can say it";
    case CLFS_BUSY: return "lines are under way: take a reply first";
    case CLFS_NOTHING: return "no line is under way";
    case CLFS_LOCKED: return "locked: another process has the folder";
    case CLFS_NO_FOLDER: return "there is no such folder";
    case CLFS_NO_PERMISSION: return "no permission for the folder or a file of it";
    case CLFS_NO_SERVICE: return "nobody serves there";
    case CLFS_NO_FREE_NUMBER: return "the service has given no number in time";
    case CLFS_OTHER_PROCESS: return "the connection is that of the process from which this one was forked";
    default: return "done";
    }
}

void clfs_refusal_text(const struct clfs_refusal *refusal, char *text, size_t room)
{
    const char *fields = refusals[refusal->number].fields;
    int size = snprintf(text, room, "refused %d %s", refusal->number, refusals[refusal->number].name);
    for (size_t at = 0; fields[at] && (size_t)size < room; at++) {
        char lsn[CLFS_LSN_ROOM];
        clfs_text_of_lsn(refusal->lsns[at], lsn);
        char *to = text + size;
        size_t left = room - (size_t)size;
        size += fields[at] == 'n' ? snprintf(to, left, " %u", refusal->numbers[at]) : snprintf(to, left, " %s", lsn);
    }
}

void clfs_ending_text(const struct clfs_ending *ending, char *text, size_t room)
{
    static const char *const causes[] = {
        "", ": it has no such command or option", ": it couldn't read its input", ": it couldn't write its replies", ": the disk failed",
        ": it found no memory", ": the folder has no log", ": it has taken as many bytes of input as it may", ": a log is there",
    };
    if (ending->signal) {
        snprintf(text, room, "the program was ended by signal %d (lines without a reply: %u)", ending->signal, ending->unanswered);
    } else if (ending->has_place) {
        snprintf(text, room, "not a log: container %u offset %u byte %u", ending->container, ending->offset, ending->at);
    } else {
        const char *cause = ending->status > 0 && ending->status < 9 ? causes[ending->status] : "";
        snprintf(text, room, "the program ended with status %d%s (lines without a reply: %u)", ending->status, cause, ending->unanswered);
    }
}
