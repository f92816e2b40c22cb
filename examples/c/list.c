/* Lists all records of a container's file: list FOLDER N, where N is the number of the file cN.
 *
 * It reads the base file and cN and has libclfs_read.a judge them. It prints a line for each block and each record, in the order of the
 * file, and at a wrong byte where that is. Its status is 0, 6 at a wrong byte, 2 where it is called otherwise, 4 where a file can't be read
 * or isn't one of the log's, and 3 where not all could be written. */
#include "clfs_read.h"

#include <inttypes.h>
#include <stdio.h>
#include <stdlib.h>

enum { LISTED = 0, CALLED_WRONGLY = 2, UNWRITTEN = 3, UNREADABLE = 4, DAMAGED = 6 };

struct bytes {
    uint8_t *at;
    size_t len;
};

/* All bytes of a file of the folder; at is null where it can't be read. */
static struct bytes read_file(const char *folder, const char *name)
{
    struct bytes none = {NULL, 0};
    char path[4096];
    if (snprintf(path, sizeof path, "%s/%s", folder, name) >= (int)sizeof path)
        return none;
    FILE *file = fopen(path, "rb");
    if (!file)
        return none;
    struct bytes all = none;
    long len = fseek(file, 0, SEEK_END) == 0 ? ftell(file) : -1;
    if (len >= 0 && fseek(file, 0, SEEK_SET) == 0) {
        all.at = malloc((size_t)len + 1);
        all.len = (size_t)len;
        if (all.at && fread(all.at, 1, all.len, file) != all.len) {
            free(all.at);
            all = none;
        }
    }
    fclose(file);
    return all;
}

static void print_lsn(uint64_t lsn)
{
    uint8_t text[CLFS_MOST_LSN_TEXT];
    size_t len = clfs_lsn_text(lsn, text, sizeof text);
    printf(" %.*s", (int)len, (const char *)text);
}

static void print_data(const uint8_t *data, uint32_t len)
{
    printf(len ? " " : " -");
    for (uint32_t i = 0; i < len; i++)
        printf("%02x", data[i]);
    printf("\n");
}

static void print_record(const struct clfs_record *record, const uint8_t *payload)
{
    printf("record");
    print_lsn(record->lsn);
    printf(" %u %s", record->stream, record->is_restart ? "restart" : "data");
    print_lsn(record->previous);
    print_lsn(record->undo_next);
    print_lsn(record->new_base);
    print_data(payload + record->data_at, record->data_len);
}

static int damage(uint64_t start, uint32_t byte)
{
    struct clfs_parts parts = clfs_lsn_parts(start);
    printf("damage container %u offset %u byte %u\n", parts.container, parts.offset, byte);
    return DAMAGED;
}

/* Prints the records of a block whose used payload this is. */
static int list_records(const struct clfs_base *base, uint64_t start, const struct clfs_block *block, const uint8_t *payload)
{
    struct clfs_record record;
    uint32_t at = CLFS_BLOCK_HEADER;
    uint32_t taken = 0;
    for (;;) {
        uint32_t answer =
            clfs_record_next(start + taken, block->records - taken, base->streams, payload, block->used, at, &record);
        if (answer == CLFS_END)
            return LISTED;
        if (answer != CLFS_OK)
            return damage(start, record.bad_at);
        print_record(&record, payload);
        at = record.next_at;
        taken++;
    }
}

/* Prints a block and its records, and answers at *sectors how many it has: none where the gate is closed. */
static int list_block(const struct clfs_base *base, uint64_t start, const uint8_t *bytes, size_t len, uint32_t *sectors)
{
    static uint8_t payload[CLFS_MOST_PAYLOAD];
    struct clfs_shape shape = {base->block_sectors, base->container_sectors};
    struct clfs_block block;
    uint32_t bad_at = 0;
    uint32_t answer = clfs_block_check(&shape, start, bytes, len, &block);
    *sectors = block.sectors;
    if (answer == CLFS_CLOSED)
        return LISTED;
    if (answer != CLFS_OK)
        return damage(start, block.bad_at);
    if (!clfs_block_gather(bytes, len, block.used, payload, sizeof payload))
        return damage(start, 8);
    printf("block");
    print_lsn(start);
    printf(" sectors %u records %u used %u\n", block.sectors, block.records, block.used);
    int listed = list_records(base, start, &block, payload);
    if (listed != LISTED)
        return listed;
    if (clfs_block_rest(&block, bytes, len, &bad_at) != CLFS_OK)
        return damage(start, bad_at);
    return LISTED;
}

/* Prints the blocks of a container's file. */
static int list_container(const struct clfs_base *base, uint32_t container, struct bytes file)
{
    size_t size = (size_t)CLFS_SECTOR_BYTES * base->container_sectors;
    size_t at = 0;
    while (at < size) {
        struct clfs_parts place = {container, (uint32_t)at, 0};
        uint64_t start = 0;
        uint32_t sectors = 0;
        size_t left = file.len > at ? file.len - at : 0;
        clfs_lsn_create(&place, &start);
        int listed = list_block(base, start, left ? file.at + at : file.at, left < size - at ? left : size - at, &sectors);
        if (listed != LISTED || sectors == 0)
            return listed;
        at += (size_t)CLFS_SECTOR_BYTES * sectors;
    }
    return LISTED;
}

/* The id of the listed container that a file holds, or 0. */
static uint32_t container_of(const struct clfs_base *base, struct bytes file, unsigned long number)
{
    for (uint16_t i = 0; i < base->listed; i++) {
        uint16_t other = 0;
        if (clfs_base_file(file.at, file.len, base->slot, i, &other) && other == number)
            return base->first + i;
    }
    return 0;
}

static void print_streams(const struct clfs_base *base, struct bytes file)
{
    struct clfs_stream stream;
    for (uint16_t i = 0; clfs_base_stream(file.at, file.len, base->slot, i, &stream); i++) {
        const uint8_t *name = file.at + (size_t)CLFS_SLOT_BYTES * base->slot + stream.name_at;
        printf("stream %u base", i + 1);
        print_lsn(stream.base);
        printf(" %.*s\n", stream.name_len, (const char *)name);
    }
}

int main(int count, char **words)
{
    char *end = NULL;
    unsigned long number = count == 3 ? strtoul(words[2], &end, 10) : 0;
    if (number < 1 || number > 65535 || *end) {
        fprintf(stderr, "usage: list FOLDER N\n");
        return CALLED_WRONGLY;
    }
    char name[8];
    snprintf(name, sizeof name, "c%lu", number);
    struct bytes base_file = read_file(words[1], "base");
    struct bytes file = read_file(words[1], name);
    struct clfs_base base;
    int status = UNREADABLE;
    if (!base_file.at || !file.at) {
        fprintf(stderr, "list: the base file or %s can't be read\n", name);
    } else if (clfs_base_check(base_file.at, base_file.len, &base) != CLFS_OK) {
        fprintf(stderr, "list: no base copy: slot %u byte %u\n", base.slot, base.bad_at);
        status = DAMAGED;
    } else if (container_of(&base, base_file, number) == 0) {
        fprintf(stderr, "list: no listed container is in %s\n", name);
    } else {
        print_streams(&base, base_file);
        status = list_container(&base, container_of(&base, base_file, number), file);
    }
    free(base_file.at);
    free(file.at);
    if (fflush(stdout) || ferror(stdout)) {
        perror("list: standard output");
        status = UNWRITTEN;
    }
    return status;
}
