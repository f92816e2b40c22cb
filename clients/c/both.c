/* A program with both headers, clfs.h and clfs_read.h: it writes a record through the client, and reads it from the files by libclfs_read.a.
 * both PROGRAM FOLDER, with a folder that isn't there. */
#include "clfs.h"
#include "clfs_read.h"

#include <stdio.h>
#include <string.h>

static uint8_t base_file[2 * CLFS_SLOT_BYTES], container_file[64 * CLFS_SECTOR_BYTES], payload[CLFS_MOST_PAYLOAD];

static size_t read_file(const char *folder, const char *name, uint8_t *bytes, size_t room)
{
    char path[4096];
    snprintf(path, sizeof path, "%s/%s", folder, name);
    FILE *file = fopen(path, "rb");
    size_t size = file ? fread(bytes, 1, room, file) : 0;
    if (file) fclose(file);
    return size;
}

/* Makes a log, and writes a record into it. */
static int write_record(const char *program, const char *folder, const char *data, clfs_lsn *lsn)
{
    struct clfs *log;
    unsigned stream, area = 0;
    int answer = clfs_format(&(struct clfs_sizes){folder, program, 8, 64, 4, false});
    if (answer) return answer;
    answer = clfs_start(&log, &(struct clfs_options){.folder = folder, .program = program});
    if (!answer) answer = clfs_open(log, 1, "orders", &stream);
    if (!answer) answer = clfs_area(log, 1, stream, 1000, 1, &area);
    if (!answer) answer = clfs_append(log, 1, area, &(struct clfs_draft){.data = data, .size = strlen(data), .flush = true}, lsn);
    int closed = clfs_close(log, NULL);
    return answer ? answer : closed;
}

/* Whether the first record of the log's files has this LSN and these data. */
static bool has_record(const char *folder, clfs_lsn lsn, const char *data)
{
    struct clfs_base base;
    struct clfs_block block;
    struct clfs_record record;
    struct clfs_parts place = {1, 0, 0};
    uint64_t start;
    size_t base_size = read_file(folder, "base", base_file, sizeof base_file);
    size_t size = read_file(folder, "c1", container_file, sizeof container_file);
    if (clfs_base_check(base_file, base_size, &base) != CLFS_OK || !clfs_lsn_create(&place, &start)) return false;
    struct clfs_shape shape = {base.block_sectors, base.container_sectors};
    if (clfs_block_check(&shape, start, container_file, size, &block) != CLFS_OK) return false;
    if (!clfs_block_gather(container_file, size, block.used, payload, sizeof payload)) return false;
    if (clfs_record_next(start, block.records, base.streams, payload, block.used, CLFS_BLOCK_HEADER, &record) != CLFS_OK) return false;
    return record.lsn == lsn && record.data_len == strlen(data) && !memcmp(payload + record.data_at, data, record.data_len);
}

int main(int count, char **words)
{
    clfs_lsn lsn = CLFS_NULL;
    char text[CLFS_LSN_ROOM];
    uint8_t other[CLFS_MOST_LSN_TEXT];
    int answer = count == 3 ? write_record(words[1], words[2], "hello", &lsn) : CLFS_NOTHING;
    if (answer) {
        fprintf(stderr, "both: the record wasn't written: %d\n", answer);
        return 1;
    }
    clfs_text_of_lsn(lsn, text);
    size_t size = clfs_lsn_text(lsn, other, sizeof other);
    if (!has_record(words[2], lsn, "hello") || size != strlen(text) || memcmp(text, other, size)) {
        fprintf(stderr, "both: the files have another record than %s\n", text);
        return 1;
    }
    return 0;
}
