/* The bytes of a log, judged and read: blocks, their records, base files and LSNs.
 *
 * libclfs_read.a answers each call by the bytes that it is given. It takes no memory, opens no file and keeps nothing between two calls, so
 * its calls may be made in any thread at any time. It is proved for any values of the arguments. What C owes are pointers: each points to
 * as many bytes, or to such a struct, aligned as C aligns it, as the call is told; what is written to overlaps nothing else that the call
 * is given; and a pointer with a length isn't null, even where the length is 0.
 *
 * A log is read so: clfs_base_check judges the base file and says how large blocks and containers are; clfs_base_file says which file
 * holds which container. A container is a row of blocks, from its first byte on: clfs_block_check, clfs_block_gather, clfs_record_next
 * until CLFS_END, clfs_block_rest. The next block begins behind the sectors of this one, as long as the container has one left; at
 * CLFS_CLOSED the blocks of the container end. This is the order in which the log judges. Each call is proved by itself, by the definitions
 * that the log's own reader has; that the calls in this order find what opening finds is no theorem. Opening it also asks what no call here
 * does: that no stream's base and no archive tail lies above the log's end, and no tail below the first container that the base file lists.
 *
 * An LSN is a number: container * 2^32 + offset of the block in bytes + position of the record in it. 0 is the LSN of no record. */
#ifndef CLFS_READ_H
#define CLFS_READ_H

#include <stdbool.h>
#include <stddef.h>
#include <stdint.h>

#ifdef __cplusplus
extern "C" {
#endif

enum {
    CLFS_OK = 0,       /* what is asked for is there */
    CLFS_CLOSED = 1,   /* the gate is closed: nothing begins here, and nothing is wrong */
    CLFS_BAD = 2,      /* a byte is wrong: the struct's bad_at says which, counted as the call says */
    CLFS_END = 3,      /* no record is left in the block */
    CLFS_ARGUMENT = 4  /* the arguments don't belong together, and nothing was judged */
};

enum {
    CLFS_SECTOR_BYTES = 512,    /* of a sector */
    CLFS_BLOCK_HEADER = 16,     /* of a block's header: the byte of its payload at which its first record begins */
    CLFS_MOST_PAYLOAD = 64512,  /* of the payload of a largest block, that of 128 sectors */
    CLFS_SLOT_BYTES = 16384,    /* of a slot of the base file, which has two */
    CLFS_MOST_LSN_TEXT = 26     /* of an LSN as text */
};

/* ---- LSNs ---- */

struct clfs_parts {
    uint32_t container; /* the container's id, from 1 */
    uint32_t offset;    /* the block's offset in the container in bytes, a multiple of 512 */
    uint32_t sequence;  /* the record's position in its block, 0 to 511 */
};

/* The parts of an LSN. Every number is one's. */
struct clfs_parts clfs_lsn_parts(uint64_t lsn);

/* Puts an LSN together. False where offset is no multiple of 512 or sequence above 511; *lsn is then as it was. */
bool clfs_lsn_create(const struct clfs_parts *parts, uint64_t *lsn);

/* Writes an LSN as the log prints it, `container:offset:sequence` in lower-case hexadecimal digits, to the first bytes of out, without a
 * byte 0 behind it. Answers how many bytes the text has, at most CLFS_MOST_LSN_TEXT; if that is more than room, nothing was written. */
size_t clfs_lsn_text(uint64_t lsn, uint8_t *out, size_t room);

/* The LSN that a text spells, all of its len bytes. False where it spells none; *lsn is then as it was. */
bool clfs_lsn_of_text(const uint8_t *text, size_t len, uint64_t *lsn);

/* ---- blocks ---- */

struct clfs_shape {
    uint32_t block_sectors;     /* the sectors of the largest block, 1 to 128 */
    uint32_t container_sectors; /* the sectors of a container, at most 16384 */
};

struct clfs_block {
    uint32_t sectors; /* of 512 bytes each */
    uint32_t records; /* 1 to 511 */
    uint32_t used;    /* bytes of payload, the header's 16 among them; at most CLFS_MOST_PAYLOAD in a log's shape */
    uint32_t bad_at;  /* at CLFS_BAD the first wrong byte, counted from the block's first byte; else 0 */
};

/* Judges the block that begins at the LSN start (of sequence 0) and stands at the front of bytes: its gate, its header, and the address of
 * each of its sectors. bytes may go on behind it, and should reach to the container's end or over a largest block: a byte that isn't there
 * is wrong. CLFS_OK, CLFS_CLOSED or CLFS_BAD; out is written at each, with zeros where there is no block. */
uint32_t clfs_block_check(const struct clfs_shape *shape, uint64_t start, const uint8_t *bytes, size_t len, struct clfs_block *out);

/* Gathers used bytes of a block's payload, without the sectors' addresses, into the first bytes of payload. False where fewer than that
 * stand in bytes or have room; nothing is then written. */
bool clfs_block_gather(const uint8_t *bytes, size_t len, uint32_t used, uint8_t *payload, size_t room);

/* Judges what is behind the used payload of a block that clfs_block_check found right in these bytes: zeros. CLFS_OK, or CLFS_BAD with
 * *bad_at the first wrong byte, counted from the block's first byte; CLFS_ARGUMENT where a block with these numbers can't stand in the
 * bytes. *bad_at is 0 but at CLFS_BAD. */
uint32_t clfs_block_rest(const struct clfs_block *block, const uint8_t *bytes, size_t len, uint32_t *bad_at);

/* ---- records ---- */

struct clfs_record {
    uint64_t lsn;
    uint64_t previous;   /* the record before it, as its client has it, or 0 */
    uint64_t undo_next;  /* the record that undoing goes on with, as its client has it, or 0 */
    uint64_t new_base;   /* the base of its stream from it on, in a restart area; else 0 */
    uint32_t data_at;    /* the byte of the payload at which its data begin */
    uint32_t data_len;   /* the bytes of its data */
    uint32_t next_at;    /* the byte of the payload at which the next record begins */
    uint32_t bad_at;     /* at CLFS_BAD the first wrong byte, counted from the block's first byte; else 0 */
    uint16_t stream;     /* the number of its stream, from 1 */
    bool is_restart;     /* it is a restart area */
};

/* The next record of a block, of whose records `left` are left, in a log of so many streams. payload are the used bytes that
 * clfs_block_gather gave, all of them; lsn is the record's, and at the byte of the payload at which it begins. The first record has the
 * block's LSN and begins at CLFS_BLOCK_HEADER; each further one has the next LSN and begins at next_at of the one before it, with one less
 * left. CLFS_OK; CLFS_END where none is left and the payload ends here; CLFS_BAD; CLFS_ARGUMENT where at or len is above 2^31 - 1. out is
 * written at each, with zeros where there is no record. */
uint32_t clfs_record_next(uint64_t lsn, uint32_t left, uint16_t streams, const uint8_t *payload, size_t len, uint32_t at, struct clfs_record *out);

/* ---- base files ---- */

struct clfs_base {
    uint64_t tail;              /* the archive tail; 0 where archiving is off */
    uint32_t block_sectors;     /* as in struct clfs_shape */
    uint32_t container_sectors; /* as in struct clfs_shape */
    uint32_t first;             /* the id of the first listed container; the ids of the others follow it */
    uint32_t slot;              /* the slot that counts, 0 or 1; at CLFS_BAD the slot of the wrong byte */
    uint32_t bad_at;            /* at CLFS_BAD the first wrong byte, counted from the slot's first byte; else 0 */
    uint16_t containers;        /* the containers that the log has */
    uint16_t files_made;        /* the files made at full length, from number 1 on */
    uint16_t listed;            /* how many containers are listed */
    uint16_t streams;           /* how many streams there are */
    uint16_t maximum;           /* the most containers, or 0 where no such policy is installed */
    uint16_t minimum;           /* the fewest containers, or 0 */
    uint16_t growth;            /* the containers of one step of growth, or 0 */
    uint8_t version;            /* of the copy, 1 or 2 */
    uint8_t turn;               /* 0 to 2: that of the copy before it, plus 1 modulo 3 */
    uint8_t archiving;          /* 1 where archiving is on, else 0 */
    uint8_t automatic;          /* 1 where a log that is full grows by itself, else 0 */
    uint8_t dedicated;          /* 1 where the log has one stream alone, else 0 */
};

struct clfs_stream {
    uint64_t base;    /* the stream's base, as far as base copies and not restart areas have moved it */
    uint32_t name_at; /* the byte of the slot at which its name begins: byte CLFS_SLOT_BYTES * slot + name_at of the file */
    uint8_t name_len; /* the bytes of its name, 1 to 64 */
};

/* Judges the bytes of a base file, all of them: which of its two slots counts, and that slot whole. CLFS_OK, CLFS_CLOSED where no slot is
 * open, or CLFS_BAD. out is written at each, with zeros where there is no copy. */
uint32_t clfs_base_check(const uint8_t *file, size_t len, struct clfs_base *out);

/* The number of the file (N of cN) that holds the listed container i, from 0, whose id is first + i, by a slot that clfs_base_check found
 * right. False from `listed` on; *number is then as it was. */
bool clfs_base_file(const uint8_t *file, size_t len, uint32_t slot, uint16_t i, uint16_t *number);

/* The stream i, from 0, whose number is i + 1, by a slot that clfs_base_check found right. False from `streams` on; *out is then as it
 * was. */
bool clfs_base_stream(const uint8_t *file, size_t len, uint32_t slot, uint16_t i, struct clfs_stream *out);

#ifdef __cplusplus
}
#endif

#endif
