/* zimatuno.h: a name index in one lent buffer, for C and C++.
 *
 * A pool is one buffer of bytes with up to 8 balanced trees of records. A record has a 64-bit key, a
 * stamp and a name. All work on a pool goes through the four functions below; none of them allocates,
 * blocks, keeps a pointer or any other state after it has returned, or calls back.
 *
 * Link libzimatuno.a, for x86-64 Linux. It needs nothing else but memcpy and memset.
 *
 * Numbers in the buffers are unsigned and little-endian, at the offsets given here, with no padding and
 * no alignment: a buffer may start at any address. Read and write their fields by zt_get_u16 to
 * zt_put_u64 below, not through a struct. Slots and trees count from 1; slot 0 means "none".
 *
 * What the caller owes. The promises hold for every content of the buffers, but only if:
 *   - each pointer is to as many bytes as the length beside it says, all of them initialised (as calloc
 *     gives them, or memset); no pointer is NULL, not even where the length is 0;
 *   - the buffers of one call do not overlap (zt_batch: pool, batch and answers);
 *   - they are lent for the time of the call: until it returns, no other thread writes to a buffer that
 *     the call reads, and none reads or writes one that it changes. So a pool has one writer at a time;
 *     calls of zt_check and zt_name on one pool may run beside one another, but not beside a zt_batch or
 *     a zt_create on it;
 *   - the stack has room for the call: 24 KiB for zt_batch, 4 KiB for each of the others.
 */
#ifndef ZIMATUNO_H
#define ZIMATUNO_H

#include <stddef.h>
#include <stdint.h>

#ifdef __cplusplus
extern "C" {
#endif

/* ---- The functions ------------------------------------------------------------------------------- */

/* Writes a fresh pool of n slots, t trees and x bytes of text, without records, into the buffer: text
 * used 0, next stamp 1. n is 1 to ZT_MAX_SLOTS, t is 1 to ZT_MAX_TREES, x is 0 to ZT_MAX_TEXT, and len is
 * exactly ZT_POOL_SIZE(n, t, x). Returns ZT_DONE; or ZT_BAD_SIZE, and then the buffer is as it was.
 * A pool created where another one was is a new pool: its stamps begin at 1 again, so handles of the old
 * pool must not be used with it. ZT_OP_RESET empties a pool and keeps its stamps rising. */
uint8_t zt_create(uint16_t n, uint16_t t, uint32_t x, uint8_t *buffer, size_t len);

/* Returns ZT_DONE if the pool is sound, else ZT_DAMAGED. Sound: every number of the header, the tree
 * table and the records is as laid out below; each tree's links reach its live records exactly once;
 * keys rise strictly in each tree; balances and counts are right; all bytes said to be zero are. */
uint8_t zt_check(const uint8_t *pool, size_t pool_len);

/* Carries out the commands of the batch on the pool, in turn, and writes an answer of 24 bytes for each
 * into answers. Returns the code in bits 0 to 7 and the number of commands answered in bits 8 to 23: see
 * ZT_CODE and ZT_ANSWERED. The codes of a batch, tested in this order:
 *   ZT_BAD_BATCH  the batch's header or length is wrong
 *   ZT_BAD_OUT    answers is shorter than 24 bytes for each command
 *   ZT_DAMAGED    the pool is not sound
 *   ZT_DONE       every command was answered; each answer has a code of its own
 * A batch that is not ZT_DONE answers 0 commands and leaves pool and answers as they were. Bytes of
 * answers past the last answer are never changed. The pool is sound after every batch done. */
uint32_t zt_batch(uint8_t *pool, size_t pool_len, const uint8_t *batch, size_t batch_len, uint8_t *answers,
                  size_t answers_len);

/* Where the name of a record stands in the pool: the offset of its first byte, from the start of the
 * pool, in bits 0 to 31, and its length, 1 to 255, in bits 32 to 63: see ZT_OFFSET and ZT_LENGTH.
 * Returns 0 if the pool is not sound, or if ZT_OP_REMOVE would refuse this tree, slot and stamp. The
 * name is not zero-terminated. It stays at that place as long as its record lives. */
uint64_t zt_name(const uint8_t *pool, size_t pool_len, uint8_t tree, uint16_t slot, uint32_t stamp);

/* The two numbers in what zt_batch returns, and in what zt_name returns. */
#define ZT_CODE(outcome) ((uint8_t)((outcome) & 0xff))
#define ZT_ANSWERED(outcome) ((uint16_t)(((outcome) >> 8) & 0xffff))
#define ZT_OFFSET(place) ((uint32_t)((place) & 0xffffffffu))
#define ZT_LENGTH(place) ((uint32_t)((place) >> 32))

/* ---- Codes --------------------------------------------------------------------------------------- */

#define ZT_DONE 0

/* of a whole call */
#define ZT_DAMAGED 1   /* the pool is not sound */
#define ZT_BAD_BATCH 2 /* the batch's header or length is wrong */
#define ZT_BAD_OUT 3   /* answers is shorter than 24 bytes for each command */
#define ZT_BAD_SIZE 4  /* zt_create: n, t, x or the buffer's length is wrong */

/* of one command, in its answer. A command is tested for BAD_OP; then BAD_TREE, BAD_CURSOR, NO_MARK or
 * MARK_OPEN; then BAD_NAME, BAD_SLOT, STALE, OTHER_TREE; then PRESENT, ORDER or NONE; then NO_SLOT,
 * NO_TEXT, NO_STAMP. A refused command changes nothing but, for some, the cursor. */
#define ZT_BAD_OP 10     /* op 0 or above 29 */
#define ZT_BAD_TREE 11   /* ops 1 to 11: tree 0 or above the pool's number of trees */
#define ZT_BAD_CURSOR 12 /* not the cursor that the op needs */
#define ZT_BAD_NAME 13   /* adding ops: name length 0 or above 255, or not within the batch's names */
#define ZT_BAD_SLOT 14   /* slot 0 or above the pool's number of slots */
#define ZT_STALE 15      /* the slot is free, or has another stamp */
#define ZT_OTHER_TREE 16 /* the record lives in another tree */
#define ZT_PRESENT 17    /* op 1: the key is in the tree */
#define ZT_ORDER 18      /* ops 16 to 20, 24, 25: the key does not belong at that place */
#define ZT_NONE 19       /* no such record: key not in the tree, tree empty, or nothing on that side */
#define ZT_NO_SLOT 20    /* no slot is free */
#define ZT_NO_TEXT 21    /* the name does not fit into the rest of the text */
#define ZT_NO_STAMP 22   /* the next stamp is 4,294,967,295 */
#define ZT_NO_MARK 23    /* ops 27, 28: no mark is open */
#define ZT_MARK_OPEN 24  /* ops 26, 29: a mark is open */

/* ---- Ops ----------------------------------------------------------------------------------------- */

/* A handle is a slot and a stamp. A stamp is never given twice in a pool's life, so that a handle is good
 * for its own record only. Once that record is gone for good its handle is refused for ever, as ZT_STALE if
 * the command's tree is one of the pool's. A record that was there when the open mark was opened is not gone
 * for good until the mark is committed: a rollback brings it back, and its handle is good again. Behind each
 * op: the command's fields that it uses. A name is the command's name offset and name length. */
#define ZT_OP_ADD 1           /* tree, key, name: adds a record */
#define ZT_OP_GET 2           /* tree, key: finds a record */
#define ZT_OP_REMOVE_BY_KEY 3 /* tree, key */
#define ZT_OP_REMOVE 4        /* tree, slot, stamp */
#define ZT_OP_NEXT 5          /* tree, slot, stamp: the record after that of the handle */
#define ZT_OP_PREV 6          /* tree, slot, stamp: the record before it */
#define ZT_OP_FIRST 7         /* tree */
#define ZT_OP_LAST 8          /* tree */

/* The cursor. A batch starts without one and has at most one. Ops 1 to 8 and 26 to 29 and unknown ops
 * drop it; 9 to 11 set it, or drop it if refused. 12 to 25 work at it, in its tree, and ignore the
 * command's tree; of these a refused one keeps it, but a move with ZT_NONE and an append or prepend with
 * ZT_ORDER lose it. */
#define ZT_OP_ENTRY 9               /* tree, key: a cursor at the key's record, or at its vacant place */
#define ZT_OP_FIRST_ENTRY 10        /* tree */
#define ZT_OP_LAST_ENTRY 11         /* tree */
#define ZT_OP_PEEK_NEXT 12          /* shows the next record, the cursor stays */
#define ZT_OP_PEEK_PREV 13
#define ZT_OP_MOVE_NEXT 14          /* moves to the next record */
#define ZT_OP_MOVE_PREV 15
#define ZT_OP_INSERT_BEFORE 16      /* key, name: the cursor stays at its record */
#define ZT_OP_INSERT_AFTER 17       /* key, name */
#define ZT_OP_INSERT_BEFORE_MOVE 18 /* key, name: and moves to the new record */
#define ZT_OP_INSERT_AFTER_MOVE 19  /* key, name */
#define ZT_OP_INSERT_NODE 20        /* key, name: fills the vacant place of ZT_OP_ENTRY, with its key */
#define ZT_OP_REMOVE_HERE 21        /* removes the cursor's record, and the cursor with it */
#define ZT_OP_REMOVE_PREV 22
#define ZT_OP_REMOVE_NEXT 23
#define ZT_OP_APPEND 24             /* key, name: at a ZT_CURSOR_LAST, a key above the last */
#define ZT_OP_PREPEND 25            /* key, name: at a ZT_CURSOR_FIRST, a key below the first */

/* The mark. One may be open; a mark open at the end of a batch is rolled back. A rollback undoes every
 * change since the mark: the same records are live, each with its slot, stamp, key and name; the shapes of
 * the trees and the next stamp may differ. These ops use no field. */
#define ZT_OP_MARK 26
#define ZT_OP_ROLLBACK 27
#define ZT_OP_COMMIT 28 /* closes the mark and keeps the changes */
#define ZT_OP_RESET 29  /* frees every record and the text; the next stamp stays */

/* The kind of cursor after a command, in its answer. */
#define ZT_CURSOR_NONE 0
#define ZT_CURSOR_OCCUPIED 1 /* at a record */
#define ZT_CURSOR_VACANT 2   /* at the empty place of a key */
#define ZT_CURSOR_FIRST 3    /* the first entry of a tree, which may be empty */
#define ZT_CURSOR_LAST 4     /* the last entry of a tree, which may be empty */

/* ---- The pool ------------------------------------------------------------------------------------ */

#define ZT_MAX_SLOTS 1024
#define ZT_MAX_TREES 8
#define ZT_MAX_TEXT 8192
#define ZT_POOL_MAX 41056 /* the largest pool */
#define ZT_POOL_SIZE(n, t, x) ((size_t)32 + (size_t)8 * (size_t)(t) + (size_t)32 * (size_t)(n) + (size_t)(x))

/* header, 32 bytes, at offset 0 */
#define ZT_POOL_EDITION 0     /* u16, 1 */
#define ZT_POOL_SLOTS 2       /* u16, N, 1 to 1,024 */
#define ZT_POOL_TREES 4       /* u16, T, 1 to 8 */
#define ZT_POOL_LIVE 6        /* u16, number of live records */
#define ZT_POOL_AT_TREES 8    /* u32, 32 */
#define ZT_POOL_AT_RECORDS 12 /* u32, 32 + 8 T */
#define ZT_POOL_AT_TEXT 16    /* u32, 32 + 8 T + 32 N */
#define ZT_POOL_TEXT_SIZE 20  /* u32, X, 0 to 8,192 */
#define ZT_POOL_TEXT_USED 24  /* u32 */
#define ZT_POOL_NEXT_STAMP 28 /* u32, 1 to 4,294,967,295 */

/* tree entry, 8 bytes; that of tree t is at ZT_ENTRY_AT(t) */
#define ZT_ENTRY_AT(t) ((size_t)32 + (size_t)8 * ((size_t)(t) - 1))
#define ZT_ENTRY_ROOT 0  /* u16, slot */
#define ZT_ENTRY_COUNT 2 /* u16, number of records; then four zero bytes */

/* record, 32 bytes; that of slot s is at ZT_RECORD_AT(trees, s). A free one is 32 zero bytes. */
#define ZT_RECORD_AT(trees, s) ((size_t)32 + (size_t)8 * (size_t)(trees) + (size_t)32 * ((size_t)(s) - 1))
#define ZT_RECORD_KEY 0         /* u64 */
#define ZT_RECORD_LEFT 8        /* u16, slot */
#define ZT_RECORD_RIGHT 10      /* u16, slot */
#define ZT_RECORD_PARENT 12     /* u16, slot */
#define ZT_RECORD_BALANCE 14    /* u8: 0 even, 1 the right side is one higher, 2 the left is */
#define ZT_RECORD_TREE 15       /* u8, 0 for a free record */
#define ZT_RECORD_STAMP 16      /* u32 */
#define ZT_RECORD_NAME_START 20 /* u32, from the start of the text */
#define ZT_RECORD_NAME_LENGTH 24 /* u16, 1 to 255; then six zero bytes */

/* ---- The batch ----------------------------------------------------------------------------------- */

#define ZT_MAX_COMMANDS 256
#define ZT_MAX_NAMES 16384
#define ZT_BATCH_SIZE(commands, names) ((size_t)16 + (size_t)24 * (size_t)(commands) + (size_t)(names))

/* header, 16 bytes, at offset 0; the commands follow, and then the names */
#define ZT_BATCH_EDITION 0       /* u16, 1 */
#define ZT_BATCH_COMMANDS 2      /* u16, C, 0 to 256 */
#define ZT_BATCH_AT_COMMANDS 4   /* u32, 16 */
#define ZT_BATCH_AT_NAMES 8      /* u32, 16 + 24 C */
#define ZT_BATCH_NAMES_LENGTH 12 /* u32, 0 to 16,384 */

/* command, 24 bytes; command i, from 0, is at ZT_COMMAND_AT(i). Fields that an op does not use are
 * ignored, and so are the last two bytes. */
#define ZT_COMMAND_SIZE 24
#define ZT_COMMAND_AT(i) ((size_t)16 + (size_t)24 * (size_t)(i))
#define ZT_COMMAND_OP 0           /* u8 */
#define ZT_COMMAND_TREE 1         /* u8 */
#define ZT_COMMAND_SLOT 2         /* u16 */
#define ZT_COMMAND_STAMP 4        /* u32 */
#define ZT_COMMAND_KEY 8          /* u64 */
#define ZT_COMMAND_NAME_OFFSET 16 /* u32, from the start of the batch's names */
#define ZT_COMMAND_NAME_LENGTH 20 /* u16, 1 to 255 */

/* answer, 24 bytes; that of command i is at ZT_ANSWER_AT(i). The record shown is the one added, found,
 * removed (as it was), peeked or moved to, and for a vacant entry the one that the key would hang on.
 * Its fields are 0 where there is none: where the code is not ZT_DONE, after ops 26 to 29, and after ops 9
 * to 11 on an empty tree. */
#define ZT_ANSWER_SIZE 24
#define ZT_ANSWER_AT(i) ((size_t)24 * (size_t)(i))
#define ZT_ANSWER_CODE 0         /* u8 */
#define ZT_ANSWER_CURSOR 1       /* u8, the kind of cursor after the command */
#define ZT_ANSWER_SLOT 2         /* u16 */
#define ZT_ANSWER_STAMP 4        /* u32 */
#define ZT_ANSWER_KEY 8          /* u64 */
#define ZT_ANSWER_NAME_START 16  /* u32, from the start of the pool's text */
#define ZT_ANSWER_NAME_LENGTH 20 /* u16; then two zero bytes */

/* ---- Numbers in a buffer, at any address and on any machine --------------------------------------- */

static inline uint16_t zt_get_u16(const uint8_t *p)
{
    return (uint16_t)(p[0] | (uint32_t)p[1] << 8);
}

static inline uint32_t zt_get_u32(const uint8_t *p)
{
    return (uint32_t)zt_get_u16(p) | (uint32_t)zt_get_u16(p + 2) << 16;
}

static inline uint64_t zt_get_u64(const uint8_t *p)
{
    return (uint64_t)zt_get_u32(p) | (uint64_t)zt_get_u32(p + 4) << 32;
}

static inline void zt_put_u16(uint8_t *p, uint16_t v)
{
    p[0] = (uint8_t)v;
    p[1] = (uint8_t)(v >> 8);
}

static inline void zt_put_u32(uint8_t *p, uint32_t v)
{
    zt_put_u16(p, (uint16_t)v);
    zt_put_u16(p + 2, (uint16_t)(v >> 16));
}

static inline void zt_put_u64(uint8_t *p, uint64_t v)
{
    zt_put_u32(p, (uint32_t)v);
    zt_put_u32(p + 4, (uint32_t)(v >> 32));
}

#ifdef __cplusplus
}
#endif

#endif
