/*
 * Pelunziwa: XFS V4 metadata, read and changed by proved code: inode cores, short-form and block directories, short-form
 * attributes. No call keeps state, allocates memory or reads beyond the bytes that it is lent, and each takes any bytes: what is
 * damaged is refused. Bytes are lent as a pointer, which must not be null even where the length is 0, and a length. Bytes that
 * may change must not overlap others lent to the same call. A call on a block takes up to 140 KiB of stack.
 *
 * `refusal`, or a plain uint32_t that a call gives, is 0 for done or the number of the first test that fails:
 *
 *    1 SIZE    an inode's, a block's or the told block length is not one allowed: an inode is 256, 512, 1,024 or 2,048 bytes
 *              long, a block a power of two from 512 to 65,536
 *    2 MAGIC   inode not 0x494e; block not 0x58443242
 *    3 KIND    the inode is not of the wanted version, type or format
 *    4 SPAN    a stored total does not fit
 *    5 TILE    records do not fill the span
 *    6 NAME    a stored name breaks the rules
 *    7 NUMBER  a stored inode number is out of range; in a block, an entry but "." and ".." has the number of "."; an attribute's
 *              flags are wrong
 *    8 INDEX   stored counts or index disagree with the entries
 *    9 BEST    the best-gap table is wrong (blocks)
 *   10 TWICE   a name is stored twice
 *   11 ASKED   the caller's name, number, flags or walk place are not legal; a block is asked to take the number of its "."
 *   12 FIXED   directories: "." or ".." inserted or removed; "." looked up in a short form
 *   13 ABSENT  lookup or removal: no such live entry
 *   14 EXISTS  directory insert: the name is there
 *   15 NOROOM  the new entry does not fit
 *   16         retired, not given
 *
 * After a refusal every other field is 0, except `compared` of a block lookup's 13, and all lent bytes are as they were.
 * In a block an entry's tag is its offset. In a short form it is the stored one, and "..", which is not stored, reports 0.
 * A start is counted from the first lent byte. A walk's place is counted from there too in a block, where a walk starts at 16;
 * in a short form it is counted from the fork's start, and a walk starts behind the header: at 4 for attributes, at 6 in a
 * directory or at 10 where its i8count is not 0. At the end a step sees the end and `next` stands where it stood.
 */
#ifndef PELUNZIWA_H
#define PELUNZIWA_H

#include <stddef.h>
#include <stdint.h>

#ifdef __cplusplus
extern "C" {
#endif

/* The refusals by name: the first test that fails. */
enum {
    PZW_SIZE = 1, PZW_MAGIC, PZW_KIND, PZW_SPAN, PZW_TILE, PZW_NAME, PZW_NUMBER, PZW_INDEX, PZW_BEST, PZW_TWICE,
    PZW_ASKED, PZW_FIXED, PZW_ABSENT, PZW_EXISTS, PZW_NOROOM
};

/* What is wrong, in a sentence. */
static inline const char *pzw_sentence(uint32_t refusal)
{
    switch (refusal) {
    case 0: return "done";
    case PZW_SIZE: return "the length of an inode or a block, or the block length told, is not one allowed";
    case PZW_MAGIC: return "the magic is not that of an inode or a directory block";
    case PZW_KIND: return "the inode is not of the wanted version, type or format";
    case PZW_SPAN: return "a stored total does not fit";
    case PZW_TILE: return "the records do not fill their span";
    case PZW_NAME: return "a stored name breaks the rules";
    case PZW_NUMBER: return "a stored inode number is out of range or that of the directory itself, or an attribute's flags are wrong";
    case PZW_INDEX: return "stored counts or the index disagree with the entries";
    case PZW_BEST: return "the best-gap table is wrong";
    case PZW_TWICE: return "a name is stored twice";
    case PZW_ASKED: return "the name, number, flags or walk place asked for is not legal";
    case PZW_FIXED: return "'.' and '..' are never inserted or removed, and a short form does not look '.' up";
    case PZW_ABSENT: return "there is no such live entry";
    case PZW_EXISTS: return "the name is there already";
    case PZW_NOROOM: return "there is no room for the entry";
    default: return "no such refusal";
    }
}

/* `seen` of a step. */
enum { PZW_END = 0, PZW_GAP = 1, PZW_LIVE = 2 };

/* An inode's fields. */
typedef struct { uint32_t refusal, magic, mode, version, format, forkoff, aformat; uint64_t size; } pzw_core;
/* A lookup's file type (0 in V4), inode number, tag, and names compared (0 in a short form). */
typedef struct { uint32_t refusal, type; uint64_t number, tag, compared; } pzw_found;
/* Where a value lies in the lent bytes. */
typedef struct { uint32_t refusal; uint64_t start, len; } pzw_place;
/* One step of a directory's walk; all behind `next` is 0 unless a live entry is seen. `type`, the file type, is 0 in V4. */
typedef struct { uint32_t refusal, seen; uint64_t next, number, tag, type, name_start, name_len; } pzw_step;
/* One step of an attribute walk; all behind `next` is 0 at the end. */
typedef struct { uint32_t refusal, seen; uint64_t next, flags, name_start, name_len, value_start, value_len; } pzw_attr_step;

/* The hash of a name, as xfs_da_hashname gives it. */
uint32_t      pzw_hash(const uint8_t *name, size_t name_len);
/* Tests an inode core and gives its fields. */
pzw_core      pzw_inode_test(const uint8_t *inode, size_t len);

/* Tests a short-form directory in its inode; block_size is that of the filesystem's directory blocks, here and below. */
uint32_t      pzw_sfdir_test(const uint8_t *inode, size_t len, uint64_t block_size);
/* The inode number and the tag stored with a name; ".." gives the parent, and tag 0. */
pzw_found     pzw_sfdir_lookup(const uint8_t *inode, size_t len, uint64_t block_size, const uint8_t *name, size_t name_len);
/* Puts an entry in: changes the inode's size field and data fork, nothing if refused. */
uint32_t      pzw_sfdir_insert(uint8_t *inode, size_t len, uint64_t block_size, const uint8_t *name, size_t name_len, uint64_t number);
/* Takes an entry out: changes the inode's size field and data fork, nothing if refused. */
uint32_t      pzw_sfdir_remove(uint8_t *inode, size_t len, uint64_t block_size, const uint8_t *name, size_t name_len);
/* One step of the walk, in stored order: the entry at a place, or the end. */
pzw_step      pzw_sfdir_step(const uint8_t *inode, size_t len, uint64_t block_size, uint64_t place);

/* Tests the short-form attributes in their inode. */
uint32_t      pzw_attr_test(const uint8_t *inode, size_t len);
/* Where the value stored with a name and flags lies (flags: 0 user, 2 trusted, 4 secure). */
pzw_place     pzw_attr_lookup(const uint8_t *inode, size_t len, const uint8_t *name, size_t name_len, uint32_t flags);
/* Stores a value in place of an equal name's: changes the inode's attribute fork, nothing if refused. */
uint32_t      pzw_attr_set(uint8_t *inode, size_t len, const uint8_t *name, size_t name_len, uint32_t flags, const uint8_t *value, size_t value_len);
/* Takes an attribute out: changes the inode's attribute fork, nothing if refused. */
uint32_t      pzw_attr_remove(uint8_t *inode, size_t len, const uint8_t *name, size_t name_len, uint32_t flags);
/* One step of the walk, in stored order: the attribute at a place, or the end. */
pzw_attr_step pzw_attr_step_at(const uint8_t *inode, size_t len, uint64_t place);

/* Tests a block directory. */
uint32_t      pzw_block_test(const uint8_t *block, size_t len);
/* The inode number and the tag stored with a name, and the names compared, also when it is absent (13). */
pzw_found     pzw_block_lookup(const uint8_t *block, size_t len, const uint8_t *name, size_t name_len);
/* Puts an entry in, with a number other than that of ".": changes the block, nothing if refused. */
uint32_t      pzw_block_insert(uint8_t *block, size_t len, const uint8_t *name, size_t name_len, uint64_t number);
/* Takes an entry out: changes the block, nothing if refused. */
uint32_t      pzw_block_remove(uint8_t *block, size_t len, const uint8_t *name, size_t name_len);
/* One step of the walk, by rising tag: the live entry or the gap at a place, or the end. */
pzw_step      pzw_block_step(const uint8_t *block, size_t len, uint64_t place);

#ifdef __cplusplus
}
#endif

#endif
