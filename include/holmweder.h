/*
 * Holmweder: a storage command engine for one user object, and a command writer for hosts.
 *
 * The engine carries out one command of an object-based storage device: READ, WRITE, CLEAR or PUNCH, on one
 * range or on a list of up to 64. It decides first and moves bytes afterwards, so a command is carried out
 * whole or refused with nothing altered. The writer puts such commands together.
 *
 * THE CALLER'S MEMORY
 *
 * Ownership   Nothing is allocated, kept or freed. Every pointer is used during the call alone.
 * Slices      A slice is a pointer and a length. A length counts items: bytes, or 64-bit numbers for the
 *             `offsets` and `lengths` of a list. Null with length 0 is an empty slice.
 * Overlap     No two slices of one call may overlap, unless both are only read (those declared const). What
 *             the pointers to single numbers point at lies apart from every slice and from each other.
 * Alignment   Byte slices need none. `offsets`, `lengths` and the pointers to single numbers have that of
 *             uint64_t. A pointer to a single number is never null.
 * Sizes       An object's slice has at most 16,777,216 bytes; a longer one is refused with number 1 and
 *             not touched. The other slices may have any size.
 * Threads     There is no global state. Calls that share no memory may run at once, and so may calls that
 *             share only memory that all of them only read.
 * Failing     Every call returns. No byte and no number is forbidden: what doesn't fit is refused.
 *
 * THE OBJECT
 *
 * The object's bytes are the first `logical` bytes of `slice`: `logical` is its logical length. The record
 * beside them is passed as numbers: partition and object (its two identifiers), logical, maximum (a limit
 * on the length; zero is a limit of zero), tag (policy access tag) and epoch (boot epoch). Only the
 * logical length ever changes: keep what comes back through `next_length` and pass it the next time.
 *
 * THE NUMBERS. A command is answered with the first of 1 to 14 that fits it, else with 15 if that fits, else
 * with 0.
 *
 *   No  Key  Code   Meaning
 *    0   0   0000h  carried out
 *    1   4   4400h  the slice has over 16,777,216 bytes, or the logical length is above the slice's
 *    2   5   2000h  the CDB isn't 236 bytes, or its byte 0 isn't 7Fh, or its byte 7 isn't 228
 *    3   5   2400h  the service action is none of READ, WRITE, CLEAR and PUNCH
 *    4   5   2400h  an identifier differs from the record's
 *    5   5   2400h  the continuation length isn't 0, and is below 40, above 2,048 or above Data-Out's length
 *    6   5   2600h  the segment's format isn't 01h, or its service action isn't the CDB's
 *    7   5   2600h  a descriptor of the segment is of unknown type, too long, of a size that doesn't fit,
 *                   runs past the segment or repeats a type; or the bytes that remain aren't zero
 *    8   5   2600h  a list on CLEAR or PUNCH
 *    9   5   2400h  a list, and a starting byte address that isn't zero
 *   10   5   2600h  the list's lengths don't sum to LENGTH; or, on WRITE, two entries share a position
 *   11   5   2400h  not admitted: no capability matches, or a range lies inside no matching one
 *   12   5   2400h  READ or PUNCH: a range starts above the logical length
 *   13   5   2400h  READ: Data-In is shorter than LENGTH; WRITE: less command data than LENGTH
 *   14   7   5507h  WRITE or CLEAR would raise the logical length above its maximum or the slice's length
 *   15   1   3B17h  a READ that met the logical length before it had all its bytes; carried out so far
 *   16   0   0000h  the writer: a request that can't be written (see holmweder_write)
 *   17   0   0000h  the writer: a buffer is too short
 *
 * 1 to 14 are refusals: the count is 0 and nothing is altered. 0 to 15 are the engine's, 0, 16 and 17 the
 * writer's. The keys are SCSI's: 0 no sense, 1 recovered error, 4 hardware error, 5 illegal request,
 * 7 data protect.
 *
 * EXAMPLE: READ of three bytes from position 2.
 *
 *   // READ and WRITE for partition and object 10000h, positions 0 to 15
 *   static const uint8_t capability[HOLMWEDER_CAPABILITY_BYTES] = {
 *       [48] = 0x80, [49] = 0xC0, [55] = 0x10, [77] = 1, [85] = 1, [95] = 16
 *   };
 *   uint8_t slice[16] = "ABCDEFGH";
 *   uint8_t cdb[HOLMWEDER_CDB_BYTES];
 *   uint8_t input[3];
 *   uint64_t length = 8, segment_length, count = 0;
 *   uint32_t number = holmweder_write(HOLMWEDER_READ, 0x10000, 0x10000, 2, 3, 0, NULL, 0, NULL, 0,
 *                                     capability, sizeof capability, cdb, sizeof cdb, NULL, 0, &segment_length);
 *   if (number == 0)
 *       number = holmweder_execute(cdb, sizeof cdb, NULL, 0, 0x10000, 0x10000, length, 16, 0, 0,
 *                                  slice, sizeof slice, input, sizeof input, &count, &length);
 *   // number is 0, count is 3, and input holds "CDE"
 */
#ifndef HOLMWEDER_H
#define HOLMWEDER_H

#include <stddef.h>
#include <stdint.h>

#ifdef __cplusplus
extern "C" {
#endif

/* Service actions. */
#define HOLMWEDER_READ 0x8885
#define HOLMWEDER_WRITE 0x8886
#define HOLMWEDER_CLEAR 0x8889
#define HOLMWEDER_PUNCH 0x8884

#define HOLMWEDER_CDB_BYTES 236
#define HOLMWEDER_CAPABILITY_BYTES 104
/* where the CDB has its capability */
#define HOLMWEDER_CAPABILITY_OFFSET 80
#define HOLMWEDER_MOST_SLICE_BYTES 16777216
/* what the writer takes, and the longest segment that it writes: 64 entries and 8 capabilities */
#define HOLMWEDER_MOST_ENTRIES 64
#define HOLMWEDER_MOST_CAPABILITIES 9
#define HOLMWEDER_MOST_WRITTEN_SEGMENT_BYTES 1912

/*
 * Carries out one command and returns its number, 0 to 15.
 *
 *   cdb           the command descriptor block
 *   out           Data-Out: the continuation segment, if the CDB says that there is one, then the command data
 *   partition ..  the record
 *   slice         the object's bytes and the room after them; all of it belongs to the object
 *   input         Data-In, for a READ
 *   count         receives the bytes put (READ), written (WRITE, CLEAR) or removed (PUNCH)
 *   next_length   receives the logical length afterwards
 *
 * READ puts the ranges' bytes, in list order, from the start of `input`, and leaves `input` behind them and
 * all of `slice` as they were. WRITE takes the command data in list order; CLEAR writes zeros; where either
 * raises the length, positions in between that aren't written become zero. PUNCH removes its range, moves
 * down what follows it and makes the freed tail zero. No other byte is altered.
 * On a refusal `slice` and `input` are as they were, the count is 0, and the length is the one given.
 */
uint32_t holmweder_execute(const uint8_t *cdb, size_t cdb_len, const uint8_t *out, size_t out_len,
                           uint64_t partition, uint64_t object, uint64_t logical, uint64_t maximum,
                           uint32_t tag, uint16_t epoch, uint8_t *slice, size_t slice_len,
                           uint8_t *input, size_t input_len, uint64_t *count, uint64_t *next_length);

/*
 * Tells which capability of a command admits the `size` positions from `start` on, for the command's verb.
 * The range is any range, it needn't be one of the command's; no byte of the object is needed. Returns
 *
 *   0  no capability admits it, or one of the rows 2 to 8 of the table refuses the command; the offset is 0
 *   1  the CDB's own: its 104 bytes stand in `cdb` at 80, and the offset is 80
 *   2  one of the segment's: its 104 bytes stand in `out` at the offset
 *
 * The first that admits the range is told, the CDB's before the segment's.
 */
uint32_t holmweder_admission(const uint8_t *cdb, size_t cdb_len, const uint8_t *out, size_t out_len,
                             uint64_t partition, uint64_t object, uint64_t logical, uint64_t maximum,
                             uint32_t tag, uint16_t epoch, uint64_t start, uint64_t size, uint64_t *offset);

/* The sense key and the sense code of a number, as in the table; 0 for a number that isn't there. */
uint32_t holmweder_sense_key(uint32_t number);
uint32_t holmweder_sense_code(uint32_t number);

/* The SCSI status of a number: 0, GOOD, for number 0, and 2, CHECK CONDITION, for every other. */
uint32_t holmweder_status(uint32_t number);

/*
 * Writes a command: 236 bytes of CDB and, where it has a list or more than one capability, a segment. Pass to
 * the engine the first 236 bytes of `cdb`, and as Data-Out the segment with the command data right behind it.
 *
 *   action           HOLMWEDER_READ, HOLMWEDER_WRITE, HOLMWEDER_CLEAR or HOLMWEDER_PUNCH
 *   partition ..     the object that it is for
 *   start, size      its range; with a list `start` is 0, and `size` isn't used
 *   listed           nonzero for a list, on READ or WRITE
 *   offsets, lengths the list's entries, as many of the one as of the other, at most 64; without a list
 *                    they aren't used
 *   capabilities     1 to 9 of 104 bytes each; the first is for the CDB, the others are for the segment
 *   cdb, segment     receive the command; bytes past those written stay as they were
 *   segment_length   receives the length of the segment; 0 where there is none, and on a refusal
 *
 * A capability's bytes, numbers big-endian, all others of no significance here:
 *
 *   48       object type, 80h
 *   49       permissions: 80h READ, 40h the other three commands
 *   55       descriptor type, 1 in the high four bits
 *   60-63    policy access tag; zero for any
 *   64-65    boot epoch; zero for any
 *   72-79    allowed partition, not zero
 *   80-87    allowed object, not zero
 *   88-95    allowed range, its length; all ones for every position from its start on
 *   96-103   allowed range, its start
 *
 * Returns 0; or 16 for an unknown action, capability bytes that are empty, over 936 or no multiple of 104, a
 * list whose two slices differ in length or have over 64 items, a list on CLEAR or PUNCH or with a start that
 * isn't zero, a list whose sum passes 64 bits, or a WRITE of which two nonempty entries share a position; or
 * 17 where `cdb` has fewer than 236 bytes or `segment` fewer than are needed. On a refusal both are as they were.
 */
uint32_t holmweder_write(uint64_t action, uint64_t partition, uint64_t object, uint64_t start, uint64_t size,
                         uint32_t listed, const uint64_t *offsets, size_t offsets_len,
                         const uint64_t *lengths, size_t lengths_len,
                         const uint8_t *capabilities, size_t capabilities_len,
                         uint8_t *cdb, size_t cdb_len, uint8_t *segment, size_t segment_len,
                         uint64_t *segment_length);

#ifdef __cplusplus
}
#endif

#endif
