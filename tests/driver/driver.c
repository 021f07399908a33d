/*
 * The driver: answers requests on standard input by calls of the engine, until the input ends.
 *
 * Requests and answers are frames: a length of 4 bytes, then so many bytes. Numbers are big-endian. A slice is
 * its count of items in 4 bytes, then the items. A request's bytes are its kind, how to lend (see `lend`), and
 *
 *   1 execute    record (38 bytes), cdb, out, slice, input
 *   2 admission  record (38 bytes), start (8), size (8), cdb, out
 *   3 write      action, partition, object, start, size (8 each), listed (4), offsets and lengths (items of 8 bytes),
 *                capabilities, cdb, segment
 *   4 sense      number (4)
 *
 * and those of its answer
 *
 *   1            kept (1), number, key, code, status (4 each), count, next length (8 each), slice, input
 *   2            kept (1), number (4), offset (8)
 *   3            kept (1), number (4), segment length (8), cdb, segment
 *   4            key, code, status (4 each)
 *
 * `kept` is 1 where everything lent only to be read is as it was. There is one answer to each request, in their
 * order, flushed before the next request is read. A request that isn't as said here ends the driver with status 2.
 */
#define _DEFAULT_SOURCE /* MAP_ANONYMOUS */

#include "holmweder.h"

#include <stdio.h>
#include <stdlib.h>
#include <string.h>
#include <sys/mman.h>

enum { EXECUTE = 1, ADMISSION = 2, WRITE = 3, SENSE = 4 };

/* The longest slice with one byte more, and room for all that comes with it. */
#define MOST_FRAME_BYTES (20u << 20)

/* What a number is before a call that must set it. */
#define NEVER_SET 0xA5A5A5A5A5A5A5A5u

__attribute__((noreturn)) static void stop(const char *reason)
{
    fprintf(stderr, "driver: %s\n", reason);
    exit(2);
}

static void *allocate(size_t size)
{
    void *memory = malloc(size);
    if (memory == NULL)
        stop("no memory");
    return memory;
}

/* ---- Requests: what is left of a frame, read from its start ---- */

struct rest {
    const uint8_t *at;
    size_t size;
};

static const uint8_t *take(struct rest *rest, size_t size)
{
    const uint8_t *taken = rest->at;
    if (size > rest->size)
        stop("bad frame: it ends early");
    rest->at += size;
    rest->size -= size;
    return taken;
}

static uint64_t big_endian(const uint8_t *bytes, size_t size)
{
    uint64_t number = 0;
    for (size_t i = 0; i < size; i++)
        number = number << 8 | bytes[i];
    return number;
}

static uint64_t take_number(struct rest *rest, size_t size)
{
    return big_endian(take(rest, size), size);
}

/* Bytes of a frame that a slice is made of. */
struct part {
    const uint8_t *at;
    size_t size;
};

static struct part take_items(struct rest *rest, size_t item_size)
{
    struct part part;
    uint64_t count = take_number(rest, 4);
    if (count > rest->size / item_size)
        stop("bad frame: a slice is longer than what is left");
    part.size = (size_t)count * item_size;
    part.at = take(rest, part.size);
    return part;
}

static struct part take_bytes(struct rest *rest)
{
    return take_items(rest, 1);
}

static void end_frame(const struct rest *rest)
{
    if (rest->size != 0)
        stop("bad frame: it goes on");
}

struct record {
    uint64_t partition, object, length, maximum;
    uint32_t tag;
    uint16_t epoch;
};

static struct record take_record(struct rest *rest)
{
    struct record record;
    record.partition = take_number(rest, 8);
    record.object = take_number(rest, 8);
    record.length = take_number(rest, 8);
    record.maximum = take_number(rest, 8);
    record.tag = (uint32_t)take_number(rest, 4);
    record.epoch = (uint16_t)take_number(rest, 2);
    return record;
}

/* ---- Lending: what the engine gets are copies, each in memory of its own ---- */

/*
 * How to lend. In the heap a copy is an allocation of exactly its size, so that a memory checker sees an access outside
 * it. Beside a guard it ends right before memory that can't be accessed, or begins right behind such memory, so that an
 * access on that side ends the driver with no checker at all, whatever the engine was compiled with.
 */
enum { IN_HEAP = 0, BEFORE_GUARD = 1, BEHIND_GUARD = 2, PLACES = 3, EMPTY_IS_NULL = 4, LENDINGS = 8 };

enum { MOST_LENT = 5 };

/* A multiple of every page size in use. */
#define GUARD_BYTES ((size_t)1 << 16)
#define ROOM_BYTES ((size_t)MOST_FRAME_BYTES)

struct lent {
    struct part given;
    uint8_t *copy;
    void *allocation;
};

/* Memory between two guards, for one of the slices of a call. It is made once: that takes longer than a call. */
static uint8_t *room(int index)
{
    static uint8_t *rooms[MOST_LENT];
    if (rooms[index] == NULL) {
        size_t whole = GUARD_BYTES + ROOM_BYTES + GUARD_BYTES;
        uint8_t *at = mmap(NULL, whole, PROT_NONE, MAP_PRIVATE | MAP_ANONYMOUS, -1, 0);
        if (at == MAP_FAILED || mprotect(at + GUARD_BYTES, ROOM_BYTES, PROT_READ | PROT_WRITE) != 0)
            stop("no memory");
        rooms[index] = at + GUARD_BYTES;
    }
    return rooms[index];
}

static struct lent lend(struct part given, unsigned lending, int index)
{
    struct lent lent = { given, NULL, NULL };
    if (given.size == 0 && (lending & EMPTY_IS_NULL))
        return lent;
    switch (lending % EMPTY_IS_NULL) {
    case BEFORE_GUARD:
        lent.copy = room(index) + ROOM_BYTES - given.size;
        break;
    case BEHIND_GUARD:
        lent.copy = room(index);
        break;
    default:
        lent.allocation = allocate(given.size);
        lent.copy = lent.allocation;
    }
    if (given.size != 0)
        memcpy(lent.copy, given.at, given.size);
    return lent;
}

/* The copy of a slice of numbers has them as this processor does. */
static struct lent lend_numbers(struct part given, unsigned lending, int index)
{
    struct lent lent = lend(given, lending, index);
    for (size_t at = 0; at < given.size; at += 8) {
        uint64_t number = big_endian(given.at + at, 8);
        memcpy(lent.copy + at, &number, 8);
    }
    return lent;
}

static int is_kept(const struct lent *lent)
{
    return lent->given.size == 0 || memcmp(lent->copy, lent->given.at, lent->given.size) == 0;
}

static int are_numbers_kept(const struct lent *lent)
{
    for (size_t at = 0; at < lent->given.size; at += 8) {
        uint64_t number = big_endian(lent->given.at + at, 8);
        if (memcmp(lent->copy + at, &number, 8) != 0)
            return 0;
    }
    return 1;
}

static void take_back(struct lent *lent)
{
    free(lent->allocation);
}

/* ---- Answers ---- */

static void put(const void *bytes, size_t size)
{
    if (size != 0 && fwrite(bytes, 1, size, stdout) != size)
        stop("the answer can't be written");
}

static void put_number(uint64_t number, size_t size)
{
    uint8_t bytes[8];
    for (size_t i = 0; i < size; i++)
        bytes[i] = (uint8_t)(number >> 8 * (size - 1 - i));
    put(bytes, size);
}

static void put_slice(const struct lent *lent)
{
    put_number(lent->given.size, 4);
    put(lent->copy, lent->given.size);
}

static size_t slice_size(const struct lent *lent)
{
    return 4 + lent->given.size;
}

static void put_sense(uint32_t number)
{
    put_number(holmweder_sense_key(number), 4);
    put_number(holmweder_sense_code(number), 4);
    put_number(holmweder_status(number), 4);
}

/* ---- The four kinds ---- */

static void execute(struct rest *rest, unsigned lending)
{
    struct record record = take_record(rest);
    struct lent cdb = lend(take_bytes(rest), lending, 0);
    struct lent out = lend(take_bytes(rest), lending, 1);
    struct lent slice = lend(take_bytes(rest), lending, 2);
    struct lent input = lend(take_bytes(rest), lending, 3);
    uint64_t count = NEVER_SET;
    uint64_t next_length = NEVER_SET;
    uint32_t number;
    end_frame(rest);
    number = holmweder_execute(cdb.copy, cdb.given.size, out.copy, out.given.size, record.partition, record.object,
                               record.length, record.maximum, record.tag, record.epoch, slice.copy, slice.given.size,
                               input.copy, input.given.size, &count, &next_length);
    put_number(1 + 4 * 4 + 2 * 8 + slice_size(&slice) + slice_size(&input), 4);
    put_number(is_kept(&cdb) && is_kept(&out), 1);
    put_number(number, 4);
    put_sense(number);
    put_number(count, 8);
    put_number(next_length, 8);
    put_slice(&slice);
    put_slice(&input);
    take_back(&cdb);
    take_back(&out);
    take_back(&slice);
    take_back(&input);
}

static void admission(struct rest *rest, unsigned lending)
{
    struct record record = take_record(rest);
    uint64_t start = take_number(rest, 8);
    uint64_t size = take_number(rest, 8);
    struct lent cdb = lend(take_bytes(rest), lending, 0);
    struct lent out = lend(take_bytes(rest), lending, 1);
    uint64_t offset = NEVER_SET;
    uint32_t number;
    end_frame(rest);
    number = holmweder_admission(cdb.copy, cdb.given.size, out.copy, out.given.size, record.partition, record.object,
                                 record.length, record.maximum, record.tag, record.epoch, start, size, &offset);
    put_number(1 + 4 + 8, 4);
    put_number(is_kept(&cdb) && is_kept(&out), 1);
    put_number(number, 4);
    put_number(offset, 8);
    take_back(&cdb);
    take_back(&out);
}

static void write_command(struct rest *rest, unsigned lending)
{
    uint64_t action = take_number(rest, 8);
    uint64_t partition = take_number(rest, 8);
    uint64_t object = take_number(rest, 8);
    uint64_t start = take_number(rest, 8);
    uint64_t size = take_number(rest, 8);
    uint32_t listed = (uint32_t)take_number(rest, 4);
    struct lent offsets = lend_numbers(take_items(rest, 8), lending, 0);
    struct lent lengths = lend_numbers(take_items(rest, 8), lending, 1);
    struct lent capabilities = lend(take_bytes(rest), lending, 2);
    struct lent cdb = lend(take_bytes(rest), lending, 3);
    struct lent segment = lend(take_bytes(rest), lending, 4);
    uint64_t segment_length = NEVER_SET;
    uint32_t number;
    end_frame(rest);
    number = holmweder_write(action, partition, object, start, size, listed,
                             (const uint64_t *)(void *)offsets.copy, offsets.given.size / 8,
                             (const uint64_t *)(void *)lengths.copy, lengths.given.size / 8,
                             capabilities.copy, capabilities.given.size, cdb.copy, cdb.given.size,
                             segment.copy, segment.given.size, &segment_length);
    put_number(1 + 4 + 8 + slice_size(&cdb) + slice_size(&segment), 4);
    put_number(are_numbers_kept(&offsets) && are_numbers_kept(&lengths) && is_kept(&capabilities), 1);
    put_number(number, 4);
    put_number(segment_length, 8);
    put_slice(&cdb);
    put_slice(&segment);
    take_back(&offsets);
    take_back(&lengths);
    take_back(&capabilities);
    take_back(&cdb);
    take_back(&segment);
}

static void sense(struct rest *rest)
{
    uint32_t number = (uint32_t)take_number(rest, 4);
    end_frame(rest);
    put_number(3 * 4, 4);
    put_sense(number);
}

static void answer(struct rest rest)
{
    unsigned kind = (unsigned)take_number(&rest, 1);
    unsigned lending = (unsigned)take_number(&rest, 1);
    if (lending >= LENDINGS || lending % EMPTY_IS_NULL >= PLACES)
        stop("bad frame: unknown way to lend");
    switch (kind) {
    case EXECUTE:
        execute(&rest, lending);
        break;
    case ADMISSION:
        admission(&rest, lending);
        break;
    case WRITE:
        write_command(&rest, lending);
        break;
    case SENSE:
        sense(&rest);
        break;
    default:
        stop("bad frame: unknown kind");
    }
}

/* ---- The loop ---- */

/* Makes the buffer hold the next frame. 0 where the input ends before it. */
static int read_frame(struct rest *frame, uint8_t **buffer, size_t *room_in_buffer)
{
    uint8_t head[4];
    size_t got = fread(head, 1, sizeof head, stdin);
    if (got == 0)
        return 0;
    if (got < sizeof head)
        stop("bad frame: the input ends in its length");
    frame->size = (size_t)big_endian(head, sizeof head);
    if (frame->size > MOST_FRAME_BYTES)
        stop("bad frame: too long");
    if (frame->size > *room_in_buffer) {
        free(*buffer);
        *buffer = allocate(frame->size);
        *room_in_buffer = frame->size;
    }
    if (fread(*buffer, 1, frame->size, stdin) != frame->size)
        stop("bad frame: the input ends in it");
    frame->at = *buffer;
    return 1;
}

int main(void)
{
    uint8_t *buffer = allocate(1);
    size_t room_in_buffer = 1;
    struct rest frame;
    while (read_frame(&frame, &buffer, &room_in_buffer)) {
        answer(frame);
        if (fflush(stdout) != 0)
            stop("the answer can't be written");
    }
    free(buffer);
    return 0;
}
