/*
 * One object in a file. The file is always whole: a changed object is written to a new file beside it, which is renamed
 * over the old one when all of it is on the disk. So whoever is killed, and whenever, leaves the object as it was
 * before or as it is afterwards.
 *
 * The file's bytes, numbers big-endian:
 *
 *   8   "HOLMOBJ1"
 *   8   length of the slice
 *   38  the record: partition, object, logical length, maximum (8 each), tag (4), epoch (2)
 *       the slice
 *   4   CRC-32 of everything before
 */
#ifndef STORE_H
#define STORE_H

#include <stddef.h>
#include <stdint.h>

enum { MOST_PATH_BYTES = 4096 };

/* The record and the slice, as holmweder.h has them. */
struct object {
    uint64_t partition, object, length, maximum;
    uint32_t tag;
    uint16_t epoch;
    uint8_t *slice;
    size_t slice_length;
};

struct store {
    const char *path;
    char new_path[MOST_PATH_BYTES]; /* the new file: the path with .new behind it */
    int directory;
    int lock;
};

/*
 * Opens the store, for this process alone: the file with .lock behind its path is locked until the process ends. Null,
 * or why it can't be opened.
 */
const char *open_store(struct store *store, const char *path);

enum loaded {
    LOADED,
    NOT_THERE,
    NOT_SOUND, /* damaged, or it can't be read: `reason` says which */
};

/* The slice of a loaded object is allocated, and belongs to the caller. */
enum loaded load(const struct store *store, struct object *object, const char **reason);

enum saved {
    SAVED,
    NOT_SAVED, /* the file is as it was */
    IN_DOUBT,  /* the file is the new one, and the disk may still lose that */
};

/* Where the object isn't SAVED, errno says why. */
enum saved save(const struct store *store, const struct object *object);

/*
 * For tests: a process whose environment has SERVER_STOP_AT stops itself (SIGSTOP) at the moment of that name, so that
 * it can be killed just there. The moments of a change, in their order: made, begun, written, synced, renamed, saved,
 * answered.
 */
void moment(const char *name);

#endif
