/* One object in a file; store.h says what is here. */
#define _DEFAULT_SOURCE /* fsync, flock */

#include "store.h"

#include "bytes.h"
#include "holmweder.h"

#include <errno.h>
#include <fcntl.h>
#include <signal.h>
#include <stdio.h>
#include <stdlib.h>
#include <string.h>
#include <sys/file.h>
#include <unistd.h>

enum { MAGIC_BYTES = 8, HEAD_BYTES = 54, SUM_BYTES = 4 };

static const char magic[] = "HOLMOBJ1";

void moment(const char *name)
{
    const char *stop_at = getenv("SERVER_STOP_AT");
    if (stop_at != NULL && strcmp(stop_at, name) == 0)
        raise(SIGSTOP);
}

/* ---- Opening ---- */

/* The folder that has the file: its name must be on the disk too, when a new file takes the old one's place. */
static int open_directory(const char *path)
{
    char folder[MOST_PATH_BYTES] = ".";
    const char *last = strrchr(path, '/');
    if (last != NULL)
        snprintf(folder, sizeof folder, "%.*s", (int)(last - path + 1), path);
    return open(folder, O_RDONLY | O_DIRECTORY | O_CLOEXEC);
}

/* The object's file can't be locked itself: another file takes its place at every change. */
static int open_lock(const char *path)
{
    char lock_path[MOST_PATH_BYTES];
    snprintf(lock_path, sizeof lock_path, "%s.lock", path);
    return open(lock_path, O_RDWR | O_CREAT | O_CLOEXEC, 0600);
}

const char *open_store(struct store *store, const char *path)
{
    const size_t most_ending = 8; /* ".lock" and ".new" fit into it */
    if (strlen(path) + most_ending >= MOST_PATH_BYTES)
        return "the path is too long";
    store->path = path;
    snprintf(store->new_path, sizeof store->new_path, "%s.new", path);
    store->directory = open_directory(path);
    if (store->directory < 0)
        return strerror(errno);
    store->lock = open_lock(path);
    if (store->lock < 0)
        return strerror(errno);
    if (flock(store->lock, LOCK_EX | LOCK_NB) == 0)
        return NULL;
    return errno == EWOULDBLOCK ? "another server has it" : strerror(errno);
}

/* ---- Bytes of a file, and their sum ---- */

/* How many bytes were read: fewer only where the file ends before. -1 where it can't be read. */
static ssize_t read_bytes(int file, uint8_t *to, size_t size)
{
    size_t got = 0;
    while (got < size) {
        ssize_t more = read(file, to + got, size - got);
        if (more < 0 && errno == EINTR)
            continue;
        if (more < 0)
            return -1;
        if (more == 0)
            break;
        got += (size_t)more;
    }
    return (ssize_t)got;
}

/* Nonzero where all of them were written. */
static int write_bytes(int file, const uint8_t *from, size_t size)
{
    size_t written = 0;
    while (written < size) {
        ssize_t more = write(file, from + written, size - written);
        if (more < 0 && errno != EINTR)
            return 0;
        if (more > 0)
            written += (size_t)more;
    }
    return 1;
}

/* CRC-32 as in Ethernet and zip, of the bytes after those that `before` is the sum of; 0 is the sum of none. */
static uint32_t sum_of(uint32_t before, const uint8_t *bytes, size_t size)
{
    uint32_t sum = ~before;
    for (size_t i = 0; i < size; i++) {
        sum ^= bytes[i];
        for (int bit = 0; bit < 8; bit++)
            sum = sum >> 1 ^ (sum & 1 ? 0xEDB88320u : 0);
    }
    return ~sum;
}

/* ---- Loading. What isn't as it was written is refused: a guess at an object is worse than none. ---- */

static void take_record(struct object *object, const uint8_t *from)
{
    object->partition = number_at(from, 8);
    object->object = number_at(from + 8, 8);
    object->length = number_at(from + 16, 8);
    object->maximum = number_at(from + 24, 8);
    object->tag = (uint32_t)number_at(from + 32, 4);
    object->epoch = (uint16_t)number_at(from + 36, 2);
}

/* Reads the slice and the sum behind it, into `bytes`. Null, or what is wrong with them. */
static const char *read_slice(int file, const uint8_t *head, uint8_t *bytes, size_t size)
{
    uint8_t more;
    ssize_t got = read_bytes(file, bytes, size + SUM_BYTES);
    if (got < 0)
        return strerror(errno);
    if ((size_t)got < size + SUM_BYTES)
        return "damaged: it ends early";
    if (read_bytes(file, &more, 1) != 0)
        return "damaged: it goes on behind its end";
    if (number_at(bytes + size, SUM_BYTES) != sum_of(sum_of(0, head, HEAD_BYTES), bytes, size))
        return "damaged: its bytes don't have the sum that it says";
    return NULL;
}

static const char *read_object(int file, struct object *object)
{
    uint8_t head[HEAD_BYTES];
    uint64_t size;
    const char *reason;
    ssize_t got = read_bytes(file, head, sizeof head);
    if (got < 0)
        return strerror(errno);
    if (got < HEAD_BYTES || memcmp(head, magic, MAGIC_BYTES) != 0)
        return "no object's file: it doesn't begin as one";
    size = number_at(head + MAGIC_BYTES, 8);
    if (size > HOLMWEDER_MOST_SLICE_BYTES)
        return "damaged: the slice would have over 16777216 bytes";
    take_record(object, head + MAGIC_BYTES + 8);
    if (object->length > size)
        return "damaged: the object would be longer than its slice";
    object->slice_length = (size_t)size;
    object->slice = malloc(object->slice_length + SUM_BYTES);
    if (object->slice == NULL)
        return "no memory";
    reason = read_slice(file, head, object->slice, object->slice_length);
    if (reason != NULL)
        free(object->slice);
    return reason;
}

enum loaded load(const struct store *store, struct object *object, const char **reason)
{
    int file = open(store->path, O_RDONLY | O_CLOEXEC);
    if (file < 0) {
        enum loaded loaded = errno == ENOENT ? NOT_THERE : NOT_SOUND;
        *reason = strerror(errno);
        return loaded;
    }
    *reason = read_object(file, object);
    close(file);
    return *reason == NULL ? LOADED : NOT_SOUND;
}

/* ---- Saving ---- */

static void put_head(uint8_t head[HEAD_BYTES], const struct object *object)
{
    uint8_t *at = head + MAGIC_BYTES;
    memcpy(head, magic, MAGIC_BYTES);
    at = put_number(at, object->slice_length, 8);
    at = put_number(at, object->partition, 8);
    at = put_number(at, object->object, 8);
    at = put_number(at, object->length, 8);
    at = put_number(at, object->maximum, 8);
    at = put_number(at, object->tag, 4);
    put_number(at, object->epoch, 2);
}

/* Nonzero where all of the object is in the file, and the file on the disk. */
static int write_object(int file, const struct object *object)
{
    uint8_t head[HEAD_BYTES], sum[SUM_BYTES];
    put_head(head, object);
    put_number(sum, sum_of(sum_of(0, head, sizeof head), object->slice, object->slice_length), sizeof sum);
    if (!write_bytes(file, head, sizeof head))
        return 0;
    moment("begun");
    if (!write_bytes(file, object->slice, object->slice_length) || !write_bytes(file, sum, sizeof sum))
        return 0;
    moment("written");
    /* Before the rename: a disk that loses power may keep the new name and lose bytes that weren't told to stay. */
    return fsync(file) == 0;
}

/* Nonzero where the new file is there, whole. */
static int write_new_file(const char *path, const struct object *object)
{
    int file, is_written;
    /* One that was left by a kill is in nobody's use: the store is locked. */
    if (unlink(path) != 0 && errno != ENOENT)
        return 0;
    file = open(path, O_WRONLY | O_CREAT | O_EXCL | O_CLOEXEC, 0600);
    if (file < 0)
        return 0;
    moment("made");
    is_written = write_object(file, object);
    return close(file) == 0 && is_written;
}

/* Nonzero where the new file has taken the old one's place. */
static int replace(const struct store *store, const struct object *object)
{
    if (!write_new_file(store->new_path, object))
        return 0;
    moment("synced");
    return rename(store->new_path, store->path) == 0;
}

enum saved save(const struct store *store, const struct object *object)
{
    if (!replace(store, object)) {
        int why = errno;
        unlink(store->new_path); /* it may fill the disk */
        errno = why;
        return NOT_SAVED;
    }
    moment("renamed");
    if (fsync(store->directory) != 0)
        return IN_DOUBT;
    moment("saved");
    return SAVED;
}
