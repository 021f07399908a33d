/*
 * The rota that the examples share: six posts of one stored object, commands on them, and the numbers in words.
 */
#ifndef POSTS_H
#define POSTS_H

#include "holmweder.h"

enum { NAME_BYTES = 16, POSTS = 6, ROTA_BYTES = 65536, NORTH_BYTES = 32768 };

/* The object's two identifiers, and its policy access tag and boot epoch. */
enum { PARTITION = 0x10000, OBJECT = 0x10001, TAG = 7, EPOCH = 3 };

enum { MAY_READ = 0x80, MAY_WRITE = 0x40 };

struct post {
    const char *name;
    uint64_t place;
};

extern const struct post posts[POSTS];

/* Every post's index. */
extern const int all_posts[POSTS];

/* The name at a post, padded with zeros to its size. */
struct name {
    char text[NAME_BYTES];
};

/* The names that a fresh rota has. */
extern const struct name first_names[POSTS];

/* A command as it is sent: the CDB, and the segment with the names right behind it. */
struct command {
    uint8_t cdb[HOLMWEDER_CDB_BYTES];
    uint8_t out[HOLMWEDER_MOST_WRITTEN_SEGMENT_BYTES + POSTS * NAME_BYTES];
    size_t out_length;
};

/* A capability is a permission in writing: for this object, from the first position on. */
void permit(uint8_t capability[HOLMWEDER_CAPABILITY_BYTES], uint8_t permissions, uint64_t length);

/*
 * Puts one command on a list of posts together, and returns the writer's number. A WRITE carries `data`, a name for
 * each post in the list's order; for a READ it is null.
 */
uint32_t compose(struct command *command, uint64_t action, const uint8_t *capability, const int *list, size_t count,
                 const struct name *data);

/* What a number says, in words. */
const char *meaning(uint32_t number);

/* Shows every post as it was, as the list asked for it to be, and as it is. */
void show_change(const struct name *before, const int *list, size_t count, const struct name *asked,
                 const struct name *after);

#endif
