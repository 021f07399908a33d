/* The rota that the examples share; posts.h says what is here. */
#include "posts.h"

#include "bytes.h"

#include <stdio.h>
#include <string.h>

const struct post posts[POSTS] = {
    { "North, Monday early", 256 },   { "North, Wednesday late", 8448 }, { "North, Saturday early", 20736 },
    { "South, Monday early", 33024 }, { "South, Thursday late", 41216 }, { "South, Sunday early", 57600 },
};

const int all_posts[POSTS] = { 0, 1, 2, 3, 4, 5 };

const struct name first_names[POSTS] = {
    { "Ilse" }, { "Marek" }, { "Oskar" }, { "Dana" }, { "Pavel" }, { "Ruth" },
};

static const char *const meanings[] = {
    "carried out",
    "refused: the object has no sound length",
    "refused: this is no command",
    "refused: an unknown command",
    "refused: the command is for another object",
    "refused: the command's second part has no sound length",
    "refused: the command's second part is for another command",
    "refused: the command's second part can't be read",
    "refused: this command takes no list",
    "refused: a command with a list has no place of its own",
    "refused: the list's lengths don't add up, or two entries share a place",
    "refused: the caller has no permission for one of the places",
    "refused: a place is past the object's end",
    "refused: too little data, or too little room for it",
    "refused: the object would grow too long",
    "carried out as far as the object goes",
    "not written: the request makes no command",
    "not written: too little room for the command",
};

void permit(uint8_t capability[HOLMWEDER_CAPABILITY_BYTES], uint8_t permissions, uint64_t length)
{
    memset(capability, 0, HOLMWEDER_CAPABILITY_BYTES);
    capability[48] = 0x80;
    capability[49] = permissions;
    capability[55] = 0x10;
    put_number(capability + 60, TAG, 4);
    put_number(capability + 64, EPOCH, 2);
    put_number(capability + 72, PARTITION, 8);
    put_number(capability + 80, OBJECT, 8);
    put_number(capability + 88, length, 8);
}

uint32_t compose(struct command *command, uint64_t action, const uint8_t *capability, const int *list, size_t count,
                 const struct name *data)
{
    uint64_t offsets[POSTS], lengths[POSTS], segment_length;
    uint32_t number;
    for (size_t i = 0; i < count; i++) {
        offsets[i] = posts[list[i]].place;
        lengths[i] = NAME_BYTES;
    }
    number = holmweder_write(action, PARTITION, OBJECT, 0, 0, 1, offsets, count, lengths, count, capability,
                             HOLMWEDER_CAPABILITY_BYTES, command->cdb, sizeof command->cdb, command->out,
                             HOLMWEDER_MOST_WRITTEN_SEGMENT_BYTES, &segment_length);
    if (number != 0)
        return number;
    command->out_length = (size_t)segment_length;
    if (action == HOLMWEDER_WRITE) {
        memcpy(command->out + command->out_length, data, count * NAME_BYTES);
        command->out_length += count * NAME_BYTES;
    }
    return 0;
}

const char *meaning(uint32_t number)
{
    return number < sizeof meanings / sizeof meanings[0] ? meanings[number] : "a number without a meaning";
}

/* The name that the list asks for at a post. */
static const char *asked_at(int post, const int *list, size_t count, const struct name *asked)
{
    for (size_t i = 0; i < count; i++)
        if (list[i] == post)
            return asked[i].text;
    return "";
}

/* A name of full size has no zero behind it, so its size is given. */
void show_change(const struct name *before, const int *list, size_t count, const struct name *asked,
                 const struct name *after)
{
    printf("\n    %-22s %6s   %-8s %-8s %s\n", "post", "place", "before", "asked", "after");
    for (int i = 0; i < POSTS; i++)
        printf("    %-22s %6lu   %-8.*s %-8.*s %.*s\n", posts[i].name, (unsigned long)posts[i].place, NAME_BYTES,
               before[i].text, NAME_BYTES, asked_at(i, list, count, asked), NAME_BYTES, after[i].text);
}
