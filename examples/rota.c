/*
 * A small rota, kept as one stored object: posts far apart, a swap by one command, and a swap that is refused at its
 * last entry and leaves everything as it was. It calls the engine in its own memory; posts.c puts the commands
 * together, and ./run builds and starts it.
 */
#include "posts.h"

#include <stdio.h>
#include <string.h>

struct rota {
    uint8_t bytes[ROTA_BYTES];
    uint64_t length;
};

/* Carries one command out. A READ puts what it reads into `input`. */
static uint32_t execute(struct rota *rota, const struct command *command, uint8_t *input, size_t input_length)
{
    uint64_t moved;
    return holmweder_execute(command->cdb, sizeof command->cdb, command->out, command->out_length, PARTITION, OBJECT,
                             rota->length, ROTA_BYTES, TAG, EPOCH, rota->bytes, ROTA_BYTES, input, input_length, &moved,
                             &rota->length);
}

/* Takes every post's name. */
static uint32_t read_names(struct rota *rota, const uint8_t *capability, struct name *data)
{
    struct command command;
    uint32_t number = compose(&command, HOLMWEDER_READ, capability, all_posts, POSTS, NULL);
    return number != 0 ? number : execute(rota, &command, (uint8_t *)data, POSTS * sizeof *data);
}

/* Puts a name to each post of the list. */
static uint32_t write_names(struct rota *rota, const uint8_t *capability, const int *list, size_t count,
                            const struct name *data)
{
    struct command command;
    uint32_t number = compose(&command, HOLMWEDER_WRITE, capability, list, count, data);
    return number != 0 ? number : execute(rota, &command, NULL, 0);
}

/* Writes a name to each post of the list, and shows what has come of it. */
static uint32_t swap(struct rota *rota, const uint8_t *clerk, const uint8_t *office, const int *list, size_t count,
                     const struct name *data)
{
    struct name before[POSTS], after[POSTS];
    uint32_t number;
    if (read_names(rota, office, before) != 0)
        return 1;
    number = write_names(rota, clerk, list, count, data);
    if (read_names(rota, office, after) != 0)
        return 1;
    show_change(before, list, count, data, after);
    printf("\n    The answer is %lu, %s.\n", (unsigned long)number, meaning(number));
    return number;
}

int main(void)
{
    static struct rota rota, kept;
    const struct name two[] = { { "Oskar" }, { "Ilse" } };
    const struct name three[] = { { "Marek" }, { "Dana" }, { "Oskar" } };
    const int both_in_the_north[] = { 0, 2 };
    const int last_in_the_south[] = { 0, 1, 3 };
    uint8_t office[HOLMWEDER_CAPABILITY_BYTES], clerk[HOLMWEDER_CAPABILITY_BYTES];
    uint32_t number;

    permit(office, MAY_READ | MAY_WRITE, ROTA_BYTES);
    permit(clerk, MAY_WRITE, NORTH_BYTES);

    puts("A rota of six posts is kept as one stored object of 65536 bytes. Each post is a name");
    puts("at a place of its own, far from the others. The office has filled all six with one");
    puts("command. The northern depot's clerk may change the places below 32768, and no others.\n");
    number = write_names(&rota, office, all_posts, POSTS, first_names);
    if (number != 0) {
        printf("The answer is %lu, %s.\n", (unsigned long)number, meaning(number));
        return 1;
    }

    puts("1. Ilse and Oskar swap. The clerk sends both names in one command.");
    if (swap(&rota, clerk, office, both_in_the_north, 2, two) != 0)
        return 1;

    puts("\n2. Oskar, Marek and Dana swap, in one command too. The last post is in the south.");
    kept = rota;
    if (swap(&rota, clerk, office, last_in_the_south, 3, three) != 11)
        return 1;
    if (memcmp(&rota, &kept, sizeof rota) != 0) {
        puts("    And yet something has changed.");
        return 1;
    }
    puts("    The first two names were in order, and weren't written either: a command is carried");
    puts("    out whole or not at all. Every byte of the object is as it was.");
    return 0;
}
