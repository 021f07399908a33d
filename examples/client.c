/*
 * A client of server.c: it shows the rota, or swaps two of its names by one command. protocol.h says what goes over the
 * socket; the commands are put together in posts.c.
 *
 * A swap reads the names and then writes them. Both are done in one turn, so nobody changes a name in between.
 */
#include "holmweder.h"
#include "posts.h"
#include "protocol.h"

#include <errno.h>
#include <signal.h>
#include <stdio.h>
#include <stdlib.h>
#include <string.h>
#include <sys/socket.h>
#include <sys/un.h>
#include <unistd.h>

static const char usage[] =
    "usage: client SOCKET show                        the rota: who is at which post\n"
    "       client [--office] SOCKET swap POST POST   two posts, 1 to 6, swap their names\n"
    "\n"
    "A swap is sent as by the northern depot's clerk, who may change the posts of the north and no others;\n"
    "with --office as by the office, which may change all of them.\n"
    "\n"
    "The status is 0 for what was carried out, 1 for what was refused, 2 where something else is wrong.\n";

/* Others may be served before; each has its own time. */
enum { PATIENCE_IN_MILLISECONDS = 60000 };

__attribute__((noreturn)) static void stop(const char *what, const char *reason)
{
    fflush(stdout);
    fprintf(stderr, "client: %s: %s\n", what, reason);
    exit(2);
}

/* ---- Commands ---- */

static struct turn connect_to(const char *path)
{
    struct sockaddr_un address;
    int connection = socket(AF_UNIX, SOCK_STREAM, 0);
    memset(&address, 0, sizeof address);
    address.sun_family = AF_UNIX;
    if (strlen(path) >= sizeof address.sun_path)
        stop(path, "a socket's path has at most 107 bytes");
    memcpy(address.sun_path, path, strlen(path));
    if (connection < 0 || connect(connection, (const struct sockaddr *)&address, sizeof address) != 0)
        stop(path, strerror(errno));
    return turn_of(connection, PATIENCE_IN_MILLISECONDS);
}

/* Sends a command and waits for its answer, which is good until the next one. */
static const struct answer *ask(const struct turn *turn, const struct command *command, uint32_t input_length)
{
    static struct request request;
    static struct answer answer;
    char reason[MOST_REASON_BYTES + 1];
    request.cdb_length = sizeof command->cdb;
    request.out_length = (uint32_t)command->out_length;
    request.input_length = input_length;
    memcpy(request.cdb, command->cdb, sizeof command->cdb);
    memcpy(request.out, command->out, command->out_length);
    /* Whether or not all of it was sent, the server may have said why it doesn't take it. */
    send_request(turn, &request);
    switch (receive_answer(turn, &answer, reason)) {
    case RECEIVED:
        break;
    case REFUSED:
        stop("the server refused", reason);
    case ENDED:
    case NO_FRAME:
        stop("no answer, so look at what the rota has now", reason);
    }
    if (answer.input_length > input_length)
        stop("the server's answer", "more bytes than were asked for");
    return &answer;
}

/* Every post's name. Those behind the object's end are empty. */
static void read_names(const struct turn *turn, struct name *data)
{
    const int read_to_the_end = 15;
    const struct answer *answer;
    struct command command;
    uint8_t everyone[HOLMWEDER_CAPABILITY_BYTES];
    uint32_t number;
    permit(everyone, MAY_READ, ROTA_BYTES);
    number = compose(&command, HOLMWEDER_READ, everyone, all_posts, POSTS, NULL);
    if (number != 0)
        stop("the rota can't be read", meaning(number));
    answer = ask(turn, &command, POSTS * sizeof *data);
    if (answer->number != 0 && answer->number != read_to_the_end)
        stop("the rota can't be read", meaning(answer->number));
    memset(data, 0, POSTS * sizeof *data);
    memcpy(data, answer->input, answer->input_length);
}

/* The number of the answer; a command that can't be put together isn't sent. */
static uint32_t write_two(const struct turn *turn, int is_office, const int *list, const struct name *data)
{
    struct command command;
    uint8_t capability[HOLMWEDER_CAPABILITY_BYTES];
    uint32_t number;
    permit(capability, MAY_WRITE, is_office ? ROTA_BYTES : NORTH_BYTES);
    number = compose(&command, HOLMWEDER_WRITE, capability, list, 2, data);
    return number != 0 ? number : ask(turn, &command, 0)->number;
}

/* ---- What is asked of the client ---- */

static int show(const struct turn *turn)
{
    struct name now[POSTS];
    read_names(turn, now);
    printf("\n       %-22s %6s   %s\n", "post", "place", "name");
    for (int i = 0; i < POSTS; i++)
        printf("    %d  %-22s %6lu   %.*s\n", i + 1, posts[i].name, (unsigned long)posts[i].place, NAME_BYTES,
               now[i].text);
    puts("");
    return 0;
}

static int swap(const struct turn *turn, int is_office, int left, int right)
{
    struct name before[POSTS], asked[2], after[POSTS];
    const int list[2] = { left, right };
    uint32_t number;
    read_names(turn, before);
    asked[0] = before[right];
    asked[1] = before[left];
    number = write_two(turn, is_office, list, asked);
    read_names(turn, after);
    show_change(before, list, 2, asked, after);
    printf("\n    The answer is %lu, %s.\n", (unsigned long)number, meaning(number));
    if (number != 0)
        puts("    Nothing was changed: a command is carried out whole or not at all.");
    puts("");
    return number != 0;
}

/* The index of a post that is named by its number, or -1. */
static int post_of(const char *text)
{
    return text[0] >= '1' && text[0] < '1' + POSTS && text[1] == 0 ? text[0] - '1' : -1;
}

int main(int count, char **words)
{
    int is_office = count > 1 && strcmp(words[1], "--office") == 0;
    struct turn turn;
    /* A server that is gone shows as a write that fails, and not as a signal that ends the client. */
    signal(SIGPIPE, SIG_IGN);
    words += is_office;
    count -= is_office;
    if (count == 3 && strcmp(words[2], "show") == 0) {
        turn = connect_to(words[1]);
        return show(&turn);
    }
    if (count == 5 && strcmp(words[2], "swap") == 0 && post_of(words[3]) >= 0 && post_of(words[4]) >= 0) {
        turn = connect_to(words[1]);
        return swap(&turn, is_office, post_of(words[3]), post_of(words[4]));
    }
    fprintf(stderr, "%s", usage);
    return 2;
}
