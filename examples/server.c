/*
 * A server for one object: it takes commands from clients over a Unix socket, one client after the other, has the
 * engine carry them out, and keeps the object in a file. protocol.h says what goes over the socket, store.h what is in
 * the file.
 *
 * It can be killed at any moment, and that is how it is ended. Nothing is answered before it is kept: a client that was
 * told "carried out" finds it so after the next start.
 *
 * Whoever can reach the socket can send commands, with capabilities of its own making: let only those reach its folder
 * who may. To check what a capability says of itself is the work of a layer before this one.
 */
#define _DEFAULT_SOURCE /* lstat, S_ISSOCK */

#include "bytes.h"
#include "holmweder.h"
#include "posts.h"
#include "protocol.h"
#include "store.h"

#include <errno.h>
#include <signal.h>
#include <stdio.h>
#include <stdlib.h>
#include <string.h>
#include <sys/socket.h>
#include <sys/stat.h>
#include <sys/un.h>
#include <unistd.h>

static const char usage[] =
    "usage: server [--fresh] [--turn MILLISECONDS] SOCKET FILE\n"
    "\n"
    "Serves the object in FILE to clients at SOCKET, until it is ended.\n"
    "\n"
    "  --fresh  makes FILE first, with a rota of six posts; it mustn't be there yet\n"
    "  --turn   how long one client may keep the others waiting; 5000 if it isn't said\n";

struct options {
    int fresh;
    uint64_t turn;
    const char *socket_path, *file_path;
};

struct server {
    struct store store;
    struct object object;
    uint8_t *draft; /* room for a slice: a command is tried there, and the object stays as it is until that is kept */
};

__attribute__((noreturn)) static void stop(const char *what, const char *reason)
{
    fprintf(stderr, "server: %s: %s\n", what, reason);
    exit(1);
}

static uint8_t *allocate(size_t size)
{
    uint8_t *memory = malloc(size > 0 ? size : 1); /* for 0 bytes it may be null */
    if (memory == NULL)
        stop("the object", "no memory");
    return memory;
}

/* ---- The object ---- */

/* A rota with a name at each post, written by one command. */
static struct object fresh_rota(void)
{
    struct object rota = { PARTITION, OBJECT, 0, ROTA_BYTES, TAG, EPOCH, allocate(ROTA_BYTES), ROTA_BYTES };
    uint8_t office[HOLMWEDER_CAPABILITY_BYTES];
    struct command command;
    uint64_t count;
    uint32_t number;
    memset(rota.slice, 0, rota.slice_length);
    permit(office, MAY_WRITE, ROTA_BYTES);
    number = compose(&command, HOLMWEDER_WRITE, office, all_posts, POSTS, first_names);
    if (number == 0)
        number = holmweder_execute(command.cdb, sizeof command.cdb, command.out, command.out_length, rota.partition,
                                   rota.object, rota.length, rota.maximum, rota.tag, rota.epoch, rota.slice,
                                   rota.slice_length, NULL, 0, &count, &rota.length);
    if (number != 0)
        stop("a fresh rota", meaning(number));
    return rota;
}

static void make_fresh(const struct store *store)
{
    struct object rota, there;
    const char *reason;
    if (load(store, &there, &reason) != NOT_THERE)
        stop(store->path, "it is there already, and stays as it is");
    rota = fresh_rota();
    if (save(store, &rota) != SAVED)
        stop(store->path, strerror(errno));
    free(rota.slice);
}

static void open_object(struct server *server, const struct options *options)
{
    const char *reason = open_store(&server->store, options->file_path);
    if (reason != NULL)
        stop(options->file_path, reason);
    if (options->fresh)
        make_fresh(&server->store);
    switch (load(&server->store, &server->object, &reason)) {
    case LOADED:
        break;
    case NOT_THERE:
        stop(options->file_path, "it isn't there; --fresh makes one");
    case NOT_SOUND:
        stop(options->file_path, reason);
    }
    server->draft = allocate(server->object.slice_length);
}

/* ---- One client ---- */

static void refuse(const struct turn *turn, uint32_t status, const char *reason)
{
    fprintf(stderr, "server: a client was refused: %s\n", reason);
    /* One that is gone doesn't hear it, and needn't. */
    send_refusal(turn, status, reason);
}

/* A READ changes nothing, and has bytes to send back. A sound CDB has its service action at 8. */
static int is_read(const struct request *request)
{
    return request->cdb_length == HOLMWEDER_CDB_BYTES && number_at(request->cdb + 8, 2) == HOLMWEDER_READ;
}

/* The draft becomes the object, first on the disk and then here. Nonzero where it has. */
static int keep_draft(struct server *server, const struct turn *turn, uint64_t length)
{
    struct object changed = server->object;
    char reason[MOST_REASON_BYTES + 1];
    enum saved saved;
    changed.length = length;
    changed.slice = server->draft;
    saved = save(&server->store, &changed);
    if (saved == SAVED) {
        server->draft = server->object.slice;
        server->object = changed;
        return 1;
    }
    if (saved == NOT_SAVED) {
        snprintf(reason, sizeof reason, "not kept, and the object is as it was: %s", strerror(errno));
        refuse(turn, NOT_KEPT, reason);
        return 0;
    }
    /* To go on would be to guess. The next start reads what the disk has. */
    snprintf(reason, sizeof reason, "carried out, but the disk may lose it, and the server ends: %s", strerror(errno));
    refuse(turn, NOT_KEPT, reason);
    stop(server->store.path, reason);
}

/* Carries the request's command out and answers it. Nonzero where the turn can go on. */
static int answer_request(struct server *server, const struct turn *turn, const struct request *request)
{
    static struct answer answer;
    const struct object *object = &server->object;
    memcpy(server->draft, object->slice, object->slice_length);
    answer.number = holmweder_execute(request->cdb, request->cdb_length, request->out, request->out_length,
                                      object->partition, object->object, object->length, object->maximum, object->tag,
                                      object->epoch, server->draft, object->slice_length, answer.input,
                                      request->input_length, &answer.count, &answer.next_length);
    answer.sense_key = holmweder_sense_key(answer.number);
    answer.sense_code = holmweder_sense_code(answer.number);
    answer.status = holmweder_status(answer.number);
    /* What stands behind these bytes is from earlier, and nobody's business. */
    answer.input_length = is_read(request) ? (uint32_t)answer.count : 0;
    if (answer.number == 0 && !is_read(request) && !keep_draft(server, turn, answer.next_length))
        return 0;
    if (!send_answer(turn, &answer))
        return 0;
    moment("answered");
    return 1;
}

static void serve(struct server *server, const struct turn *turn)
{
    static struct request request;
    const char *reason;
    for (int answered = 0;; answered = 1) {
        enum received received = receive_request(turn, &request, &reason);
        if (received == ENDED && answered)
            return;
        if (received != RECEIVED) {
            refuse(turn, NO_REQUEST, reason);
            return;
        }
        if (!answer_request(server, turn, &request))
            return;
    }
}

/* ---- The socket ---- */

static struct sockaddr_un address_of(const char *path)
{
    struct sockaddr_un address;
    memset(&address, 0, sizeof address);
    address.sun_family = AF_UNIX;
    if (strlen(path) >= sizeof address.sun_path)
        stop(path, "a socket's path has at most 107 bytes");
    memcpy(address.sun_path, path, strlen(path));
    return address;
}

static int new_socket(int flags)
{
    int made = socket(AF_UNIX, SOCK_STREAM | SOCK_CLOEXEC | flags, 0);
    if (made < 0)
        stop("a socket", strerror(errno));
    return made;
}

/* Removes the socket that a killed server has left. Another server's, or something else, stays. */
static void remove_leftover(const char *path, const struct sockaddr_un *address)
{
    struct stat found;
    int probe, is_left;
    if (lstat(path, &found) != 0)
        return;
    if (!S_ISSOCK(found.st_mode))
        stop(path, "it is there already, and is no socket");
    probe = new_socket(SOCK_NONBLOCK);
    is_left = connect(probe, (const struct sockaddr *)address, sizeof *address) != 0 && errno == ECONNREFUSED;
    close(probe);
    if (!is_left)
        stop(path, "another server listens there");
    if (unlink(path) != 0)
        stop(path, strerror(errno));
}

static int listen_at(const char *path)
{
    struct sockaddr_un address = address_of(path);
    int listener;
    remove_leftover(path, &address);
    listener = new_socket(0);
    if (bind(listener, (const struct sockaddr *)&address, sizeof address) != 0 || listen(listener, SOMAXCONN) != 0)
        stop(path, strerror(errno));
    return listener;
}

static int next_client(int listener)
{
    for (;;) {
        int client = accept(listener, NULL, NULL);
        if (client >= 0)
            return client;
        if (errno != EINTR && errno != ECONNABORTED)
            stop("the next client", strerror(errno));
    }
}

/* ---- Options ---- */

/* 0 where the text isn't a number from 1 to 3600000. */
static uint64_t milliseconds(const char *text)
{
    const uint64_t most = 3600000;
    uint64_t number = 0;
    for (; *text >= '0' && *text <= '9'; text++) {
        number = number * 10 + (uint64_t)(*text - '0');
        if (number > most)
            return 0;
    }
    return *text == 0 ? number : 0;
}

/* Nonzero where the words are as the usage says. */
static int read_options(struct options *options, char **words)
{
    options->fresh = 0;
    options->turn = 5000;
    for (; *words != NULL && **words == '-'; words++) {
        if (strcmp(*words, "--fresh") == 0)
            options->fresh = 1;
        else if (strcmp(*words, "--turn") == 0 && words[1] != NULL)
            options->turn = milliseconds(*++words);
        else
            return 0;
    }
    if (options->turn == 0 || words[0] == NULL || words[1] == NULL || words[2] != NULL)
        return 0;
    options->socket_path = words[0];
    options->file_path = words[1];
    return 1;
}

int main(int count, char **words)
{
    static struct server server;
    struct options options;
    int listener;
    if (count < 1 || !read_options(&options, words + 1)) {
        fprintf(stderr, "%s", usage);
        return 2;
    }
    /* A client that is gone shows as a write that fails, and not as a signal that ends the server. */
    signal(SIGPIPE, SIG_IGN);
    open_object(&server, &options);
    listener = listen_at(options.socket_path);
    printf("%s is served at %s\n", options.file_path, options.socket_path);
    fflush(stdout);
    for (;;) {
        int client = next_client(listener);
        struct turn turn = turn_of(client, options.turn);
        serve(&server, &turn);
        close(client);
    }
}
