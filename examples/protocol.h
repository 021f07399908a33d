/*
 * What server.c and client.c say to each other, over a Unix stream socket.
 *
 * A connection is a turn: the client sends requests, and each is answered before the next one is read. The server has
 * one turn at a time, so no other client's command comes between the commands of a turn. A turn has a time limit, so a
 * client that hangs doesn't keep the others waiting for ever.
 *
 *   request   "HWQ1", lengths of CDB, Data-Out and Data-In (4 bytes each), CDB, Data-Out
 *   answer    "HWA1", number, sense key, sense code, status (4 each), count, next logical length (8 each),
 *             length of the bytes that follow (4), Data-In's first `count` bytes on a READ, nothing otherwise
 *   refusal   "HWR1", status (4), length of the reason (4), the reason in words
 *
 * Numbers are big-endian. A CDB has at most 1,024 bytes, Data-Out and Data-In at most 1 MiB each, a reason at most 200.
 * The length of Data-In is the room that the client has for a READ. The numbers of an answer are those of holmweder.h.
 *
 * A command that the engine refuses has an answer. A refusal is for what doesn't reach the engine, or can't be kept:
 * see its statuses below. It ends the turn: the server closes the connection. The object is as it was, unless the
 * reason says otherwise.
 *
 * Whoever ends a turn does so between two frames. A client that is gone before it has read an answer can't know whether
 * its command was carried out; it asks again in a new turn.
 */
#ifndef PROTOCOL_H
#define PROTOCOL_H

#include <stddef.h>
#include <stdint.h>

enum { MOST_CDB_BYTES = 1024, MOST_OUT_BYTES = 1 << 20, MOST_INPUT_BYTES = 1 << 20, MOST_REASON_BYTES = 200 };

/* A refusal's statuses. */
enum { NO_REQUEST = 1, NOT_KEPT = 2 };

struct request {
    uint32_t cdb_length, out_length, input_length;
    uint8_t cdb[MOST_CDB_BYTES];
    uint8_t out[MOST_OUT_BYTES];
};

struct answer {
    uint32_t number, sense_key, sense_code, status;
    uint64_t count, next_length;
    uint32_t input_length;
    uint8_t input[MOST_INPUT_BYTES];
};

/* One end of a turn. */
struct turn {
    int socket;
    uint64_t end; /* in milliseconds of the clock that is never set */
};

struct turn turn_of(int socket, uint64_t milliseconds);

enum received {
    RECEIVED,
    REFUSED,  /* a refusal came instead of an answer */
    ENDED,    /* the connection ended before the first byte */
    NO_FRAME, /* what came is none */
};

/* The server's side. Where the request isn't RECEIVED, `reason` says why. */
enum received receive_request(const struct turn *turn, struct request *request, const char **reason);
/* Nonzero where all of it was sent. */
int send_answer(const struct turn *turn, const struct answer *answer);
int send_refusal(const struct turn *turn, uint32_t status, const char *reason);

/* The client's side. Where the answer isn't RECEIVED, the reason is the server's own, or why there is none. */
int send_request(const struct turn *turn, const struct request *request);
enum received receive_answer(const struct turn *turn, struct answer *answer, char reason[MOST_REASON_BYTES + 1]);

#endif
