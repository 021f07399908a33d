/* The frames between server.c and client.c; protocol.h says what they are. */
#define _DEFAULT_SOURCE /* clock_gettime, MSG_DONTWAIT */

#include "protocol.h"

#include "bytes.h"

#include <errno.h>
#include <poll.h>
#include <stdio.h>
#include <string.h>
#include <sys/socket.h>
#include <time.h>

enum { MAGIC_BYTES = 4, REQUEST_HEAD_BYTES = 12, ANSWER_HEAD_BYTES = 36, REFUSAL_HEAD_BYTES = 8 };

static const char request_magic[] = "HWQ1", answer_magic[] = "HWA1", refusal_magic[] = "HWR1";

/* ---- Time ---- */

static uint64_t milliseconds_now(void)
{
    struct timespec now;
    clock_gettime(CLOCK_MONOTONIC, &now);
    return (uint64_t)now.tv_sec * 1000 + (uint64_t)now.tv_nsec / 1000000;
}

struct turn turn_of(int socket, uint64_t milliseconds)
{
    struct turn turn = { socket, milliseconds_now() + milliseconds };
    return turn;
}

static uint64_t milliseconds_left(const struct turn *turn)
{
    uint64_t now = milliseconds_now();
    return now < turn->end ? turn->end - now : 0;
}

/* Waits for the event, or for the turn's end. A signal may wake it early: the caller tries again, and comes back. */
static void wait_for(const struct turn *turn, short event)
{
    const uint64_t longest = 60000; /* so that it fits into an int */
    uint64_t left = milliseconds_left(turn);
    struct pollfd file = { turn->socket, event, 0 };
    poll(&file, 1, (int)(left < longest ? left : longest));
}

/* ---- Bytes. A socket takes and gives as many as it likes, so each is asked until all have gone through. ---- */

enum passed { ALL, CUT_OFF, LATE, FAILED };

/* `got` receives how many bytes came before one of the other ends. */
static enum passed receive_bytes(const struct turn *turn, void *to, size_t size, size_t *got)
{
    *got = 0;
    while (*got < size) {
        ssize_t more;
        /* Asked before every byte: one that trickles in, or never stops, mustn't lengthen the turn. */
        if (milliseconds_left(turn) == 0)
            return LATE;
        more = recv(turn->socket, (uint8_t *)to + *got, size - *got, MSG_DONTWAIT);
        if (more > 0) {
            *got += (size_t)more;
            continue;
        }
        if (more == 0)
            return CUT_OFF;
        if (errno == EINTR)
            continue;
        if (errno != EAGAIN)
            return FAILED;
        wait_for(turn, POLLIN);
    }
    return ALL;
}

/* Tries first and asks for the time afterwards: a turn that is over is told so. */
static enum passed send_bytes(const struct turn *turn, const void *from, size_t size)
{
    size_t sent = 0;
    while (sent < size) {
        ssize_t more = send(turn->socket, (const uint8_t *)from + sent, size - sent, MSG_DONTWAIT);
        if (more >= 0) {
            sent += (size_t)more;
            continue;
        }
        if (errno == EINTR)
            continue;
        if (errno != EAGAIN)
            return FAILED;
        if (milliseconds_left(turn) == 0)
            return LATE;
        wait_for(turn, POLLOUT);
    }
    return ALL;
}

static const char *reason_of(enum passed passed)
{
    switch (passed) {
    case ALL:
        return "nothing is wrong";
    case CUT_OFF:
        return "cut off: the connection ended in the middle";
    case LATE:
        return "too late: the rest didn't come in time";
    case FAILED:
        break;
    }
    return "the connection broke";
}

/* All the bytes, or the reason why they aren't there. */
static enum received receive_part(const struct turn *turn, void *to, size_t size, const char **reason)
{
    size_t got;
    enum passed passed = receive_bytes(turn, to, size, &got);
    *reason = reason_of(passed);
    return passed == ALL ? RECEIVED : NO_FRAME;
}

/* The first bytes of a frame. Only before them may the other side end the turn. */
static enum received receive_magic(const struct turn *turn, char magic[MAGIC_BYTES], const char **reason)
{
    size_t got;
    enum passed passed = receive_bytes(turn, magic, MAGIC_BYTES, &got);
    *reason = reason_of(passed);
    if (passed == ALL)
        return RECEIVED;
    if (got > 0 || passed == FAILED)
        return NO_FRAME;
    *reason = passed == LATE ? "too late: the time for this turn is over" : "nothing came: the connection ended";
    return passed == LATE ? NO_FRAME : ENDED;
}

static int is_magic(const char *magic, const char *due)
{
    return memcmp(magic, due, MAGIC_BYTES) == 0;
}

/* ---- Requests ---- */

/* Null where every length is within its limit. */
static const char *length_fault(const struct request *request)
{
    if (request->cdb_length > MOST_CDB_BYTES)
        return "over a limit: a CDB has at most 1024 bytes";
    if (request->out_length > MOST_OUT_BYTES)
        return "over a limit: Data-Out has at most 1048576 bytes";
    if (request->input_length > MOST_INPUT_BYTES)
        return "over a limit: Data-In has at most 1048576 bytes";
    return NULL;
}

static enum received receive_request_head(const struct turn *turn, struct request *request, const char **reason)
{
    uint8_t head[REQUEST_HEAD_BYTES];
    if (receive_part(turn, head, sizeof head, reason) != RECEIVED)
        return NO_FRAME;
    request->cdb_length = (uint32_t)number_at(head, 4);
    request->out_length = (uint32_t)number_at(head + 4, 4);
    request->input_length = (uint32_t)number_at(head + 8, 4);
    *reason = length_fault(request);
    return *reason == NULL ? RECEIVED : NO_FRAME;
}

/* What is wrong is said as soon as it is known: who sends something else may wait for an answer before it goes on. */
enum received receive_request(const struct turn *turn, struct request *request, const char **reason)
{
    char magic[MAGIC_BYTES];
    enum received received = receive_magic(turn, magic, reason);
    if (received != RECEIVED)
        return received;
    if (!is_magic(magic, request_magic)) {
        *reason = "no request: it doesn't begin with HWQ1";
        return NO_FRAME;
    }
    if (receive_request_head(turn, request, reason) != RECEIVED)
        return NO_FRAME;
    if (receive_part(turn, request->cdb, request->cdb_length, reason) != RECEIVED)
        return NO_FRAME;
    return receive_part(turn, request->out, request->out_length, reason);
}

int send_request(const struct turn *turn, const struct request *request)
{
    uint8_t head[MAGIC_BYTES + REQUEST_HEAD_BYTES], *at = head + MAGIC_BYTES;
    memcpy(head, request_magic, MAGIC_BYTES);
    at = put_number(at, request->cdb_length, 4);
    at = put_number(at, request->out_length, 4);
    put_number(at, request->input_length, 4);
    return send_bytes(turn, head, sizeof head) == ALL &&
           send_bytes(turn, request->cdb, request->cdb_length) == ALL &&
           send_bytes(turn, request->out, request->out_length) == ALL;
}

/* ---- Answers and refusals ---- */

int send_answer(const struct turn *turn, const struct answer *answer)
{
    uint8_t head[MAGIC_BYTES + ANSWER_HEAD_BYTES], *at = head + MAGIC_BYTES;
    memcpy(head, answer_magic, MAGIC_BYTES);
    at = put_number(at, answer->number, 4);
    at = put_number(at, answer->sense_key, 4);
    at = put_number(at, answer->sense_code, 4);
    at = put_number(at, answer->status, 4);
    at = put_number(at, answer->count, 8);
    at = put_number(at, answer->next_length, 8);
    put_number(at, answer->input_length, 4);
    return send_bytes(turn, head, sizeof head) == ALL &&
           send_bytes(turn, answer->input, answer->input_length) == ALL;
}

int send_refusal(const struct turn *turn, uint32_t status, const char *reason)
{
    uint8_t frame[MAGIC_BYTES + REFUSAL_HEAD_BYTES + MOST_REASON_BYTES], *at = frame + MAGIC_BYTES;
    size_t length = strlen(reason);
    if (length > MOST_REASON_BYTES)
        length = MOST_REASON_BYTES;
    memcpy(frame, refusal_magic, MAGIC_BYTES);
    at = put_number(at, status, 4);
    at = put_number(at, length, 4);
    memcpy(at, reason, length);
    return send_bytes(turn, frame, MAGIC_BYTES + REFUSAL_HEAD_BYTES + length) == ALL;
}

static enum received receive_refusal(const struct turn *turn, char reason[MOST_REASON_BYTES + 1], const char **fault)
{
    uint8_t head[REFUSAL_HEAD_BYTES];
    size_t length;
    if (receive_part(turn, head, sizeof head, fault) != RECEIVED)
        return NO_FRAME;
    length = (size_t)number_at(head + 4, 4);
    if (length > MOST_REASON_BYTES) {
        *fault = "over a limit: a reason has at most 200 bytes";
        return NO_FRAME;
    }
    if (receive_part(turn, reason, length, fault) != RECEIVED)
        return NO_FRAME;
    reason[length] = 0;
    return REFUSED;
}

static enum received receive_rest_of_answer(const struct turn *turn, struct answer *answer, const char **fault)
{
    uint8_t head[ANSWER_HEAD_BYTES];
    if (receive_part(turn, head, sizeof head, fault) != RECEIVED)
        return NO_FRAME;
    answer->number = (uint32_t)number_at(head, 4);
    answer->sense_key = (uint32_t)number_at(head + 4, 4);
    answer->sense_code = (uint32_t)number_at(head + 8, 4);
    answer->status = (uint32_t)number_at(head + 12, 4);
    answer->count = number_at(head + 16, 8);
    answer->next_length = number_at(head + 24, 8);
    answer->input_length = (uint32_t)number_at(head + 32, 4);
    if (answer->input_length > MOST_INPUT_BYTES) {
        *fault = "over a limit: Data-In has at most 1048576 bytes";
        return NO_FRAME;
    }
    return receive_part(turn, answer->input, answer->input_length, fault);
}

static enum received receive_frame(const struct turn *turn, struct answer *answer, char *reason, const char **fault)
{
    char magic[MAGIC_BYTES];
    enum received received = receive_magic(turn, magic, fault);
    if (received != RECEIVED)
        return received;
    if (is_magic(magic, refusal_magic))
        return receive_refusal(turn, reason, fault);
    if (is_magic(magic, answer_magic))
        return receive_rest_of_answer(turn, answer, fault);
    *fault = "no answer: it begins with neither HWA1 nor HWR1";
    return NO_FRAME;
}

enum received receive_answer(const struct turn *turn, struct answer *answer, char reason[MOST_REASON_BYTES + 1])
{
    const char *fault;
    enum received received = receive_frame(turn, answer, reason, &fault);
    if (received == ENDED || received == NO_FRAME)
        snprintf(reason, MOST_REASON_BYTES + 1, "%s", fault);
    return received;
}
