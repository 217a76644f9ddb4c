/* The TCP connections of the rows: what came in and is not taken yet, what is to go out and is not sent yet. It knows nothing of the core.
   All memory is here, and none of it grows. */
#ifndef ROWS_H
#define ROWS_H

#include <poll.h>
#include <stdbool.h>
#include <stddef.h>
#include <stdint.h>

enum {
    ROWS = 16,       /* as many as the core has */
    REST = 4096,     /* bytes kept of a row that the core has not taken yet */
    QUEUE = 16384,   /* bytes kept for a peer that does not read; one that makes us keep more is dropped */
    PARTING = 32,    /* connections off their rows, whose last bytes are still to be sent and heard */
    PARTING_TICKS = 100 /* how long such a connection may take */
};

struct line_out {
    int socket;      /* -1: none */
    bool broken;     /* its peer does not read, or a send failed: nothing more is sent */
    size_t unsent;
    uint8_t queue[QUEUE];
};

struct row {
    struct line_out out;
    uint8_t farm;
    bool gone;       /* its connection has ended or failed: the core is to be told */
    size_t untaken;
    uint8_t rest[REST];
};

extern struct row rows[ROWS];

void rows_clear(void);
bool row_is_open(size_t row);
void row_open(size_t row, int socket, uint8_t farm);
/* Reads once, as far as there is room in the rest. Marks the row as gone at the end of the stream or on a fault. */
void row_read(size_t row);
/* Strikes out the first bytes of the rest: the core has taken them. */
void row_taken(size_t row, size_t taken);
/* Sends, and queues what the peer does not take. Marks the row as gone if that is too much, or on a fault. */
void row_send(size_t row, const uint8_t *bytes, size_t length);
void row_flush(size_t row);
/* Takes the connection off the row. What is queued still goes out; the rest is dropped. */
void row_close(size_t row);

/* The connections that part. */
size_t parting_polls(struct pollfd *polls);
void parting_serve(const struct pollfd *polls, size_t count);
void parting_tick(void);

#endif
