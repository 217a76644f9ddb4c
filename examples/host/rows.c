#include "rows.h"

#include <errno.h>
#include <string.h>
#include <sys/socket.h>
#include <unistd.h>

struct row rows[ROWS];

static struct {
    struct line_out out;
    int ticks;       /* how many are left to it */
    bool finished;   /* our side is shut: only the peer's end is awaited */
} parting[PARTING];

void rows_clear(void)
{
    for (size_t i = 0; i < ROWS; i++)
        rows[i].out.socket = -1;
    for (size_t i = 0; i < PARTING; i++)
        parting[i].out.socket = -1;
}

bool row_is_open(size_t row)
{
    return row < ROWS && rows[row].out.socket >= 0;
}

void row_open(size_t row, int socket, uint8_t farm)
{
    rows[row].out.socket = socket;
    rows[row].out.broken = false;
    rows[row].out.unsent = 0;
    rows[row].farm = farm;
    rows[row].gone = false;
    rows[row].untaken = 0;
}

static bool only_later(void)
{
    return errno == EAGAIN || errno == EWOULDBLOCK || errno == EINTR;
}

void row_read(size_t row)
{
    struct row *r = &rows[row];
    if (r->untaken == REST)
        return;
    ssize_t got = recv(r->out.socket, r->rest + r->untaken, REST - r->untaken, 0);
    if (got > 0)
        r->untaken += (size_t)got;
    else if (got == 0 || !only_later())
        r->gone = true;
}

void row_taken(size_t row, size_t taken)
{
    struct row *r = &rows[row];
    r->untaken -= taken;
    memmove(r->rest, r->rest + taken, r->untaken);
}

/* Sends what it can. Gives the number of bytes that went out, or -1 on a fault. */
static ssize_t send_some(int socket, const uint8_t *bytes, size_t length)
{
    ssize_t sent = send(socket, bytes, length, MSG_NOSIGNAL);
    if (sent >= 0)
        return sent;
    return only_later() ? 0 : -1;
}

static bool flush(struct line_out *out)
{
    if (out->unsent == 0)
        return true;
    ssize_t sent = send_some(out->socket, out->queue, out->unsent);
    if (sent < 0)
        return false;
    out->unsent -= (size_t)sent;
    memmove(out->queue, out->queue + sent, out->unsent);
    return true;
}

static void give_up(struct row *r)
{
    r->out.broken = true;
    r->gone = true;
}

void row_send(size_t row, const uint8_t *bytes, size_t length)
{
    struct row *r = &rows[row];
    ssize_t sent = 0;
    if (r->out.broken)
        return;
    if (r->out.unsent == 0)
        sent = send_some(r->out.socket, bytes, length);
    if (sent < 0 || length - (size_t)sent > QUEUE - r->out.unsent) {
        give_up(r);
        return;
    }
    memcpy(r->out.queue + r->out.unsent, bytes + sent, length - (size_t)sent);
    r->out.unsent += length - (size_t)sent;
}

void row_flush(size_t row)
{
    if (!flush(&rows[row].out))
        give_up(&rows[row]);
}

static void part(size_t i)
{
    close(parting[i].out.socket);
    parting[i].out.socket = -1;
}

/* To close at once with bytes unread would reset the connection, and the peer might lose the last message on its way. So our
   side is shut once all is sent, and what the peer still says is read and dropped until its end, for a limited time. */
static void part_on(size_t i)
{
    if (!flush(&parting[i].out)) {
        part(i);
    } else if (parting[i].out.unsent == 0 && !parting[i].finished) {
        parting[i].finished = true;
        shutdown(parting[i].out.socket, SHUT_WR);
    }
}

void row_close(size_t row)
{
    struct line_out *out = &rows[row].out;
    size_t i = 0;
    while (i < PARTING && parting[i].out.socket >= 0)
        i++;
    if (i == PARTING || out->broken) {
        close(out->socket);
    } else {
        parting[i].out = *out;
        parting[i].ticks = PARTING_TICKS;
        parting[i].finished = false;
        part_on(i);
    }
    out->socket = -1;
}

size_t parting_polls(struct pollfd *polls)
{
    size_t count = 0;
    for (size_t i = 0; i < PARTING; i++) {
        if (parting[i].out.socket < 0)
            continue;
        polls[count].fd = parting[i].out.socket;
        polls[count].events = (short)(parting[i].out.unsent > 0 ? POLLIN | POLLOUT : POLLIN);
        polls[count].revents = 0;
        count++;
    }
    return count;
}

static void part_serve(size_t i, short events)
{
    if (events & (POLLIN | POLLHUP | POLLERR)) {
        static uint8_t dropped[4096];
        ssize_t got = recv(parting[i].out.socket, dropped, sizeof dropped, 0);
        if (got == 0 || (got < 0 && !only_later())) {
            part(i);
            return;
        }
    }
    part_on(i);
}

void parting_serve(const struct pollfd *polls, size_t count)
{
    for (size_t p = 0; p < count; p++)
        for (size_t i = 0; i < PARTING; i++)
            if (polls[p].revents != 0 && parting[i].out.socket == polls[p].fd)
                part_serve(i, polls[p].revents);
}

void parting_tick(void)
{
    for (size_t i = 0; i < PARTING; i++)
        if (parting[i].out.socket >= 0 && --parting[i].ticks == 0)
            part(i);
}
