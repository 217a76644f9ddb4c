/* An example host: it serves the farms of a farm sheet on loopback, over the core. A box maker may start from here. */
#include "core.h"
#include "rows.h"

#include <arpa/inet.h>
#include <errno.h>
#include <fcntl.h>
#include <netinet/in.h>
#include <netinet/tcp.h>
#include <poll.h>
#include <signal.h>
#include <stdio.h>
#include <stdlib.h>
#include <string.h>
#include <sys/socket.h>
#include <time.h>
#include <unistd.h>

enum { FARMS = 4, TICK_MS = 10, POLLS = 2 * FARMS + ROWS + PARTING + 1 };

static int listeners[FARMS], datagrams[FARMS];
static volatile sig_atomic_t stopped;

static void stop(int number)
{
    (void)number;
    stopped = 1;
}

static int64_t milliseconds(void)
{
    struct timespec now;
    clock_gettime(CLOCK_MONOTONIC, &now);
    return (int64_t)now.tv_sec * 1000 + now.tv_nsec / 1000000;
}

/* ---- sockets ---- */

static bool unblocking(int socket)
{
    return fcntl(socket, F_SETFL, O_NONBLOCK) == 0;
}

/* On 127.0.0.1 and nowhere else. -1 after saying what is wrong. */
static int bound(int type, int port)
{
    struct sockaddr_in at = {.sin_family = AF_INET, .sin_port = htons((uint16_t)port)};
    at.sin_addr.s_addr = htonl(INADDR_LOOPBACK);
    int s = socket(AF_INET, type, 0), yes = 1;
    if (s >= 0 && type == SOCK_STREAM)
        setsockopt(s, SOL_SOCKET, SO_REUSEADDR, &yes, sizeof yes);
    if (s < 0 || bind(s, (struct sockaddr *)&at, sizeof at) != 0 || !unblocking(s) ||
        (type == SOCK_STREAM && listen(s, 16) != 0)) {
        fprintf(stderr, "host: %s port %d on 127.0.0.1: %s\n", type == SOCK_STREAM ? "TCP" : "UDP", port,
                strerror(errno));
        return -1;
    }
    return s;
}

static bool open_ports(int port)
{
    for (size_t farm = 0; farm < core_farms(); farm++) {
        listeners[farm] = bound(SOCK_STREAM, port + (int)farm);
        if (listeners[farm] < 0)
            return false;
        datagrams[farm] = bound(SOCK_DGRAM, port + (int)farm);
        if (datagrams[farm] < 0)
            return false;
    }
    for (size_t farm = 0; farm < core_farms(); farm++)
        printf("farm %zu on 127.0.0.1 port %d\n", farm, port + (int)farm);
    return true;
}

static void accept_one(uint8_t farm)
{
    int s = accept(listeners[farm], NULL, NULL), yes = 1;
    if (s < 0)
        return;
    setsockopt(s, IPPROTO_TCP, TCP_NODELAY, &yes, sizeof yes); /* messages are small and should go at once */
    if (unblocking(s))
        core_accepted(farm, s);
    else
        close(s);
}

/* ---- commands on standard input: `lost F`, `meters` ---- */

static bool commands_open = true;

static void obey(const char *line)
{
    char farm, over;
    if (strcmp(line, "meters") == 0)
        core_meters();
    else if (sscanf(line, "lost %c%c", &farm, &over) == 1 && farm >= '0' && farm <= '9')
        core_link_lost((uint8_t)(farm - '0'));
    else
        printf("commands: lost F (the link of farm F is lost), meters\n");
}

static void read_commands(void)
{
    static char line[80];
    static size_t have;
    char c;
    ssize_t got = read(STDIN_FILENO, &c, 1);
    if (got <= 0) {
        commands_open = false;
    } else if (c == '\n') {
        line[have] = 0;
        have = 0;
        obey(line);
    } else if (have + 1 < sizeof line) {
        line[have++] = c;
    }
}

/* ---- the loop ---- */

static void add(struct pollfd *polls, size_t *count, int socket, short events)
{
    polls[*count].fd = socket;
    polls[*count].events = events;
    polls[*count].revents = 0;
    (*count)++;
}

/* A row is read only as long as there is room for what the core may not take. */
static short wanted(const struct row *r)
{
    short events = 0;
    if (r->untaken < REST)
        events |= POLLIN;
    if (r->out.unsent > 0)
        events |= POLLOUT;
    return events;
}

static void serve_row(size_t row, const struct pollfd *p)
{
    if (p->revents == 0 || rows[row].out.socket != p->fd)
        return; /* nothing, or the row was closed, and perhaps opened anew, since the poll */
    if (p->revents & POLLOUT)
        row_flush(row);
    if (p->events & POLLIN)
        row_read(row);
    else if (p->revents & (POLLERR | POLLHUP | POLLNVAL))
        rows[row].gone = true;
}

/* Waits for something to do, at most so long, and does it. */
static void turn(int wait)
{
    struct pollfd polls[POLLS];
    size_t farms = core_farms(), count = 0, at[ROWS];
    for (size_t farm = 0; farm < farms; farm++) {
        add(polls, &count, listeners[farm], POLLIN);
        add(polls, &count, datagrams[farm], POLLIN);
    }
    for (size_t row = 0; row < ROWS; row++) {
        at[row] = count;
        add(polls, &count, rows[row].out.socket, wanted(&rows[row])); /* poll passes over a socket of -1 */
    }
    size_t parting = parting_polls(polls + count), first = count;
    count += parting;
    if (commands_open)
        add(polls, &count, STDIN_FILENO, POLLIN);
    if (poll(polls, (nfds_t)count, wait) <= 0)
        return;
    parting_serve(polls + first, parting);
    for (size_t row = 0; row < ROWS; row++)
        if (row_is_open(row))
            serve_row(row, &polls[at[row]]);
    for (size_t farm = 0; farm < farms; farm++) {
        if (polls[2 * farm].revents != 0)
            accept_one((uint8_t)farm);
        if (polls[2 * farm + 1].revents != 0)
            core_datagram((uint8_t)farm, datagrams[farm]);
    }
    if (commands_open && polls[count - 1].revents != 0)
        read_commands();
}

/* What the core has not taken is offered again on every turn: a row that waited may have its answer by now. */
static void pump_all(void)
{
    for (size_t row = 0; row < ROWS; row++)
        if (row_is_open(row))
            core_pump(row);
}

static void serve(int64_t end)
{
    int64_t next = milliseconds() + TICK_MS;
    while (!stopped && !core_fault) {
        int64_t now = milliseconds();
        if (end >= 0 && now >= end)
            return;
        /* a late tick is made up for, one in each turn, so that the sockets are read in between */
        turn(next > now ? (int)(next - now) : 0);
        pump_all();
        if (milliseconds() >= next) {
            next += TICK_MS;
            core_tick();
            parting_tick();
        }
    }
}

/* ---- arguments ---- */

static int usage(void)
{
    fprintf(stderr, "usage: host [--port N] [--seconds N] [--echo] SHEET\n"
                    "  SHEET       the farm sheet, a file that sheet.py makes\n"
                    "  --port N    farm 0 has TCP and UDP port N of 127.0.0.1, farm 1 the next, and so on (13400)\n"
                    "  --seconds N ends after so long (never)\n"
                    "  --echo      answers every diagnostic message that is handed on as a willing controller would\n");
    return 2;
}

/* A number from 0 to most, or -1. */
static long number(const char *text, long most)
{
    char *end;
    errno = 0;
    long n = text == NULL ? -1 : strtol(text, &end, 10);
    if (n < 0 || n > most || errno != 0 || end == text || *end != 0)
        return -1;
    return n;
}

int main(int count, char **words)
{
    const char *sheet = NULL;
    long port = 13400, seconds = -1;
    for (int i = 1; i < count; i++) {
        if (strcmp(words[i], "--echo") == 0) {
            core_echo(true);
        } else if (strcmp(words[i], "--port") == 0) {
            port = number(words[++i], 65535 - FARMS);
            if (port < 1)
                return usage();
        } else if (strcmp(words[i], "--seconds") == 0) {
            seconds = number(words[++i], 1000000);
            if (seconds < 0)
                return usage();
        } else if (words[i][0] == '-' || sheet != NULL) {
            return usage();
        } else {
            sheet = words[i];
        }
    }
    if (sheet == NULL)
        return usage();
    setvbuf(stdout, NULL, _IOLBF, BUFSIZ);
    signal(SIGINT, stop);
    signal(SIGTERM, stop);
    signal(SIGPIPE, SIG_IGN);
    rows_clear();
    if (!core_start(sheet) || !open_ports((int)port))
        return 1;
    serve(seconds < 0 ? -1 : milliseconds() + seconds * 1000);
    core_meters();
    return core_fault ? 3 : 0;
}
