#include "core.h"
#include "dokrawin.h"
#include "rows.h"

#include <netinet/in.h>
#include <stdio.h>
#include <string.h>
#include <sys/socket.h>
#include <unistd.h>

/* What the core is lent, through the whole run. */
static uint8_t sheet[DOKRAWIN_SHEET_MOST + 1];
static size_t sheet_length;
static uint8_t table[DOKRAWIN_TABLE];
static uint8_t output[DOKRAWIN_OUTPUT];
static uint8_t assembling[DOKRAWIN_ASSEMBLING];

#define LENT sheet, sheet_length, table, output, sizeof output, assembling, sizeof assembling

bool core_fault;
static bool echo;

/* The message that was handed on last: the echo answers it once its sheet is carried out. */
static struct {
    uint8_t farm;
    size_t length;       /* 0: none */
    uint8_t payload[2048];
} handed;

/* Whom a datagram's reply goes to. */
static struct {
    int socket;
    struct sockaddr_in sender;
} asker;

static const char *refusal(uint8_t number)
{
    switch (number) {
    case DOKRAWIN_BAD_SHEET: return "the farm sheet breaks a rule";
    case DOKRAWIN_BAD_OUTPUT: return "the output buffer is too short";
    case DOKRAWIN_BAD_ASSEMBLING: return "the assembling buffer has a wrong length";
    case DOKRAWIN_BAD_TABLE: return "the table is damaged or belongs to another sheet";
    case DOKRAWIN_NO_FARM: return "there is no such farm";
    case DOKRAWIN_NOT_OPEN: return "the row is not open";
    case DOKRAWIN_WAITING: return "the row waits for its activation";
    case DOKRAWIN_NO_FREE_ROW: return "no row is free";
    case DOKRAWIN_BAD_USER_DATA: return "no user data, or too much";
    case DOKRAWIN_NOBODY: return "no such controller, or the tester is not active";
    default: return "unknown number";
    }
}

static void fault(const char *call, uint8_t number)
{
    fprintf(stderr, "host: %s: refusal %u, %s\n", call, number, refusal(number));
    core_fault = true;
}

/* ---- the farm sheet ---- */

static bool read_sheet(const char *file)
{
    FILE *f = fopen(file, "rb");
    if (f == NULL) {
        fprintf(stderr, "host: the farm sheet can't be opened: ");
        perror(file);
        return false;
    }
    sheet_length = fread(sheet, 1, sizeof sheet, f);
    bool failed = ferror(f) != 0;
    fclose(f);
    if (failed)
        fprintf(stderr, "host: the farm sheet can't be read: %s\n", file);
    return !failed;
}

bool core_start(const char *sheet_file)
{
    if (!read_sheet(sheet_file))
        return false;
    dokrawin_answer a = dokrawin_start(LENT);
    if (a.number == DOKRAWIN_DONE)
        return true;
    fault("start", a.number);
    if (a.number == DOKRAWIN_BAD_SHEET)
        fprintf(stderr, "host: `sheet.py check %s` says which rule\n", sheet_file);
    return false;
}

size_t core_farms(void)
{
    return dokrawin_u16(sheet);
}

void core_echo(bool on)
{
    echo = on;
}

/* ---- carrying out an output sheet ---- */

static void print_hex(const uint8_t *bytes, size_t length)
{
    for (size_t i = 0; i < length; i++)
        printf("%02x", bytes[i]);
    putchar('\n');
}

static void hand_on(const dokrawin_entry *e)
{
    printf("hand on row %u ", e->row);
    print_hex(e->bytes, e->length);
    if (e->length <= sizeof handed.payload) {
        handed.farm = rows[e->row].farm;
        handed.length = e->length;
        memcpy(handed.payload, e->bytes, e->length);
    }
}

static void carry_out_entry(const dokrawin_entry *e)
{
    if (e->kind == DOKRAWIN_SEND && e->row == DOKRAWIN_NO_ROW) {
        /* a datagram that can't be sent is a lost datagram */
        (void)sendto(asker.socket, e->bytes, e->length, 0, (struct sockaddr *)&asker.sender, sizeof asker.sender);
    } else if (!row_is_open(e->row)) {
        fprintf(stderr, "host: an entry for row %u, which has no connection\n", e->row);
        core_fault = true;
    } else if (e->kind == DOKRAWIN_SEND) {
        row_send(e->row, e->bytes, e->length);
    } else if (e->kind == DOKRAWIN_CLOSE) {
        printf("close row %u\n", e->row);
        row_close(e->row);
    } else if (e->kind == DOKRAWIN_HAND_ON) {
        hand_on(e);
    }
}

static void carry_out(dokrawin_answer a)
{
    dokrawin_entry e;
    for (size_t i = 0; dokrawin_entry_at(output, a.length, i, &e); i++)
        carry_out_entry(&e);
}

/* A send may have found out that a connection is gone. Telling the core may bring further sends; each turn closes a row, so this ends. */
static void tell_gone(void)
{
    for (size_t row = 0; row < ROWS; row++) {
        if (!row_is_open(row) || !rows[row].gone)
            continue;
        dokrawin_answer a = dokrawin_peer_closed(LENT, (uint8_t)row);
        if (a.number != DOKRAWIN_DONE) {
            fault("peer closed", a.number);
            return;
        }
        carry_out(a);
        row = (size_t)-1; /* from the first row again */
    }
}

/* As a controller would that says yes to everything: the service number plus 40, then what was asked. */
static void answer_handed(void)
{
    if (handed.length < 5)
        return;
    uint8_t *p = handed.payload;
    size_t user = handed.length - 4;
    handed.length = 0;
    if (!echo)
        return;
    p[4] = (uint8_t)(p[4] + 0x40);
    uint16_t tester = (uint16_t)dokrawin_u16(p), controller = (uint16_t)dokrawin_u16(p + 2);
    dokrawin_answer a = dokrawin_controller_message(LENT, handed.farm, controller, tester, p + 4, user);
    if (a.number == DOKRAWIN_NOBODY)
        printf("echo: the tester has gone\n");
    else if (a.number != DOKRAWIN_DONE)
        fault("controller message", a.number);
    else
        carry_out(a);
}

static void served(dokrawin_answer a)
{
    carry_out(a);
    answer_handed();
}

/* ---- the calls ---- */

void core_accepted(uint8_t farm, int socket)
{
    dokrawin_answer a = dokrawin_connect(LENT, farm);
    if (a.number == DOKRAWIN_DONE && a.row < ROWS) {
        printf("open row %u farm %u\n", a.row, farm);
        row_open(a.row, socket, farm);
        served(a);
        return;
    }
    close(socket);
    if (a.number == DOKRAWIN_NO_FREE_ROW)
        printf("refused farm %u: no row is free\n", farm);
    else
        fault("connect", a.number);
}

/* Gives false when the core takes no more for now. */
static bool offer(size_t row)
{
    struct row *r = &rows[row];
    dokrawin_answer a = dokrawin_bytes(LENT, (uint8_t)row, r->rest, r->untaken);
    if (a.number == DOKRAWIN_WAITING)
        return false;
    if (a.number != DOKRAWIN_DONE || a.taken > r->untaken) {
        fault("bytes", a.number);
        return false;
    }
    row_taken(row, a.taken);
    served(a);
    return a.taken > 0;
}

void core_pump(size_t row)
{
    while (!core_fault && row_is_open(row) && rows[row].untaken > 0)
        if (!offer(row))
            break;
    tell_gone();
}

void core_datagram(uint8_t farm, int socket)
{
    static uint8_t datagram[65536];
    socklen_t length = sizeof asker.sender;
    ssize_t got = recvfrom(socket, datagram, sizeof datagram, 0, (struct sockaddr *)&asker.sender, &length);
    if (got < 0)
        return;
    asker.socket = socket;
    dokrawin_answer a = dokrawin_datagram(LENT, farm, datagram, (size_t)got);
    if (a.number == DOKRAWIN_DONE)
        served(a);
    else
        fault("datagram", a.number);
}

void core_tick(void)
{
    dokrawin_answer a = dokrawin_tick(LENT);
    if (a.number != DOKRAWIN_DONE) {
        fault("tick", a.number);
        return;
    }
    served(a);
    tell_gone();
}

void core_link_lost(uint8_t farm)
{
    dokrawin_answer a = dokrawin_link_lost(LENT, farm);
    if (a.number == DOKRAWIN_NO_FARM)
        printf("there is no farm %u\n", farm);
    else if (a.number != DOKRAWIN_DONE)
        fault("link lost", a.number);
    else
        served(a);
}

void core_meters(void)
{
    for (size_t farm = 0; farm < core_farms(); farm++) {
        dokrawin_farm_meters m = dokrawin_meters(table, (uint8_t)farm);
        printf("farm %zu taken %u finished %u lost %u\n", farm, (unsigned)m.taken, (unsigned)m.finished,
               (unsigned)m.lost);
    }
}
