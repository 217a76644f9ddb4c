/* Measures how deep each call of the core goes on the stack. Every call is made on a stack of its own that was painted before; the
   mark is the lowest byte that lost its paint. The calls are those of histories that make the core work: full lines, long
   settlings, four farms at once, the longest messages, and a long run of random calls. Two paints are used in turn, so that a byte that
   happens to be written with the paint's value is not missed. For x86-64. */
#include "dokrawin.h"

#include <stdio.h>
#include <stdlib.h>
#include <string.h>

enum { STACK = 65536, KINDS = 9 };

static const char *const names[KINDS] = {"start", "connect",  "bytes",    "peer_closed",        "link_lost",
                                         "tick",  "datagram", "controller_message", "meters"};

static uint8_t sheet[DOKRAWIN_SHEET_MOST], table[DOKRAWIN_TABLE], output[DOKRAWIN_OUTPUT],
    assembling[DOKRAWIN_ASSEMBLING];
static size_t sheet_length;

/* The call that is measured. */
static struct {
    uint8_t number; /* row or farm */
    uint16_t controller, tester;
    const uint8_t *bytes;
    size_t length;
} arg;
static dokrawin_answer answer;
static dokrawin_farm_meters meters;

#define LENT sheet, sheet_length, table, output, sizeof output, assembling, sizeof assembling
static void do_start(void) { answer = dokrawin_start(LENT); }
static void do_connect(void) { answer = dokrawin_connect(LENT, arg.number); }
static void do_bytes(void) { answer = dokrawin_bytes(LENT, arg.number, arg.bytes, arg.length); }
static void do_peer_closed(void) { answer = dokrawin_peer_closed(LENT, arg.number); }
static void do_link_lost(void) { answer = dokrawin_link_lost(LENT, arg.number); }
static void do_tick(void) { answer = dokrawin_tick(LENT); }
static void do_datagram(void) { answer = dokrawin_datagram(LENT, arg.number, arg.bytes, arg.length); }
static void do_controller(void)
{
    answer = dokrawin_controller_message(LENT, arg.number, arg.controller, arg.tester, arg.bytes, arg.length);
}
static void do_meters(void) { meters = dokrawin_meters(table, arg.number); }
static void (*const works[KINDS])(void) = {do_start,  do_connect,  do_bytes,      do_peer_closed, do_link_lost,
                                           do_tick,   do_datagram, do_controller, do_meters};
enum { START, CONNECT, BYTES, PEER_CLOSED, LINK_LOST, TICK, DATAGRAM, CONTROLLER, METERS };

/* ---- the painted stack ---- */

/* Calls `work` with the stack pointer at `top`. */
void on_stack(void (*work)(void), void *top);
__asm__(".text\n"
        "on_stack:\n"
        "    push %rbx\n"
        "    mov %rsp, %rbx\n"
        "    mov %rsi, %rsp\n"
        "    call *%rdi\n"
        "    mov %rbx, %rsp\n"
        "    pop %rbx\n"
        "    ret\n");

static _Alignas(16) uint8_t stack[STACK];
static uint8_t paint;
static size_t deepest[KINDS];
static unsigned long done[KINDS], refused[KINDS];

static void call(int kind)
{
    on_stack(works[kind], stack + STACK);
    size_t low = 0;
    while (low < STACK && stack[low] == paint)
        low++;
    if (low < 1024) {
        fprintf(stderr, "stack: %s needs more than %d bytes\n", names[kind], STACK - 1024);
        exit(1);
    }
    memset(stack + low, paint, STACK - low);
    if (STACK - low > deepest[kind])
        deepest[kind] = STACK - low;
    if (kind == METERS || answer.number == DOKRAWIN_DONE)
        done[kind]++;
    else
        refused[kind]++;
}

/* ---- a history: calls by name, with what they must come to ---- */

static void must(const char *what, int holds)
{
    if (holds)
        return;
    fprintf(stderr, "stack: %s: answer %u, %zu entries\n", what, answer.number,
            dokrawin_entry_count(output, answer.length));
    exit(1);
}

static size_t entries(void)
{
    return dokrawin_entry_count(output, answer.length);
}

static void start(void)
{
    call(START);
    must("start", answer.number == DOKRAWIN_DONE);
}

static void connect_to(uint8_t farm, uint8_t row)
{
    arg.number = farm;
    call(CONNECT);
    must("connect", answer.number == DOKRAWIN_DONE && answer.row == row);
}

static void say(uint8_t row, const uint8_t *bytes, size_t length)
{
    arg.number = row;
    arg.bytes = bytes;
    arg.length = length;
    call(BYTES);
    must("bytes", answer.number == DOKRAWIN_DONE);
}

static void ask(uint8_t row, uint16_t address)
{
    uint8_t m[15] = {3, 0xFC, 0, 5, 0, 0, 0, 7, (uint8_t)(address >> 8), (uint8_t)address};
    say(row, m, sizeof m);
}

static void leave(uint8_t row)
{
    arg.number = row;
    call(PEER_CLOSED);
    must("peer closed", answer.number == DOKRAWIN_DONE);
}

/* ---- the sheets ---- */

static void put16(size_t at, size_t n)
{
    sheet[at] = (uint8_t)(n >> 8);
    sheet[at + 1] = (uint8_t)n;
}

/* So many farms with this quota; 32 testers and 64 targets, in turn of the farms. Farm f has entity 1000 + f. */
static void make_sheet(size_t farms, uint8_t quota)
{
    size_t testers = 12 + 33 * farms, targets = testers + 4 * 32;
    memset(sheet, 0, sizeof sheet);
    put16(0, farms), put16(2, 32), put16(4, 64), put16(6, 12), put16(8, testers), put16(10, targets);
    for (size_t f = 0; f < farms; f++) {
        put16(12 + 33 * f, 0x1000 + f);
        sheet[12 + 33 * f + 2] = quota;
    }
    for (size_t i = 0; i < 32; i++) {
        put16(testers + 4 * i, 0x0E00 + i);
        sheet[testers + 4 * i + 2] = (uint8_t)(i % farms);
    }
    for (size_t i = 0; i < 64; i++) {
        put16(targets + 4 * i, 0x2000 + i);
        sheet[targets + 4 * i + 2] = (uint8_t)(i % farms);
        sheet[targets + 4 * i + 3] = 1;
    }
    sheet_length = targets + 4 * 64;
}

/* ---- the histories ---- */

/* Address number n of the farm's testers. */
static uint16_t tester(size_t farms, size_t farm, size_t n)
{
    return (uint16_t)(0x0E00 + farm + farms * n);
}

/* Row 0 of the farm is active and does not answer. All other rows wait, and when row 0 goes, all but the last of them can be answered
   in one settling; the last starts a check. Only row 2 is used to bring each waiter into the line: it is active as that one's address,
   and leaves. */
static void full_line(size_t farms, uint8_t farm, uint8_t quota)
{
    uint8_t first = (uint8_t)(farm * (quota + 1));
    connect_to(farm, first);
    ask(first, tester(farms, farm, 0));
    connect_to(farm, first + 1);
    ask(first + 1, tester(farms, farm, 0));
    must("a check starts", entries() == 1);
    for (uint8_t n = 3; n <= quota; n++) {
        connect_to(farm, first + 2);
        ask(first + 2, tester(farms, farm, n));
        connect_to(farm, first + n);
        ask(first + n, tester(farms, farm, n));
        leave(first + 2);
    }
    connect_to(farm, first + 2);
    ask(first + 2, tester(farms, farm, 0));
    must("nobody is answered yet", entries() == 0);
}

static void ticks(int n)
{
    for (int i = 0; i < n; i++)
        call(TICK);
    must("tick", answer.number == DOKRAWIN_DONE);
}

static void long_settlings(void)
{
    static const uint8_t wrong[8] = {3, 0xFD};
    uint8_t q = 8;
    make_sheet(1, q);
    /* one close, q - 1 answers, one question */
    size_t settled = 1 + (q - 1) + 1;
    start();
    full_line(1, 0, q);
    ticks(49);
    must("nothing at 49", entries() == 0);
    ticks(1);
    must("all at 50", entries() == settled);
    start();
    full_line(1, 0, q);
    leave(0);
    must("settled by peer closed", entries() == settled);
    start();
    full_line(1, 0, q);
    ask(0, tester(1, 0, 9));
    must("settled by a request that closes", entries() == settled + 1);
    start();
    full_line(1, 0, q);
    say(0, wrong, sizeof wrong);
    must("settled by a header that closes", entries() == settled + 1);
    start();
    full_line(1, 0, q);
    arg.number = 0;
    call(LINK_LOST);
    must("link lost", entries() == 9);
    make_sheet(4, 3);
    start();
    for (uint8_t f = 0; f < 4; f++)
        full_line(4, f, 3);
    ticks(50);
    must("four farms at 50", entries() == 4 * (1 + 2 + 1));
}

/* q rows are active and all are asked. */
static void check_of_all(void)
{
    uint8_t mark[10] = {3, 0xFC, 0, 8, 0, 0, 0, 2};
    make_sheet(1, 8);
    for (int silent = 0; silent < 2; silent++) {
        start();
        for (uint8_t row = 0; row < 8; row++) {
            connect_to(0, row);
            ask(row, tester(1, 0, row));
        }
        connect_to(0, 8);
        ask(8, tester(1, 0, 8));
        must("eight are asked", entries() == 8);
        for (uint8_t row = 0; row < 8 && !silent; row++) {
            mark[8] = (uint8_t)(tester(1, 0, row) >> 8), mark[9] = (uint8_t)tester(1, 0, row);
            say(row, mark, sizeof mark);
        }
        if (silent)
            ticks(50);
        must("decided", entries() == (silent ? 9 : 2));
    }
}

static void long_messages(void)
{
    static uint8_t m[8 + 2048] = {3, 0xFC, 0x80, 1, 0, 0, 8, 0, 0x0E, 0, 0x20, 0};
    static const uint8_t who[3][25] = {{3, 0xFC, 0, 1}, {3, 0xFC, 0, 2, 0, 0, 0, 6}, {3, 0xFC, 0, 3, 0, 0, 0, 17}};
    static const size_t long_who[3] = {8, 14, 25};
    make_sheet(1, 8);
    start();
    connect_to(0, 0);
    ask(0, 0x0E00);
    say(0, m, sizeof m);
    must("acknowledged and handed on", entries() == 2);
    say(0, m, 1000);
    say(0, m + 1000, sizeof m - 1000);
    must("in two pieces", entries() == 2);
    arg.controller = 0x2000, arg.tester = 0x0E00, arg.bytes = m, arg.length = DOKRAWIN_USER_MOST, arg.number = 0;
    call(CONTROLLER);
    must("controller message", entries() == 1);
    for (size_t i = 0; i < 3; i++) {
        arg.bytes = who[i], arg.length = long_who[i];
        call(DATAGRAM);
        must("datagram", entries() == 1);
    }
    for (arg.number = 0; arg.number < 5; arg.number++)
        call(METERS);
}

/* Testers that talk, ask, answer and fall silent at random, on all rows of the sheet. */
static uint32_t seed = 1;

static uint32_t dice(uint32_t sides)
{
    seed = seed * 1664525 + 1013904223;
    return (seed >> 8) % sides;
}

static void random_message(uint8_t *m, size_t *length)
{
    static const uint8_t types[][2] = {{0, 5}, {0, 5}, {0, 8}, {0x80, 1}, {0, 7}, {0, 1}, {0x40, 1}, {0x80, 2}};
    static const uint8_t lengths[] = {7, 11, 2, 9, 0, 0, 0, 5};
    uint32_t t = dice(8);
    uint16_t address = (uint16_t)(0x0E00 + dice(12)), target = (uint16_t)(0x2000 + dice(70));
    memset(m, 0, 24);
    m[0] = 3, m[1] = (uint8_t)(dice(60) ? 0xFC : 0xFD), m[2] = types[t][0], m[3] = types[t][1], m[7] = lengths[t];
    m[8] = (uint8_t)(address >> 8), m[9] = (uint8_t)address;
    if (m[2] == 0x80)
        m[10] = (uint8_t)(target >> 8), m[11] = (uint8_t)target;
    *length = 8 + (size_t)lengths[t];
}

static void random_calls(size_t farms, uint8_t quota, int count)
{
    static uint8_t m[24];
    make_sheet(farms, quota);
    start();
    for (int i = 0; i < count; i++) {
        uint32_t d = dice(100);
        arg.bytes = m;
        random_message(m, &arg.length);
        arg.number = (uint8_t)(d < 70 && d >= 20 ? dice(16) : dice((uint32_t)farms));
        arg.controller = (uint16_t)(0x2000 + dice(64)), arg.tester = (uint16_t)(0x0E00 + dice(12));
        call(d < 20 ? CONNECT : d < 68 ? BYTES : d < 70 ? PEER_CLOSED : d < 71 && dice(9) == 0 ? LINK_LOST
             : d < 78 ? DATAGRAM : d < 83 ? CONTROLLER : TICK);
        must("refusal 1 to 4 in a history", answer.number == 0 || answer.number > 4);
    }
}

int main(void)
{
    static const uint8_t paints[2] = {0xA5, 0x3C};
    for (int p = 0; p < 2; p++) {
        paint = paints[p];
        memset(stack, paint, STACK);
        long_settlings();
        check_of_all();
        long_messages();
        random_calls(1, 8, 20000);
        random_calls(4, 3, 20000);
        random_calls(2, 7, 20000);
    }
    printf("| call | deepest stack, bytes | calls done | refused |\n|---|---|---|---|\n");
    for (int k = 0; k < KINDS; k++)
        printf("| %s | %zu | %lu | %lu |\n", names[k], deepest[k], done[k], refused[k]);
    return 0;
}
