/* Plays a recorded day over the C functions as quickly as it can and prints the line of each call, as the replay program and the twin do.
   It is there to be timed: nothing is looked at besides (tools/boundary/day.c does that).

     player DAY            the lines
     player DAY kinds      in place of the lines: how many calls of each kind there are, how many are done, and their time. A call
                           that took over 20 microseconds was interrupted by other work and is left out. */
#include "../day/records.h"

#include <time.h>

enum { KINDS = DAY_CONTROLLER + 1, INTERRUPTED = 20000 };

static uint8_t sheet[32768], table[DOKRAWIN_TABLE], output[DAY_BUFFER], assembling[DAY_BUFFER];
static size_t sheet_length, output_length = DOKRAWIN_OUTPUT, assembling_length = DOKRAWIN_ASSEMBLING;

#define LENT sheet, sheet_length, table, output, output_length, assembling, assembling_length

/* ---- lines ---- */

static char lines[DAY_BUFFER];
static size_t filled;
static bool unwritten;

static void flush(void)
{
    unwritten |= fwrite(lines, 1, filled, stdout) != filled;
    filled = 0;
}

static void put_number(size_t n)
{
    char digits[20];
    size_t count = 0;
    do
        digits[count++] = (char)('0' + n % 10);
    while ((n /= 10) > 0);
    while (count > 0)
        lines[filled++] = digits[--count];
    lines[filled++] = ' ';
}

static void put_line(dokrawin_answer a)
{
    static const char digits[] = "0123456789abcdef";
    if (filled + 64 + 2 * a.length > sizeof lines)
        flush();
    put_number(a.number);
    put_number(a.row);
    put_number(a.taken);
    for (size_t i = 0; i < a.length; i++) {
        lines[filled++] = digits[output[i] >> 4];
        lines[filled++] = digits[output[i] & 15];
    }
    if (a.number != DOKRAWIN_DONE)
        lines[filled++] = '-';
    lines[filled++] = '\n';
}

/* ---- calls ---- */

static dokrawin_answer make_call(int kind, const uint8_t *f, size_t length)
{
    switch (kind) {
    case 1: return dokrawin_start(LENT);
    case 2: return dokrawin_connect(LENT, f[0]);
    case 3: return dokrawin_bytes(LENT, f[0], f + 1, length - 1);
    case 4: return dokrawin_peer_closed(LENT, f[0]);
    case 5: return dokrawin_link_lost(LENT, f[0]);
    case 6: return dokrawin_tick(LENT);
    case 7: return dokrawin_datagram(LENT, f[0], f + 1, length - 1);
    default:
        return dokrawin_controller_message(LENT, f[0], (uint16_t)dokrawin_u16(f + 1), (uint16_t)dokrawin_u16(f + 3), f + 5,
                                           length - 5);
    }
}

static struct {
    unsigned long calls, done, timed;
    int64_t nanoseconds;
} of_kind[KINDS];

static int64_t now(void)
{
    struct timespec t;
    clock_gettime(CLOCK_MONOTONIC, &t);
    return (int64_t)t.tv_sec * 1000000000 + t.tv_nsec;
}

static void time_call(int kind, const uint8_t *f, size_t length)
{
    int64_t begun = now();
    dokrawin_answer a = make_call(kind, f, length);
    int64_t took = now() - begun;
    if (took <= INTERRUPTED) {
        of_kind[kind].timed++;
        of_kind[kind].nanoseconds += took;
    }
    of_kind[kind].calls++;
    of_kind[kind].done += a.number == DOKRAWIN_DONE;
}

/* What two looks at the clock say of nothing in between, on average. */
static double two_looks(void)
{
    enum { TIMES = 1000000 };
    int64_t sum = 0;
    for (int i = 0; i < TIMES; i++) {
        int64_t took = now();
        took = now() - took;
        sum += took <= INTERRUPTED ? took : 0;
    }
    return (double)sum / TIMES;
}

static void print_kinds(void)
{
    static const char *names[KINDS] = {"", "start", "connect", "bytes", "peer_closed", "link_lost", "tick", "datagram", "controller_message"};
    double looks = two_looks(), all = 0, each[KINDS] = {0};
    for (int k = 1; k < KINDS; k++) {
        if (of_kind[k].timed > 0)
            each[k] = (double)of_kind[k].nanoseconds / (double)of_kind[k].timed - looks;
        all += each[k] * (double)of_kind[k].calls;
    }
    printf("| call | calls | done | ns a call | share |\n|---|---|---|---|---|\n");
    for (int k = 1; k < KINDS; k++)
        if (of_kind[k].calls > 0)
            printf("| %s | %lu | %lu | %.0f | %.1f %% |\n", names[k], of_kind[k].calls, of_kind[k].done,
                   each[k], 100 * each[k] * (double)of_kind[k].calls / all);
}

/* ---- the day ---- */

/* A sheet, lengths of buffers or a damage. */
static void lend(const struct day_record *r)
{
    if (r->kind == DAY_SHEET) {
        sheet_length = r->length;
        memcpy(sheet, r->fields, r->length);
    } else if (r->kind == DAY_ROOMS) {
        output_length = day_u32(r->fields);
        assembling_length = day_u32(r->fields + 4);
    } else {
        day_damage(r, table);
    }
}

static void play(struct day *day, bool kinds)
{
    struct day_record r;
    while (day_next(day, &r)) {
        if (!day_is_call(r.kind))
            lend(&r);
        else if (kinds)
            time_call(r.kind, r.fields, r.length);
        else
            put_line(make_call(r.kind, r.fields, r.length));
    }
    flush();
    if (kinds)
        print_kinds();
    else
        day_print_end(day, sheet, sheet_length, table);
}

int main(int count, char **words)
{
    struct day day;
    if (count < 2 || count > 3 || (count == 3 && strcmp(words[2], "kinds") != 0)) {
        fprintf(stderr, "usage: player DAY [kinds]\n");
        return 2;
    }
    if (!day_read(&day, "player", words[1]))
        return 1;
    play(&day, count == 3);
    free(day.bytes);
    if (unwritten || fflush(stdout) != 0) {
        fprintf(stderr, "player: the lines can't be written\n");
        return 1;
    }
    return 0;
}
