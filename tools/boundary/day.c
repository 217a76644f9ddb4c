/* Plays a recorded day over the C functions and prints a line for each call, as the replay program and the twin do, so that the lines can
   be compared. Everything that is lent stands between guard bytes, and after each call these, and whatever that call may not change, are
   looked at. A day that ends in a broken record ends in `cut at N` or `bad at N`.
   Compiled with -DWATCHED, which needs valgrind's headers, and run by valgrind, it also finds out whether a call reads a guard byte. */
#include "../day/records.h"

#ifdef WATCHED
#include <valgrind/memcheck.h>
#else
#define VALGRIND_MAKE_MEM_NOACCESS(at, length) ((void)(at), (void)(length))
#define VALGRIND_MAKE_MEM_DEFINED(at, length) ((void)(at), (void)(length))
#endif

enum { GUARD = 64, BUFFER = DAY_BUFFER };

/* A piece of memory to be lent: guard bytes, then the bytes, then guard bytes right behind the last one. */
struct piece {
    size_t length;
    uint8_t memory[GUARD + BUFFER + GUARD];
    uint8_t before[BUFFER]; /* what stood there before the call */
};

static struct piece sheet, table, output, assembling, input;

static uint8_t *bytes_of(struct piece *p)
{
    return p->memory + GUARD;
}

static void lend(struct piece *p, size_t length)
{
    p->length = length;
    memset(p->memory, 0xE7, GUARD);
    memset(bytes_of(p) + length, 0xE7, GUARD);
    memcpy(p->before, bytes_of(p), length);
    VALGRIND_MAKE_MEM_NOACCESS(p->memory, GUARD);
    VALGRIND_MAKE_MEM_NOACCESS(bytes_of(p) + length, GUARD);
}

static void allow_guards(struct piece *p)
{
    VALGRIND_MAKE_MEM_DEFINED(p->memory, GUARD);
    VALGRIND_MAKE_MEM_DEFINED(bytes_of(p) + p->length, GUARD);
}

static void fail(const char *what, unsigned long call)
{
    printf("call %lu: %s\n", call, what);
    exit(1);
}

static void look(struct piece *p, const char *name, bool may_change, unsigned long call)
{
    allow_guards(p);
    for (size_t i = 0; i < GUARD; i++)
        if (p->memory[i] != 0xE7 || bytes_of(p)[p->length + i] != 0xE7)
            fail(name, call);
    if (!may_change && memcmp(p->before, bytes_of(p), p->length) != 0)
        fail(name, call);
}

/* ---- buffers of other lengths: bytes past the lent ones come back with them ---- */

static uint8_t whole_output[BUFFER], whole_assembling[BUFFER];
static size_t output_length = DOKRAWIN_OUTPUT, assembling_length = DOKRAWIN_ASSEMBLING;

static void take_buffers(void)
{
    memcpy(bytes_of(&output), whole_output, output_length);
    memcpy(bytes_of(&assembling), whole_assembling, assembling_length);
    lend(&sheet, sheet.length);
    lend(&table, DOKRAWIN_TABLE);
    lend(&output, output_length);
    lend(&assembling, assembling_length);
    lend(&input, input.length);
}

static void give_back_buffers(void)
{
    memcpy(whole_output, bytes_of(&output), output_length);
    memcpy(whole_assembling, bytes_of(&assembling), assembling_length);
}

/* ---- one call ---- */

#define LENT bytes_of(&sheet), sheet.length, bytes_of(&table), bytes_of(&output), output.length, bytes_of(&assembling), assembling.length

static dokrawin_answer make_call(int kind, const uint8_t *f)
{
    switch (kind) {
    case 1: return dokrawin_start(LENT);
    case 2: return dokrawin_connect(LENT, f[0]);
    case 3: return dokrawin_bytes(LENT, f[0], bytes_of(&input), input.length);
    case 4: return dokrawin_peer_closed(LENT, f[0]);
    case 5: return dokrawin_link_lost(LENT, f[0]);
    case 6: return dokrawin_tick(LENT);
    case 7: return dokrawin_datagram(LENT, f[0], bytes_of(&input), input.length);
    default:
        return dokrawin_controller_message(LENT, f[0], (uint16_t)dokrawin_u16(f + 1), (uint16_t)dokrawin_u16(f + 3),
                                           bytes_of(&input), input.length);
    }
}

static void check_sheet(dokrawin_answer a, unsigned long call)
{
    dokrawin_entry e;
    size_t count = dokrawin_u16(bytes_of(&output));
    if (a.length > output.length || dokrawin_entry_count(bytes_of(&output), a.length) != count)
        fail("the output sheet", call);
    for (size_t i = 0; i < count; i++)
        if (!dokrawin_entry_at(bytes_of(&output), a.length, i, &e) || e.kind < DOKRAWIN_SEND || e.kind > DOKRAWIN_HAND_ON)
            fail("an entry of the output sheet", call);
    if (memcmp(output.before + a.length, bytes_of(&output) + a.length, output.length - a.length) != 0)
        fail("the output buffer past the sheet", call);
}

static void serve(int kind, const uint8_t *fields, size_t length, unsigned long call)
{
    static const size_t before_input[9] = {0, 0, 1, 1, 1, 1, 0, 1, 5};
    input.length = length - before_input[kind];
    memcpy(bytes_of(&input), fields + before_input[kind], input.length);
    take_buffers();
    dokrawin_answer a = make_call(kind, fields);
    bool done = a.number == DOKRAWIN_DONE;
    look(&sheet, "the sheet", false, call);
    look(&input, "the input", false, call);
    look(&table, "the table", done && kind != 7 && kind != 8, call);
    look(&output, "the output buffer", done, call);
    look(&assembling, "the assembling buffer", done && kind == 3, call);
    if (!done && (a.length != 0 || a.taken != 0 || a.row != DOKRAWIN_NO_ROW))
        fail("a refusal with something in it", call);
    printf("%u %u %zu ", a.number, a.row, a.taken);
    if (done)
        check_sheet(a, call);
    for (size_t i = 0; i < a.length; i++)
        printf("%02x", bytes_of(&output)[i]);
    puts(done ? "" : "-");
    give_back_buffers();
}

/* ---- the day ---- */

static void lend_record(const struct day_record *r)
{
    if (r->kind == DAY_SHEET) {
        sheet.length = r->length;
        memcpy(bytes_of(&sheet), r->fields, r->length);
    } else if (r->kind == DAY_ROOMS) {
        output_length = day_u32(r->fields);
        assembling_length = day_u32(r->fields + 4);
    } else {
        day_damage(r, bytes_of(&table));
    }
}

int main(int count, char **words)
{
    struct day day;
    struct day_record r;
    if (count != 2) {
        fprintf(stderr, "usage: day FILE\n");
        return 2;
    }
    if (!day_read(&day, "day", words[1]))
        return 2;
    while (day_next(&day, &r))
        if (day_is_call(r.kind))
            serve(r.kind, r.fields, r.length, day.calls);
        else
            lend_record(&r);
    day_print_end(&day, bytes_of(&sheet), sheet.length, bytes_of(&table));
    free(day.bytes);
    return fflush(stdout) == 0 ? 0 : 2;
}
