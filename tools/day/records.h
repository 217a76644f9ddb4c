/* The records of a recorded day, for the tools in C that play one (tools/boundary, tools/speed): the file read, its records one after the other,
   and the lines behind the last of them. */
#ifndef DAY_RECORDS_H
#define DAY_RECORDS_H

#include "dokrawin.h"

#include <errno.h>
#include <stdbool.h>
#include <stdio.h>
#include <stdlib.h>
#include <string.h>

enum { DAY_BUFFER = 65536, DAY_SHEET = 0, DAY_START = 1, DAY_CONTROLLER = 8, DAY_ROOMS = 9, DAY_DAMAGE = 10 };

struct day {
    uint8_t *bytes;
    size_t size, at;      /* `at`: where the next record begins */
    unsigned long calls;  /* how many records so far were calls */
    const char *end;      /* "end", or "cut" or "bad" where a broken record begins */
};

/* A record: its kind, and the fields behind the kind byte. */
struct day_record {
    int kind;
    const uint8_t *fields;
    size_t length;
};

static inline bool day_is_call(int kind)
{
    return kind >= DAY_START && kind <= DAY_CONTROLLER;
}

static inline size_t day_u32(const uint8_t *b)
{
    return dokrawin_u16(b) * 65536 + dokrawin_u16(b + 2);
}

static inline bool day_good(const struct day_record *r)
{
    static const size_t least[] = {0, 0, 1, 1, 1, 1, 0, 1, 5, 8, 2};
    static const bool open_ended[] = {[DAY_SHEET] = true, [3] = true, [7] = true, [DAY_CONTROLLER] = true, [DAY_DAMAGE] = true};
    if (r->kind > DAY_DAMAGE || r->length < least[r->kind] || (!open_ended[r->kind] && r->length != least[r->kind]))
        return false;
    return r->kind != DAY_ROOMS || (day_u32(r->fields) <= DAY_BUFFER && day_u32(r->fields + 4) <= DAY_BUFFER);
}

/* The next whole record; false at the end of the file, and where it is cut or bad. */
static inline bool day_next(struct day *d, struct day_record *r)
{
    if (d->at >= d->size)
        return false;
    size_t n = d->at + 2 <= d->size ? dokrawin_u16(d->bytes + d->at) : 1;
    d->end = n < 1 || n > 32767 ? "bad" : d->at + 2 > d->size || d->at + 2 + n > d->size ? "cut" : "end";
    if (d->end[0] != 'e')
        return false;
    *r = (struct day_record){.kind = d->bytes[d->at + 2], .fields = d->bytes + d->at + 3, .length = n - 1};
    if (!day_good(r)) {
        d->end = "bad";
        return false;
    }
    d->calls += day_is_call(r->kind);
    d->at += 2 + n;
    return true;
}

/* A damage: "what falls past its end is left out". */
static inline void day_damage(const struct day_record *r, uint8_t *table)
{
    for (size_t i = 2, place = dokrawin_u16(r->fields); i < r->length && place < DOKRAWIN_TABLE; i++, place++)
        table[place] = r->fields[i];
}

/* The lines behind the last record. The farms are those of a good sheet: one that a start on memory of no account is not refused for. */
static inline void day_print_end(const struct day *d, const uint8_t *sheet, size_t sheet_length, const uint8_t *table)
{
    static uint8_t t[DOKRAWIN_TABLE], o[DOKRAWIN_OUTPUT], a[DOKRAWIN_ASSEMBLING];
    if (dokrawin_start(sheet, sheet_length, t, o, sizeof o, a, sizeof a).number == DOKRAWIN_DONE)
        for (size_t farm = 0; farm < dokrawin_u16(sheet); farm++) {
            dokrawin_farm_meters m = dokrawin_meters(table, (uint8_t)farm);
            printf("farm %zu taken %u finished %u lost %u\n", farm, (unsigned)m.taken, (unsigned)m.finished, (unsigned)m.lost);
        }
    if (d->end[0] == 'e')
        printf("end %lu\n", d->calls);
    else
        printf("%s at %zu\n", d->end, d->at);
}

/* The whole file. False after saying what is wrong. */
static inline bool day_read(struct day *d, const char *program, const char *name)
{
    FILE *f = fopen(name, "rb");
    long length = f != NULL && fseek(f, 0, SEEK_END) == 0 ? ftell(f) : -1;
    *d = (struct day){.bytes = length >= 0 ? malloc((size_t)length + 1) : NULL, .end = "end"};
    if (d->bytes == NULL || fseek(f, 0, SEEK_SET) != 0 || fread(d->bytes, 1, (size_t)length, f) != (size_t)length) {
        fprintf(stderr, "%s: %s: %s\n", program, name, errno != 0 ? strerror(errno) : "it can't be read");
        free(d->bytes);
        d->bytes = NULL;
    } else {
        d->size = (size_t)length;
    }
    if (f != NULL)
        fclose(f);
    return d->bytes != NULL;
}

#endif
