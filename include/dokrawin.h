/*
 * dokrawin.h: the core of a DoIP gateway (ISO 13400-2:2019), as a set of calls on memory that you lend.
 *
 * THE WORDS
 *
 *   farm       One of up to four networks that the gateway serves. It has its own link, testers and controllers. Farms are numbered
 *              from 0 in the order of the farm sheet. A farm is what ISO calls a DoIP entity.
 *   row        One TCP connection, 0 to 15. A farm with quota q owns q+1 rows: q testers may be active, one more may ask.
 *   fresh      A row that has connected and has not activated routing.
 *   waiting    A row that has asked for activation and has no answer yet, because the core first asks other rows whether they are
 *              still alive. This takes at most half a second for each waiter that stands before it, and half a second for itself.
 *   active     A row whose routing activation was accepted.
 *   tester     The diagnostic equipment at the other end of a connection. Target, controller: what it wants to reach.
 *   farm sheet The configuration: farms, testers, targets. Its layout stands below; examples/host/sheet.py makes one from a text.
 *   tick       10 milliseconds. The core has no clock: you tell it that time has passed.
 *
 * WHAT YOU LEND, AND WHO OWNS IT
 *
 *   All memory is yours. The core keeps no pointer after a call, allocates nothing, has no global variable, opens no socket and calls no
 *   function but memcpy and its kind. You lend to every call:
 *
 *   sheet       The farm sheet and its length in bytes. Only read. Lend the same sheet to every call on one table, from dokrawin_start
 *               on. To change the configuration, close all connections and start again.
 *   table       DOKRAWIN_TABLE bytes: all that the core remembers. Keep it between calls and do not write into it. dokrawin_start
 *               makes it; before that it may hold anything. There is no pointer in it, so it may be copied, stored and compared.
 *   output      DOKRAWIN_OUTPUT bytes or more: what you are to do comes back here. Every call that is done begins it anew.
 *   assembling  Exactly DOKRAWIN_ASSEMBLING bytes: the room for messages that have come in part. Keep it between calls like the table and
 *               do not write into it. It may hold anything at the start.
 *
 *   The memory that one call is lent (sheet, table, output, assembling, input) must not overlap. No pointer may be NULL, also where a
 *   length is 0. Use one table from one thread at a time. Two tables, each with its own buffers, have nothing to do with each other.
 *
 * WHAT COMES BACK
 *
 *   A dokrawin_answer. Its number is DOKRAWIN_DONE or a refusal. A refused call changes nothing: not a byte of table, output and
 *   assembling is different afterwards, taken and length are 0, row is DOKRAWIN_NO_ROW. The refusals are listed below.
 *
 *   If the call is done, the first `length` bytes of output are the output sheet: a list of entries. Walk it with
 *   dokrawin_entry_count and dokrawin_entry_at. Each entry names a row and is one of
 *
 *     DOKRAWIN_SEND      send these bytes on this row's connection; row DOKRAWIN_NO_ROW: answer the sender of the datagram
 *     DOKRAWIN_CLOSE     close this row's connection, after what was to be sent on it before has gone out
 *     DOKRAWIN_HAND_ON   a diagnostic message to carry to a controller: its payload, that is source address (2 bytes), target address
 *                        (2 bytes), user data (1 byte or more). The row is the one that it came from.
 *
 * THE FARM SHEET
 *
 *   12 bytes: how many farms (1 to 4), testers (0 to 32) and targets (0 to 64) there are, then where each of the three sections begins,
 *   six numbers of two bytes. The sections follow in this order without gaps, so they begin at 12, at 12 + 33 * farms and at
 *   12 + 33 * farms + 4 * testers, and the sheet ends where the last one ends.
 *
 *     farm, 33 bytes     entity address (2), quota (1 to 8), power mode (0 not ready, 1 ready, 2 not supported), VIN (17), EID (6), GID (6)
 *     tester, 4 bytes    address (2), number of its farm, 0
 *     target, 4 bytes    address (2), number of its farm, 1 if it can be reached, else 0
 *
 *   Testers stand in ascending order of their addresses, and none twice; targets likewise. No address is 0. The farms' rows, a quota and
 *   one more each, are at most 16 together: farm 0 owns rows 0 to its quota, farm 1 the next ones, and so on.
 *
 * YOUR DUTIES
 *
 *   1. Carry out the entries in the order in which they stand. Do it before the next call, or copy them: that call writes over them.
 *   2. A row is free as soon as the core has closed it, and the next dokrawin_connect may give its number to another connection. So take
 *      the old connection off the row when you meet its close entry, even if bytes for it have still to go out.
 *   3. Keep what dokrawin_bytes has not taken, and offer it again, from its first byte on. One call takes one message at most, so
 *      call it again as long as it takes bytes and some are left. While the row waits (refusal 7) keep the rest, and offer it
 *      again after later calls; stop reading from the socket when you have no more room. When the row closes, drop the rest: it
 *      must never be offered to the connection that has the row next.
 *   4. Call dokrawin_tick every 10 ms by a clock that does not jump. If you are late, make up for it, and read your sockets in between:
 *      bytes that came in time should be seen in time.
 *   5. Call dokrawin_peer_closed when a connection ends or fails on its own, or when you give it up because its peer does not read. Do
 *      not call it for a row that the core has closed (it would be refused with 6, or hit the connection that has the row next).
 *   6. Announcements, their delays, DHCP, TLS and limits per IP address are yours: the core only answers. The bytes of an announcement are
 *      those that dokrawin_datagram answers to a vehicle identification request of your own (03 FC 00 01 00 00 00 00).
 *
 * All numbers in messages and sheets are big-endian. The library is compiled for x86-64 Linux (System V calling convention).
 */
#ifndef DOKRAWIN_H
#define DOKRAWIN_H

#include <stddef.h>
#include <stdint.h>

#ifdef __cplusplus
extern "C" {
#define DOKRAWIN_ASSERT(holds, text) static_assert(holds, text)
#else
#define DOKRAWIN_ASSERT(holds, text) _Static_assert(holds, text)
#endif

/* ---- sizes ---- */

#define DOKRAWIN_TABLE 852        /* bytes of a table, exactly */
#define DOKRAWIN_OUTPUT 4096      /* bytes of an output buffer, at least */
#define DOKRAWIN_ASSEMBLING 32768 /* bytes of an assembling buffer, exactly: 2,048 for each of 16 rows */
#define DOKRAWIN_SHEET_MOST 528   /* the longest farm sheet that keeps the rules: 12 + 4 * 33 + 32 * 4 + 64 * 4 */
#define DOKRAWIN_ROWS 16          /* rows are 0 to 15 */
#define DOKRAWIN_FARMS 4          /* farms are 0 to 3 */
#define DOKRAWIN_USER_MOST 2044   /* the most bytes of user data in a diagnostic message */
#define DOKRAWIN_NO_ROW 255       /* the row of an answer that opened none; the row of a datagram's reply */

/* ---- the number of an answer ---- */

#define DOKRAWIN_DONE 0
/* The farm sheet breaks a rule of its layout. Nothing can be done with it; `examples/host/sheet.py check` says which rule it is. */
#define DOKRAWIN_BAD_SHEET 1
/* The output buffer is shorter than DOKRAWIN_OUTPUT. */
#define DOKRAWIN_BAD_OUTPUT 2
/* The assembling buffer has not exactly DOKRAWIN_ASSEMBLING bytes. */
#define DOKRAWIN_BAD_ASSEMBLING 3
/* The table is damaged, was never started, or was started under another sheet. Close all connections and call dokrawin_start. It
   cannot happen as long as you lend each call the table that the call before it left, and the same sheet. */
#define DOKRAWIN_BAD_TABLE 4
/* The farm sheet has no farm of this number. */
#define DOKRAWIN_NO_FARM 5
/* This row is not open: it was never connected, or it is closed by now. */
#define DOKRAWIN_NOT_OPEN 6
/* Bytes for a row that waits for its activation. Keep them and offer them again later (duty 3). */
#define DOKRAWIN_WAITING 7
/* All rows of the farm are in use. Close the new connection. */
#define DOKRAWIN_NO_FREE_ROW 8
/* A controller's message without user data, or with more than DOKRAWIN_USER_MOST bytes. */
#define DOKRAWIN_BAD_USER_DATA 9
/* The controller is no target of this farm, or the tester is not active on a row of it. */
#define DOKRAWIN_NOBODY 10

/* If several refusals apply, the lowest number is given. 1 to 4 can come from every call (dokrawin_start never gives 4, the meters give
   none); each call below names the others that it can give. */

/* ---- the kind of an entry ---- */

#define DOKRAWIN_SEND 1
#define DOKRAWIN_CLOSE 2
#define DOKRAWIN_HAND_ON 3

/* ---- what comes back ---- */

typedef struct dokrawin_answer {
    uint8_t number; /* DOKRAWIN_DONE or a refusal */
    uint8_t row;    /* the row that dokrawin_connect opened, else DOKRAWIN_NO_ROW */
    size_t taken;   /* how many bytes of the input dokrawin_bytes took, else 0 */
    size_t length;  /* length of the output sheet: 4 or more if done, 0 if refused */
} dokrawin_answer;

/* Of one farm, since its table was started; each counts modulo 2^32. taken = finished + lost + what is in hand on open rows. */
typedef struct dokrawin_farm_meters {
    uint32_t taken;    /* bytes taken from its connections */
    uint32_t finished; /* of these, bytes of messages that were wholly read or skipped */
    uint32_t lost;     /* of these, bytes of messages that were unfinished when their connection closed */
} dokrawin_farm_meters;

DOKRAWIN_ASSERT(sizeof(size_t) == 8, "the library is for 64 bits");
DOKRAWIN_ASSERT(sizeof(dokrawin_answer) == 24, "layout of the answer");
DOKRAWIN_ASSERT(offsetof(dokrawin_answer, number) == 0, "layout of the answer");
DOKRAWIN_ASSERT(offsetof(dokrawin_answer, row) == 1, "layout of the answer");
DOKRAWIN_ASSERT(offsetof(dokrawin_answer, taken) == 8, "layout of the answer");
DOKRAWIN_ASSERT(offsetof(dokrawin_answer, length) == 16, "layout of the answer");
DOKRAWIN_ASSERT(sizeof(dokrawin_farm_meters) == 12, "layout of the meters");
DOKRAWIN_ASSERT(offsetof(dokrawin_farm_meters, finished) == 4, "layout of the meters");
DOKRAWIN_ASSERT(offsetof(dokrawin_farm_meters, lost) == 8, "layout of the meters");

/* ---- the calls ---- */

/* Makes a fresh table: all rows free, all meters 0. The first call on every table. There is no entry in its output sheet, so close
   what connections you still have from an earlier table yourself. */
dokrawin_answer dokrawin_start(const uint8_t *sheet, size_t sheet_length, uint8_t *table, uint8_t *output,
                               size_t output_length, const uint8_t *assembling, size_t assembling_length);

/* A tester has connected to this farm's TCP port. The answer's row is that of the connection, the lowest free one of the farm.
   Refusals 5 and 8. */
dokrawin_answer dokrawin_connect(const uint8_t *sheet, size_t sheet_length, uint8_t *table, uint8_t *output,
                                 size_t output_length, const uint8_t *assembling, size_t assembling_length,
                                 uint8_t farm);

/* Bytes have come in on this row, cut in any way. The core takes them up to the end of the input, of one message, or of a header that it
   finds wrong, and says how many it took: see duty 3. An empty input is allowed and takes nothing. Refusals 6 and 7. */
dokrawin_answer dokrawin_bytes(const uint8_t *sheet, size_t sheet_length, uint8_t *table, uint8_t *output,
                               size_t output_length, uint8_t *assembling, size_t assembling_length, uint8_t row,
                               const uint8_t *input, size_t input_length);

/* The connection of this row has ended or failed (duty 5). The sheet has its close entry, and what follows for those who
   waited. Refusal 6. */
dokrawin_answer dokrawin_peer_closed(const uint8_t *sheet, size_t sheet_length, uint8_t *table, uint8_t *output,
                                     size_t output_length, const uint8_t *assembling, size_t assembling_length,
                                     uint8_t row);

/* The link of this farm is lost, as when its IP address goes: one close entry for each of its open rows. Refusal 5. */
dokrawin_answer dokrawin_link_lost(const uint8_t *sheet, size_t sheet_length, uint8_t *table, uint8_t *output,
                                   size_t output_length, const uint8_t *assembling, size_t assembling_length,
                                   uint8_t farm);

/* 10 ms have passed, for all farms (duty 4). */
dokrawin_answer dokrawin_tick(const uint8_t *sheet, size_t sheet_length, uint8_t *table, uint8_t *output,
                              size_t output_length, const uint8_t *assembling, size_t assembling_length);

/* A datagram has come in on this farm's UDP port. There is one entry at most: DOKRAWIN_SEND with row DOKRAWIN_NO_ROW, for its sender. A
   datagram that was broadcast to several farms is one call for each. It changes nothing in the table. Refusal 5. */
dokrawin_answer dokrawin_datagram(const uint8_t *sheet, size_t sheet_length, const uint8_t *table, uint8_t *output,
                                  size_t output_length, const uint8_t *assembling, size_t assembling_length,
                                  uint8_t farm, const uint8_t *input, size_t input_length);

/* A controller of this farm has something to say to a tester, as its answer to a message that was handed on: one entry that sends it.
   `user` is the user data alone, 1 to DOKRAWIN_USER_MOST bytes. It changes nothing in the table. Refusals 5, 9 and 10. */
dokrawin_answer dokrawin_controller_message(const uint8_t *sheet, size_t sheet_length, const uint8_t *table,
                                            uint8_t *output, size_t output_length, const uint8_t *assembling,
                                            size_t assembling_length, uint8_t farm, uint16_t controller,
                                            uint16_t tester, const uint8_t *user, size_t user_length);

/* The meters of a farm, for a support person. Never refused: a farm number over 3 gives zeros. */
dokrawin_farm_meters dokrawin_meters(const uint8_t *table, uint8_t farm);

/* ---- walking an output sheet ---- */

typedef struct dokrawin_entry {
    uint8_t row;
    uint8_t kind;         /* DOKRAWIN_SEND, DOKRAWIN_CLOSE or DOKRAWIN_HAND_ON */
    uint16_t length;      /* 0 for DOKRAWIN_CLOSE */
    const uint8_t *bytes; /* points into the sheet: valid until the next call */
} dokrawin_entry;

static inline size_t dokrawin_u16(const uint8_t *at)
{
    return (size_t)at[0] * 256 + at[1];
}

/* How many entries there are in the sheet of `length` bytes (the answer's length). 0 for a refused call, and for bytes that are no
   output sheet. */
static inline size_t dokrawin_entry_count(const uint8_t *output, size_t length)
{
    size_t count;
    if (length < 4 || dokrawin_u16(output + 2) != length)
        return 0;
    count = dokrawin_u16(output);
    return 4 + 2 * count <= length ? count : 0;
}

/* Reads entry `number`, from 0 on, into *entry and gives 1; gives 0 and leaves *entry if there is no such entry, or if it does not
   lie within the sheet. */
static inline int dokrawin_entry_at(const uint8_t *output, size_t length, size_t number, dokrawin_entry *entry)
{
    size_t at, bytes;
    if (number >= dokrawin_entry_count(output, length))
        return 0;
    at = dokrawin_u16(output + 4 + 2 * number);
    if (at + 4 > length)
        return 0;
    bytes = dokrawin_u16(output + at + 2);
    if (at + 4 + bytes > length)
        return 0;
    entry->row = output[at];
    entry->kind = output[at + 1];
    entry->length = (uint16_t)bytes;
    entry->bytes = output + at + 4;
    return 1;
}

#ifdef __cplusplus
}
#endif

#endif
