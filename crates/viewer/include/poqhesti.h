/* Telegrams of CoLa A and CoLa B: reading, and respelling canonically. Link with libviewer.a; docs/VIEWER.md says how. */
#ifndef POQHESTI_H
#define POQHESTI_H

#include <stddef.h>
#include <stdint.h>

#ifdef __cplusplus
extern "C" {
#endif

/* The framings by their numbers. */
enum {
    POQHESTI_COLA_A = 0,
    POQHESTI_COLA_B = 1
};

/* The number of an answer: 0, or why the call is refused. The place of a refusal is a byte of the input, from 0, unless said otherwise. */
enum {
    POQHESTI_DONE = 0,
    POQHESTI_SIZE = 1,              /* the input is empty or too long */
    POQHESTI_ENVELOPE = 2,          /* the envelope is wrong */
    POQHESTI_CHECKSUM = 3,          /* the checksum is wrong */
    POQHESTI_UNKNOWN = 4,           /* type and name are not in the catalogue */
    POQHESTI_CUT = 5,               /* the body ends before an item or inside it */
    POQHESTI_MISSPELT = 6,          /* an item is not spelt as its kind, or its blank is missing */
    POQHESTI_LIMIT = 7,             /* a count, amount, length or flag passes its limit */
    POQHESTI_REST = 8,              /* bytes are left over behind the last item */
    POQHESTI_ROOM = 9,              /* the output is too short; the place is the length needed */
    POQHESTI_UNKNOWN_FRAMING = 255  /* no framing has this number; the place is the number */
};

/* No telegram that is read or written has more bytes. */
#define POQHESTI_LONGEST 65536

/* Where the number is 0, the place is what the call counted. */
struct poqhesti_answer {
    uint8_t number;
    size_t place;
};

/* In both calls no pointer is null, even with a length of 0. */

/* Reads a telegram: 0 and how many items it has, or a refusal, 1 to 8 or 255. */
struct poqhesti_answer poqhesti_read(size_t framing, const uint8_t *bytes, size_t length);

/* Respells a telegram canonically: 0 and how many bytes are written at the output's start, or a refusal, 1 to 9 or 255. Behind what is written, and after a refusal, the output is as it was. It has room bytes, all of which hold values, and shares none with the input. */
struct poqhesti_answer poqhesti_respell(size_t from, size_t to, const uint8_t *bytes, size_t length, uint8_t *out, size_t room);

#ifdef __cplusplus
}
#endif

#endif
