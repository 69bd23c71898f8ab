/* Calls the library with what no program would pass, and prints every answer with how far the output was altered. */
#include "poqhesti.h"
#include <stdio.h>
#include <string.h>

#define TEXT "\002sWN LFPparticle 1 +500\003"
#define FAULTY "\002sWN LFPparticle 1 +65536\003"

enum { MARK = 0xA5, ROOM = 64 };

_Static_assert(sizeof(size_t) == 8 && sizeof(struct poqhesti_answer) == 16, "the library is for 64 bits");

static uint8_t output[ROOM];

/* The place behind the last byte that is not the mark. */
static size_t altered(void)
{
    size_t end = ROOM;
    while (end > 0 && output[end - 1] == MARK)
        end--;
    return end;
}

static void read_as(size_t framing, const char *bytes, size_t length)
{
    struct poqhesti_answer answer = poqhesti_read(framing, (const uint8_t *)bytes, length);
    printf("read %zu: %u %zu\n", framing, (unsigned)answer.number, answer.place);
}

static void respell_as(size_t from, size_t to, const char *bytes, size_t room)
{
    memset(output, MARK, ROOM);
    struct poqhesti_answer answer = poqhesti_respell(from, to, (const uint8_t *)bytes, strlen(bytes), output, room);
    printf("respell %zu %zu in %zu: %u %zu, altered %zu\n", from, to, room, (unsigned)answer.number, answer.place, altered());
}

int main(void)
{
    read_as(POQHESTI_COLA_A, TEXT, strlen(TEXT));
    read_as(POQHESTI_COLA_A, TEXT, 0);
    read_as(POQHESTI_COLA_B, TEXT, strlen(TEXT));
    /* unknown framings, also such as fewer bits would take for a known one */
    read_as(2, TEXT, strlen(TEXT));
    read_as(256, TEXT, strlen(TEXT));
    read_as((size_t)1 << 32, TEXT, strlen(TEXT));
    read_as(SIZE_MAX, TEXT, 0);
    /* the source's number comes before the target's, and both before the bytes */
    respell_as(7, 9, TEXT, ROOM);
    respell_as(7, POQHESTI_COLA_A, TEXT, ROOM);
    respell_as(POQHESTI_COLA_A, 9, TEXT, ROOM);
    respell_as(POQHESTI_COLA_A, 9, FAULTY, 0);
    /* a refusal of the bytes comes before one of the output */
    respell_as(POQHESTI_COLA_A, POQHESTI_COLA_B, FAULTY, 0);
    respell_as(POQHESTI_COLA_A, POQHESTI_COLA_B, FAULTY, ROOM);
    /* too short an output, the shortest that will do, and one with room behind */
    respell_as(POQHESTI_COLA_A, POQHESTI_COLA_A, TEXT, 0);
    respell_as(POQHESTI_COLA_A, POQHESTI_COLA_A, TEXT, 22);
    respell_as(POQHESTI_COLA_A, POQHESTI_COLA_A, TEXT, 23);
    respell_as(POQHESTI_COLA_A, POQHESTI_COLA_A, TEXT, ROOM);
    respell_as(POQHESTI_COLA_A, POQHESTI_COLA_B, TEXT, 27);
    respell_as(POQHESTI_COLA_A, POQHESTI_COLA_B, TEXT, 28);
    respell_as(POQHESTI_COLA_A, POQHESTI_COLA_B, TEXT, ROOM);
    return 0;
}
