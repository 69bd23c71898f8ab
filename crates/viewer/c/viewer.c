/* Reads one telegram from standard input. `read` prints how many items it has, `respell` writes its canonical spelling. */
#include "poqhesti.h"
#include <stdbool.h>
#include <stdio.h>
#include <string.h>

enum { VIEWED = 0, REFUSED = 1, FAILED = 2 };

/* One byte more than is allowed, so that an input that is too long shows as such. */
static uint8_t input[POQHESTI_LONGEST + 1];
static uint8_t output[POQHESTI_LONGEST];

static bool framing_of(const char *word, size_t *framing)
{
    if (strcmp(word, "A") == 0) {
        *framing = POQHESTI_COLA_A;
        return true;
    }
    if (strcmp(word, "B") == 0) {
        *framing = POQHESTI_COLA_B;
        return true;
    }
    return false;
}

static int refuse(struct poqhesti_answer answer)
{
    fprintf(stderr, "refused %u %zu\n", (unsigned)answer.number, answer.place);
    return REFUSED;
}

static int view(size_t framing, size_t length)
{
    struct poqhesti_answer answer = poqhesti_read(framing, input, length);
    if (answer.number != POQHESTI_DONE)
        return refuse(answer);
    printf("accepted %zu\n", answer.place);
    return VIEWED;
}

static int respell(size_t from, size_t to, size_t length)
{
    struct poqhesti_answer answer = poqhesti_respell(from, to, input, length, output, sizeof output);
    if (answer.number != POQHESTI_DONE)
        return refuse(answer);
    fwrite(output, 1, answer.place, stdout);
    return VIEWED;
}

static int usage(void)
{
    fputs("usage: viewer read A|B | viewer respell A|B A|B\n", stderr);
    return FAILED;
}

int main(int argc, char **argv)
{
    size_t from, to;
    bool reads = argc == 3 && strcmp(argv[1], "read") == 0 && framing_of(argv[2], &from);
    bool respells = argc == 4 && strcmp(argv[1], "respell") == 0 && framing_of(argv[2], &from) && framing_of(argv[3], &to);
    if (!reads && !respells)
        return usage();
    size_t length = fread(input, 1, sizeof input, stdin);
    if (ferror(stdin)) {
        perror("viewer");
        return FAILED;
    }
    int status = reads ? view(from, length) : respell(from, to, length);
    if (fflush(stdout) != 0 || ferror(stdout)) {
        perror("viewer");
        return FAILED;
    }
    return status;
}
