// Asks the proved calendar, for compare/dates.py. See compare/README.md.
// Questions come in batches: how many they are, then each in 32 bytes. Answers have 32 bytes too and are sent at a batch's end. All numbers
// have the machine's own order of bytes.
#include <stdio.h>
#include <stdlib.h>
#include <string.h>

#include "zurrimannu.h"

enum { SIZE = 32, FILLING = 0x5a5a5a5a };

// A date's bits are asked for where the kind is 'd', else a day and time is.
struct question {
    uint64_t kind;
    union {
        uint64_t bits;
        uint32_t fields[6];
    } of;
};

struct dated {
    uint32_t code, fields[6], unused;
};

struct seconds {
    uint32_t code, unused;
    int64_t seconds;
    uint64_t more[2];
};

_Static_assert(sizeof(struct question) == SIZE && sizeof(struct dated) == SIZE && sizeof(struct seconds) == SIZE, "sizes");

static void stop(const char *why) {
    fprintf(stderr, "calendar: %s\n", why);
    exit(1);
}

// The numbers that are lent hold something else before, so that one that isn't filled in shows.
static void ask_date(uint64_t bits, unsigned char *answer) {
    struct dated a = {0, {FILLING, FILLING, FILLING, FILLING, FILLING, FILLING}, 0};
    uint32_t *f = a.fields;
    a.code = zm_calendar(bits, &f[0], &f[1], &f[2], &f[3], &f[4], &f[5]);
    memcpy(answer, &a, SIZE);
}

static void ask_seconds(const uint32_t *f, unsigned char *answer) {
    struct seconds a = {0, 0, FILLING, {0, 0}};
    a.code = zm_seconds(f[0], f[1], f[2], f[3], f[4], f[5], &a.seconds);
    memcpy(answer, &a, SIZE);
}

static void answer_batch(uint64_t n) {
    struct question q;
    unsigned char *answers = malloc(n * SIZE + 1);
    if (answers == NULL)
        stop("no memory");
    for (uint64_t i = 0; i < n; i++) {
        if (fread(&q, SIZE, 1, stdin) != 1)
            stop("a batch is cut short");
        if (q.kind == 'd')
            ask_date(q.of.bits, answers + i * SIZE);
        else
            ask_seconds(q.of.fields, answers + i * SIZE);
    }
    if (fwrite(answers, SIZE, n, stdout) != n || fflush(stdout) != 0)
        stop("can't answer");
    free(answers);
}

int main(void) {
    uint64_t n;
    while (fread(&n, sizeof n, 1, stdin) == 1)
        answer_batch(n);
    return 0;
}
