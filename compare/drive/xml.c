// Asks for the XML of tapes, for compare/xml_ask.py. See compare/README.md.
// A question is the tape's length and the output's, then the tape. An answer is the numbers of zm_xml, those of zm_xml_length, then the whole
// output, which held 0xA5 before. All numbers have the machine's own order of bytes.
#include <stdio.h>
#include <stdlib.h>
#include <string.h>

#include "zurrimannu.h"

enum { FILLING = 0xa5 };

struct question {
    uint32_t tape_length, room;
};

struct numbers {
    uint64_t value;
    uint32_t code, expected, found, unused;
};

static void stop(const char *why) {
    fprintf(stderr, "xml: %s\n", why);
    exit(1);
}

// Memory for so many bytes, one at least: no function is lent NULL.
static uint8_t *memory(size_t length) {
    uint8_t *m = malloc(length + 1);
    if (m == NULL)
        stop("no memory");
    return m;
}

static void tell(const void *start, size_t length) {
    if (fwrite(start, 1, length, stdout) != length)
        stop("the answer can't be written");
}

static struct numbers filled(void) {
    struct numbers n = {0x5a5a5a5a, 0, 0x5a5a5a5a, 0x5a5a5a5a, 0};
    return n;
}

int main(void) {
    struct question q;
    while (fread(&q, sizeof q, 1, stdin) == 1) {
        uint8_t *tape = memory(q.tape_length), *out = memory(q.room);
        if (fread(tape, 1, q.tape_length, stdin) != q.tape_length)
            stop("a question ends too early");
        memset(out, FILLING, q.room);
        struct numbers a = filled(), b = filled();
        a.code = zm_xml(tape, q.tape_length, out, q.room, &a.value, &a.expected, &a.found);
        b.code = zm_xml_length(tape, q.tape_length, &b.value, &b.expected, &b.found);
        tell(&a, sizeof a);
        tell(&b, sizeof b);
        tell(out, q.room);
        free(tape);
        free(out);
    }
    return 0;
}
