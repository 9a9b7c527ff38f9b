// Times zm_xml and libplist's plist_to_xml on the same values, for compare/bench-xml. See compare/README.md.
// A case is the lengths of its name, its tape and its binary file, then these. Times are of the processor, the least of so many rounds.
#define _POSIX_C_SOURCE 200809L
#include <plist/plist.h>
#include <stdio.h>
#include <stdlib.h>
#include <string.h>
#include <time.h>

#include "zurrimannu.h"

enum { ROUNDS = 15 };

struct sizes {
    uint32_t name, tape, file;
};

struct one {
    uint8_t *tape, *out;
    size_t length, room;
    plist_t node;
};

static void stop(const char *why) {
    fprintf(stderr, "bench_xml: %s\n", why);
    exit(1);
}

static uint8_t *memory(size_t length) {
    uint8_t *m = malloc(length + 1);
    if (m == NULL)
        stop("no memory");
    return m;
}

static uint8_t *part(size_t length) {
    uint8_t *m = memory(length);
    if (fread(m, 1, length, stdin) != length)
        stop("a case ends too early");
    return m;
}

static void ours(struct one *c) {
    uint64_t value;
    uint32_t expected, found;
    if (zm_xml(c->tape, c->length, c->out, c->room, &value, &expected, &found) != 0)
        stop("zm_xml refuses");
}

static void length_only(struct one *c) {
    uint64_t value;
    uint32_t expected, found;
    if (zm_xml_length(c->tape, c->length, &value, &expected, &found) != 0)
        stop("zm_xml_length refuses");
}

static void theirs(struct one *c) {
    char *xml = NULL;
    uint32_t length = 0;
    plist_to_xml(c->node, &xml, &length);
    if (xml == NULL)
        stop("plist_to_xml gives nothing");
    free(xml);
}

// What reads every byte once and copies it.
static void checked_copy(struct one *c) {
    if (!zm_is_utf8(c->tape + 6, c->length - 6))
        stop("no text");
    memcpy(c->out, c->tape, c->length);
}

static double now(void) {
    struct timespec t;
    clock_gettime(CLOCK_PROCESS_CPUTIME_ID, &t);
    return (double)t.tv_sec * 1e9 + (double)t.tv_nsec;
}

// The time of so many calls. The clock is read before and behind them alone: reading it takes as long as a small value.
static double spent(void (*f)(struct one *), struct one *c, long turns) {
    double begin = now();
    for (long turn = 0; turn < turns; turn++)
        f(c);
    return now() - begin;
}

static double least(void (*f)(struct one *), struct one *c) {
    long turns = 1;
    while (spent(f, c, turns) < 4e6)
        turns *= 2;
    double best = 0;
    for (int round = 0; round < ROUNDS; round++) {
        double each = spent(f, c, turns) / (double)turns;
        if (round == 0 || each < best)
            best = each;
    }
    return best;
}

int main(void) {
    struct sizes s;
    while (fread(&s, sizeof s, 1, stdin) == 1) {
        uint8_t *name = part(s.name), *tape = part(s.tape), *file = part(s.file);
        name[s.name] = 0;
        struct one c = {tape, NULL, s.tape, 0, NULL};
        uint64_t value;
        uint32_t expected, found;
        if (zm_xml_length(tape, s.tape, &value, &expected, &found) != 0)
            stop("a tape has no XML");
        c.room = value < s.tape ? s.tape : value;
        c.out = memory(c.room);
        memset(c.out, 1, c.room);
        plist_from_bin((char *)file, s.file, &c.node);
        if (c.node == NULL)
            stop("libplist doesn't read a file");
        double a = least(ours, &c), l = least(length_only, &c), b = least(theirs, &c);
        printf("%s\t%.0f\t%.0f\t%.0f", name, a, l, b);
        if (strncmp((char *)name, "one text", 8) == 0)
            printf("\t%.0f", least(checked_copy, &c));
        printf("\n");
        fflush(stdout);
        plist_free(c.node);
        free(c.out);
        free(name);
        free(tape);
        free(file);
    }
    return 0;
}
