// Asks the proved lookup, and the function that makes paths, for compare/find.py. See compare/README.md.
// Questions come in batches: how many they are, then each as a kind and three numbers, and the bytes that these count. Answers have 32 bytes, and
// for a key that was added the memory behind them; they are sent at a batch's end. All numbers have the machine's own order of bytes.
#include <stdio.h>
#include <stdlib.h>

#include "zurrimannu.h"

enum { FILLING = 0x5a5a5a5a };

// 'f': the lengths of a tape and of a path. 'a': the lengths of the memory and of a key, and how many bytes are held.
struct question {
    uint64_t kind, first, second, held;
};

struct answer {
    uint32_t code, expected, found, unused;
    uint64_t start, length;
};

_Static_assert(sizeof(struct answer) == 32, "size");

static void stop(const char *why) {
    fprintf(stderr, "find: %s\n", why);
    exit(1);
}

// Just so many bytes, so that a checking allocator shows an overrun; one where there is none, since no pointer is NULL.
static uint8_t *taken(size_t n) {
    uint8_t *memory = malloc(n == 0 ? 1 : n);
    if (memory == NULL)
        stop("no memory");
    if (fread(memory, 1, n, stdin) != n)
        stop("a batch is cut short");
    return memory;
}

static void put(const void *bytes, size_t n, FILE *answers) {
    if (fwrite(bytes, 1, n, answers) != n)
        stop("can't answer");
}

// The numbers that are lent hold something else before, so that one that isn't filled in shows.
static void ask(FILE *answers) {
    struct question q;
    struct answer a = {0, FILLING, FILLING, 0, FILLING, FILLING};
    if (fread(&q, sizeof q, 1, stdin) != 1)
        stop("a batch is cut short");
    uint8_t *first = taken(q.first), *second = taken(q.second);
    if (q.kind == 'f')
        a.code = zm_find(first, q.first, second, q.second, &a.start, &a.length, &a.expected, &a.found);
    else
        a.start = zm_path_append(first, q.first, q.held, second, q.second);
    put(&a, sizeof a, answers);
    if (q.kind == 'a')
        put(first, q.first, answers);
    free(first);
    free(second);
}

int main(void) {
    uint64_t n;
    while (fread(&n, sizeof n, 1, stdin) == 1) {
        char *bytes;
        size_t size;
        FILE *answers = open_memstream(&bytes, &size);
        if (answers == NULL)
            stop("no memory");
        for (uint64_t i = 0; i < n; i++)
            ask(answers);
        if (fclose(answers) != 0)
            stop("no memory");
        put(bytes, size, stdout);
        if (fflush(stdout) != 0)
            stop("can't answer");
        free(bytes);
    }
    return 0;
}
