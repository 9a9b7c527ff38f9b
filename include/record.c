/* Builds a hold record call by call, writes it as a property list and reads it again: it prints the record's keys, and the file's length.
 * README.md says how it is built. */
#include <stdio.h>
#include <string.h>
#include "zurrimannu.h"

static uint32_t builder[ZM_BUILDER_WORDS], work[1024]; /* words of 0 are an empty builder */
static uint8_t tape[4096], again[4096], file[4096], scratch[4096];
static uint64_t place;
static uint32_t expected, found;

/* One event; what is refused ends the program. */
static int put(uint32_t kind, uint64_t value, const char *text) {
    uint32_t code = zm_build(builder, ZM_BUILDER_WORDS, tape, sizeof tape, kind, value, (const uint8_t *)text, strlen(text), &place,
                             &expected, &found);
    if (code != 0) printf("refused %u at %llu\n", code, (unsigned long long)place);
    return code == 0;
}

static int key(const char *name) { return put(ZM_TEXT, 0, name); }

int main(void) {
    uint64_t length, held, next, value, start, bytes;
    uint32_t marker, depth = 0, is_key = 0;
    int built = put(ZM_DICTIONARY, 0, "") && key("title") && put(ZM_TEXT, 0, "The Left Hand of Darkness") && key("queue") &&
                put(ZM_INTEGER, 3, "") && key("active") && put(ZM_TRUE, 0, "") && key("expires") &&
                put(ZM_DATE, 0x41c7700000000000, "") && key("copies") && put(ZM_ARRAY, 0, "") && put(ZM_INTEGER, 31000000, "") &&
                put(ZM_INTEGER, 31000001, "") && put(ZM_END, 0, "") && put(ZM_END, 0, "");
    if (!built) return 1;
    uint32_t code = zm_build_finish(builder, ZM_BUILDER_WORDS, tape, place, work, 1024, file, sizeof file, &length, &expected, &found);
    if (code != 0) return printf("refused %u\n", code), 1;
    printf("%llu bytes\n", (unsigned long long)length);

    code = zm_transcribe(file, length, scratch, sizeof scratch, again, sizeof again, UINT64_MAX, &held, &place, &marker);
    if (code != ZM_ENDED) return printf("refused %u at %llu\n", code, (unsigned long long)place), 1;
    for (uint64_t at = 0; at < held; at = next) { /* the keys stand in the outermost dictionary at every second event or container */
        next = zm_tape_step(again, held, at, &value, &start, &bytes);
        if (again[at] == ZM_END) depth--;
        else if (depth == 1 && (is_key = !is_key)) printf("%.*s\n", (int)bytes, (const char *)again + start);
        if (again[at] >= ZM_ARRAY && again[at] < ZM_END) depth++;
    }
}
