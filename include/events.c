/* Prints the listing of a property list on standard input, of at most 1 MB, in the lines of ./list, which stops at 65,536 bytes or events.
 * README.md says how it is built. */
#include <stdio.h>
#include "zurrimannu.h"

static uint8_t file[1 << 20], scratch[3 << 19], tape[1 << 24];
static const char *lines[] = {"", "false", "true", "int %llu", "int -%llu", "real %016llx", "", "uid %llu", "data %llu",
                              "str %llu", "array", "array %llu", "dict", "dict %llu", "close"};

/* A date as a day and time, or by its bits where it has none. */
static void put_date(uint64_t bits) {
    uint32_t year, month, day, hour, minute, second;
    if (zm_calendar(bits, &year, &month, &day, &hour, &minute, &second) == 0)
        printf("date %04u-%02u-%02uT%02u:%02u:%02uZ", year, month, day, hour, minute, second);
    else
        printf("date %016llx", (unsigned long long)bits);
}

int main(void) {
    uint64_t held, place, next, value, start, length;
    uint32_t marker;
    size_t n = fread(file, 1, sizeof file, stdin);
    if (getchar() != EOF) return puts("more than 1 MB"), 1;
    uint32_t ending = zm_transcribe(file, n, scratch, sizeof scratch, tape, sizeof tape, UINT64_MAX, &held, &place,
                                    &marker);
    puts("events");
    for (uint64_t at = 0; at < held; at = next) {
        next = zm_tape_step(tape, held, at, &value, &start, &length); /* an event has a value or a length, or neither */
        if (tape[at] == ZM_DATE) put_date(value);
        else printf(lines[tape[at]], (unsigned long long)(value + length + (tape[at] == ZM_NEGATIVE)));
        for (uint64_t i = 0; i < length; i++) printf(i ? "%02x" : " %02x", tape[start + i]);
        putchar('\n');
    }
    ending == ZM_ENDED ? puts("end") : printf("refused %u at %llu\n", ending, (unsigned long long)place);
}
