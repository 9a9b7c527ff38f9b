// Runs the proved reader and writer on memory that ends, or begins, at a protected page: any overrun ends the program.
// See compare/README.md. The words are a file of files for the reader and one of tapes for the writer, one a line, in hex.
#include <stdio.h>
#include <stdlib.h>
#include <string.h>
#include <sys/mman.h>
#include <unistd.h>

#include "zurrimannu.h"

enum { PAGES = 9, BUDGET = 1100, FILLING = 0xa5 };

static void stop(const char *why) {
    fprintf(stderr, "guard: %s\n", why);
    exit(1);
}

// --- memory between two protected pages -----------------------------------------------------------

struct region {
    uint8_t *memory;
    size_t size;
};

static struct region new_region(void) {
    size_t page = (size_t)sysconf(_SC_PAGESIZE), size = PAGES * page;
    uint8_t *all = mmap(NULL, size + 2 * page, PROT_NONE, MAP_PRIVATE | MAP_ANONYMOUS, -1, 0);
    if (all == MAP_FAILED || mprotect(all + page, size, PROT_READ | PROT_WRITE) != 0)
        stop("no memory");
    return (struct region){all + page, size};
}

// A part of a region that touches the protected page behind it, or the one before.
struct part {
    struct region region;
    uint8_t *start;
    size_t length;
};

static struct part part_of(struct region region, size_t length, int at_end) {
    if (length > region.size)
        stop("a part is larger than its region");
    uint8_t *start = at_end ? region.memory + region.size - length : region.memory;
    memset(region.memory, FILLING, region.size);
    return (struct part){region, start, length};
}

static int is_filling(const uint8_t *from, const uint8_t *to) {
    uint8_t changed = 0;
    for (; from < to; from++)
        changed |= *from ^ FILLING;
    return changed == 0;
}

// Whether all of a region but the part is as it was.
static int is_kept(struct part part) {
    uint8_t *end = part.region.memory + part.region.size;
    return is_filling(part.region.memory, part.start) && is_filling(part.start + part.length, end);
}

// Whether the part itself is, too, from a place on.
static int is_kept_from(struct part part, size_t from) {
    return is_kept(part) && is_filling(part.start + from, part.start + part.length);
}

// A part with these bytes; afterwards it must hold them still.
static struct part part_with(struct region region, const uint8_t *bytes, size_t length, int at_end) {
    struct part part = part_of(region, length, at_end);
    if (length > 0)
        memcpy(part.start, bytes, length);
    return part;
}

static int holds(struct part part, const uint8_t *bytes) {
    return is_kept(part) && (part.length == 0 || memcmp(part.start, bytes, part.length) == 0);
}

// --- one file for the reader ----------------------------------------------------------------------

static struct region files, scratches, tapes, works, outputs;
static unsigned long inputs, calls, plain_calls, steps, no_text, no_tape;

struct answer {
    uint32_t ending;
    uint64_t held, place;
    uint32_t marker;
};

// One call with so much memory. Whatever else the regions hold must be as it was.
static struct answer call(const uint8_t *bytes, size_t length, size_t scratch_room, size_t tape_room, int at_end) {
    struct part file = part_with(files, bytes, length, at_end);
    struct part scratch = part_of(scratches, scratch_room, at_end);
    struct part tape = part_of(tapes, tape_room, at_end);
    struct answer a = {0, 0, 0, 0};
    a.ending = zm_transcribe(file.start, file.length, scratch.start, scratch.length, tape.start, tape.length,
                             BUDGET, &a.held, &a.place, &a.marker);
    calls++;
    if (!holds(file, bytes) || !is_kept(scratch) || !is_kept(tape))
        stop("memory changed that was not lent");
    if (a.held > tape_room)
        stop("more is held than lent");
    no_text += a.ending == ZM_NO_ROOM_FOR_TEXT;
    no_tape += a.ending == ZM_NO_ROOM_FOR_TAPE;
    return a;
}

// One call of the plain reader with so much tape and such a budget.
static struct answer plain_call(const uint8_t *bytes, size_t length, size_t tape_room, uint64_t budget, int at_end) {
    struct part file = part_with(files, bytes, length, at_end);
    struct part tape = part_of(tapes, tape_room, at_end);
    struct answer a = {0, 0, 0, 0};
    a.ending = zm_read_plainly(file.start, file.length, tape.start, tape.length, budget, &a.held, &a.place, &a.marker);
    plain_calls++;
    if (!holds(file, bytes))
        stop("the plain reader changed memory that was not lent");
    if (a.held > tape_room)
        stop("the plain reader holds more than lent");
    if (!is_kept_from(tape, a.held))
        stop("the plain reader changed what lies behind the bytes held");
    return a;
}

static int is_same(struct answer a, struct answer b) {
    return a.ending == b.ending && a.held == b.held && a.place == b.place && a.marker == b.marker;
}

// The transcript's answer, where its budget was not used up, from a tape that just fits; with a byte or the budget less it is refused.
static void read_plainly(const uint8_t *bytes, size_t length, struct answer all, int at_end) {
    if (all.ending == ZM_STOPPED)
        return;
    if (!is_same(plain_call(bytes, length, all.held, UINT64_MAX, at_end), all))
        stop("the plain reader gives another answer");
    if (all.held == 0)
        return;
    if (plain_call(bytes, length, all.held - 1, UINT64_MAX, at_end).ending != ZM_NO_ROOM_FOR_TAPE)
        stop("the plain reader takes a tape that is one byte too short");
    if (plain_call(bytes, length, 0, 0, at_end).ending != ZM_OVER_BUDGET)
        stop("the plain reader goes on without a budget");
}

// Steps along a tape that touches the protected page, from event to event and from places in between.
static void step_over(struct part tape) {
    uint64_t at = 0, value, start, length;
    while (at < tape.length) {
        at = zm_tape_step(tape.start, tape.length, at, &value, &start, &length);
        steps++;
        if (at != ZM_NO_EVENT && (at > tape.length || start + length > tape.length))
            stop("a step leaves the tape");
    }
    for (size_t inside = 0; inside <= tape.length; inside += 1 + tape.length / 40, steps++)
        zm_tape_step(tape.start, tape.length, inside, &value, &start, &length);
}

// The tape that a call left at the end of its region, whole and with its last bytes cut off.
static void walk(size_t held) {
    uint8_t *copy = malloc(held + 1);
    memcpy(copy, tapes.memory + tapes.size - held, held);
    for (size_t cut = 0; cut <= held && cut <= 12; cut++)
        step_over(part_with(tapes, copy, held - cut, 1));
    free(copy);
}

static void read_input(const uint8_t *bytes, size_t length) {
    inputs++;
    for (int at_end = 0; at_end < 2; at_end++) {
        size_t room = 2 * length + 16;
        struct answer all = call(bytes, length, room, tapes.size, at_end);
        if (all.ending == ZM_NO_ROOM_FOR_TAPE || all.ending == ZM_NO_ROOM_FOR_TEXT)
            stop("a tape or a text is larger than its region");
        struct answer exact = call(bytes, length, room, all.held, at_end);
        if (exact.ending != all.ending || exact.held != all.held || exact.place != all.place || exact.marker != all.marker)
            stop("a tape that just fits gives another answer");
        if (at_end)
            walk(exact.held);
        read_plainly(bytes, length, all, at_end);
        if (all.held > 0 && call(bytes, length, room, all.held - 1, at_end).ending != ZM_NO_ROOM_FOR_TAPE)
            stop("a tape that is one byte too short is not refused");
        for (size_t scratch = 0; scratch < 4; scratch++)
            call(bytes, length, scratch, all.held, at_end);
    }
}

// --- one tape for the writer ----------------------------------------------------------------------

static unsigned long written_inputs, writes, written_files, appends;

struct written {
    uint32_t number, expected, found;
    uint64_t value;
};

// One call with so many words and so much output. What may not change must be as it was.
static struct written write_call(const uint8_t *bytes, size_t length, size_t words, size_t room, int at_end) {
    struct part tape = part_with(tapes, bytes, length, at_end);
    struct part work = part_of(works, words * sizeof(uint32_t), at_end);
    struct part out = part_of(outputs, room, at_end);
    struct written a = {0, 0, 0, 0};
    a.number = zm_write(tape.start, tape.length, (uint32_t *)work.start, words, out.start, out.length, &a.value,
                        &a.expected, &a.found);
    writes++;
    if (!holds(tape, bytes) || !is_kept(work))
        stop("memory changed that was not lent");
    if (a.number == 0 && a.value > room)
        stop("a file is larger than the output");
    if (!is_kept_from(out, a.number == 0 ? a.value : 0))
        stop("output changed that is no part of a file");
    if (a.number != 0 && a.number != ZM_NO_ROOM_FOR_OUTPUT && a.number != ZM_FILE_TOO_LONG && !is_kept_from(work, 0))
        stop("a refusal changed words");
    return a;
}

static void refuses(struct written a, uint32_t number, const char *why) {
    if (a.number != number || a.value != 0)
        stop(why);
}

// The number of whole events from the front of a tape.
static size_t events_of(const uint8_t *bytes, size_t length) {
    uint64_t at = 0, value, start, count;
    size_t events = 0;
    for (; at < length; events++)
        if ((at = zm_tape_step(bytes, length, at, &value, &start, &count)) == ZM_NO_EVENT)
            break;
    return events;
}

// Puts a tape's events onto another tape of just their length, which touches the protected page. Each is tried first
// with one byte too few.
static void append_again(const uint8_t *bytes, size_t length) {
    uint64_t at = 0, value, start, count, next;
    struct part tape = part_of(works, length, 1);
    for (; at < length; at = next, appends++) {
        next = zm_tape_step(bytes, length, at, &value, &start, &count);
        if (next == ZM_NO_EVENT)
            return;
        uint8_t *data = outputs.memory + outputs.size - count;
        memcpy(data, bytes + start, count);
        if (zm_tape_append(tape.start, next - 1, at, bytes[at], value, data, count) != ZM_APPEND_NO_ROOM)
            stop("an event that doesn't fit is appended");
        if (!is_filling(tape.start + at, tape.start + length))
            stop("a refusal changed the tape");
        if (zm_tape_append(tape.start, next, at, bytes[at], value, data, count) != next)
            stop("an event is not appended");
        if (!is_filling(tape.start + next, tape.start + length) || memcmp(tape.start + at, bytes + at, next - at) != 0)
            stop("an event is not appended as it was");
    }
    if (!holds(tape, bytes))
        stop("appending changed memory that was not lent");
}

static void write_input(const uint8_t *bytes, size_t length) {
    size_t words = ZM_WORDS_FOR_EVENT * events_of(bytes, length);
    written_inputs++;
    append_again(bytes, length);
    for (int at_end = 0; at_end < 2; at_end++) {
        struct written all = write_call(bytes, length, works.size / sizeof(uint32_t), outputs.size, at_end);
        if (all.number != 0) {
            struct written none = write_call(bytes, length, 0, 0, at_end);
            if (none.number != all.number || none.value != all.value || none.expected != all.expected ||
                none.found != all.found)
                stop("a tape that is refused is refused otherwise without room");
            continue;
        }
        written_files++;
        struct written exact = write_call(bytes, length, words, all.value, at_end);
        if (exact.number != 0 || exact.value != all.value)
            stop("a file that just fits gives another answer");
        refuses(write_call(bytes, length, words - 1, all.value, at_end), ZM_NO_ROOM_FOR_WORK,
                "one word too few is not refused");
        refuses(write_call(bytes, length, words, all.value - 1, at_end), ZM_NO_ROOM_FOR_OUTPUT,
                "an output that is one byte too short is not refused");
        refuses(write_call(bytes, length, 0, 0, at_end), ZM_NO_ROOM_FOR_WORK, "no words are not refused first");
    }
}

// --- the inputs -----------------------------------------------------------------------------------

static int digit(int c) {
    return c <= '9' ? c - '0' : c - 'a' + 10;
}

typedef void take(const uint8_t *bytes, size_t length);

// An input whole, cut at both ends, with a byte less and with a byte changed, from a place on.
static void around(uint8_t *bytes, size_t length, size_t from, take *input) {
    size_t stride = 1 + length / 16;
    input(bytes, length);
    for (size_t cut = 1; cut <= length; cut += stride) {
        input(bytes, length - cut);
        input(bytes + cut, length - cut);
    }
    uint8_t *less = malloc(length + 1);
    for (size_t at = from; at < length; at += stride) {
        memcpy(less, bytes, at);
        memcpy(less + at, bytes + at + 1, length - at - 1);
        input(less, length - 1);
        uint8_t was = bytes[at];
        bytes[at] = was ^ 0x0f, input(bytes, length);
        bytes[at] = 0xff, input(bytes, length);
        bytes[at] = was;
    }
    free(less);
}

static void each_line(const char *path, size_t from, take *input) {
    FILE *lines = fopen(path, "r");
    if (lines == NULL)
        stop("can't open the inputs");
    char *line = NULL;
    size_t room = 0;
    ssize_t got;
    while ((got = getline(&line, &room, lines)) > 0) {
        size_t length = (size_t)(got - (line[got - 1] == '\n')) / 2;
        uint8_t *bytes = malloc(length + 1);
        for (size_t i = 0; i < length; i++)
            bytes[i] = (uint8_t)(digit(line[2 * i]) << 4 | digit(line[2 * i + 1]));
        around(bytes, length, from, input);
        free(bytes);
    }
    free(line);
    fclose(lines);
}

int main(int count, char **words) {
    if (count != 3)
        stop("usage: guard FILES TAPES");
    files = new_region(), scratches = new_region(), tapes = new_region(), works = new_region(), outputs = new_region();
    each_line(words[1], 8, read_input);
    printf("%lu inputs, %lu transcripts (%lu refused 16, %lu refused 27), %lu plain readings, %lu steps of tapes: nothing overran\n",
           inputs, calls, no_text, no_tape, plain_calls, steps);
    each_line(words[2], 0, write_input);
    printf("%lu tapes, %lu calls of the writer, %lu files written, %lu events appended: nothing overran\n",
           written_inputs, writes, written_files, appends);
    return 0;
}
