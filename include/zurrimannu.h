/*
 * Binary property lists, read and written by proved functions: those of the crates `exports_c`, `exports_plain_c`, `exports_find_c`, `exports_build_c` and
 * `exports_xml_c`.
 *
 * The library is target/staticlib/libzurrimannu.a, for x86-64; `./lib` makes it.
 *
 * A piece of memory passes as a pointer and the number of its elements. The pointer isn't NULL and is aligned for its type, even where
 * the number is 0. Memory that a function may write to overlaps nothing else that is passed, nor do the single numbers that it fills in.
 * It is used during the call alone. No function allocates, keeps anything or touches other memory. Any content is answered: nothing
 * goes wrong but what is named here.
 *
 * "Refused N" is a number of docs/FORMAT.md, which has the rules, as crates/exports/specs has the exact promises.
 */
#ifndef ZURRIMANNU_H
#define ZURRIMANNU_H

#include <stdbool.h>
#include <stddef.h>
#include <stdint.h>

#ifdef __cplusplus
extern "C" {
#endif

/*
 * The numbers of refusals, of the reader (1 to 17, 31, 34), the event tape (20, 27), the plain reader (37), the writer (1, 15, 20 to 26), the
 * builder (these, 27 and 32), the calendar (30), the lookup (1, 15, 20 to 23, 33) and XML (1, 15, 20 to 23, 25, 30, 35, 36).
 * None is 0, and none is 240 or above: 0 and 240 to 255 are for answers that are no refusal.
 */
enum {
    ZM_TOO_LONG = 1,
    ZM_END_OF_INPUT = 2,
    ZM_INVALID_MAGIC = 3,
    ZM_INVALID_TRAILER_OBJECT_OFFSET_SIZE = 4,
    ZM_INVALID_TRAILER_OBJECT_REFERENCE_SIZE = 5,
    ZM_OBJECT_OFFSET_TOO_LARGE = 6,
    ZM_OBJECT_REFERENCE_TOO_LARGE = 7,
    ZM_NULL_OBJECT_UNIMPLEMENTED = 8,
    ZM_FILL_OBJECT_UNIMPLEMENTED = 9,
    ZM_UNKNOWN_OBJECT_TYPE = 10,
    ZM_INTEGER_OUT_OF_RANGE = 11,
    ZM_INVALID_UTF8_STRING = 12,
    ZM_INVALID_UTF16_STRING = 13,
    ZM_RECURSIVE_OBJECT = 14,
    ZM_TOO_DEEP = 15,
    ZM_NO_ROOM_FOR_TEXT = 16,
    ZM_WRONG_FILE = 17,
    ZM_BAD_TAPE = 20,
    ZM_UNEXPECTED_EVENT_TYPE = 21,
    ZM_INCOMPLETE_ROOT = 22,
    ZM_TRAILING_EVENTS = 23,
    ZM_NO_ROOM_FOR_WORK = 24,
    ZM_NO_ROOM_FOR_OUTPUT = 25,
    ZM_FILE_TOO_LONG = 26,
    ZM_NO_ROOM_FOR_TAPE = 27,
    ZM_NO_SUCH_TIME = 30,
    ZM_INVALID_OBJECT_LENGTH = 31,
    ZM_TAPE_SHRANK = 32,
    ZM_BAD_PATH = 33,
    ZM_OVERFLOW_OR_NAN_DATE = 34,
    ZM_NO_XML_ELEMENT = 35,
    ZM_NO_XML_CHARACTER = 36,
    ZM_OVER_BUDGET = 37,
};

/* --- text ------------------------------------------------------------------------------------------ */

/* Whether bytes are well-formed UTF-8, well-formed UTF-16 with the high byte first, or ASCII. */
bool zm_is_utf8(const uint8_t *s, size_t length);
bool zm_is_utf16(const uint8_t *s, size_t length);
bool zm_is_ascii(const uint8_t *s, size_t length);

/* What the changes of text answer in place of a length. */
#define ZM_NOT_TEXT UINT64_MAX
#define ZM_NO_ROOM (UINT64_MAX - 1)

/*
 * Text from one form to the other, to the start of `out`. They answer how many bytes that are; ZM_NOT_TEXT where the bytes aren't
 * well-formed, else ZM_NO_ROOM where the text doesn't fit. Then `out` is as it was; what lies behind the text always is.
 */
uint64_t zm_utf8_to_utf16(const uint8_t *s, size_t length, uint8_t *out, size_t room);
uint64_t zm_utf16_to_utf8(const uint8_t *s, size_t length, uint8_t *out, size_t room);

/* --- reading --------------------------------------------------------------------------------------- */

/* How a transcript ends where nothing is refused. */
enum {
    ZM_ENDED = 0,     /* the whole file is on the tape */
    ZM_STOPPED = 255, /* `budget` events are */
};

/*
 * Reads a file and puts its events on a tape, at most `budget` of them. Answers ZM_ENDED, ZM_STOPPED or the number of a refusal:
 * of the reader, or 27 where an event doesn't fit on the tape. `*held` is then how many bytes of the tape are held, also where
 * something is refused behind them; `*place` the place of the refusal, else 0; `*marker` the byte that refusal 10 is about, else 0.
 *
 * `scratch` is room for one text of the file that is UTF-16, changed to UTF-8; 16 says that it is too short. Three bytes for two of
 * the file are always enough.
 */
uint32_t zm_transcribe(const uint8_t *file, size_t file_length, uint8_t *scratch, size_t scratch_length, uint8_t *tape,
                       size_t tape_length, uint64_t budget, uint64_t *held, uint64_t *place, uint32_t *marker);

/*
 * The plain reader: the same events, put on a tape by a function that goes down through the objects by calling itself. It needs no scratch.
 * Answers ZM_ENDED or the number of a refusal, never 16 or 17: 37 where `budget` events are on the tape and another is next, 27 where the
 * next one doesn't fit; where both apply, 37. `*held`, `*place` and `*marker` are as above; the place of 37 is 0, that of 27 `*held`.
 * It calls itself, up to 512 deep.
 */
uint32_t zm_read_plainly(const uint8_t *file, size_t file_length, uint8_t *tape, size_t tape_length, uint64_t budget, uint64_t *held,
                         uint64_t *place, uint32_t *marker);

/* --- the event tape -------------------------------------------------------------------------------- */

/* The kinds of events: the byte that stands on the tape, and what goes with it. */
enum {
    ZM_FALSE = 1,
    ZM_TRUE = 2,
    ZM_INTEGER = 3,  /* the number itself */
    ZM_NEGATIVE = 4, /* of a negative integer n the number -1 - n, below 2^63 */
    ZM_REAL = 5,     /* the 64 bits */
    ZM_DATE = 6,     /* the 64 bits of a finite real: seconds since 2001-01-01 00:00:00 UTC */
    ZM_UID = 7,      /* the number */
    ZM_DATA = 8,     /* bytes */
    ZM_TEXT = 9,     /* bytes, which are UTF-8 */
    ZM_ARRAY = 10,
    ZM_ARRAY_WITH_LENGTH = 11, /* the number of elements */
    ZM_DICTIONARY = 12,
    ZM_DICTIONARY_WITH_LENGTH = 13, /* the number of pairs */
    ZM_END = 14,
};

/* What a step answers where the bytes are no event. */
#define ZM_NO_EVENT UINT64_MAX

/*
 * The event at an offset of a tape; its kind is the byte there. Answers the offset of the next event, ZM_NO_EVENT where the bytes from
 * `at` on are no whole event or `at` isn't on the tape. `*value` is the number that goes with the kind, else 0; of data and text
 * `*start` is where the bytes begin and `*length` how many they are. Of an event without bytes `*length` is 0 and `*start` the answer.
 * For what is no event all three are 0.
 */
uint64_t zm_tape_step(const uint8_t *tape, size_t tape_length, size_t at, uint64_t *value, uint64_t *start, uint64_t *length);

/* What appending answers in place of a length. */
#define ZM_APPEND_BAD_EVENT UINT64_MAX      /* refused 20: the text isn't UTF-8, or the date is infinite or a NaN */
#define ZM_APPEND_NO_ROOM (UINT64_MAX - 1)  /* refused 27: the event doesn't fit */
#define ZM_APPEND_NO_EVENT (UINT64_MAX - 2) /* `kind` is none of the kinds, or a negative integer is below -2^63 */

/*
 * Appends an event to a tape of which the first `held` bytes are used. `value` is the number that goes with the kind, `bytes` are those
 * of data or text; what doesn't go with the kind isn't looked at. Answers how many bytes are held then; or ZM_APPEND_NO_EVENT, else
 * ZM_APPEND_BAD_EVENT, else ZM_APPEND_NO_ROOM. Where nothing is appended the tape is as it was; what lies behind the event always is.
 */
uint64_t zm_tape_append(uint8_t *tape, size_t tape_length, size_t held, uint32_t kind, uint64_t value, const uint8_t *bytes,
                        size_t bytes_length);

/* --- writing --------------------------------------------------------------------------------------- */

/* The kinds that 21 names as expected or found. */
enum {
    ZM_KIND_VALUE_OR_START_COLLECTION = 1,
    ZM_KIND_DICTIONARY_KEY_OR_END_COLLECTION = 2,
    ZM_KIND_START_ARRAY = 3,
    ZM_KIND_START_DICTIONARY = 4,
    ZM_KIND_END_COLLECTION = 5,
    ZM_KIND_BOOLEAN = 6,
    ZM_KIND_DATA = 7,
    ZM_KIND_DATE = 8,
    ZM_KIND_INTEGER = 9,
    ZM_KIND_REAL = 10,
    ZM_KIND_STRING = 11,
    ZM_KIND_UID = 12,
};

/* Words that the writer works in, for each event of the tape, ends too. */
#define ZM_WORDS_FOR_EVENT 8

/*
 * Writes the file of a tape, whose events are one whole value, to the start of `out`. Answers 0, and `*value` is the file's length; or
 * the number of a refusal, and `*value` is its place, 0 where it has none. `*expected` and `*found` are the kinds that 21 names, else 0.
 *
 * After a refusal `out` is as it was; what lies behind the file always is. The first eight words for each event change with a file, with
 * 25 and with 26, and hold nothing of use then. All other words, and with any other refusal all of them, are as they were.
 */
uint32_t zm_write(const uint8_t *tape, size_t tape_length, uint32_t *work, size_t work_length, uint8_t *out, size_t out_length,
                  uint64_t *value, uint32_t *expected, uint32_t *found);

/* --- writing call by call -------------------------------------------------------------------------- */

/* What a builder's calls answer that is neither 0 nor a refusal. The three numbers that they fill in are 0 then. */
enum {
    ZM_NO_SUCH_EVENT = 251, /* `kind` is none of the kinds, or a negative integer is below -2^63 */
    ZM_NO_STATE = 252,      /* the words are fewer than ZM_BUILDER_WORDS */
};

/*
 * A builder is this many words, and no call touches any behind them. Words that are all 0 are an empty builder. Any words are some builder:
 * what they are is answered, and no call goes beyond what is lent.
 */
#define ZM_BUILDER_WORDS 20

/* Makes the words an empty builder. Answers 0; or ZM_NO_STATE, and they are as they were. */
uint32_t zm_build_begin(uint32_t *builder, size_t words);

/*
 * Puts an event behind those that the builder holds, which stand at the start of the tape; the caller lends the tape to each call as the last
 * one left it. `kind`, `value` and `bytes` are those of zm_tape_append. Answers 0, and `*place` is how many bytes are held then; or
 * ZM_NO_STATE, else ZM_NO_SUCH_EVENT, else the number of a refusal, in this order: ZM_TAPE_SHRANK where fewer bytes are lent than are held;
 * 1, 23, 20, 21, 15 as zm_write would refuse the tape with the event on it; 27 where the event doesn't fit. Then builder and tape are as
 * they were, so that the next call goes on from there. `*place` is the refusal's place, `*expected` and `*found` are as zm_write's.
 */
uint32_t zm_build(uint32_t *builder, size_t words, uint8_t *tape, size_t tape_length, uint32_t kind, uint64_t value, const uint8_t *bytes,
                  size_t bytes_length, uint64_t *place, uint32_t *expected, uint32_t *found);

/*
 * Writes the file of the bytes held, altered or not, as zm_write does of them; ZM_NO_STATE, then ZM_TAPE_SHRANK come before its refusals. The
 * builder is as it was: a call that had too little room is made again with more, and other events may follow.
 */
uint32_t zm_build_finish(const uint32_t *builder, size_t words, const uint8_t *tape, size_t tape_length, uint32_t *work, size_t work_length,
                         uint8_t *out, size_t out_length, uint64_t *value, uint32_t *expected, uint32_t *found);

/* --- looking up -------------------------------------------------------------------------------------- */

/* What a lookup answers where there is no such value. */
#define ZM_NOT_FOUND 254

/*
 * The value under a path on a tape whose events are one whole value. A path is the count of its keys, then of each key the count of its bytes and
 * the bytes, in groups of seven bits as on the tape; the empty path, one byte 0, is the root. Keys are compared as bytes; of pairs with the same
 * key the first counts.
 *
 * Answers 0, and the value is the `*length` bytes of the tape from `*start` on, which are a complete tape themselves; ZM_NOT_FOUND, and both are 0;
 * or the number of a refusal, and `*start` is its place, `*length` 0: of the tape as zm_write has them (1, 15, 20 to 23), then 33 where the bytes
 * are no path. `*expected` and `*found` are the kinds that 21 names, else 0.
 */
uint32_t zm_find(const uint8_t *tape, size_t tape_length, const uint8_t *path, size_t path_length, uint64_t *start, uint64_t *length,
                 uint32_t *expected, uint32_t *found);

/* What adding a key answers in place of a length, or ZM_NO_ROOM. */
#define ZM_NOT_PATH UINT64_MAX

/*
 * Makes a path key by key. With `held` 0 the path of this key alone comes to stand at the front of `path`; else the key is added to the path in the
 * first `held` bytes. Answers how many bytes are held then; or ZM_NOT_PATH where the held bytes are no path, else ZM_NO_ROOM where the new one doesn't
 * fit. Then `path` is as it was; what lies behind the path always is. The empty path is one byte 0.
 */
uint64_t zm_path_append(uint8_t *path, size_t path_length, size_t held, const uint8_t *key, size_t key_length);

/* --- XML ------------------------------------------------------------------------------------------- */

/*
 * Writes the XML of a tape, whose events are one whole value, to the start of `out`. Answers 0, and `*value` is the XML's length; or the
 * number of a refusal, and `*value` is its place. First come the refusals that zm_write has of a tape: 1, 15, 20 to 23. Then, at the
 * first event concerned: ZM_NO_XML_ELEMENT for a real or a UID, ZM_NO_XML_CHARACTER for a text with a character that XML 1.0 doesn't
 * allow, ZM_NO_SUCH_TIME for a date that zm_calendar refuses. Last comes 25, where the XML is longer than `out`; `*value` is 0 then.
 * `*expected` and `*found` are the kinds that 21 names, else 0.
 *
 * After a refusal `out` is as it was; what lies behind the XML always is. No zero is put behind it.
 */
uint32_t zm_xml(const uint8_t *tape, size_t tape_length, uint8_t *out, size_t out_length, uint64_t *value, uint32_t *expected,
                uint32_t *found);

/* How long the XML is: what zm_xml answers where `out` is long enough. It takes about as long as half of zm_xml. */
uint32_t zm_xml_length(const uint8_t *tape, size_t tape_length, uint64_t *value, uint32_t *expected, uint32_t *found);

/* --- dates ----------------------------------------------------------------------------------------- */

/*
 * The day and time of a date's 64 bits, which are seconds since 2001-01-01 00:00:00 UTC; a fraction goes down. The calendar is the
 * Gregorian one, for all years from 1 to 9999, without leap seconds. Answers 0, and the six numbers are the day and time; or
 * ZM_NO_SUCH_TIME where the date is outside these years, is infinite or no number, and all six are 0.
 */
uint32_t zm_calendar(uint64_t bits, uint32_t *year, uint32_t *month, uint32_t *day, uint32_t *hour, uint32_t *minute, uint32_t *second);

/*
 * The seconds from 2001-01-01 00:00:00 UTC to a day and time, negative before it. Answers 0; or ZM_NO_SUCH_TIME where there is no such
 * day in these years or no such time of day, and `*seconds` is 0.
 */
uint32_t zm_seconds(uint32_t year, uint32_t month, uint32_t day, uint32_t hour, uint32_t minute, uint32_t second, int64_t *seconds);

#ifdef __cplusplus
}
#endif

#endif
