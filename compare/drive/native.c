// The exported functions as compare/native compiles them take a slice by the place of its pointer and length; here the two come apart, as
// in the library.
typedef unsigned char u8;
typedef unsigned int u32;
typedef unsigned long u64;

struct slice {
    const void *start;
    u64 length;
};

#define SLICE(start, length) (&(struct slice){start, length})

u32 raw_transcribe(struct slice *, struct slice *, struct slice *, u64, u64 *, u64 *, u32 *);
u32 raw_read_plainly(struct slice *, struct slice *, u64, u64 *, u64 *, u32 *);
u64 raw_tape_step(struct slice *, u64, u64 *, u64 *, u64 *);
u64 raw_tape_append(struct slice *, u64, u32, u64, struct slice *);
u32 raw_write(struct slice *, struct slice *, struct slice *, u64 *, u32 *, u32 *);
u8 raw_is_utf8(struct slice *);
u32 raw_xml(struct slice *, struct slice *, u64 *, u32 *, u32 *);
u32 raw_xml_length(struct slice *, u64 *, u32 *, u32 *);
u32 raw_find(struct slice *, struct slice *, u64 *, u64 *, u32 *, u32 *);
u32 raw_build_begin(struct slice *);
u32 raw_build(struct slice *, struct slice *, u32, u64, struct slice *, u64 *, u32 *, u32 *);
u32 raw_build_finish(struct slice *, struct slice *, struct slice *, struct slice *, u64 *, u32 *, u32 *);

u32 zm_transcribe(const u8 *file, u64 file_length, u8 *scratch, u64 scratch_length, u8 *tape, u64 tape_length, u64 budget, u64 *held,
                  u64 *place, u32 *marker) {
    return raw_transcribe(SLICE(file, file_length), SLICE(scratch, scratch_length), SLICE(tape, tape_length), budget, held, place, marker);
}

u32 zm_read_plainly(const u8 *file, u64 file_length, u8 *tape, u64 tape_length, u64 budget, u64 *held, u64 *place, u32 *marker) {
    return raw_read_plainly(SLICE(file, file_length), SLICE(tape, tape_length), budget, held, place, marker);
}

u64 zm_tape_step(const u8 *tape, u64 tape_length, u64 at, u64 *value, u64 *start, u64 *length) {
    return raw_tape_step(SLICE(tape, tape_length), at, value, start, length);
}

u64 zm_tape_append(u8 *tape, u64 tape_length, u64 held, u32 kind, u64 value, const u8 *bytes, u64 bytes_length) {
    return raw_tape_append(SLICE(tape, tape_length), held, kind, value, SLICE(bytes, bytes_length));
}

u32 zm_write(const u8 *tape, u64 tape_length, u32 *work, u64 work_length, u8 *out, u64 out_length, u64 *value, u32 *expected, u32 *found) {
    return raw_write(SLICE(tape, tape_length), SLICE(work, work_length), SLICE(out, out_length), value, expected, found);
}

u8 zm_is_utf8(const u8 *bytes, u64 length) { return raw_is_utf8(SLICE(bytes, length)); }

u32 zm_xml(const u8 *tape, u64 tape_length, u8 *out, u64 out_length, u64 *value, u32 *expected, u32 *found) {
    return raw_xml(SLICE(tape, tape_length), SLICE(out, out_length), value, expected, found);
}

u32 zm_xml_length(const u8 *tape, u64 tape_length, u64 *value, u32 *expected, u32 *found) {
    return raw_xml_length(SLICE(tape, tape_length), value, expected, found);
}

u32 zm_find(const u8 *tape, u64 tape_length, const u8 *path, u64 path_length, u64 *start, u64 *length, u32 *expected, u32 *found) {
    return raw_find(SLICE(tape, tape_length), SLICE(path, path_length), start, length, expected, found);
}

u32 zm_build_begin(u32 *builder, u64 words) { return raw_build_begin(SLICE(builder, words)); }

u32 zm_build(u32 *builder, u64 words, u8 *tape, u64 tape_length, u32 kind, u64 value, const u8 *bytes, u64 bytes_length, u64 *place,
             u32 *expected, u32 *found) {
    return raw_build(SLICE(builder, words), SLICE(tape, tape_length), kind, value, SLICE(bytes, bytes_length), place, expected, found);
}

u32 zm_build_finish(const u32 *builder, u64 words, const u8 *tape, u64 tape_length, u32 *work, u64 work_length, u8 *out, u64 out_length,
                    u64 *value, u32 *expected, u32 *found) {
    return raw_build_finish(SLICE(builder, words), SLICE(tape, tape_length), SLICE(work, work_length), SLICE(out, out_length), value,
                            expected, found);
}
