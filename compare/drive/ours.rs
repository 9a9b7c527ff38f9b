//! The proved functions, as `./lib` gives them: a slice passes as a pointer, then a length.

extern "C" {
    fn zm_transcribe(
        file: *const u8,
        file_length: usize,
        scratch: *mut u8,
        scratch_length: usize,
        tape: *mut u8,
        tape_length: usize,
        budget: u64,
        held: *mut u64,
        place: *mut u64,
        marker: *mut u32,
    ) -> u32;
    fn zm_read_plainly(
        file: *const u8,
        file_length: usize,
        tape: *mut u8,
        tape_length: usize,
        budget: u64,
        held: *mut u64,
        place: *mut u64,
        marker: *mut u32,
    ) -> u32;
    fn zm_tape_step(
        tape: *const u8,
        tape_length: usize,
        at: usize,
        value: *mut u64,
        start: *mut u64,
        length: *mut u64,
    ) -> u64;
    fn zm_tape_append(
        tape: *mut u8,
        tape_length: usize,
        held: usize,
        kind: u32,
        value: u64,
        bytes: *const u8,
        bytes_length: usize,
    ) -> u64;
    fn zm_write(
        tape: *const u8,
        tape_length: usize,
        work: *mut u32,
        work_length: usize,
        out: *mut u8,
        out_length: usize,
        value: *mut u64,
        expected: *mut u32,
        found: *mut u32,
    ) -> u32;
    fn zm_find(
        tape: *const u8,
        tape_length: usize,
        path: *const u8,
        path_length: usize,
        start: *mut u64,
        length: *mut u64,
        expected: *mut u32,
        found: *mut u32,
    ) -> u32;
    fn zm_build_begin(builder: *mut u32, builder_length: usize) -> u32;
    fn zm_build(
        builder: *mut u32,
        builder_length: usize,
        tape: *mut u8,
        tape_length: usize,
        kind: u32,
        value: u64,
        bytes: *const u8,
        bytes_length: usize,
        place: *mut u64,
        expected: *mut u32,
        found: *mut u32,
    ) -> u32;
    fn zm_build_finish(
        builder: *const u32,
        builder_length: usize,
        tape: *const u8,
        tape_length: usize,
        work: *mut u32,
        work_length: usize,
        out: *mut u8,
        out_length: usize,
        value: *mut u64,
        expected: *mut u32,
        found: *mut u32,
    ) -> u32;
}

/// The numbers of the endings that aren't refusals: crates/exports/specs/Transcript.antt.
pub const ENDED: u32 = 0;
pub const STOPPED: u32 = 255;

/// The number that the plain reader gives where the budget is used up and an event is next.
pub const OVER_BUDGET: u32 = 37;
pub const NO_ROOM_FOR_TAPE: u32 = 27;

/// How a transcript or a plain reading ends, how many bytes of the tape are held, the place of a refusal and the marker of 10.
#[derive(Clone, Copy, Debug, PartialEq)]
pub struct Transcript {
    pub ending: u32,
    pub held: usize,
    pub place: u64,
    pub marker: u32,
}

// The functions read and write nothing but the lent memory, whose borrows outlast the calls.

pub fn transcribe(file: &[u8], scratch: &mut [u8], tape: &mut [u8], budget: u64) -> Transcript {
    let (mut held, mut place, mut marker) = (u64::MAX, u64::MAX, u32::MAX);
    let ending = unsafe {
        zm_transcribe(
            file.as_ptr(),
            file.len(),
            scratch.as_mut_ptr(),
            scratch.len(),
            tape.as_mut_ptr(),
            tape.len(),
            budget,
            &mut held,
            &mut place,
            &mut marker,
        )
    };
    let held = held as usize;
    Transcript {
        ending,
        held,
        place,
        marker,
    }
}

pub fn read_plainly(file: &[u8], tape: &mut [u8], budget: u64) -> Transcript {
    let (mut held, mut place, mut marker) = (u64::MAX, u64::MAX, u32::MAX);
    let ending = unsafe {
        zm_read_plainly(
            file.as_ptr(),
            file.len(),
            tape.as_mut_ptr(),
            tape.len(),
            budget,
            &mut held,
            &mut place,
            &mut marker,
        )
    };
    let held = held as usize;
    Transcript {
        ending,
        held,
        place,
        marker,
    }
}

/// The next offset, the number behind the kind, and where bytes begin and how many there are. `None` is a bad tape.
pub fn tape_step(tape: &[u8], at: usize) -> Option<(usize, u64, usize, usize)> {
    let (mut value, mut start, mut length) = (1, 1, 1);
    let next = unsafe {
        zm_tape_step(
            tape.as_ptr(),
            tape.len(),
            at,
            &mut value,
            &mut start,
            &mut length,
        )
    };
    match next {
        u64::MAX => None,
        n => Some((n as usize, value, start as usize, length as usize)),
    }
}

/// What appending answers to an event that is no event, 20: include/zurrimannu.h.
pub const BAD_EVENT: u64 = u64::MAX;

/// How many bytes are held afterwards, or the number that stands for a refusal.
pub fn tape_append(tape: &mut [u8], held: usize, kind: u8, value: u64, bytes: &[u8]) -> u64 {
    unsafe {
        zm_tape_append(
            tape.as_mut_ptr(),
            tape.len(),
            held,
            kind.into(),
            value,
            bytes.as_ptr(),
            bytes.len(),
        )
    }
}

/// What the writer answers: 0 and the file's length, or a refusal's number and place, and the kinds that 21 names.
#[derive(Clone, Copy, Debug, PartialEq)]
pub struct Written {
    pub number: u32,
    pub value: u64,
    pub expected: u32,
    pub found: u32,
}

pub fn write(tape: &[u8], work: &mut [u32], out: &mut [u8]) -> Written {
    let (mut value, mut expected, mut found) = (u64::MAX, u32::MAX, u32::MAX);
    let number = unsafe {
        zm_write(
            tape.as_ptr(),
            tape.len(),
            work.as_mut_ptr(),
            work.len(),
            out.as_mut_ptr(),
            out.len(),
            &mut value,
            &mut expected,
            &mut found,
        )
    };
    Written {
        number,
        value,
        expected,
        found,
    }
}

/// What a lookup answers: 0, where the part begins and how long it is; 254; or a refusal's number, and its place in `start`.
#[derive(Clone, Copy, Debug, PartialEq)]
pub struct Found {
    pub number: u32,
    pub start: u64,
    pub length: u64,
    pub expected: u32,
    pub found: u32,
}

pub fn find(tape: &[u8], path: &[u8]) -> Found {
    let (mut start, mut length) = (u64::MAX, u64::MAX);
    let (mut expected, mut found) = (u32::MAX, u32::MAX);
    let number = unsafe {
        zm_find(
            tape.as_ptr(),
            tape.len(),
            path.as_ptr(),
            path.len(),
            &mut start,
            &mut length,
            &mut expected,
            &mut found,
        )
    };
    Found {
        number,
        start,
        length,
        expected,
        found,
    }
}

/// Words that hold a builder, and the answers of its calls that are no refusals: include/zurrimannu.h.
pub const BUILDER_WORDS: usize = 20;
pub const NO_SUCH_EVENT: u32 = 251;
pub const NO_STATE: u32 = 252;

pub fn build_begin(builder: &mut [u32]) -> u32 {
    unsafe { zm_build_begin(builder.as_mut_ptr(), builder.len()) }
}

/// An event as a kind, a number and bytes. The answer is the writer's, `value` being the bytes held where `number` is 0.
pub fn build(builder: &mut [u32], tape: &mut [u8], kind: u32, value: u64, bytes: &[u8]) -> Written {
    let (mut place, mut expected, mut found) = (u64::MAX, u32::MAX, u32::MAX);
    let number = unsafe {
        zm_build(
            builder.as_mut_ptr(),
            builder.len(),
            tape.as_mut_ptr(),
            tape.len(),
            kind,
            value,
            bytes.as_ptr(),
            bytes.len(),
            &mut place,
            &mut expected,
            &mut found,
        )
    };
    Written {
        number,
        value: place,
        expected,
        found,
    }
}

pub fn build_finish(builder: &[u32], tape: &[u8], work: &mut [u32], out: &mut [u8]) -> Written {
    let (mut value, mut expected, mut found) = (u64::MAX, u32::MAX, u32::MAX);
    let number = unsafe {
        zm_build_finish(
            builder.as_ptr(),
            builder.len(),
            tape.as_ptr(),
            tape.len(),
            work.as_mut_ptr(),
            work.len(),
            out.as_mut_ptr(),
            out.len(),
            &mut value,
            &mut expected,
            &mut found,
        )
    };
    Written {
        number,
        value,
        expected,
        found,
    }
}
