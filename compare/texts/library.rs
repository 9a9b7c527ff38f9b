//! The proved functions, as `./lib` gives them: a slice passes as a pointer, then a length.

extern "C" {
    fn zm_is_utf8(s: *const u8, length: usize) -> bool;
    fn zm_is_utf16(s: *const u8, length: usize) -> bool;
    fn zm_is_ascii(s: *const u8, length: usize) -> bool;
    fn zm_utf8_to_utf16(s: *const u8, length: usize, out: *mut u8, room: usize) -> u64;
    fn zm_utf16_to_utf8(s: *const u8, length: usize, out: *mut u8, room: usize) -> u64;
}

/// What a change of text answers.
#[derive(Clone, Copy, Debug, PartialEq)]
pub enum Changed {
    Written(usize),
    NotText,
    NoRoom,
}

/// The numbers that stand for the answers: crates/exports/specs/Codes.antt.
fn changed(code: u64) -> Changed {
    match code {
        u64::MAX => Changed::NotText,
        0xffff_ffff_ffff_fffe => Changed::NoRoom,
        n => Changed::Written(n as usize),
    }
}

// The functions read and write nothing but the slices, whose borrows outlast the calls.

pub fn is_utf8(s: &[u8]) -> bool {
    unsafe { zm_is_utf8(s.as_ptr(), s.len()) }
}

pub fn is_utf16(s: &[u8]) -> bool {
    unsafe { zm_is_utf16(s.as_ptr(), s.len()) }
}

pub fn is_ascii(s: &[u8]) -> bool {
    unsafe { zm_is_ascii(s.as_ptr(), s.len()) }
}

pub fn utf8_to_utf16(s: &[u8], out: &mut [u8]) -> Changed {
    changed(unsafe { zm_utf8_to_utf16(s.as_ptr(), s.len(), out.as_mut_ptr(), out.len()) })
}

pub fn utf16_to_utf8(s: &[u8], out: &mut [u8]) -> Changed {
    changed(unsafe { zm_utf16_to_utf8(s.as_ptr(), s.len(), out.as_mut_ptr(), out.len()) })
}
