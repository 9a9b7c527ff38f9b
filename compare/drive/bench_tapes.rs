//! The tapes that both benches of writing have.

use crate::{
    hold, ours,
    tapes::{put, put_bytes, put_start, put_text, ARRAY, DATA, DICTIONARY, END, INTEGER},
};

/// Each is made only when it is its turn.
pub fn inputs() -> [(&'static str, fn() -> Vec<u8>); 22] {
    [
        ("a hold record of some 40 objects", hold_record),
        ("10,000 strings, all equal", || strings(1)),
        ("10,000 strings, all different", || strings(10_000)),
        ("10,000 strings, of 100 kinds", || strings(100)),
        ("1,000,000 strings, all equal", || many_strings(1)),
        ("1,000,000 strings, all different", || {
            many_strings(1_000_000)
        }),
        ("1,000,000 strings, of 1,000 kinds", || many_strings(1_000)),
        ("10,000 data that collide", || colliding(10_000, 22, SUM)),
        ("1,000 data of 990 that collide", || {
            colliding(1_000, 990, SUM)
        }),
        ("3,900 data of 990, stairs", || stairs(990, SUM)),
        ("10,000 data, changes that cancel", || cancelling(10_000)),
        ("10,000 data that do for words of 0", || {
            colliding(10_000, 22, ZEROS)
        }),
        ("1,000 of 990 that do for words of 0", || {
            colliding(1_000, 990, ZEROS)
        }),
        ("the same stairs for words of 0", || stairs(990, ZEROS)),
        ("10,000 numbers", numbers),
        ("2,000 small dictionaries", dictionaries),
        ("arrays 64 deep", || nested(64)),
        ("arrays 200 deep", || nested(200)),
        ("arrays 512 deep", || nested(512)),
        ("20 texts that are not ASCII", wide_texts),
        ("10 ASCII texts of 100,000", long_texts),
        ("one data of 10,000,000", one_data),
    ]
}

/// The tape of the file that the reader's bench has.
fn hold_record() -> Vec<u8> {
    let file = hold::hold_record();
    let (mut scratch, mut tape) = (vec![0; 2 * file.len()], vec![0; 3 * file.len()]);
    let got = ours::transcribe(&file, &mut scratch, &mut tape, u64::MAX);
    tape.truncate(got.held);
    tape
}

fn list_of(count: usize, item: impl Fn(&mut Vec<u8>, u64)) -> Vec<u8> {
    let mut tape = Vec::new();
    put_start(&mut tape, ARRAY, Some(count as u64));
    (0..count as u64).for_each(|i| item(&mut tape, i));
    tape.push(END);
    tape
}

fn strings(kinds: u64) -> Vec<u8> {
    list_of(10_000, |tape, i| {
        put_text(tape, &format!("custodian-record-{:05}", i % kinds))
    })
}

fn many_strings(kinds: u64) -> Vec<u8> {
    list_of(1_000_000, |tape, i| {
        put_text(tape, &format!("custodian-record-{:07}", i % kinds))
    })
}

/// A hash whose key somebody knows: the states before the first block, which the blocks change in turn; the state behind a block of two
/// words; and the first word of a block by which the second doesn't count.
#[derive(Clone, Copy)]
struct Known {
    states: [u64; 2],
    lanes: usize,
    step: fn(u64, u32, u32) -> u64,
    zero: fn(u64) -> u32,
}

/// A sum of products, the writer's (crates/writer/src/alike.rt).
const SUM: Known = Known {
    states: [0; 2],
    lanes: 1,
    step: |h, low, high| {
        let (low, high) = (
            low.wrapping_add(0x9e37_79b1),
            high.wrapping_add(0x85eb_ca77),
        );
        h.rotate_left(5)
            .wrapping_add(u64::from(low) * u64::from(high))
    },
    zero: |_| 0x9e37_79b1_u32.wrapping_neg(),
};

/// The one with a key that was tried (docs/BENCHMARKS.md), where the first two lent words are 0.
const ZEROS: Known = Known {
    states: [0x85eb_ca77_9e37_79b1, 0x9e37_79b1 * 0x85eb_ca77],
    lanes: 2,
    step: |h, low, high| {
        let (low, high) = (
            low.wrapping_add(h as u32),
            high.wrapping_add((h >> 32) as u32),
        );
        h.rotate_left(5)
            .wrapping_add(u64::from(low) * u64::from(high))
    },
    zero: |h| (h as u32).wrapping_neg(),
};

/// Data and the places in it of four bytes that don't count, in each of the last `most` whole blocks that have such.
fn free_places(length: usize, most: usize, known: Known) -> (Vec<u8>, Vec<usize>) {
    let mut tape = Vec::new();
    put_bytes(&mut tape, DATA, &vec![0; length]);
    let head = tape.len() - length;
    let whole = (tape.len() - 8) / 8;
    let mut states = known.states;
    let mut free = Vec::new();
    for k in 0..whole {
        let state = &mut states[k % known.lanes];
        let (low, high) = (k * 8, k * 8 + 4);
        if k > 0 && k + most >= whole {
            tape[low..high].copy_from_slice(&(known.zero)(*state).to_le_bytes());
            free.push(high - head);
        }
        let word = |at: usize| u32::from_le_bytes(tape[at..at + 4].try_into().unwrap());
        *state = (known.step)(*state, word(low), word(high));
    }
    (tape[head..].to_vec(), free)
}

/// Data that differ in four bytes which don't count.
fn colliding(count: usize, length: usize, known: Known) -> Vec<u8> {
    let (mut content, free) = free_places(length, 1, known);
    let mut tape = Vec::new();
    put_start(&mut tape, ARRAY, Some(count as u64));
    for i in 0..count as u32 {
        content[free[0]..free[0] + 4].copy_from_slice(&i.wrapping_mul(0x9e37_79b1).to_be_bytes());
        put_bytes(&mut tape, DATA, &content);
    }
    tape.push(END);
    tape
}

/// The bits that don't count are i ones in datum i, then zeros: a search goes past all before it.
fn stairs(length: usize, known: Known) -> Vec<u8> {
    let (content, free) = free_places(length, usize::MAX / 2, known);
    list_of(free.len() * 32, |tape, i| {
        let mut content = content.clone();
        for (j, at) in free.iter().enumerate() {
            let ones = (i as usize).saturating_sub(j * 32).min(32) as u32;
            let bits = u32::MAX.checked_shl(32 - ones).unwrap_or(0);
            content[*at..*at + 4].copy_from_slice(&bits.to_be_bytes());
        }
        put_bytes(tape, DATA, &content)
    })
}

/// One word is t more, a later one 32 * t less: where products are added and turned by five bits the changes cancel, whatever key is added.
fn cancelling(count: usize) -> Vec<u8> {
    list_of(count, |tape, t| {
        let mut content = vec![0; 30];
        content[6..10].copy_from_slice(&(0x1234_5678 + t as u32).to_le_bytes());
        content[14..18].copy_from_slice(&(0x9abc_def0_u32 - 32 * t as u32).to_le_bytes());
        put_bytes(tape, DATA, &content)
    })
}

fn numbers() -> Vec<u8> {
    let spread = |i: u64| i.wrapping_mul(0x9e37_79b9_7f4a_7c15) >> (8 * (i % 8)) >> 1;
    list_of(10_000, |tape, i| put(tape, INTEGER, spread(i)))
}

fn dictionaries() -> Vec<u8> {
    list_of(2_000, |tape, i| {
        put_start(tape, DICTIONARY, Some(3));
        put_text(tape, "x");
        put(tape, INTEGER, i);
        put_text(tape, "y");
        put(tape, INTEGER, i + 1);
        put_text(tape, "name of this");
        put_text(tape, &format!("point {i}"));
        tape.push(END);
    })
}

fn nested(levels: usize) -> Vec<u8> {
    let mut tape = vec![ARRAY; levels];
    tape.resize(2 * levels, END);
    tape
}

fn wide_texts() -> Vec<u8> {
    list_of(20, |tape, i| {
        put_text(
            tape,
            &(i.to_string() + &"\u{706c}A\u{e9}\u{1f600}".repeat(1_000)),
        )
    })
}

fn long_texts() -> Vec<u8> {
    list_of(10, |tape, i| {
        put_text(tape, &(i.to_string() + &"plain text ".repeat(9_091)))
    })
}

fn one_data() -> Vec<u8> {
    let content: Vec<u8> = (0..10_000_000).map(|i| (i * 7 % 251) as u8).collect();
    let mut tape = Vec::new();
    put_bytes(&mut tape, DATA, &content);
    tape
}
