//! The proved lookup and one over values, on the same tapes and paths, in one process. See compare/README.md.

#[allow(dead_code)]
mod ours;
#[allow(dead_code)]
mod random;
#[allow(dead_code)]
mod tapes;

use std::{collections::BTreeMap, env, ops::Range, process::ExitCode};

use random::Random;
use tapes::{put, put_bits, put_bytes, put_number, put_start, ARRAY, DATA, DATE, DICTIONARY, END, FALSE, INTEGER, NEGATIVE, REAL, TEXT, TRUE, UID};

const USAGE: &str = "usage: finds [--seed N] [--count N]";
const SHOWN: u64 = 5;
/// Keys that stand twice, and that begin with others.
const KEYS: [&[u8]; 12] = [
    b"", b"a", b"b", b"ab", b"aba", b"key", b"\xc3\xa9", b"matter", b"hold", b"until", b"until\0", &[b'x'; 130],
];

/// A value with its place on the tape.
struct Value {
    place: Range<usize>,
    kind: Kind,
}

enum Kind {
    Scalar,
    Array(Vec<Value>),
    Dictionary(Vec<(Vec<u8>, Value)>),
}

fn main() -> ExitCode {
    let (mut seed, mut count) = (1, 10_000_000);
    for pair in env::args().skip(1).collect::<Vec<_>>().chunks(2) {
        match (pair[0].as_str(), pair.get(1).and_then(|n| n.parse::<u64>().ok())) {
            ("--seed", Some(n)) => seed = n,
            ("--count", Some(n)) => count = n,
            _ => {
                eprintln!("{USAGE}");
                return ExitCode::from(2);
            }
        }
    }
    run(&mut Random::new(seed), count)
}

fn run(rng: &mut Random, count: u64) -> ExitCode {
    let (mut answers, mut differences) = (BTreeMap::new(), 0);
    for _ in 0..count {
        let (tape, path, wanted) = question(rng);
        let got = ours::find(&tape, &path);
        *answers.entry(wanted.number).or_insert(0) += 1;
        if got != wanted {
            differences += 1;
            if differences <= SHOWN {
                println!("{tape:02x?} {path:02x?}: {got:?}, not {wanted:?}");
            }
        }
    }
    for (number, count) in answers {
        println!("{number}: {count}");
    }
    println!("{count} tapes and paths, {differences} differences");
    ExitCode::from((differences > 0) as u8)
}

// --- a question and its answer ----------------------------------------------------------------------

/// A tape, a path and what must be answered. Every eighth tape is damaged: then the refusal is the writer's, which compare/writes compares with
/// the crate's, or the damage did no harm and the answer isn't known here, so that the tape is left as it was.
fn question(rng: &mut Random) -> (Vec<u8>, Vec<u8>, ours::Found) {
    let mut tape = Vec::new();
    let levels = rng.below(4);
    let root = put_value(rng, &mut tape, levels, true);
    let keys = some_keys(rng, &root);
    let mut path = path_of(&keys);
    let mut known = Some(&keys);
    if rng.one_in(6) {
        path = damaged(rng, &path);
        known = (path_of(&keys) == path).then_some(&keys);
    }
    if rng.one_in(8) {
        let bad = damaged(rng, &tape);
        let written = ours::write(&bad, &mut [], &mut []);
        if written.number != 24 {
            let (number, start) = (written.number, written.value);
            let (expected, found) = (written.expected, written.found);
            return (bad, path, ours::Found { number, start, length: 0, expected, found });
        }
    }
    let wanted = match known.map(|keys| keys.to_vec()).or_else(|| keys_of(&path)) {
        None => answer(33, 0..0),
        Some(keys) => keys
            .iter()
            .try_fold(&root, |value, key| under(value, key))
            .map_or(answer(254, 0..0), |value| answer(0, value.place.clone())),
    };
    (tape, path, wanted)
}

fn answer(number: u32, place: Range<usize>) -> ours::Found {
    let (start, length) = (place.start as u64, place.len() as u64);
    ours::Found { number, start, length, expected: 0, found: 0 }
}

/// The value of the first pair with this key.
fn under<'a>(value: &'a Value, key: &[u8]) -> Option<&'a Value> {
    let Kind::Dictionary(pairs) = &value.kind else {
        return None;
    };
    pairs.iter().find(|(name, _)| name == key).map(|(_, content)| content)
}

// --- paths ------------------------------------------------------------------------------------------

fn path_of(keys: &[Vec<u8>]) -> Vec<u8> {
    let mut path = Vec::new();
    put_number(&mut path, keys.len() as u64);
    for key in keys {
        put_number(&mut path, key.len() as u64);
        path.extend(key);
    }
    path
}

/// The keys of bytes, where they are the bytes of these keys.
fn keys_of(path: &[u8]) -> Option<Vec<Vec<u8>>> {
    let (mut keys, mut at) = (Vec::new(), 0);
    let count = taken(path, &mut at)?;
    while (keys.len() as u64) < count {
        let n = usize::try_from(taken(path, &mut at)?).ok()?;
        keys.push(path.get(at..at.checked_add(n)?)?.to_vec());
        at += n;
    }
    (path_of(&keys) == path).then_some(keys)
}

fn taken(path: &[u8], at: &mut usize) -> Option<u64> {
    let mut number: u128 = 0;
    for group in 0..10 {
        let byte = *path.get(*at)?;
        *at += 1;
        number += u128::from(byte & 0x7f) << (7 * group);
        if byte < 0x80 {
            return number.try_into().ok();
        }
    }
    None
}

/// Down along pairs, seldom past an array or a scalar; then one key changed, added or none.
fn some_keys(rng: &mut Random, root: &Value) -> Vec<Vec<u8>> {
    let (mut keys, mut value) = (Vec::new(), root);
    while !rng.one_in(5) {
        match &value.kind {
            Kind::Dictionary(pairs) if !pairs.is_empty() => {
                let (key, content) = &pairs[rng.below(pairs.len())];
                keys.push(key.clone());
                value = content;
            }
            Kind::Array(members) if !members.is_empty() => value = &members[rng.below(members.len())],
            _ => break,
        }
    }
    match rng.below(8) {
        0 => keys.push(rng.of(&KEYS).to_vec()),
        1 if !keys.is_empty() => {
            let at = rng.below(keys.len());
            keys[at] = if rng.one_in(2) { damaged(rng, &keys[at]) } else { rng.of(&KEYS).to_vec() };
        }
        _ => {}
    }
    keys
}

/// Cut off, or a byte changed, lost or added.
fn damaged(rng: &mut Random, bytes: &[u8]) -> Vec<u8> {
    let mut bytes = bytes.to_vec();
    let at = rng.below(bytes.len());
    match rng.below(4) {
        0 => bytes.truncate(at),
        1 if !bytes.is_empty() => bytes[at] = rng.bits() as u8,
        2 if !bytes.is_empty() => drop(bytes.remove(at)),
        _ => bytes.push(rng.bits() as u8),
    }
    bytes
}

// --- tapes ------------------------------------------------------------------------------------------

fn put_value(rng: &mut Random, tape: &mut Vec<u8>, levels: usize, root: bool) -> Value {
    let start = tape.len();
    let kind = if !root && (levels == 0 || rng.one_in(4)) {
        put_scalar(rng, tape);
        Kind::Scalar
    } else {
        put_container(rng, tape, levels, root)
    };
    Value { place: start..tape.len(), kind }
}

/// A root is a dictionary, but one time in sixteen.
fn put_container(rng: &mut Random, tape: &mut Vec<u8>, levels: usize, root: bool) -> Kind {
    let count = rng.below(6);
    let given = rng.one_in(2).then_some(count as u64);
    let below = levels.saturating_sub(1);
    let kind = if rng.one_in(if root { 16 } else { 4 }) {
        put_start(tape, ARRAY, given);
        Kind::Array((0..count).map(|_| put_value(rng, tape, below, false)).collect())
    } else {
        put_start(tape, DICTIONARY, given);
        Kind::Dictionary((0..count).map(|_| put_pair(rng, tape, below)).collect())
    };
    tape.push(END);
    kind
}

fn put_pair(rng: &mut Random, tape: &mut Vec<u8>, levels: usize) -> (Vec<u8>, Value) {
    let key = rng.of(&KEYS);
    put_bytes(tape, TEXT, key);
    (key.to_vec(), put_value(rng, tape, levels, false))
}

fn put_scalar(rng: &mut Random, tape: &mut Vec<u8>) {
    let bits = rng.bits() >> rng.below(64);
    match rng.below(9) {
        0 => tape.push(FALSE),
        1 => tape.push(TRUE),
        2 => put(tape, INTEGER, bits),
        3 => put(tape, NEGATIVE, bits >> 1),
        4 => put_bits(tape, REAL, bits),
        5 => put_bits(tape, DATE, bits >> 2),
        6 => put(tape, UID, bits),
        7 => {
            let bytes = rng.bytes((bits % 20) as usize);
            put_bytes(tape, DATA, &bytes)
        }
        _ => put_bytes(tape, TEXT, rng.of(&KEYS)),
    }
}
