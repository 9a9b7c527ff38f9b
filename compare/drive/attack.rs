//! Scalars made by somebody who knows the code of a hash and not its key. See compare/README.md.
//!
//! The hash here is one with a key, which was tried for the writer's index (docs/BENCHMARKS.md). Two ways to make scalars collide are tried
//! with drawn keys: families of scalars, entered into an index as crates/writer/src/find.rt enters them; and
//! changes of two or three words of one scalar. The same is tried with a hash whose key is only added to its constants: it must be found
//! broken, or the attack is too weak to show anything.

#[allow(dead_code)]
mod random;

use std::{env, process::ExitCode};

use random::Random;

type Hash = fn(u64, &[u8]) -> u32;

const C1: u32 = 0x9e37_79b1;
const C2: u32 = 0x85eb_ca77;

/// As many scalars of a family may have one hash, for some key: by chance two of 4,096 do now and then.
const MOST_EQUAL: usize = 2;

fn main() -> ExitCode {
    let mut keys = 200;
    for pair in env::args().skip(1).collect::<Vec<_>>().chunks(2) {
        match (pair[0].as_str(), pair.get(1).and_then(|n| n.parse().ok())) {
            ("--keys", Some(n)) if n > 0 => keys = n,
            _ => {
                eprintln!("usage: attack [--keys N]");
                return ExitCode::from(2);
            }
        }
    }
    for (key, bytes, want) in known_answers() {
        assert_eq!(keyed(key, &bytes), want, "a known answer");
    }
    let ours = try_families("a key that is multiplied", keyed, keys) + try_changes(keyed, keys);
    println!();
    let weak = try_families("a key that is added", added, keys) + try_changes(added, keys);
    println!("\n{ours} ways to make that hash collide, {weak} for a key that is only added; {keys} keys");
    ExitCode::from((ours > 0 || weak == 0) as u8)
}

/// The known answers of the hash with a key.
fn known_answers() -> [(u64, Vec<u8>, u32); 3] {
    [
        (0, vec![0x09, 0x01, 0x61], 3_880_021_996),
        (1, vec![0x04, 0x80, 0x01, 0x02, 0x03], 1_204_344_898),
        (0x0123_4567_89ab_cdef, (0..20).collect(), 2_914_309_065),
    ]
}

// --- the hash -------------------------------------------------------------------------------------

fn four(s: &[u8], i: usize) -> u32 {
    u32::from_le_bytes(s[i..i + 4].try_into().unwrap())
}

/// A number below 2^32 of fewer than four bytes.
fn few(s: &[u8]) -> u64 {
    s.iter().fold(0, |n, byte| n << 8 | u64::from(*byte))
}

fn product(x: u32, y: u32) -> u64 {
    u64::from(x.wrapping_add(C1)) * u64::from(y.wrapping_add(C2))
}

fn folded(h: u64) -> u32 {
    let p = product(h as u32, (h >> 32) as u32);
    (p as u32).wrapping_add((p >> 32) as u32)
}

fn stirred(h: u64, low: u32, high: u32) -> u64 {
    let (low, high) = (
        low.wrapping_add(h as u32),
        high.wrapping_add((h >> 32) as u32),
    );
    h.rotate_left(5)
        .wrapping_add(u64::from(low) * u64::from(high))
}

fn mixed(h: u64, s: &[u8], i: usize) -> u64 {
    stirred(h, four(s, i), four(s, i + 4))
}

fn short(h: u64, s: &[u8]) -> u64 {
    if s.len() < 4 {
        return stirred(h, few(s) as u32, 0);
    }
    stirred(h, four(s, 0), four(s, s.len() - 4))
}

/// The one that was tried: the hash so far stands in what is multiplied, in two lanes.
fn keyed(key: u64, s: &[u8]) -> u32 {
    let mut h = key.wrapping_add(u64::from(C2) << 32 | u64::from(C1));
    if s.len() < 8 {
        return folded(short(h, s));
    }
    let mut g = product(key as u32, (key >> 32) as u32);
    let last = s.len() - 8;
    for k in 0..last.div_ceil(8) {
        (h, g) = (g, mixed(h, s, k * 8));
    }
    folded(mixed(h, s, last).wrapping_add(g))
}

/// A sum of products whose constants have the key added: changes of two blocks cancel whatever it is.
fn added(key: u64, s: &[u8]) -> u32 {
    let times = |x: u32, y: u32| {
        product(
            x.wrapping_add(key as u32),
            y.wrapping_add((key >> 32) as u32),
        )
    };
    let step = |h: u64, i| {
        h.rotate_left(5)
            .wrapping_add(times(four(s, i), four(s, i + 4)))
    };
    let h = match s.len().checked_sub(8) {
        None => few(s),
        Some(last) => step((0..last.div_ceil(8)).fold(0, |h, k| step(h, k * 8)), last),
    };
    let p = times(h as u32, (h >> 32) as u32);
    (p as u32).wrapping_add((p >> 32) as u32)
}

// --- families of scalars -----------------------------------------------------------------------------

struct Family {
    name: String,
    scalars: Vec<Vec<u8>>,
}

/// How many families have more scalars with one hash, for some key, than chance gives.
fn try_families(name: &str, hash: Hash, keys: usize) -> usize {
    println!("{name}: events met by a search, the mean over {keys} drawn keys and with the worst of them; the most scalars with one hash");
    let mut broken = 0;
    for family in families() {
        let mut random = Random::new(1);
        let (mut sum, mut worst, mut most) = (0, 0, 0);
        for _ in 0..keys {
            let (total, same) = met(hash, random.bits(), &family.scalars);
            sum += total;
            worst = worst.max(total);
            most = most.max(same);
        }
        let each = |total: usize, keys: usize| total as f64 / (family.scalars.len() * keys) as f64;
        let mark = if most > MOST_EQUAL { "  broken" } else { "" };
        println!(
            "  {:<54}{:>6}{:>9.2}{:>9.2}{most:>7}{mark}",
            family.name,
            family.scalars.len(),
            each(sum, keys),
            each(worst, 1)
        );
        broken += (most > MOST_EQUAL) as usize;
    }
    broken
}

/// How many events the searches meet in all, and how many scalars have the most common hash.
fn met(hash: Hash, key: u64, scalars: &[Vec<u8>]) -> (usize, usize) {
    let n = scalars.len();
    let mut words = vec![0; 4 * n];
    let mut hashes: Vec<u32> = scalars.iter().map(|s| hash(key, s)).collect();
    let mut total = 0;
    for (e, s) in scalars.iter().enumerate() {
        let mut slot = (u64::from(hashes[e]) * 2 * n as u64 >> 32) as usize;
        let mut steps = 0;
        while words[slot] > 0 {
            let other: usize = words[slot] - 1;
            assert!(scalars[other] != *s, "a family has a scalar twice");
            slot = 2 * n + 2 * other + side(s, hashes[e], steps);
            steps += 1;
        }
        words[slot] = e + 1;
        total += steps;
    }
    hashes.sort_unstable();
    let most = hashes.chunk_by(|a, b| a == b).map(<[u32]>::len).max();
    (total, most.unwrap_or(0))
}

/// By the bits of the hash, then by those of the bytes.
fn side(s: &[u8], hash: u32, steps: usize) -> usize {
    match steps.checked_sub(32) {
        None => (hash >> steps & 1) as usize,
        Some(bit) => s.get(bit / 8).map_or(0, |b| (b >> (bit % 8) & 1) as usize),
    }
}

/// Data of so many whole blocks of eight bytes, on a tape; the first block has the head.
fn data(blocks: usize) -> Vec<u8> {
    let length = blocks * 8 - if blocks * 8 - 2 < 128 { 2 } else { 3 };
    let mut s = vec![8];
    let mut n = length;
    while n >= 128 {
        s.push(n as u8 | 0x80);
        n >>= 7;
    }
    s.push(n as u8);
    s.resize(blocks * 8, 0);
    s
}

fn put(s: &mut [u8], word: usize, value: u32) {
    s[word * 4..word * 4 + 4].copy_from_slice(&value.to_le_bytes());
}

fn with(blocks: usize, words: &[(usize, u32)]) -> Vec<u8> {
    let mut s = data(blocks);
    words
        .iter()
        .for_each(|(word, value)| put(&mut s, *word, *value));
    s
}

const COUNT: u32 = 4096;

fn family(name: impl Into<String>, count: u32, scalar: impl Fn(u32) -> Vec<u8>) -> Family {
    Family {
        name: name.into(),
        scalars: (0..count).map(scalar).collect(),
    }
}

/// Word 2 * k is the first half of block k.
fn families() -> Vec<Family> {
    let mut all = vec![
        family("drawn words", COUNT, |t| {
            with(4, &[(2, t.wrapping_mul(C2)), (4, t.rotate_left(9) ^ C1)])
        }),
        family("counted", COUNT, |t| with(4, &[(4, t)])),
        family("a zero factor of the constants", COUNT, |t| {
            with(4, &[(2, C1.wrapping_neg()), (3, t.wrapping_mul(C1))])
        }),
        family("numbers of three bytes", COUNT, |t| {
            vec![3, t as u8 | 0x80, (t >> 7) as u8 | 0x40]
        }),
    ];
    cancelling(&mut all);
    exchanged(&mut all);
    bits_of_words(&mut all);
    long_tails(&mut all);
    progressions(&mut all);
    all
}

/// Changes that cancel where products are added, so many blocks apart, with a turn of five bits for each.
fn cancelling(all: &mut Vec<Family>) {
    for (apart, factor) in [
        (1, 32_u32),
        (1, 1),
        (2, 1),
        (2, 32),
        (2, 1024),
        (3, 32_768),
        (3, 32),
        (4, 1024),
    ] {
        for half in [0, 1] {
            let name = format!("changes that cancel: halves {half}, {apart} apart, by {factor}");
            all.push(family(name, COUNT, |t| {
                let t = t % (u32::MAX / factor / 4);
                let less = 0x9abc_def0_u32.wrapping_sub(factor.wrapping_mul(t));
                with(
                    8,
                    &[(2 + half, 0x1234_5678 + t), (2 + half + 2 * apart, less)],
                )
            }));
        }
    }
    for apart in [1, 2, 3] {
        let name = format!("one half more, another less, {apart} apart");
        let (more, less) = (2, 2 + 2 * apart);
        all.push(family(name, COUNT, |t| {
            with(
                8,
                &[
                    (more, 0x100 + t),
                    (more + 1, 77),
                    (less, 0x8000_0000 - t),
                    (less + 1, 77),
                ],
            )
        }));
    }
    // Sixteen bytes: one block in each lane.
    for (more, less) in [(1, 2), (1, 3)] {
        for factor in [1, 32] {
            let name = format!("sixteen bytes: word {more} more, word {less} less by {factor}");
            all.push(family(name, COUNT, |t| {
                with(2, &[(more, 0x100 + t), (less, 0x8000_0000 - factor * t)])
            }));
        }
    }
}

/// Twelve bits choose whether two blocks change places.
fn exchanged(all: &mut Vec<Family>) {
    for apart in [1, 2, 64, 128] {
        all.push(family(
            format!("blocks that change places, {apart} apart"),
            COUNT,
            |t| {
                let mut s = data(2 * apart + 28);
                for i in 0..12 {
                    let k = 1 + i + i / apart * apart;
                    let (x, y) = (1000 + i as u32, 5000 + i as u32);
                    let (x, y) = if t >> i & 1 == 0 { (x, y) } else { (y, x) };
                    put(&mut s, 2 * k, x);
                    put(&mut s, 2 * (k + apart), y);
                }
                s
            },
        ));
    }
}

fn bits_of_words(all: &mut Vec<Family>) {
    for (name, bit) in [("top", 1_u32 << 31), ("low", 1), ("middle", 1 << 16)] {
        all.push(family(format!("{name} bits of twelve words"), COUNT, |t| {
            with(
                8,
                &std::array::from_fn::<_, 12, _>(|i| (2 + i, (t >> i & 1) * bit)),
            )
        }));
    }
}

/// Whatever is different at the start, many equal blocks behind it.
fn long_tails(all: &mut Vec<Family>) {
    for (name, fill) in [
        ("zeros", 0),
        ("ones", u32::MAX),
        ("the constant", C1.wrapping_neg()),
    ] {
        all.push(family(
            format!("a start, then 98 blocks of {name}"),
            COUNT,
            |t| {
                let tail = (4..200).map(|word| (word, fill));
                with(100, &tail.chain([(2, t), (3, !t)]).collect::<Vec<_>>())
            },
        ));
    }
}

/// 2^32 - 1 has many divisors, and folding is nearly a residue by it.
fn progressions(all: &mut Vec<Family>) {
    for step in [u32::MAX / 4095, u32::MAX / 257, 65_537, 1 << 20, 1 << 16] {
        let count = COUNT.min(u32::MAX / step);
        all.push(family(format!("steps of {step}, long"), count, |t| {
            with(4, &[(2, t.wrapping_mul(step))])
        }));
        all.push(family(
            format!("steps of {step}, seven bytes"),
            count,
            |t| {
                let mut s = vec![8, 5, 0];
                s.extend(t.wrapping_mul(step).to_be_bytes());
                s
            },
        ));
    }
}

// --- changes of words ---------------------------------------------------------------------------------

/// What was tried with so many words changed at once.
#[derive(Default)]
struct Tried {
    changes: u64,
    /// Those that leave the hash for two keys or more.
    found: usize,
    /// The keys for which some change leaves the hash, all changes together.
    keys: u64,
}

/// A scalar and its hash with every key.
struct Base<'a> {
    hash: Hash,
    keys: &'a [u64],
    bytes: Vec<u8>,
    hashes: Vec<u32>,
}

impl Tried {
    fn change(&mut self, base: &Base, words: &[(usize, i64)]) {
        let mut s = base.bytes.clone();
        for (word, by) in words {
            let old = four(&s, word * 4);
            put(&mut s, *word, old.wrapping_add(*by as u32));
        }
        let pairs = base.keys.iter().zip(&base.hashes);
        let same = pairs
            .filter(|(key, old)| (base.hash)(**key, &s) == **old)
            .count();
        self.changes += 1;
        self.keys += same as u64;
        self.found += (same >= 2) as usize;
    }

    fn print(&self, name: &str) {
        println!(
            "  {} changes of {name} words: {} leave the hash for two keys or more, {} keys in all",
            self.changes, self.found, self.keys
        );
    }
}

/// Over scalars of 2 to 7 blocks whose words are equal, or drawn: two words changed by plus or minus a power of two each, all such; three
/// words, drawn.
fn try_changes(hash: Hash, keys: usize) -> usize {
    let mut random = Random::new(7);
    let drawn: Vec<u64> = (0..keys).map(|_| random.bits()).collect();
    let (mut two, mut three) = (Tried::default(), Tried::default());
    for (blocks, equal) in [(2, true), (3, true), (4, true), (4, false), (7, true)] {
        let mut bytes = data(blocks);
        (1..2 * blocks).for_each(|word| {
            put(
                &mut bytes,
                word,
                if equal {
                    0x4000_0000
                } else {
                    random.bits() as u32
                },
            )
        });
        let base = Base {
            hash,
            keys: &drawn,
            hashes: drawn.iter().map(|key| hash(*key, &bytes)).collect(),
            bytes,
        };
        let top = (2 * blocks).min(10);
        try_pairs(&mut two, &base, top);
        try_triples(&mut three, &base, top, &mut random);
    }
    two.print("two");
    three.print("three");
    two.found + three.found
}

fn try_pairs(tried: &mut Tried, base: &Base, top: usize) {
    for (a, b) in (1..top).flat_map(|a| (a + 1..top).map(move |b| (a, b))) {
        for (i, j) in (0..32).flat_map(|i| (0..32).map(move |j| (i, j))) {
            tried.change(base, &[(a, 1 << i), (b, 1 << j)]);
            tried.change(base, &[(a, 1 << i), (b, -1 << j)]);
        }
    }
}

fn try_triples(tried: &mut Tried, base: &Base, top: usize, random: &mut Random) {
    for _ in 0..100_000 {
        let change = |random: &mut Random| {
            let by = 1_i64 << random.below(32);
            (
                1 + random.below(top - 1),
                if random.one_in(2) { by } else { -by },
            )
        };
        let words = [change(random), change(random), change(random)];
        if words[0].0 != words[1].0 && words[1].0 != words[2].0 && words[0].0 != words[2].0 {
            tried.change(base, &words);
        }
    }
}
