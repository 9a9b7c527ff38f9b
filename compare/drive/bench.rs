//! Time per event of the proved reader and of the crate's, on the same files in the same run; with PLAIN set, of the plain reader and of the
//! stepwise one. See compare/README.md.

#[allow(dead_code)]
mod files;
mod hold;
#[allow(dead_code)]
mod ours;
#[allow(dead_code)]
mod random;
mod timing;

use std::{env, hint::black_box, io::Cursor, process::ExitCode};

use files::{array, build, counted, dictionary, head, text16, text8};
use hold::{hold_record, number, shape};
use plist::stream::BinaryReader;
use timing::Sides;

const USAGE: &str = "usage: bench [--rounds N] [--only WORDS]";

fn main() -> ExitCode {
    let Some(words) = timing::words() else {
        eprintln!("{USAGE}");
        return ExitCode::from(2);
    };
    timing::print_heading();
    for (name, file) in inputs().into_iter().filter(|(name, _)| words.has(name)) {
        let mut bench = Bench {
            file: &file,
            plain: env::var_os("PLAIN").is_some(),
            scratch: vec![0; 2 * file.len()],
            tape: vec![0; 3 * file.len() + 64],
        };
        // Both sides must read the file to its end.
        let (Some(events), true) = (bench.events(), bench.transcribe()) else {
            println!("{name}: one of the two refuses it");
            return ExitCode::FAILURE;
        };
        timing::print(name, file.len(), events, &mut bench, &words);
    }
    ExitCode::SUCCESS
}

// --- the inputs -----------------------------------------------------------------------------------

fn inputs() -> Vec<(&'static str, Vec<u8>)> {
    vec![
        ("a hold record of some 40 objects", hold_record()),
        ("10,000 strings", strings()),
        ("10,000 numbers", numbers()),
        ("arrays 64 deep", nested(64)),
        ("arrays 200 deep", nested(200)),
        ("arrays 512 deep", nested(512)),
        ("2,000 small dictionaries", dictionaries()),
        ("20 UTF-16 texts of 5,000 units", wide_texts()),
        ("10,000 ASCII texts of 8", texts(ASCII, 8, 10_000)),
        ("10,000 ASCII texts of 16", texts(ASCII, 16, 10_000)),
        ("10,000 ASCII texts of 64", texts(ASCII, 64, 10_000)),
        ("1,000 ASCII texts of 1,000", texts(ASCII, 1_000, 1_000)),
        ("10 ASCII texts of 100,000", texts(ASCII, 100_000, 10)),
        ("10,000 texts of 20, half ASCII", texts(HALF, 20, 10_000)),
        ("1,000 texts of 1,000, half ASCII", texts(HALF, 1_000, 1_000)),
        ("1,000 texts of 1,000, few accents", texts(FEW, 1_000, 1_000)),
        ("one data of 10,000,000", one_data()),
    ]
}

fn list_of(items: Vec<Vec<u8>>, offset_size: usize) -> Vec<u8> {
    let references: Vec<usize> = (1..=items.len()).collect();
    let mut objects = vec![array(&references, 2, None)];
    objects.extend(items);
    build(&objects, shape(offset_size, 2))
}

fn strings() -> Vec<u8> {
    list_of(
        (0..10_000)
            .map(|i| text8(format!("string number {i}").as_bytes()))
            .collect(),
        4,
    )
}

fn numbers() -> Vec<u8> {
    let spread = |i: u64| i.wrapping_mul(0x9e37_79b9_7f4a_7c15) >> (8 * (i % 8)) >> 1;
    list_of((0..10_000).map(|i| number(spread(i))).collect(), 4)
}

fn nested(levels: usize) -> Vec<u8> {
    let size = if levels <= 256 { 1 } else { 2 };
    let mut objects: Vec<Vec<u8>> = (1..levels).map(|i| array(&[i], size, None)).collect();
    objects.push(array(&[], size, None));
    build(&objects, shape(2, size))
}

fn dictionaries() -> Vec<u8> {
    let mut objects = vec![Vec::new(), text8(b"x"), text8(b"y"), text8(b"name of this")];
    let first = objects.len();
    for i in 0..2_000 {
        let at = objects.len();
        objects.push(dictionary(&[1, 2, 3, at + 1, at + 1, at + 2], 2, None));
        objects.push(number(i));
        objects.push(text8(format!("point {i}").as_bytes()));
    }
    let references: Vec<usize> = (0..2_000).map(|i| first + 3 * i).collect();
    objects[0] = array(&references, 2, None);
    build(&objects, shape(4, 2))
}

fn wide_texts() -> Vec<u8> {
    let units = [0x706c, 0x41, 0xe9, 0xd83d, 0xde00];
    list_of((0..20).map(|_| text16(&units.repeat(1_000))).collect(), 4)
}

const ASCII: &str = "plain text ";
/// Six bytes of twelve are ASCII.
const HALF: &str = "hold \u{4fdd}\u{5168} ";
/// One accent in some sixty bytes.
const FEW: &str = "die Akte liegt beim Gericht, die Frist l\u{e4}uft am Montag ab; ";

/// So many equal texts of a sample over and over, each of so many bytes or a few less, where the next sequence would not fit.
fn texts(sample: &str, bytes: usize, count: usize) -> Vec<u8> {
    let mut text = sample.repeat(bytes / sample.len() + 1);
    let end = (0..=bytes).rev().find(|end| text.is_char_boundary(*end));
    text.truncate(end.unwrap_or(0));
    list_of((0..count).map(|_| text8(text.as_bytes())).collect(), 4)
}

fn one_data() -> Vec<u8> {
    let content = vec![0x5a; 10_000_000];
    debug_assert!(head(4, content.len() as u64, None).len() == 6);
    build(&[counted(4, &content, None)], shape(4, 1))
}

// --- the measuring --------------------------------------------------------------------------------

struct Bench<'a> {
    file: &'a [u8],
    /// The plain reader is ours, and the stepwise one the other side.
    plain: bool,
    scratch: Vec<u8>,
    tape: Vec<u8>,
}

impl Bench<'_> {
    /// The whole file onto the tape.
    fn transcribe(&mut self) -> bool {
        let got = ours::transcribe(
            black_box(self.file),
            &mut self.scratch,
            &mut self.tape,
            u64::MAX,
        );
        black_box(&self.tape);
        got.ending == ours::ENDED
    }

    fn read_plainly(&mut self) -> bool {
        let got = ours::read_plainly(black_box(self.file), &mut self.tape, u64::MAX);
        black_box(&self.tape);
        got.ending == ours::ENDED
    }

    /// The whole file, each event dropped as it comes.
    fn events(&self) -> Option<usize> {
        let mut events = 0;
        for event in BinaryReader::new(Cursor::new(black_box(self.file))) {
            black_box(event.ok()?);
            events += 1;
        }
        Some(events)
    }
}

impl Sides for Bench<'_> {
    fn ours(&mut self) {
        match self.plain {
            true => black_box(self.read_plainly()),
            false => black_box(self.transcribe()),
        };
    }

    fn theirs(&mut self) {
        match self.plain {
            true => black_box(self.transcribe()),
            false => black_box(self.events().is_some()),
        };
    }
}
