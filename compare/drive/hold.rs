//! The file that both benches have: a hold record.

use crate::files::{array, build, dictionary, put_be, text16, text8, Shape};

pub fn shape(offset_size: usize, ref_size: usize) -> Shape {
    Shape {
        offset_size,
        ref_size,
        root: 0,
        gap: 0,
    }
}

pub fn number(n: u64) -> Vec<u8> {
    let mut out = match n {
        0..=0xff => vec![0x10],
        0x100..=0xffff => vec![0x11],
        0x1_0000..=0xffff_ffff => vec![0x12],
        _ => vec![0x13],
    };
    let width = 1 << (out[0] & 3);
    put_be(&mut out, n, width);
    out
}

/// A hold of a library book: a dictionary with texts, numbers, flags, a UID, a list and an inner dictionary.
pub fn hold_record() -> Vec<u8> {
    let keys = [
        "title", "author", "reader", "branch", "shelf", "placed", "expires", "queue", "active",
        "notes", "copies", "contact", "id", "fee",
    ];
    let mut objects = vec![Vec::new()];
    keys.iter()
        .for_each(|key| objects.push(text8(key.as_bytes())));
    let first = objects.len();
    objects.push(text8(b"The Left Hand of Darkness"));
    objects.push(text16(
        &"Ursula K. Le Guin \u{2013} Erz\u{e4}hlung"
            .encode_utf16()
            .collect::<Vec<_>>(),
    ));
    objects.push(text8(b"reader-0048213"));
    objects.push(text8(b"Central"));
    objects.push(text8(b"SF LEG 12"));
    objects.push(number(1_763_180_000));
    objects.push(number(1_763_780_000));
    objects.push(number(3));
    objects.push(vec![0x09]);
    objects.push(text8(b"Call before noon; leave at the desk."));
    let copies = objects.len();
    objects.push(Vec::new());
    let contact = objects.len();
    objects.push(Vec::new());
    objects.push(vec![0x81, 0x30, 0x39]);
    objects.push([&[0x23][..], &1.5f64.to_be_bytes()].concat());
    let values: Vec<usize> = (first..first + keys.len()).collect();
    let references: Vec<usize> = (1..=keys.len()).chain(values).collect();
    objects[0] = dictionary(&references, 1, None);
    let more = objects.len();
    (0..4).for_each(|i| objects.push(number(31_000_000 + i)));
    objects[copies] = array(&[more, more + 1, more + 2, more + 3], 1, None);
    let inner = objects.len();
    ["phone", "mail", "555 0199", "reader@example.org"]
        .iter()
        .for_each(|t| objects.push(text8(t.as_bytes())));
    objects[contact] = dictionary(&[inner, inner + 1, inner + 2, inner + 3], 1, None);
    build(&objects, shape(2, 1))
}
