//! Books that are none, or nearly: damaged copies and bad names.

use super::edge::written;
use super::plain::{self, Size};
use super::rng::Rng;
use crate::build::*;
use crate::tree::{Book, Cases, Definition};
use crate::write::body;

/// Three bytes that are a character in the tree and something else in the book.
const STAND_IN: &str = "\u{e000}";

/// Well-formed and ill-formed sequences of three bytes, Unicode's table 3-7
/// from both sides.
const SEQUENCES: [[u8; 3]; 26] = [
    [0xe0, 0xa0, 0x80],
    [0xe0, 0x9f, 0xbf],
    [0xe1, 0x80, 0x80],
    [0xec, 0xbf, 0xbf],
    [0xed, 0x9f, 0xbf],
    [0xed, 0xa0, 0x80],
    [0xee, 0x80, 0x80],
    [0xef, 0xbf, 0xbf],
    [0xef, 0xbf, 0x41],
    [0xc2, 0x80, 0x41],
    [0xdf, 0xbf, 0x7f],
    [0xc1, 0xbf, 0x41],
    [0xc0, 0x80, 0x41],
    [0x41, 0xc3, 0x28],
    [0x41, 0x42, 0xc3],
    [0x80, 0x41, 0x42],
    [0xbf, 0xbf, 0xbf],
    [0xf0, 0x90, 0x80],
    [0xf4, 0x8f, 0xbf],
    [0xf5, 0x80, 0x80],
    [0xff, 0x41, 0x42],
    [0xfe, 0xff, 0x00],
    [0x00, 0x7f, 0x20],
    [0x2e, 0x2e, 0x2e],
    [0x41, 0x2e, 0x41],
    [0xc3, 0xa9, 0x2e],
];

/// One odd name in one of the places a name can stand in: 0 or 4.
pub fn names(rng: &mut Rng) -> Vec<u8> {
    let sequence = *rng.pick(&SEQUENCES);
    let mut bytes = written(&odd_name(rng.below(14)));
    let odd = STAND_IN.as_bytes();
    if let Some(at) = bytes.windows(3).position(|window| window == odd) {
        bytes[at..at + 3].copy_from_slice(&sequence);
        if rng.chance(10) {
            return damaged(rng, bytes);
        }
    }
    bytes
}

fn odd_name(place: usize) -> Book {
    let odd = STAND_IN;
    let inner = |inner| vec![format("m", structure(vec![field("a", inner)]))];
    book(match place {
        0 => vec![format(odd, nothing())],
        1 => vec![format_with("m", vec![(odd, int())], nothing())],
        2 => vec![constant(odd, b"..")],
        3 => vec![macro_definition(odd, &[], nothing())],
        4 => vec![macro_definition("f", &["a", odd], nothing())],
        5 => vec![format("m", structure(vec![field(odd, enumeration())]))],
        6 => vec![format("m", structure(vec![dependent(odd, enumeration())]))],
        7 => inner(choice(
            None,
            Cases::Enums(vec![(odd.into(), nothing().into())]),
        )),
        8 => vec![format("m", choice(Some(odd), Cases::Ints(vec![])))],
        9 => inner(array(&["", odd], nothing())),
        10 => vec![format("m", vec(bytes(&[odd, ""])))],
        11 => inner(call(odd, &[])),
        12 => inner(call("m", &["", odd])),
        _ => inner(macro_call(odd, vec![nothing()])),
    })
}

/// A copy with one to three faults: in the bytes as they are, in the contents
/// alone, or in a body whose entry is made to fit again, so that the contents
/// do not hide the fault.
pub fn copy(rng: &mut Rng) -> Vec<u8> {
    let size = *rng.pick(&[Size::Small, Size::Small, Size::Medium]);
    let source = plain::book(rng, size);
    let mut bytes = written(&source);
    match rng.below(10) {
        0..=5 => resealed(rng, &source),
        6 => {
            let at = rng.below(2 + 6 * source.definitions.len());
            bytes[at] = bytes[at].wrapping_add(*rng.pick(&[1, 255, 128, 3]));
            bytes
        }
        _ => damaged(rng, bytes),
    }
}

fn resealed(rng: &mut Rng, source: &Book) -> Vec<u8> {
    let mut bodies: Vec<(u8, Vec<u8>)> = source.definitions.iter().map(sealed).collect();
    let place = rng.below(bodies.len());
    let inside = std::mem::take(&mut bodies[place].1);
    bodies[place].1 = damaged(rng, inside);
    if rng.chance(10) {
        bodies[place].0 = rng.between(1, 4) as u8;
    }
    seal(&bodies)
}

/// A definition's kind and body.
pub fn sealed(definition: &Definition) -> (u8, Vec<u8>) {
    (definition.kind(), body(definition).unwrap_or_default())
}

/// Contents that fit the bodies, whatever these are.
pub fn seal(bodies: &[(u8, Vec<u8>)]) -> Vec<u8> {
    let mut bytes = (bodies.len() as u16).to_le_bytes().to_vec();
    let mut offset = 2 + 6 * bodies.len();
    for (kind, body) in bodies {
        bytes.extend([*kind, 0]);
        bytes.extend((offset as u16).to_le_bytes());
        bytes.extend((body.len() as u16).to_le_bytes());
        offset += body.len();
    }
    bodies.iter().for_each(|(_, body)| bytes.extend(body));
    bytes
}

fn damaged(rng: &mut Rng, mut bytes: Vec<u8>) -> Vec<u8> {
    for _ in 0..rng.weighted(&[0, 75, 15, 10]) {
        damage(rng, &mut bytes);
    }
    bytes
}

fn damage(rng: &mut Rng, bytes: &mut Vec<u8>) {
    if bytes.is_empty() {
        return bytes.push(rng.next() as u8);
    }
    let at = rng.below(bytes.len());
    match rng.below(9) {
        0 => bytes[at] ^= 1 << rng.below(8),
        1 => bytes[at] = rng.next() as u8,
        2 => bytes[at] = rng.below(20) as u8,
        3 => bytes[at] = bytes[at].wrapping_add(1),
        4 => bytes[at] = bytes[at].wrapping_sub(1),
        5 => bytes.truncate(at),
        6 => {
            let extra = rng.bytes(1 + at % 3);
            bytes.splice(at..at, extra);
        }
        7 => {
            bytes.remove(at);
        }
        _ => bytes.push(rng.below(3) as u8),
    }
}

/// A tag around level 65, known or not: an unknown one is 3 before it is 5, and
/// at times nothing comes after it.
pub fn deep_and_unknown(rng: &mut Rng) -> Vec<u8> {
    let depth = rng.between(63, 66);
    let tag = *rng.pick(&[0, 17, 255, 13, 13, 16]);
    let mut body = vec![1, b'm', 0, 0];
    body.extend(std::iter::repeat_n(*rng.pick(&[8, 12]), depth));
    body.push(tag);
    if rng.chance(80) {
        body.extend([0, 0]);
        body.extend(std::iter::repeat_n(0, depth + 1));
    }
    seal(&[(1, body)])
}
