//! All small damages of one book.

use super::damage::{seal, sealed};
use crate::read::read;

/// Each byte set to every other value, each cut, each byte taken out and each
/// byte doubled; and for a sound book each cut of each body, resealed.
pub fn sweep(book: &[u8]) -> impl Iterator<Item = Vec<u8>> + '_ {
    let places = 0..book.len();
    let set = places.clone().flat_map(move |at| {
        (1..=255).map(move |add| {
            let mut copy = book.to_vec();
            copy[at] = copy[at].wrapping_add(add);
            copy
        })
    });
    let cut = places.clone().map(move |at| book[..at].to_vec());
    let out = places
        .clone()
        .map(move |at| [&book[..at], &book[at + 1..]].concat());
    let doubled = places.map(move |at| [&book[..=at], &book[at..]].concat());
    set.chain(cut)
        .chain(out)
        .chain(doubled)
        .chain(cut_bodies(book))
}

fn cut_bodies(book: &[u8]) -> Vec<Vec<u8>> {
    let Ok(source) = read(book) else {
        return Vec::new();
    };
    let bodies: Vec<(u8, Vec<u8>)> = source.definitions.iter().map(sealed).collect();
    let mut cuts = Vec::new();
    for place in 0..bodies.len() {
        for length in 0..bodies[place].1.len() {
            let mut copy = bodies.clone();
            copy[place].1.truncate(length);
            cuts.push(seal(&copy));
        }
    }
    cuts
}
