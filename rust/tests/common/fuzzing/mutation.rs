//! Bytes changed without a look at what they mean.

use crate::common::rng::Rng;

/// Limits of document 01 and of bytes, with their neighbours.
const EDGES: [u8; 20] = [
    0, 1, 2, 3, 11, 12, 13, 15, 16, 17, 31, 32, 33, 63, 64, 65, 127, 128, 254, 255,
];

/// The most bytes that a change makes of bytes and others beside them.
pub const MOST_ADDED: usize = 65_536;

/// Changes the bytes once, or now and then a few times, with others of the same kind to copy from.
pub fn mutate(rng: &mut Rng, bytes: &mut Vec<u8>, others: &[u8]) {
    let times = rng.pick(&[1, 1, 1, 2, 3, 4]);
    for _ in 0..times {
        change(rng, bytes, others);
    }
}

fn change(rng: &mut Rng, bytes: &mut Vec<u8>, others: &[u8]) {
    match rng.below(16) {
        0 => bytes.truncate(rng.below(bytes.len() + 1)),
        1 => lengthen(rng, bytes),
        2 => splice(rng, bytes, others),
        3 | 4 => {
            let own = bytes.clone();
            copy_stretch(rng, bytes, &own);
        }
        5 | 6 => copy_stretch(rng, bytes, others),
        7..11 => at_some_byte(rng, bytes, |rng, _| rng.pick(&EDGES)),
        11 => at_some_byte(rng, bytes, |rng, _| rng.next() as u8),
        _ => at_some_byte(rng, bytes, |rng, byte| byte ^ 1 << rng.below(8)),
    }
}

fn at_some_byte(rng: &mut Rng, bytes: &mut [u8], change: impl FnOnce(&mut Rng, u8) -> u8) {
    if !bytes.is_empty() {
        let at = rng.below(bytes.len());
        bytes[at] = change(rng, bytes[at]);
    }
}

/// A few bytes more, or so many that the length is right in its low 8 or 16 bits; but not twice.
fn lengthen(rng: &mut Rng, bytes: &mut Vec<u8>) {
    let few = rng.between(1, 40);
    let more = rng.pick(&[few, few, few, few, 256, MOST_ADDED]);
    if bytes.len() < MOST_ADDED {
        let filler = rng.pick(&[0, 1, 255]);
        bytes.resize(bytes.len() + more, filler);
    }
}

/// The beginning of these bytes, and behind it the others, mostly from the same place on.
fn splice(rng: &mut Rng, bytes: &mut Vec<u8>, others: &[u8]) {
    let cut = rng.below(bytes.len() + 1);
    let any = rng.below(others.len() + 1);
    let from = rng.pick(&[cut, cut, any]).min(others.len());
    bytes.truncate(cut);
    bytes.extend(&others[from..]);
}

/// A stretch of these or of other bytes, mostly of an even length, is written over some place.
fn copy_stretch(rng: &mut Rng, bytes: &mut [u8], source: &[u8]) {
    let any = rng.below(64);
    let len = rng
        .pick(&[2, 4, 6, 10, any])
        .min(bytes.len())
        .min(source.len());
    let from = rng.below(source.len() - len + 1);
    let to = rng.below(bytes.len() - len + 1);
    bytes[to..to + len].copy_from_slice(&source[from..from + len]);
}
