//! Room Q with one bit changed: each bit of its header, and of the other words the sign, the ends of the
//! exponent and the last bit.

use super::*;

pub(super) fn write(script: &mut Script) {
    let words = RoomFile::q().words();
    for place in 0..16 {
        for bit in 0..32 {
            flip(script, &words, place, bit);
        }
    }
    for place in 16..words.len() {
        for bit in [0, 23, 30, 31] {
            flip(script, &words, place, bit);
        }
    }
}

/// A changed header is refused with 1, but for the limit, which may be another up to 4,096.
fn flip(script: &mut Script, words: &[u32], place: usize, bit: u32) {
    let other = edited(words, &[(place, words[place] ^ 1 << bit)]);
    match place {
        6 => script.tried(&other, if other[6] > 4_096 { 2 } else { 0 }),
        0..16 => script.tried(&other, 1),
        _ => {
            script.asked(&other, 4 * other.len());
        }
    }
}
