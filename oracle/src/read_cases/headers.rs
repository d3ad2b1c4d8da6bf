//! Refusals 1 and 2: the form, spare words, counts, offsets, the length and the limit.

use super::*;

pub(super) fn write(script: &mut Script) {
    let (words, need) = (uneven().words(), needs(&uneven()));
    for (at, word) in changes(&words) {
        script.read(&edited(&words, &[(at, word)]), need, 1);
    }
    lengths(script, &words, need);
    for (limit, number) in [
        (0, 0),
        (4_096, 0),
        (4_097, 2),
        (0x8000_0000, 2),
        (u32::MAX, 2),
    ] {
        script.read(&edited(&words, &[(6, limit)]), need, number);
    }
}

/// Words of the header by each of which a file is refused with 1. A count may be so large that its
/// block has as many bytes modulo 2^32: 52, 12 and 4 bytes times 2^30, 8 and 24 bytes times 2^29.
fn changes(words: &[u32]) -> Vec<(usize, u32)> {
    let mut list = vec![(0, 0), (0, 2), (0, 0x0100_0000), (14, 1), (15, 0x8000_0000)];
    for offset in SURFELS..=PROBES {
        list.extend([(offset, words[offset] - 4), (offset, words[offset] + 4)]);
    }
    list.extend([(13, words[13] - 4), (13, words[13] + 1), (13, 0)]);
    for (count, turn) in [(1, 30), (2, 30), (3, 30), (4, 29), (5, 29)] {
        list.extend([
            (count, words[count] + 1),
            (count, words[count] + (1 << turn)),
        ]);
    }
    list
}

/// Fewer bytes than the counts give, or more; files of all bytes that there are.
fn lengths(script: &mut Script, words: &[u32], need: Lent) {
    let all = 4 * words.len();
    for length in [0, 3, 63, 64, all - 4, all - 1, all + 1, all + 4, 4_096] {
        script.cut(words, length, need, 1);
    }
    script.cut(words, u32::MAX as usize, ALL, 1);
    script.cut(words, all, need, 0);
}
