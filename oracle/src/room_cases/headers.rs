//! Refusal 1, and 2: the form, spare words, counts, offsets, the length and the limit.

use super::*;

pub(super) fn write(script: &mut Script) {
    forms(script);
    offsets(script);
    lengths(script);
    counts(script);
    wrapped(script);
    full_counts(script);
    limits(script);
}

/// The words that a word is changed to: those beside it, and the ends.
fn about(word: u32) -> [u32; 8] {
    [
        word.wrapping_sub(1),
        word.wrapping_add(1),
        word.wrapping_sub(4),
        word.wrapping_add(4),
        word ^ 0x8000_0000,
        word.swap_bytes(),
        0,
        u32::MAX,
    ]
}

/// "form not 1, a spare word not zero", in a room and in the smallest file.
fn forms(script: &mut Script) {
    for words in [RoomFile::q().words(), smallest()] {
        for form in [0, 1, 2, 3, 0x0100_0000, 0x101, 0x8000_0001, u32::MAX] {
            script.tried(&edited(&words, &[(0, form)]), u32::from(form != 1));
        }
        for spare in [14, 15] {
            for word in [0, 1, 0x100, 0x1_0000, 0x0100_0000, 0x8000_0000, u32::MAX] {
                script.tried(&edited(&words, &[(spare, word)]), u32::from(word != 0));
            }
        }
        script.tried(&edited(&words, &[(14, 1), (15, u32::MAX)]), 1);
    }
}

/// The smallest file: 100 bytes, a box of one cell and nothing in it.
pub(super) fn smallest() -> Vec<u32> {
    RoomFile::empty(Vec3::ZERO, Vec3::ONE, 1.0, 1.0).words()
}

/// "an offset ... not what the counts give": each of the six, alone and with those after it.
fn offsets(script: &mut Script) {
    let q = several_of_each().words();
    for offset in SURFELS..=PROBES {
        for word in about(q[offset]) {
            script.tried(&edited(&q, &[(offset, word)]), u32::from(word != q[offset]));
        }
    }
    for first in SURFELS..=PROBES {
        for more in [4, 52u32.wrapping_neg()] {
            let later = (first..=13).map(|k| (k, q[k].wrapping_add(more)));
            script.tried(&edited(&q, &later.collect::<Vec<_>>()), 1);
        }
    }
    // Two offsets in each other's place.
    for k in SURFELS..PROBES {
        script.tried(&edited(&q, &[(k, q[k + 1]), (k + 1, q[k])]), 1);
    }
}

/// "or the length": the length word, the number of bytes, and both alike.
fn lengths(script: &mut Script) {
    for words in [RoomFile::q().words(), smallest()] {
        let length = words[13];
        for word in about(length) {
            let other = edited(&words, &[(13, word)]);
            script.tried(&other, u32::from(word != length));
        }
        for bytes in [length - 4, length - 1, length, length + 1, length + 4] {
            let number = u32::from(bytes != length);
            let longer = [&words[..], &[0]].concat();
            script.cut(&longer, bytes as usize, number);
            script.cut(&edited(&longer, &[(13, bytes)]), bytes as usize, number);
        }
    }
}

/// A count that is another, with the offsets as they were.
fn counts(script: &mut Script) {
    let q = several_of_each().words();
    for count in 1..=5 {
        for word in about(q[count]) {
            script.tried(&edited(&q, &[(count, word)]), u32::from(word != q[count]));
        }
    }
    // Blocks that grow by as much as others shrink: the length is right and offsets are not. With the
    // offsets that these counts give it is a room of other tables, and 1 does not apply.
    for changes in [
        [(2, 1), (3, -3)],
        [(3, -2), (4, 1)],
        [(4, -3), (5, 1)],
        [(2, 2), (5, -1)],
        [(1, -1), (4, 7)],
    ] {
        let many = |(count, more): (usize, i32)| (count, q[count].wrapping_add_signed(more));
        let words = edited(&q, &changes.map(many));
        script.tried(&words, 1);
        let printed = script.asked(&with_offsets(&words), 4 * q.len());
        assert_ne!(printed, "refused 1\n");
    }
}

/// The offsets and the length that these counts give, modulo 2^32.
fn with_offsets(words: &[u32]) -> Vec<u32> {
    let mut next = words.to_vec();
    let [n, nc, members, links, probes] = [1, 2, 3, 4, 5].map(|k| words[k]);
    let sizes = [
        n.wrapping_mul(52),
        nc.wrapping_mul(12),
        members.wrapping_mul(4),
        n.wrapping_mul(4).wrapping_add(4),
        links.wrapping_mul(8),
        probes.wrapping_mul(24).wrapping_add(32),
    ];
    let mut end = 64u32;
    for (k, size) in sizes.into_iter().enumerate() {
        next[SURFELS + k] = end;
        end = end.wrapping_add(size);
    }
    next[13] = end;
    next
}

/// Counts whose blocks have the same sizes modulo 2^32, so that each offset and the length is what the
/// counts give in 32 bits: 52, 12 and 4 bytes times 2^30, 8 and 24 bytes times 2^29.
fn wrapped(script: &mut Script) {
    let whole = 1u64 << 32;
    let turns = [
        (1, 1u64 << 30),
        (2, 1 << 30),
        (3, 1 << 30),
        (4, 1 << 29),
        (5, 1 << 29),
    ];
    for words in [RoomFile::q().words(), smallest()] {
        for (count, turn) in turns {
            for times in 1..whole / turn {
                let many = u64::from(words[count]) + times * turn;
                let other = edited(&words, &[(count, many as u32)]);
                assert!(with_offsets(&other) == other);
                script.tried(&other, 1);
            }
        }
        let all: Vec<_> = turns.map(|(k, turn)| (k, words[k] + turn as u32)).to_vec();
        script.tried(&edited(&words, &all), 1);
    }
    // Blocks that wrap to a few bytes: 82,595,525 × 52 is 4 more than 2^32, the others 8 more.
    for (count, many) in [
        (1, 82_595_525),
        (2, 357_913_942),
        (3, 1_073_741_826),
        (5, 178_956_971),
    ] {
        let words = with_offsets(&edited(&smallest(), &[(count, many)]));
        script.tried(&words, 1);
        let mut longer = words.clone();
        longer.resize((words[13] as usize / 4).clamp(25, 16_384), 0);
        script.tried(&longer, 1);
    }
}

/// Counts at the limits of 2 and over them, with the offsets that they give. A file of 65,536 bytes
/// can't hold them: the length is not what the counts give, and 1 comes before 2.
fn full_counts(script: &mut Script) {
    let limits = [400_000, 65_536, 400_000, 16_777_216, 400_000];
    for words in [RoomFile::q().words(), smallest()] {
        for (k, most) in limits.into_iter().enumerate() {
            for many in [most - 1, most, most + 1] {
                let other = with_offsets(&edited(&words, &[(k + 1, many)]));
                script.tried(&other, 1);
                // The length word is that of the bytes.
                script.tried(&edited(&other, &[(13, words[13])]), 1);
            }
        }
    }
}

/// 2: "bounces over 4,096", the only count of a file of at most 65,536 bytes that can be over its limit.
fn limits(script: &mut Script) {
    for words in [RoomFile::q().words(), smallest()] {
        for limit in [4_095, 4_096, 4_097, 4_108, 65_536, 0x8000_0000, u32::MAX] {
            let number = if limit > 4_096 { 2 } else { 0 };
            script.tried(&edited(&words, &[(6, limit)]), number);
        }
    }
}
