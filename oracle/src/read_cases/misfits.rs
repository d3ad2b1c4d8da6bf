//! Refusal 7: row starts, links, members and the ranges of members.

use super::*;

pub(super) fn write(script: &mut Script) {
    let words = uneven().words();
    // 0 2 2 4 6
    table(script, &words, |k| place(&words, STARTS, k), &STARTS_TRIED);
    // 0 1 | | 0 1 | 0 1
    table(
        script,
        &words,
        |k| place(&words, LINKS, 2 * k),
        &LINKS_TRIED,
    );
    // 3 0 1 2 2 0 1
    table(
        script,
        &words,
        |k| place(&words, MEMBERS, k),
        &MEMBERS_TRIED,
    );
    // 0 3, 3 4
    let range = |k: usize| place(&words, CLUSTERS, 3 * (k / 2) + 1 + k % 2);
    table(script, &words, range, &RANGES_TRIED);
}

const STARTS_TRIED: [([u32; 5], u32); 10] = [
    ([0, 1, 2, 4, 6], 0),
    ([0, 2, 3, 4, 6], 0),
    ([1, 2, 2, 4, 6], 7),
    ([0, 3, 3, 4, 6], 7),
    ([0, 2, 1, 4, 6], 7),
    ([0, 2, 5, 4, 6], 7),
    ([0, 2, 2, 4, 5], 7),
    ([0, 2, 2, 4, 7], 7),
    ([0, 2, 2, u32::MAX, 6], 7),
    ([0, 2, 2, 4, u32::MAX], 7),
];

const LINKS_TRIED: [([u32; 6], u32); 6] = [
    ([0, 0, 0, 1, 0, 1], 7),
    ([0, 1, 1, 0, 0, 1], 7),
    ([0, 1, 0, 1, 1, 1], 7),
    ([0, 2, 0, 1, 0, 1], 7),
    ([0, 1, 0, 1, 0, 2], 7),
    ([0, 1, 0, 1, 0, u32::MAX], 7),
];

const MEMBERS_TRIED: [([u32; 7], u32); 5] = [
    ([3, 3, 3, 3, 3, 3, 3], 0),
    ([4, 0, 1, 2, 2, 0, 1], 7),
    ([3, 0, 1, 2, 2, 0, 4], 7),
    ([3, 0, 1, 0x8000_0000, 2, 0, 1], 7),
    ([3, 0, 1, 2, 2, 0, u32::MAX], 7),
];

const RANGES_TRIED: [([u32; 4], u32); 11] = [
    ([0, 0, 0, 7], 0),
    ([0, 7, 7, 0], 0),
    ([1, 2, 3, 4], 7),
    ([1, 3, 3, 4], 7),
    ([0, 3, 4, 3], 7),
    ([0, 3, 2, 5], 7),
    ([0, 2, 3, 4], 7),
    ([0, 3, 3, 3], 7),
    ([0, 3, 3, 5], 7),
    ([3, 4, 0, 3], 7),
    ([0, u32::MAX, u32::MAX, 8], 7),
];

/// Reads the room with each of these lists at the places that `at` says.
fn table<const N: usize>(
    script: &mut Script,
    words: &[u32],
    at: impl Fn(usize) -> usize,
    lists: &[([u32; N], u32)],
) {
    for (list, number) in lists {
        let edits = list.iter().enumerate();
        let edits: Vec<_> = edits.map(|(k, &word)| (at(k), word)).collect();
        script.read(&edited(words, &edits), needs(&uneven()), *number);
    }
}
