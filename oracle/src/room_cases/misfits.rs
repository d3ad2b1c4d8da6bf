//! Refusal 7: row starts, links, members and the ranges of members.

use super::*;

pub(super) fn write(script: &mut Script) {
    starts(script);
    links(script);
    members(script);
    ranges(script);
    counts_of_nothing(script);
}

/// The starts of the three rows of `several_of_each`, which are 0 2 2 5, and others.
fn starts(script: &mut Script) {
    let words = several_of_each().words();
    let rows: [([u32; 4], u32); 22] = [
        ([0, 2, 2, 5], 0),
        // Links of one row may be another row's, as long as they ascend in each.
        ([0, 1, 2, 5], 0),
        ([0, 0, 2, 5], 0),
        ([0, 2, 5, 5], 0),
        ([0, 2, 4, 5], 0),
        // The last link of one row is above the first of the next.
        ([0, 3, 3, 5], 7),
        ([0, 0, 0, 5], 7),
        ([0, 5, 5, 5], 7),
        ([1, 2, 2, 5], 7),
        ([u32::MAX, 2, 2, 5], 7),
        ([0, 2, 1, 5], 7),
        ([0, 3, 2, 5], 7),
        ([0, 5, 2, 5], 7),
        ([0, 6, 2, 5], 7),
        ([0, 2, 6, 5], 7),
        ([0, u32::MAX, 2, 5], 7),
        ([0, 2, 0x8000_0000, 5], 7),
        ([0, 2, 2, 4], 7),
        ([0, 2, 2, 6], 7),
        ([0, 2, 2, 0], 7),
        ([0, 2, 2, u32::MAX], 7),
        ([0, 2, 2, 0x8000_0005], 7),
    ];
    for (row, number) in rows {
        let edits = row.iter().enumerate();
        let edits: Vec<_> = edits
            .map(|(k, &start)| (place(&words, STARTS, k), start))
            .collect();
        script.tried(&edited(&words, &edits), number);
    }
}

/// The clusters of the links of `several_of_each`, which are 0 2 | | 0 1 2, and others.
fn links(script: &mut Script) {
    let words = several_of_each().words();
    let lists: [([u32; 5], u32); 22] = [
        ([0, 1, 0, 1, 2], 0),
        ([1, 2, 0, 1, 2], 0),
        ([0, 0, 0, 1, 2], 7),
        ([2, 2, 0, 1, 2], 7),
        ([2, 0, 0, 1, 2], 7),
        ([1, 0, 0, 1, 2], 7),
        ([0, 2, 0, 0, 2], 7),
        ([0, 2, 1, 1, 2], 7),
        ([0, 2, 0, 2, 2], 7),
        ([0, 2, 0, 2, 1], 7),
        ([0, 2, 1, 0, 2], 7),
        ([0, 2, 2, 1, 0], 7),
        ([0, 2, 0, 1, 1], 7),
        ([0, 2, 0, 1, 0], 7),
        ([0, 3, 0, 1, 2], 7),
        ([3, 4, 0, 1, 2], 7),
        ([0, 2, 0, 1, 3], 7),
        ([0, 2, 0, 1, 4], 7),
        ([0, 2, 0, 1, u32::MAX], 7),
        ([0, u32::MAX, 0, 1, 2], 7),
        ([0, 2, 0, 0x8000_0001, 0x8000_0002], 7),
        ([u32::MAX, 0, 0, 1, 2], 7),
    ];
    for (list, number) in lists {
        let edits = list.iter().enumerate();
        let edits: Vec<_> = edits
            .map(|(k, &cluster)| (place(&words, LINKS, 2 * k), cluster))
            .collect();
        script.tried(&edited(&words, &edits), number);
    }
}

/// "a member ≥ n", at each place.
fn members(script: &mut Script) {
    let words = several_of_each().words();
    for k in 0..4 {
        let at = place(&words, MEMBERS, k);
        for (member, number) in [
            (0, 0),
            (2, 0),
            (3, 7),
            (4, 7),
            (0x8000_0000, 7),
            (u32::MAX, 7),
        ] {
            script.tried(&edited(&words, &[(at, member)]), number);
        }
    }
}

/// The ranges of three clusters, first member and count of each, and the number.
const RANGES: [([u32; 6], u32); 26] = [
    ([0, 1, 1, 2, 3, 1], 0),
    ([0, 0, 0, 0, 0, 4], 0),
    ([0, 4, 4, 0, 4, 0], 0),
    ([0, 2, 2, 2, 4, 0], 0),
    ([0, 0, 0, 4, 4, 0], 0),
    // It starts late, at another's place, or nowhere.
    ([1, 1, 1, 2, 3, 1], 7),
    ([1, 0, 1, 2, 3, 1], 7),
    ([3, 1, 1, 2, 3, 1], 7),
    ([4, 0, 0, 4, 4, 0], 7),
    ([u32::MAX, 1, 0, 3, 3, 1], 7),
    // A gap, or members of two clusters.
    ([0, 1, 2, 1, 3, 1], 7),
    ([0, 1, 1, 1, 3, 1], 7),
    ([0, 1, 0, 3, 3, 1], 7),
    ([0, 1, 1, 3, 3, 1], 7),
    ([0, 1, 1, 2, 2, 2], 7),
    ([0, 1, 1, 2, 4, 0], 7),
    // The ranges in another order.
    ([1, 2, 0, 1, 3, 1], 7),
    ([3, 1, 1, 2, 0, 1], 7),
    // Fewer than the members, or more.
    ([0, 1, 1, 2, 3, 0], 7),
    ([0, 1, 1, 2, 3, 2], 7),
    ([0, 1, 1, 0, 1, 1], 7),
    ([0, 4, 4, 4, 8, 0], 7),
    ([0, 0, 0, 0, 0, 0], 7),
    // Sums that pass 2^32.
    ([0, u32::MAX, u32::MAX, 5, 4, 0], 7),
    ([0, 0x8000_0000, 0x8000_0000, 0x8000_0000, 0, 4], 7),
    ([0, 4, 4, 0x8000_0000, 0x8000_0004, 0x8000_0000], 7),
];

/// "member ranges not contiguous from 0 to the member count": those of `several_of_each` are the first.
fn ranges(script: &mut Script) {
    let words = several_of_each().words();
    let place = |c: usize, k: usize| place(&words, CLUSTERS, 3 * c + 1 + k);
    for (list, number) in RANGES {
        let edits = list.chunks_exact(2).enumerate();
        let edits: Vec<_> = edits
            .flat_map(|(c, range)| [(place(c, 0), range[0]), (place(c, 1), range[1])])
            .collect();
        script.tried(&edited(&words, &edits), number);
    }
}

/// Members or links where there are no surfels or no clusters.
fn counts_of_nothing(script: &mut Script) {
    let mut room = several_of_each();
    room.clusters.clear();
    script.tried(&room.words(), 7);
    room.members.clear();
    script.tried(&room.words(), 7);
    room.set_rows(&[Vec::new(), Vec::new(), Vec::new()]);
    script.printed(&room);
    room.members = vec![0];
    script.tried(&room.words(), 7);

    let mut room = several_of_each();
    room.surfels.clear();
    room.set_rows(&[]);
    script.tried(&room.words(), 7);
    room.set_clusters(&[(1.0, Vec::new())]);
    script.printed(&room);
    room.starts = vec![1];
    script.tried(&room.words(), 7);
    room.links = RoomFile::q().links;
    script.tried(&room.words(), 7);
    room.starts = vec![0];
    script.tried(&room.words(), 7);
}
