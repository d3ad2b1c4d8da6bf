//! Refused solves: row 7 of document 01's table at its limits, and several rows at once.

use super::counts::{good, told, LENGTHS};
use super::*;

pub(super) fn write(script: &mut Script) {
    starts(script);
    links(script);
    members(script);
    member_ranges(script);
    other_counts(script);
    lowest_first(script);
}

/// The tables of floats that have a range.
const FLOATS: [&str; 5] = [
    "put_albedo",
    "put_area",
    "put_direct",
    "put_cluster_area",
    "put_link_weight",
];

/// A solve of the good room, but for one table; whether it passes.
fn each<const N: usize>(script: &mut Script, name: &'static str, list: &[([u32; N], bool)]) {
    for (words, passes) in list {
        script.room(&good());
        script.table(name, words);
        let number = if *passes { 0 } else { 7 };
        assert_eq!(script.tried(name, told())[0], number, "{words:?}");
    }
    script.room(&good());
}

/// Starts from 0, never falling, that end at the links; the start past the rows is not looked at.
fn starts(script: &mut Script) {
    each(
        script,
        "put_starts",
        &[
            ([0, 2, 3, 3, 6, 0], true),
            ([0, 2, 3, 3, 6, 99], true),
            ([0, 1, 2, 3, 6, 6], true),
            ([0, 2, 3, 4, 6, 6], true),
            ([1, 2, 3, 3, 6, 6], false),
            ([6, 6, 6, 6, 6, 6], false),
            ([u32::MAX, 2, 3, 3, 6, 6], false),
            ([0, 2, 1, 3, 6, 6], false),
            ([0, 3, 2, 3, 6, 6], false),
            ([0, 2, 3, 2, 6, 6], false),
            ([0, 2, 3, 7, 6, 6], false),
            ([0, 7, 7, 7, 6, 6], false),
            ([0, u32::MAX, 3, 3, 6, 6], false),
            ([0, 2, 3, 0x8000_0000, 6, 6], false),
            ([0, 2, 3, 3, 5, 6], false),
            ([0, 2, 3, 3, 7, 6], false),
            ([0, 2, 3, 3, 0, 6], false),
            ([0, 0, 0, 0, 0, 6], false),
            ([0, 2, 3, 3, u32::MAX, 6], false),
            ([0, 2, 3, 3, 0x0001_0006, 6], false),
            // Two rows in one, where links fall.
            ([0, 1, 3, 3, 6, 6], false),
            ([0, 2, 4, 4, 6, 6], false),
            ([0, 0, 0, 0, 6, 6], false),
            ([0, 6, 6, 6, 6, 6], false),
        ],
    );
}

/// Clusters below their count, strictly ascending in a row; from row to row they may fall. The link
/// past the last is not looked at.
fn links(script: &mut Script) {
    each(
        script,
        "put_link_cluster",
        &[
            ([0, 2, 1, 0, 1, 2, 0], true),
            ([0, 2, 1, 0, 1, 2, 3], true),
            ([0, 2, 1, 0, 1, 2, u32::MAX], true),
            ([1, 2, 0, 0, 1, 2, 0], true),
            ([0, 2, 2, 0, 1, 2, 0], true),
            ([0, 1, 0, 0, 1, 2, 0], true),
            // No such cluster.
            ([0, 3, 1, 0, 1, 2, 0], false),
            ([0, 2, 3, 0, 1, 2, 0], false),
            ([0, 2, 1, 0, 1, 3, 0], false),
            ([3, 4, 1, 0, 1, 2, 0], false),
            ([0, 2, 1, 0, 1, u32::MAX, 0], false),
            ([0, 2, 0x8000_0000, 0, 1, 2, 0], false),
            ([0, 2, 0x0001_0000, 0, 1, 2, 0], false),
            // The same twice in a row.
            ([0, 0, 1, 0, 1, 2, 0], false),
            ([2, 2, 1, 0, 1, 2, 0], false),
            ([0, 2, 1, 0, 0, 2, 0], false),
            ([0, 2, 1, 0, 2, 2, 0], false),
            // Falling.
            ([2, 0, 1, 0, 1, 2, 0], false),
            ([0, 2, 1, 1, 0, 2, 0], false),
            ([0, 2, 1, 0, 2, 1, 0], false),
            ([0, 2, 1, 2, 1, 0, 0], false),
        ],
    );
}

/// Members below the count of surfels; the member past the last is not looked at.
fn members(script: &mut Script) {
    each(
        script,
        "put_member",
        &[
            ([0, 2, 3, 1, 0, 4], true),
            ([0, 2, 3, 1, 0, u32::MAX], true),
            ([3, 3, 3, 3, 3, 0], true),
            ([4, 2, 3, 1, 0, 0], false),
            ([0, 4, 3, 1, 0, 0], false),
            ([0, 2, 4, 1, 0, 0], false),
            ([0, 2, 3, 1, 4, 0], false),
            ([0, 2, 3, 1, u32::MAX, 0], false),
            ([0x8000_0000, 2, 3, 1, 0, 0], false),
            ([0, 2, 3, 0x0001_0000, 0, 0], false),
        ],
    );
}

/// First members and counts of members, and whether they are one after the other, from 0 to the count
/// of members; the range past the last is not looked at.
const RANGES: [([u32; 4], [u32; 4], bool); 20] = [
    ([0, 2, 3, 5], [2, 1, 2, 0], true),
    ([0, 2, 3, 9], [2, 1, 2, 9], true),
    ([0, 0, 5, 0], [0, 5, 0, 0], true),
    ([0, 2, 2, 0], [2, 0, 3, 0], true),
    ([0, 5, 5, 0], [5, 0, 0, 0], true),
    // Not from 0.
    ([1, 2, 3, 5], [1, 1, 2, 0], false),
    ([5, 5, 5, 5], [0, 0, 0, 0], false),
    ([u32::MAX, 2, 3, 5], [3, 1, 2, 0], false),
    // A gap, an overlap, in another order.
    ([0, 2, 4, 5], [2, 1, 1, 0], false),
    ([0, 3, 4, 5], [2, 1, 1, 0], false),
    ([0, 1, 3, 5], [2, 2, 2, 0], false),
    ([0, 2, 2, 5], [2, 1, 3, 0], false),
    ([2, 0, 3, 5], [1, 2, 2, 0], false),
    ([0, 4, 2, 5], [2, 0, 3, 0], false),
    // Not to the count.
    ([0, 2, 3, 4], [2, 1, 1, 1], false),
    ([0, 2, 3, 6], [2, 1, 3, 0], false),
    ([0, 0, 0, 0], [0, 0, 0, 5], false),
    ([0, 2, 3, 5], [2, 1, u32::MAX, 0], false),
    // Sums that come back to the count in 32 bits.
    ([0, 2, 1, 5], [2, u32::MAX, 4, 0], false),
    (
        [0, 0x8000_0000, 0, 5],
        [0x8000_0000, 0x8000_0000, 5, 0],
        false,
    ),
];

/// The good room with each of these ranges.
fn member_ranges(script: &mut Script) {
    for (firsts, counts, passes) in RANGES {
        script.room(&good());
        script.table("put_first", &firsts);
        script.table("put_count", &counts);
        let number = if passes { 0 } else { 7 };
        assert_eq!(script.tried("ranges", told())[0], number, "{firsts:?}");
    }
    script.room(&good());
}

/// The tables of the good room, told of other counts.
fn other_counts(script: &mut Script) {
    // Past the need stand floats that pass, and numbers that don't.
    for name in FLOATS {
        let places = script.room.words(name).len();
        script.table(name, &vec![0; places]);
    }
    script.room(&good());
    script.poke("put_starts", 5, 5);
    script.poke("put_first", 3, 4);
    let t = told();
    for n in [0, 1, 3, 5] {
        assert_eq!(script.tried("n", Told { n, ..t }), [7]);
    }
    for nc in [0, 1, 2, 4] {
        assert_eq!(script.tried("nc", Told { nc, ..t }), [7]);
    }
    for members in [0, 4, 6] {
        assert_eq!(script.tried("members", Told { members, ..t }), [7]);
    }
    for links in [0, 5, 7] {
        assert_eq!(script.tried("links", Told { links, ..t }), [7]);
    }
    // Without a bounce to make, and without clusters, the tables are looked at all the same.
    script.poke("put_member", 0, 4);
    assert_eq!(script.tried("limit", Told { limit: 0, ..t }), [7]);
    let nothing = Told {
        nc: 0,
        members: 0,
        links: 0,
        ..t
    };
    assert_eq!(script.tried("nothing", nothing), [7]);
    script.room(&good());
}

/// Several rows apply: the lowest number is returned.
fn lowest_first(script: &mut Script) {
    let t = told();
    let misfits: [(&'static str, u32); 5] = [
        ("put_starts", 1),
        ("put_link_cluster", 3),
        ("put_member", 4),
        ("put_first", 1),
        ("put_count", 9),
    ];
    for (name, number) in misfits {
        script.room(&good());
        script.poke(name, 0, number);
        assert_eq!(script.tried(name, t), [7]);
        for float in FLOATS {
            script.poke(float, 1, word(NAN));
            assert_eq!(script.solve(t), [5]);
            script.room(&good());
            script.poke(name, 0, number);
        }
    }
    script.poke("put_albedo", 0, word(-1.0));
    for (_, length) in LENGTHS {
        let mut lent = good().need();
        *length(&mut lent) -= 1;
        script.lend(lent);
        assert_eq!(script.solve(t), [4]);
    }
    for told in over(t) {
        assert_eq!(script.solve(told), [2]);
    }
    script.show_all();
    script.lend(Lent::ALL);
    for told in over(t) {
        assert_eq!(script.solve(told), [2]);
    }
    script.room(&good());
    assert_eq!(script.tried("", t)[0], 0);
}

/// Each count over its limit.
fn over(t: Told) -> [Told; 5] {
    [
        Told { n: 400_001, ..t },
        Told { nc: 65_537, ..t },
        Told {
            members: 400_001,
            ..t
        },
        Told {
            links: 16_777_217,
            ..t
        },
        Told { limit: 4_097, ..t },
    ]
}
