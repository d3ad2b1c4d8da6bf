//! Refused solves: rows 2 and 4 of document 01's table at their limits.

use super::*;

pub(super) fn write(script: &mut Script) {
    over_their_limits(script);
    more_than_places(script);
    short_tables(script);
    starts_of_no_rows(script);
}

/// Four surfels, three clusters, five members, six links, all of them good.
pub(super) fn good() -> Making {
    Making {
        surfels: (1..=4)
            .map(|k| patch(0.2 * k as f32, 0.5 * k as f32, 0.3 + k as f32))
            .collect(),
        clusters: vec![(1.5, vec![0, 2]), (0.75, vec![3]), (2.0, vec![1, 0])],
        rows: vec![
            vec![(0, 0.5), (2, 0.25)],
            vec![(1, 0.5)],
            Vec::new(),
            vec![(0, 0.1), (1, 0.2), (2, 0.3)],
        ],
    }
}

/// What a solve of the good room is told.
pub(super) fn told() -> Told {
    good().told(2)
}

/// Each count at its limit and over it: 2, whatever is lent; up to it the tables are too short.
fn over_their_limits(script: &mut Script) {
    script.room(&good());
    assert_eq!(script.tried("", told())[0], 0);
    let wide = [0x5555_5556, 0x8000_0000, u32::MAX];
    for n in [399_999, 400_000, 400_001].into_iter().chain(wide) {
        let number = if n > 400_000 { 2 } else { 4 };
        assert_eq!(script.tried("n", Told { n, ..told() }), [number]);
        let members = n;
        assert_eq!(
            script.tried("members", Told { members, ..told() }),
            [number]
        );
    }
    for nc in [65_535, 65_536, 65_537].into_iter().chain(wide) {
        let number = if nc > 65_536 { 2 } else { 4 };
        assert_eq!(script.tried("nc", Told { nc, ..told() }), [number]);
    }
    for links in [16_777_215, 16_777_216, 16_777_217].into_iter().chain(wide) {
        let number = if links > 16_777_216 { 2 } else { 4 };
        assert_eq!(script.tried("links", Told { links, ..told() }), [number]);
    }
    for limit in [4_095, 4_096, 4_097].into_iter().chain(wide) {
        let number = if limit > 4_096 { 2 } else { 0 };
        assert_eq!(script.tried("limit", Told { limit, ..told() })[0], number);
    }
}

/// One more of each than there are places.
fn more_than_places(script: &mut Script) {
    let t = told();
    assert_eq!(script.tried("n", Told { n: 13, ..t }), [4]);
    assert_eq!(script.tried("nc", Told { nc: 9, ..t }), [4]);
    assert_eq!(script.tried("members", Told { members: 33, ..t }), [4]);
    assert_eq!(script.tried("links", Told { links: 65, ..t }), [4]);
}

/// One of the lengths, to be set.
pub(super) type Length = fn(&mut Lent) -> &mut usize;

/// Each length, and the name of its table.
pub(super) const LENGTHS: [(&str, Length); 13] = [
    ("albedo", |lent| &mut lent.albedo),
    ("area", |lent| &mut lent.area),
    ("direct", |lent| &mut lent.direct),
    ("cluster_area", |lent| &mut lent.cluster_area),
    ("first", |lent| &mut lent.first),
    ("count", |lent| &mut lent.count),
    ("member", |lent| &mut lent.member),
    ("starts", |lent| &mut lent.starts),
    ("link_cluster", |lent| &mut lent.link_cluster),
    ("link_weight", |lent| &mut lent.link_weight),
    ("irr", |lent| &mut lent.irr),
    ("rad", |lent| &mut lent.rad),
    ("scratch", |lent| &mut lent.scratch),
];

/// Each table at its need, one short of it and of no place, the others whole or at their need.
fn short_tables(script: &mut Script) {
    for (name, length) in LENGTHS {
        let mut need = good().need();
        let exact = *length(&mut need);
        let mut all = Lent::ALL;
        *length(&mut all) = exact;
        script.lend(all);
        assert_eq!(script.tried(name, told())[0], 0);
        for short in [exact - 1, 0] {
            *length(&mut all) = short;
            script.lend(all);
            assert_eq!(script.tried(name, told()), [4]);
        }
        *length(&mut need) = exact - 1;
        script.lend(need);
        assert_eq!(script.tried(name, told()), [4]);
    }
    script.lend(good().need());
    assert_eq!(script.tried("", told())[0], 0);
    script.lend(Lent::ALL);
}

/// No surfel, no cluster: one start is needed, and nothing else.
fn starts_of_no_rows(script: &mut Script) {
    let nothing = Making::default();
    let need = nothing.need();
    script.room(&nothing);
    script.lend(need);
    assert_eq!(script.tried("starts", nothing.told(9)), [0, 0, 0]);
    script.lend(Lent { starts: 0, ..need });
    assert_eq!(script.tried("starts", nothing.told(9)), [4]);
    script.lend(Lent {
        starts: 0,
        ..Lent::ALL
    });
    assert_eq!(script.tried("starts", nothing.told(9)), [4]);
    script.lend(Lent::ALL);
}
