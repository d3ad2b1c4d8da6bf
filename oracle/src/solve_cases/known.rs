//! Room Q, whose bounces document 01 gives.

use super::*;

pub(super) fn write(script: &mut Script) {
    limits(script);
    in_a_row(script);
    refused_between(script);
}

/// What a solve of room Q that makes seven bounces answers, and what it leaves.
const SETTLED: [u32; 3] = [0, 7, 0x3880_0000];

/// Asserts what the first vector of irr, rad and scratch holds.
fn holds(script: &Script, irr: u32, rad: u32, light: u32) {
    for axis in 0..3 {
        let room = &script.room;
        let words = [&room.irr[..], &room.rad[..], &room.scratch[..]].map(|t| word(t[axis]));
        assert_eq!(words, [irr, rad, light]);
    }
}

/// Each limit from the start, after a fill.
fn limits(script: &mut Script) {
    let q = Making::q();
    for limit in [0, 1, 2, 3, 4, 5, 6, 7, 8, 12, 4_096] {
        script.fill();
        script.fresh(&q);
        let answer = script.solve(q.told(limit));
        match limit {
            0 => assert_eq!(answer, [0, 0, 0]),
            3 => assert_eq!(answer, [0, 3, word(0.015625)]),
            7.. => assert_eq!(answer, SETTLED),
            _ => assert_eq!(answer[..2], [0, limit]),
        }
        script.show_all();
        if limit >= 7 {
            holds(script, 0x3F2A_A800, 0x3FAA_AA00, 0x3FAA_A800);
        }
    }
}

/// Solves one after the other: 5 and 2, 8 and 4, and many of one bounce.
fn in_a_row(script: &mut Script) {
    let q = Making::q();
    let rows: [&[u32]; 6] = [
        &[5, 2],
        &[8, 4],
        &[3, 0, 4],
        &[1, 1, 1, 1, 1, 1, 1, 1, 1],
        &[6, 12, 12, 12],
        &[12, 4_096],
    ];
    for limits in rows {
        script.fill();
        script.fresh(&q);
        for &limit in limits {
            script.solved(q.told(limit));
        }
    }
    script.fresh(&q);
    assert_eq!(script.solved(q.told(8)), SETTLED);
    assert_eq!(script.solved(q.told(4))[..2], [0, 1]);
    script.fresh(&q);
    assert_eq!(script.solved(q.told(12)), SETTLED);
}

/// A refused solve between two, even of another room, leaves the light where it was.
fn refused_between(script: &mut Script) {
    let q = Making::q();
    script.fill();
    script.fresh(&q);
    assert_eq!(script.solved(q.told(5))[..2], [0, 5]);
    assert_eq!(script.solved(q.told(4_097)), [2]);
    let mut other = q.clone();
    other.surfels[0] = patch(2.0, 3.0, 0.25);
    script.room(&other);
    assert_eq!(script.solved(other.told(9)), [5]);
    script.room(&q);
    assert_eq!(script.solved(q.told(2))[..2], [0, 2]);
    holds(script, 0x3F2A_A800, 0x3FAA_AA00, 0x3FAA_A800);
}
