//! Link slices that end within the rows: refusal 8, its row, and what is left.

use super::*;

pub(super) fn write(script: &mut Script) {
    each_length(script);
    empty_rows(script);
    without_links(script);
    needs_first(script);
}

const BOUNDS: Bounds = Bounds {
    lo: Vec3::new(-2.0, -2.0, -2.0),
    hi: Vec3::new(2.0, 2.0, 2.0),
};

/// Five surfels on the floor, of which the second and the last look away from the four clusters
/// at the ceiling; one of the clusters looks away from all.
fn stored(script: &mut Script) {
    script.scene(&closed(2.0));
    let surfels: Vec<Patch> = (0..5)
        .map(|k| {
            let n = if k == 1 || k == 4 { DOWN } else { UP };
            patch(at(0.5 * k as f32 - 1.0, 0.25, -2.0), n, 1.0)
        })
        .collect();
    let emitters: Vec<Emitter> = (0..4)
        .map(|c| {
            let n = if c == 2 { UP } else { DOWN };
            emitter(at(0.3, 0.8 * c as f32 - 1.2, 2.0), n, 1.5, 0.7)
        })
        .collect();
    script.surfels(&surfels);
    script.emitters(&emitters);
}

/// The row and the number of links that a call answers with these lengths of the link slices.
fn at_lengths(script: &mut Script, clusters: usize, weights: usize) -> Vec<u32> {
    script.lend_rows(RowsLent {
        link_cluster: clusters,
        link_weight: weights,
        ..RowsLent::need(5, 4, 0)
    });
    script.rows(BOUNDS.rows(5, 4))
}

/// Nine links in rows of three, none, three, three and none: from no place to more than all, the two
/// slices alike, and either one the longer.
fn each_length(script: &mut Script) {
    stored(script);
    for places in 0..=11 {
        let row = match places {
            0..3 => Some(0),
            3..6 => Some(2),
            6..9 => Some(3),
            _ => None,
        };
        for (clusters, weights) in [(places, places), (places, LINKS), (places + 2, places)] {
            let answer = at_lengths(script, clusters, weights);
            match row {
                Some(row) => assert_eq!(answer, [8, row]),
                None => assert_eq!(answer[..2], [0, 9]),
            }
        }
    }
}

/// Rows without links fit slices that are full already, or have no place.
fn empty_rows(script: &mut Script) {
    stored(script);
    let away: Vec<Patch> = (0..5)
        .map(|k| patch(at(0.1, 0.2, -2.0 + 0.1 * k as f32), DOWN, 1.0))
        .collect();
    script.surfels(&away);
    assert_eq!(at_lengths(script, 0, 0)[..2], [0, 0]);
    assert_eq!(at_lengths(script, 0, 9)[..2], [0, 0]);
    // The last row alone has links.
    let mut last = away.clone();
    last[4].n = UP;
    script.surfels(&last);
    assert_eq!(at_lengths(script, 2, 9), [8, 4]);
    assert_eq!(at_lengths(script, 3, 3)[..2], [0, 3]);
    // The first row alone.
    let mut first = away;
    first[0].n = UP;
    script.surfels(&first);
    assert_eq!(at_lengths(script, 3, 2), [8, 0]);
    assert_eq!(at_lengths(script, 3, 3)[..2], [0, 3]);
}

/// No surfel, or no cluster: nothing has to fit.
fn without_links(script: &mut Script) {
    stored(script);
    for (n, nc) in [(0, 0), (0, 4), (5, 0), (1, 0)] {
        for (clusters, weights) in [(0, 0), (0, 2), (1, 1)] {
            script.lend_rows(RowsLent {
                link_cluster: clusters,
                link_weight: weights,
                ..RowsLent::need(n, nc, 0)
            });
            assert_eq!(script.rows(BOUNDS.rows(n, nc))[..2], [0, 0]);
        }
    }
}

/// 2 to 6 come before 8.
fn needs_first(script: &mut Script) {
    stored(script);
    let short = RowsLent::need(5, 4, 2);
    script.lend_rows(short);
    assert_eq!(script.rows(BOUNDS.rows(5, 4)), [8, 0]);
    assert_eq!(script.rows(BOUNDS.rows(400_001, 4)), [2]);
    let mut over = BOUNDS;
    over.lo.x = 3.0;
    assert_eq!(script.rows(over.rows(5, 4)), [3]);
    script.lend_rows(RowsLent { link: 3, ..short });
    assert_eq!(script.rows(BOUNDS.rows(5, 4)), [4]);
    script.lend_rows(short);
    script.poke("put_radius", 3, NAN);
    assert_eq!(script.rows(BOUNDS.rows(5, 4)), [5]);
    stored(script);
    let mut room = closed(2.0);
    room.planes[5].first = 7;
    script.scene(&room);
    assert_eq!(script.rows(BOUNDS.rows(5, 4)), [6]);
    stored(script);
    assert_eq!(script.rows(BOUNDS.rows(5, 4)), [8, 0]);
}
