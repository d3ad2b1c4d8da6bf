//! Refusal 5: each float of each surfel, cluster, link and probe at its limits.

use super::*;

pub(super) fn write(script: &mut Script) {
    let words = several_of_each().words();
    for float in 0..13 {
        let most = match float {
            0..6 => 10_000.0,
            6..9 => 1.0,
            _ => 1_000_000.0,
        };
        let at = |k: usize| place(&words, SURFELS, 13 * k + float);
        ends(script, &words, at(2), float < 6, most);
        others(script, &words, [at(0), at(1)], most);
    }
    let area = |c: usize| place(&words, CLUSTERS, 3 * c);
    ends(script, &words, area(2), false, 1e12);
    others(script, &words, [area(0), area(1)], 1e12);
    let weight = |k: usize| place(&words, LINKS, 2 * k + 1);
    ends(script, &words, weight(4), false, 2.0);
    others(script, &words, [weight(0), weight(2)], 2.0);
    for float in 0..6 {
        let at = |k: usize| place(&words, PROBES, 8 + 6 * k + float);
        ends(script, &words, at(1), true, 10_000.0);
        others(script, &words, [at(0), at(0)], 10_000.0);
    }
    without_use(script);
}

/// The float at this place, which may go up to `most`, and as far below zero or not at all.
fn ends(script: &mut Script, words: &[u32], at: usize, signed: bool, most: f32) {
    let least = if signed { -most } else { -0.0 };
    let below = if signed { least.next_down() } else { -LEAST };
    let accepted = [most, most.next_down(), least, 0.0, -0.0, LEAST];
    for x in accepted {
        script.tried(&edited(words, &[(at, x.to_bits())]), 0);
    }
    for x in [most.next_up(), below, -f32::MAX, f32::MAX, INF, -INF, NAN] {
        script.tried(&edited(words, &[(at, x.to_bits())]), 5);
    }
    for word in [0xFFC0_0000, 0x7F80_0001] {
        script.tried(&edited(words, &[(at, word)]), 5);
    }
}

/// The same float of other entries.
fn others(script: &mut Script, words: &[u32], at: [usize; 2], most: f32) {
    for (place, x) in at.into_iter().zip([NAN, most.next_up()]) {
        script.tried(&edited(words, &[(place, x.to_bits())]), 5);
    }
}

/// Floats that no light and no reading depends on are tested too: surfels of no cluster and without
/// links, clusters that no link names, probes where nothing is near, at a limit of 0.
fn without_use(script: &mut Script) {
    let mut room = several_of_each();
    room.limit = 0;
    room.set_clusters(&[(1.0, Vec::new()), (1.0, Vec::new())]);
    room.set_rows(&[Vec::new(), Vec::new(), Vec::new()]);
    let words = room.words();
    script.tried(&words, 0);
    for at in [
        place(&words, SURFELS, 13 + 9),
        place(&words, SURFELS, 26 + 12),
        place(&words, CLUSTERS, 3),
        place(&words, PROBES, 8 + 6 + 5),
    ] {
        script.tried(&edited(&words, &[(at, NAN.to_bits())]), 5);
    }
}
