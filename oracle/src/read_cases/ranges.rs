//! Refusals 3 and 5: the box, and each float of surfels, clusters, links and probes at its limits.

use super::*;

pub(super) fn write(script: &mut Script) {
    let words = uneven().words();
    for axis in 0..3 {
        box_side(script, &words, axis);
    }
    let at = |k| place(&words, PROBES, k);
    let (cells, radii) = ([0.0001, 10_000.0], [-0.0, 10_000.0]);
    for (k, [least, most]) in [(6, cells), (7, radii)] {
        for (x, number) in [(least, 0), (most, 0), (NAN, 3), (most.next_up(), 3)] {
            tried(script, &words, at(k), x, number);
        }
    }
    tried(script, &words, at(6), 0.0001f32.next_down(), 3);
    tried(script, &words, at(6), 0.0, 3);
    tried(script, &words, at(7), -LEAST, 3);
    entries(script, &words);
}

/// Reads these words with another float at a place.
fn tried(script: &mut Script, words: &[u32], at: usize, x: f32, number: u32) {
    let words = edited(words, &[(at, x.to_bits())]);
    script.read(&words, needs(&uneven()), number);
}

/// lo and hi on an axis at ±10,000 and beyond, lo above hi, and no number.
fn box_side(script: &mut Script, words: &[u32], axis: usize) {
    let most = 10_000.0f32;
    let (lo, hi) = (place(words, PROBES, axis), place(words, PROBES, 3 + axis));
    let above = f32::from_bits(words[hi]).next_up();
    for (x, number) in [(-most, 0), (-most.next_up(), 3), (above, 3), (NAN, 3)] {
        tried(script, words, lo, x, number);
    }
    for (x, number) in [(most, 0), (most.next_up(), 3), (NAN, 3)] {
        tried(script, words, hi, x, number);
    }
}

/// Each float of the last surfel, cluster, link and probe above its limit, of the first below it.
fn entries(script: &mut Script, words: &[u32]) {
    let coordinate = |at| (at, -10_000.0, 10_000.0);
    for float in 0..13 {
        let at = [0, 3].map(|k| place(words, SURFELS, 13 * k + float));
        match float {
            0..6 => ends(script, words, coordinate(at)),
            6..9 => ends(script, words, (at, 0.0, 1.0)),
            _ => ends(script, words, (at, 0.0, 1_000_000.0)),
        }
    }
    let at = [0, 1].map(|c| place(words, CLUSTERS, 3 * c));
    ends(script, words, (at, 0.0, 1e12));
    let at = [0, 5].map(|k| place(words, LINKS, 2 * k + 1));
    ends(script, words, (at, 0.0, 2.0));
    for float in 0..6 {
        let at = [0, 2].map(|k| place(words, PROBES, 8 + 6 * k + float));
        ends(script, words, coordinate(at));
    }
}

/// A float of the first entry below the least, no number in the second, and one above the most there.
fn ends(script: &mut Script, words: &[u32], ([first, last], least, most): ([usize; 2], f32, f32)) {
    tried(script, words, first, least.next_down(), 5);
    tried(script, words, last, most.next_up(), 5);
    if last % 3 == 0 {
        tried(script, words, last, NAN, 5);
    }
}
