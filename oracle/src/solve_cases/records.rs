//! Resets of four records, the light of the first four surfels: which light is stored where, and every
//! refusal at its limits. That more than 400,000 records, or more than 1,200,000 floats of light, are 2
//! can't be asked here.

use super::resets::{amounts, good};
use super::*;

pub(super) fn write(script: &mut Script) {
    lengths(script);
    kept(script);
    ranges(script);
    then_solved(script);
}

/// A reset after a fill, and what it leaves in the records and just past them.
fn tried(script: &mut Script, length: usize) -> Vec<u32> {
    script.fill();
    script.put("fill_direct", vec![0x4D00_0000 + script.fills]);
    let answer = script.records(length);
    script.show_first(["direct", "irr", "rad"]);
    answer
}

/// Twelve floats are four records' light; more or fewer are refused.
fn lengths(script: &mut Script) {
    good(script);
    for length in [0, 1, 3, 9, 10, 11, 12, 13, 14, 15, 24, 36] {
        let number = if length == 12 { 0 } else { 4 };
        assert_eq!(tried(script, length), [number]);
    }
}

/// Records that hold any bits are set, or kept where the call is refused.
fn kept(script: &mut Script) {
    let any = [NAN, INF, -INF, -0.0, LEAST, -1.0, f32::MAX, 1e-40];
    let words: Vec<u32> = (0..36).map(|k| word(any[k % 8])).collect();
    for length in [11, 13, 12] {
        good(script);
        script.table("put_direct", &words);
        script.table("put_irr", &words);
        script.table("put_rad", &words);
        let number = if length == 12 { 0 } else { 4 };
        assert_eq!(script.records(length), [number]);
        script.show_all();
    }
}

/// The ends of the light's range and beyond, in the first place, in the last, and just past it.
fn ranges(script: &mut Script) {
    for (x, passes) in amounts() {
        for place in [0, 11, 12] {
            good(script);
            script.poke("put_light", place, word(x));
            let number = if passes || place == 12 { 0 } else { 5 };
            assert_eq!(tried(script, 12), [number]);
        }
    }
    // Both 4 and 5.
    assert_eq!(tried(script, 11), [4]);
}

/// A reset of records is a reset: room Q is solved after it as after one of columns.
fn then_solved(script: &mut Script) {
    let q = Making::q();
    script.fresh(&q);
    script.solved(q.told(5));
    script.table("put_light", &[word(1.0); 12]);
    assert_eq!(script.records(9), [4]);
    script.solved(q.told(2));
    assert_eq!(script.records(12), [0]);
    assert_eq!(script.solved(q.told(12)), [0, 7, 0x3880_0000]);
}
