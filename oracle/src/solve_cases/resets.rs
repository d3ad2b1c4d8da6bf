//! Resets: which light is stored where, and every refusal at its limits. That a list of more than
//! 1,200,000 floats is 2 can't be asked here, where a list has 36 places.

use super::*;

pub(super) fn write(script: &mut Script) {
    lights(script);
    lengths(script);
    unequal(script);
    ranges(script);
    lowest_first(script);
    then_solved(script);
}

/// A reset after a fill, and what it leaves: all that the tables hold where it is done, and where one
/// of this kind is refused for the first time.
fn tried(script: &mut Script, kind: &'static str, lengths: [usize; 4]) -> Vec<u32> {
    script.fill();
    script.put("fill_direct", vec![0x4E00_0000 + script.fills]);
    let answer = script.reset(lengths);
    if answer[0] == 0 || script.shown.insert((kind, answer[0])) {
        script.show_all();
    } else {
        script.show_first(["direct", "irr", "rad"]);
    }
    answer
}

/// Twelve surfels' light, every float another.
pub(super) fn good(script: &mut Script) {
    let light: Vec<u32> = (0..36).map(|k| word(0.37 * (k + 1) as f32)).collect();
    script.table("put_light", &light);
}

/// Light at the ends of its range, smallest and largest floats.
fn lights(script: &mut Script) {
    let most = 1_000_000.0f32;
    let list = [0.0, -0.0, LEAST, 1e-40, 0.1, 1.0, most.next_down(), most];
    let words: Vec<u32> = (0..36).map(|k| word(list[k % 8])).collect();
    script.table("put_light", &words);
    assert_eq!(tried(script, "", [36; 4]), [0]);
    // Whatever the lists held before.
    script.put("fill", vec![word(NAN)]);
    script.put("fill_direct", vec![word(NAN)]);
    assert_eq!(script.reset([21; 4]), [0]);
    script.show_all();
    // Again, and of fewer surfels.
    assert_eq!(script.reset([21; 4]), [0]);
    script.show_all();
    assert_eq!(script.reset([0; 4]), [0]);
    script.show_all();
}

/// Four lists of one length: a multiple of three, or refused.
fn lengths(script: &mut Script) {
    good(script);
    for length in (0..=13).chain(29..=38) {
        let answer = tried(script, "length", [length; 4]);
        // Of more places than there are all are lent.
        let even = length.min(36) % 3 == 0;
        assert_eq!(answer, [if even { 0 } else { 4 }]);
    }
}

/// One list shorter or longer than the others, two of them, all unlike.
fn unequal(script: &mut Script) {
    good(script);
    for length in [0, 1, 3, 6, 8, 10, 12, 36] {
        for (place, kind) in ["light", "direct", "irr", "rad"].into_iter().enumerate() {
            let mut lengths = [9; 4];
            lengths[place] = length;
            assert_eq!(tried(script, kind, lengths), [4]);
        }
    }
    for lengths in [
        [9, 9, 6, 6],
        [9, 6, 6, 9],
        [6, 9, 6, 9],
        [0, 3, 6, 9],
        [12, 9, 6, 3],
        [7, 8, 9, 10],
        [0, 36, 36, 36],
        [36, 0, 0, 0],
    ] {
        assert_eq!(tried(script, "several", lengths), [4]);
    }
}

/// Light at the ends of its range and beyond, and whether it passes.
pub(super) fn amounts() -> [(f32, bool); 13] {
    let most = 1_000_000.0f32;
    [
        (0.0, true),
        (-0.0, true),
        (LEAST, true),
        (-LEAST, false),
        (most, true),
        (most.next_down(), true),
        (most.next_up(), false),
        (-1.0, false),
        (-most, false),
        (f32::MAX, false),
        (INF, false),
        (-INF, false),
        (NAN, false),
    ]
}

/// The ends of the light's range and beyond, in the first place, in the last that is lent, in one
/// between, and just past it.
fn ranges(script: &mut Script) {
    for (x, passes) in amounts() {
        for place in [0, 7, 14, 15] {
            good(script);
            script.poke("put_light", place, word(x));
            let number = if passes || place == 15 { 0 } else { 5 };
            assert_eq!(tried(script, "range", [15; 4]), [number]);
        }
    }
}

/// Lists of unequal length and light out of range: 4.
fn lowest_first(script: &mut Script) {
    good(script);
    script.poke("put_light", 0, word(NAN));
    assert_eq!(tried(script, "several", [9, 9, 9, 9]), [5]);
    assert_eq!(tried(script, "several", [9, 9, 9, 8]), [4]);
    assert_eq!(tried(script, "several", [8, 8, 8, 8]), [4]);
    assert_eq!(tried(script, "several", [9, 9, 12, 9]), [4]);
    assert_eq!(tried(script, "several", [0, 0, 0, 0]), [0]);
}

/// A solve, a reset, a refused reset, a solve: the reset begins the light again.
fn then_solved(script: &mut Script) {
    let q = Making::q();
    script.fresh(&q);
    script.solved(q.told(5));
    assert_eq!(script.reset([3, 3, 3, 6]), [4]);
    script.solved(q.told(2));
    assert_eq!(script.reset([3; 4]), [0]);
    assert_eq!(script.solved(q.told(12)), [0, 7, 0x3880_0000]);
}
