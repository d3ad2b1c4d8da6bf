//! Refused solves: row 5 of document 01's table at its limits, in the first place of each table, in
//! the last that is needed and just past it.

use super::counts::{good, told};
use super::*;

pub(super) fn write(script: &mut Script) {
    for (name, places, most) in tables() {
        each(script, name, places, most);
    }
    every_place(script);
    nothing_needed(script);
}

/// The tables of floats that have a range: how many places are needed, and the range's end.
fn tables() -> [(&'static str, usize, f32); 5] {
    let [n, nc, _, links] = told().sizes();
    [
        ("put_albedo", 3 * n, 1.0),
        ("put_area", n, 1_000_000.0),
        ("put_direct", 3 * n, 1_000_000.0),
        ("put_cluster_area", nc, 1e12),
        ("put_link_weight", links, 2.0),
    ]
}

/// Floats at a range's ends and beyond, and whether they pass.
fn ends(most: f32) -> [(f32, bool); 12] {
    [
        (0.0, true),
        (-0.0, true),
        (LEAST, true),
        (-LEAST, false),
        (most, true),
        (most.next_down(), true),
        (most.next_up(), false),
        (-most, false),
        (f32::MAX, false),
        (INF, false),
        (-INF, false),
        (NAN, false),
    ]
}

fn each(script: &mut Script, name: &'static str, places: usize, most: f32) {
    for (x, passes) in ends(most) {
        for place in [0, places - 1, places] {
            script.room(&good());
            script.poke(name, place, word(x));
            let number = if passes || place == places { 0 } else { 5 };
            assert_eq!(script.tried(name, told())[0], number);
        }
    }
}

/// A float beyond the range in each place that is needed.
fn every_place(script: &mut Script) {
    for (name, places, most) in tables() {
        for place in 0..places {
            script.room(&good());
            script.poke(name, place, word(most.next_up()));
            assert_eq!(script.solve(told()), [5]);
        }
    }
    script.show_all();
    script.room(&good());
}

/// With no surfel, cluster or link no float is looked at.
fn nothing_needed(script: &mut Script) {
    for (name, _, _) in tables() {
        script.poke(name, 0, word(NAN));
    }
    let nothing = Making::default();
    script.room(&nothing);
    assert_eq!(script.tried("", nothing.told(3)), [0, 0, 0]);
    script.room(&good());
}
