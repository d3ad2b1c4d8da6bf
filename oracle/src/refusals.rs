//! Document 01's table "Refused calls", the rows that touch a scene, written from its text alone.
//! Rows 1, 3, 7 and 8 speak of files, grids and lists that a scene's queries do not have.

use crate::tables::{Part, Tables};

/// The number that a call is refused with: "If several apply, the lowest number is returned." The
/// coordinates are those that the call itself is handed.
pub fn number(tables: &Tables, coordinates: &[f32]) -> Option<u32> {
    if too_many(tables) {
        Some(2)
    } else if too_short(tables) {
        Some(4)
    } else if out_of_range(tables) || !coordinates.iter().all(|&x| coordinate(x)) {
        Some(5)
    } else if miswired(tables) {
        Some(6)
    } else {
        None
    }
}

/// 2: "primitives, planes, objects or materials over 256".
pub fn too_many(t: &Tables) -> bool {
    t.prims > 256 || t.planes > 256 || t.objects > 256
}

/// 4: "a lent slice shorter than its need". For tables whose counts are at most 256.
pub fn too_short(t: &Tables) -> bool {
    t.kinds.len() < t.prims as usize
        || t.lengths.len() < 8 * t.prims as usize
        || t.plane_parts.len() < 4 * t.planes as usize
        || t.object_parts.len() < 4 * t.objects as usize
}

/// 5: "NaN, infinity, or out of range", in any float of a counted primitive that its kind uses.
pub fn out_of_range(t: &Tables) -> bool {
    let within = |k: usize| {
        let x = &t.lengths[8 * k..8 * k + 8];
        match t.kinds[k] {
            // c, r
            0 => coordinates(&x[0..3]) && size(x[3]),
            // c, b, r
            1 => coordinates(&x[0..3]) && sizes(&x[3..6]) && size(x[6]),
            // n, h
            2 => coordinates(&x[0..3]) && coordinate(x[3]),
            // c, major, minor
            4 => coordinates(&x[0..3]) && sizes(&x[3..5]),
            // a, b, r
            3 | 5 => coordinates(&x[0..6]) && size(x[6]),
            // a, b, ra, rb
            6 => coordinates(&x[0..6]) && sizes(&x[6..8]),
            // No kind, so no float is in use.
            _ => true,
        }
    };
    !(0..t.prims as usize).all(within)
}

/// 6: "primitive kind over 6, a primitive range outside its table, a plane as an object's base or
/// the reverse".
pub fn miswired(t: &Tables) -> bool {
    let kinds = &t.kinds[..t.prims as usize];
    let is_plane = |part: &Part| kinds.get(part.base as usize).map(|&kind| kind == 2);
    let outside = |part: &Part| u64::from(part.first) + u64::from(part.many) > u64::from(t.prims);
    kinds.iter().any(|&kind| kind > 6)
        || t.planes().iter().any(|part| is_plane(part) != Some(true))
        || t.objects().iter().any(|part| is_plane(part) != Some(false))
        || t.planes().iter().chain(&t.objects()).any(outside)
}

/// "coordinates, normals and plane heights ±10,000".
pub fn coordinate(x: f32) -> bool {
    (-10_000.0..=10_000.0).contains(&x)
}

fn coordinates(x: &[f32]) -> bool {
    x.iter().all(|&x| coordinate(x))
}

/// "primitive radii and box half-sizes 0..10,000".
fn size(x: f32) -> bool {
    (0.0..=10_000.0).contains(&x)
}

fn sizes(x: &[f32]) -> bool {
    x.iter().all(|&x| size(x))
}
