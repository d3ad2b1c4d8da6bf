//! Document 01's table "Refused calls", the rows that touch `generate`, written from its text alone;
//! what it says of the floats and the parts of a scene stands in `refusals.rs`, and what it says of
//! bounds in `transfer_refusals.rs`. Rows 1, 7 and 8 speak of files and tables that this call does not
//! have.

use crate::placements::Told;
use crate::refusals as scenes;
use crate::sites::Site;
use crate::transfer_refusals::bounds;

/// "If several apply, the lowest number is returned." A row is asked only where those before it do
/// not apply.
pub fn number(s: &Site, told: Told) -> Option<u32> {
    if told.target > 400_000 || told.mats > 256 || scenes::too_many(&s.scene) {
        // "surfels, members, points or target over 400,000"; "primitives, planes, objects or
        // materials over 256".
        Some(2)
    } else if !bounds(told.lo, told.hi) {
        Some(3)
    } else if short_of_scene(s) || short_of_materials(s, told) || short_of_results(s, told) {
        Some(4)
    } else if scenes::out_of_range(&s.scene) || !materials(s, told.mats as usize) {
        Some(5)
    } else if scenes::miswired(&s.scene) {
        Some(6)
    } else {
        None
    }
}

/// 4: "a lent slice shorter than its need". "per primitive a kind ... and eight floats ...; per plane
/// or object a base primitive, a range of subtracted primitives and a material number", four words.
fn short_of_scene(s: &Site) -> bool {
    let (scene, lent) = (&s.scene, s.lent);
    lent.kinds < scene.prims as usize
        || lent.lengths < 8 * scene.prims as usize
        || lent.plane_parts < 4 * scene.planes as usize
        || lent.object_parts < 4 * scene.objects as usize
}

/// 4: albedo and metallic are four floats a material.
fn short_of_materials(s: &Site, told: Told) -> bool {
    s.lent.materials < 4 * told.mats as usize
}

/// 4: "a result slice holds target, n or point entries", vectors are three floats each; "Scratch:
/// placement one u32 per cell and per target".
fn short_of_results(s: &Site, told: Told) -> bool {
    let (lent, target) = (s.lent, told.target as usize);
    let vectors = [lent.p, lent.n, lent.albedo, lent.direct, lent.irr, lent.rad];
    vectors.iter().any(|&lent| lent < 3 * target)
        || lent.area < target
        || lent.head < told.cells()
        || lent.next < target
}

/// 5, by what passes: "albedo and metallic 0..1". No range has a NaN.
fn materials(s: &Site, mats: usize) -> bool {
    let floats = &s.materials[..4 * mats];
    floats.iter().all(|x| (0.0..=1.0).contains(x))
}
