//! Placement.
use super::answered;
use crate::bounds::Bounds;
use crate::ffi;
use crate::lent::{PlacedColumns, SceneTables};
use crate::refused::Refused;

/// Places up to `target` surfels on the surfaces of a scene within the bounds, and answers how many
/// came to lie; places of the columns from that count on keep what they held.
///
/// `mats` is how many materials there are, at most 256, and `materials` four floats each, albedo and
/// metallic. The scratch `head` needs a number for each cell whose side is the least distance of two
/// surfels, `bounds.cells(bounds.spacing(target))` of them, `next` one for each of the target.
///
/// Refuses with 2 (a target over 400,000, a count over 256), 3 (the bounds), 4 (a slice too short),
/// 5 (a float of the scene, an albedo or metallic outside 0..1) and 6 (the scene's tables).
#[allow(clippy::too_many_arguments)] // The entry's own arguments, in its order.
pub fn generate(
    scene: SceneTables<'_>,
    mats: usize,
    materials: &[f32],
    bounds: Bounds,
    target: usize,
    columns: PlacedColumns<'_>,
    head: &mut [u32],
    next: &mut [u32],
) -> Result<usize, Refused> {
    let mut count = 0;
    let result = call!(interflect_generate: scene scene, value mats, read materials, bounds bounds,
        value target, write columns.p, write columns.n, write columns.albedo, write columns.area,
        write columns.direct, write columns.irr, write columns.rad, write head, write next, out count,);
    answered("generate", result, count)
}
