//! The solve and the two resets.
use super::answered;
use crate::ffi;
use crate::lent::{Light, RoomTables};
use crate::refused::Refused;
use crate::room::Solved;

/// Bounces light until the last change is under 0.0001, in the light's own unit, or `limit` bounces are
/// made. The bounces go on from the `rad` that is lent; `irr` and `rad` have a vector a surfel, `scratch`
/// one a cluster, which ends as the clusters' light of the last bounce. All three stay as lent where no
/// bounce is made.
///
/// Refuses with 2 (a count, or a limit over 4,096), 4 (a slice too short), 5 (a number out of range;
/// `irr` and `rad` may be any floats) and 7 (rows or members that do not fit together).
pub fn solve(
    room: RoomTables<'_>,
    limit: usize,
    irr: &mut [f32],
    rad: &mut [f32],
    scratch: &mut [f32],
) -> Result<Solved, Refused> {
    let (mut bounces, mut last_change) = (0, 0.0);
    let result = call!(interflect_solve: value room.n, value room.nc, value room.members,
        value room.links, value limit, read room.albedo, read room.area, read room.direct,
        read room.cluster_area, read room.first, read room.count, read room.member, read room.starts,
        read room.link_cluster, read room.link_weight, write irr, write rad, write scratch,
        out bounces, out last_change,);
    answered(
        "solve",
        result,
        Solved {
            bounces,
            last_change,
        },
    )
}

/// The light of surfels before the first bounce: `direct` and `rad` become the light, which is what each
/// gives off of the lamps', albedo × irradiance; `irr` becomes zero.
///
/// Refuses with 2 (a list over 1,200,000 floats), 4 (lists that are not of one length, or of a length
/// that is no multiple of three) and 5 (light outside 0..1,000,000).
pub fn reset(
    light: &[f32],
    direct: &mut [f32],
    irr: &mut [f32],
    rad: &mut [f32],
) -> Result<(), Refused> {
    let result = call!(interflect_reset: read light, write direct, write irr, write rad,);
    answered("reset", result, ())
}

/// The same of records, one a surfel: `direct` and `rad` of each become the light, `irr` zero.
///
/// Refuses with 2 (over 1,200,000 floats of light, or 400,000 records), 4 (light that is not three floats
/// a record) and 5 (light outside 0..1,000,000).
pub fn reset_records(light: &[f32], records: &mut [Light]) -> Result<(), Refused> {
    let result = call!(interflect_reset_records: read light, write records,);
    answered("reset_records", result, ())
}
