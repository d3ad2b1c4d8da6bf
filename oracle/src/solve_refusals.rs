//! Document 01's table "Refused calls", the rows that touch a solve and a reset, written from its
//! text alone. Rows 1, 3, 6 and 8 speak of files, grids, scenes and rows in the making that these
//! calls do not have.

use crate::rooms::Room;
use crate::solves::Told;
use std::ops::RangeInclusive;

/// "If several apply, the lowest number is returned." A row is asked only where those before it do
/// not apply.
pub fn solve(r: &Room, told: Told) -> Option<u32> {
    if too_many(told) {
        Some(2)
    } else if too_short(r, told) {
        Some(4)
    } else if out_of_range(r, told) {
        Some(5)
    } else if rows_misfit(r, told) || members_misfit(r, told) {
        Some(7)
    } else {
        None
    }
}

/// A reset of lists of these lengths: the light, direct, irr and rad. "surfels, members, points or
/// target over 400,000", three floats a surfel; "reset lists of unequal length", and a list that
/// ends within a surfel has no length in surfels; "direct 0..1,000,000".
pub fn reset(light: &[f32], lengths: [usize; 4]) -> Option<u32> {
    if lengths.iter().any(|&length| length > 3 * MOST as usize) {
        Some(2)
    } else if lengths.iter().any(|&l| l != lengths[0] || l % 3 != 0) {
        Some(4)
    } else if !all(&light[..lengths[0]], AMOUNT) {
        Some(5)
    } else {
        None
    }
}

/// "surfels, members, points or target over 400,000".
const MOST: u32 = 400_000;

/// 2: "clusters over 65,536; ... bounces over 4,096; links over 16,777,216".
fn too_many(told: Told) -> bool {
    told.n > MOST
        || told.members > MOST
        || told.nc > 65_536
        || told.limit > 4_096
        || told.links > 16_777_216
}

/// 4: "a lent slice shorter than its need". Vectors are three floats each; "starts one more than
/// rows"; "solve three f32 per cluster".
fn too_short(r: &Room, told: Told) -> bool {
    let [n, nc, members, links] = told.sizes();
    let pairs = [
        (r.lent.albedo, 3 * n),
        (r.lent.area, n),
        (r.lent.direct, 3 * n),
        (r.lent.cluster_area, nc),
        (r.lent.first, nc),
        (r.lent.count, nc),
        (r.lent.member, members),
        (r.lent.starts, n + 1),
        (r.lent.link_cluster, links),
        (r.lent.link_weight, links),
        (r.lent.irr, 3 * n),
        (r.lent.rad, 3 * n),
        (r.lent.scratch, 3 * nc),
    ];
    pairs.iter().any(|&(lent, need)| lent < need)
}

/// "surfel area, direct and cluster radius 0..1,000,000".
const AMOUNT: RangeInclusive<f32> = 0.0..=1_000_000.0;

/// 5: "NaN, infinity, or out of range: ... albedo and metallic 0..1; ... cluster area 0..1e12; weight
/// 0..2". "`irr`, `rad` ... may be any float."
fn out_of_range(r: &Room, told: Told) -> bool {
    let [n, nc, _, links] = told.sizes();
    !(all(&r.albedo[..3 * n], 0.0..=1.0)
        && all(&r.area[..n], AMOUNT)
        && all(&r.direct[..3 * n], AMOUNT)
        && all(&r.cluster_area[..nc], 0.0..=1e12)
        && all(&r.link_weight[..links], 0.0..=2.0))
}

/// Whether all floats are in the range. No range has a NaN.
fn all(list: &[f32], range: RangeInclusive<f32>) -> bool {
    list.iter().all(|x| range.contains(x))
}

/// 7: "row starts not from 0, falling, or not ending at the link count; a cluster number ≥ nc; links
/// not strictly ascending in a row".
fn rows_misfit(r: &Room, told: Told) -> bool {
    let [n, _, _, links] = told.sizes();
    let (starts, clusters) = (&r.starts[..n + 1], &r.link_cluster[..links]);
    let falls = starts.windows(2).any(|pair| pair[1] < pair[0]);
    if starts[0] != 0 || falls || starts[n] as usize != links {
        return true;
    }
    let row = |pair: &[u32]| &clusters[pair[0] as usize..pair[1] as usize];
    clusters.iter().any(|&c| c >= told.nc)
        || starts
            .windows(2)
            .any(|pair| row(pair).windows(2).any(|link| link[0] >= link[1]))
}

/// 7: "a member ≥ n; member ranges not contiguous from 0 to the member count".
fn members_misfit(r: &Room, told: Told) -> bool {
    let [_, nc, members, _] = told.sizes();
    let mut end = 0u64;
    for (&first, &count) in r.first[..nc].iter().zip(&r.count[..nc]) {
        if u64::from(first) != end {
            return true;
        }
        end += u64::from(count);
    }
    end != members as u64 || r.member[..members].iter().any(|&m| m >= told.n)
}
