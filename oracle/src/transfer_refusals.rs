//! Document 01's table "Refused calls", the rows that touch `build_clusters` and `formfactor::build`,
//! written from its text alone; what it says of a scene stands in `refusals.rs`. Rows 1 and 7 speak of
//! files and tables that these calls do not have; row 8 stands in `transfers.rs`.

use crate::refusals::{self as scenes, coordinate};
use crate::stores::Store;
use crate::transfers::{ClustersTold, RowsTold};
use interflect::Vec3;
use std::ops::RangeInclusive;

/// "If several apply, the lowest number is returned." A row is asked only where those before it do
/// not apply.
pub fn clusters(s: &Store, told: ClustersTold) -> Option<u32> {
    if told.n > MOST {
        Some(2)
    } else if !bounds(told.lo, told.hi) || !(1..=64).contains(&told.res) {
        // "cluster resolution outside 1..64".
        Some(3)
    } else if short_of_clusters(s, told.n as usize) {
        Some(4)
    } else if !surfels(s, told.n as usize) || !all(&s.area[..told.n as usize], AMOUNT) {
        Some(5)
    } else {
        None
    }
}

/// The same for rows.
pub fn rows(s: &Store, told: RowsTold) -> Option<u32> {
    let (n, nc) = (told.n as usize, told.nc as usize);
    if told.n > MOST || told.nc > 65_536 || scenes::too_many(&s.scene) {
        // "clusters over 65,536; primitives, planes, objects or materials over 256".
        Some(2)
    } else if !bounds(told.lo, told.hi) {
        Some(3)
    } else if short_of_rows(s, n, nc) || scenes::too_short(&s.scene) {
        Some(4)
    } else if !surfels(s, n) || !emitters(s, nc) || scenes::out_of_range(&s.scene) {
        Some(5)
    } else if scenes::miswired(&s.scene) {
        Some(6)
    } else {
        None
    }
}

/// 2: "surfels, members, points or target over 400,000".
const MOST: u32 = 400_000;

/// 3, by what passes: "lo above hi on an axis or beyond 10,000 in size", "a NaN in any of these".
pub fn bounds(lo: Vec3, hi: Vec3) -> bool {
    let axes = [(lo.x, hi.x), (lo.y, hi.y), (lo.z, hi.z)];
    axes.iter()
        .all(|&(lo, hi)| coordinate(lo) && coordinate(hi) && lo <= hi)
}

/// 4: "a lent slice shorter than its need". Vectors are three floats each; "clusters: n entries, n
/// members"; "Scratch: ... clusters two u32 per surfel".
fn short_of_clusters(s: &Store, n: usize) -> bool {
    let lent = s.clusters_lent;
    let pairs = [
        (lent.p, 3 * n),
        (lent.normals, 3 * n),
        (lent.area, n),
        (lent.cluster_p, 3 * n),
        (lent.cluster_n, 3 * n),
        (lent.cluster_area, n),
        (lent.radius, n),
        (lent.first, n),
        (lent.count, n),
        (lent.member, n),
        (lent.order, n),
        (lent.spare, n),
    ];
    pairs.iter().any(|&(lent, need)| lent < need)
}

/// 4: "starts one more than rows"; "Scratch: ... rows one u32 and one f32 per cluster". The link
/// slices have no need: row 8 speaks of them.
fn short_of_rows(s: &Store, n: usize, nc: usize) -> bool {
    let lent = s.rows_lent;
    let pairs = [
        (lent.p, 3 * n),
        (lent.normals, 3 * n),
        (lent.cluster_p, 3 * nc),
        (lent.cluster_n, 3 * nc),
        (lent.cluster_area, nc),
        (lent.radius, nc),
        (lent.starts, n + 1),
        (lent.link, nc),
        (lent.weight, nc),
    ];
    pairs.iter().any(|&(lent, need)| lent < need)
}

/// "surfel area, direct and cluster radius 0..1,000,000".
const AMOUNT: RangeInclusive<f32> = 0.0..=1_000_000.0;

/// 5, by what passes: "coordinates, normals and plane heights ±10,000".
fn surfels(s: &Store, n: usize) -> bool {
    coordinates(&s.p[..3 * n]) && coordinates(&s.normals[..3 * n])
}

/// 5, by what passes: the same, "cluster radius 0..1,000,000; cluster area 0..1e12".
fn emitters(s: &Store, nc: usize) -> bool {
    coordinates(&s.cluster_p[..3 * nc])
        && coordinates(&s.cluster_n[..3 * nc])
        && all(&s.cluster_area[..nc], 0.0..=1e12)
        && all(&s.radius[..nc], AMOUNT)
}

fn coordinates(list: &[f32]) -> bool {
    list.iter().all(|&x| coordinate(x))
}

/// Whether all floats are in the range. No range has a NaN.
fn all(list: &[f32], range: RangeInclusive<f32>) -> bool {
    list.iter().all(|x| range.contains(x))
}
