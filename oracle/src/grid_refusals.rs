//! Document 01's table "Refused calls", the rows that touch a grid and a reading, written from its
//! text, but for one reading of ours: probes count as points. Rows 1, 6 and 8 speak of files, scenes and rows that these calls do not have.

use crate::refusals::coordinate;
use crate::sheets::Sheet;
use interflect::Vec3;

/// What each number asks, in the order in which it is asked.
type Tests<'a> = [(u32, &'a dyn Fn() -> bool)];

/// "If several apply, the lowest number is returned." A test is asked only where those before it
/// have passed.
fn first(tests: &Tests) -> Option<u32> {
    tests.iter().find(|(_, fails)| fails()).map(|test| test.0)
}

/// A grid is built of n points.
pub fn build(s: &Sheet, n: u32) -> Option<u32> {
    first(&[
        (2, &|| n > MOST),
        (3, &|| !boxed(s)),
        (4, &|| {
            s.lent.p < 3 * n as usize || short_of_starts(s) || s.lent.items < n as usize
        }),
        (5, &|| !coordinates(&s.p, n)),
    ])
}

/// The numbers near p are listed. That the list holds as many as are visited is "tested after 7":
/// `visited` is asked for last.
pub fn near(s: &Sheet, n: u32, p: Vec3, reach: u32, visited: &dyn Fn() -> usize) -> Option<u32> {
    first(&[
        (2, &|| n > MOST),
        (3, &|| !boxed(s) || reach > 511),
        (4, &|| short_of_starts(s) || s.lent.items < n as usize),
        (5, &|| !point(p)),
        (7, &|| misfit(s, n)),
        (4, &|| s.lent.list < visited()),
    ])
}

/// A reading at one point.
pub fn gather(s: &Sheet, n: u32, at: Vec3, normal: Vec3, radius: f32) -> Option<u32> {
    first(&[
        (2, &|| n > MOST),
        (3, &|| !boxed(s) || !size(radius)),
        (4, &|| short_of_surfels(s, n)),
        (5, &|| !surfels(s, n) || !point(at) || !point(normal)),
        (7, &|| misfit(s, n)),
    ])
}

/// Readings at many probes, which count as points in refusal 2.
pub fn gather_all(s: &Sheet, n: u32, probes: u32, radius: f32) -> Option<u32> {
    let many = probes as usize;
    first(&[
        (2, &|| n > MOST || probes > MOST),
        (3, &|| !boxed(s) || !size(radius)),
        (4, &|| {
            short_of_surfels(s, n)
                || s.lent.probe_p < 3 * many
                || s.lent.probe_normals < 3 * many
                || s.lent.seen < many
                || s.lent.light < 3 * many
        }),
        (5, &|| {
            !surfels(s, n)
                || !coordinates(&s.probe_p, probes)
                || !coordinates(&s.probe_normals, probes)
        }),
        (7, &|| misfit(s, n)),
    ])
}

/// 2: "surfels, members, points or target over 400,000".
const MOST: u32 = 400_000;

/// 3, by what passes: "lo above hi on an axis or beyond 10,000 in size; cell outside
/// 0.0001..10,000", "a NaN in any of these".
fn boxed(s: &Sheet) -> bool {
    let axes = [(s.lo.x, s.hi.x), (s.lo.y, s.hi.y), (s.lo.z, s.hi.z)];
    axes.iter()
        .all(|&(lo, hi)| coordinate(lo) && coordinate(hi) && lo <= hi)
        && (0.0001..=10_000.0).contains(&s.cell)
}

/// 3, by what passes: "radius outside 0..10,000".
fn size(radius: f32) -> bool {
    (0.0..=10_000.0).contains(&radius)
}

/// The three dimensions: "ceil(extent × (1/cell)) clamped to 1..512". For a box that passes 3.
pub fn dims(s: &Sheet) -> [usize; 3] {
    let axes = [(s.lo.x, s.hi.x), (s.lo.y, s.hi.y), (s.lo.z, s.hi.z)];
    axes.map(|(lo, hi)| ((hi - lo) * (1.0 / s.cell)).ceil().clamp(1.0, 512.0) as usize)
}

pub fn cells(s: &Sheet) -> usize {
    dims(s).iter().product()
}

/// 4: starts are "one more than rows or cells".
fn short_of_starts(s: &Sheet) -> bool {
    s.lent.starts < cells(s) + 1
}

/// 4: the tables of a reading. Vectors are three floats each.
fn short_of_surfels(s: &Sheet, n: u32) -> bool {
    let n = n as usize;
    short_of_starts(s)
        || s.lent.items < n
        || s.lent.p < 3 * n
        || s.lent.normals < 3 * n
        || s.lent.irr < 3 * n
}

/// 5, by what passes: "coordinates, normals and plane heights ±10,000". `irr` "may be any float".
fn surfels(s: &Sheet, n: u32) -> bool {
    coordinates(&s.p, n) && coordinates(&s.normals, n)
}

fn coordinates(table: &[f32], n: u32) -> bool {
    table[..3 * n as usize].iter().all(|&x| coordinate(x))
}

fn point(p: Vec3) -> bool {
    coordinate(p.x) && coordinate(p.y) && coordinate(p.z)
}

/// 7: "grid starts not from 0, falling, or not ending at the point count; a grid item ≥ that count".
fn misfit(s: &Sheet, n: u32) -> bool {
    let starts = &s.starts[..cells(s) + 1];
    starts[0] != 0
        || starts.windows(2).any(|pair| pair[1] < pair[0])
        || starts[starts.len() - 1] != n
        || s.items[..n as usize].iter().any(|&item| item >= n)
}
