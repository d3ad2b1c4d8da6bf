//! What the Rust answers to a solve and a reset of a room, or the number that document 01 refuses
//! the call with; and what the call leaves in the lent tables.

use crate::answers::word;
use crate::cases::Case;
use crate::rooms::Room;
use crate::solve_refusals as refusals;
use interflect::formfactor::{Cluster, Transfer};
use interflect::solve;
use interflect::surfel::Surfel;
use interflect::Vec3;

/// What a solve is told: how many surfels, clusters, members and links there are, and the limit of
/// its bounces.
#[derive(Clone, Copy)]
pub struct Told {
    pub n: u32,
    pub nc: u32,
    pub members: u32,
    pub links: u32,
    pub limit: u32,
}

impl Told {
    /// The four counts.
    pub fn sizes(self) -> [usize; 4] {
        [self.n, self.nc, self.members, self.links].map(|count| count as usize)
    }

    /// The operands of the line `solve`.
    pub fn words(self) -> Vec<u32> {
        vec![self.n, self.nc, self.members, self.links, self.limit]
    }
}

/// Four records, lent as one list: three floats each of direct, of irr and of rad.
const RECORD_FLOATS: u32 = 12;

/// The result words: a refusal's number alone, else zero and the answer; of the four questions that
/// show a table its words, sixteen from a place on.
pub fn answer(r: &mut Room, case: &Case) -> Vec<u32> {
    let w = &case.operands;
    let answered = match case.name {
        "solve" => solved(
            r,
            Told {
                n: w[0],
                nc: w[1],
                members: w[2],
                links: w[3],
                limit: w[4],
            },
        ),
        "reset" => reset(r, [w[0], w[1], w[2], w[3]]),
        "records" => reset(r, [w[0], RECORD_FLOATS, RECORD_FLOATS, RECORD_FLOATS]),
        "irr" => return shown(&r.irr, w[0]),
        "rad" => return shown(&r.rad, w[0]),
        "scratch" => return shown(&r.scratch, w[0]),
        "direct" => return shown(&r.direct, w[0]),
        name => panic!("no question `{name}`"),
    };
    match answered {
        Ok(words) => [vec![0], words].concat(),
        Err(number) => vec![number],
    }
}

fn shown(table: &[f32], at: u32) -> Vec<u32> {
    let words = table.iter().copied().map(word);
    words.skip(at as usize).take(16).collect()
}

/// What is answered, or the number of the refusal.
type Answered = Result<Vec<u32>, u32>;

fn allowed(refusal: Option<u32>) -> Result<(), u32> {
    refusal.map_or(Ok(()), Err)
}

/// How many bounces, and the last change; irr, rad and the clusters' light are stored.
fn solved(r: &mut Room, told: Told) -> Answered {
    allowed(refusals::solve(r, told))?;
    let transfer = transfer(r, told);
    let before = surfels(r, told.n);
    let mut after = before.clone();
    let stats = solve::solve(&mut after, &transfer, told.limit);
    if stats.iterations > 0 {
        let light = last_light(&before, &transfer, stats.iterations);
        assert_shown(&light, before, transfer, told.limit);
        store(&mut r.scratch, light.into_iter());
    }
    store(&mut r.irr, after.iter().map(|s| s.irr));
    store(&mut r.rad, after.iter().map(|s| s.rad));
    Ok(vec![stats.iterations, word(stats.residual)])
}

/// The clusters' light in the last of these bounces, in the Rust's steps from the `rad` before it,
/// which a solve of one bounce fewer leaves.
fn last_light(before: &[Surfel], transfer: &Transfer, bounces: u32) -> Vec<Vec3> {
    let mut surfels = before.to_vec();
    let made = solve::solve(&mut surfels, transfer, bounces - 1).iterations;
    assert_eq!(made, bounces - 1);
    let of_cluster = |c: &Cluster| {
        let mut acc = Vec3::ZERO;
        for &m in &c.members {
            let s = &surfels[m as usize];
            acc += s.rad * s.area;
        }
        acc / c.area.max(1e-12)
    };
    transfer.clusters.iter().map(of_cluster).collect()
}

/// Asserts that the Rust's own `solve` has this light in its last bounce: a black surfel that belongs
/// to no cluster, with one link of weight 1, shows it as its irradiance (a zero as 0).
fn assert_shown(light: &[Vec3], mut surfels: Vec<Surfel>, mut transfer: Transfer, limit: u32) {
    let n = surfels.len();
    for c in 0..light.len() as u32 {
        surfels.push(black());
        transfer.idx.push(c);
        transfer.w.push(1.0);
        transfer.starts.push(transfer.idx.len() as u32);
    }
    solve::solve(&mut surfels, &transfer, limit);
    for (light, s) in light.iter().zip(&surfels[n..]) {
        assert_eq!(words(*light + Vec3::ZERO), words(s.irr));
    }
}

fn black() -> Surfel {
    Surfel {
        p: Vec3::ZERO,
        n: Vec3::ZERO,
        albedo: Vec3::ZERO,
        area: 0.0,
        direct: Vec3::ZERO,
        irr: Vec3::ZERO,
        rad: Vec3::ZERO,
    }
}

/// The Rust's matrix of the tables. For tables that are not refused.
pub fn transfer(r: &Room, told: Told) -> Transfer {
    let [n, nc, _, links] = told.sizes();
    let cluster = |c: usize| {
        let (first, count) = (r.first[c] as usize, r.count[c] as usize);
        Cluster {
            p: Vec3::ZERO,
            n: Vec3::ZERO,
            area: r.cluster_area[c],
            radius: 0.0,
            members: r.member[first..first + count].to_vec(),
        }
    };
    Transfer {
        clusters: (0..nc).map(cluster).collect(),
        mean_row_sum: 0.0,
        starts: r.starts[..n + 1].to_vec(),
        idx: r.link_cluster[..links].to_vec(),
        w: r.link_weight[..links].to_vec(),
        nc,
        links,
    }
}

/// The Rust's surfels of the tables. For tables that are not refused.
pub fn surfels(r: &Room, n: u32) -> Vec<Surfel> {
    let surfel = |i: usize| Surfel {
        albedo: vector(&r.albedo, i),
        area: r.area[i],
        direct: vector(&r.direct, i),
        irr: vector(&r.irr, i),
        rad: vector(&r.rad, i),
        ..black()
    };
    (0..n as usize).map(surfel).collect()
}

/// Nothing; direct, irr and rad are stored: the three stores of `solve::light_surfels`.
fn reset(r: &mut Room, lengths: [u32; 4]) -> Answered {
    let places = r.light.len();
    let lengths = lengths.map(|length| places.min(length as usize));
    allowed(refusals::reset(&r.light, lengths))?;
    let lent = lengths[0];
    r.direct[..lent].copy_from_slice(&r.light[..lent]);
    r.rad[..lent].copy_from_slice(&r.light[..lent]);
    r.irr[..lent].fill(0.0);
    Ok(Vec::new())
}

/// Stores vectors from place 0 on.
fn store(table: &mut [f32], vectors: impl Iterator<Item = Vec3>) {
    for (place, v) in table.chunks_exact_mut(3).zip(vectors) {
        place.copy_from_slice(&[v.x, v.y, v.z]);
    }
}

fn words(v: Vec3) -> [u32; 3] {
    [v.x, v.y, v.z].map(word)
}

fn vector(table: &[f32], i: usize) -> Vec3 {
    Vec3::new(table[3 * i], table[3 * i + 1], table[3 * i + 2])
}
