//! What the Rust answers to calls for clusters and rows, or the number that document 01 refuses a call
//! with; and what the call leaves in the lent tables.

use crate::answers::word;
use crate::cases::Case;
use crate::stores::{Scratch, Store};
use crate::transfer_refusals as refusals;
use interflect::formfactor::{build, build_clusters, open::normal_bucket, Cluster, Transfer};
use interflect::scene::Scene;
use interflect::surfel::Surfel;
use interflect::Vec3;

/// What a call for clusters is told: how many surfels there are, the resolution and the bounds.
#[derive(Clone, Copy)]
pub struct ClustersTold {
    pub n: u32,
    pub res: u32,
    pub lo: Vec3,
    pub hi: Vec3,
}

impl ClustersTold {
    /// The operands of the line `clusters`.
    pub fn words(self) -> Vec<u32> {
        [vec![self.n, self.res], words(self.lo), words(self.hi)].concat()
    }
}

/// What a call for rows is told: how many surfels and clusters there are, and the bounds.
#[derive(Clone, Copy)]
pub struct RowsTold {
    pub n: u32,
    pub nc: u32,
    pub lo: Vec3,
    pub hi: Vec3,
}

impl RowsTold {
    /// The operands of the line `rows`.
    pub fn words(self) -> Vec<u32> {
        [vec![self.n, self.nc], words(self.lo), words(self.hi)].concat()
    }
}

/// The lines that a case has in stdout: none where it stores, one for an answer, and one for each
/// sixteen words of the tables that a question shows.
pub fn lines(s: &mut Store, case: &Case) -> Vec<Vec<u32>> {
    if s.store(case) {
        return Vec::new();
    }
    match case.name {
        "show_clusters" => shown_clusters(s, case.operands[0] as usize),
        "show_rows" => shown_rows(s, case.operands[0] as usize),
        _ => vec![answer(s, case)],
    }
}

/// The result words: a refusal's number alone, 8 with its row, else zero and the answer. A bucket is
/// never refused.
pub fn answer(s: &mut Store, case: &Case) -> Vec<u32> {
    let w = &case.operands;
    let v = |i: usize| Vec3::new(x(w[i]), x(w[i + 1]), x(w[i + 2]));
    let answered = match case.name {
        "bucket" => return vec![normal_bucket(v(0)) as u32],
        "clusters" => clustered(
            s,
            ClustersTold {
                n: w[0],
                res: w[1],
                lo: v(2),
                hi: v(5),
            },
        ),
        "rows" => linked(
            s,
            RowsTold {
                n: w[0],
                nc: w[1],
                lo: v(2),
                hi: v(5),
            },
        ),
        name => panic!("no question `{name}`"),
    };
    match answered {
        Ok(words) => [vec![0], words].concat(),
        Err(words) => words,
    }
}

/// What is answered, or the words of the refusal.
type Answered = Result<Vec<u32>, Vec<u32>>;

fn allowed(refusal: Option<u32>) -> Result<(), Vec<u32>> {
    refusal.map_or(Ok(()), |number| Err(vec![number]))
}

/// How many clusters, and how many members they have in all; both are stored.
fn clustered(s: &mut Store, told: ClustersTold) -> Answered {
    allowed(refusals::clusters(s, told))?;
    let n = told.n as usize;
    let scene = bounded(s, told.lo, told.hi);
    let clusters = build_clusters(&scene, &surfels(s, n), told.res as i32);
    let mut members = 0;
    for (k, c) in clusters.iter().enumerate() {
        s.cluster_p[3 * k..3 * k + 3].copy_from_slice(&floats(c.p));
        s.cluster_n[3 * k..3 * k + 3].copy_from_slice(&floats(c.n));
        (s.cluster_area[k], s.radius[k]) = (c.area, c.radius);
        (s.first[k], s.count[k]) = (members as u32, c.members.len() as u32);
        s.member[members..members + c.members.len()].copy_from_slice(&c.members);
        members += c.members.len();
    }
    s.order[..n].fill(None);
    s.spare[..n].fill(None);
    Ok(vec![clusters.len() as u32, members as u32])
}

/// How many links, the mean row sum and the evaluations; starts and links are stored. Refusal 8: "r is
/// the first row whose links, after those of the rows before it, don't fit the shorter link slice,
/// of which at most 16,777,216 places are used"; "rows before r and starts 0..r written".
fn linked(s: &mut Store, told: RowsTold) -> Answered {
    allowed(refusals::rows(s, told))?;
    let (n, nc) = (told.n as usize, told.nc as usize);
    let scene = bounded(s, told.lo, told.hi);
    let (transfer, evals) = build(&scene, &surfels(s, n), clusters(s, nc));
    assert_sound(&transfer, evals, n, nc);
    let shorter = s.rows_lent.link_cluster.min(s.rows_lent.link_weight);
    let places = shorter.min(16_777_216) as u32;
    let full = (0..n).find(|&r| transfer.starts[r + 1] > places);
    let made = full.unwrap_or(n);
    let links = transfer.starts[made] as usize;
    s.starts[..=made].copy_from_slice(&transfer.starts[..=made]);
    s.link_cluster[..links].copy_from_slice(&transfer.idx[..links]);
    s.link_weight[..links].copy_from_slice(&transfer.w[..links]);
    s.link[..nc].fill(None);
    s.weight[..nc].fill(None);
    match full {
        Some(row) => Err(vec![8, row as u32]),
        None => Ok(vec![
            links as u32,
            word(transfer.mean_row_sum),
            u32::try_from(evals).expect("few evaluations"),
        ]),
    }
}

/// "Links in a row strictly ascend"; the evaluation count "is at most n × (96 × nc + 2,112)".
fn assert_sound(transfer: &Transfer, evals: u64, n: usize, nc: usize) {
    assert_eq!(transfer.starts.len(), n + 1);
    for pair in transfer.starts.windows(2) {
        let row = &transfer.idx[pair[0] as usize..pair[1] as usize];
        assert!(row.windows(2).all(|link| link[0] < link[1]));
    }
    assert!(evals <= (n * (96 * nc + 2_112)) as u64);
}

/// The Rust's scene of the tables, with these bounds. A call for clusters looks at the bounds alone.
fn bounded(s: &Store, lo: Vec3, hi: Vec3) -> Scene {
    let mut scene = match crate::refusals::number(&s.scene, &[]) {
        None => s.scene.scene(),
        Some(_) => crate::tables::Tables::new().scene(),
    };
    scene.bounds = (lo, hi);
    scene
}

fn surfels(s: &Store, n: usize) -> Vec<Surfel> {
    let surfel = |i: usize| Surfel {
        p: vector(&s.p, i),
        n: vector(&s.normals, i),
        albedo: Vec3::ZERO,
        area: s.area[i],
        direct: Vec3::ZERO,
        irr: Vec3::ZERO,
        rad: Vec3::ZERO,
    };
    (0..n).map(surfel).collect()
}

fn clusters(s: &Store, nc: usize) -> Vec<Cluster> {
    let cluster = |c: usize| Cluster {
        p: vector(&s.cluster_p, c),
        n: vector(&s.cluster_n, c),
        area: s.cluster_area[c],
        radius: s.radius[c],
        members: Vec::new(),
    };
    (0..nc).map(cluster).collect()
}

/// What a call for clusters was lent to write: the results, then its scratch from a place on.
fn shown_clusters(s: &Store, at: usize) -> Vec<Vec<u32>> {
    let lent = s.clusters_lent;
    [
        floats_to(&s.cluster_p, lent.cluster_p),
        floats_to(&s.cluster_n, lent.cluster_n),
        floats_to(&s.cluster_area, lent.cluster_area),
        floats_to(&s.radius, lent.radius),
        sixteens(&s.first, 0, lent.first),
        sixteens(&s.count, 0, lent.count),
        sixteens(&s.member, 0, lent.member),
        scratch(&s.order, at, lent.order),
        scratch(&s.spare, at, lent.spare),
    ]
    .concat()
}

/// The same of a call for rows.
fn shown_rows(s: &Store, at: usize) -> Vec<Vec<u32>> {
    let lent = s.rows_lent;
    [
        sixteens(&s.starts, 0, lent.starts),
        sixteens(&s.link_cluster, 0, lent.link_cluster),
        floats_to(&s.link_weight, lent.link_weight),
        scratch(&s.link, at, lent.link),
        scratch(&s.weight, at, lent.weight),
    ]
    .concat()
}

/// Lines of sixteen words from place `at` on, the last of them the one with the last place before
/// `end`.
fn sixteens(table: &[u32], at: usize, end: usize) -> Vec<Vec<u32>> {
    let line = |from: usize| table[from..].iter().copied().take(16).collect();
    (at..end).step_by(16).map(line).collect()
}

pub fn floats_to(table: &[f32], end: usize) -> Vec<Vec<u32>> {
    let words: Vec<u32> = table.iter().copied().map(word).collect();
    sixteens(&words, 0, end)
}

/// Scratch is shown only where it is known.
pub fn scratch(table: &[Scratch], at: usize, end: usize) -> Vec<Vec<u32>> {
    let words: Vec<u32> = table.iter().map(|w| w.unwrap_or(UNKNOWN)).collect();
    let lines = sixteens(&words, at, end);
    assert!(!lines.concat().contains(&UNKNOWN), "scratch from {at}");
    lines
}

/// No fill has this word.
const UNKNOWN: u32 = 0xFFFF_FFFF;

fn words(v: Vec3) -> Vec<u32> {
    floats(v).map(word).to_vec()
}

pub fn floats(v: Vec3) -> [f32; 3] {
    [v.x, v.y, v.z]
}

fn x(word: u32) -> f32 {
    f32::from_bits(word)
}

fn vector(table: &[f32], i: usize) -> Vec3 {
    Vec3::new(table[3 * i], table[3 * i + 1], table[3 * i + 2])
}
