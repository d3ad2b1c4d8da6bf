//! The cases of crates/replay_solve: which rooms are stored, and what is asked about each.

mod counts;
mod edges;
mod known;
mod misfits;
mod overruns;
mod ranges;
mod records;
mod resets;
mod rooms;
mod stops;

use crate::answers::word;
use crate::cases::{others, Case};
use crate::random::Random;
use crate::rooms::{Lent, Room, CLUSTERS, SURFELS};
use crate::solves::{self, Told};
use interflect::Vec3;
use std::collections::HashSet;

const NAN: f32 = f32::NAN;
const INF: f32 = f32::INFINITY;
const LEAST: f32 = f32::from_bits(1);

/// All cases of crates/replay_solve, in the order of its file stdin.
pub fn all() -> Vec<Case> {
    let mut script = Script::new();
    known::write(&mut script);
    edges::write(&mut script);
    stops::write(&mut script);
    overruns::write(&mut script);
    rooms::write(&mut script);
    resets::write(&mut script);
    counts::write(&mut script);
    ranges::write(&mut script);
    misfits::write(&mut script);
    records::write(&mut script);
    script.show_all();
    script.list
}

/// A surfel as a solve takes it.
#[derive(Clone, Copy)]
struct Patch {
    albedo: Vec3,
    area: f32,
    direct: Vec3,
}

fn patch(albedo: f32, area: f32, direct: f32) -> Patch {
    Patch {
        albedo: Vec3::splat(albedo),
        area,
        direct: Vec3::splat(direct),
    }
}

/// A room in the making: surfels, each cluster's area and members, each row's links.
#[derive(Clone, Default)]
struct Making {
    surfels: Vec<Patch>,
    clusters: Vec<(f32, Vec<u32>)>,
    rows: Vec<Vec<(u32, f32)>>,
}

impl Making {
    /// One surfel, its cluster, and one link of it to that cluster.
    fn single(s: Patch, area: f32, weight: f32) -> Making {
        Making {
            surfels: vec![s],
            clusters: vec![(area, vec![0])],
            rows: vec![vec![(0, weight)]],
        }
    }

    /// Room Q.
    fn q() -> Making {
        Making::single(patch(0.5, 1.0, 1.0), 1.0, 0.5)
    }

    /// What a solve of this room is told.
    fn told(&self, limit: u32) -> Told {
        Told {
            n: self.surfels.len() as u32,
            nc: self.clusters.len() as u32,
            members: self.members().len() as u32,
            links: self.links().len() as u32,
            limit,
        }
    }

    fn members(&self) -> Vec<u32> {
        let lists = self.clusters.iter().map(|cluster| &cluster.1);
        lists.flatten().copied().collect()
    }

    fn links(&self) -> Vec<(u32, f32)> {
        self.rows.concat()
    }

    /// The lengths that a solve of this room needs.
    fn need(&self) -> Lent {
        let [n, nc, members, links] = self.told(0).sizes();
        Lent {
            albedo: 3 * n,
            area: n,
            direct: 3 * n,
            cluster_area: nc,
            first: nc,
            count: nc,
            member: members,
            starts: n + 1,
            link_cluster: links,
            link_weight: links,
            irr: 3 * n,
            rad: 3 * n,
            scratch: 3 * nc,
        }
    }
}

fn flat(vectors: impl Iterator<Item = Vec3>) -> Vec<u32> {
    vectors.flat_map(|v| [v.x, v.y, v.z]).map(word).collect()
}

/// How many come before each, and how many there are: one number more than there are counts.
fn sums(counts: impl Iterator<Item = usize>) -> Vec<u32> {
    let mut list = vec![0];
    for count in counts {
        list.push(list[list.len() - 1] + count as u32);
    }
    list
}

/// The lines so far, and the tables as they stand after them.
struct Script {
    list: Vec<Case>,
    room: Room,
    fills: u32,
    /// The kinds and numbers of refusals that were followed by all that the tables hold.
    shown: HashSet<(&'static str, u32)>,
}

impl Script {
    fn new() -> Script {
        let mut script = Script {
            list: Vec::new(),
            room: Room::new(),
            fills: 0,
            shown: HashSet::new(),
        };
        script.lend(Lent::ALL);
        script
    }

    /// A line that stores.
    fn put(&mut self, name: &'static str, operands: Vec<u32>) {
        let case = Case { name, operands };
        assert!(self.room.store(&case));
        self.list.push(case);
    }

    /// Puts words into a table from place 0 on: lines for the places that hold other words.
    fn table(&mut self, name: &'static str, words: &[u32]) {
        for places in others(&self.room.words(name), words) {
            let first = places.start as u32;
            self.put(name, [&[first], &words[places]].concat());
        }
    }

    /// Puts one word at a place of a table.
    fn poke(&mut self, name: &'static str, at: usize, word: u32) {
        self.put(name, vec![at as u32, word]);
    }

    /// Stores a room, all but its light.
    fn room(&mut self, m: &Making) {
        self.table("put_albedo", &flat(m.surfels.iter().map(|s| s.albedo)));
        let areas: Vec<u32> = m.surfels.iter().map(|s| word(s.area)).collect();
        self.table("put_area", &areas);
        self.table("put_direct", &flat(m.surfels.iter().map(|s| s.direct)));
        let areas: Vec<u32> = m.clusters.iter().map(|c| word(c.0)).collect();
        self.table("put_cluster_area", &areas);
        let counts: Vec<u32> = m.clusters.iter().map(|c| c.1.len() as u32).collect();
        let firsts = sums(m.clusters.iter().map(|c| c.1.len()));
        self.table("put_first", &firsts[..counts.len()]);
        self.table("put_count", &counts);
        self.table("put_member", &m.members());
        self.table("put_starts", &sums(m.rows.iter().map(Vec::len)));
        let clusters: Vec<u32> = m.links().iter().map(|link| link.0).collect();
        self.table("put_link_cluster", &clusters);
        let weights: Vec<u32> = m.links().iter().map(|link| word(link.1)).collect();
        self.table("put_link_weight", &weights);
    }

    /// Stores the surfels' light.
    fn light(&mut self, irr: &[Vec3], rad: &[Vec3]) {
        self.table("put_irr", &flat(irr.iter().copied()));
        self.table("put_rad", &flat(rad.iter().copied()));
    }

    /// Stores a room, and by a reset its light before the first bounce.
    fn fresh(&mut self, m: &Making) {
        self.room(m);
        let light = flat(m.surfels.iter().map(|s| s.direct));
        self.table("put_light", &light);
        assert_eq!(self.reset([light.len(); 4]), [0]);
    }

    fn lend(&mut self, lent: Lent) {
        if self.room.lent != lent {
            self.put("lent", lent.words());
        }
    }

    /// Another word in every place that a solve can write.
    fn fill(&mut self) {
        self.fills += 1;
        self.put("fill", vec![0x4F00_0000 + self.fills]);
    }

    /// A question; what it answers.
    fn ask(&mut self, name: &'static str, operands: Vec<u32>) -> Vec<u32> {
        let case = Case { name, operands };
        let answer = solves::answer(&mut self.room, &case);
        self.list.push(case);
        answer
    }

    /// A solve; what it answers.
    fn solve(&mut self, told: Told) -> Vec<u32> {
        self.ask("solve", told.words())
    }

    /// A reset of lists of these lengths: the light, direct, irr and rad.
    fn reset(&mut self, lengths: [usize; 4]) -> Vec<u32> {
        self.ask("reset", lengths.map(|length| length as u32).to_vec())
    }

    /// A reset of four records to so many floats of the light.
    fn records(&mut self, length: usize) -> Vec<u32> {
        self.ask("records", vec![length as u32])
    }

    /// The first places of a table, so many, sixteen to a line.
    fn show(&mut self, name: &'static str, places: usize) {
        for from in (0..places).step_by(16) {
            self.ask(name, vec![from as u32]);
        }
    }

    /// The places that a solve of so many surfels and clusters can write, and some after them.
    fn show_light(&mut self, told: Told) {
        let [n, nc, ..] = told.sizes();
        self.show("irr", (3 * n + 1).min(3 * SURFELS));
        self.show("rad", (3 * n + 1).min(3 * SURFELS));
        self.show("scratch", (3 * nc + 1).min(3 * CLUSTERS));
    }

    /// The first places of the tables that a call can write.
    fn show_first(&mut self, names: [&'static str; 3]) {
        for name in names {
            self.show(name, 16);
        }
    }

    /// All places of all tables that a call can write.
    fn show_all(&mut self) {
        self.show("direct", 3 * SURFELS);
        self.show("irr", 3 * SURFELS);
        self.show("rad", 3 * SURFELS);
        self.show("scratch", 3 * CLUSTERS);
    }

    /// A solve and what it leaves; what it answers.
    fn solved(&mut self, told: Told) -> Vec<u32> {
        let answer = self.solve(told);
        self.show_light(told);
        answer
    }

    /// A solve, after a fill, and what it leaves: all that the tables hold where one of this kind is
    /// refused with a number for the first time.
    fn tried(&mut self, kind: &'static str, told: Told) -> Vec<u32> {
        self.fill();
        let answer = self.solve(told);
        if answer[0] != 0 && self.shown.insert((kind, answer[0])) {
            self.show_all();
        } else {
            self.show_first(["irr", "rad", "scratch"]);
        }
        answer
    }
}
