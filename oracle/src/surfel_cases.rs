//! The cases of crates/replay_surfel: which grids, surfels and probes are stored, and what is asked
//! about each.

mod foreign;
mod limits;
mod lists;
mod misfits;
mod rooms;
mod tables;
mod weights;

use crate::answers::word;
use crate::cases::Case;
use crate::grid_refusals::cells;
use crate::random::Random;
use crate::readings;
use crate::sheets::{Lent, Sheet, LIST, PROBES, STARTS, SURFELS};
use interflect::Vec3;
use std::collections::{HashMap, HashSet};

const NAN: f32 = f32::NAN;
const INF: f32 = f32::INFINITY;
const LEAST: f32 = f32::from_bits(1);

/// All cases of crates/replay_surfel, in the order of its file stdin.
pub fn all() -> Vec<Case> {
    let mut script = Script::new();
    tables::write(&mut script);
    lists::write(&mut script);
    rooms::write(&mut script);
    weights::write(&mut script);
    foreign::write(&mut script);
    limits::write(&mut script);
    misfits::write(&mut script);
    script.show_all();
    script.list
}

fn at(x: f32, y: f32, z: f32) -> Vec3 {
    Vec3::new(x, y, z)
}

fn floats(v: Vec3) -> [f32; 3] {
    [v.x, v.y, v.z]
}

/// A box in the making, with the size of its cells.
#[derive(Clone, Copy)]
struct Bounds {
    lo: Vec3,
    hi: Vec3,
    cell: f32,
}

fn bounds(lo: Vec3, hi: Vec3, cell: f32) -> Bounds {
    Bounds { lo, hi, cell }
}

/// Room Q's grid: four cells in a row.
fn of_q() -> Bounds {
    bounds(Vec3::ZERO, at(4.0, 1.0, 1.0), 1.0)
}

/// A surfel as a reading weighs it.
#[derive(Clone, Copy)]
struct Patch {
    p: Vec3,
    n: Vec3,
    irr: Vec3,
}

fn patch(p: Vec3, n: Vec3, irr: Vec3) -> Patch {
    Patch { p, n, irr }
}

/// A point where only the place matters.
fn point(p: Vec3) -> Patch {
    patch(p, UP, Vec3::ONE)
}

/// The normal that most of the cases have.
const UP: Vec3 = Vec3::new(0.0, 0.0, 1.0);

/// The lines so far, the tables as they stand after them, and what was last stored at each place.
struct Script {
    list: Vec<Case>,
    sheet: Sheet,
    stored: HashMap<(&'static str, u32), Vec<u32>>,
    fills: u32,
    /// The entries and numbers whose refusal was followed by all that the buffers hold.
    shown: HashSet<(usize, u32)>,
}

impl Script {
    fn new() -> Script {
        let mut script = Script {
            list: Vec::new(),
            sheet: Sheet::new(),
            stored: HashMap::new(),
            fills: 0,
            shown: HashSet::new(),
        };
        script.lend(Lent::ALL);
        script
    }

    /// A line that stores, unless the same is stored at that place already. No question changes
    /// what is stored so.
    fn store(&mut self, name: &'static str, place: u32, operands: Vec<u32>) {
        let last = self.stored.insert((name, place), operands.clone());
        if last.as_ref() != Some(&operands) {
            self.put(name, operands);
        }
    }

    /// A line that stores.
    fn put(&mut self, name: &'static str, operands: Vec<u32>) {
        let case = Case { name, operands };
        assert!(self.sheet.store(&case));
        self.list.push(case);
    }

    fn bounds(&mut self, b: Bounds) {
        let words = [floats(b.lo), floats(b.hi)].concat();
        let words = words.into_iter().chain([b.cell]).map(word);
        self.store("box", 0, words.collect());
    }

    fn surfel(&mut self, k: u32, s: Patch) {
        let words = [s.p, s.n, s.irr].map(floats).concat();
        let words = words.into_iter().map(word);
        self.store("surfel", k, [k].into_iter().chain(words).collect());
    }

    /// Stores these surfels from place 0 on; how many there are.
    fn surfels(&mut self, list: &[Patch]) -> u32 {
        for (k, &s) in (0..).zip(list) {
            self.surfel(k, s);
        }
        list.len() as u32
    }

    fn probe(&mut self, k: u32, p: Vec3, n: Vec3) {
        let words = [p, n].map(floats).concat();
        let words = words.into_iter().map(word);
        self.store("probe", k, [k].into_iter().chain(words).collect());
    }

    fn lend(&mut self, lent: Lent) {
        self.store("lent", 0, lent.words());
    }

    /// Another word in every place that a call can write.
    fn fill(&mut self) {
        self.fills += 1;
        self.put("fill", vec![0x4F00_0000 + self.fills]);
    }

    /// Stores whole tables of a grid, fifteen words a line.
    fn tables(&mut self, starts: &[u32], items: &[u32]) {
        for (name, table) in [("put_starts", starts), ("put_items", items)] {
            for (at, words) in (0..).step_by(15).zip(table.chunks(15)) {
                self.put(name, [&[at], words].concat());
            }
        }
    }

    /// A question; what it answers.
    fn ask(&mut self, name: &'static str, operands: Vec<u32>) -> Vec<u32> {
        let case = Case { name, operands };
        let answer = readings::answer(&mut self.sheet, &case);
        self.list.push(case);
        answer
    }

    fn build(&mut self, n: u32) -> Vec<u32> {
        self.ask("grid_build", vec![n])
    }

    fn near(&mut self, n: u32, p: Vec3, reach: u32) -> Vec<u32> {
        let [x, y, z] = floats(p).map(word);
        self.ask("near", vec![n, x, y, z, reach])
    }

    fn gather(&mut self, n: u32, at: Vec3, normal: Vec3, radius: f32) -> Vec<u32> {
        let words = [floats(at), floats(normal)].concat();
        let words = words.into_iter().chain([radius]).map(word);
        self.ask("gather", [n].into_iter().chain(words).collect())
    }

    fn gather_all(&mut self, n: u32, probes: u32, radius: f32) -> Vec<u32> {
        self.ask("gather_all", vec![n, probes, word(radius)])
    }

    /// The first places of a table, so many, sixteen to a line.
    fn show(&mut self, name: &'static str, places: usize) {
        for from in (0..places).step_by(16) {
            self.ask(name, vec![from as u32]);
        }
    }

    /// The places of starts and items that a grid of n points needs, and some after them.
    fn show_grid(&mut self, n: u32) {
        self.show("starts", (cells(&self.sheet) + 2).min(STARTS));
        self.show("items", (n as usize + 1).min(SURFELS));
    }

    /// The readings of the last call, and all places after them.
    fn show_readings(&mut self) {
        self.show("seen", PROBES);
        self.show("light", 3 * PROBES);
    }

    /// All places of all tables that a call can write.
    fn show_all(&mut self) {
        self.show("starts", STARTS);
        self.show("items", SURFELS);
        self.show("list", LIST);
        self.show_readings();
    }

    /// A grid is built and shown.
    fn built(&mut self, n: u32) {
        self.build(n);
        self.show_grid(n);
    }

    /// Numbers are listed and shown.
    fn listed(&mut self, n: u32, p: Vec3, reach: u32) {
        let answer = self.near(n, p, reach);
        let count = answer.get(1).map_or(0, |&count| count as usize);
        self.show("list", (count + 1).min(LIST));
    }
}

/// A point of the box from lo to hi.
fn within(random: &mut Random, lo: Vec3, hi: Vec3) -> Vec3 {
    let between = |random: &mut Random, lo: f32, hi: f32| random.between(lo, hi);
    at(
        between(random, lo.x, hi.x),
        between(random, lo.y, hi.y),
        between(random, lo.z, hi.z),
    )
}
