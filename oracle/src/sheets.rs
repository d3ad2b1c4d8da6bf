//! A grid as the port is lent it, with its surfels, probes and result slices: what the lines of
//! crates/replay_surfel store. crates/stored_grid has as many places as there are here.

use crate::cases::Case;
use interflect::Vec3;

pub const SURFELS: usize = 32;
pub const STARTS: usize = 520;
pub const LIST: usize = 64;
pub const PROBES: usize = 8;

/// How many places of each table are lent, in the order of the line `lent`. More than there are
/// means all.
#[derive(Clone, Copy, PartialEq, Eq)]
pub struct Lent {
    pub p: usize,
    pub normals: usize,
    pub irr: usize,
    pub starts: usize,
    pub items: usize,
    pub list: usize,
    pub probe_p: usize,
    pub probe_normals: usize,
    pub seen: usize,
    pub light: usize,
}

impl Lent {
    /// All places.
    pub const ALL: Lent = Lent {
        p: 3 * SURFELS,
        normals: 3 * SURFELS,
        irr: 3 * SURFELS,
        starts: STARTS,
        items: SURFELS,
        list: LIST,
        probe_p: 3 * PROBES,
        probe_normals: 3 * PROBES,
        seen: PROBES,
        light: 3 * PROBES,
    };

    pub fn words(self) -> Vec<u32> {
        let lengths = [
            self.p,
            self.normals,
            self.irr,
            self.starts,
            self.items,
            self.list,
            self.probe_p,
            self.probe_normals,
            self.seen,
            self.light,
        ];
        lengths.map(|length| length as u32).to_vec()
    }
}

/// What is stored. Vectors are flat, three floats each.
pub struct Sheet {
    pub lo: Vec3,
    pub hi: Vec3,
    pub cell: f32,
    pub p: [f32; 3 * SURFELS],
    pub normals: [f32; 3 * SURFELS],
    pub irr: [f32; 3 * SURFELS],
    pub starts: [u32; STARTS],
    pub items: [u32; SURFELS],
    pub list: [u32; LIST],
    pub probe_p: [f32; 3 * PROBES],
    pub probe_normals: [f32; 3 * PROBES],
    pub seen: [u32; PROBES],
    pub light: [f32; 3 * PROBES],
    pub lent: Lent,
}

impl Sheet {
    /// As the program starts: every word is zero, and nothing is lent.
    pub fn new() -> Sheet {
        let mut sheet = Sheet {
            lo: Vec3::ZERO,
            hi: Vec3::ZERO,
            cell: 0.0,
            p: [0.0; 3 * SURFELS],
            normals: [0.0; 3 * SURFELS],
            irr: [0.0; 3 * SURFELS],
            starts: [0; STARTS],
            items: [0; SURFELS],
            list: [0; LIST],
            probe_p: [0.0; 3 * PROBES],
            probe_normals: [0.0; 3 * PROBES],
            seen: [0; PROBES],
            light: [0.0; 3 * PROBES],
            lent: Lent::ALL,
        };
        sheet.lend(&[0; 10]);
        sheet
    }

    /// Stores what the case stores, nothing where it names a place that is not there. Whether it is
    /// a case that stores: else it is a question.
    pub fn store(&mut self, case: &Case) -> bool {
        let words = &case.operands;
        let x: Vec<f32> = words.iter().copied().map(f32::from_bits).collect();
        match case.name {
            "box" => {
                self.lo = Vec3::new(x[0], x[1], x[2]);
                self.hi = Vec3::new(x[3], x[4], x[5]);
                self.cell = x[6];
            }
            "surfel" => {
                put(&mut self.p, words[0], &x[1..4]);
                put(&mut self.normals, words[0], &x[4..7]);
                put(&mut self.irr, words[0], &x[7..10]);
            }
            "probe" => {
                put(&mut self.probe_p, words[0], &x[1..4]);
                put(&mut self.probe_normals, words[0], &x[4..7]);
            }
            "lent" => self.lend(words),
            "fill" => {
                self.starts.fill(words[0]);
                self.items.fill(words[0]);
                self.list.fill(words[0]);
                self.seen.fill(words[0]);
                self.light.fill(x[0]);
            }
            "put_starts" => put_from(&mut self.starts, words[0], &words[1..]),
            "put_items" => put_from(&mut self.items, words[0], &words[1..]),
            _ => return false,
        }
        true
    }

    fn lend(&mut self, words: &[u32]) {
        let length = |k: usize, places: usize| places.min(words[k] as usize);
        self.lent = Lent {
            p: length(0, self.p.len()),
            normals: length(1, self.normals.len()),
            irr: length(2, self.irr.len()),
            starts: length(3, self.starts.len()),
            items: length(4, self.items.len()),
            list: length(5, self.list.len()),
            probe_p: length(6, self.probe_p.len()),
            probe_normals: length(7, self.probe_normals.len()),
            seen: length(8, self.seen.len()),
            light: length(9, self.light.len()),
        };
    }
}

/// Puts an entry of a table at its place, if the table has that place.
fn put(table: &mut [f32], at: u32, entry: &[f32]) {
    if let Some(place) = table.chunks_exact_mut(entry.len()).nth(at as usize) {
        place.copy_from_slice(entry);
    }
}

/// Puts words one after the other, from place `at` on, as far as there are places.
fn put_from(table: &mut [u32], at: u32, words: &[u32]) {
    for (place, &word) in table.iter_mut().skip(at as usize).zip(words) {
        *place = word;
    }
}
