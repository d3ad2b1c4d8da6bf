//! The file and the columns that the lines of crates/replay_read store, and what each line answers.

use crate::answers::word;
use crate::cases::Case;
use crate::held_rooms::put;
use crate::room_files::{Emitter, Link, Patch, Probe, RoomFile};
use crate::room_refusals as refusals;
use interflect::Vec3;

/// How many bytes of a file the program keeps.
pub const BYTES: usize = 4_096;
/// How many columns a reading is lent, and how many places each has.
pub const COLUMNS: usize = 14;
pub const PLACES: usize = 64;

/// How many places of each column are lent.
pub type Lent = [usize; COLUMNS];

pub struct Held {
    pub bytes: Vec<u8>,
    pub lent: Lent,
    /// The words of each column; those of floats have one pattern for every NaN.
    columns: [[u32; PLACES]; COLUMNS],
}

impl Held {
    /// As the program starts: every byte and every place is zero, and all places are lent.
    pub fn new() -> Held {
        Held {
            bytes: vec![0; BYTES],
            lent: [PLACES; COLUMNS],
            columns: [[0; PLACES]; COLUMNS],
        }
    }

    /// What the line answers: nothing where it stores.
    pub fn answer(&mut self, case: &Case) -> Option<Vec<u32>> {
        let w = &case.operands;
        match case.name {
            "clear" => self.bytes.fill(0),
            "put" => put(&mut self.bytes, w[0] as usize, &w[1..]),
            "mark" => self.mark(w[0]),
            "lend" => self.lent = std::array::from_fn(|k| PLACES.min(w[k] as usize)),
            "read" => return Some(self.read(BYTES.min(w[0] as usize))),
            "show" => return Some(self.shown(w[0] as usize, w[1] as usize)),
            name => panic!("no line `{name}`"),
        }
        None
    }

    /// One word in every place.
    fn mark(&mut self, w: u32) {
        for (k, column) in self.columns.iter_mut().enumerate() {
            let is_float = !(6..11).contains(&k);
            column.fill(if is_float { word(f32::from_bits(w)) } else { w });
        }
    }

    /// The number that refuses the first so many bytes, which leaves the columns as they were; or 0
    /// and the head of their room, whose entries then stand at the front of each column.
    fn read(&mut self, length: usize) -> Vec<u32> {
        let bytes = &self.bytes[..length];
        match refusals::read_into(bytes, &self.lent) {
            Err(number) => vec![number],
            Ok(room) => {
                assert_eq!(room.bytes(), bytes);
                self.store(&room);
                head(&room)
            }
        }
    }

    fn store(&mut self, room: &RoomFile) {
        let needs = refusals::needs(room);
        for (k, words) in entries(room).iter().enumerate() {
            assert_eq!(words.len(), needs[k]);
            self.columns[k][..words.len()].copy_from_slice(words);
        }
    }

    /// Up to 16 words of a column from place `at` on.
    fn shown(&self, column: usize, at: usize) -> Vec<u32> {
        let column = &self.columns[column];
        column.iter().copied().skip(at).take(16).collect()
    }
}

/// 0, "counts of surfels, clusters, members, links, probes; bounce limit", and "lo, hi, cell, radius".
fn head(room: &RoomFile) -> Vec<u32> {
    let counts = [
        room.surfels.len(),
        room.clusters.len(),
        room.members.len(),
        room.links.len(),
        room.probes.len(),
    ];
    let mut words = vec![0];
    words.extend(counts.map(|count| count as u32));
    words.push(room.limit);
    words.extend([vector(room.lo), vector(room.hi)].concat());
    words.extend([room.cell, room.radius].map(word));
    words
}

/// What the entries of a room are in each column.
fn entries(room: &RoomFile) -> [Vec<u32>; COLUMNS] {
    let surfels = |f: fn(&Patch) -> Vec3| flat(room.surfels.iter().map(f));
    let clusters = |f: fn(&Emitter) -> u32| room.clusters.iter().map(f).collect();
    let links = |f: fn(&Link) -> u32| room.links.iter().map(f).collect();
    let probes = |f: fn(&Probe) -> Vec3| flat(room.probes.iter().map(f));
    [
        surfels(|s| s.p),
        surfels(|s| s.n),
        surfels(|s| s.albedo),
        room.surfels.iter().map(|s| word(s.area)).collect(),
        surfels(|s| s.direct),
        clusters(|c| word(c.area)),
        clusters(|c| c.first),
        clusters(|c| c.count),
        room.members.clone(),
        room.starts.clone(),
        links(|l| l.cluster),
        links(|l| word(l.weight)),
        probes(|p| p.p),
        probes(|p| p.n),
    ]
}

/// Vectors one after the other, three words each.
fn flat(vectors: impl Iterator<Item = Vec3>) -> Vec<u32> {
    vectors.flat_map(vector).collect()
}

fn vector(v: Vec3) -> [u32; 3] {
    [v.x, v.y, v.z].map(word)
}
