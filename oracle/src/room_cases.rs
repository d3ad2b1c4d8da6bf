//! The cases of crates/replay_room: which room files are put together, and what is asked of each.

mod bounces;
mod bounds;
mod cells;
mod flips;
mod headers;
mod kinds;
mod known;
mod misfits;
mod ranges;
mod rooms;
mod several;
mod sizes;

use crate::cases::Case;
use crate::held_rooms::{self, Held};
use crate::random::Random;
use crate::room_files::{Patch, Probe, RoomFile};
use crate::sample_rooms;
use interflect::Vec3;

pub const NAN: f32 = f32::NAN;
pub const INF: f32 = f32::INFINITY;
pub const LEAST: f32 = f32::from_bits(1);
pub const UP: Vec3 = Vec3::new(0.0, 0.0, 1.0);

/// All cases of crates/replay_room, in the order of its file stdin.
pub fn all() -> Vec<Case> {
    let mut script = Script::new();
    known::write(&mut script);
    kinds::write(&mut script);
    bounces::write(&mut script);
    cells::write(&mut script);
    rooms::write(&mut script);
    headers::write(&mut script);
    bounds::write(&mut script);
    ranges::write(&mut script);
    misfits::write(&mut script);
    several::write(&mut script);
    flips::write(&mut script);
    sizes::write(&mut script);
    for (_, room) in sample_rooms::all() {
        script.asked(&room.words(), room.bytes().len());
    }
    script.list
}

/// The words of the header that say where each block begins.
pub const SURFELS: usize = 7;
pub const CLUSTERS: usize = 8;
pub const MEMBERS: usize = 9;
pub const STARTS: usize = 10;
pub const LINKS: usize = 11;
pub const PROBES: usize = 12;

/// Where word k of a block stands among a file's words.
pub fn place(words: &[u32], block: usize, k: usize) -> usize {
    words[block] as usize / 4 + k
}

/// These words with other ones at some places.
pub fn edited(words: &[u32], edits: &[(usize, u32)]) -> Vec<u32> {
    let mut words = words.to_vec();
    for &(place, word) in edits {
        words[place] = word;
    }
    words
}

pub fn patch(p: Vec3, albedo: f32, area: f32, direct: f32) -> Patch {
    Patch {
        p,
        n: UP,
        albedo: Vec3::splat(albedo),
        area,
        direct: Vec3::splat(direct),
    }
}

pub fn probe(x: f32, y: f32, z: f32) -> Probe {
    Probe {
        p: Vec3::new(x, y, z),
        n: UP,
    }
}

/// Three surfels, three clusters, rows of 2, 0 and 3 links and two probes, each of whose numbers can
/// be changed both ways.
fn several_of_each() -> RoomFile {
    let mut room = RoomFile::q();
    let spots = [(0.5, 0.5), (1.5, 0.25), (2.5, 0.75)];
    let surfel = |(x, y)| patch(Vec3::new(x, y, 0.5), 0.5, 0.75, x);
    room.surfels = spots.map(surfel).to_vec();
    room.set_clusters(&[(0.75, vec![2]), (1.5, vec![0, 1]), (0.5, vec![1])]);
    room.set_rows(&[
        vec![(0, 0.25), (2, 0.5)],
        Vec::new(),
        vec![(0, 0.125), (1, 0.25), (2, 0.25)],
    ]);
    room.probes = vec![probe(0.5, 0.5, 0.5), probe(2.25, 0.5, 0.25)];
    room
}

/// The lines so far, and the file as it stands after them.
struct Script {
    list: Vec<Case>,
    held: Held,
}

impl Script {
    fn new() -> Script {
        Script {
            list: Vec::new(),
            held: Held::new(),
        }
    }

    /// A line; what it prints.
    fn line(&mut self, name: &'static str, operands: Vec<u32>) -> String {
        let case = Case { name, operands };
        let printed = self.held.printed(&case);
        self.list.push(case);
        printed
    }

    /// Makes the file begin with these words.
    fn file(&mut self, words: &[u32]) {
        for case in held_rooms::lines(&self.held.bytes, words) {
            self.line(case.name, case.operands);
        }
    }

    /// The report of so many bytes of a file that begins with these words.
    fn asked(&mut self, words: &[u32], length: usize) -> String {
        self.file(words);
        self.line("room", vec![length as u32])
    }

    /// The same of all the bytes of these words, which are refused with this number: 0 where they are
    /// not.
    fn tried(&mut self, words: &[u32], number: u32) {
        self.cut(words, 4 * words.len(), number);
    }

    /// The same of so many bytes.
    fn cut(&mut self, words: &[u32], length: usize, number: u32) {
        let printed = self.asked(words, length);
        match number {
            0 => assert!(printed.starts_with("surfels "), "{printed}"),
            _ => assert_eq!(printed, format!("refused {number}\n")),
        }
    }

    /// The report of a room that is not refused.
    fn printed(&mut self, room: &RoomFile) -> String {
        let printed = self.asked(&room.words(), room.bytes().len());
        assert!(printed.starts_with("surfels "), "{printed}");
        printed
    }

    /// What a report into so much space answers.
    fn short(&mut self, words: &[u32], length: usize, space: u32) -> String {
        self.file(words);
        self.line("short", vec![length as u32, space])
    }
}
