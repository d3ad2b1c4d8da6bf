//! The cases of crates/replay_read: which room files are read, into how much of each column.

mod floats;
mod headers;
mod kinds;
mod lengths;
mod misfits;
mod ranges;
mod several;

use crate::cases::Case;
use crate::held_columns::{Held, Lent, COLUMNS, PLACES};
use crate::held_rooms;
use crate::random::Random;
use crate::room_cases::{edited, patch, place, probe};
use crate::room_cases::{CLUSTERS, LEAST, LINKS, MEMBERS, NAN, PROBES, STARTS, SURFELS};
use crate::room_files::{Patch, Probe, RoomFile};
use crate::room_refusals::needs;
use interflect::Vec3;

/// All places of each column.
const ALL: Lent = [PLACES; COLUMNS];

/// All cases of crates/replay_read, in the order of its file stdin.
pub fn all() -> Vec<Case> {
    let mut script = Script::new();
    kinds::write(&mut script);
    floats::write(&mut script);
    lengths::write(&mut script);
    headers::write(&mut script);
    ranges::write(&mut script);
    misfits::write(&mut script);
    several::write(&mut script);
    script.list
}

/// Four surfels, two clusters of three and four members, rows of 2, 0, 2 and 2 links and three probes:
/// each block has another number of entries, and each float is another.
fn uneven() -> RoomFile {
    let mut k = 0.0;
    let mut x = || {
        k += 1.0;
        k / 128.0
    };
    let mut v = || Vec3::new(x(), x(), x());
    let mut room = RoomFile::empty(v(), v() + Vec3::ONE, 0.75, 0.5);
    room.limit = 17;
    let surfel = |_| Patch {
        p: v(),
        n: v(),
        albedo: v(),
        area: v().x,
        direct: v(),
    };
    room.surfels = (0..4).map(surfel).collect();
    room.probes = (0..3).map(|_| Probe { p: v(), n: v() }).collect();
    let w = v() + v() * 0.125;
    room.set_clusters(&[(w.x, vec![3, 0, 1]), (w.y, vec![2, 2, 0, 1])]);
    let row = |k: f32| vec![(0, w.z * k), (1, w.x * k)];
    room.set_rows(&[row(0.5), Vec::new(), row(0.25), row(0.125)]);
    room
}

/// The lines so far, and what stands in the file and the columns after them.
struct Script {
    list: Vec<Case>,
    held: Held,
    mark: u32,
    /// Which numbers have refused a file.
    refused: [bool; 8],
}

impl Script {
    fn new() -> Script {
        Script {
            list: Vec::new(),
            held: Held::new(),
            mark: 0x3000_0000,
            refused: [false; 8],
        }
    }

    /// A line; what it answers.
    fn line(&mut self, name: &'static str, operands: Vec<u32>) -> Vec<u32> {
        let case = Case { name, operands };
        let answer = self.held.answer(&case);
        self.list.push(case);
        answer.unwrap_or_default()
    }

    /// Lends so many places of each column.
    fn lend(&mut self, lent: Lent) {
        if lent != self.held.lent {
            self.line("lend", lent.map(|k| k as u32).to_vec());
        }
    }

    /// Reads a room that is accepted into columns of which exactly the need is lent.
    fn taken(&mut self, room: &RoomFile) -> Vec<u32> {
        self.read(&room.words(), needs(room), 0)
    }

    /// Reads all the bytes of these words, which are refused with this number: 0 where they are not.
    fn read(&mut self, words: &[u32], lent: Lent, number: u32) -> Vec<u32> {
        self.cut(words, 4 * words.len(), lent, number)
    }

    /// The same of so many bytes. Every place has a mark that no call before had.
    fn cut(&mut self, words: &[u32], length: usize, lent: Lent, number: u32) -> Vec<u32> {
        for case in held_rooms::lines(&self.held.bytes, words) {
            self.line(case.name, case.operands);
        }
        self.lend(lent);
        self.mark += 0x0001_0203;
        self.line("mark", vec![self.mark]);
        let answer = self.line("read", vec![length as u32]);
        assert_eq!(answer[0], number);
        self.show(number);
        answer
    }

    /// Shows all columns where the file was accepted or is the first to be refused with this number,
    /// else the places of each that are lent, or some where none is.
    fn show(&mut self, number: u32) {
        let whole = number == 0 || !self.refused[number as usize];
        self.refused[number as usize] = true;
        for column in 0..COLUMNS {
            let end = if whole {
                PLACES
            } else {
                self.held.lent[column].max(1)
            };
            for at in (0..end).step_by(16) {
                self.line("show", vec![column as u32, at as u32]);
            }
        }
    }
}
