//! The file that the lines of crates/replay_room put words into, and what each line prints.

use crate::cases::{others, Case};
use crate::reports::report;

/// How many bytes of a file the program keeps.
pub const BYTES: usize = 65_600;
/// How many bytes a report may have: the text that it is written to must have as many.
pub const SPACE: usize = 131_072;

pub struct Held {
    pub bytes: Vec<u8>,
}

impl Held {
    /// As the program starts: every byte is zero.
    pub fn new() -> Held {
        Held {
            bytes: vec![0; BYTES],
        }
    }

    /// What the line prints: nothing where it stores.
    pub fn printed(&mut self, case: &Case) -> String {
        let w = &case.operands;
        let file = |length: u32| &self.bytes[..BYTES.min(length as usize)];
        match case.name {
            "clear" => self.bytes.fill(0),
            "put" => put(&mut self.bytes, w[0] as usize, &w[1..]),
            "room" => return report(file(w[0])),
            "short" => return short(file(w[0]), w[1] as usize),
            name => panic!("no line `{name}`"),
        }
        String::new()
    }
}

/// Puts words into a file from byte `at` on, as far as there are bytes.
pub fn put(file: &mut [u8], at: usize, words: &[u32]) {
    let bytes = words.iter().flat_map(|word| word.to_le_bytes());
    for (place, byte) in file.iter_mut().skip(at).zip(bytes) {
        *place = byte;
    }
}

/// The lines after which this file begins with these words: lines for the places that hold other ones,
/// after a line that clears all where that makes fewer bytes.
pub fn lines(file: &[u8], words: &[u32]) -> Vec<Case> {
    let four = |bytes: &[u8]| u32::from_le_bytes([bytes[0], bytes[1], bytes[2], bytes[3]]);
    let held: Vec<u32> = file.chunks_exact(4).map(four).collect();
    let zeros = vec![0; held.len()];
    let (over, anew) = (puts(&held, words), puts(&zeros, words));
    if cost(&anew) + 15 >= cost(&over) {
        return over;
    }
    let clear = Case {
        name: "clear",
        operands: vec![0],
    };
    [vec![clear], anew].concat()
}

/// The lines that put these words where other words stand.
fn puts(held: &[u32], words: &[u32]) -> Vec<Case> {
    let ranges = others(held, words).into_iter();
    let line = |first: usize, words: &[u32]| Case {
        name: "put",
        operands: [&[4 * first as u32], words].concat(),
    };
    ranges.map(|r| line(r.start, &words[r.clone()])).collect()
}

/// How many bytes these lines have.
fn cost(puts: &[Case]) -> usize {
    puts.iter().map(|case| 4 + 9 * case.operands.len()).sum()
}

/// What a report into so much space answers: 4 where the space is too short, "a lent slice shorter than
/// its need"; else 0 and how many bytes the text has.
fn short(file: &[u8], space: usize) -> String {
    if space < SPACE {
        return format!("{:08X}\n", 4);
    }
    let length = report(file).len();
    assert!(length <= SPACE);
    format!("{:08X} {length:08X}\n", 0)
}
