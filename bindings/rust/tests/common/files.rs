//! Calls on room files: document 01's room Q, and what can be wrong in a file.
use super::{kept_floats, kept_numbers, mistake, room_file, Call, Lent, Mistake, Slot};
use sokitahe::lent::{self, RoomColumns};
use sokitahe::Refused;

/// Sets a word of a file.
pub fn set_word(bytes: &mut [u8], word: usize, value: u32) {
    bytes[4 * word..4 * word + 4].copy_from_slice(&value.to_le_bytes());
}

/// What stands where in the words of Q's file, the first float of each range, and its range.
const FLOATS: [(&str, usize, f32, f32); 9] = [
    ("p", 16, -10_000.0, 10_000.0),
    ("normal", 21, -10_000.0, 10_000.0),
    ("albedo", 22, 0.0, 1.0),
    ("area", 25, 0.0, 1e6),
    ("direct", 28, 0.0, 1e6),
    ("cluster_area", 29, 0.0, 1e12),
    ("link_weight", 36, 0.0, 2.0),
    ("probe_p", 45, -10_000.0, 10_000.0),
    ("probe_normal", 56, -10_000.0, 10_000.0),
];

/// And the sizes of its grid and readings.
const SIZES: [(&str, usize, f32, f32); 4] = [
    ("lo", 37, -10_000.0, 10_000.0),
    ("hi", 42, -10_000.0, 10_000.0),
    ("cell", 43, 0.0001, 10_000.0),
    ("radius", 44, 0.0, 10_000.0),
];

/// Words of Q's file that a value refuses with a number.
const WORDS: [(u32, &str, usize, u32); 24] = [
    (1, "form 0", 0, 0),
    (1, "form 2", 0, 2),
    (1, "a surfel more", 1, 2),
    (1, "surfels without end", 1, u32::MAX),
    (1, "clusters without end", 2, u32::MAX),
    (1, "members without end", 3, u32::MAX),
    (1, "links without end", 4, u32::MAX),
    (1, "probes without end", 5, u32::MAX),
    (1, "an offset of the surfels", 7, 68),
    (1, "an offset of the probes", 12, 0),
    (1, "the length word", 13, 232),
    (1, "a spare word", 14, 1),
    (1, "the last spare word", 15, u32::MAX),
    (2, "a limit over 4,096", 6, 4_097),
    (2, "a limit without end", 6, u32::MAX),
    (7, "members from 1", 30, 1),
    (7, "members that end early", 31, 0),
    (7, "members that end late", 31, u32::MAX),
    (7, "a member that is no surfel", 32, 1),
    (7, "starts from 1", 33, 1),
    (7, "starts that end early", 34, 0),
    (7, "starts that end late", 34, 2),
    (7, "a link to no cluster", 35, 1),
    (7, "a link far outside", 35, u32::MAX),
];

/// What can be wrong in the bytes of Q's file.
pub fn wrong_bytes() -> Vec<Mistake<Vec<u8>>> {
    let word = |number: u32, name: &str, at: usize, value: u32| {
        mistake(number, name, move |bytes: &mut Vec<u8>| {
            set_word(bytes, at, value)
        })
    };
    let mut mistakes: Vec<_> = WORDS
        .iter()
        .map(|(number, name, at, value)| word(*number, name, *at, *value))
        .collect();
    for (number, places) in [(5, &FLOATS[..]), (3, &SIZES[..])] {
        for (name, at, lo, hi) in places {
            for x in [f32::NAN, f32::INFINITY, lo.next_down(), hi.next_up()] {
                mistakes.push(word(number, &format!("{name} {x}"), *at, x.to_bits()));
            }
        }
    }
    mistakes.push(word(3, "lo above hi", 37, 4.5_f32.to_bits()));
    mistakes.push(mistake(1, "no bytes", |bytes: &mut Vec<u8>| bytes.clear()));
    mistakes.push(mistake(1, "a header alone", |bytes: &mut Vec<u8>| {
        bytes.truncate(64)
    }));
    mistakes.push(mistake(1, "a byte more", |bytes: &mut Vec<u8>| {
        bytes.push(0)
    }));
    mistakes
}

/// Q's file read into columns.
pub struct RoomReadCall {
    pub bytes: Vec<u8>,
    pub floats: [Vec<f32>; 9],
    pub numbers: [Vec<u32>; 5],
}

/// The names of the columns of floats and of numbers, and how many places Q needs of each.
const FLOAT_COLUMNS: [(&str, usize); 9] = [
    ("p", 3),
    ("normals", 3),
    ("albedo", 3),
    ("area", 1),
    ("direct", 3),
    ("cluster_area", 1),
    ("link_weight", 1),
    ("probe_p", 6),
    ("probe_normals", 6),
];
const NUMBER_COLUMNS: [(&str, usize); 5] = [
    ("first", 1),
    ("count", 1),
    ("member", 1),
    ("starts", 2),
    ("link_cluster", 1),
];

impl Call for RoomReadCall {
    const ENTRY: &'static str = "room_read";
    const NUMBERS: &'static [u32] = &[1, 2, 3, 4, 5, 7];

    fn sound() -> RoomReadCall {
        RoomReadCall {
            bytes: room_file("q.room"),
            floats: FLOAT_COLUMNS.map(|(_, need)| kept_floats(need)),
            numbers: NUMBER_COLUMNS.map(|(_, need)| kept_numbers(need)),
        }
    }

    fn slots(&mut self) -> Vec<Slot<'_>> {
        let mut slots = vec![Slot {
            short: Some(1),
            longer: false,
            ..Slot::read("bytes", Lent::Bytes(&mut self.bytes))
        }];
        for ((name, _), column) in FLOAT_COLUMNS.iter().zip(&mut self.floats) {
            slots.push(Slot::write(name, Lent::Floats(column)));
        }
        for ((name, _), column) in NUMBER_COLUMNS.iter().zip(&mut self.numbers) {
            slots.push(Slot::write(name, Lent::Numbers(column)));
        }
        slots
    }

    fn call(&mut self) -> Result<Vec<u32>, Refused> {
        let [p, normals, albedo, area, direct, cluster_area, link_weight, probe_p, probe_normals] =
            &mut self.floats;
        let [first, count, member, starts, link_cluster] = &mut self.numbers;
        let columns = RoomColumns {
            p,
            normals,
            albedo,
            area,
            direct,
            cluster_area,
            first,
            count,
            member,
            starts,
            link_cluster,
            link_weight,
            probe_p,
            probe_normals,
        };
        let h = lent::room_read(&self.bytes, columns)?;
        let counts = [h.surfels, h.clusters, h.members, h.links, h.probes, h.limit];
        let floats = [&h.bounds.lo[..], &h.bounds.hi, &[h.cell, h.radius]].concat();
        Ok(counts
            .map(|count| count as u32)
            .into_iter()
            .chain(super::bits(&floats))
            .collect())
    }

    fn mistakes() -> Vec<Mistake<RoomReadCall>> {
        super::within(|c: &mut RoomReadCall| &mut c.bytes, wrong_bytes())
    }
}

/// The report of Q's file.
pub struct RoomReportCall {
    pub bytes: Vec<u8>,
    pub text: Vec<u8>,
}

impl Call for RoomReportCall {
    const ENTRY: &'static str = "room_report";
    const NUMBERS: &'static [u32] = &[4];

    fn sound() -> RoomReportCall {
        RoomReportCall {
            bytes: room_file("q.room"),
            text: vec![super::KEPT as u8; 131_072],
        }
    }

    fn slots(&mut self) -> Vec<Slot<'_>> {
        vec![
            Slot {
                short: None,
                longer: false,
                ..Slot::read("bytes", Lent::Bytes(&mut self.bytes))
            },
            Slot::write("text", Lent::Bytes(&mut self.text)),
        ]
    }

    fn call(&mut self) -> Result<Vec<u32>, Refused> {
        lent::room_report(&self.bytes, &mut self.text).map(|length| vec![length as u32])
    }

    fn mistakes() -> Vec<Mistake<RoomReportCall>> {
        vec![mistake(4, "no text", |c: &mut RoomReportCall| {
            c.text.clear()
        })]
    }
}
