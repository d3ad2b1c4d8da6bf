//! What the tests of the entries share: for each entry one call that is accepted, with every slice
//! exactly as long as its need, and what a host can get wrong in it.
#![allow(dead_code)] // Each test file uses a part of this.
pub mod files;
pub mod grids;
pub mod placing;
pub mod rows;
pub mod scenes;
pub mod solves;

use sokitahe::lent::Light;
use sokitahe::{Bounds, Refused};

/// What stands in a writable place before a call.
pub const KEPT: u32 = 0xA5A5_A5A5;

/// A column of so many writable floats.
pub fn kept_floats(count: usize) -> Vec<f32> {
    vec![f32::from_bits(KEPT); count]
}

/// A column of so many writable numbers.
pub fn kept_numbers(count: usize) -> Vec<u32> {
    vec![KEPT; count]
}

/// A slice that is lent.
pub enum Lent<'a> {
    Floats(&'a mut Vec<f32>),
    Numbers(&'a mut Vec<u32>),
    Bytes(&'a mut Vec<u8>),
    Lights(&'a mut Vec<Light>),
}

impl Lent<'_> {
    /// The bits that it holds.
    pub fn bits(&self) -> Vec<u32> {
        let bits = |x: &f32| x.to_bits();
        match self {
            Lent::Floats(column) => column.iter().map(bits).collect(),
            Lent::Numbers(column) => column.to_vec(),
            Lent::Bytes(column) => column.iter().map(|byte| u32::from(*byte)).collect(),
            Lent::Lights(column) => column
                .iter()
                .flat_map(|light| [light.direct, light.irr, light.rad])
                .flat_map(|vector| vector.map(f32::to_bits))
                .collect(),
        }
    }

    /// Takes the last place away, so that the heap holds no place more.
    pub fn shorten(&mut self) {
        fn cut<T>(column: &mut Vec<T>) {
            column.pop().expect("a slice with a need");
            column.shrink_to_fit();
        }
        match self {
            Lent::Floats(column) => cut(column),
            Lent::Numbers(column) => cut(column),
            Lent::Bytes(column) => cut(column),
            Lent::Lights(column) => cut(column),
        }
    }

    /// Adds places with these bits.
    pub fn lengthen(&mut self, count: usize, bits: u32) {
        match self {
            Lent::Floats(column) => column.extend(vec![f32::from_bits(bits); count]),
            Lent::Numbers(column) => column.extend(vec![bits; count]),
            Lent::Bytes(column) => column.extend(vec![bits as u8; count]),
            Lent::Lights(_) => panic!("a list of records is never longer than its need"),
        }
    }
}

/// What a slice is for.
#[derive(Clone, Copy, Debug, PartialEq)]
pub enum Role {
    Read,
    Write,
    /// Written, and what it then holds is left open up to its need.
    Scratch,
}

/// A slice of a call.
pub struct Slot<'a> {
    pub name: &'static str,
    pub role: Role,
    /// What refuses the call where the slice is a place shorter; none where nothing does.
    pub short: Option<u32>,
    /// Whether the slice may be longer than its need.
    pub longer: bool,
    pub lent: Lent<'a>,
}

impl Slot<'_> {
    pub fn read<'a>(name: &'static str, lent: Lent<'a>) -> Slot<'a> {
        Slot {
            name,
            role: Role::Read,
            short: Some(4),
            longer: true,
            lent,
        }
    }

    pub fn write<'a>(name: &'static str, lent: Lent<'a>) -> Slot<'a> {
        Slot {
            role: Role::Write,
            ..Slot::read(name, lent)
        }
    }

    pub fn scratch<'a>(name: &'static str, lent: Lent<'a>) -> Slot<'a> {
        Slot {
            role: Role::Scratch,
            ..Slot::read(name, lent)
        }
    }
}

/// A call of an entry with all that it is lent.
pub trait Call: Sized + 'static {
    const ENTRY: &'static str;
    /// The numbers that it can be refused with.
    const NUMBERS: &'static [u32];
    /// A call that is accepted, with each slice exactly as long as its need.
    fn sound() -> Self;
    /// Its slices.
    fn slots(&mut self) -> Vec<Slot<'_>>;
    /// The answer's numbers as words.
    fn call(&mut self) -> Result<Vec<u32>, Refused>;
    /// What a host can get wrong beside the length of a slice.
    fn mistakes() -> Vec<Mistake<Self>>;
}

/// Something that a host gets wrong, and the number that refuses it.
pub struct Mistake<C> {
    pub number: u32,
    pub name: String,
    pub make: Box<dyn Fn(&mut C)>,
}

/// A mistake that is made in one step.
pub fn mistake<C>(number: u32, name: &str, make: impl Fn(&mut C) + 'static) -> Mistake<C> {
    Mistake {
        number,
        name: name.to_string(),
        make: Box::new(make),
    }
}

/// The mistakes of a part, made in the whole.
pub fn within<C: 'static, P: 'static>(
    part: fn(&mut C) -> &mut P,
    mistakes: Vec<Mistake<P>>,
) -> Vec<Mistake<C>> {
    let in_whole = |m: Mistake<P>| mistake(m.number, &m.name, move |c: &mut C| (m.make)(part(c)));
    mistakes.into_iter().map(in_whole).collect()
}

/// A column of a call.
pub type Column<C> = fn(&mut C) -> &mut [f32];
/// A column by its name, with the least and the greatest float that it may hold.
pub type Ranged<C> = (&'static str, Column<C>, f32, f32);

/// Coordinates and normals are within this, above and below 0.
pub const FAR: f32 = 10_000.0;

/// What is wrong of floats outside their range, at the first and the last place of each column.
pub fn outside<C: 'static>(number: u32, columns: &[Ranged<C>]) -> Vec<Mistake<C>> {
    let mut mistakes = Vec::new();
    for (name, column, lo, hi) in columns.iter().copied() {
        let wrong = [
            f32::NAN,
            f32::INFINITY,
            f32::NEG_INFINITY,
            lo.next_down(),
            hi.next_up(),
        ];
        for x in wrong {
            let set_first = move |c: &mut C| column(c)[0] = x;
            let set_last =
                move |c: &mut C| *column(c).last_mut().expect("a column with a need") = x;
            mistakes.push(mistake(number, &format!("{name} first {x}"), set_first));
            mistakes.push(mistake(number, &format!("{name} last {x}"), set_last));
        }
    }
    mistakes
}

/// A count by its name, and the most that it may be.
pub type Limited<C> = (&'static str, fn(&mut C) -> &mut usize, usize);

/// Counts over their limits, by one and by far.
pub fn over<C: 'static>(counts: &[Limited<C>]) -> Vec<Mistake<C>> {
    let mut mistakes = Vec::new();
    for (name, count, most) in counts.iter().copied() {
        for wrong in [most + 1, usize::MAX] {
            let set = move |c: &mut C| *count(c) = wrong;
            mistakes.push(mistake(2, &format!("{name} {wrong}"), set));
        }
    }
    mistakes
}

/// What is wrong of a box.
pub fn wrong_bounds() -> Vec<Mistake<Bounds>> {
    let corners: [Ranged<Bounds>; 2] = [
        ("lo", |b| &mut b.lo, -FAR, FAR),
        ("hi", |b| &mut b.hi, -FAR, FAR),
    ];
    let mut mistakes = outside(3, &corners);
    mistakes.push(mistake(3, "lo above hi", |b: &mut Bounds| {
        b.lo[1] = b.hi[1].next_up()
    }));
    mistakes
}

/// The bits of floats.
pub fn bits(floats: &[f32]) -> Vec<u32> {
    floats.iter().map(|x| x.to_bits()).collect()
}

/// A file of the repository's rooms.
pub fn room_file(name: &str) -> Vec<u8> {
    let path = format!("{}/../../rooms/{name}", env!("CARGO_MANIFEST_DIR"));
    std::fs::read(&path).unwrap_or_else(|error| panic!("{path}: {error}"))
}
