//! The cases of crates/replay_float: which operands each operation is asked for.
//!
//! Three kinds of float come back everywhere: the special values, patterns of any 32 bits, and
//! moderate values, whose sums and products stay far from overflow. Each operation has random
//! numbers of its own, so that a change to one leaves the others as they were.

use crate::answers::word;
use crate::random::Random;
use interflect::Vec3;
use std::array::from_fn;
use std::collections::HashSet;
use std::ops::Range;

/// One operation with its operand words.
#[derive(Clone, PartialEq, Eq, Hash)]
pub struct Case {
    pub name: &'static str,
    pub operands: Vec<u32>,
}

/// The places of a table that holds other words than these, from place 0 on, in ranges of at most 15:
/// as many as a line puts. Two places between that hold the same are no reason for another line.
pub fn others(held: &[u32], words: &[u32]) -> Vec<Range<usize>> {
    assert!(words.len() <= held.len());
    let other = |k: usize| words[k] != held[k];
    let mut list = Vec::new();
    let mut from = 0;
    while let Some(first) = (from..words.len()).find(|&k| other(k)) {
        let mut end = first + 1;
        let most = words.len().min(first + 15);
        while let Some(next) = (end..most.min(end + 3)).find(|&k| other(k)) {
            end = next + 1;
        }
        list.push(first..end);
        from = end;
    }
    list
}

const LEAST: f32 = f32::from_bits(1);

const SPECIAL: [f32; 11] = [
    0.0,
    -0.0,
    LEAST,
    -LEAST,
    1.0,
    -1.0,
    f32::MAX,
    f32::MIN,
    f32::INFINITY,
    f32::NEG_INFINITY,
    f32::NAN,
];

/// All cases of crates/replay_float, in the order of its file stdin.
pub fn floats() -> Vec<Case> {
    let mut cases = Cases::default();
    roots(&mut cases);
    single_floats(&mut cases);
    max_and_min(&mut cases);
    products(&mut cases);
    quotients(&mut cases);
    clamps(&mut cases);
    cells(&mut cases);
    counts(&mut cases);
    dots(&mut cases);
    crosses(&mut cases);
    lengths(&mut cases);
    normals(&mut cases);
    frames(&mut cases);
    componentwise(&mut cases);
    cases.list
}

/// A list of cases, each in it once.
#[derive(Default)]
struct Cases {
    list: Vec<Case>,
    seen: HashSet<Case>,
}

impl Cases {
    /// Adds a case unless it is there already.
    fn push(&mut self, case: Case) {
        if self.seen.insert(case.clone()) {
            self.list.push(case);
        }
    }

    fn add(&mut self, name: &'static str, operands: &[f32]) {
        let operands = operands.iter().copied().map(word).collect();
        self.push(Case { name, operands });
    }

    /// Adds operands that `draw` gives until the list has `more` cases more. Where `draw` gives
    /// none it is asked again.
    fn fill<const N: usize>(
        &mut self,
        name: &'static str,
        more: usize,
        mut draw: impl FnMut() -> Option<[f32; N]>,
    ) {
        let full = self.list.len() + more;
        while self.list.len() < full {
            if let Some(operands) = draw() {
                self.add(name, &operands);
            }
        }
    }
}

// ---- the kinds of float

/// The random numbers of an operation: the bytes of its name are the seed.
fn random_of(name: &str) -> Random {
    let join = |seed, byte| seed << 8 | u64::from(byte);
    Random::new(name.bytes().fold(0, join))
}

/// Any 32 bits.
fn any(random: &mut Random) -> f32 {
    f32::from_bits(random.word())
}

/// Either sign, from 1/64 to 64, any fraction.
fn moderate(random: &mut Random) -> f32 {
    let sign = random.below(2) << 31;
    let exponent = (121 + random.below(12)) << 23;
    f32::from_bits(sign | exponent | random.word() >> 9)
}

/// A special value as often as a moderate one.
fn mixed(random: &mut Random) -> f32 {
    match random.below(2) {
        0 => SPECIAL[random.below(SPECIAL.len() as u32) as usize],
        _ => moderate(random),
    }
}

/// A float and the two beside it.
fn around(x: f32) -> [f32; 3] {
    [x.next_down(), x, x.next_up()]
}

fn vector(operands: &[f32]) -> Vec3 {
    Vec3::new(operands[0], operands[1], operands[2])
}

fn differ(a: Vec3, b: Vec3) -> bool {
    [a.x, a.y, a.z].map(word) != [b.x, b.y, b.z].map(word)
}

/// For an operation on N floats: moderate operands, special ones among moderate ones, any.
fn usual<const N: usize>(cases: &mut Cases, name: &'static str, random: &mut Random) {
    cases.fill::<N>(name, 60, || Some(from_fn(|_| moderate(random))));
    cases.fill::<N>(name, 40, || Some(from_fn(|_| mixed(random))));
    cases.fill::<N>(name, 20, || Some(from_fn(|_| any(random))));
}

// ---- floats

fn roots(cases: &mut Cases) {
    let random = &mut random_of("sqrt");
    for x in SPECIAL {
        cases.add("sqrt", &[x]);
    }
    // The ends of every exponent.
    for exponent in 0..=254 {
        for fraction in [0, 1, 0x7F_FFFF] {
            cases.add("sqrt", &[f32::from_bits(exponent << 23 | fraction)]);
        }
    }
    // The subnormals: each power of two, and its neighbours.
    for shift in 0..23 {
        for x in around(f32::from_bits(1 << shift)) {
            cases.add("sqrt", &[x]);
        }
    }
    // The squares below 2^24, each a float, and their neighbours. The square of twice a number has
    // the same fraction, so odd numbers are enough.
    for root in (1..=4095u32).step_by(2) {
        for x in around((root * root) as f32) {
            cases.add("sqrt", &[x]);
        }
    }
    // A negative operand gives NaN: few of these.
    cases.fill("sqrt", 9_500, || Some([any(random).abs()]));
    cases.fill("sqrt", 500, || Some([any(random)]));
}

fn single_floats(cases: &mut Cases) {
    for name in ["abs", "signum", "finite"] {
        let random = &mut random_of(name);
        for x in SPECIAL {
            cases.add(name, &[x]);
        }
        for x in around(f32::MIN_POSITIVE) {
            cases.add(name, &[x]);
            cases.add(name, &[-x]);
        }
        cases.fill(name, 60, || Some([any(random)]));
        cases.fill(name, 30, || Some([moderate(random)]));
    }
}

/// Two zeros of unlike sign are left out: document 01 lets max and min answer either.
fn max_and_min(cases: &mut Cases) {
    for name in ["max", "min"] {
        let random = &mut random_of(name);
        for a in SPECIAL {
            for b in SPECIAL {
                let unlike_zeros = a == b && a.to_bits() != b.to_bits();
                if !unlike_zeros {
                    cases.add(name, &[a, b]);
                }
            }
        }
        cases.fill(name, 20, || Some([any(random), any(random)]));
        cases.fill(name, 20, || Some([moderate(random), moderate(random)]));
    }
}

/// Floats about the ends of the subnormal ones, and about 2^-63 and 1.
fn border() -> Vec<f32> {
    let bits = [
        1,
        2,
        3,
        5,
        0x40_0000,
        0x7F_FFFF,
        0x80_0000,
        0x100_0000,
        0x2000_0000,
        0x3F80_0000,
    ];
    let mut list: Vec<f32> = bits
        .into_iter()
        .map(f32::from_bits)
        .flat_map(around)
        .collect();
    list.extend(SPECIAL);
    list
}

/// A subnormal number of any size, or a normal one that is as small.
fn faint(random: &mut Random) -> f32 {
    let fraction = random.word() >> 9;
    match random.below(3) {
        0 => f32::from_bits(fraction),
        1 => f32::from_bits(fraction >> random.below(23)),
        _ => f32::from_bits((1 + random.below(60)) << 23 | fraction),
    }
}

/// A positive float from 2^least up to 2^most, any fraction or none.
fn sized(random: &mut Random, least: i32, most: i32) -> f32 {
    let exponent = (127 + least) as u32 + random.below((most - least) as u32);
    let fraction = match random.below(4) {
        0 => 0,
        1 => 0x40_0000,
        _ => random.word() >> 9,
    };
    f32::from_bits(exponent << 23 | fraction)
}

fn products(cases: &mut Cases) {
    for x in border() {
        for y in border() {
            cases.add("product", &[x, y]);
        }
    }
    let mut random = random_of("product");
    cases.fill("product", 600, || {
        Some([faint(&mut random), sized(&mut random, -40, 26)])
    });
    cases.fill("product", 400, || {
        Some([sized(&mut random, -126, 2), sized(&mut random, -126, 2)])
    });
    cases.fill("product", 200, || {
        Some([any(&mut random), any(&mut random)])
    });
}

fn quotients(cases: &mut Cases) {
    for x in border() {
        for y in border() {
            cases.add("quotient", &[x, y]);
        }
    }
    let mut random = random_of("quotient");
    cases.fill("quotient", 600, || {
        Some([faint(&mut random), sized(&mut random, -72, 41)])
    });
    cases.fill("quotient", 400, || {
        Some([sized(&mut random, -126, 0), sized(&mut random, 0, 127)])
    });
    cases.fill("quotient", 200, || {
        Some([any(&mut random), any(&mut random)])
    });
}

/// The ends are in order and no NaN: Rust's clamp panics otherwise. An end of zero is +0, as in the
/// nine files, and -0 passes it.
fn clamps(cases: &mut Cases) {
    let random = &mut random_of("clamp");
    let ends = [
        (0.0, 1.0),
        (-1.0, 1.0),
        (1.5, 32.0),
        (0.006, 0.12),
        (1.0, 1.0),
        (LEAST, f32::MAX),
        (-1.0, -LEAST),
        (f32::MIN, f32::MAX),
        (f32::NEG_INFINITY, f32::INFINITY),
    ];
    for (lo, hi) in ends {
        for x in SPECIAL.into_iter().chain(around(lo)).chain(around(hi)) {
            cases.add("clamp", &[x, lo, hi]);
        }
    }
    cases.fill("clamp", 40, || {
        let (x, lo, hi) = (moderate(random), moderate(random), moderate(random));
        (lo <= hi).then_some([x, lo, hi])
    });
}

// ---- the two casts

/// Whole numbers, the floats beside them and the halves above them, with either sign.
fn near_whole(wholes: impl IntoIterator<Item = f32>) -> Vec<f32> {
    let positive = wholes
        .into_iter()
        .flat_map(|w| [w.next_down(), w, w.next_up(), w + 0.5]);
    positive.flat_map(|x| [x, -x]).collect()
}

fn cells(cases: &mut Cases) {
    let random = &mut random_of("cell");
    let two = |power: u32| (1u64 << power) as f32;
    let mut floats = near_whole([0.0, 1.0, 2.0, 3.0, 100.0, 511.0, 512.0, two(23), two(31)]);
    floats.extend(SPECIAL);
    floats.extend([two(24), two(32), two(63)]);
    floats.extend(from_fn::<f32, 5, _>(|_| moderate(random)));
    for dim in [1, 2, 3, 512, i32::MAX as u32] {
        for &x in &floats {
            cases.push(Case {
                name: "cell",
                operands: vec![word(x), dim],
            });
        }
    }
}

fn counts(cases: &mut Cases) {
    let random = &mut random_of("count");
    // One over the cell comes first, which gives 6 cells; by division there are 5.
    let (extent, cell) = (f32::from_bits(0x3C75_C290), f32::from_bits(0x3B44_9BA6));
    cases.add("count", &[extent * (1.0 / cell)]);
    cases.add("count", &[extent / cell]);

    let wholes = (0..=20).chain([63, 64, 65, 127, 128, 129, 255, 256, 257]);
    let wholes = wholes.chain(509..=514).chain([1 << 23, 1 << 31]);
    for x in near_whole(wholes.map(|w: u32| w as f32)) {
        cases.add("count", &[x]);
    }
    for x in SPECIAL {
        cases.add("count", &[x]);
    }
    cases.fill("count", 60, || {
        Some([random.below(1 << 24) as f32 / 32_000.0])
    });
    cases.fill("count", 40, || Some([any(random)]));
}

// ---- vectors

fn dots(cases: &mut Cases) {
    let random = &mut random_of("dot");
    usual::<6>(cases, "dot", random);
    // Summed from the right, the bits are others.
    cases.fill("dot", 60, || {
        let operands: [f32; 6] = from_fn(|_| moderate(random));
        let (a, b) = (vector(&operands), vector(&operands[3..]));
        let from_right = a.x * b.x + (a.y * b.y + a.z * b.z);
        (from_right != a.dot(b)).then_some(operands)
    });
}

fn crosses(cases: &mut Cases) {
    let random = &mut random_of("cross");
    usual::<6>(cases, "cross", random);
    // Of parallel vectors: zeros.
    cases.fill("cross", 10, || {
        let [x, y, z] = from_fn(|_| moderate(random));
        Some([x, y, z, -2.0 * x, -2.0 * y, -2.0 * z])
    });
}

/// Sizes whose squares overflow, are subnormal, and underflow to zero.
const EXTREME: [f32; 3] = [1e20, 1e-22, 1e-30];

fn lengths(cases: &mut Cases) {
    let random = &mut random_of("length");
    usual::<3>(cases, "length", random);
    for size in EXTREME {
        cases.add("length", &[size, -size, size]);
    }
    // Summed from the right, the bits are others.
    cases.fill("length", 40, || {
        let operands: [f32; 3] = from_fn(|_| moderate(random));
        let a = vector(&operands);
        let from_right = (a.x * a.x + (a.y * a.y + a.z * a.z)).sqrt();
        (from_right != a.length()).then_some(operands)
    });
}

fn normals(cases: &mut Cases) {
    let random = &mut random_of("normalize");
    usual::<3>(cases, "normalize", random);
    for size in EXTREME {
        cases.add("normalize", &[size, -size, size]);
    }
    // Divided by the length, the bits are others.
    cases.fill("normalize", 60, || {
        let operands: [f32; 3] = from_fn(|_| moderate(random));
        let a = vector(&operands);
        differ(a / a.length(), a.normalize()).then_some(operands)
    });
}

fn frames(cases: &mut Cases) {
    let random = &mut random_of("frame");
    // Each z that decides a sign or a division, with x and y that vanish and that do not.
    let ends = around(1.0).into_iter().chain(around(-1.0));
    for z in ends.chain([0.0, -0.0, LEAST, -LEAST, 1e-30, -1e-30]) {
        for (x, y) in [(0.0, 0.0), (-0.0, -0.0), (0.6, 0.8), (1e-4, -1e-4)] {
            cases.add("frame", &[x, y, z]);
        }
    }
    cases.fill("frame", 30, || {
        let operands: [f32; 3] = from_fn(|_| moderate(random));
        let n = vector(&operands).normalize();
        Some([n.x, n.y, n.z])
    });
    usual::<3>(cases, "frame", random);
}

fn componentwise(cases: &mut Cases) {
    for name in ["plus", "minus", "times"] {
        usual::<6>(cases, name, &mut random_of(name));
    }
    usual::<4>(cases, "scaled", &mut random_of("scaled"));
    let random = &mut random_of("over");
    usual::<4>(cases, "over", random);
    // Multiplied by one over the divisor, the bits are others.
    cases.fill("over", 40, || {
        let operands: [f32; 4] = from_fn(|_| moderate(random));
        let (a, k) = (vector(&operands), operands[3]);
        differ(a * (1.0 / k), a / k).then_some(operands)
    });
}
