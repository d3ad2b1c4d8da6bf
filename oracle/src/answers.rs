//! What the Rust answers to a case.

use interflect::surfel::{self, Grid};
use interflect::{ltc, Vec3};

/// The word of a float as the replay writes it: its bits, and one pattern for every NaN.
pub fn word(x: f32) -> u32 {
    if x.is_nan() {
        0x7FC0_0000
    } else {
        x.to_bits()
    }
}

/// The result words of the named operation on the operand words.
pub fn answer(name: &str, operands: &[u32]) -> Vec<u32> {
    let x = |i: usize| f32::from_bits(operands[i]);
    let v = |i: usize| Vec3::new(x(i), x(i + 1), x(i + 2));
    match name {
        "sqrt" => float(x(0).sqrt()),
        "abs" => float(x(0).abs()),
        "max" => float(x(0).max(x(1))),
        "min" => float(x(0).min(x(1))),
        "clamp" => float(x(0).clamp(x(1), x(2))),
        "product" => float(x(0) * x(1)),
        "quotient" => float(x(0) / x(1)),
        "signum" => float(x(0).signum()),
        "finite" => vec![x(0).is_finite().into()],
        "cell" => vec![cell(x(0), operands[1])],
        "count" => vec![count(x(0))],
        "dot" => float(v(0).dot(v(3))),
        "cross" => vector(v(0).cross(v(3))),
        "length" => float(v(0).length()),
        "normalize" => vector(v(0).normalize()),
        "frame" => {
            let (t, b) = ltc::frame(v(0));
            [vector(t), vector(b)].concat()
        }
        "plus" => vector(v(0) + v(3)),
        "minus" => vector(v(0) - v(3)),
        "times" => vector(v(0) * v(3)),
        "scaled" => vector(v(0) * x(3)),
        "over" => vector(v(0) / x(3)),
        _ => panic!("no operation `{name}`"),
    }
}

fn float(x: f32) -> Vec<u32> {
    vec![word(x)]
}

fn vector(v: Vec3) -> Vec<u32> {
    [v.x, v.y, v.z].map(word).to_vec()
}

/// The Rust's `(x as i32).clamp(0, dim - 1)`, by its own grid: from 0, in cells of size 1, the float
/// that it casts is (x - 0) * 1, which is x.
fn cell(x: f32, dim: u32) -> u32 {
    let grid = surfel::open::unit_grid(dim as i32);
    surfel::open::cell_of(&grid, Vec3::new(x, 0.0, 0.0))[0] as u32
}

/// The Rust's `(x.ceil() as i32).clamp(1, 512)`, by its own grid: from 0 to x, in cells of size 1,
/// the float that it rounds up is (x - 0) * (1 / 1), which is x.
fn count(x: f32) -> u32 {
    Grid::build(&[], Vec3::ZERO, Vec3::new(x, 0.0, 0.0), 1.0).dim[0] as u32
}
