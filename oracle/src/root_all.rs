//! Compares the port's root with the processor's, and its two casts with Rust's, on all 2^32
//! patterns, then times a call of each. `oracle/root_all` links the port's static library to it.

mod random;

use random::Random;
use std::hint::black_box;
use std::process::ExitCode;
use std::time::Instant;
use std::{iter, thread};

// The functions of the port. They take and give numbers alone, so any call is safe.
unsafe extern "C" {
    safe fn interflect_sqrt(x: f32) -> f32;
    safe fn interflect_cell(x: f32, dim: usize) -> usize;
    safe fn interflect_cell_count(x: f32) -> usize;
}

/// The Rust's cell number, as in `Grid::cell_of`.
fn cell(x: f32, dim: usize) -> usize {
    (x as i32).clamp(0, dim as i32 - 1) as usize
}

/// The Rust's number of cells, as in `Grid::build`.
fn cell_count(x: f32) -> usize {
    (x.ceil() as i32).clamp(1, 512) as usize
}

/// The bits of a float, the same for every NaN.
fn word(x: f32) -> usize {
    if x.is_nan() {
        0x7FC0_0000
    } else {
        x.to_bits() as usize
    }
}

/// What a comparison over a range of patterns found.
#[derive(Default)]
struct Found {
    compared: u64,
    different: u64,
    first: Option<u32>,
}

/// Compares the two answers that `both` gives for each pattern.
fn compare(patterns: impl Iterator<Item = u32>, both: impl Fn(f32) -> (usize, usize)) -> Found {
    let mut found = Found::default();
    patterns.for_each(|pattern| {
        let (port, rust) = both(f32::from_bits(pattern));
        found.compared += 1;
        if port != rust {
            found.different += 1;
            found.first.get_or_insert(pattern);
        }
    });
    found
}

/// Compares on all patterns, on two threads, prints what was found and answers whether all agree.
fn all_same(name: &str, both: impl Fn(f32) -> (usize, usize) + Sync) -> bool {
    let middle = 1 << 31;
    let (lower, upper) = thread::scope(|scope| {
        let upper = scope.spawn(|| compare(middle..=u32::MAX, &both));
        let lower = compare(0..middle, &both);
        (lower, upper.join().expect("the upper half was compared"))
    });
    let compared = lower.compared + upper.compared;
    let different = lower.different + upper.different;
    print!("{name}: {compared} patterns compared, {different} different");
    if let Some(pattern) = lower.first.or(upper.first) {
        let (port, rust) = both(f32::from_bits(pattern));
        print!(", the first {pattern:08X}: {port:08X} of the port, {rust:08X} of Rust");
    }
    println!();
    different == 0
}

/// Normal and positive: any exponent of those, any fraction.
fn operands() -> Vec<f32> {
    let mut random = Random::new(1);
    let normal = || f32::from_bits((1 + random.below(254)) << 23 | random.word() >> 9);
    iter::repeat_with(normal).take(1 << 20).collect()
}

/// The time of a call in nanoseconds: the shortest of nine passes over the operands, on one thread.
fn nanoseconds<T>(operands: &[f32], call: impl Fn(f32) -> T) -> f64 {
    let pass = || {
        let start = Instant::now();
        for &x in operands {
            black_box(call(x));
        }
        start.elapsed().as_nanos() as f64 / operands.len() as f64
    };
    let passes = iter::repeat_with(pass).take(9);
    passes.fold(f64::INFINITY, f64::min)
}

fn print_times<T>(name: &str, port: impl Fn(f32) -> T, rust: impl Fn(f32) -> T) {
    let operands = operands();
    let port = nanoseconds(&operands, port);
    let rust = nanoseconds(&operands, rust);
    println!("{name}: {port:.2} ns a call of the port, {rust:.2} ns of Rust");
}

fn main() -> ExitCode {
    let mut same = all_same("sqrt", |x| (word(interflect_sqrt(x)), word(x.sqrt())));
    for dim in [1, 2, 3, 512, i32::MAX as usize] {
        let both = |x| (interflect_cell(x, dim), cell(x, dim));
        same &= all_same(&format!("cell, dim {dim}"), both);
    }
    same &= all_same("cell_count", |x| (interflect_cell_count(x), cell_count(x)));

    let cell_512 = |x| interflect_cell(x, 512);
    print_times("sqrt", |x| interflect_sqrt(x), f32::sqrt);
    print_times("cell, dim 512", cell_512, |x| cell(x, 512));
    print_times("cell_count", |x| interflect_cell_count(x), cell_count);
    if same {
        ExitCode::SUCCESS
    } else {
        ExitCode::FAILURE
    }
}
