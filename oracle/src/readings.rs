//! What the Rust answers to a question about a grid and its surfels, or the number that document 01
//! refuses it with; and what the call leaves in the lent tables.

use crate::answers::word;
use crate::cases::Case;
use crate::grid_refusals::{self as refusals, cells, dims};
use crate::sheets::Sheet;
use crate::weights;
use interflect::surfel::{open, Grid, Surfel};
use interflect::Vec3;

/// The result words: a refusal's number alone, else zero and the answer; of the five questions that
/// show a table its words, sixteen from a place on.
pub fn answer(s: &mut Sheet, case: &Case) -> Vec<u32> {
    let w = &case.operands;
    let v = |i: usize| Vec3::new(x(w[i]), x(w[i + 1]), x(w[i + 2]));
    let answered = match case.name {
        "grid_build" => build(s, w[0]),
        "near" => near(s, w[0], v(1), w[4]),
        "gather" => read(s, w[0], v(1), v(4), x(w[7])),
        "gather_all" => read_all(s, w[0], w[1], x(w[2])),
        "starts" => return shown(&s.starts, w[0]),
        "items" => return shown(&s.items, w[0]),
        "list" => return shown(&s.list, w[0]),
        "seen" => return shown(&s.seen, w[0]),
        "light" => return shown(&s.light.map(word), w[0]),
        name => panic!("no question `{name}`"),
    };
    match answered {
        Ok(words) => [vec![0], words].concat(),
        Err(number) => vec![number],
    }
}

fn x(word: u32) -> f32 {
    f32::from_bits(word)
}

fn shown(table: &[u32], at: u32) -> Vec<u32> {
    table.iter().skip(at as usize).take(16).copied().collect()
}

/// What is answered, or the number of the refusal.
type Answered = Result<Vec<u32>, u32>;

fn allowed(refusal: Option<u32>) -> Result<(), u32> {
    refusal.map_or(Ok(()), Err)
}

/// The dimensions; the tables are stored.
fn build(s: &mut Sheet, n: u32) -> Answered {
    allowed(refusals::build(s, n))?;
    let points: Vec<Vec3> = (0..n as usize).map(|i| vector(&s.p, i)).collect();
    let grid = Grid::build(&points, s.lo, s.hi, s.cell);
    let (starts, items) = (open::starts(&grid), open::items(&grid));
    assert_eq!(grid.dim.map(|d| d as usize), dims(s));
    assert_eq!((starts.len(), items.len()), (cells(s) + 1, points.len()));
    s.starts[..starts.len()].copy_from_slice(starts);
    s.items[..items.len()].copy_from_slice(items);
    Ok(grid.dim.map(|d| d as u32).to_vec())
}

/// How many numbers are visited; the numbers are stored.
fn near(s: &mut Sheet, n: u32, p: Vec3, reach: u32) -> Answered {
    allowed(refusals::near(s, n, p, reach, &|| {
        visited(s, n, p, reach).len()
    }))?;
    let numbers = visited(s, n, p, reach);
    s.list[..numbers.len()].copy_from_slice(&numbers);
    Ok(vec![numbers.len() as u32])
}

/// The numbers that `for_each_near` visits. For tables that are not refused.
pub fn visited(s: &Sheet, n: u32, p: Vec3, reach: u32) -> Vec<u32> {
    let mut numbers = Vec::new();
    grid(s, n).for_each_near(p, reach as i32, |number| numbers.push(number));
    numbers
}

/// The Rust's grid of the tables. For tables that are not refused.
fn grid(s: &Sheet, n: u32) -> Grid {
    let dim = Grid::build(&[], s.lo, s.hi, s.cell).dim;
    let (starts, items) = (&s.starts[..cells(s) + 1], &s.items[..n as usize]);
    open::of_tables(s.lo, s.cell, dim, starts, items)
}

/// 1 and the light, or 0.
fn read(s: &Sheet, n: u32, at: Vec3, normal: Vec3, radius: f32) -> Answered {
    allowed(refusals::gather(s, n, at, normal, radius))?;
    Ok(match reading(s, n, at, normal, radius) {
        Some(light) => vec![1, word(light.x), word(light.y), word(light.z)],
        None => vec![0],
    })
}

/// Nothing; what is seen, and the light, are stored.
fn read_all(s: &mut Sheet, n: u32, probes: u32, radius: f32) -> Answered {
    allowed(refusals::gather_all(s, n, probes, radius))?;
    for i in 0..probes as usize {
        let (at, normal) = (vector(&s.probe_p, i), vector(&s.probe_normals, i));
        let read = reading(s, n, at, normal, radius);
        let light = read.unwrap_or(Vec3::ZERO);
        s.seen[i] = read.is_some().into();
        s.light[3 * i..3 * i + 3].copy_from_slice(&[light.x, light.y, light.z]);
    }
    Ok(Vec::new())
}

/// The Rust's reading, none where it is unseen. For tables that are not refused.
fn reading(s: &Sheet, n: u32, at: Vec3, normal: Vec3, radius: f32) -> Option<Vec3> {
    let surfels: Vec<Surfel> = (0..n as usize).map(|i| surfel(s, i)).collect();
    weights::reading(&surfels, &grid(s, n), at, normal, radius)
}

fn surfel(s: &Sheet, i: usize) -> Surfel {
    Surfel {
        p: vector(&s.p, i),
        n: vector(&s.normals, i),
        albedo: Vec3::ZERO,
        area: 0.0,
        direct: Vec3::ZERO,
        irr: vector(&s.irr, i),
        rad: Vec3::splat(f32::NAN),
    }
}

fn vector(table: &[f32], i: usize) -> Vec3 {
    Vec3::new(table[3 * i], table[3 * i + 1], table[3 * i + 2])
}
