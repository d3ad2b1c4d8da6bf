//! A scene as the port is lent it: three counts, a kind and eight floats a primitive, four numbers a
//! plane or object. crates/stored has as many places as there are here.

use crate::cases::Case;
use interflect::scene::{open::of_shapes, Scene};
use interflect::sdf::{Object, Prim};
use interflect::Vec3;

pub const PRIMS: usize = 16;
pub const PLANES: usize = 8;
pub const OBJECTS: usize = 16;

/// All places are lent, whatever the counts say.
pub struct Tables {
    pub prims: u32,
    pub planes: u32,
    pub objects: u32,
    pub kinds: [u32; PRIMS],
    pub lengths: [f32; 8 * PRIMS],
    pub plane_parts: [u32; 4 * PLANES],
    pub object_parts: [u32; 4 * OBJECTS],
}

/// A plane or an object: a base primitive with a range of primitives subtracted from it.
#[derive(Clone, Copy)]
pub struct Part {
    pub base: u32,
    pub first: u32,
    pub many: u32,
    pub mat: u32,
}

impl Tables {
    /// As the program starts: nothing is counted, every word is zero.
    pub fn new() -> Tables {
        Tables {
            prims: 0,
            planes: 0,
            objects: 0,
            kinds: [0; PRIMS],
            lengths: [0.0; 8 * PRIMS],
            plane_parts: [0; 4 * PLANES],
            object_parts: [0; 4 * OBJECTS],
        }
    }

    /// Stores what the case stores, nothing where it names a place that is not there. Whether it is
    /// a case that stores: else it is a question.
    pub fn store(&mut self, case: &Case) -> bool {
        let words = &case.operands;
        match case.name {
            "counts" => [self.prims, self.planes, self.objects] = [words[0], words[1], words[2]],
            "prim" => {
                let floats: Vec<f32> = words[2..].iter().copied().map(f32::from_bits).collect();
                put(&mut self.kinds, words[0], &words[1..2]);
                put(&mut self.lengths, words[0], &floats);
            }
            "plane" => put(&mut self.plane_parts, words[0], &words[1..]),
            "object" => put(&mut self.object_parts, words[0], &words[1..]),
            _ => return false,
        }
        true
    }

    pub fn planes(&self) -> Vec<Part> {
        parts(&self.plane_parts, self.planes)
    }

    pub fn objects(&self) -> Vec<Part> {
        parts(&self.object_parts, self.objects)
    }

    /// The Rust's scene. For tables that are not refused.
    pub fn scene(&self) -> Scene {
        let made = |list: Vec<Part>| list.into_iter().map(|part| self.object(part)).collect();
        of_shapes(made(self.planes()), made(self.objects()))
    }

    fn object(&self, part: Part) -> Object {
        let subtracted = part.first as usize..(part.first + part.many) as usize;
        Object {
            prim: self.prim(part.base as usize),
            subtract: subtracted.map(|k| self.prim(k)).collect(),
            mat: part.mat,
            blend: 0.0,
        }
    }

    /// "a kind, 0 to 6 in that order, and eight floats, in the order of the Rust's fields".
    fn prim(&self, k: usize) -> Prim {
        let x = &self.lengths[8 * k..8 * k + 8];
        let v = |i: usize| Vec3::new(x[i], x[i + 1], x[i + 2]);
        match self.kinds[k] {
            0 => Prim::Sphere { c: v(0), r: x[3] },
            1 => Prim::RoundBox {
                c: v(0),
                b: v(3),
                r: x[6],
            },
            2 => Prim::Plane { n: v(0), h: x[3] },
            3 => Prim::Capsule {
                a: v(0),
                b: v(3),
                r: x[6],
            },
            4 => Prim::Torus {
                c: v(0),
                major: x[3],
                minor: x[4],
            },
            5 => Prim::Cylinder {
                a: v(0),
                b: v(3),
                r: x[6],
            },
            6 => Prim::Cone {
                a: v(0),
                b: v(3),
                ra: x[6],
                rb: x[7],
            },
            kind => panic!("no kind {kind}"),
        }
    }
}

/// Puts an entry of a table at its place, if the table has that place.
fn put<T: Copy>(table: &mut [T], at: u32, entry: &[T]) {
    if let Some(place) = table.chunks_exact_mut(entry.len()).nth(at as usize) {
        place.copy_from_slice(entry);
    }
}

fn parts(words: &[u32], count: u32) -> Vec<Part> {
    let lent = words.chunks_exact(4).take(count as usize);
    let part = |w: &[u32]| Part {
        base: w[0],
        first: w[1],
        many: w[2],
        mat: w[3],
    };
    lent.map(part).collect()
}
