//! The cases of crates/replay_scene: which scenes are stored, and what is asked about each.

mod directions;
mod limits;
mod marches;
pub mod rooms;
mod shapes;

use crate::answers::word;
use crate::cases::Case;
use crate::queries;
use crate::tables::{Part, Tables};
use interflect::Vec3;
use std::collections::HashMap;

/// All cases of crates/replay_scene, in the order of its file stdin.
pub fn all() -> Vec<Case> {
    let mut script = Script::new();
    rooms::write(&mut script);
    shapes::write(&mut script);
    marches::write(&mut script);
    directions::write(&mut script);
    limits::write(&mut script);
    script.list
}

/// A primitive: its kind and its eight floats.
#[derive(Clone, Copy)]
pub struct Shape {
    pub kind: u32,
    pub lengths: [f32; 8],
}

pub fn shape(kind: u32, floats: &[f32]) -> Shape {
    let mut lengths = [0.0; 8];
    lengths[..floats.len()].copy_from_slice(floats);
    Shape { kind, lengths }
}

pub fn sphere(c: Vec3, r: f32) -> Shape {
    shape(0, &[c.x, c.y, c.z, r])
}

pub fn round_box(c: Vec3, b: Vec3, r: f32) -> Shape {
    shape(1, &[c.x, c.y, c.z, b.x, b.y, b.z, r])
}

pub fn plane(n: Vec3, h: f32) -> Shape {
    shape(2, &[n.x, n.y, n.z, h])
}

pub fn capsule(a: Vec3, b: Vec3, r: f32) -> Shape {
    shape(3, &[a.x, a.y, a.z, b.x, b.y, b.z, r])
}

pub fn torus(c: Vec3, major: f32, minor: f32) -> Shape {
    shape(4, &[c.x, c.y, c.z, major, minor])
}

pub fn cylinder(a: Vec3, b: Vec3, r: f32) -> Shape {
    shape(5, &[a.x, a.y, a.z, b.x, b.y, b.z, r])
}

pub fn cone(a: Vec3, b: Vec3, ra: f32, rb: f32) -> Shape {
    shape(6, &[a.x, a.y, a.z, b.x, b.y, b.z, ra, rb])
}

pub fn at(x: f32, y: f32, z: f32) -> Vec3 {
    Vec3::new(x, y, z)
}

/// A scene in the making.
#[derive(Clone, Default)]
pub struct Room {
    pub shapes: Vec<Shape>,
    pub planes: Vec<Part>,
    pub objects: Vec<Part>,
}

impl Room {
    /// A room with these objects, without subtractions; their materials are 1, 2, 3 and so on.
    pub fn of(shapes: &[Shape]) -> Room {
        let mut room = Room::default();
        for (&base, mat) in shapes.iter().zip(1..) {
            room.add(base, &[], mat);
        }
        room
    }

    /// Adds a plane or an object with what is subtracted from it.
    pub fn add(&mut self, base: Shape, subtracted: &[Shape], mat: u32) {
        let at = self.shapes.len() as u32;
        let part = Part {
            base: at,
            first: at + 1,
            many: subtracted.len() as u32,
            mat,
        };
        self.shapes.push(base);
        self.shapes.extend(subtracted);
        match base.kind {
            2 => self.planes.push(part),
            _ => self.objects.push(part),
        }
    }

    /// The same, with nothing else in the room.
    pub fn with(base: Shape, subtracted: &[Shape]) -> Room {
        let mut room = Room::default();
        room.add(base, subtracted, 1);
        room
    }

    /// The lines that store the whole scene.
    pub fn lines(&self) -> Vec<Case> {
        let counts = [self.shapes.len(), self.planes.len(), self.objects.len()];
        let mut list = vec![Case {
            name: "counts",
            operands: counts.map(|n| n as u32).to_vec(),
        }];
        let shapes = (0..).zip(&self.shapes);
        list.extend(shapes.map(|(k, shape)| prim_line(k, shape)));
        let planes = (0..).zip(&self.planes);
        list.extend(planes.map(|(j, part)| part_line("plane", j, part)));
        let objects = (0..).zip(&self.objects);
        list.extend(objects.map(|(j, part)| part_line("object", j, part)));
        list
    }
}

/// The line that stores a primitive.
fn prim_line(k: u32, shape: &Shape) -> Case {
    Case {
        name: "prim",
        operands: [&[k, shape.kind], &shape.lengths.map(word)[..]].concat(),
    }
}

/// The line that stores a plane or an object.
fn part_line(name: &'static str, j: u32, part: &Part) -> Case {
    Case {
        name,
        operands: vec![j, part.base, part.first, part.many, part.mat],
    }
}

/// The lines so far, the tables as they stand after them, and what was last stored at each place.
struct Script {
    list: Vec<Case>,
    tables: Tables,
    stored: HashMap<(&'static str, u32), Vec<u32>>,
}

impl Script {
    fn new() -> Script {
        Script {
            list: Vec::new(),
            tables: Tables::new(),
            stored: HashMap::new(),
        }
    }

    /// A line that stores, unless the same is stored at that place already.
    fn store(&mut self, case: Case) {
        let place = match case.name {
            "counts" => 0,
            _ => case.operands[0],
        };
        let last = self
            .stored
            .insert((case.name, place), case.operands.clone());
        if last.as_ref() != Some(&case.operands) {
            assert!(self.tables.store(&case));
            self.list.push(case);
        }
    }

    fn counts(&mut self, prims: u32, planes: u32, objects: u32) {
        self.store(Case {
            name: "counts",
            operands: vec![prims, planes, objects],
        });
    }

    fn prim(&mut self, k: u32, shape: Shape) {
        self.store(prim_line(k, &shape));
    }

    fn plane(&mut self, j: u32, part: Part) {
        self.store(part_line("plane", j, &part));
    }

    fn object(&mut self, j: u32, part: Part) {
        self.store(part_line("object", j, &part));
    }

    /// Stores a whole scene.
    fn room(&mut self, room: &Room) {
        for line in room.lines() {
            self.store(line);
        }
    }

    /// A question: vectors and floats one after the other.
    fn ask(&mut self, name: &'static str, vectors: &[Vec3], floats: &[f32]) {
        let vectors = vectors.iter().flat_map(|v| [v.x, v.y, v.z]);
        let operands = vectors.chain(floats.iter().copied()).map(word).collect();
        self.list.push(Case { name, operands });
    }

    /// The distance at a point: not where document 01 leaves the sign of a zero open.
    fn dist(&mut self, name: &'static str, p: Vec3) {
        if crate::refusals::number(&self.tables, &[]).is_none() {
            assert!(!queries::either_zero(&self.tables.scene(), p));
        }
        self.ask(name, &[p], &[]);
    }

    /// Every question that has a coordinate check, and those that have none, at one point.
    fn each(&mut self, p: Vec3) {
        let up = at(0.0, 1.0, 0.0);
        self.dist("dist_mat", p);
        self.ask("normal", &[p], &[]);
        self.ask("trace", &[p, up], &[0.0, 10.0]);
        self.ask("soft_shadow", &[p, up], &[0.01, 2.0, 8.0]);
        self.ask("closure", &[p, up], &[10.0]);
        self.dist("dist_any", p);
        self.ask("normal_any", &[p], &[]);
        self.ask("trace_any", &[p, up], &[0.0, 10.0]);
        self.ask("shadow_any", &[p, up], &[0.01, 2.0, 8.0]);
        self.ask("closure_any", &[p, up], &[10.0]);
        self.ask("project", &[p], &[0.01, 20.0]);
    }
}
