//! What a call for placement is lent: a scene, materials, columns of surfels and scratch: what the lines
//! of crates/replay_placement store. crates/stored_placement has as many places as there are here.

use crate::answers::word;
use crate::cases::Case;
use crate::stores::Scratch;
use crate::tables::{Tables, OBJECTS, PLANES, PRIMS};
use crate::transfers::floats;
use interflect::surfel::Surfel;

pub const MATERIALS: usize = 16;
pub const SURFELS: usize = 128;
pub const CELLS: usize = 512;

/// How many places of each table a call is lent, in the order of the line `lent`. More than there are
/// means all.
#[derive(Clone, Copy, PartialEq, Eq, Default)]
pub struct Lent {
    pub kinds: usize,
    pub lengths: usize,
    pub plane_parts: usize,
    pub object_parts: usize,
    pub materials: usize,
    pub p: usize,
    pub n: usize,
    pub albedo: usize,
    pub area: usize,
    pub direct: usize,
    pub irr: usize,
    pub rad: usize,
    pub head: usize,
    pub next: usize,
}

impl Lent {
    pub fn words(self) -> Vec<u32> {
        let lengths = [
            self.kinds,
            self.lengths,
            self.plane_parts,
            self.object_parts,
            self.materials,
            self.p,
            self.n,
            self.albedo,
            self.area,
            self.direct,
            self.irr,
            self.rad,
            self.head,
            self.next,
        ];
        lengths.map(|length| length as u32).to_vec()
    }

    /// The lengths of these words, at most all places.
    fn of(words: &[u32]) -> Lent {
        let length = |k: usize, places: usize| places.min(words[k] as usize);
        Lent {
            kinds: length(0, PRIMS),
            lengths: length(1, 8 * PRIMS),
            plane_parts: length(2, 4 * PLANES),
            object_parts: length(3, 4 * OBJECTS),
            materials: length(4, 4 * MATERIALS),
            p: length(5, 3 * SURFELS),
            n: length(6, 3 * SURFELS),
            albedo: length(7, 3 * SURFELS),
            area: length(8, SURFELS),
            direct: length(9, 3 * SURFELS),
            irr: length(10, 3 * SURFELS),
            rad: length(11, 3 * SURFELS),
            head: length(12, CELLS),
            next: length(13, SURFELS),
        }
    }

    /// With as many places of the scene's tables as there are.
    pub fn whole_scene(self) -> Lent {
        Lent {
            kinds: PRIMS,
            lengths: 8 * PRIMS,
            plane_parts: 4 * PLANES,
            object_parts: 4 * OBJECTS,
            ..self
        }
    }

    /// With places for so many surfels.
    pub fn for_surfels(self, n: usize) -> Lent {
        Lent {
            p: 3 * n,
            n: 3 * n,
            albedo: 3 * n,
            area: n,
            direct: 3 * n,
            irr: 3 * n,
            rad: 3 * n,
            next: n,
            ..self
        }
    }
}

/// What is stored. Vectors are flat, three floats each.
pub struct Site {
    pub scene: Tables,
    pub materials: [f32; 4 * MATERIALS],
    pub p: [f32; 3 * SURFELS],
    pub n: [f32; 3 * SURFELS],
    pub albedo: [f32; 3 * SURFELS],
    pub area: [f32; SURFELS],
    pub direct: [f32; 3 * SURFELS],
    pub irr: [f32; 3 * SURFELS],
    pub rad: [f32; 3 * SURFELS],
    pub head: [Scratch; CELLS],
    pub next: [Scratch; SURFELS],
    pub lent: Lent,
}

impl Site {
    /// As the program starts: every word is zero, and nothing is lent.
    pub fn new() -> Site {
        Site {
            scene: Tables::new(),
            materials: [0.0; 4 * MATERIALS],
            p: [0.0; 3 * SURFELS],
            n: [0.0; 3 * SURFELS],
            albedo: [0.0; 3 * SURFELS],
            area: [0.0; SURFELS],
            direct: [0.0; 3 * SURFELS],
            irr: [0.0; 3 * SURFELS],
            rad: [0.0; 3 * SURFELS],
            head: [Some(0); CELLS],
            next: [Some(0); SURFELS],
            lent: Lent::default(),
        }
    }

    /// Stores what the case stores, nothing where it names a place that is not there. Whether it is
    /// a case that stores: else it is a question.
    pub fn store(&mut self, case: &Case) -> bool {
        let words = &case.operands;
        match case.name {
            "lent" => self.lent = Lent::of(words),
            "fill" => self.fill(words),
            "put_materials" => {
                let given = words[1..].iter().copied().map(f32::from_bits);
                let places = self.materials.iter_mut().skip(words[0] as usize);
                places.zip(given).for_each(|(place, x)| *place = x);
            }
            _ => return self.scene.store(case),
        }
        true
    }

    /// One word in every place of a table that a call can write, another in each.
    fn fill(&mut self, w: &[u32]) {
        let x: Vec<f32> = w.iter().copied().map(f32::from_bits).collect();
        self.p.fill(x[0]);
        self.n.fill(x[1]);
        self.albedo.fill(x[2]);
        self.area.fill(x[3]);
        self.direct.fill(x[4]);
        self.irr.fill(x[5]);
        self.rad.fill(x[6]);
        self.head.fill(Some(w[7]));
        self.next.fill(Some(w[8]));
    }

    /// A surfel at place k of the columns.
    pub fn put(&mut self, k: usize, surfel: &Surfel) {
        let place = 3 * k..3 * k + 3;
        self.p[place.clone()].copy_from_slice(&floats(surfel.p));
        self.n[place.clone()].copy_from_slice(&floats(surfel.n));
        self.albedo[place.clone()].copy_from_slice(&floats(surfel.albedo));
        self.area[k] = surfel.area;
        self.direct[place.clone()].copy_from_slice(&floats(surfel.direct));
        self.irr[place.clone()].copy_from_slice(&floats(surfel.irr));
        self.rad[place].copy_from_slice(&floats(surfel.rad));
    }

    /// The words of the materials.
    pub fn material_words(&self) -> Vec<u32> {
        self.materials.iter().copied().map(word).collect()
    }
}
