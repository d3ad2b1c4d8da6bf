//! What the Rust answers to a call for placement, or the number that document 01 refuses it with; and
//! what the call leaves in the lent tables.

use crate::answers::word;
use crate::cases::Case;
use crate::placement_refusals as refusals;
use crate::sites::Site;
use crate::transfers::{floats, floats_to, scratch};
use interflect::scene::{Material, Scene};
use interflect::surfel::{generate, Surfel};
use interflect::Vec3;

/// What a call is told: how many materials there are, how many surfels are wanted, and the bounds.
#[derive(Clone, Copy)]
pub struct Told {
    pub mats: u32,
    pub target: u32,
    pub lo: Vec3,
    pub hi: Vec3,
}

impl Told {
    /// The operands of the line `generate`.
    pub fn words(self) -> Vec<u32> {
        let vectors = [self.lo, self.hi].into_iter().flat_map(floats).map(word);
        [self.mats, self.target]
            .into_iter()
            .chain(vectors)
            .collect()
    }

    /// What these operands tell.
    pub fn of(w: &[u32]) -> Told {
        let v = |i: usize| Vec3::new(x(w[i]), x(w[i + 1]), x(w[i + 2]));
        Told {
            mats: w[0],
            target: w[1],
            lo: v(2),
            hi: v(5),
        }
    }

    /// The separation of surfels, in the steps of the Rust's `generate`.
    pub fn d_min(self) -> f32 {
        let diag = (self.hi - self.lo).length();
        (diag / (self.target as f32).sqrt()).max(1e-4)
    }

    /// How many cells the Rust's `generate` has, in its steps.
    pub fn cells(self) -> usize {
        let inv_cell = 1.0 / self.d_min();
        let ext = floats(self.hi - self.lo);
        let dim = ext.map(|e| ((e * inv_cell).ceil() as i32).clamp(1, 512) as usize);
        dim.iter().product()
    }
}

/// The lines that a case has in stdout: none where it stores, one for an answer, and one for each
/// sixteen words of the tables that are shown.
pub fn lines(s: &mut Site, case: &Case) -> Vec<Vec<u32>> {
    if s.store(case) {
        return Vec::new();
    }
    let w = &case.operands;
    match case.name {
        "show" => shown(s, w[0] as usize, w[1] as usize, w[2] as usize),
        "generate" => vec![answer(s, Told::of(w))],
        name => panic!("no question `{name}`"),
    }
}

/// The result words: a refusal's number alone, else zero and how many surfels were placed; these are
/// stored.
pub fn answer(s: &mut Site, told: Told) -> Vec<u32> {
    if let Some(number) = refusals::number(s, told) {
        return vec![number];
    }
    let surfels = generate(&scene(s, told), told.target as usize);
    assert_sound(told, &surfels);
    for (k, surfel) in surfels.iter().enumerate() {
        s.put(k, surfel);
    }
    s.head[..told.cells()].fill(None);
    s.next[..told.target as usize].fill(None);
    vec![0, surfels.len() as u32]
}

/// At most as many surfels as are wanted, no two of them nearer than the separation, all of one area
/// and without light.
fn assert_sound(told: Told, surfels: &[Surfel]) {
    let d_min = told.d_min();
    assert!(surfels.len() <= told.target as usize);
    for (k, a) in surfels.iter().enumerate() {
        let near = |b: &Surfel| (a.p - b.p).length_squared() < d_min * d_min;
        assert!(!surfels[..k].iter().any(near));
        assert_eq!(a.area.to_bits(), (d_min * d_min / 0.65).to_bits());
        for light in [a.direct, a.irr, a.rad] {
            assert_eq!(floats(light).map(f32::to_bits), [0; 3]);
        }
    }
}

/// The Rust's scene of the tables, with these bounds and materials.
pub fn scene(s: &Site, told: Told) -> Scene {
    let mut scene = s.scene.scene();
    let lent = s.materials.chunks_exact(4).take(told.mats as usize);
    scene.materials = lent.map(material).collect();
    scene.bounds = (told.lo, told.hi);
    scene
}

/// A material of four floats: its albedo x, y, z and how metallic it is.
fn material(x: &[f32]) -> Material {
    Material {
        albedo: Vec3::new(x[0], x[1], x[2]),
        metallic: x[3],
        ..Material::default()
    }
}

/// What a call was lent to write: the columns as far as they are lent and before surfel `upto`, then
/// the scratch from two places on.
fn shown(s: &Site, upto: usize, head: usize, next: usize) -> Vec<Vec<u32>> {
    let lent = s.lent;
    [
        floats_to(&s.p, lent.p.min(3 * upto)),
        floats_to(&s.n, lent.n.min(3 * upto)),
        floats_to(&s.albedo, lent.albedo.min(3 * upto)),
        floats_to(&s.area, lent.area.min(upto)),
        floats_to(&s.direct, lent.direct.min(3 * upto)),
        floats_to(&s.irr, lent.irr.min(3 * upto)),
        floats_to(&s.rad, lent.rad.min(3 * upto)),
        scratch(&s.head, head, lent.head),
        scratch(&s.next, next, lent.next),
    ]
    .concat()
}

fn x(word: u32) -> f32 {
    f32::from_bits(word)
}
