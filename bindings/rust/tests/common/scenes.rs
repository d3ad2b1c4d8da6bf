//! Calls of the five entries on a scene.
use super::{bits, mistake, outside, over, within, Call, Lent, Mistake, Slot, FAR};
use sokitahe::lent::{self, SceneTables};
use sokitahe::{Refused, Vec3};

/// A floor, a sphere without a rounded box, and a cone.
pub struct SceneCase {
    pub prims: usize,
    pub planes: usize,
    pub objects: usize,
    pub kinds: Vec<u32>,
    pub lengths: Vec<f32>,
    pub plane_parts: Vec<u32>,
    pub object_parts: Vec<u32>,
}

impl SceneCase {
    pub fn sound() -> SceneCase {
        let floor = [0.0, 1.0, 0.0, 0.0, 0.0, 0.0, 0.0, 0.0];
        let sphere = [0.0, 1.0, 0.0, 0.5, 0.0, 0.0, 0.0, 0.0];
        let hollow = [0.0, 1.4, 0.0, 0.2, 0.2, 0.2, 0.05, 0.0];
        let cone = [1.0, 0.0, 0.0, 1.0, 0.5, 0.0, 0.2, 0.1];
        SceneCase {
            prims: 4,
            planes: 1,
            objects: 2,
            kinds: vec![2, 0, 1, 6],
            lengths: [floor, sphere, hollow, cone].concat(),
            plane_parts: vec![0, 1, 0, 0],
            object_parts: vec![1, 2, 1, 1, 3, 4, 0, 1],
        }
    }

    pub fn tables(&self) -> SceneTables<'_> {
        SceneTables {
            prims: self.prims,
            planes: self.planes,
            objects: self.objects,
            kinds: &self.kinds,
            lengths: &self.lengths,
            plane_parts: &self.plane_parts,
            object_parts: &self.object_parts,
        }
    }

    pub fn slots(&mut self) -> Vec<Slot<'_>> {
        vec![
            Slot::read("kinds", Lent::Numbers(&mut self.kinds)),
            Slot::read("lengths", Lent::Floats(&mut self.lengths)),
            Slot::read("plane_parts", Lent::Numbers(&mut self.plane_parts)),
            Slot::read("object_parts", Lent::Numbers(&mut self.object_parts)),
        ]
    }

    pub fn mistakes() -> Vec<Mistake<SceneCase>> {
        let mut mistakes = over(&[
            ("prims", |s: &mut SceneCase| &mut s.prims, 256),
            ("planes", |s| &mut s.planes, 256),
            ("objects", |s| &mut s.objects, 256),
        ]);
        mistakes.extend(outside(
            5,
            &[
                ("plane", |s: &mut SceneCase| &mut s.lengths[..4], -FAR, FAR),
                ("radii", |s| &mut s.lengths[30..32], 0.0, FAR),
            ],
        ));
        let part = |name: &str, make: fn(&mut SceneCase)| mistake(6, name, make);
        mistakes.extend([
            part("a kind over 6", |s| s.kinds[3] = 7),
            part("a base outside", |s| s.object_parts[4] = 4),
            part("a base far outside", |s| s.plane_parts[0] = u32::MAX),
            part("a subtracted range outside", |s| s.object_parts[2] = 3),
            part("an empty range outside", |s| s.object_parts[5] = 5),
            part("a range that wraps", |s| {
                s.object_parts[1..3].fill(u32::MAX)
            }),
            part("a plane as an object's base", |s| s.object_parts[0] = 0),
            part("an object as a plane's base", |s| s.plane_parts[0] = 1),
        ]);
        mistakes
    }
}

/// A scene, a point and a direction; which entry is asked is `ENTRY` of the marker.
pub struct SceneCall<A> {
    pub scene: SceneCase,
    pub p: Vec3,
    pub n: Vec3,
    ask: std::marker::PhantomData<A>,
}

/// An entry on a scene.
pub trait Ask: 'static {
    const ENTRY: &'static str;
    /// Whether the direction is a normal, and held to the range of coordinates.
    const NORMAL: bool = false;
    fn ask(scene: SceneTables<'_>, p: Vec3, n: Vec3) -> Result<Vec<u32>, Refused>;
}

impl<A: Ask> Call for SceneCall<A> {
    const ENTRY: &'static str = A::ENTRY;
    const NUMBERS: &'static [u32] = &[2, 4, 5, 6];

    fn sound() -> SceneCall<A> {
        SceneCall {
            scene: SceneCase::sound(),
            p: [0.75, 0.5, 0.25],
            n: [0.0, 1.0, 0.0],
            ask: std::marker::PhantomData,
        }
    }

    fn slots(&mut self) -> Vec<Slot<'_>> {
        self.scene.slots()
    }

    fn call(&mut self) -> Result<Vec<u32>, Refused> {
        A::ask(self.scene.tables(), self.p, self.n)
    }

    fn mistakes() -> Vec<Mistake<SceneCall<A>>> {
        let mut mistakes = within(|c: &mut SceneCall<A>| &mut c.scene, SceneCase::mistakes());
        mistakes.extend(outside(
            5,
            &[("point", |c: &mut SceneCall<A>| &mut c.p, -FAR, FAR)],
        ));
        if A::NORMAL {
            mistakes.extend(outside(
                5,
                &[("normal", |c: &mut SceneCall<A>| &mut c.n, -FAR, FAR)],
            ));
        }
        mistakes
    }
}

pub struct DistMat;
impl Ask for DistMat {
    const ENTRY: &'static str = "dist_mat";
    fn ask(scene: SceneTables<'_>, p: Vec3, _: Vec3) -> Result<Vec<u32>, Refused> {
        lent::dist_mat(scene, p).map(|nearest| vec![nearest.distance.to_bits(), nearest.material])
    }
}

pub struct Normal;
impl Ask for Normal {
    const ENTRY: &'static str = "normal";
    fn ask(scene: SceneTables<'_>, p: Vec3, _: Vec3) -> Result<Vec<u32>, Refused> {
        lent::normal(scene, p).map(|n| bits(&n))
    }
}

pub struct Trace;
impl Ask for Trace {
    const ENTRY: &'static str = "trace";
    fn ask(scene: SceneTables<'_>, p: Vec3, n: Vec3) -> Result<Vec<u32>, Refused> {
        let down = n.map(|x| -x);
        let traced = lent::trace(scene, p, down, 0.0, 10.0)?;
        let hit = traced.hit.expect("the floor below");
        let floats = [&[hit.t], &hit.p[..], &hit.n].concat();
        Ok([bits(&floats), vec![hit.material, traced.evals]].concat())
    }
}

pub struct SoftShadow;
impl Ask for SoftShadow {
    const ENTRY: &'static str = "soft_shadow";
    fn ask(scene: SceneTables<'_>, p: Vec3, n: Vec3) -> Result<Vec<u32>, Refused> {
        let shadow = lent::soft_shadow(scene, p, n, 0.01, 4.0, 2.0)?;
        Ok(vec![shadow.visibility.to_bits(), shadow.evals])
    }
}

pub struct HemisphereClosure;
impl Ask for HemisphereClosure {
    const ENTRY: &'static str = "hemisphere_closure";
    const NORMAL: bool = true;
    fn ask(scene: SceneTables<'_>, p: Vec3, n: Vec3) -> Result<Vec<u32>, Refused> {
        let closure = lent::hemisphere_closure(scene, p, n, 4.0)?;
        Ok(vec![closure.open.to_bits(), closure.evals])
    }
}
