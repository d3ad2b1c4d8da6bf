//! The consulting room as distance shapes, in metres: x along the room, y up, z across it.
//!
//! Solids that stand on or against another reach into it a little, so that no surface lies between.

use crate::plan::{plan, Plan};
use sokitahe::{Bounds, Scene, Shape, Vec3};

/// The floor from wall to wall.
pub const ROOM: Plan = plan([0.0, 0.0], [4.4, 3.2]);
/// The mattress of the couch; its head is at the low end of x.
pub const COUCH: Plan = plan([0.5, 0.35], [2.4, 1.0]);
/// How high the mattress is.
pub const COUCH_TOP: f32 = 0.58;
/// The curtain, drawn along the head of the couch.
const CURTAIN: Plan = plan([0.25, 1.25], [1.79, 1.36]);
const DESK: Plan = plan([2.6, 2.45], [4.0, 3.12]);
const STOOL: Plan = plan([3.2, 1.2], [3.64, 1.64]);
const CABINET: Plan = plan([0.35, 2.75], [1.45, 3.2]);
/// What stands in the room, by name.
pub const FURNITURE: [(&str, Plan); 5] = [
    ("couch", COUCH),
    ("curtain", CURTAIN),
    ("desk", DESK),
    ("stool", STOOL),
    ("cabinet", CABINET),
];
/// How high the ceiling is.
pub const CEILING: f32 = 2.6;
/// A box close round the room with the recesses of its window and its door.
pub const BOUNDS: Bounds = Bounds {
    lo: [-0.15, -0.02, -0.02],
    hi: [4.67, CEILING + 0.02, 3.22],
};

/// How far solids reach into what they stand on.
const SUNK: f32 = 0.05;

/// The room with its walls and all that stands in it.
pub fn clinic() -> Scene {
    let mut scene = Scene::new();
    let materials = Materials::of(&mut scene);
    add_walls(&mut scene, &materials);
    add_couch(&mut scene, &materials);
    add_curtain(&mut scene, &materials);
    add_desk(&mut scene, &materials);
    add_stool(&mut scene, &materials);
    add_cabinet(&mut scene, &materials);
    scene
}

/// The numbers of the room's materials.
struct Materials {
    lino: u32,
    white: u32,
    cream: u32,
    green: u32,
    cover: u32,
    linen: u32,
    cloth: u32,
    metal: u32,
    wood: u32,
    grey: u32,
}

impl Materials {
    fn of(scene: &mut Scene) -> Materials {
        Materials {
            lino: scene.material([0.42, 0.40, 0.37], 0.0),
            white: scene.material([0.82, 0.82, 0.80], 0.0),
            cream: scene.material([0.72, 0.70, 0.66], 0.0),
            green: scene.material([0.34, 0.62, 0.38], 0.0),
            cover: scene.material([0.24, 0.36, 0.52], 0.0),
            linen: scene.material([0.85, 0.85, 0.83], 0.0),
            cloth: scene.material([0.46, 0.60, 0.74], 0.0),
            metal: scene.material([0.60, 0.60, 0.62], 0.4),
            wood: scene.material([0.58, 0.44, 0.30], 0.0),
            grey: scene.material([0.55, 0.55, 0.56], 0.0),
        }
    }
}

/// A box with rounded edges over a plan, from one height to another.
fn block(over: Plan, from: f32, to: f32, r: f32) -> Shape {
    let lo = [over.lo[0], from, over.lo[1]];
    let hi = [over.hi[0], to, over.hi[1]];
    Shape::RoundBox {
        c: std::array::from_fn(|axis| (lo[axis] + hi[axis]) / 2.0),
        b: std::array::from_fn(|axis| (hi[axis] - lo[axis]) / 2.0),
        r,
    }
}

/// Floor, ceiling and four walls: the one along the couch green, the one at its head with the recess
/// of a door, the one across from that with the niche of a window.
fn add_walls(scene: &mut Scene, materials: &Materials) {
    let [length, width] = ROOM.hi;
    let door = block(plan([-0.1, 1.7], [0.1, 2.6]), -SUNK, 2.05, 0.01);
    let niche = plan([length - 0.1, 0.5], [length + 0.22, 1.9]);
    let window = block(niche, 0.95, 2.05, 0.01);
    scene.plane([0.0, 1.0, 0.0], 0.0, materials.lino);
    scene.plane([0.0, -1.0, 0.0], -CEILING, materials.white);
    scene.plane([0.0, 0.0, 1.0], 0.0, materials.green);
    scene.plane([0.0, 0.0, -1.0], -width, materials.cream);
    scene.plane_less([1.0, 0.0, 0.0], 0.0, &[door], materials.cream);
    scene.plane_less([-1.0, 0.0, 0.0], -length, &[window], materials.cream);
}

/// A plinth, a mattress that stands out over it, a raised head part and a pillow.
fn add_couch(scene: &mut Scene, materials: &Materials) {
    let bottom = COUCH_TOP - 0.15;
    let head = plan(COUCH.lo, [COUCH.lo[0] + 0.56, COUCH.hi[1]]);
    let plinth = COUCH.widened(-0.08);
    let pillow_end = |z: f32| -> Vec3 { [COUCH.lo[0] + 0.22, COUCH_TOP + 0.15, z] };
    let pillow = Shape::Capsule {
        a: pillow_end(COUCH.lo[1] + 0.15),
        b: pillow_end(COUCH.hi[1] - 0.15),
        r: 0.08,
    };
    scene.object(block(plinth, -SUNK, bottom + SUNK, 0.02), materials.grey);
    scene.object(block(COUCH, bottom, COUCH_TOP, 0.04), materials.cover);
    scene.object(
        block(head, bottom + SUNK, COUCH_TOP + 0.1, 0.05),
        materials.cover,
    );
    scene.object(pillow, materials.linen);
}

/// Four folds, by turns before and behind, and the rail that they hang from.
fn add_curtain(scene: &mut Scene, materials: &Materials) {
    const FOLDS: usize = 4;
    const OVERLAP: f32 = 0.02;
    const BOTTOM: f32 = 0.3;
    const RAIL: f32 = 2.08;
    let [length, depth] = CURTAIN.size();
    let step = (length - OVERLAP) / FOLDS as f32;
    for fold in 0..FOLDS {
        let x = CURTAIN.lo[0] + step * fold as f32;
        let z = CURTAIN.lo[1] + (fold % 2) as f32 * (depth - OVERLAP) / 2.0;
        let over = plan([x, z], [x + step + OVERLAP, z + (depth + OVERLAP) / 2.0]);
        scene.object(block(over, BOTTOM, RAIL, 0.025), materials.cloth);
    }
    let rail_end = |x: f32| -> Vec3 { [x, RAIL, CURTAIN.middle()[1]] };
    let rail = Shape::Capsule {
        a: rail_end(-SUNK),
        b: rail_end(COUCH.hi[0] + 0.2),
        r: 0.02,
    };
    scene.object(rail, materials.metal);
}

/// A desk top on drawers and a leg.
fn add_desk(scene: &mut Scene, materials: &Materials) {
    let drawers = plan([3.5, 2.5], [3.95, 3.07]);
    let leg_end = |y: f32| -> Vec3 { [DESK.lo[0] + 0.1, y, DESK.middle()[1]] };
    let leg = Shape::Capsule {
        a: leg_end(-SUNK),
        b: leg_end(0.7),
        r: 0.04,
    };
    scene.object(block(DESK, 0.7, 0.76, 0.01), materials.wood);
    scene.object(block(drawers, -SUNK, 0.72, 0.02), materials.grey);
    scene.object(leg, materials.grey);
}

/// A round stool: its seat a cylinder, its foot a cone.
fn add_stool(scene: &mut Scene, materials: &Materials) {
    let [x, z] = STOOL.middle();
    let seat = Shape::Cylinder {
        a: [x, 0.44, z],
        b: [x, 0.52, z],
        r: 0.19,
    };
    let foot = Shape::Cone {
        a: [x, -SUNK, z],
        b: [x, 0.46, z],
        ra: STOOL.size()[0] / 2.0,
        rb: 0.03,
    };
    scene.object(seat, materials.cover);
    scene.object(foot, materials.grey);
}

/// A tall cabinet against the wall across from the couch.
fn add_cabinet(scene: &mut Scene, materials: &Materials) {
    let over = plan(CABINET.lo, [CABINET.hi[0], CABINET.hi[1] + SUNK]);
    scene.object(block(over, -SUNK, 1.85, 0.01), materials.wood);
}
