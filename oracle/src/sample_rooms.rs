//! The rooms of the folder rooms/: room Q, and rooms that the nine files themselves make of a scene by
//! placing surfels, lighting them, and building clusters and rows.

use crate::room_files::{Probe, RoomFile};
use interflect::formfactor::{build, build_clusters};
use interflect::scene::{open::of_shapes, Material, QuadLight, Scene};
use interflect::sdf::{Object, Prim};
use interflect::solve::light_surfels;
use interflect::surfel::generate;
use interflect::Vec3;

/// Each room under the name of its file.
pub fn all() -> Vec<(&'static str, RoomFile)> {
    let clinic = clinic();
    vec![
        ("q", RoomFile::q()),
        ("full", full()),
        ("clinic_open", with(&clinic, |room| room.limit = 2)),
        ("clinic_cells", with(&clinic, |room| room.cell = 0.1)),
        (
            "clinic_albedo",
            with(&clinic, |room| room.surfels[7].albedo.x = 1.05),
        ),
        ("clinic", clinic),
        ("ward", ward()),
    ]
}

/// The room after a change.
fn with(room: &RoomFile, change: impl Fn(&mut RoomFile)) -> RoomFile {
    let mut other = room.clone();
    change(&mut other);
    other
}

/// Room Q with one bounce and its surfel a member as often as fills 65,536 bytes, the most that
/// `roomlight` takes.
fn full() -> RoomFile {
    with(&RoomFile::q(), |room| {
        let more = (65_536 - room.bytes().len()) / 4;
        room.members = vec![0; 1 + more];
        room.clusters[0].count = 1 + more as u32;
        room.limit = 1;
    })
}

const UP: Vec3 = Vec3::new(0.0, 0.0, 1.0);

/// A consulting room of 4 × 3 × 2.7 m. Its one lamp shines at the ceiling. Probes lie along the couch;
/// the last hangs in the middle of the room, where no surfel is near.
fn clinic() -> RoomFile {
    let couch = RoundBox(Vec3::new(1.3, 1.5, 0.3), Vec3::new(0.95, 0.4, 0.3));
    let desk = RoundBox(Vec3::new(3.5, 2.4, 0.4), Vec3::new(0.45, 0.55, 0.4));
    let lamp = lamp(Vec3::new(2.0, 1.5, 2.2), Vec3::new(0.5, 0.2, 0.0), 30.0);
    let scene = scene(Vec3::new(4.0, 3.0, 2.7), &[couch, desk], lamp);
    let mut room = made(&scene, 90, 0.9);
    for k in 0..5 {
        let p = Vec3::new(0.5 + 0.4 * k as f32, 1.5, 0.61);
        room.probes.push(Probe { p, n: UP });
    }
    let p = Vec3::new(2.0, 1.5, 1.7);
    room.probes.push(Probe { p, n: UP });
    room
}

/// A ward of 6 × 3 × 2.7 m with two couches and a screen between them. The lamp hangs over the first
/// couch and shines down: the second has only light that came over and round the screen.
fn ward() -> RoomFile {
    let couch = |x| RoundBox(Vec3::new(x, 1.5, 0.3), Vec3::new(0.4, 0.95, 0.3));
    let screen = RoundBox(Vec3::new(3.0, 1.2, 0.9), Vec3::new(0.1, 1.2, 0.9));
    let lamp = lamp(Vec3::new(1.5, 1.5, 2.5), Vec3::new(0.2, -0.5, 0.0), 12.0);
    let scene = scene(
        Vec3::new(6.0, 3.0, 2.7),
        &[couch(1.5), couch(4.5), screen],
        lamp,
    );
    let mut room = made(&scene, 100, 1.0);
    for x in [1.5, 4.5] {
        for y in [1.0, 1.5, 2.0] {
            let p = Vec3::new(x, y, 0.61);
            room.probes.push(Probe { p, n: UP });
        }
    }
    room
}

/// A box with its centre and its half sizes.
struct RoundBox(Vec3, Vec3);

/// A lamp with its centre and half sizes, whose corners run round `half`: it shines up where both are
/// positive, and down where one is negative.
fn lamp(centre: Vec3, half: Vec3, emit: f32) -> QuadLight {
    let corner = |x: f32, y: f32| centre + Vec3::new(x * half.x, y * half.y, 0.0);
    QuadLight {
        verts: [
            corner(-1.0, -1.0),
            corner(1.0, -1.0),
            corner(1.0, 1.0),
            corner(-1.0, 1.0),
        ],
        emit: Vec3::new(emit, 0.95 * emit, 0.85 * emit),
    }
}

/// A room from zero to this corner with boxes in it: floor, ceiling, walls, and one paint for each.
fn scene(size: Vec3, boxes: &[RoundBox], lamp: QuadLight) -> Scene {
    let plane = |n: Vec3, h: f32, mat: u32| alone(Prim::Plane { n, h }, mat);
    let (x, y) = (Vec3::new(1.0, 0.0, 0.0), Vec3::Y);
    let planes = vec![
        plane(UP, 0.0, 0),
        plane(-UP, -size.z, 1),
        plane(x, 0.0, 2),
        plane(-x, -size.x, 2),
        plane(y, 0.0, 2),
        plane(-y, -size.y, 2),
    ];
    let furniture = boxes.iter().map(|b| {
        let prim = Prim::RoundBox {
            c: b.0,
            b: b.1,
            r: 0.04,
        };
        alone(prim, 3)
    });
    let mut scene = of_shapes(planes, furniture.collect());
    let paints = [
        Vec3::new(0.4, 0.35, 0.3),
        Vec3::splat(0.85),
        Vec3::new(0.7, 0.72, 0.68),
        Vec3::new(0.3, 0.45, 0.5),
    ];
    scene.materials = paints.map(paint).to_vec();
    scene.lights = vec![lamp];
    let margin = Vec3::splat(0.1);
    scene.bounds = (-margin, size + margin);
    scene
}

fn alone(prim: Prim, mat: u32) -> Object {
    Object {
        prim,
        subtract: Vec::new(),
        mat,
        blend: 0.0,
    }
}

fn paint(albedo: Vec3) -> Material {
    Material {
        albedo,
        ..Material::default()
    }
}

/// The scene's surfels with the light of its lamp, clusters of two voxels on an axis, and their
/// rows; up to 40 bounces, read within `radius`, in cells of that size.
fn made(scene: &Scene, target: usize, radius: f32) -> RoomFile {
    let mut surfels = generate(scene, target);
    light_surfels(scene, &mut surfels);
    let clusters = build_clusters(scene, &surfels, 2);
    let (transfer, _) = build(scene, &surfels, clusters);
    let (lo, hi) = scene.bounds;
    let mut room = RoomFile::empty(lo, hi, radius, radius);
    room.set_transfer(&surfels, &transfer);
    room.limit = 40;
    room
}
