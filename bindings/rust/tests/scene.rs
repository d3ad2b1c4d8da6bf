//! Scenes made of shapes: each shape's fields stand where the library reads them, and surfels lie on the
//! surfaces.
use sokitahe::{Bounds, Clusters, Grid, Probe, Reading, Room, Rows, Scene, Shape, Surfels, Vec3};

/// A scene of one object.
fn scene_of(shape: Shape) -> Scene {
    let mut scene = Scene::new();
    let material = scene.material([0.5; 3], 0.0);
    scene.object(shape, material);
    scene
}

/// How far a point lies from the shape.
fn distance(shape: Shape, p: Vec3) -> f32 {
    scene_of(shape).dist_mat(p).expect("a sound scene").distance
}

const ORIGIN: Vec3 = [0.0; 3];
const UP: Vec3 = [0.0, 4.0, 0.0];

/// Points whose distance is a plain number, and would be another if two fields were exchanged.
#[test]
fn round_shapes_have_their_lengths() {
    let c = [1.0, 2.0, 3.0];
    assert_eq!(distance(Shape::Sphere { c, r: 0.5 }, [1.0, 2.0, 5.0]), 1.5);
    let b = [1.0, 0.5, 0.25];
    let sharp = Shape::RoundBox { c, b, r: 0.0 };
    assert_eq!(distance(sharp, [4.0, 2.0, 3.0]), 2.0);
    assert_eq!(distance(sharp, [1.0, 4.0, 3.0]), 1.5);
    assert_eq!(distance(sharp, [1.0, 2.0, 4.0]), 0.75);
    let round = Shape::RoundBox { c, b, r: 0.25 };
    assert_eq!(distance(round, [1.0, 4.0, 3.0]), 1.5);
    assert!(distance(round, [4.0, 4.0, 3.0]) > distance(sharp, [4.0, 4.0, 3.0]));
    let torus = Shape::Torus {
        c,
        major: 2.0,
        minor: 0.5,
    };
    assert_eq!(distance(torus, c), 1.5);
    assert_eq!(distance(torus, [5.0, 2.0, 3.0]), 1.5);
}

#[test]
fn shapes_about_an_axis_have_their_lengths() {
    let (a, b) = (ORIGIN, UP);
    let capsule = Shape::Capsule { a, b, r: 0.5 };
    assert_eq!(distance(capsule, [3.0, 2.0, 0.0]), 2.5);
    assert_eq!(distance(capsule, [0.0, 6.0, 0.0]), 1.5);
    let cylinder = Shape::Cylinder { a, b, r: 0.5 };
    assert_eq!(distance(cylinder, [2.0, 2.0, 0.0]), 1.5);
    assert_eq!(distance(cylinder, [0.0, 6.0, 0.0]), 2.0);
    let cone = |ra: f32, rb: f32| Shape::Cone { a, b, ra, rb };
    assert_eq!(distance(cone(2.0, 0.0), [1.5, -1.0, 0.0]), 1.0);
    assert_eq!(distance(cone(0.0, 2.0), [1.5, 5.0, 0.0]), 1.0);
}

#[test]
fn a_plane_and_a_pit_in_it() {
    let mut scene = Scene::new();
    scene.plane([0.0, 1.0, 0.0], 0.5, 7);
    let nearest = scene.dist_mat([3.0, 2.0, 1.0]).expect("a sound scene");
    assert_eq!((nearest.distance, nearest.material), (1.5, 7));
    let pit = Shape::Sphere { c: ORIGIN, r: 2.0 };
    let mut pitted = Scene::new();
    pitted.plane_less([0.0, 1.0, 0.0], 0.0, &[pit], 7);
    let within = pitted.dist_mat([0.0, 0.5, 0.0]).expect("a sound scene");
    assert_eq!(within.distance, 1.5);
}

#[test]
fn an_object_without_others() {
    let mut scene = Scene::new();
    scene.plane([0.0, 1.0, 0.0], 0.5, 0);
    let ball = Shape::Sphere {
        c: [0.0, 5.0, 0.0],
        r: 1.0,
    };
    let upper_half = Shape::Plane {
        n: [0.0, -1.0, 0.0],
        h: -5.0,
    };
    let elsewhere = Shape::Sphere {
        c: [9.0; 3],
        r: 0.5,
    };
    scene.object_less(ball, &[upper_half, elsewhere], 1);
    let above = scene.dist_mat([0.0, 5.5, 0.0]).expect("a sound scene");
    assert_eq!((above.distance, above.material), (0.5, 1));
    let tables = scene.tables();
    assert_eq!((tables.prims, tables.planes, tables.objects), (4, 1, 1));
    assert_eq!(tables.kinds, [2, 0, 2, 0]);
    assert_eq!(
        (tables.plane_parts, tables.object_parts),
        (&[0, 1, 0, 0][..], &[1, 2, 2, 1][..])
    );
}

#[test]
fn rays_meet_what_stands_ahead() {
    let scene = scene_of(Shape::Sphere {
        c: [0.0, 0.0, 4.0],
        r: 1.0,
    });
    let trace = |rd: Vec3| scene.trace(ORIGIN, rd, 0.0, 10.0).expect("a sound scene");
    let ahead = trace([0.0, 0.0, 1.0]);
    let hit = ahead.hit.expect("the sphere ahead");
    assert!(
        (hit.t - 3.0).abs() < 1e-2 && (hit.p[2] - hit.t).abs() < 1e-6,
        "{hit:?}"
    );
    assert!(
        hit.n[2] < -0.99 && hit.material == 0 && ahead.evals >= 5,
        "{ahead:?}"
    );
    let away = trace([0.0, 0.0, -1.0]);
    assert!(away.hit.is_none() && away.evals > 0, "{away:?}");
}

#[test]
fn shadows_and_openness() {
    let scene = scene_of(Shape::Sphere {
        c: [0.0, 0.0, 4.0],
        r: 1.0,
    });
    let visibility = |rd: Vec3| {
        scene
            .soft_shadow(ORIGIN, rd, 0.01, 10.0, 8.0)
            .expect("a sound scene")
            .visibility
    };
    assert_eq!(
        (visibility([0.0, 0.0, 1.0]), visibility([0.0, 0.0, -1.0])),
        (0.0, 1.0)
    );
    let open = |p: Vec3, n: Vec3| {
        scene
            .hemisphere_closure(p, n, 10.0)
            .expect("a sound scene")
            .open
    };
    assert_eq!(open(ORIGIN, [0.0, 0.0, -1.0]), 1.0);
    assert!(open([0.0, 0.0, 2.9], [0.0, 0.0, 1.0]) < 0.5);
}

/// A closed room of 3 × 2 × 3 m, and its bounds with a margin.
fn closed_room() -> (Scene, Bounds) {
    let mut scene = Scene::new();
    let white = scene.material([0.8; 3], 0.25);
    let sides: [(Vec3, f32); 6] = [
        ([0.0, 1.0, 0.0], 0.0),
        ([0.0, -1.0, 0.0], -2.0),
        ([1.0, 0.0, 0.0], 0.0),
        ([-1.0, 0.0, 0.0], -3.0),
        ([0.0, 0.0, 1.0], 0.0),
        ([0.0, 0.0, -1.0], -3.0),
    ];
    for (n, h) in sides {
        scene.plane(n, h, white);
    }
    (
        scene,
        Bounds {
            lo: [-0.1; 3],
            hi: [3.1, 2.1, 3.1],
        },
    )
}

#[test]
fn surfels_lie_on_the_surfaces() {
    let (scene, bounds) = closed_room();
    let surfels = Surfels::place(&scene, bounds, 60).expect("a sound scene");
    assert!(
        surfels.len() > 20 && surfels.len() <= 60,
        "{} surfels",
        surfels.len()
    );
    for p in &surfels.p {
        let distance = scene.dist_mat(*p).expect("a sound scene").distance;
        assert!(distance.abs() < 0.02, "{distance} from the walls at {p:?}");
    }
    let albedo = surfels.albedo.as_flattened();
    assert!(
        albedo.iter().all(|x| (x - 0.6).abs() < 1e-6),
        "0.8 × (1 − 0.25)"
    );
    let dark = [&surfels.direct, &surfels.irr, &surfels.rad];
    assert!(dark
        .iter()
        .all(|column| **column == vec![[0.0; 3]; surfels.len()]));
    assert!(surfels.p.len() == surfels.len() && surfels.normals.len() == surfels.len());
}

/// From a scene to a reading: light at the ceiling reaches the floor, and mid-air is unseen.
#[test]
fn light_at_the_ceiling_reaches_the_floor() {
    let (scene, bounds) = closed_room();
    let surfels = Surfels::place(&scene, bounds, 60).expect("a sound scene");
    let clusters = Clusters::build(&surfels, bounds, 2).expect("sound surfels");
    assert_eq!(clusters.members.len(), surfels.len());
    let rows = Rows::build(&scene, bounds, &surfels, &clusters).expect("a sound room");
    assert!(
        rows.mean_row_sum > 0.9,
        "a closed room's rows sum to nearly 1: {}",
        rows.mean_row_sum
    );
    let lamp = |n: &Vec3| if n[1] < -0.5 { [1.0; 3] } else { [0.0; 3] };
    let light: Vec<Vec3> = surfels.normals.iter().map(lamp).collect();
    let mut room = Room::new(surfels, clusters, rows);
    room.reset(&light).expect("light within its range");
    assert!(room.solve(64).expect("a sound room").settled());
    let grid = Grid::build(&room.surfels.p, bounds, 1.0).expect("points within their range");
    let probes = [[1.5, 0.0, 1.5], [1.5, 1.0, 1.5]].map(|p| Probe {
        p,
        normal: [0.0, 1.0, 0.0],
    });
    let readings = grid
        .gather_all(&room.surfels, &probes, 0.9)
        .expect("sound probes");
    let [Reading::Seen(floor), Reading::Unseen] = readings[..] else {
        panic!("the floor is covered, mid-air is not: {readings:?}");
    };
    assert!(floor.iter().all(|x| *x > 0.1 && *x < 2.0), "{floor:?}");
}
