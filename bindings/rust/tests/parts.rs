//! Rows built on several threads, and by a host in parts of its own, are the rows of one call.
mod common;

use common::bits;
use sokitahe::{Bounds, Clusters, Refused, Rows, Scene, Shape, Surfels};
use std::sync::Mutex;

/// A room of 4 × 3 × 2.5 m with a couch and a screen, its surfels and its clusters.
struct Model {
    scene: Scene,
    bounds: Bounds,
    surfels: Surfels,
    clusters: Clusters,
}

impl Model {
    fn new() -> Model {
        let mut scene = Scene::new();
        let wall = scene.material([0.8, 0.8, 0.75], 0.0);
        let couch = scene.material([0.3, 0.2, 0.2], 0.1);
        scene.plane([0.0, 1.0, 0.0], 0.0, wall);
        scene.plane([0.0, -1.0, 0.0], -2.5, wall);
        scene.plane([1.0, 0.0, 0.0], 0.0, wall);
        scene.plane([-1.0, 0.0, 0.0], -4.0, wall);
        scene.plane([0.0, 0.0, 1.0], 0.0, wall);
        scene.plane([0.0, 0.0, -1.0], -3.0, wall);
        let base = Shape::RoundBox {
            c: [2.0, 0.3, 1.0],
            b: [0.9, 0.3, 0.4],
            r: 0.05,
        };
        let hollow = Shape::Capsule {
            a: [1.5, 0.7, 1.0],
            b: [2.5, 0.7, 1.0],
            r: 0.2,
        };
        scene.object_less(base, &[hollow], couch);
        let bounds = Bounds {
            lo: [-0.1; 3],
            hi: [4.1, 2.6, 3.1],
        };
        let mut surfels = Surfels::place(&scene, bounds, 40).expect("a sound scene");
        let clusters = Clusters::build(&surfels, bounds, 2).expect("sound surfels");
        // One that faces into its wall: its row has no links.
        surfels.normals[5] = surfels.normals[5].map(|x| -x);
        Model {
            scene,
            bounds,
            surfels,
            clusters,
        }
    }

    fn build(&self) -> Result<Rows, Refused> {
        Rows::build(&self.scene, self.bounds, &self.surfels, &self.clusters)
    }

    fn build_on(&self, threads: usize) -> Result<Rows, Refused> {
        Rows::build_on(
            threads,
            &self.scene,
            self.bounds,
            &self.surfels,
            &self.clusters,
            |_| (),
        )
    }

    /// The rows of `count` surfels from `first` on, built by a call of their own.
    fn part(&self, first: usize, count: usize) -> Rows {
        let part = Model {
            scene: self.scene.clone(),
            bounds: self.bounds,
            surfels: Surfels {
                p: self.surfels.p[first..first + count].to_vec(),
                normals: self.surfels.normals[first..first + count].to_vec(),
                area: self.surfels.area[first..first + count].to_vec(),
                ..Surfels::default()
            },
            clusters: self.clusters.clone(),
        };
        part.build().expect("a sound part")
    }
}

/// Every bit of rows.
fn all_bits(rows: &Rows) -> (Vec<u32>, Vec<u32>, Vec<u32>, u32, usize) {
    let weights = bits(&rows.link_weight);
    (
        rows.starts.clone(),
        rows.link_cluster.clone(),
        weights,
        rows.mean_row_sum.to_bits(),
        rows.evals,
    )
}

#[test]
fn threads_build_the_rows_of_one_call() {
    let model = Model::new();
    let whole = model.build().expect("a sound room");
    assert!(
        model.surfels.len() > 32 && model.clusters.len() > 10,
        "runs and rows to divide"
    );
    assert!(
        whole.starts.windows(2).any(|row| row[0] == row[1]),
        "a row without links"
    );
    assert!(whole.link_cluster.len() > 200 && whole.mean_row_sum > 0.5 && whole.evals > 0);
    for threads in [0, 1, 2, 3, usize::MAX] {
        let built = model.build_on(threads).expect("a sound room");
        assert!(all_bits(&built) == all_bits(&whole), "{threads} threads");
    }
}

#[test]
fn a_room_of_nothing() {
    let nothing = Rows::build_on(
        3,
        &Scene::new(),
        Bounds::default(),
        &Surfels::default(),
        &Clusters::default(),
        |_| (),
    );
    assert_eq!(
        nothing,
        Ok(Rows {
            starts: vec![0],
            ..Rows::default()
        })
    );
    let unlit = Model {
        clusters: Clusters::default(),
        ..Model::new()
    };
    let rows = unlit.build().expect("a room without clusters");
    assert_eq!(rows.mean_row_sum, 0.0);
    assert_eq!(unlit.build_on(2).as_ref(), Ok(&rows));
}

#[test]
fn progress_goes_up_to_all_rows() {
    let model = Model::new();
    for threads in [1, 3] {
        let told = Mutex::new(Vec::new());
        let note = |rows| told.lock().expect("no thread panics").push(rows);
        Rows::build_on(
            threads,
            &model.scene,
            model.bounds,
            &model.surfels,
            &model.clusters,
            note,
        )
        .expect("a sound room");
        let told = told.into_inner().expect("no thread panics");
        assert_eq!(told.len(), model.surfels.len().div_ceil(16));
        assert!(told.windows(2).all(|pair| pair[0] < pair[1]), "{told:?}");
        assert_eq!(told.last(), Some(&model.surfels.len()));
    }
}

/// The law of parts as a host uses it: rows from a cut on are built by themselves.
#[test]
fn parts_of_a_host_are_rows_of_the_whole() {
    let model = Model::new();
    let whole = model.build().expect("a sound room");
    let n = model.surfels.len();
    for cut in [1, n / 2, n - 1] {
        let (front, back) = (model.part(0, cut), model.part(cut, n - cut));
        let shift = front.link_cluster.len() as u32;
        let shifted = back.starts.iter().skip(1).map(|start| start + shift);
        let starts: Vec<u32> = front.starts.iter().copied().chain(shifted).collect();
        assert_eq!(starts, whole.starts);
        assert_eq!(
            [front.link_cluster, back.link_cluster].concat(),
            whole.link_cluster
        );
        assert_eq!(
            bits(&[front.link_weight, back.link_weight].concat()),
            bits(&whole.link_weight)
        );
        assert_eq!(front.evals + back.evals, whole.evals);
    }
}

/// Spoils a room.
type Spoil = fn(&mut Model);

/// What one call refuses, threads refuse with the same number, also where parts by themselves would be
/// refused with another, or not at all.
#[test]
fn threads_refuse_what_one_call_refuses() {
    const CEILING: Shape = Shape::Plane {
        n: [0.0, -1.0, 0.0],
        h: -2.5,
    };
    let wrong_scene: Spoil = |m| m.scene.object(CEILING, 0);
    let last_normal: Spoil = |m| m.surfels.normals.last_mut().expect("a surfel")[2] = f32::NAN;
    let short_points: Spoil = |m| m.surfels.p.truncate(m.surfels.len() - 1);
    let short_radii: Spoil = |m| m.clusters.radius.truncate(1);
    let wrong_area: Spoil = |m| m.clusters.area[0] = -1.0;
    let wrong_bounds: Spoil = |m| m.bounds.lo[1] = 20_000.0;
    let many_surfels: Spoil = |m| m.surfels.area.resize(400_001, 1.0);
    let many_clusters: Spoil = |m| m.clusters.area.resize(65_537, 1.0);
    let far_point: Spoil = |m| m.surfels.p[20][0] = 10_001.0;
    let cases: [(u32, &[Spoil]); 12] = [
        (6, &[wrong_scene]),
        (5, &[last_normal]),
        (5, &[wrong_scene, last_normal]),
        (5, &[wrong_scene, far_point]),
        (5, &[wrong_area]),
        (4, &[short_points]),
        (4, &[short_radii, last_normal]),
        (4, &[short_points, wrong_area, wrong_scene]),
        (3, &[wrong_bounds, short_points, wrong_area]),
        (2, &[many_surfels]),
        (2, &[many_clusters, wrong_bounds]),
        (2, &[many_surfels, wrong_scene, wrong_bounds]),
    ];
    for (place, (number, spoils)) in cases.into_iter().enumerate() {
        let mut model = Model::new();
        spoils.iter().for_each(|spoil| spoil(&mut model));
        let one = model.build().expect_err("a spoilt room");
        assert_eq!(one.number(), number, "case {place}");
        assert_eq!(model.build_on(2), Err(one), "case {place}");
    }
}
