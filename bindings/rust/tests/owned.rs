//! The types that own their columns: counts and sizes without end and columns of the wrong length are
//! refused by the entries, and no large place is made for them.
use sokitahe::{
    Bounds, Clusters, Grid, Probe, Reading, Refused, Room, Rows, Scene, Shape, Surfels,
};
use std::alloc::{GlobalAlloc, Layout, System};

/// Gives no more than this at once, so that a test which asks for more ends.
struct Capped;

const CAP: usize = 64 << 20;

// SAFETY: all is left to the system's allocator, but for requests over the cap, which fail.
unsafe impl GlobalAlloc for Capped {
    unsafe fn alloc(&self, layout: Layout) -> *mut u8 {
        if layout.size() > CAP {
            return std::ptr::null_mut();
        }
        // SAFETY: the caller's layout is handed on.
        unsafe { System.alloc(layout) }
    }

    unsafe fn dealloc(&self, place: *mut u8, layout: Layout) {
        // SAFETY: the place came from the system's allocator with this layout.
        unsafe { System.dealloc(place, layout) }
    }
}

#[global_allocator]
static ALLOCATOR: Capped = Capped;

const BOX: Bounds = Bounds {
    lo: [0.0; 3],
    hi: [4.0, 1.0, 1.0],
};

/// The number that refuses a call.
fn number<T: std::fmt::Debug>(answer: Result<T, Refused>) -> u32 {
    answer.expect_err("a refused call").number()
}

/// Two surfels side by side.
fn two_surfels() -> Surfels {
    Surfels {
        p: vec![[0.5; 3], [1.5, 0.5, 0.5]],
        normals: vec![[0.0, 0.0, 1.0]; 2],
        albedo: vec![[0.5; 3]; 2],
        area: vec![1.0; 2],
        direct: vec![[1.0; 3]; 2],
        irr: vec![[0.25; 3]; 2],
        rad: vec![[1.0; 3]; 2],
    }
}

#[test]
fn targets_of_placement() {
    let mut scene = Scene::new();
    scene.object(
        Shape::Sphere {
            c: [2.0, 0.5, 0.5],
            r: 0.4,
        },
        0,
    );
    assert_eq!(number(Surfels::place(&scene, BOX, 400_001)), 2);
    assert_eq!(number(Surfels::place(&scene, BOX, usize::MAX)), 2);
    assert_eq!(number(Surfels::place(&scene, BOX, 1 << 40)), 2);
    assert_eq!(Surfels::place(&scene, BOX, 0), Ok(Surfels::default()));
    let nowhere = Bounds {
        lo: [f32::NAN; 3],
        hi: [f32::INFINITY; 3],
    };
    assert_eq!(number(Surfels::place(&scene, nowhere, 10)), 3);
    assert_eq!(number(Surfels::place(&scene, nowhere, usize::MAX)), 2);
    let placed = Surfels::place(&scene, BOX, 20).expect("a sound scene");
    assert!(
        placed.albedo.iter().flatten().all(|x| *x == 0.8),
        "a material that is not in the table"
    );
}

#[test]
fn scenes_that_are_too_large() {
    let mut scene = Scene::new();
    for _ in 0..257 {
        scene.object(
            Shape::Sphere {
                c: [0.0; 3],
                r: 1.0,
            },
            0,
        );
    }
    assert_eq!(number(scene.dist_mat([0.0; 3])), 2);
    let mut scene = Scene::new();
    (0..257).for_each(|_| assert!(scene.material([0.5; 3], 0.0) < 257));
    assert!(scene.dist_mat([0.0; 3]).is_ok());
    assert_eq!(number(Surfels::place(&scene, BOX, 10)), 2);
}

#[test]
fn columns_of_the_wrong_length() {
    let mut surfels = two_surfels();
    assert_eq!(number(surfels.reset(&[[1.0; 3]])), 4);
    surfels.p.pop();
    assert_eq!(number(Clusters::build(&surfels, BOX, 4)), 4);
    let grid = Grid::build(&two_surfels().p, BOX, 1.0).expect("points within their range");
    assert_eq!(
        number(grid.gather(&surfels, [0.5; 3], [0.0, 0.0, 1.0], 1.0)),
        4
    );
    surfels.area.resize(400_001, 1.0);
    assert_eq!(number(Clusters::build(&surfels, BOX, 4)), 2);
    assert_eq!(number(Clusters::build(&two_surfels(), BOX, 65)), 3);
    assert_eq!(number(Clusters::build(&two_surfels(), BOX, usize::MAX)), 3);
}

#[test]
fn rooms_whose_columns_do_not_fit() {
    let clusters = Clusters {
        area: vec![2.0],
        first: vec![0],
        count: vec![2],
        members: vec![0, 1],
        ..Clusters::default()
    };
    let rows = Rows {
        starts: vec![0, 1, 2],
        link_cluster: vec![0, 0],
        link_weight: vec![0.5; 2],
        ..Rows::default()
    };
    let sound = Room::new(two_surfels(), clusters, rows);
    let refused = |spoil: fn(&mut Room)| {
        let mut room = sound.clone();
        spoil(&mut room);
        let before = room.clone();
        let refused = room.solve(3).expect_err("a spoilt room");
        assert_eq!(room, before);
        refused.number()
    };
    assert!(sound.clone().solve(3).is_ok());
    assert_eq!(refused(|room| room.cluster_light.clear()), 4);
    assert_eq!(refused(|room| room.surfels.rad.truncate(1)), 4);
    assert_eq!(refused(|room| room.rows.starts.clear()), 4);
    assert_eq!(refused(|room| room.rows.link_weight.truncate(1)), 4);
    assert_eq!(refused(|room| room.clusters.members.push(0)), 7);
    assert_eq!(refused(|room| room.clusters.area.push(1.0)), 4);
    assert_eq!(refused(|room| room.rows.link_weight[1] = 2.5), 5);
}

#[test]
fn grids_that_are_no_grids() {
    let surfels = two_surfels();
    let sound = Grid::build(&surfels.p, BOX, 1.0).expect("points within their range");
    assert_eq!(sound.near([0.5; 3], 0), Ok(vec![0]));
    assert_eq!(sound.near([0.5; 3], 511), Ok(vec![0, 1]));
    assert_eq!(number(sound.near([0.5; 3], 512)), 3);
    assert_eq!(number(sound.near([0.5; 3], usize::MAX)), 3);
    let without_end = Grid {
        n: usize::MAX,
        ..sound.clone()
    };
    assert_eq!(number(without_end.near([0.5; 3], 1)), 2);
    let too_many = Grid {
        n: 3,
        ..sound.clone()
    };
    assert_eq!(number(too_many.near([0.5; 3], 1)), 4);
    let finer = Grid {
        cell: 0.1,
        ..sound.clone()
    };
    assert_eq!(
        number(finer.gather(&surfels, [0.5; 3], [0.0, 0.0, 1.0], 1.0)),
        4
    );
}

#[test]
fn grids_that_are_not_built() {
    let surfels = two_surfels();
    assert_eq!(number(Grid::build(&surfels.p, BOX, f32::NAN)), 3);
    assert_eq!(number(Grid::build(&surfels.p, BOX, 0.0)), 3);
    let endless = Bounds {
        lo: [f32::NEG_INFINITY; 3],
        hi: [f32::INFINITY; 3],
    };
    assert_eq!(number(Grid::build(&surfels.p, endless, 1.0)), 3);
    assert_eq!(number(Grid::build(&[[f32::NAN; 3]], BOX, 1.0)), 5);
    assert_eq!(number(Grid::build(&vec![[0.5; 3]; 400_001], BOX, 1.0)), 2);
}

#[test]
fn probes_without_number_and_too_many() {
    let surfels = two_surfels();
    let sound = Grid::build(&surfels.p, BOX, 1.0).expect("points within their range");
    let probes = vec![Probe::default(); 400_001];
    assert_eq!(number(sound.gather_all(&surfels, &probes, 1.0)), 2);
    assert_eq!(sound.gather_all(&surfels, &[], 1.0), Ok(Vec::new()));
}

/// With a cell's number twice in the items every place of the list is used.
#[test]
fn a_near_list_has_every_number_that_is_visited() {
    let grid = Grid {
        n: 2,
        starts: vec![0, 2, 2, 2, 2],
        items: vec![1, 1],
        bounds: BOX,
        cell: 1.0,
        dims: [4, 1, 1],
    };
    assert_eq!(grid.near([0.0; 3], 0), Ok(vec![1, 1]));
    let reading = grid.gather(&two_surfels(), [1.5, 0.5, 0.5], [0.0, 0.0, 1.0], 1.0);
    assert_eq!(reading, Ok(Reading::Seen([0.25; 3])));
}
