//! Where a run stops: the last change at 0.0001 and beside it, in every channel, and the limit.

use super::*;

pub(super) fn write(script: &mut Script) {
    at_the_limit(script);
    in_each_channel(script);
    in_each_surfel(script);
    by_halves(script);
}

const EDGE: f32 = 0.0001;

/// A black surfel without direct light loses its rad in the first bounce: that is the change.
fn black(n: usize) -> Making {
    Making {
        surfels: vec![patch(0.0, 1.0, 0.0); n],
        clusters: vec![(1.0, (0..n as u32).collect())],
        rows: vec![vec![(0, 0.25)]; n],
    }
}

/// Changes around 0.0001, of either sign.
fn changes() -> Vec<f32> {
    let list = [
        EDGE,
        EDGE.next_down(),
        EDGE.next_up(),
        0.0,
        LEAST,
        9e-5,
        1.1e-4,
        1.0,
        f32::MAX,
        INF,
        NAN,
    ];
    list.into_iter().flat_map(|x| [x, -x]).collect()
}

/// The change itself, at several limits: under 0.0001 the first bounce is the last.
fn at_the_limit(script: &mut Script) {
    let m = black(1);
    script.fresh(&m);
    for x in changes() {
        for limit in [1, 2, 9] {
            script.fill();
            script.light(&[Vec3::ZERO], &[Vec3::splat(x)]);
            script.solved(m.told(limit));
        }
    }
    let stops = |script: &mut Script, x: f32| {
        script.light(&[Vec3::ZERO], &[Vec3::splat(x)]);
        script.solve(m.told(9))[1]
    };
    assert_eq!(stops(script, EDGE), 2);
    assert_eq!(stops(script, EDGE.next_down()), 1);
}

/// The greatest step in one channel; the others smaller, zero or NaN.
fn in_each_channel(script: &mut Script) {
    let m = black(1);
    for x in [EDGE, EDGE.next_down(), -EDGE, 2.0, INF] {
        for rest in [0.0, -9e-5, NAN] {
            for axis in 0..3 {
                let mut rad = [rest; 3];
                rad[axis] = x;
                script.light(&[Vec3::ZERO], &[Vec3::new(rad[0], rad[1], rad[2])]);
                script.solved(m.told(4));
            }
        }
    }
}

/// The greatest step in the first surfel, in the last, in one between; some others NaN throughout.
fn in_each_surfel(script: &mut Script) {
    let m = black(3);
    script.fresh(&m);
    for rest in [0.0, 5e-5, NAN] {
        for x in [EDGE, EDGE.next_down(), EDGE.next_up()] {
            for place in 0..3 {
                let mut rad = [Vec3::splat(rest); 3];
                rad[place] = Vec3::new(rest, x, rest);
                script.light(&[Vec3::ZERO; 3], &rad);
                script.solved(m.told(4));
            }
        }
    }
}

/// Steps that halve from bounce to bounce, past 0.0001 at every limit.
fn by_halves(script: &mut Script) {
    for scale in [1.0, 1.6384, 1.6384f32.next_down(), 0.8191999] {
        let m = Making::single(patch(1.0, 1.0, scale), 1.0, 0.5);
        for limit in [11, 12, 13, 14, 15, 16, 30] {
            script.fresh(&m);
            script.solved(m.told(limit));
        }
    }
}
