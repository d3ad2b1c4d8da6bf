//! Light that is no number or overruns the floats: surfels, clusters and links at their largest, and
//! irr and rad of any float.

use super::*;

pub(super) fn write(script: &mut Script) {
    at_the_largest(script);
    any_light(script);
    nothing_of_infinity(script);
    any_patterns(script);
    across_the_ranges(script);
}

const MOST: f32 = 1_000_000.0;

/// Areas, direct light and weights at their largest, cluster areas at their least and largest.
fn at_the_largest(script: &mut Script) {
    for area in [0.0, LEAST, 1.0, 1e12] {
        for (albedo, weight) in [(1.0, 2.0), (1.0, 0.0), (0.0, 2.0)] {
            let s = patch(albedo, MOST, MOST);
            let two = Making {
                surfels: vec![s; 2],
                clusters: vec![(area, vec![0, 1, 0, 1])],
                rows: vec![vec![(0, weight)]; 2],
            };
            for m in [Making::single(s, area, weight), two] {
                script.fresh(&m);
                for limit in [1, 1, 2, 40, 4_096] {
                    script.solved(m.told(limit));
                }
            }
        }
    }
}

/// What irr and rad may hold.
const ODD: [f32; 14] = [
    NAN,
    INF,
    -INF,
    f32::MAX,
    f32::MIN,
    1e38,
    -1e38,
    0.0,
    -0.0,
    LEAST,
    -LEAST,
    1e-40,
    -3.5,
    0.1,
];

/// Every odd float as rad, alone and beside another; irr is written whatever it was.
fn any_light(script: &mut Script) {
    let m = Making {
        surfels: vec![patch(0.5, 1.0, 1.0), patch(0.25, 3.0, 0.125)],
        clusters: vec![(1.0, vec![0, 1]), (2.0, vec![1])],
        rows: vec![vec![(0, 0.5), (1, 0.25)], vec![(0, 0.75)]],
    };
    script.fresh(&m);
    for (k, x) in ODD.into_iter().enumerate() {
        let other = ODD[(k + 3) % ODD.len()];
        for rad in [
            Vec3::splat(x),
            Vec3::new(x, other, 1.0),
            Vec3::new(2.0, x, other),
        ] {
            let irr = [Vec3::new(other, x, NAN), Vec3::splat(x)];
            script.light(&irr, &[rad, Vec3::new(0.5, 0.5, x)]);
            for limit in [0, 1, 6] {
                script.solved(m.told(limit));
            }
        }
    }
}

/// A weight, an area or an albedo of 0 times infinite light is NaN; it is not left out.
fn nothing_of_infinity(script: &mut Script) {
    for zero in [0.0, -0.0] {
        let rooms = [
            Making::single(patch(zero, 1.0, 1.0), 1.0, 0.5),
            Making::single(patch(0.5, zero, 1.0), 1.0, 0.5),
            Making::single(patch(0.5, 1.0, 1.0), 1.0, zero),
            Making::single(patch(0.5, 1.0, 1.0), zero, zero),
        ];
        for m in rooms {
            script.fresh(&m);
            for x in [INF, -INF, f32::MAX] {
                script.light(&[Vec3::ONE], &[Vec3::new(x, 1.0, -x)]);
                script.solved(m.told(1));
                script.solved(m.told(3));
            }
        }
    }
    // Beside a link that has light, and a member that has area.
    let m = Making {
        surfels: vec![patch(0.5, 0.0, 1.0), patch(0.5, 1.0, 0.25)],
        clusters: vec![(1.0, vec![0, 1]), (1.0, vec![1])],
        rows: vec![vec![(0, 0.0), (1, 0.5)], vec![(0, 0.5), (1, 0.0)]],
    };
    script.fresh(&m);
    for x in [INF, NAN, f32::MAX] {
        for place in 0..2 {
            let mut rad = [Vec3::ONE; 2];
            rad[place] = Vec3::new(0.5, x, -x);
            script.light(&[Vec3::ZERO; 2], &rad);
            script.solved(m.told(1));
            script.solved(m.told(2));
        }
    }
}

/// Light of any 32 bits in a room of three surfels.
fn any_patterns(script: &mut Script) {
    let mut random = Random::new(0x616E_79);
    let m = Making {
        surfels: vec![
            patch(0.5, 1.0, 1.0),
            patch(0.75, 0.3, 0.2),
            patch(0.9, 2.0, 0.0),
        ],
        clusters: vec![(1.0, vec![0, 1]), (2.0, vec![2])],
        rows: vec![vec![(0, 0.5), (1, 0.3)], vec![(1, 0.8)], vec![(0, 0.9)]],
    };
    script.room(&m);
    for _ in 0..40 {
        let mut any = || f32::from_bits(random.word());
        let light: Vec<Vec3> = (0..6).map(|_| Vec3::new(any(), any(), any())).collect();
        script.light(&light[..3], &light[3..]);
        script.solved(m.told(1));
        script.solved(m.told(5));
    }
}

/// A float from 0 to the end of its range: of any size, smallest ones too, or of the usual size.
fn within(random: &mut Random, most: f32) -> f32 {
    match random.below(3) {
        0 => f32::from_bits(random.below(most.to_bits() + 1)),
        1 => random.between(0.0, most),
        _ => random.between(0.0, 1.0),
    }
}

/// Random rooms whose floats lie anywhere in their ranges.
fn across_the_ranges(script: &mut Script) {
    let mut random = Random::new(0x7769_6465);
    for _ in 0..28 {
        let (n, nc) = (1 + random.below(3), 1 + random.below(2));
        let mut m = Making::default();
        for k in 0..n {
            let r = &mut random;
            let s = patch(within(r, 1.0), within(r, MOST), within(r, MOST));
            m.surfels.push(s);
            let c = random.below(nc);
            m.rows.push(vec![(c, within(&mut random, 2.0))]);
            if k < nc {
                m.clusters.push((within(&mut random, 1e12), Vec::new()));
            }
        }
        m.clusters.resize(nc as usize, (0.0, Vec::new()));
        for k in 0..n {
            m.clusters[random.below(nc) as usize].1.push(k);
        }
        script.fresh(&m);
        for limit in [1, 1, 30] {
            script.solved(m.told(limit));
        }
    }
}
