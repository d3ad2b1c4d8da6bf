//! Tables of a grid that `grid_build` did not make, which pass 7 all the same: numbers more than
//! once, out of order, in cells where their points do not lie.

use super::*;

pub(super) fn write(script: &mut Script) {
    by_hand(script);
    random_tables(script);
}

/// Every question on these tables.
fn each(script: &mut Script, n: u32) {
    for x in [0.5, 1.5, 2.5, 3.5] {
        let p = at(x, 0.5, 0.5);
        script.listed(n, p, 0);
        script.listed(n, p, 1);
        script.gather(n, p, UP, 1.0);
        script.gather(n, p, at(0.6, 0.0, 0.8), 2.0);
    }
    script.listed(n, at(0.5, 0.5, 0.5), 511);
    script.gather_all(n, 8, 1.5);
    script.show_readings();
}

/// Five surfels in Q's grid, by tables of all kinds.
fn by_hand(script: &mut Script) {
    script.bounds(of_q());
    let list: Vec<Patch> = (0..5)
        .map(|k| {
            let x = 0.75 * k as f32 + 0.25;
            patch(at(x, 0.5, 0.25), UP, at(x, 1.0 + x, 0.1 * x))
        })
        .collect();
    let n = script.surfels(&list);
    for k in 0..8 {
        script.probe(k, at(0.5 * k as f32, 0.5, 0.5), UP);
    }
    let tables: [([u32; 5], [u32; 5]); 10] = [
        // All in the first cell, in the last, in one between; numbers in order and not.
        ([0, 5, 5, 5, 5], [0, 1, 2, 3, 4]),
        ([0, 0, 0, 0, 5], [4, 3, 2, 1, 0]),
        ([0, 0, 5, 5, 5], [2, 0, 4, 1, 3]),
        // One number again and again.
        ([0, 1, 2, 3, 5], [2, 2, 2, 2, 2]),
        ([0, 5, 5, 5, 5], [0, 0, 0, 0, 0]),
        ([0, 2, 3, 4, 5], [4, 4, 0, 0, 4]),
        // In another cell than the point's own.
        ([0, 2, 3, 4, 5], [4, 3, 2, 1, 0]),
        ([0, 1, 1, 1, 5], [3, 0, 1, 2, 4]),
        ([0, 0, 2, 2, 5], [1, 0, 4, 3, 2]),
        ([0, 3, 3, 5, 5], [0, 2, 1, 3, 3]),
    ];
    for (starts, items) in tables {
        script.fill();
        script.tables(&starts, &items);
        each(script, n);
    }
    script.show_all();
}

/// Random starts and items over random small boxes, up to 32 numbers.
fn random_tables(script: &mut Script) {
    let mut random = Random::new(0x616E_7974);
    for _ in 0..10 {
        let dims: [u32; 3] = std::array::from_fn(|_| 1 + random.below(4));
        let hi = at(dims[0] as f32, dims[1] as f32, dims[2] as f32);
        script.bounds(bounds(Vec3::ZERO, hi, 1.0));
        let n = 1 + random.below(32);
        for k in 0..n {
            if random.below(3) == 0 {
                let p = within(&mut random, Vec3::ZERO, hi);
                let normal = within(&mut random, at(-0.5, -0.5, 0.2), Vec3::ONE);
                let irr = within(&mut random, Vec3::ZERO, Vec3::splat(2.0));
                script.surfel(k, patch(p, normal, irr));
            }
        }
        let cells = (dims[0] * dims[1] * dims[2]) as usize;
        let mut starts: Vec<u32> = (0..cells + 1).map(|_| random.below(n + 1)).collect();
        (starts[0], starts[cells]) = (0, n);
        starts.sort();
        let items: Vec<u32> = (0..n).map(|_| random.below(n)).collect();
        script.fill();
        script.tables(&starts, &items);
        for _ in 0..5 {
            let p = within(&mut random, Vec3::ZERO, hi);
            script.listed(n, p, random.below(3));
            script.gather(n, p, UP, 1.0);
            let p = within(&mut random, Vec3::ZERO, hi);
            script.gather(n, p, at(0.3, 0.4, 1.2), random.between(0.5, 3.0));
        }
        script.gather_all(n, 8, 1.5);
        script.show_readings();
    }
}
