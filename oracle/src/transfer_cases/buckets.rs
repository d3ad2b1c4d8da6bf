//! Normals and their buckets: ties of two or three axes, zeros of both signs, floats of any bits.

use super::*;

pub(super) fn write(script: &mut Script) {
    ties(script);
    near_ties(script);
    special(script);
    let mut random = Random::new(0x6275_636B);
    for _ in 0..60 {
        let n = direction(&mut random);
        ask(script, n);
    }
    for _ in 0..40 {
        let mut any = || f32::from_bits(random.word());
        let n = at(any(), any(), any());
        ask(script, n);
    }
}

fn ask(script: &mut Script, n: Vec3) -> u32 {
    script.ask("bucket", flat([n].into_iter()))[0]
}

/// Each component -1, 0, 1, and with a zero minus zero too.
fn ties(script: &mut Script) {
    let parts = [-1.0, -0.0, 0.0, 1.0];
    for x in parts {
        for y in parts {
            for z in parts {
                ask(script, at(x, y, z));
            }
        }
    }
    // The four that document 01 gives, and the zero vectors.
    assert_eq!(ask(script, at(1.0, 1.0, 1.0)), 0);
    assert_eq!(ask(script, at(-1.0, 1.0, 0.0)), 1);
    assert_eq!(ask(script, at(0.0, 1.0, 1.0)), 2);
    assert_eq!(ask(script, at(0.0, 0.0, -1.0)), 5);
    assert_eq!(ask(script, Vec3::ZERO), 0);
    assert_eq!(ask(script, Vec3::splat(-0.0)), 0);
}

/// Sizes that differ in the last bit.
fn near_ties(script: &mut Script) {
    for one in [1.0f32, 0.57735026, 1e-20, 10_000.0] {
        for sign in [1.0, -1.0] {
            for other in [one.next_up(), one.next_down(), -one.next_up()] {
                ask(script, at(sign * one, other, 0.0));
                ask(script, at(sign * one, 0.0, other));
                ask(script, at(0.0, sign * one, other));
            }
        }
    }
}

/// Infinities and NaN, in each place and in two.
fn special(script: &mut Script) {
    for x in [INF, -INF, NAN, LEAST, -LEAST, f32::MAX] {
        ask(script, at(x, 1.0, -2.0));
        ask(script, at(1.0, x, -2.0));
        ask(script, at(1.0, -2.0, x));
        ask(script, at(-1.0, x, x));
        ask(script, at(x, -1.0, x));
        ask(script, at(x, x, -1.0));
        ask(script, Vec3::splat(x));
    }
    // A zero that is the greatest, since the others are no numbers.
    for zero in [0.0, -0.0] {
        assert_eq!(ask(script, at(NAN, zero, 0.0)), 2);
        assert_eq!(ask(script, at(NAN, NAN, zero)), 4);
    }
}
