// Appended by oracle/build to its copy of trace.rs; what stands above is unchanged.
pub mod open {
    use std::hint::black_box;

    pub fn radical_inverse(i: u32, base: u32) -> f32 {
        super::radical_inverse(i, base)
    }

    /// What `hemisphere_closure` computes for its direction `k` before it turns it into the frame.
    pub struct Direction {
        pub u1: f32,
        pub r: f32,
        pub phi: f32,
        pub cos: f32,
        pub sin: f32,
        /// The factors of t, of b and of n.
        pub parts: [f32; 3],
    }

    /// The same steps as in the loop of `hemisphere_closure`, made while the program runs: what
    /// `black_box` hides is not folded by the compiler, so the sine and the cosine are those of the
    /// C library.
    pub fn direction(k: u32) -> Direction {
        let k = black_box(k);
        let u1 = super::radical_inverse(k + 1, 2);
        let u2 = super::radical_inverse(k + 1, 3);
        let r = u1.sqrt();
        let phi = black_box(std::f32::consts::TAU * u2);
        Direction {
            u1,
            r,
            phi,
            cos: phi.cos(),
            sin: phi.sin(),
            parts: [r * phi.cos(), r * phi.sin(), (1.0 - u1).max(0.0).sqrt()],
        }
    }
}
