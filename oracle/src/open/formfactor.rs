// Appended by oracle/build to its copy of formfactor.rs; what stands above is unchanged.
pub mod open {
    use super::Vec3;

    pub fn normal_bucket(n: Vec3) -> usize {
        super::normal_bucket(n)
    }
}
