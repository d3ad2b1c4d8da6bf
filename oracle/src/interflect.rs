//! The nine files of interflect, unchanged, over the vector type of `vector.rs`.
//!
//! `oracle/build` puts copies of the nine beside this file. To four of the copies it appends the
//! file of the same name in `open/`: a module `open` that hands out what is private there.

// The nine files say `use glam::Vec3`. Under the name `glam` they find this crate.
extern crate self as glam;

pub mod bvh;
pub mod formfactor;
pub mod ltc;
pub mod scene;
pub mod sdf;
pub mod shade;
pub mod solve;
pub mod surfel;
pub mod trace;
pub mod vector;

pub use vector::Vec3;
