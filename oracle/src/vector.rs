//! The vector type that the nine files know as `glam::Vec3`.
//!
//! It is written from document 01, whose sentences are quoted where they are used, and from nothing
//! else: the vector library itself was not at hand. It has what the nine files use and no more.
//! Sentences without a section are from "The float rules below everything".

use std::ops::{Add, AddAssign, Div, DivAssign, Index, Mul, Neg, Sub, SubAssign};

/// "A vector holds three floats x, y, z".
#[derive(Clone, Copy, Debug)]
pub struct Vec3 {
    pub x: f32,
    pub y: f32,
    pub z: f32,
}

impl Vec3 {
    pub const ZERO: Vec3 = Vec3::splat(0.0);
    pub const ONE: Vec3 = Vec3::splat(1.0);
    pub const Y: Vec3 = Vec3::new(0.0, 1.0, 0.0);

    pub const fn new(x: f32, y: f32, z: f32) -> Vec3 {
        Vec3 { x, y, z }
    }

    pub const fn splat(v: f32) -> Vec3 {
        Vec3::new(v, v, v)
    }

    fn each(self, f: impl Fn(f32) -> f32) -> Vec3 {
        Vec3::new(f(self.x), f(self.y), f(self.z))
    }

    fn with(self, o: Vec3, f: impl Fn(f32, f32) -> f32) -> Vec3 {
        Vec3::new(f(self.x, o.x), f(self.y, o.y), f(self.z, o.z))
    }

    /// "a dot product is x, then y, then z, summed left to right".
    pub fn dot(self, o: Vec3) -> f32 {
        self.x * o.x + self.y * o.y + self.z * o.z
    }

    /// Document 01 names it ("What form to use where": "Vector dot, cross, scaling take self") and
    /// does not define it. Each component is the difference of two products, "one rounding each".
    pub fn cross(self, o: Vec3) -> Vec3 {
        Vec3::new(
            self.y * o.z - self.z * o.y,
            self.z * o.x - self.x * o.z,
            self.x * o.y - self.y * o.x,
        )
    }

    /// The dot product of the vector with itself.
    pub fn length_squared(self) -> f32 {
        self.dot(self)
    }

    /// The root is "used by every length" ("What form to use where"), and "is the float nearest the
    /// exact root" ("The root").
    pub fn length(self) -> f32 {
        self.dot(self).sqrt()
    }

    /// "Normalising multiplies by one over the length."
    pub fn normalize(self) -> Vec3 {
        self * (1.0 / self.length())
    }

    pub fn abs(self) -> Vec3 {
        self.each(f32::abs)
    }

    /// "max and min pass over a NaN", component by component; so does `f32::max`.
    pub fn max(self, o: Vec3) -> Vec3 {
        self.with(o, f32::max)
    }

    /// As `max`.
    pub fn min(self, o: Vec3) -> Vec3 {
        self.with(o, f32::min)
    }

    /// "The last change is the greatest absolute step of any channel" ("The solve"), and "max and
    /// min pass over a NaN".
    pub fn max_element(self) -> f32 {
        self.x.max(self.y).max(self.z)
    }

    /// As `max_element`. Only the parser uses it, which document 01 leaves out.
    pub fn min_element(self) -> f32 {
        self.x.min(self.y).min(self.z)
    }

    /// Document 01 has no sentence on it. Only the specular light uses it, which is left out.
    pub fn lerp(self, o: Vec3, s: f32) -> Vec3 {
        self + (o - self) * s
    }

    /// Which components are below those of `o`: none that is compared with a NaN.
    pub fn cmplt(self, o: Vec3) -> Mask {
        Mask([self.x < o.x, self.y < o.y, self.z < o.z])
    }

    /// Which components are above those of `o`: none that is compared with a NaN.
    pub fn cmpgt(self, o: Vec3) -> Mask {
        Mask([self.x > o.x, self.y > o.y, self.z > o.z])
    }
}

/// The answer of a comparison, one for each component.
pub struct Mask([bool; 3]);

impl Mask {
    pub fn any(self) -> bool {
        self.0.contains(&true)
    }
}

// The operators: "All arithmetic is f32, one rounding each", component by component. A division by
// a number divides each component; only `normalize` multiplies by one over it.

impl Add for Vec3 {
    type Output = Vec3;
    fn add(self, o: Vec3) -> Vec3 {
        self.with(o, |a, b| a + b)
    }
}

impl Sub for Vec3 {
    type Output = Vec3;
    fn sub(self, o: Vec3) -> Vec3 {
        self.with(o, |a, b| a - b)
    }
}

impl Mul for Vec3 {
    type Output = Vec3;
    fn mul(self, o: Vec3) -> Vec3 {
        self.with(o, |a, b| a * b)
    }
}

impl Mul<f32> for Vec3 {
    type Output = Vec3;
    fn mul(self, k: f32) -> Vec3 {
        self.each(|a| a * k)
    }
}

impl Div<f32> for Vec3 {
    type Output = Vec3;
    fn div(self, k: f32) -> Vec3 {
        self.each(|a| a / k)
    }
}

impl Neg for Vec3 {
    type Output = Vec3;
    fn neg(self) -> Vec3 {
        self.each(|a| -a)
    }
}

impl AddAssign for Vec3 {
    fn add_assign(&mut self, o: Vec3) {
        *self = *self + o;
    }
}

impl SubAssign for Vec3 {
    fn sub_assign(&mut self, o: Vec3) {
        *self = *self - o;
    }
}

impl DivAssign<f32> for Vec3 {
    fn div_assign(&mut self, k: f32) {
        *self = *self / k;
    }
}

/// Component 0 is x, 1 is y, 2 is z. Only the tree of `bvh.rs` uses it, which is left out.
impl Index<usize> for Vec3 {
    type Output = f32;
    fn index(&self, axis: usize) -> &f32 {
        [&self.x, &self.y, &self.z][axis]
    }
}
