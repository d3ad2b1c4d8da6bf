//! A scene of shapes, and the questions that can be asked of it.
use crate::bounds::Vec3;
use crate::lent::{self, SceneTables};
use crate::refused::Refused;

/// A shape and its lengths, in metres. Coordinates are within ±10,000, radii and half-sizes from 0 to
/// 10,000.
#[derive(Clone, Copy, Debug, PartialEq)]
pub enum Shape {
    /// A sphere.
    Sphere {
        /// Its centre.
        c: Vec3,
        /// Its radius.
        r: f32,
    },
    /// A box with rounded edges.
    RoundBox {
        /// Its centre.
        c: Vec3,
        /// Its half-sizes, with the rounding in them.
        b: Vec3,
        /// The radius of the rounded edges, at most the least half-size.
        r: f32,
    },
    /// A plane: all points p whose dot(p, n) is at most h lie behind it.
    Plane {
        /// Its normal, of length 1: with another what is answered is no distance.
        n: Vec3,
        /// How far along the normal from the origin it lies.
        h: f32,
    },
    /// A capsule: all points within a radius of a segment.
    Capsule {
        /// One end of the axis.
        a: Vec3,
        /// The other end; with two equal ends its distance is NaN, and it is never nearest.
        b: Vec3,
        /// The radius around the axis.
        r: f32,
    },
    /// A torus that lies flat in x and z.
    Torus {
        /// Its centre.
        c: Vec3,
        /// The radius of the ring.
        major: f32,
        /// The radius of its tube.
        minor: f32,
    },
    /// A cylinder with flat caps.
    Cylinder {
        /// The centre of one cap.
        a: Vec3,
        /// The centre of the other.
        b: Vec3,
        /// The radius.
        r: f32,
    },
    /// A cone with flat caps.
    Cone {
        /// The centre of one cap.
        a: Vec3,
        /// The centre of the other.
        b: Vec3,
        /// The radius at `a`; 0 is a tip.
        ra: f32,
        /// The radius at `b`; 0 is a tip.
        rb: f32,
    },
}

impl Shape {
    /// The shape as a row of the tables: its kind, and eight floats in the order of its fields.
    fn row(&self) -> (u32, [f32; 8]) {
        match *self {
            Shape::Sphere { c: [x, y, z], r } => (0, [x, y, z, r, 0.0, 0.0, 0.0, 0.0]),
            Shape::RoundBox { c: [x, y, z], b, r } => (1, [x, y, z, b[0], b[1], b[2], r, 0.0]),
            Shape::Plane { n: [x, y, z], h } => (2, [x, y, z, h, 0.0, 0.0, 0.0, 0.0]),
            Shape::Capsule { a: [x, y, z], b, r } => (3, [x, y, z, b[0], b[1], b[2], r, 0.0]),
            Shape::Torus {
                c: [x, y, z],
                major,
                minor,
            } => (4, [x, y, z, major, minor, 0.0, 0.0, 0.0]),
            Shape::Cylinder { a: [x, y, z], b, r } => (5, [x, y, z, b[0], b[1], b[2], r, 0.0]),
            Shape::Cone {
                a: [x, y, z],
                b,
                ra,
                rb,
            } => (6, [x, y, z, b[0], b[1], b[2], ra, rb]),
        }
    }
}

/// The colour of a surface, and how much of it is metal, each from 0 to 1. A surfel there has the
/// albedo × (1 − metallic).
#[derive(Clone, Copy, Debug, Default, PartialEq)]
pub struct Material {
    /// The part of light that it returns, a number a channel.
    pub albedo: Vec3,
    /// How much of it is metal.
    pub metallic: f32,
}

/// What is nearest to a point.
#[derive(Clone, Copy, Debug, Default, PartialEq)]
pub struct Nearest {
    /// How far it lies: above 0 outside, below 0 inside.
    pub distance: f32,
    /// Its material.
    pub material: u32,
}

/// Where a ray meets a surface.
#[derive(Clone, Copy, Debug, Default, PartialEq)]
pub struct Hit {
    /// How far along the ray.
    pub t: f32,
    /// The point.
    pub p: Vec3,
    /// The normal there.
    pub n: Vec3,
    /// The material there.
    pub material: u32,
}

/// A ray that was marched.
#[derive(Clone, Copy, Debug, Default, PartialEq)]
pub struct Traced {
    /// What it meets, if anything.
    pub hit: Option<Hit>,
    /// How often the distance was evaluated, at most 132 times.
    pub evals: u32,
}

/// A soft shadow.
#[derive(Clone, Copy, Debug, Default, PartialEq)]
pub struct Shadow {
    /// How much is seen, 0 to 1.
    pub visibility: f32,
    /// How often the distance was evaluated, at most 96 times.
    pub evals: u32,
}

/// How open the hemisphere above a point is.
#[derive(Clone, Copy, Debug, Default, PartialEq)]
pub struct Closure {
    /// The part of 16 directions that meets nothing, 0 to 1.
    pub open: f32,
    /// How often the distance was evaluated, at most 2,112 times.
    pub evals: u32,
}

/// A scene: planes and objects, each a shape without others, and their materials.
///
/// At most 256 primitives (all shapes, the subtracted ones too), planes, objects and materials each:
/// a scene with more is refused with 2 where it is used. In a tie the earlier part is nearest, planes
/// before objects.
///
/// ```
/// use sokitahe::{Scene, Shape};
///
/// let mut scene = Scene::new();
/// let white = scene.material([0.8, 0.8, 0.8], 0.0);
/// let oak = scene.material([0.6, 0.4, 0.25], 0.0);
/// scene.plane([0.0, 1.0, 0.0], 0.0, white);
/// scene.object(Shape::Sphere { c: [0.0, 2.0, 0.0], r: 0.5 }, oak);
///
/// let nearest = scene.dist_mat([0.0, 1.0, 0.0])?;
/// assert_eq!((nearest.distance, nearest.material), (0.5, oak));
/// let down = scene.trace([1.0, 1.0, 0.0], [0.0, -1.0, 0.0], 0.0, 10.0)?;
/// assert_eq!(down.hit.map(|hit| hit.material), Some(white));
/// # Ok::<(), sokitahe::Refused>(())
/// ```
#[derive(Clone, Debug, Default)]
pub struct Scene {
    kinds: Vec<u32>,
    lengths: Vec<[f32; 8]>,
    plane_parts: Vec<[u32; 4]>,
    object_parts: Vec<[u32; 4]>,
    materials: Vec<Material>,
}

impl Scene {
    /// A scene of nothing.
    pub fn new() -> Scene {
        Scene::default()
    }

    /// Adds a material, and answers its number.
    pub fn material(&mut self, albedo: Vec3, metallic: f32) -> u32 {
        self.materials.push(Material { albedo, metallic });
        table_number(self.materials.len() - 1)
    }

    /// Adds the plane whose distance from p is dot(p, n) − h, with a normal of length 1. It is endless.
    pub fn plane(&mut self, n: Vec3, h: f32, material: u32) {
        self.plane_less(n, h, &[], material);
    }

    /// Adds a plane without what these shapes take from it.
    pub fn plane_less(&mut self, n: Vec3, h: f32, less: &[Shape], material: u32) {
        let part = self.part(Shape::Plane { n, h }, less, material);
        self.plane_parts.push(part);
    }

    /// Adds an object of one shape. A plane is no object: the scene is then refused with 6.
    pub fn object(&mut self, base: Shape, material: u32) {
        self.object_less(base, &[], material);
    }

    /// Adds an object: the base without these shapes. A plane may be subtracted.
    pub fn object_less(&mut self, base: Shape, less: &[Shape], material: u32) {
        let part = self.part(base, less, material);
        self.object_parts.push(part);
    }

    /// The scene as the entries take it.
    pub fn tables(&self) -> SceneTables<'_> {
        SceneTables {
            prims: self.kinds.len(),
            planes: self.plane_parts.len(),
            objects: self.object_parts.len(),
            kinds: &self.kinds,
            lengths: self.lengths.as_flattened(),
            plane_parts: self.plane_parts.as_flattened(),
            object_parts: self.object_parts.as_flattened(),
        }
    }

    /// The materials, by number. A surface whose material number is none of them has an albedo of 0.8
    /// and no metal.
    pub fn materials(&self) -> &[Material] {
        &self.materials
    }

    /// How far what is nearest to `p` lies, and its material. Refuses as [`lent::dist_mat`].
    pub fn dist_mat(&self, p: Vec3) -> Result<Nearest, Refused> {
        lent::dist_mat(self.tables(), p)
    }

    /// The normal of the surface nearest to `p`; in a scene of nothing it has a NaN. Refuses as
    /// [`lent::dist_mat`].
    pub fn normal(&self, p: Vec3) -> Result<Vec3, Refused> {
        lent::normal(self.tables(), p)
    }

    /// What a ray from `ro` along `rd`, of length 1, meets between `tmin` and `tmax`. Refuses as
    /// [`lent::trace`].
    pub fn trace(&self, ro: Vec3, rd: Vec3, tmin: f32, tmax: f32) -> Result<Traced, Refused> {
        lent::trace(self.tables(), ro, rd, tmin, tmax)
    }

    /// How much of a light is seen from `ro` along `rd`, of length 1, between `tmin` and `tmax`, with
    /// shadows the softer the smaller `k` is: [`lent::soft_shadow`] says how to choose these, and refuses.
    pub fn soft_shadow(
        &self,
        ro: Vec3,
        rd: Vec3,
        tmin: f32,
        tmax: f32,
        k: f32,
    ) -> Result<Shadow, Refused> {
        lent::soft_shadow(self.tables(), ro, rd, tmin, tmax, k)
    }

    /// How open the hemisphere about `n` above `p` is, up to `tmax`. Refuses as
    /// [`lent::hemisphere_closure`].
    pub fn hemisphere_closure(&self, p: Vec3, n: Vec3, tmax: f32) -> Result<Closure, Refused> {
        lent::hemisphere_closure(self.tables(), p, n, tmax)
    }

    /// The materials as the placement takes them, four floats each.
    pub(crate) fn material_table(&self) -> Vec<f32> {
        let row = |m: &Material| [m.albedo[0], m.albedo[1], m.albedo[2], m.metallic];
        self.materials.iter().flat_map(row).collect()
    }

    /// Adds the primitives of a part, and answers the part: base, first subtracted, how many, material.
    fn part(&mut self, base: Shape, less: &[Shape], material: u32) -> [u32; 4] {
        let at = table_number(self.kinds.len());
        for shape in std::iter::once(&base).chain(less) {
            let (kind, lengths) = shape.row();
            self.kinds.push(kind);
            self.lengths.push(lengths);
        }
        [at, at.saturating_add(1), table_number(less.len()), material]
    }
}

/// A place in a table as a number. No table of 2^32 entries is accepted, so that the greatest number
/// stands for all beyond it.
fn table_number(place: usize) -> u32 {
    u32::try_from(place).unwrap_or(u32::MAX)
}
