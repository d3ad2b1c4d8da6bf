// Appended by oracle/build to its copy of scene.rs; what stands above is unchanged.
pub mod open {
    use super::{Camera, RenderCfg, Scene, Vec3};
    use crate::bvh::Bvh;
    use crate::sdf::Object;

    /// A scene of these shapes alone, queried by the linear scan: `use_bvh` is false.
    pub fn of_shapes(planes: Vec<Object>, objects: Vec<Object>) -> Scene {
        Scene {
            objects,
            planes,
            materials: Vec::new(),
            lights: Vec::new(),
            camera: Camera::default(),
            cfg: RenderCfg::default(),
            bvh: Bvh::build(&[]),
            use_bvh: false,
            bounds: (Vec3::ZERO, Vec3::ONE),
        }
    }
}
