//! Surfels: pieces of the surface of a scene.
use crate::bounds::{Bounds, Vec3};
use crate::lent::{self, PlacedColumns, SurfelTables};
use crate::limits::sized;
use crate::refused::Refused;
use crate::scene::Scene;

/// Surfels in columns, an entry a surfel each.
///
/// How many there are is the length of `area`; where another column is shorter, the entries refuse the
/// surfels with 4.
///
/// ```
/// use sokitahe::{Bounds, Scene, Surfels};
///
/// let mut scene = Scene::new();
/// let white = scene.material([0.8, 0.8, 0.8], 0.0);
/// scene.plane([0.0, 1.0, 0.0], 0.0, white);
/// let bounds = Bounds { lo: [0.0, -0.1, 0.0], hi: [2.0, 1.0, 2.0] };
/// let mut surfels = Surfels::place(&scene, bounds, 30)?;
/// assert!(!surfels.is_empty() && surfels.len() <= 30);
///
/// // Lamps enter as direct light, a vector a surfel: albedo × irradiance.
/// surfels.reset(&vec![[1.0; 3]; surfels.len()])?;
/// assert_eq!((surfels.rad[0], surfels.irr[0]), ([1.0; 3], [0.0; 3]));
/// # Ok::<(), sokitahe::Refused>(())
/// ```
#[derive(Clone, Debug, Default, PartialEq)]
pub struct Surfels {
    /// Their points.
    pub p: Vec<Vec3>,
    /// Their normals, of length 1.
    pub normals: Vec<Vec3>,
    /// The part of light that each returns, 0 to 1 a channel.
    pub albedo: Vec<Vec3>,
    /// Their areas, 0 to 1,000,000.
    pub area: Vec<f32>,
    /// What each gives off of the lamps' light, albedo × irradiance, 0 to 1,000,000.
    pub direct: Vec<Vec3>,
    /// The indirect irradiance: what reaches each after at least one bounce, before its colour.
    pub irr: Vec<Vec3>,
    /// All light that leaves each.
    pub rad: Vec<Vec3>,
}

impl Surfels {
    /// Places up to `target` surfels, at most 400,000, on the surfaces of the scene within the bounds;
    /// fewer may come to lie. Their light is zero. Each has the area d² / 0.65, where d is
    /// [`Bounds::spacing`], so that areas need not sum to the surface's.
    ///
    /// Refuses as [`lent::generate`].
    pub fn place(scene: &Scene, bounds: Bounds, target: usize) -> Result<Surfels, Refused> {
        let materials = scene.material_table();
        let generate = |surfels: &mut Surfels, head: &mut [u32], next: &mut [u32]| {
            let (tables, mats) = (scene.tables(), scene.materials().len());
            lent::generate(
                tables,
                mats,
                &materials,
                bounds,
                target,
                surfels.columns(),
                head,
                next,
            )
        };
        sized(generate(&mut Surfels::default(), &mut [], &mut []))?;
        let mut surfels = Surfels::blank(target);
        let mut head = vec![0; bounds.cells(bounds.spacing(target))];
        let placed = generate(&mut surfels, &mut head, &mut vec![0; target])?;
        surfels.cut(placed);
        Ok(surfels)
    }

    /// How many surfels there are.
    pub fn len(&self) -> usize {
        self.area.len()
    }

    /// Whether there is none.
    pub fn is_empty(&self) -> bool {
        self.area.is_empty()
    }

    /// Sets the light before the first bounce: `direct` and `rad` become the light, which is what each
    /// surfel gives off of the lamps', albedo × irradiance; `irr` becomes zero.
    ///
    /// Refuses as [`lent::reset`]: with 4 where the light, `direct`, `irr` and `rad` are not of one
    /// length.
    pub fn reset(&mut self, light: &[Vec3]) -> Result<(), Refused> {
        lent::reset(
            light.as_flattened(),
            self.direct.as_flattened_mut(),
            self.irr.as_flattened_mut(),
            self.rad.as_flattened_mut(),
        )
    }

    /// What a reading weighs of them.
    pub(crate) fn tables(&self) -> SurfelTables<'_> {
        SurfelTables {
            p: self.p.as_flattened(),
            normals: self.normals.as_flattened(),
            irr: self.irr.as_flattened(),
        }
    }

    /// Columns of so many entries, all zero.
    fn blank(places: usize) -> Surfels {
        let vectors = vec![[0.0; 3]; places];
        Surfels {
            p: vectors.clone(),
            normals: vectors.clone(),
            albedo: vectors.clone(),
            area: vec![0.0; places],
            direct: vectors.clone(),
            irr: vectors.clone(),
            rad: vectors,
        }
    }

    /// The columns as placement writes them.
    fn columns(&mut self) -> PlacedColumns<'_> {
        PlacedColumns {
            p: self.p.as_flattened_mut(),
            n: self.normals.as_flattened_mut(),
            albedo: self.albedo.as_flattened_mut(),
            area: &mut self.area,
            direct: self.direct.as_flattened_mut(),
            irr: self.irr.as_flattened_mut(),
            rad: self.rad.as_flattened_mut(),
        }
    }

    /// Cuts every column to so many entries.
    fn cut(&mut self, count: usize) {
        let vectors = [
            &mut self.p,
            &mut self.normals,
            &mut self.albedo,
            &mut self.direct,
            &mut self.irr,
            &mut self.rad,
        ];
        for column in vectors {
            column.truncate(count);
        }
        self.area.truncate(count);
    }
}

#[cfg(test)]
mod tests {
    use super::*;

    /// The number that placement refuses a call in an empty scene with, 0 if none does, for so many
    /// places of `head`.
    fn refusal(bounds: Bounds, target: usize, head: usize) -> u32 {
        let mut surfels = Surfels::blank(target);
        let (head, next) = (&mut vec![0; head], &mut vec![0; target]);
        let nothing = Scene::new();
        let columns = surfels.columns();
        let answer = lent::generate(
            nothing.tables(),
            0,
            &[],
            bounds,
            target,
            columns,
            head,
            next,
        );
        answer.err().map_or(0, |refused| refused.number())
    }

    /// The scratch that is lent is exactly the need: with one place less the entry refuses with 4.
    #[test]
    fn head_has_a_place_a_cell_and_none_to_spare() {
        let boxes: [(Vec3, Vec3); 6] = [
            ([0.0; 3], [4.0, 2.7, 3.0]),
            ([-1.0, -0.1, -7.3], [0.3, 0.0, 9.1]),
            ([0.1; 3], [0.1; 3]),
            ([-10_000.0; 3], [10_000.0; 3]),
            ([0.0; 3], [1e-5, 1e-4, 2e-4]),
            ([0.0; 3], [500.0, 1e-3, 1e-3]),
        ];
        for (lo, hi) in boxes {
            for target in [0, 1, 2, 7, 60, 999] {
                let bounds = Bounds { lo, hi };
                let need = bounds.cells(bounds.spacing(target));
                assert_eq!(refusal(bounds, target, need), 0, "{bounds:?} {target}");
                assert_eq!(refusal(bounds, target, need - 1), 4, "{bounds:?} {target}");
            }
        }
    }
}
