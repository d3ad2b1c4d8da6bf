//! Bounced light in a room, computed by code that is proved.
//!
//! Planners of clinic lighting choose lamps from these numbers: how much light reaches a couch after at
//! least one bounce, before the surface there colours it (indirect irradiance, `irr`). This crate is a
//! safe interface to the static library `libinterflect.a`, in which each function is proved to meet its
//! definition.
//!
//! # From a scene to a reading
//!
//! 1. [`Scene`]: the surfaces of the room, as shapes with materials.
//! 2. [`Surfels::place`]: pieces of these surfaces.
//! 3. [`Clusters::build`]: surfels taken together as emitters.
//! 4. [`Rows::build`] or, on several threads, [`Rows::build_on`]: which clusters light which surfels.
//! 5. [`Room::reset`] with the lamps' light at each surfel, and [`Room::solve`].
//! 6. [`Grid::build`], and [`Grid::gather_all`] at the points of interest.
//!
//! A couch that no surfel covers reads as [`Reading::Unseen`], not as dark. Steps 5 and 6 serve a room
//! that another program prepared, too: see [`RoomFile`].
//!
//! # A first room
//!
//! One surfel, which lights itself by half, solved and read at two points:
//!
//! ```
//! use sokitahe::{Bounds, Clusters, Grid, Probe, Reading, Room, Rows, Surfels};
//!
//! let surfels = Surfels {
//!     p: vec![[0.0; 3]],
//!     normals: vec![[0.0, 0.0, 1.0]],
//!     albedo: vec![[0.5; 3]],
//!     area: vec![1.0],
//!     direct: vec![[0.0; 3]],
//!     irr: vec![[0.0; 3]],
//!     rad: vec![[0.0; 3]],
//! };
//! let clusters = Clusters { area: vec![1.0], first: vec![0], count: vec![1], members: vec![0], ..Clusters::default() };
//! let rows = Rows { starts: vec![0, 1], link_cluster: vec![0], link_weight: vec![0.5], ..Rows::default() };
//! let mut room = Room::new(surfels, clusters, rows);
//!
//! room.reset(&[[1.0; 3]])?;
//! let solved = room.solve(12)?;
//! assert!(solved.settled());
//! assert_eq!(solved.bounces, 7);
//!
//! let grid = Grid::build(&room.surfels.p, Bounds { lo: [0.0; 3], hi: [4.0, 1.0, 1.0] }, 1.0)?;
//! let normal = [0.0, 0.0, 1.0];
//! let probes = [Probe { p: [0.0; 3], normal }, Probe { p: [1.0, 0.0, 0.0], normal }];
//! let light = f32::from_bits(0x3F2AA800);
//! assert_eq!(grid.gather_all(&room.surfels, &probes, 1.0)?, [Reading::Seen([light; 3]), Reading::Unseen]);
//! # Ok::<(), sokitahe::Refused>(())
//! ```
//!
//! # Light, lengths and what is not refused
//!
//! Lengths are in metres. Light is in any unit of which 0.0001 is next to nothing, as lux, since a solve
//! ends at a change under that. What a room is reset with is the light that each surfel gives off of the
//! lamps': its albedo times the irradiance from them, which is the host's to find, as the example `clinic`
//! does by [`Scene::soft_shadow`]. A surface receives that irradiance and `irr`.
//!
//! Some things are accepted and give wrong light all the same: a normal of a plane or a surfel, or a
//! direction of a ray, that is not of length 1; light to [`Room::reset`] that was not multiplied by the
//! albedo; a grid whose cell is smaller than the radius of the readings; surfels that are not those of
//! which a grid was built; and a room without walls (planes are endless, so that a floor and a ceiling alone
//! pass for a closed room).
//!
//! # Refusals
//!
//! Nothing is asked of a caller: any numbers get an answer. What an entry cannot work with it refuses, as
//! [`Refused`], with a number from 1 to 8 and a sentence that says what to mend; nothing has then been
//! changed (but for the rows that did fit, in 8 of [`lent::build`]). The columns of the types here are
//! public, since they are yours: one of the wrong length, or with a NaN in it, is refused where it is used.
//!
//! # Two layers
//!
//! The types here own their columns. Beneath them, [`lent`] has the library's entries over slices that
//! you lend, with every count explicit; it allocates no column.
//!
//! The crate runs on x86-64 Linux and depends on no other. Its build script builds the library with `rt`
//! from the repository that it stands in, which proves the library and takes six to nine minutes the first
//! time, or takes `libinterflect.a` from the folder that the environment variable `SOKITAHE_LIB_DIR` names.
#![deny(missing_docs)]
#![deny(unsafe_code)]
#![deny(unsafe_op_in_unsafe_fn)]

mod bounds;
#[allow(unsafe_code)] // The one module that calls the library.
mod calls;
mod clusters;
mod ffi;
mod file;
mod grid;
pub mod lent;
mod limits;
mod parts;
mod refused;
mod room;
mod rows;
mod scene;
mod surfels;

pub use bounds::{Bounds, Vec3};
pub use clusters::Clusters;
pub use file::{report, RoomFile};
pub use grid::{Grid, Probe, Reading};
pub use refused::Refused;
pub use room::{Room, Solved};
pub use rows::Rows;
pub use scene::{Closure, Hit, Material, Nearest, Scene, Shadow, Shape, Traced};
pub use surfels::Surfels;
