//! A refused call, and what to mend.
use std::error::Error;
use std::fmt;

/// A call that the library refused: which entry, by which number, and what to mend.
///
/// A refused call has written nothing, but for number 8 of [`lent::build`](crate::lent::build), which has
/// written the rows before the one that did not fit. Where several numbers apply, it is the lowest.
///
/// ```
/// use sokitahe::Scene;
///
/// let refused = Scene::new().normal([f32::NAN, 0.0, 0.0]).unwrap_err();
/// assert_eq!((refused.entry(), refused.number()), ("normal", 5));
/// assert!(refused.to_string().starts_with("normal refused with 5: mend a number"));
/// ```
#[derive(Clone, Copy, Debug, PartialEq, Eq)]
pub struct Refused {
    entry: &'static str,
    number: u32,
    row: Option<usize>,
}

impl Refused {
    pub(crate) fn new(entry: &'static str, number: u32) -> Refused {
        Refused {
            entry,
            number,
            row: None,
        }
    }

    pub(crate) fn full(entry: &'static str, row: usize) -> Refused {
        Refused {
            entry,
            number: 8,
            row: Some(row),
        }
    }

    /// The entry that refused the call, such as `"solve"`.
    pub fn entry(&self) -> &'static str {
        self.entry
    }

    /// The number of the refusal, 1 to 8.
    pub fn number(&self) -> u32 {
        self.number
    }

    /// The first row whose links did not fit, where the number is 8.
    pub fn row(&self) -> Option<usize> {
        self.row
    }

    /// One sentence that names the entry and the number and says what to mend.
    pub fn sentence(&self) -> String {
        self.to_string()
    }

    /// What to mend, without the entry and the number; nothing where the entry never gives this number.
    fn advice(&self) -> Option<&'static str> {
        let table: &[(u32, &str)] = match self.entry {
            "dist_mat" | "normal" | "trace" | "soft_shadow" | "hemisphere_closure" => SCENE,
            "generate" => GENERATE,
            "grid_build" => GRID_BUILD,
            "near" => NEAR,
            "gather" | "gather_all" => GATHER,
            "build_clusters" => BUILD_CLUSTERS,
            "build" => BUILD,
            "solve" => SOLVE,
            "reset" => RESET,
            "reset_records" => RESET_RECORDS,
            "room_read" => ROOM_READ,
            "room_report" => ROOM_REPORT,
            _ => &[],
        };
        let found = table.iter().find(|(number, _)| *number == self.number);
        found.map(|(_, advice)| *advice)
    }
}

impl fmt::Display for Refused {
    fn fmt(&self, f: &mut fmt::Formatter<'_>) -> fmt::Result {
        write!(f, "{} refused with {}", self.entry, self.number)?;
        if let Some(row) = self.row {
            write!(f, ", row {row}")?;
        }
        match self.advice() {
            Some(advice) => write!(f, ": mend {advice}"),
            None => write!(f, ", a number that this crate does not know of that entry"),
        }
    }
}

impl Error for Refused {}

const BOX: &str =
    "the bounds: lo is not above hi on any axis, and no component is NaN or beyond ±10,000";
const PARTS: &str = "the scene's parts: a plane's base is a plane and an object's is none (`Scene::plane` adds planes), a kind is 0..6, and a base and all that is subtracted from it are primitives of the table";

const SCENE: &[(u32, &str)] = &[
    (2, "a count: primitives, planes and objects are at most 256 each"),
    (4, "a slice that is too short: kinds has a number a primitive, lengths eight floats, plane_parts and object_parts four numbers a plane or object"),
    (5, "a number that is NaN, infinite or out of range: coordinates, normals and plane heights are within ±10,000, radii and half-sizes 0..10,000"),
    (6, PARTS),
];

const GENERATE: &[(u32, &str)] = &[
    (2, "a count: the target is at most 400,000, and primitives, planes, objects and materials are at most 256 each"),
    (3, BOX),
    (4, "a slice that is too short: a table of the scene, four floats a material, a column for the target, or the scratch, a number a cell in head and one for each of the target in next"),
    (5, "a number that is NaN, infinite or out of range: coordinates, normals and plane heights are within ±10,000, radii and half-sizes 0..10,000, albedo and metallic 0..1"),
    (6, PARTS),
];

const GRID_BUILD: &[(u32, &str)] = &[
    (2, "the number of points, which is at most 400,000"),
    (3, "the bounds or the cell: lo is not above hi on any axis, no component is NaN or beyond ±10,000, and the cell is 0.0001..10,000"),
    (4, "a slice that is too short: p has three floats a point, starts a place for each cell and one more, items a place a point"),
    (5, "a point that is NaN, infinite or beyond ±10,000"),
];

const STARTS: &str =
    "the grid's tables: starts begin at 0, never fall and end at n, and each item is below n; box and cell are those that the grid was built with";

const NEAR: &[(u32, &str)] = &[
    (2, "the number of points, which is at most 400,000"),
    (3, "the bounds, the cell or the reach: lo is not above hi on any axis, no component is NaN or beyond ±10,000, the cell is 0.0001..10,000, and the reach 0..511"),
    (4, "a slice that is too short: starts has a place for each cell and one more, items a place a point, and the list one for each number near the point"),
    (5, "a point that is NaN, infinite or beyond ±10,000"),
    (7, STARTS),
];

const GATHER: &[(u32, &str)] = &[
    (2, "the number of points or probes, which is at most 400,000"),
    (3, "the bounds, the cell or the radius: lo is not above hi on any axis, no component is NaN or beyond ±10,000, the cell is 0.0001..10,000, and the radius 0..10,000"),
    (4, "a slice that is too short: starts has a place for each cell and one more, items a place a point, the columns of surfels three floats for each point of the grid, and those of probes a place or a vector a probe"),
    (5, "a point or a normal, of a surfel or a probe, that is NaN, infinite or beyond ±10,000"),
    (7, STARTS),
];

const BUILD_CLUSTERS: &[(u32, &str)] = &[
    (2, "the number of surfels, which is at most 400,000"),
    (3, "the bounds or res: lo is not above hi on any axis, no component is NaN or beyond ±10,000, and res is 1..64"),
    (4, "a slice that is too short: a column of the surfels (each has an entry for each area), of the clusters, the members, or the scratch, each with an entry a surfel"),
    (5, "a number that is NaN, infinite or out of range: points and normals are within ±10,000, an area 0..1,000,000"),
];

const BUILD: &[(u32, &str)] = &[
    (2, "a count: surfels are at most 400,000, clusters 65,536, primitives, planes and objects 256 each; with too many clusters take a smaller res"),
    (3, BOX),
    (4, "a slice that is too short: a table of the scene, a column of the surfels or of the clusters (each has an entry for each area), the starts, one more than surfels, or the scratch, an entry a cluster"),
    (5, "a number that is NaN, infinite or out of range: coordinates, normals and plane heights are within ±10,000, radii and half-sizes 0..10,000, a cluster's area 0..1e12 and its radius 0..1,000,000"),
    (6, PARTS),
    (8, "the room for links: the links of this row, after those of the rows before it, do not fit the shorter link slice, of which at most 16,777,216 places are used: lend more, at most n × nc, or build the rows from this one on by a call of their own, or take fewer clusters"),
];

const SOLVE: &[(u32, &str)] = &[
    (2, "a count: surfels and members are at most 400,000, clusters 65,536, links 16,777,216, and the limit 4,096"),
    (4, "a slice that is too short: a column of the surfels or of the clusters (each has an entry for each area), the members, the starts, one more than surfels, the links, or the scratch (`cluster_light` of a room), a vector a cluster"),
    (5, "a number that is NaN, infinite or out of range: albedo is 0..1, area and direct 0..1,000,000, a cluster's area 0..1e12, a weight 0..2"),
    (7, ROWS),
];

const ROWS: &str = "the rows or the members: starts begin at 0, never fall and end at the number of links, the links of a row ascend and each is below the number of clusters, the members' ranges follow one another from 0 to their number, and each member is below the number of surfels; rows, clusters and surfels are of one room";
const LIGHT: &str = "light that is NaN, infinite or outside 0..1,000,000";

const RESET: &[(u32, &str)] = &[
    (2, "the length of a list, which is at most 1,200,000 floats"),
    (4, "the lengths of the lists: light, direct, irr and rad are of one length, three floats a surfel"),
    (5, LIGHT),
];

const RESET_RECORDS: &[(u32, &str)] = &[
    (
        2,
        "the length of a list: the light is at most 1,200,000 floats, the records at most 400,000",
    ),
    (
        4,
        "the lengths of the lists: the light is three floats a record",
    ),
    (5, LIGHT),
];

const ROOM_READ: &[(u32, &str)] = &[
    (1, "the form of the file: it has 100 to 268,435,456 bytes, form 1, the offsets and the length that its counts give, and zeros in its spare words"),
    (2, "a count: surfels, members and probes are at most 400,000, clusters 65,536, links 16,777,216, and the limit 4,096"),
    (3, "the bounds, the cell or the radius: lo is not above hi on any axis, no component is NaN or beyond ±10,000, the cell is 0.0001..10,000, and the radius 0..10,000"),
    (4, "a column that is shorter than what the room's counts ask for"),
    (5, "a number that is NaN, infinite or out of range: points and normals are within ±10,000, albedo 0..1, area and direct 0..1,000,000, a cluster's area 0..1e12, a weight 0..2"),
    (7, ROWS),
];

const ROOM_REPORT: &[(u32, &str)] = &[(4, "the text, which has at least 131,072 bytes")];
