//! Room files and their report.
use crate::bounds::{Bounds, Vec3};
use crate::clusters::Clusters;
use crate::grid::Probe;
use crate::lent::{self, RoomColumns};
use crate::limits::REPORT_TEXT;
use crate::refused::Refused;
use crate::room::Room;
use crate::rows::Rows;
use crate::surfels::Surfels;

/// A room file: a room, the limit of its solve, and the probes that are read in it.
///
/// ```
/// use sokitahe::{Grid, Reading, RoomFile};
///
/// let bytes = std::fs::read("../../rooms/clinic.room")?; // a room of the repository
/// let mut file = RoomFile::read(&bytes)?;
/// assert!(file.room.solve(file.limit)?.settled());
/// let grid = Grid::build(&file.room.surfels.p, file.bounds, file.cell)?;
/// let readings = grid.gather_all(&file.room.surfels, &file.probes, file.radius)?;
/// assert!(matches!(readings[0], Reading::Seen([red, ..]) if red > 0.7));
/// assert_eq!(readings[5], Reading::Unseen); // in mid-air
/// assert_eq!(file.to_bytes()?, bytes);
/// # Ok::<(), Box<dyn std::error::Error>>(())
/// ```
#[derive(Clone, Debug, Default, PartialEq)]
pub struct RoomFile {
    /// The room. Its clusters have no `p`, `normals` and `radius`, which a file does not hold.
    pub room: Room,
    /// The most bounces of a solve, at most 4,096.
    pub limit: usize,
    /// The box of the grid that the probes are read by.
    pub bounds: Bounds,
    /// The side of a cell of that grid.
    pub cell: f32,
    /// The radius of a reading.
    pub radius: f32,
    /// The probes.
    pub probes: Vec<Probe>,
}

/// Columns that a file is read into.
#[derive(Default)]
struct Columns {
    surfels: Surfels,
    clusters: Clusters,
    rows: Rows,
    probe_p: Vec<Vec3>,
    probe_normals: Vec<Vec3>,
}

impl RoomFile {
    /// Reads the bytes of a room file. The light is that before the first bounce: `rad` is the direct
    /// light, `irr` zero.
    ///
    /// Refuses as [`lent::room_read`].
    pub fn read(bytes: &[u8]) -> Result<RoomFile, Refused> {
        let mut columns = Columns::blank(Counts::consistent(bytes));
        let header = lent::room_read(bytes, columns.lent())?;
        let Columns {
            mut surfels,
            clusters,
            rows,
            probe_p,
            probe_normals,
        } = columns;
        surfels.irr = vec![[0.0; 3]; surfels.len()];
        surfels.rad = surfels.direct.clone();
        let probes = probe_p.into_iter().zip(probe_normals);
        Ok(RoomFile {
            room: Room::new(surfels, clusters, rows),
            limit: header.limit,
            bounds: header.bounds,
            cell: header.cell,
            radius: header.radius,
            probes: probes.map(|(p, normal)| Probe { p, normal }).collect(),
        })
    }

    /// The bytes of the file. They have been read back, so that [`RoomFile::read`] accepts them.
    ///
    /// Refuses as [`lent::room_read`] does with the file, and with 4 where a column of the room is
    /// shorter than its counts ask for: surfels and clusters are counted by their areas, links by their
    /// clusters.
    pub fn to_bytes(&self) -> Result<Vec<u8>, Refused> {
        let counts = self.counts();
        let mut file = Writer::default();
        file.header(&counts);
        self.write_surfels(&mut file, counts.surfels);
        self.write_clusters(&mut file, counts.clusters);
        self.write_rows(&mut file, &counts);
        self.write_probes(&mut file);
        match RoomFile::read(&file.bytes) {
            Err(refused) if !file.short || refused.number() < 4 => Err(refused),
            _ if file.short => Err(Refused::new("room_read", 4)),
            _ => Ok(file.bytes),
        }
    }

    /// How many entries the file has of each kind.
    fn counts(&self) -> Counts {
        Counts {
            surfels: self.room.surfels.len(),
            clusters: self.room.clusters.len(),
            members: self.room.clusters.members.len(),
            links: self.room.rows.link_cluster.len(),
            probes: self.probes.len(),
            limit: self.limit,
        }
    }

    fn write_surfels(&self, file: &mut Writer, count: usize) {
        let surfels = &self.room.surfels;
        for i in 0..count {
            file.vector(&surfels.p, i);
            file.vector(&surfels.normals, i);
            file.vector(&surfels.albedo, i);
            file.float(&surfels.area, i);
            file.vector(&surfels.direct, i);
        }
    }

    fn write_clusters(&self, file: &mut Writer, count: usize) {
        let clusters = &self.room.clusters;
        for c in 0..count {
            file.float(&clusters.area, c);
            file.number(&clusters.first, c);
            file.number(&clusters.count, c);
        }
    }

    fn write_rows(&self, file: &mut Writer, counts: &Counts) {
        let rows = &self.room.rows;
        for m in 0..counts.members {
            file.number(&self.room.clusters.members, m);
        }
        for i in 0..=counts.surfels {
            file.number(&rows.starts, i);
        }
        for k in 0..counts.links {
            file.number(&rows.link_cluster, k);
            file.float(&rows.link_weight, k);
        }
    }

    fn write_probes(&self, file: &mut Writer) {
        let sizes = [self.cell, self.radius];
        for x in [&self.bounds.lo[..], &self.bounds.hi, &sizes].concat() {
            file.word(x.to_bits());
        }
        for probe in &self.probes {
            file.vector(&[probe.p], 0);
            file.vector(&[probe.normal], 0);
        }
    }
}

/// The counts of a file's header, and its limit.
#[derive(Clone, Copy, Default)]
struct Counts {
    surfels: usize,
    clusters: usize,
    members: usize,
    links: usize,
    probes: usize,
    limit: usize,
}

impl Counts {
    /// The counts of a file's header where its number of bytes is what they give, and otherwise none:
    /// the entry refuses such a file with 1, before it looks at any column.
    fn consistent(bytes: &[u8]) -> Counts {
        let word = |k: usize| match bytes.get(4 * k..4 * k + 4) {
            Some(word) => u32::from_le_bytes([word[0], word[1], word[2], word[3]]) as usize,
            None => 0,
        };
        let counts = Counts {
            surfels: word(1),
            clusters: word(2),
            members: word(3),
            links: word(4),
            probes: word(5),
            limit: word(6),
        };
        match counts.offsets()[6] == bytes.len() as u64 {
            true => counts,
            false => Counts::default(),
        }
    }

    /// Where the six blocks begin, and where the file ends, in bytes.
    fn offsets(&self) -> [u64; 7] {
        let mut offsets = [64; 7];
        let words = [
            13 * self.surfels as u64,
            3 * self.clusters as u64,
            self.members as u64,
            self.surfels as u64 + 1,
            2 * self.links as u64,
            8 + 6 * self.probes as u64,
        ];
        for (block, words) in words.into_iter().enumerate() {
            offsets[block + 1] = offsets[block] + 4 * words;
        }
        offsets
    }
}

impl Columns {
    /// Columns for these counts, all zero.
    fn blank(counts: Counts) -> Columns {
        let vectors = |count: usize| vec![[0.0; 3]; count];
        let mut columns = Columns::default();
        columns.surfels.p = vectors(counts.surfels);
        columns.surfels.normals = vectors(counts.surfels);
        columns.surfels.albedo = vectors(counts.surfels);
        columns.surfels.area = vec![0.0; counts.surfels];
        columns.surfels.direct = vectors(counts.surfels);
        columns.clusters.area = vec![0.0; counts.clusters];
        columns.clusters.first = vec![0; counts.clusters];
        columns.clusters.count = vec![0; counts.clusters];
        columns.clusters.members = vec![0; counts.members];
        columns.rows = Rows::blank(counts.surfels, counts.links);
        columns.probe_p = vectors(counts.probes);
        columns.probe_normals = vectors(counts.probes);
        columns
    }

    /// The columns as the entry writes them.
    fn lent(&mut self) -> RoomColumns<'_> {
        RoomColumns {
            p: self.surfels.p.as_flattened_mut(),
            normals: self.surfels.normals.as_flattened_mut(),
            albedo: self.surfels.albedo.as_flattened_mut(),
            area: &mut self.surfels.area,
            direct: self.surfels.direct.as_flattened_mut(),
            cluster_area: &mut self.clusters.area,
            first: &mut self.clusters.first,
            count: &mut self.clusters.count,
            member: &mut self.clusters.members,
            starts: &mut self.rows.starts,
            link_cluster: &mut self.rows.link_cluster,
            link_weight: &mut self.rows.link_weight,
            probe_p: self.probe_p.as_flattened_mut(),
            probe_normals: self.probe_normals.as_flattened_mut(),
        }
    }
}

/// The bytes of a file so far, and whether a column was too short for it.
#[derive(Default)]
struct Writer {
    bytes: Vec<u8>,
    short: bool,
}

impl Writer {
    fn word(&mut self, word: u32) {
        self.bytes.extend_from_slice(&word.to_le_bytes());
    }

    /// A count or an offset. One that is no word is over every limit, and so is the greatest word.
    fn whole(&mut self, whole: u64) {
        self.word(u32::try_from(whole).unwrap_or(u32::MAX));
    }

    fn header(&mut self, c: &Counts) {
        self.word(1);
        for count in [c.surfels, c.clusters, c.members, c.links, c.probes, c.limit] {
            self.whole(count as u64);
        }
        for offset in c.offsets() {
            self.whole(offset);
        }
        self.word(0);
        self.word(0);
    }

    fn number(&mut self, column: &[u32], i: usize) {
        let number = self.entry(column, i);
        self.word(number);
    }

    fn float(&mut self, column: &[f32], i: usize) {
        let float = self.entry(column, i);
        self.word(float.to_bits());
    }

    fn vector(&mut self, column: &[Vec3], i: usize) {
        for x in self.entry(column, i) {
            self.word(x.to_bits());
        }
    }

    /// Entry i of a column; zero, and the column is noted as too short, where it has none.
    fn entry<T: Copy + Default>(&mut self, column: &[T], i: usize) -> T {
        self.short |= i >= column.len();
        column.get(i).copied().unwrap_or_default()
    }
}

/// What `roomlight` prints of a room file of 100 to 65,536 bytes: the counts, the bounces, and a line a
/// probe, `seen` with the light or `unseen`; or, where the file is refused, `refused` and the number.
///
/// ```
/// assert_eq!(sokitahe::report(b"no room"), "refused 1\n");
/// ```
///
/// # Panics
///
/// Where the system can make no thread: a report needs one with a stack of its own.
pub fn report(bytes: &[u8]) -> String {
    let mut text = vec![0; REPORT_TEXT];
    let length = lent::room_report(bytes, &mut text).expect("the text is as long as any report");
    text.truncate(length);
    String::from_utf8(text).expect("a report is ASCII")
}
