//! Rectangles of the floor plan.

/// A rectangle seen from above, as x and z of two corners in metres.
#[derive(Clone, Copy, Debug)]
pub struct Plan {
    pub lo: [f32; 2],
    pub hi: [f32; 2],
}

/// The rectangle from one corner to the other.
pub const fn plan(lo: [f32; 2], hi: [f32; 2]) -> Plan {
    Plan { lo, hi }
}

impl Plan {
    /// The rectangle with a margin on each of its four sides, or less one where it is below 0.
    pub fn widened(self, margin: f32) -> Plan {
        Plan {
            lo: self.lo.map(|side| side - margin),
            hi: self.hi.map(|side| side + margin),
        }
    }

    /// How long it is along x and along z.
    pub fn size(self) -> [f32; 2] {
        [self.hi[0] - self.lo[0], self.hi[1] - self.lo[1]]
    }

    /// Its middle, as x and z.
    pub fn middle(self) -> [f32; 2] {
        [
            (self.lo[0] + self.hi[0]) / 2.0,
            (self.lo[1] + self.hi[1]) / 2.0,
        ]
    }

    /// The middles of its equal parts, so many along x and along z; x goes fastest.
    pub fn middles(self, columns: usize, rows: usize) -> impl Iterator<Item = [f32; 2]> {
        let middle = move |axis: usize, part: usize, parts: usize| {
            self.lo[axis] + self.size()[axis] * (part as f32 + 0.5) / parts as f32
        };
        let at = move |column, row| [middle(0, column, columns), middle(1, row, rows)];
        (0..columns * rows).map(move |i| at(i % columns, i / columns))
    }
}
