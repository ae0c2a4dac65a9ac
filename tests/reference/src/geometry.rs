//! Places on the grid, and exact tests on the segments between them.

/// A place: a whole column and a whole row.
#[derive(Clone, Copy, Debug, Default, PartialEq, Eq, PartialOrd, Ord, Hash)]
pub struct Place {
    /// The column, counted from the left.
    pub column: usize,
    /// The row, counted from below.
    pub row: usize,
}

impl Place {
    /// The place at `column` and `row`.
    pub fn new(column: usize, row: usize) -> Place {
        Place { column, row }
    }

    /// The way from here to `other`, across and up.
    fn to(self, other: Place) -> (i64, i64) {
        let step = |from: usize, to: usize| to as i64 - from as i64;
        (step(self.column, other.column), step(self.row, other.row))
    }
}

/// Whether `place` lies on the segment from `a` to `b`, ends included.
pub fn on_segment(a: Place, b: Place, place: Place) -> bool {
    let (to_a, to_b) = (place.to(a), place.to(b));
    let in_one_line = to_a.0 * to_b.1 - to_a.1 * to_b.0 == 0;
    let opposite_ways = to_a.0 * to_b.0 + to_a.1 * to_b.1 <= 0;
    in_one_line && opposite_ways
}

/// Whether `place` lies on the segment from `a` to `b` and is neither end.
pub fn strictly_inside(a: Place, b: Place, place: Place) -> bool {
    place != a && place != b && on_segment(a, b, place)
}
