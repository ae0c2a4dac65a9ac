//! Page strokes: places as points of the page, exact to a quarter.

use crate::geometry::Place;
use crate::refusal::Refusal;

/// Quarter points from one column to the next.
pub const COLUMN_PITCH: u32 = 42;
/// Quarter points from one row to the next.
pub const ROW_PITCH: u32 = 113;
/// The number of columns of a page.
pub const PAGE_COLUMNS: usize = 640;
/// The number of rows of a page, as many as a chart of the most vertices from the highest floor has.
pub const PAGE_ROWS: usize = 255;

/// A point of the page (12.1), in whole quarter points.
#[derive(Clone, Copy, Debug, PartialEq, Eq)]
pub struct Point {
    /// Quarter points from the left.
    pub quarters_across: u32,
    /// Quarter points from below.
    pub quarters_up: u32,
}

impl Point {
    /// The point at a place, refused beyond the page.
    pub fn at(place: Place) -> Result<Point, Refusal> {
        if place.column >= PAGE_COLUMNS || place.row >= PAGE_ROWS {
            return Err(Refusal::OffPage);
        }
        Ok(Point {
            quarters_across: place.column as u32 * COLUMN_PITCH,
            quarters_up: place.row as u32 * ROW_PITCH,
        })
    }

    /// Points across. Below 2^24 whole numbers are exact, and a quarter of one is too.
    pub fn across(self) -> f32 {
        self.quarters_across as f32 * 0.25
    }

    /// Points up, as exact as points across.
    pub fn up(self) -> f32 {
        self.quarters_up as f32 * 0.25
    }
}

/// A stroke on the page.
#[derive(Clone, Copy, Debug, PartialEq, Eq)]
pub enum Polyline {
    /// Two points.
    Straight([Point; 2]),
    /// Three points.
    Bent([Point; 3]),
    /// Four points, a side stroke.
    PathTransitive([Point; 4]),
}

impl Polyline {
    /// A straight stroke between two places.
    pub fn straight(places: [Place; 2]) -> Result<Polyline, Refusal> {
        points(places).map(Polyline::Straight)
    }

    /// A stroke with one bend.
    pub fn bent(places: [Place; 3]) -> Result<Polyline, Refusal> {
        points(places).map(Polyline::Bent)
    }

    /// A stroke over a side column.
    pub fn path_transitive(places: [Place; 4]) -> Result<Polyline, Refusal> {
        points(places).map(Polyline::PathTransitive)
    }

    /// The stroke through two, three or four places; nothing for another number of them.
    pub fn through(places: &[Place]) -> Option<Result<Polyline, Refusal>> {
        match *places {
            [a, b] => Some(Polyline::straight([a, b])),
            [a, b, c] => Some(Polyline::bent([a, b, c])),
            [a, b, c, d] => Some(Polyline::path_transitive([a, b, c, d])),
            _ => None,
        }
    }

    /// The points in their order.
    pub fn points(&self) -> &[Point] {
        match self {
            Polyline::Straight(points) => points,
            Polyline::Bent(points) => points,
            Polyline::PathTransitive(points) => points,
        }
    }
}

/// The points at all places, refused where one lies beyond the page.
fn points<const N: usize>(places: [Place; N]) -> Result<[Point; N], Refusal> {
    let mut points = [Point {
        quarters_across: 0,
        quarters_up: 0,
    }; N];
    for (point, place) in points.iter_mut().zip(places) {
        *point = Point::at(place)?;
    }
    Ok(points)
}
