//! Page strokes.

use crate::raw;
use crate::refusal::Refusal;

/// A whole column and row of a chart.
#[derive(Clone, Copy, Debug, PartialEq, Eq)]
pub struct Place {
    /// The column, below 640 on the page.
    pub column: u32,
    /// The row, below [`crate::MOST_ROWS`] on the page.
    pub row: u32,
}

/// A point of the page, in exact quarters.
#[derive(Clone, Copy, Debug, PartialEq)]
pub struct Point {
    /// Points across.
    pub across: f32,
    /// Points up.
    pub up: f32,
}

/// The stroke between two places.
pub fn stroke_straight(places: [Place; 2]) -> Result<[Point; 2], Refusal> {
    points(raw::stroke_straight(places.map(numbers)))
}

/// The stroke that bends at the second place.
pub fn stroke_bent(places: [Place; 3]) -> Result<[Point; 3], Refusal> {
    points(raw::stroke_bent(places.map(numbers)))
}

/// The stroke of a side arrow, with corners at the second and third places.
pub fn stroke_side(places: [Place; 4]) -> Result<[Point; 4], Refusal> {
    points(raw::stroke_side(places.map(numbers)))
}

fn numbers(place: Place) -> [u32; 2] {
    [place.column, place.row]
}

fn points<const N: usize>(stroke: raw::Stroke) -> Result<[Point; N], Refusal> {
    Refusal::of_number(stroke.refusal)?;
    Ok(std::array::from_fn(|place| {
        let [across, up] = stroke.places[place];
        Point { across, up }
    }))
}
