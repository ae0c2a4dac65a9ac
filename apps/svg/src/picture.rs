//! The picture: words as numbered points, arrows as strokes by kind.

use crate::listing::{Arrow, Kind, Listing};
use reference::geometry::Place;
use reference::strokes::{Point, Polyline, COLUMN_PITCH, ROW_PITCH};
use std::fmt::Write;

/// Points around the chart.
const MARGIN: f32 = 16.0;
/// The radius of a word's point.
const RADIUS: f32 = 4.6;
/// Points from a row down to the line below it.
const HALF_ROW: f32 = ROW_PITCH as f32 / 8.0;

/// How strokes look: implied ones faint, each kind in its own way.
const STYLE: &str = "
  rect { fill: #fff }
  .arrow { fill: none; stroke-linejoin: round; stroke-width: 0.9; marker-end: url(#head) }
  .spine { stroke: #222; stroke-width: 1.6 }
  .side { stroke: #1f5fa8 }
  .straight { stroke: #2a7d46 }
  .bent { stroke: #b5541c }
  .implied { opacity: 0.28 }
  circle { fill: #fff; stroke: #222; stroke-width: 0.9 }
  text { font: 5px sans-serif; text-anchor: middle; fill: #222 }
";

/// How floors look, in a picture that has some.
const FLOOR_STYLE: &str = "  .floor { stroke: #b9aa86; stroke-width: 0.5 }
  .floor text { stroke: none; text-anchor: start; fill: #7a6738 }
";

/// What stands around the parts of a picture.
pub trait Form {
    /// The opening tag of a picture of these points across and up.
    fn opening(&self, width: f32, height: f32) -> String;
    /// Further attributes of a floor's line.
    fn floor(&self, floor: usize) -> String;
    /// Further attributes of an arrow.
    fn arrow(&self, number: usize) -> String;
    /// A word's point at `(x, y)`, with what goes around it.
    fn word(&self, number: usize, at: (f32, f32), point: &str) -> String;
}

/// A picture in a file of its own.
pub struct File;

impl Form for File {
    fn opening(&self, width: f32, height: f32) -> String {
        format!(
            "<svg xmlns=\"http://www.w3.org/2000/svg\" width=\"{width}pt\" height=\"{height}pt\" \
             viewBox=\"0 0 {width} {height}\">"
        )
    }

    fn floor(&self, _: usize) -> String {
        String::new()
    }

    fn arrow(&self, _: usize) -> String {
        String::new()
    }

    fn word(&self, _: usize, _: (f32, f32), point: &str) -> String {
        point.to_string()
    }
}

/// The listing as SVG; the error names what lies off the page.
pub fn svg(listing: &Listing, form: &dyn Form) -> Result<String, String> {
    let mut canvas = Canvas::new(listing, form)?;
    for floor in listing.floors() {
        canvas.floor(floor)?;
    }
    // Faint strokes first, so that no firm one is covered.
    let (implied, firm): (Vec<_>, Vec<_>) = (0..)
        .zip(&listing.arrows)
        .partition(|(_, arrow)| arrow.implied);
    for (number, arrow) in implied.into_iter().chain(firm) {
        canvas.arrow(number, arrow, listing)?;
    }
    for (number, word) in (0..).zip(&listing.words) {
        canvas.word(number, word.place)?;
    }
    Ok(canvas.finish())
}

struct Canvas<'a> {
    form: &'a dyn Form,
    height: f32,
    text: String,
}

impl<'a> Canvas<'a> {
    fn new(listing: &Listing, form: &'a dyn Form) -> Result<Canvas<'a>, String> {
        let (columns, rows) = (listing.width.max(1) - 1, listing.rows.max(1) - 1);
        let corner = point(Place::new(columns, rows))?;
        let (width, height) = (corner.across() + 2.0 * MARGIN, corner.up() + 2.0 * MARGIN);
        let floor_style = if listing.floors().is_empty() {
            ""
        } else {
            FLOOR_STYLE
        };
        let mut text = form.opening(width, height);
        let _ = write!(
            text,
            "\n<!-- column pitch {COLUMN_PITCH}, row pitch {ROW_PITCH} quarter points -->\n\
             <style>{STYLE}{floor_style}</style>\n\
             <defs><marker id=\"head\" viewBox=\"0 0 6 6\" refX=\"6\" refY=\"3\" markerWidth=\"4\" \
             markerHeight=\"4\" markerUnits=\"userSpaceOnUse\" orient=\"auto\">\
             <path d=\"M0 0 L6 3 L0 6 z\" fill=\"#444\"/></marker></defs>\n\
             <rect width=\"100%\" height=\"100%\"/>\n"
        );
        Ok(Canvas { form, height, text })
    }

    /// A thin line below the rows from the floor up, and the floor's number in the left margin.
    fn floor(&mut self, floor: usize) -> Result<(), String> {
        let (_, row) = self.at(point(Place::new(0, floor))?);
        let (y, base) = (row + HALF_ROW, row + HALF_ROW - 1.5);
        let more = self.form.floor(floor);
        let _ = writeln!(
            self.text,
            "<g class=\"floor\"{more}><title>floor {floor}</title>\
             <line x1=\"0\" y1=\"{y}\" x2=\"100%\" y2=\"{y}\"/><text x=\"2\" y=\"{base}\">{floor}</text></g>"
        );
        Ok(())
    }

    fn arrow(&mut self, number: usize, arrow: &Arrow, listing: &Listing) -> Result<(), String> {
        let lost = || format!("arrow {number} leaves the page");
        let route = listing.route(arrow).ok_or_else(lost)?;
        let stroke = Polyline::through(&route).ok_or_else(lost)?;
        let stroke = stroke.map_err(|_| lost())?;
        let places: Vec<(f32, f32)> = stroke.points().iter().map(|&at| self.at(at)).collect();
        let class = match arrow.kind {
            Kind::Spine => "spine",
            Kind::Side(_) => "side",
            Kind::Straight => "straight",
            Kind::Bent(_) => "bent",
        };
        let implied = if arrow.implied { " implied" } else { "" };
        let (from, to) = (arrow.from, arrow.to);
        let more = self.form.arrow(number);
        let _ = writeln!(
            self.text,
            "<path class=\"arrow {class}{implied}\"{more} d=\"{}\"><title>{number}: {from} to {to}, \
             {class}{implied}</title></path>",
            path(&places)
        );
        Ok(())
    }

    fn word(&mut self, number: usize, place: Place) -> Result<(), String> {
        let (x, y) = self.at(point(place)?);
        let base = y + 1.8;
        let point = format!(
            "<circle cx=\"{x}\" cy=\"{y}\" r=\"{RADIUS}\"/><text x=\"{x}\" y=\"{base}\">{number}</text>"
        );
        self.text.push_str(&self.form.word(number, (x, y), &point));
        self.text.push('\n');
        Ok(())
    }

    /// Rows go up on the page and down in the picture.
    fn at(&self, point: Point) -> (f32, f32) {
        (MARGIN + point.across(), self.height - MARGIN - point.up())
    }

    fn finish(mut self) -> String {
        self.text.push_str("</svg>\n");
        self.text
    }
}

fn point(place: Place) -> Result<Point, String> {
    let lost = |_| format!("column {}, row {} is off the page", place.column, place.row);
    Point::at(place).map_err(lost)
}

/// A path through the places that ends at the rim of the last word.
fn path(places: &[(f32, f32)]) -> String {
    let mut places = places.to_vec();
    if let [.., (x, y), end] = &mut places[..] {
        let (across, down) = (*x - end.0, *y - end.1);
        let length = across.hypot(down).max(RADIUS);
        *end = (
            end.0 + across / length * RADIUS,
            end.1 + down / length * RADIUS,
        );
    }
    let step = |(x, y): &(f32, f32)| format!("{:.2} {:.2}", x, y);
    let steps: Vec<String> = places.iter().map(step).collect();
    format!("M{}", steps.join(" L"))
}
