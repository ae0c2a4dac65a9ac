//! The page: the picture in one HTML file, with the arrows as data and a script that answers how a word leads to another.

use crate::listing::Listing;
use crate::picture::{self, Form};

/// Half the side of what a finger hits of a word, in points: words of a line stand 28.25 apart, lines 31.5 or more.
const TARGET: f32 = 14.0;
/// The radius of the ring around the word that has the focus.
const RING: f32 = 7.6;

/// The listing as a page; the error names what lies off the page.
pub fn html(listing: &Listing) -> Result<String, String> {
    Ok(format!(
        include_str!("page/page.html"),
        title = title(listing),
        style = style(listing),
        picture = picture::svg(listing, &Page(listing))?,
        arrows = arrows(listing),
        routes = include_str!("page/routes.js"),
        picks = include_str!("page/picks.js"),
        keys = include_str!("page/keys.js"),
    ))
}

/// The style sheet, with that of floors where words have them.
fn style(listing: &Listing) -> String {
    let mut style = include_str!("page/style.css").to_string();
    if listing.words.iter().any(|word| word.floor.is_some()) {
        style.push_str(include_str!("page/floors.css"));
    }
    style
}

fn title(listing: &Listing) -> String {
    let words = counted(listing.words.len(), "word");
    let arrows = counted(listing.arrows.len(), "arrow");
    format!("Descent chart: {words}, {arrows}")
}

/// So many of a thing, in words.
fn counted(number: usize, thing: &str) -> String {
    let end = if number == 1 { "" } else { "s" };
    format!("{number} {thing}{end}")
}

/// The arrows by number, each as `[from,to]`.
fn arrows(listing: &Listing) -> String {
    let pairs = listing.arrows.iter();
    let pairs: Vec<String> = pairs
        .map(|arrow| format!("[{},{}]", arrow.from, arrow.to))
        .collect();
    format!("[{}]", pairs.join(","))
}

/// The picture within the page: arrows can be lit, words picked. All that is written of the listing is numbers.
struct Page<'a>(&'a Listing);

impl Form for Page<'_> {
    /// The style sheet takes the sizes as numbers.
    fn opening(&self, width: f32, height: f32) -> String {
        format!(
            "<svg id=\"chart\" role=\"group\" aria-label=\"The chart\" aria-describedby=\"keys\" \
             viewBox=\"0 0 {width} {height}\" \
             style=\"--across: {width}; --up: {height}\">"
        )
    }

    fn floor(&self, floor: usize) -> String {
        format!(" role=\"img\" aria-label=\"floor {floor}\"")
    }

    fn arrow(&self, number: usize) -> String {
        let arrow = &self.0.arrows[number];
        let (from, to) = (arrow.from, arrow.to);
        format!(
            " data-arrow=\"{number}\" role=\"img\" aria-label=\"arrow from word {from} to word {to}\""
        )
    }

    fn word(&self, number: usize, (x, y): (f32, f32), point: &str) -> String {
        let word = &self.0.words[number];
        let (line, column, row) = (word.line, word.place.column, word.place.row);
        let (left, top, side) = (x - TARGET, y - TARGET, 2.0 * TARGET);
        let floor = |form: fn(usize) -> String| word.floor.map_or_else(String::new, form);
        let told = floor(|floor| format!(", floor {floor}"));
        let data = floor(|floor| format!(" data-floor=\"{floor}\""));
        format!(
            "<g class=\"word\" role=\"button\" tabindex=\"0\" aria-pressed=\"false\" \
             aria-label=\"word {number}, line {line}{told}\" data-column=\"{column}\" data-row=\"{row}\"{data}>\
             <rect class=\"target\" x=\"{left}\" y=\"{top}\" width=\"{side}\" height=\"{side}\"/>\
             <circle class=\"ring\" cx=\"{x}\" cy=\"{y}\" r=\"{RING}\"/>{point}</g>"
        )
    }
}
