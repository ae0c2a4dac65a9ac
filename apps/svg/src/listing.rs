//! A listing, as the program `chart` prints it, taken apart again.

use reference::columns::track_column;
use reference::geometry::Place;
use std::collections::BTreeSet;

/// A word's line and place; its number is its index.
pub struct Word {
    /// The line it is in.
    pub line: usize,
    /// Where it stands.
    pub place: Place,
    /// Its lowest row; of all words of a listing, or of none.
    pub floor: Option<usize>,
}

/// The four kinds of arrows.
#[derive(Clone, Copy, PartialEq, Eq)]
pub enum Kind {
    /// Between neighbours of a line.
    Spine,
    /// In a side column, of this bundle.
    Side(usize),
    /// From line to line.
    Straight,
    /// From line to line with a bend.
    Bent(Place),
}

/// An arrow between two words.
pub struct Arrow {
    /// The word it begins at.
    pub from: usize,
    /// The word it ends at.
    pub to: usize,
    /// How it is drawn.
    pub kind: Kind,
    /// Whether a longer route implies it.
    pub implied: bool,
}

/// A chart as far as it is drawn.
pub struct Listing {
    /// The number of columns.
    pub width: usize,
    /// The number of rows.
    pub rows: usize,
    /// The words by number.
    pub words: Vec<Word>,
    /// The arrows by number.
    pub arrows: Vec<Arrow>,
    /// The side column of each bundle.
    pub side_columns: Vec<usize>,
}

impl Listing {
    /// Reads a listing; the error says which line is wrong.
    pub fn parse(text: &str) -> Result<Listing, String> {
        let mut lines = text.lines();
        let header = lines.next().ok_or("the listing is empty")?;
        let mut listing = parse_header(header)?;
        for (number, line) in (2..).zip(lines) {
            listing
                .add(line)
                .ok_or_else(|| format!("line {number} is no line of a listing: {line}"))?;
        }
        listing.checked()
    }

    /// Takes one line after the header; nothing where it makes no sense.
    fn add(&mut self, line: &str) -> Option<()> {
        let mut words = line.split(' ');
        let (letter, rest) = (words.next()?, words.collect::<Vec<_>>());
        match letter {
            "w" => self.words.push(word(self.words.len(), &rest)?),
            "a" => self.arrows.push(arrow(self.arrows.len(), &rest)?),
            "b" => {
                let [number, _, _, _, side_column] = numbers(&rest)?;
                self.side_columns.push(side_column);
                (number + 1 == self.side_columns.len()).then_some(())?;
            }
            _ => return None,
        }
        Some(())
    }

    /// The listing, if its floors make sense and every arrow names words and a bundle that are there.
    fn checked(self) -> Result<Listing, String> {
        self.check_floors()?;
        let known = |arrow: &Arrow| {
            let words = arrow.from.max(arrow.to) < self.words.len();
            words && self.route(arrow).is_some()
        };
        match self.arrows.iter().position(|arrow| !known(arrow)) {
            Some(number) => Err(format!("arrow {number} names what the listing lacks")),
            None => Ok(self),
        }
    }

    /// Every word has a floor or none has, and no word stands below its own.
    fn check_floors(&self) -> Result<(), String> {
        let given = self.words.first().is_some_and(|word| word.floor.is_some());
        for (number, word) in self.words.iter().enumerate() {
            if word.floor.is_some() != given {
                let has = if given { "no" } else { "a" };
                return Err(format!(
                    "word {number} has {has} floor, unlike word 0: every w line ends with a floor, or none does"
                ));
            }
            if word.floor > Some(word.place.row) {
                return Err(format!("word {number} stands below its floor"));
            }
        }
        Ok(())
    }

    /// The different floors above row 0, ascending.
    pub fn floors(&self) -> BTreeSet<usize> {
        let floors = self.words.iter().filter_map(|word| word.floor);
        floors.filter(|&floor| floor > 0).collect()
    }

    /// The places at which an arrow begins, turns and ends.
    pub fn route(&self, arrow: &Arrow) -> Option<Vec<Place>> {
        let (from, to) = (self.words.get(arrow.from)?, self.words.get(arrow.to)?);
        let (from, to) = (from.place, to.place);
        Some(match arrow.kind {
            Kind::Spine | Kind::Straight => vec![from, to],
            Kind::Bent(bend) => vec![from, bend, to],
            Kind::Side(bundle) => {
                let track = *self.side_columns.get(bundle)?;
                let column =
                    (track + 2 <= from.column).then(|| track_column(from.column, track))?;
                let turn = |row| Place::new(column, row);
                vec![from, turn(from.row), turn(to.row), to]
            }
        })
    }
}

fn parse_header(line: &str) -> Result<Listing, String> {
    let words: Vec<&str> = line.split(' ').collect();
    match words[..] {
        ["refused", number] => Err(format!("the record was refused with {number}: no chart")),
        ["chart", _, _, "rows", rows, "lines", _, "firm", _, "bundles", _, "width", width] => {
            let [rows, width] = numbers(&[rows, width]).ok_or("the first line has no numbers")?;
            Ok(Listing {
                width,
                rows,
                words: Vec::new(),
                arrows: Vec::new(),
                side_columns: Vec::new(),
            })
        }
        _ => Err(format!("this is no listing: {line}")),
    }
}

fn word(next: usize, rest: &[&str]) -> Option<Word> {
    let (five, floor) = rest.split_at_checked(5)?;
    let [number, line, _, column, row] = numbers(five)?;
    let floor = match floor {
        [] => None,
        [floor] => Some(floor.parse().ok()?),
        _ => return None,
    };
    let place = Place::new(column, row);
    (number == next).then_some(Word { line, place, floor })
}

fn arrow(next: usize, rest: &[&str]) -> Option<Arrow> {
    let [number, from, to] = numbers(rest.get(..3)?)?;
    let kind = match rest.get(3..rest.len() - 1)? {
        ["S"] => Kind::Spine,
        ["D"] => Kind::Straight,
        ["B", bundle] => Kind::Side(bundle.parse().ok()?),
        ["K", column, row] => Kind::Bent(Place::new(column.parse().ok()?, row.parse().ok()?)),
        _ => return None,
    };
    let implied = match *rest.last()? {
        "f" => false,
        "i" => true,
        _ => return None,
    };
    let arrow = Arrow {
        from,
        to,
        kind,
        implied,
    };
    (number == next).then_some(arrow)
}

/// So many numbers; nothing where there are more, fewer or other words.
fn numbers<const N: usize>(words: &[&str]) -> Option<[usize; N]> {
    let numbers: Option<Vec<usize>> = words.iter().map(|word| word.parse().ok()).collect();
    numbers?.try_into().ok()
}
