//! What each side answers for a record and lent lists, in one form.

use ceviloneth::raw::{self, ChartCounts};
use ceviloneth::{ARROW_NUMBERS, BUNDLE_NUMBERS, WORD_NUMBERS};
use reference::bundles::Bundle;
use reference::chart::{Counts, EdgeEntry, VertexEntry};
use reference::kinds::Kind;
use reference::record::Record;
use reference::refusal::Refusal;

/// Numbers of an entry of the three lists: words, arrows, bundles.
const NUMBERS: [usize; 3] = [WORD_NUMBERS, ARROW_NUMBERS, BUNDLE_NUMBERS];

/// How many numbers more than the needed ones each of the three lists has, or how many fewer.
#[derive(Clone, Copy, Debug, PartialEq, Eq)]
pub struct Room(pub [isize; 3]);

impl Room {
    /// Lists of just the needed length.
    pub const EXACT: Room = Room([0; 3]);

    /// Lists for a chart that needs so many numbers, full of numbers of no meaning.
    fn lists(self, needed: [usize; 3]) -> [Vec<u16>; 3] {
        [0, 1, 2].map(|list: usize| {
            let length = needed[list].saturating_add_signed(self.0[list]);
            let noise = |place: usize| (40_503 * place + 9_973 * (list + 1)) as u16;
            (0..length).map(noise).collect()
        })
    }
}

/// All that a chart call hands over: the number, the counts and the lists as they are afterwards.
#[derive(Debug, PartialEq, Eq)]
pub struct Answer {
    /// Why it is refused, or 0.
    pub refusal: u8,
    /// Words, arrows, bundles, rows, lines, firm, width.
    pub counts: [usize; 7],
    /// How many side columns each line has.
    pub side_columns: Vec<usize>,
    /// The lists.
    pub lists: [Vec<u16>; 3],
}

impl Answer {
    /// Names the first field in which the two differ.
    pub fn difference(&self, other: &Answer) -> Option<String> {
        let differ = |name: &str, one: &str, two: &str| Some(format!("{name}: {one}, not {two}"));
        let of = |name: &str, one: &[usize], two: &[usize]| {
            let place = (0..one.len().max(two.len())).find(|&i| one.get(i) != two.get(i))?;
            let shown = |list: &[usize]| format!("{:?}", list.get(place));
            differ(&format!("{name}, number {place}"), &shown(one), &shown(two))
        };
        if self.refusal != other.refusal {
            let (one, two) = (self.refusal.to_string(), other.refusal.to_string());
            return differ("refusal", &one, &two);
        }
        let wide = |list: &[u16]| list.iter().copied().map(usize::from).collect::<Vec<_>>();
        let list = |name, i: usize| of(name, &wide(&self.lists[i]), &wide(&other.lists[i]));
        of("counts", &self.counts, &other.counts)
            .or_else(|| of("side columns", &self.side_columns, &other.side_columns))
            .or_else(|| list("words", 0))
            .or_else(|| list("arrows", 1))
            .or_else(|| list("bundles", 2))
    }
}

/// A chart call that fills lent lists of numbers.
type ChartCall = fn(&[u8], &mut [u16], &mut [u16], &mut [u16]) -> ChartCounts;

/// Whoever is compared with the second implementation.
#[derive(Clone, Copy)]
pub struct Voice {
    /// What a difference is reported under.
    pub name: &'static str,
    call: ChartCall,
}

/// The proved library and the peer: a fault that all three share would have to be made three times.
pub const VOICES: [Voice; 2] = [
    Voice {
        name: "proved library",
        call: raw::chart,
    },
    Voice {
        name: "peer",
        call: peer::chart,
    },
];

impl Voice {
    /// What it answers with these lists.
    pub fn answer(self, record: &[u8], mut lists: [Vec<u16>; 3]) -> Answer {
        let [words, arrows, bundles] = &mut lists;
        let counts = (self.call)(record, words, arrows, bundles);
        let (rows, lines) = (usize::from(counts.rows), usize::from(counts.lines));
        let (firm, width) = (usize::from(counts.firm), usize::from(counts.width));
        Answer {
            refusal: counts.refusal,
            counts: [
                counts.words,
                counts.arrows,
                counts.bundles,
                rows,
                lines,
                firm,
                width,
            ],
            side_columns: counts.side_columns.map(usize::from).to_vec(),
            lists,
        }
    }
}

/// The second implementation with lists of its own.
#[derive(Default)]
pub struct Second {
    own: reference::chart::Room,
}

impl Second {
    /// New lists.
    pub fn new() -> Second {
        Second::default()
    }

    /// What it answers, with the lists that it began with.
    pub fn answer(&mut self, record: &[u8], room: Room) -> (Answer, [Vec<u16>; 3]) {
        let most = self.own.lengths();
        let (mut refusal, mut counts) = self.own.draw(record, most);
        let sizes = sizes(record, refusal, &counts);
        let entries = match refusal {
            None => sizes,
            Some(Refusal::Broad) => most_entries(record),
            Some(_) => [2; 3],
        };
        let before = room.lists([0, 1, 2].map(|list| entries[list] * NUMBERS[list]));
        let fitting = [0, 1, 2].map(|list| before[list].len() / NUMBERS[list]);
        if refusal.is_none() && (0..3).any(|list| fitting[list] < sizes[list]) {
            (refusal, counts) = self
                .own
                .draw(record, [0, 1, 2].map(|i| fitting[i].min(most[i])));
        }
        let written = if refusal.is_none() { sizes } else { [0; 3] };
        let [words, arrows, bundles] = written;
        let Counts {
            rows,
            channels,
            reduced_edges,
            width,
            ..
        } = counts;
        let answer = Answer {
            refusal: refusal.map_or(0, Refusal::number),
            counts: [words, arrows, bundles, rows, channels, reduced_edges, width],
            side_columns: counts.tracks.to_vec(),
            lists: self.written(written, before.clone()),
        };
        (answer, before)
    }

    /// The lists with so many entries written from the start.
    fn written(&self, entries: [usize; 3], mut lists: [Vec<u16>; 3]) -> [Vec<u16>; 3] {
        let [words, arrows, bundles] = &mut lists;
        write(
            words,
            self.own.vertices[..entries[0]].iter().map(word_numbers),
        );
        write(
            arrows,
            self.own.edges[..entries[1]].iter().map(arrow_numbers),
        );
        write(
            bundles,
            self.own.bundles[..entries[2]].iter().map(bundle_numbers),
        );
        lists
    }
}

/// How many words, arrows and bundles the chart has; nothing of a refused one.
fn sizes(record: &[u8], refusal: Option<Refusal>, counts: &Counts) -> [usize; 3] {
    match Record::parse(record) {
        Ok(record) if refusal.is_none() => {
            [record.vertex_count, record.edges.len(), counts.bundles]
        }
        _ => [0; 3],
    }
}

/// As many words, arrows and bundles as a broad chart's lists would need, so that one that is drawn all
/// the same is noticed.
fn most_entries(record: &[u8]) -> [usize; 3] {
    let (words, arrows) =
        Record::parse(record).map_or((0, 0), |record| (record.vertex_count, record.edges.len()));
    [words, arrows, 2 * words]
}

fn write<const N: usize>(list: &mut [u16], entries: impl Iterator<Item = [usize; N]>) {
    for (place, number) in list.iter_mut().zip(entries.flatten()) {
        *place = u16::try_from(number).expect("numbers of a chart are small");
    }
}

fn word_numbers(entry: &VertexEntry) -> [usize; WORD_NUMBERS] {
    let VertexEntry {
        channel,
        position,
        column,
        row,
        descendants,
        floor,
    } = *entry;
    [channel, position, column, row, descendants, floor]
}

fn arrow_numbers(entry: &EdgeEntry) -> [usize; ARROW_NUMBERS] {
    let (kind, value, row) = match entry.kind {
        Kind::Path => (0, 0, 0),
        Kind::PathTransitive { bundle } => (1, bundle, 0),
        Kind::Straight => (2, 0, 0),
        Kind::Bent { bend } => (3, bend.column, bend.row),
    };
    [entry.number, kind, value, row, usize::from(!entry.reduced)]
}

fn bundle_numbers(bundle: &Bundle) -> [usize; BUNDLE_NUMBERS] {
    [
        bundle.channel,
        bundle.first_row,
        bundle.last_row,
        bundle.track,
    ]
}
