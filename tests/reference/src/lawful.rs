//! Every lawful chart of a small graph, by trying all.
//!
//! A lawful chart has rows, parts, links and tracks, and what is asked of one of these says
//! nothing of the others. So the least of each is found by trying all of its own choices. Nothing
//! here uses the modules that draw; only [`LawfulChart::of`] looks at a finished chart.

use crate::chart::Chart;
use crate::record::{Edge, Record};
use std::collections::{BTreeMap, BTreeSet};

/// Which of the vertices 0 to n − 1 stands in a relation to which.
#[derive(Clone, Debug, PartialEq, Eq, PartialOrd, Ord)]
pub struct Relation {
    size: usize,
    holds: Vec<bool>,
}

impl Relation {
    /// The relation that holds for the given pairs alone.
    pub fn of(size: usize, pairs: impl IntoIterator<Item = (usize, usize)>) -> Relation {
        let mut holds = vec![false; size * size];
        for (u, v) in pairs {
            holds[u * size + v] = true;
        }
        Relation { size, holds }
    }

    /// Whether it holds from `u` to `v`.
    pub fn has(&self, u: usize, v: usize) -> bool {
        self.holds[u * self.size + v]
    }

    /// The pairs that it holds for.
    pub fn pairs(&self) -> impl Iterator<Item = (usize, usize)> + '_ {
        let all = (0..self.size * self.size).filter(|&place| self.holds[place]);
        all.map(|place| (place / self.size, place % self.size))
    }

    /// Descent: what one or more steps join. Two steps are put together until nothing is new.
    pub fn closed(mut self) -> Relation {
        loop {
            let before = self.holds.clone();
            for u in 0..self.size {
                for w in (0..self.size).filter(|w| before[u * self.size + w]) {
                    for v in 0..self.size {
                        self.holds[u * self.size + v] |= before[w * self.size + v];
                    }
                }
            }
            if self.holds == before {
                return self;
            }
        }
    }

    /// Whether something is related to itself.
    pub fn has_loop(&self) -> bool {
        (0..self.size).any(|v| self.has(v, v))
    }
}

/// Descent in a graph.
pub fn descent(record: &Record) -> Relation {
    let pair = |edge: &Edge| (edge.tail, edge.head);
    Relation::of(record.vertex_count, record.edges.iter().map(pair)).closed()
}

/// A bundle of a lawful chart; its part is known by number here.
#[derive(Clone, Copy, Debug, PartialEq, Eq)]
pub struct PartBundle {
    /// The part that it belongs to.
    pub part: usize,
    /// The first row.
    pub first_row: usize,
    /// The last row.
    pub last_row: usize,
    /// The track.
    pub track: usize,
}

impl PartBundle {
    /// Whether both belong to one part and share a row.
    fn meets(&self, other: &PartBundle) -> bool {
        let rows = self.first_row.max(other.first_row)..=self.last_row.min(other.last_row);
        self.part == other.part && !rows.is_empty()
    }
}

/// A lawful chart (10.1).
#[derive(Clone, Debug, PartialEq, Eq)]
pub struct LawfulChart {
    /// The row of each vertex.
    pub rows: Vec<usize>,
    /// The part of each vertex.
    pub parts: Vec<usize>,
    /// The links.
    pub links: BTreeSet<(usize, usize)>,
    /// The bundles.
    pub bundles: Vec<PartBundle>,
}

impl LawfulChart {
    /// What `chart`, drawn for `record`, is as a lawful chart; its links are the reduced edges.
    pub fn of(record: &Record, chart: &Chart) -> LawfulChart {
        let reduced = chart.edges.iter().filter(|entry| entry.reduced);
        let pair = |number: usize| (record.edges[number].tail, record.edges[number].head);
        let bundles = chart.bundles.iter().map(|bundle| PartBundle {
            part: bundle.channel,
            first_row: bundle.first_row,
            last_row: bundle.last_row,
            track: bundle.track,
        });
        LawfulChart {
            rows: chart.vertices.iter().map(|entry| entry.row).collect(),
            parts: chart.vertices.iter().map(|entry| entry.channel).collect(),
            links: reduced.map(|entry| pair(entry.number)).collect(),
            bundles: bundles.collect(),
        }
    }

    /// Whether it is lawful for the graph.
    pub fn is_lawful(&self, record: &Record) -> bool {
        let descent = descent(record);
        self.rows.len() == record.vertex_count
            && self.parts.len() == record.vertex_count
            && edges_rise(&record.edges, &self.rows)
            && parts_are_chains(&descent, &self.parts)
            && self.links_say(&descent)
            && self.bundles.iter().all(|b| self.parts.contains(&b.part))
            && tracks_keep_apart(&self.bundles)
    }

    /// Whether each given channel is one of its parts, whole.
    pub fn has_given_whole(&self, record: &Record) -> bool {
        parts_have_whole(&self.parts, record.given())
    }

    /// Whether no vertex is below its floor. Lawful charts need not do so.
    pub fn keeps_floors(&self, record: &Record) -> bool {
        rows_keep_floors(&self.rows, &record.lowest_rows())
    }

    /// The number of rows.
    pub fn row_count(&self) -> usize {
        self.rows.iter().max().map_or(0, |highest| highest + 1)
    }

    /// The number of parts.
    pub fn part_count(&self) -> usize {
        distinct(self.parts.iter().copied())
    }

    /// The bundles of one part.
    pub fn bundles_of(&self, part: usize) -> Vec<PartBundle> {
        let own = self.bundles.iter().filter(|bundle| bundle.part == part);
        own.copied().collect()
    }

    /// The number of tracks used in one part.
    pub fn track_count(&self, part: usize) -> usize {
        distinct(self.bundles_of(part).iter().map(|bundle| bundle.track))
    }

    fn links_say(&self, descent: &Relation) -> bool {
        let size = self.parts.len();
        let known = |&(u, v): &(usize, usize)| u < size && v < size;
        self.links.iter().all(known)
            && Relation::of(size, self.links.iter().copied()).closed() == *descent
    }
}

fn edges_rise(edges: &[Edge], rows: &[usize]) -> bool {
    edges.iter().all(|edge| rows[edge.tail] < rows[edge.head])
}

fn rows_keep_floors(rows: &[usize], floors: &[usize]) -> bool {
    rows.iter().zip(floors).all(|(row, floor)| row >= floor)
}

/// Of two vertices of a part, one reaches the other.
fn parts_are_chains(descent: &Relation, parts: &[usize]) -> bool {
    let related = |u: usize, v: usize| descent.has(u, v) || descent.has(v, u);
    (0..parts.len()).all(|v| (0..v).all(|u| parts[u] != parts[v] || related(u, v)))
}

/// For each channel some part holds its vertices and no other.
fn parts_have_whole(parts: &[usize], channels: &[Vec<usize>]) -> bool {
    let whole = |channel: &Vec<usize>, part: usize| {
        (0..parts.len()).all(|vertex| channel.contains(&vertex) == (parts[vertex] == part))
    };
    let one_is_whole = |channel: &Vec<usize>| parts.iter().any(|&part| whole(channel, part));
    channels.iter().all(one_is_whole)
}

fn tracks_keep_apart(bundles: &[PartBundle]) -> bool {
    let apart =
        |one: &PartBundle, other: &PartBundle| !one.meets(other) || one.track != other.track;
    (0..bundles.len()).all(|i| (0..i).all(|j| apart(&bundles[i], &bundles[j])))
}

fn distinct(numbers: impl Iterator<Item = usize>) -> usize {
    numbers.collect::<BTreeSet<_>>().len()
}

/// The fewest rows of any lawful chart that keeps the floors: all choices of rows are tried, of one row,
/// of two and so on. (The highest floor and a row more for each vertex are always enough.)
pub fn least_rows(record: &Record) -> Option<usize> {
    let (size, floors) = (record.vertex_count, record.lowest_rows());
    let enough = size + floors.iter().max()?;
    (1..=enough).find(|&count| {
        choices(size, count)
            .any(|rows| rows_keep_floors(&rows, &floors) && edges_rise(&record.edges, &rows))
    })
}

/// All divisions into parts of which any lawful chart could have one; some come more than once.
fn lawful_parts(record: &Record) -> impl Iterator<Item = Vec<usize>> {
    let descent = descent(record);
    choices(record.vertex_count, record.vertex_count)
        .filter(move |parts| parts_are_chains(&descent, parts))
}

/// The fewest parts of any lawful chart that has the given channels whole.
pub fn least_parts(record: &Record) -> Option<usize> {
    lawful_parts(record)
        .filter(|parts| parts_have_whole(parts, record.given()))
        .map(|parts| distinct(parts.into_iter()))
        .min()
}

/// The fewest parts of any lawful chart that has the given channels whole, for a graph of any size:
/// these channels, the given ones first, are such a division, and unrelated vertices, one of each
/// planned channel, stand in different parts of every other. Nothing where that is not so.
pub fn fewest_parts(record: &Record, channels: &[Vec<usize>]) -> Option<usize> {
    let planned = channels.strip_prefix(record.given())?;
    let descent = descent(record);
    let mut parts = vec![channels.len(); record.vertex_count];
    for (part, channel) in channels.iter().enumerate() {
        for &vertex in channel {
            parts[vertex] = part;
        }
    }
    let divided = distinct(channels.iter().flatten().copied()) == parts.len()
        && channels.iter().map(Vec::len).sum::<usize>() == parts.len()
        && parts_are_chains(&descent, &parts);
    (divided && one_of_each(&descent, planned).is_some()).then_some(channels.len())
}

/// A vertex of each channel, of which none reaches another, if there are such. One that reaches
/// another's present vertex reaches all behind that too, so it is passed over for good.
fn one_of_each(descent: &Relation, channels: &[Vec<usize>]) -> Option<Vec<usize>> {
    let mut places = vec![0; channels.len()];
    loop {
        let chosen = channels.iter().zip(&places);
        let chosen = chosen.map(|(channel, &place)| channel.get(place).copied());
        let chosen: Vec<usize> = chosen.collect::<Option<_>>()?;
        let reaches = |&u: &usize| chosen.iter().any(|&v| descent.has(u, v));
        match chosen.iter().position(reaches) {
            None => return Some(chosen),
            Some(channel) => places[channel] += 1,
        }
    }
}

/// Every sound choice of given channels: all lists of chains without a common vertex, of all
/// vertices, of some and of none, in every order.
pub fn sound_channels(record: &Record) -> impl Iterator<Item = Vec<Vec<usize>>> {
    let (size, descent) = (record.vertex_count, descent(record));
    // A vertex's number is that of its channel, from 1, or 0 where none holds it.
    let all = choices(size, size + 1);
    all.filter_map(move |numbers| {
        let count = numbers.iter().copied().max().unwrap_or(0);
        let channels = (1..=count).map(|channel| {
            let held = (0..size).filter(|&vertex| numbers[vertex] == channel);
            in_descent(&descent, held.collect())
        });
        let channels: Vec<Vec<usize>> = channels.collect::<Option<_>>()?;
        let none_is_empty = channels.iter().all(|channel| !channel.is_empty());
        none_is_empty.then_some(channels)
    })
}

/// The vertices in the order of descent, if each leads to the next there.
fn in_descent(descent: &Relation, mut vertices: Vec<usize>) -> Option<Vec<usize>> {
    let among = vertices.clone();
    let led_to = |vertex: usize| among.iter().filter(|&&v| descent.has(vertex, v)).count();
    vertices.sort_by_key(|&vertex| std::cmp::Reverse(led_to(vertex)));
    let follows = |pair: &[usize]| descent.has(pair[0], pair[1]);
    vertices.windows(2).all(follows).then_some(vertices)
}

/// For each descent over `size` vertices, the fewest links that have it; all sets are tried.
pub fn least_links(size: usize) -> BTreeMap<Relation, usize> {
    let mut least = BTreeMap::new();
    for holds in choices(size * size, 2) {
        let holds: Vec<bool> = holds.into_iter().map(|chosen| chosen == 1).collect();
        let count = holds.iter().filter(|&&chosen| chosen).count();
        let descent = Relation { size, holds }.closed();
        let found = least.entry(descent).or_insert(count);
        *found = count.min(*found);
    }
    least
}

/// The fewest tracks on which these bundles, all of one part, can stand.
pub fn least_tracks(bundles: &[PartBundle]) -> Option<usize> {
    choices(bundles.len(), bundles.len())
        .filter(|tracks| {
            let moved = bundles.iter().zip(tracks);
            let moved: Vec<PartBundle> = moved
                .map(|(&bundle, &track)| PartBundle { track, ..bundle })
                .collect();
            tracks_keep_apart(&moved)
        })
        .map(|tracks| distinct(tracks.into_iter()))
        .min()
}

/// Every graph without a cycle over `size` vertices, edges by tail and then head.
pub fn acyclic_graphs(size: usize) -> impl Iterator<Item = Record> {
    let pairs: Vec<(usize, usize)> = (0..size)
        .flat_map(|u| (0..size).map(move |v| (u, v)))
        .filter(|(u, v)| u != v)
        .collect();
    choices(pairs.len(), 2).filter_map(move |chosen| {
        let edges = pairs.iter().zip(chosen).filter(|&(_, chosen)| chosen == 1);
        let edges = edges.map(|(&(u, v), _)| Edge::new(u, v));
        let record = Record::new(size, edges.collect());
        (!descent(&record).has_loop()).then_some(record)
    })
}

/// All lists of `length` numbers below `bound`, like an odometer.
pub fn choices(length: usize, bound: usize) -> impl Iterator<Item = Vec<usize>> {
    let first = (length == 0 || bound > 0).then(|| vec![0; length]);
    std::iter::successors(first, move |list| {
        let place = list.iter().rposition(|&number| number + 1 < bound)?;
        let mut next = list.clone();
        next[place] += 1;
        next[place + 1..].fill(0);
        Some(next)
    })
}
