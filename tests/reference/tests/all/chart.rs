//! What the chart hands over, and the lists that a caller lends.

use crate::support::{draw, graph, layered, rising, with_channels, with_floors};
use reference::bundles::Bundle;
use reference::chart::{draw_into, Chart, Counts, EdgeEntry, Lists, VertexEntry};
use reference::descent::Reachability;
use reference::geometry::Place;
use reference::kinds::Kind;
use reference::record::Record;
use reference::refusal::Refusal;

/// Lent lists with something in them that no chart says.
struct Lent {
    vertices: Vec<VertexEntry>,
    edges: Vec<EdgeEntry>,
    bundles: Vec<Bundle>,
}

impl Lent {
    fn new(vertices: usize, edges: usize, bundles: usize) -> Lent {
        let row = 999;
        let vertex = VertexEntry {
            row,
            ..VertexEntry::default()
        };
        let edge = EdgeEntry {
            number: row,
            ..EdgeEntry::default()
        };
        let bundle = Bundle {
            track: row,
            ..Bundle::default()
        };
        Lent {
            vertices: vec![vertex; vertices],
            edges: vec![edge; edges],
            bundles: vec![bundle; bundles],
        }
    }

    fn draw(&mut self, bytes: &[u8]) -> (Option<Refusal>, Counts) {
        let lists = Lists {
            vertices: &mut self.vertices,
            edges: &mut self.edges,
            bundles: &mut self.bundles,
        };
        draw_into(bytes, lists)
    }

    /// The chart in the first entries; the others must be as they were.
    fn holds(&self, chart: &Chart) -> bool {
        let old = Lent::new(self.vertices.len(), self.edges.len(), self.bundles.len());
        let (n, m, b) = (chart.vertices.len(), chart.edges.len(), chart.bundles.len());
        self.vertices[..n] == chart.vertices
            && self.edges[..m] == chart.edges
            && self.bundles[..b] == chart.bundles
            && self.vertices[n..] == old.vertices[n..]
            && self.edges[m..] == old.edges[m..]
            && self.bundles[b..] == old.bundles[b..]
    }

    fn is_unchanged(&self) -> bool {
        let old = Lent::new(self.vertices.len(), self.edges.len(), self.bundles.len());
        self.vertices == old.vertices && self.edges == old.edges && self.bundles == old.bundles
    }
}

/// Four vertices, six edges, two bundles.
fn complete() -> Record {
    graph(4, &rising(4, 6))
}

#[test]
fn lists_of_the_needed_length_are_filled() {
    let mut lent = Lent::new(4, 6, 2);
    let chart = draw(&complete());
    assert_eq!(lent.draw(&complete().to_bytes()), (None, chart.counts));
    assert!(lent.holds(&chart));
}

#[test]
fn lists_stay_past_their_last_entry() {
    let mut lent = Lent::new(9, 11, 5);
    let chart = draw(&complete());
    assert_eq!(lent.draw(&complete().to_bytes()), (None, chart.counts));
    assert!(lent.holds(&chart));
}

#[test]
fn a_short_list_gives_8_and_nothing_is_written() {
    for (n, m, b) in [
        (3, 6, 2),
        (4, 5, 2),
        (4, 6, 1),
        (0, 0, 0),
        (3, 99, 99),
        (99, 99, 0),
    ] {
        let mut lent = Lent::new(n, m, b);
        let answer = lent.draw(&complete().to_bytes());
        assert_eq!(answer, (Some(Refusal::Short), Counts::ZERO));
        assert!(lent.is_unchanged(), "{n} {m} {b}");
    }
}

#[test]
fn no_bundles_need_no_list() {
    let record = graph(2, &[(0, 1)]);
    let mut lent = Lent::new(2, 1, 0);
    assert_eq!(lent.draw(&record.to_bytes()), (None, draw(&record).counts));
}

#[test]
fn short_is_said_after_every_other_refusal() {
    let records = [
        (Vec::new(), Refusal::Layout),
        (graph(129, &[]).to_bytes(), Refusal::Size),
        (with_floors(1, &[], &[128]).to_bytes(), Refusal::Floor),
        (graph(1, &[(0, 1)]).to_bytes(), Refusal::UnknownVertex),
        (
            graph(2, &[(0, 1), (0, 1)]).to_bytes(),
            Refusal::DuplicateEdge,
        ),
        (graph(2, &[(0, 1), (1, 0)]).to_bytes(), Refusal::Cycle),
        (
            with_channels(2, &[], &[&[0], &[0]]).to_bytes(),
            Refusal::Cover,
        ),
        (
            with_channels(2, &[], &[&[0, 1]]).to_bytes(),
            Refusal::Broken,
        ),
        (graph(32, &[]).to_bytes(), Refusal::Broad),
    ];
    for (bytes, refusal) in records {
        for length in [0, 200] {
            let mut lent = Lent::new(length, length, length);
            assert_eq!(lent.draw(&bytes), (Some(refusal), Counts::ZERO));
            assert!(lent.is_unchanged());
        }
    }
}

#[test]
fn counts_are_those_of_what_is_counted() {
    let edges = [
        (0, 1),
        (1, 2),
        (0, 2),
        (3, 4),
        (4, 5),
        (5, 6),
        (3, 5),
        (3, 6),
        (4, 6),
    ];
    let chart = draw(&graph(8, &edges));
    let mut tracks = [0; 128];
    tracks[0] = 1;
    tracks[1] = 2;
    let expected = Counts {
        rows: 4,
        channels: 3,
        reduced_edges: 5,
        bundles: 3,
        width: 4 + 5 + 3,
        tracks,
    };
    assert_eq!(chart.counts, expected);
}

#[test]
fn entries_carry_their_numbers_and_descendants() {
    let chart = draw(&complete());
    let numbers: Vec<usize> = chart.edges.iter().map(|edge| edge.number).collect();
    let descendants: Vec<usize> = chart.vertices.iter().map(|v| v.descendants).collect();
    assert_eq!(numbers, [0, 1, 2, 3, 4, 5]);
    assert_eq!(descendants, [3, 2, 1, 0]);
}

#[test]
fn a_side_arrow_runs_over_its_side_column() {
    let record = complete();
    let chart = draw(&record);
    // Edge 3 is 0→3 in this order, edge 1 is 0→2.
    let place = Place::new;
    let way = [place(3, 0), place(1, 0), place(1, 3), place(3, 3)];
    assert_eq!(chart.route(3, record.edges[3]), way);
    let way = [place(3, 0), place(0, 0), place(0, 2), place(3, 2)];
    assert_eq!(chart.route(1, record.edges[1]), way);
}

#[test]
fn the_largest_chart_is_drawn() {
    let chart = draw(&layered(31));
    assert_eq!((chart.vertices.len(), chart.edges.len()), (128, 4096));
    assert_eq!(chart.counts.channels, 31);
    assert!(chart.counts.width <= 640);
}

#[test]
fn masks_have_a_bit_where_one_reaches_another() {
    let path: Vec<_> = (0..127).map(|u| (u, u + 1)).collect();
    let masks = Reachability::of(128, &graph(128, &path).edges).masks();
    assert_eq!((masks[0], masks[1]), (u64::MAX - 1, u64::MAX));
    assert_eq!((masks[2 * 63], masks[2 * 63 + 1]), (0, u64::MAX));
    assert_eq!((masks[2 * 64], masks[2 * 64 + 1]), (0, u64::MAX - 1));
    assert_eq!((masks[254], masks[255]), (0, 0));
    let few = Reachability::of(70, &graph(70, &[(5, 69), (5, 0)]).edges).masks();
    assert_eq!((few[10], few[11]), (1, 1 << 5));
    assert_eq!(few.iter().filter(|&&mask| mask != 0).count(), 2);
}

#[test]
fn an_unchecked_record_is_not_drawn() {
    let refused = |record: &Record| Chart::draw(record).err().map(Refusal::number);
    assert_eq!(refused(&graph(0, &[])), Some(2));
    assert_eq!(refused(&with_floors(2, &[(0, 1)], &[0])), Some(12));
    assert_eq!(refused(&graph(1, &[(0, 7)])), Some(3));
    assert_eq!(refused(&graph(2, &[(0, 1), (1, 0)])), Some(5));
    assert_eq!(refused(&with_channels(1, &[], &[&[0, 0]])), Some(6));
}

#[test]
fn a_chain_is_one_line_of_spine_arrows() {
    let path: Vec<_> = (0..127).map(|u| (u, u + 1)).collect();
    let chart = draw(&graph(128, &path));
    assert!(chart
        .edges
        .iter()
        .all(|edge| edge.kind == Kind::Path && edge.reduced));
    assert_eq!(
        (chart.counts.rows, chart.counts.channels, chart.counts.width),
        (128, 1, 3)
    );
}
