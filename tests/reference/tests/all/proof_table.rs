//! The proof table, P1 to P10 (SPECIFICATION.md, 16.1).

use crate::support::{bundles, channels, draw, graph, refusal, rows, transitive, with_channels};
use reference::chart::Chart;
use reference::descent::Reachability;
use reference::geometry::Place;
use reference::hex::from_hex;
use reference::kinds::Kind;
use reference::listing::listing;
use reference::record::Record;

fn five_words() -> Record {
    graph(5, &[(0, 1), (0, 2), (1, 3), (2, 3), (3, 4), (0, 3)])
}

fn six_words(lines: &[&[usize]]) -> Chart {
    draw(&with_channels(6, &[(1, 2), (3, 4), (4, 5), (0, 5)], lines))
}

#[test]
fn p1_word_0_leads_to_all_others() {
    let record = five_words();
    let reach = Reachability::of(5, &record.edges);
    assert_eq!(reach.descendants(0).collect::<Vec<_>>(), [1, 2, 3, 4]);
    let counts: Vec<usize> = draw(&record)
        .vertices
        .iter()
        .map(|v| v.descendants)
        .collect();
    assert_eq!(counts, [4, 2, 2, 1, 0]);
}

#[test]
fn p1_how_words_lead_to_each_other() {
    let record = five_words();
    let reach = Reachability::of(5, &record.edges);
    let from_0: Vec<&str> = (0..5).map(|v| reach.connection(0, v).word()).collect();
    assert_eq!(from_0, ["no", "arrow", "arrow", "both", "longer"]);
    assert_eq!(reach.connection(4, 0).word(), "no");
}

#[test]
fn p2_two_lines() {
    assert_eq!(channels(&draw(&five_words())), [vec![0, 1, 4], vec![2, 3]]);
}

#[test]
fn p3_rows() {
    let chart = draw(&five_words());
    assert_eq!(rows(&chart), [0, 1, 1, 2, 3]);
    assert_eq!(chart.counts.rows, 4);
}

#[test]
fn p4_only_arrow_5_is_implied() {
    let chart = draw(&five_words());
    assert_eq!(transitive(&chart), [5]);
    assert_eq!(chart.counts.reduced_edges, 5);
}

#[test]
fn p5_two_bundles() {
    let chart = draw(&graph(4, &[(0, 1), (0, 2), (0, 3), (1, 2), (1, 3), (2, 3)]));
    assert_eq!(channels(&chart), [[0, 1, 2, 3]]);
    assert_eq!(bundles(&chart), [(0, 3, 0), (0, 2, 1)]);
    assert!(chart.vertices.iter().all(|vertex| vertex.column == 3));
    let into_3 = Kind::PathTransitive { bundle: 0 };
    let into_2 = Kind::PathTransitive { bundle: 1 };
    let kinds: Vec<Kind> = chart.edges.iter().map(|edge| edge.kind).collect();
    let path = Kind::Path;
    assert_eq!(kinds, [path, into_2, into_3, path, into_3, path]);
    assert_eq!(chart.counts.tracks[0], 2);
}

#[test]
fn p6_a_bend() {
    let chart = six_words(&[&[0], &[1, 2], &[3, 4, 5]]);
    let bend = Place::new(2, 1);
    assert_eq!(chart.edges[3].kind, Kind::Bent { bend });
}

#[test]
fn p7_no_bend() {
    let chart = six_words(&[&[0], &[1], &[2], &[3, 4, 5]]);
    assert_eq!(chart.edges[3].kind, Kind::Straight);
}

#[test]
fn p8_one_word() {
    let chart = draw(&graph(1, &[]));
    assert_eq!((chart.vertices[0].column, chart.counts.width), (1, 3));
}

#[test]
fn p9_an_arrow_to_itself() {
    assert_eq!(refusal(&graph(1, &[(0, 0)]).to_bytes()), 5);
}

#[test]
fn p10_an_arrow_twice() {
    assert_eq!(refusal(&graph(2, &[(0, 1), (0, 1)]).to_bytes()), 4);
}

#[test]
fn the_printed_listing() {
    let record = from_hex("01 00 01 05 02 00 0C 00 01 00 02 01 03 02 03 03 04 00 03");
    let expected = "chart 5 6 rows 4 lines 2 firm 5 bundles 0 width 6
w 0 0 0 1 0
w 1 0 1 1 1
w 2 1 0 4 1
w 3 1 1 4 2
w 4 0 2 1 3
a 0 0 1 S f
a 1 0 2 D f
a 2 1 3 D f
a 3 2 3 S f
a 4 3 4 D f
a 5 0 3 D i
";
    assert_eq!(record, Some(five_words().to_bytes()));
    assert_eq!(listing(&five_words().to_bytes()), expected);
}
