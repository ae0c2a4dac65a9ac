//! Connections: the four answers to how one vertex leads to another, and what goes by them.

use crate::support::{graph, rising, with_channels};
use reference::chart::Chart;
use reference::connection::{leads, Connection, CONNECTIONS};
use reference::descent::Reachability;
use reference::lawful::{acyclic_graphs, sound_channels};
use reference::lines::Channels;
use reference::marks::is_transitive;
use reference::random::{sound_record, Generator};
use reference::record::Record;
use reference::refusal::Refusal;
use reference::session::Session;
use std::collections::{BTreeMap, BTreeSet};
use Connection::{Both, EdgeOnly, LongerOnly, Unreached};

/// How each of the pairs is connected by the edges; a session must answer as the record does.
fn connections<const N: usize>(record: &Record, pairs: [(usize, usize); N]) -> [Connection; N] {
    let reach = Reachability::of(record.vertex_count, &record.edges);
    let session = in_session(record);
    pairs.map(|(u, v)| {
        let connection = reach.connection(u, v);
        assert_eq!(leads(&record.to_bytes(), u, v), Ok(connection));
        assert_eq!(session.clone().leads(u, v).1, Ok(connection));
        connection
    })
}

/// A session with all edges of a graph.
fn in_session(record: &Record) -> Session {
    let (session, _) = Session::start(record.vertex_count);
    record.edges.iter().fold(session, |session, edge| {
        let (session, refusal) = session.add(edge.tail, edge.head);
        assert_eq!(refusal, None);
        session
    })
}

/// Every graph of up to four vertices without a cycle.
fn small_graphs() -> impl Iterator<Item = Record> {
    (1..=4).flat_map(acyclic_graphs)
}

/// Random sound records of at most `size` vertices, broad ones too; the seed is printed.
fn sample(seed: u64, count: usize, size: usize) -> impl Iterator<Item = Record> {
    println!("seed {seed}");
    let mut generator = Generator::new(seed);
    let records = (0..count).map(move |_| sound_record(&mut generator));
    records.filter(move |record| record.vertex_count <= size)
}

#[test]
fn answers_have_their_numbers_and_words() {
    let numbered = CONNECTIONS.map(|answer| (answer.number(), answer.word()));
    let expected = [(0, "no"), (1, "arrow"), (2, "longer"), (3, "both")];
    assert_eq!(numbered, expected);
    assert_eq!(
        CONNECTIONS.map(Connection::reaches),
        [false, true, true, true]
    );
}

#[test]
fn each_of_the_four_is_answered() {
    let record = graph(5, &[(0, 1), (1, 2), (0, 2), (2, 3)]);
    let answers = connections(&record, [(0, 1), (0, 2), (0, 3), (1, 3), (2, 3)]);
    assert_eq!(answers, [EdgeOnly, Both, LongerOnly, LongerOnly, EdgeOnly]);
    let answers = connections(&record, [(1, 0), (3, 0), (0, 4), (4, 0)]);
    assert_eq!(answers, [Unreached; 4]);
}

#[test]
fn a_route_of_three_edges_or_more_is_a_longer_one() {
    let path = [(0, 1), (1, 2), (2, 3), (3, 4)];
    let answers = connections(&graph(5, &path), [(0, 3), (1, 4), (0, 4)]);
    assert_eq!(answers, [LongerOnly; 3]);
    let beside = [&path[..], &[(0, 3), (0, 4)]].concat();
    let answers = connections(&graph(5, &beside), [(0, 3), (0, 4), (1, 4)]);
    assert_eq!(answers, [Both, Both, LongerOnly]);
}

#[test]
fn an_edge_is_no_longer_route_by_itself() {
    // Edges that go on from its head, come to its tail, or share one end with it.
    let edges = [(1, 2), (2, 3), (0, 1), (1, 4), (5, 2)];
    let answers = connections(&graph(6, &edges), [(1, 2), (2, 3), (0, 1), (1, 4), (5, 2)]);
    assert_eq!(answers, [EdgeOnly; 5]);
    // The two edges of a longer route have none beside them.
    let answers = connections(&graph(3, &[(0, 1), (0, 2), (1, 2)]), [(0, 1), (1, 2)]);
    assert_eq!(answers, [EdgeOnly; 2]);
}

#[test]
fn a_vertex_does_not_lead_to_itself() {
    for record in small_graphs().chain(sample(41, 300, 128)) {
        let reach = Reachability::of(record.vertex_count, &record.edges);
        let mut vertices = 0..record.vertex_count;
        assert!(vertices.all(|v| reach.connection(v, v) == Unreached));
    }
    assert_eq!(
        connections(&graph(2, &[(0, 1)]), [(0, 0), (1, 1)]),
        [Unreached; 2]
    );
}

#[test]
fn questions_of_a_record_are_refused_as_it_is_and_then_with_3() {
    let sound = graph(4, &rising(4, 6)).to_bytes();
    for (u, v) in [(0, 4), (4, 0), (4, 4), (0, usize::MAX), (usize::MAX, 3)] {
        assert_eq!(leads(&sound, u, v), Err(Refusal::UnknownVertex));
    }
    let cyclic = graph(2, &[(0, 1), (1, 0)]).to_bytes();
    let broken = with_channels(2, &[(0, 1)], &[&[1, 0]]).to_bytes();
    for (bytes, refusal) in [
        (vec![], Refusal::Layout),
        (cyclic, Refusal::Cycle),
        (broken, Refusal::Broken),
    ] {
        assert_eq!(leads(&bytes, 0, 1), Err(refusal));
        assert_eq!(leads(&bytes, 9, 9), Err(refusal));
    }
    // Too many channels are no fault of what is only read.
    let broad = graph(33, &[(31, 32)]).to_bytes();
    assert_eq!(Chart::read(&broad), Err(Refusal::Broad));
    assert_eq!(leads(&broad, 31, 32), Ok(EdgeOnly));
}

/// The connections by the lengths of the routes: pairs joined by just k edges, for every k.
fn by_lengths(record: &Record) -> BTreeMap<(usize, usize), Connection> {
    let edges: BTreeSet<(usize, usize)> = record.edges.iter().map(|e| (e.tail, e.head)).collect();
    let (mut longer, mut joined) = (BTreeSet::new(), edges.clone());
    while !joined.is_empty() {
        let onward = |&(u, w): &(usize, usize)| {
            let from_w = edges.range((w, 0)..=(w, usize::MAX));
            from_w.map(move |&(_, v)| (u, v))
        };
        joined = joined.iter().flat_map(onward).collect();
        longer.extend(joined.iter().copied());
    }
    let answer = |pair| Connection::by(edges.contains(&pair), longer.contains(&pair));
    let size = record.vertex_count;
    let pairs = (0..size).flat_map(|u| (0..size).map(move |v| (u, v)));
    pairs.map(|pair| (pair, answer(pair))).collect()
}

#[test]
fn connections_go_by_the_lengths_of_routes() {
    let mut seen = BTreeSet::new();
    for record in small_graphs().chain(sample(42, 400, 20)) {
        let reach = Reachability::of(record.vertex_count, &record.edges);
        let session = in_session(&record);
        for ((u, v), expected) in by_lengths(&record) {
            assert_eq!(reach.connection(u, v), expected, "{record:?} {u} {v}");
            assert_eq!(session.clone().leads(u, v).1, Ok(expected));
            assert_eq!(reach.reaches(u, v), expected.reaches());
            seen.insert(expected);
        }
    }
    assert!(seen.into_iter().eq(CONNECTIONS));
}

/// Another reading of a longer route: what stays of reachability where the edge itself is taken out.
#[test]
fn longer_routes_are_those_without_the_edge() {
    for record in small_graphs().chain(sample(43, 200, 16)) {
        let reach = Reachability::of(record.vertex_count, &record.edges);
        for (number, edge) in record.edges.iter().enumerate() {
            let mut others = record.edges.clone();
            others.remove(number);
            let stays = Reachability::of(record.vertex_count, &others);
            let longer = stays.reaches(edge.tail, edge.head);
            let expected = Connection::by(true, longer);
            assert_eq!(reach.connection(edge.tail, edge.head), expected);
        }
    }
}

#[test]
fn an_edge_is_transitive_where_its_ends_answer_both_and_a_vertex_lies_between() {
    let mut marked = BTreeSet::new();
    for record in small_graphs().chain(sample(44, 400, 128)) {
        let reach = Reachability::of(record.vertex_count, &record.edges);
        for &edge in &record.edges {
            let mut descendants = reach.descendants(edge.tail);
            let between = descendants.any(|w| reach.reaches(w, edge.head));
            let both = reach.connection(edge.tail, edge.head) == Both;
            assert_eq!(both, between, "{record:?} {edge:?}");
            assert_eq!(is_transitive(edge, &reach), both);
            marked.insert(both);
        }
    }
    assert_eq!(marked.len(), 2);
}

#[test]
fn a_given_channel_is_broken_exactly_where_neighbours_are_unreached() {
    for record in small_graphs() {
        let reach = Reachability::of(record.vertex_count, &record.edges);
        let pairs =
            (0..record.vertex_count).flat_map(|u| (0..u).flat_map(move |v| [(u, v), (v, u)]));
        for (u, v) in pairs {
            let refused = match reach.connection(u, v) {
                Unreached => Err(Refusal::Broken),
                EdgeOnly | LongerOnly | Both => Ok(()),
            };
            assert_eq!(record.with_given(vec![vec![u, v]]).check(), refused);
        }
    }
}

/// Asks for all neighbours of the channels, in their order; counts the answers.
fn ask_neighbours(record: &Record, counts: &mut [usize; 4]) {
    let reach = Reachability::of(record.vertex_count, &record.edges);
    let channels = Channels::of(record, &reach);
    for pair in channels.lists().iter().flat_map(|list| list.windows(2)) {
        let answer = reach.connection(pair[0], pair[1]);
        let mut edges = record.edges.iter();
        let has_edge = edges.any(|edge| [edge.tail, edge.head] == pair);
        assert_ne!(answer, Unreached, "{record:?}");
        assert_eq!(answer == LongerOnly, !has_edge, "{record:?}");
        counts[usize::from(answer.number())] += 1;
    }
}

#[test]
fn neighbours_in_lines_lead_to_each_other_and_without_an_arrow_by_longer_routes_only() {
    let mut counts = [0; 4];
    for record in small_graphs() {
        ask_neighbours(&record, &mut counts);
        for channels in sound_channels(&record) {
            ask_neighbours(&record.with_given(channels), &mut counts);
        }
    }
    assert!(counts[1..].iter().all(|&count| count > 100), "{counts:?}");
    let mut counts = [0; 4];
    for record in sample(45, 2000, 128) {
        ask_neighbours(&record, &mut counts);
    }
    assert!(counts[1..].iter().all(|&count| count > 100), "{counts:?}");
}
