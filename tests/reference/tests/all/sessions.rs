//! Sessions: their refusals, and the machine of a set of edges.

use crate::support::rising;
use reference::connection::Connection;
use reference::lawful::Relation;
use reference::random::{calls, Generator};
use reference::refusal::Refusal;
use reference::session::{Answer, Call, Session};
use std::collections::BTreeSet;

fn fresh(vertex_count: usize) -> Session {
    let (session, refusal) = Session::start(vertex_count);
    assert_eq!(refusal, None);
    session
}

/// Adds all edges, each of which must be accepted.
fn with_edges(vertex_count: usize, edges: &[(usize, usize)]) -> Session {
    edges.iter().fold(fresh(vertex_count), |session, &(u, v)| {
        let (session, refusal) = session.add(u, v);
        assert_eq!(refusal, None);
        session
    })
}

/// The number of the refusal, after which the session must be as it was.
fn refused(session: &Session, u: usize, v: usize) -> Option<u8> {
    let (after, refusal) = session.clone().add(u, v);
    assert_eq!(refusal.is_some(), after == *session);
    refusal.map(Refusal::number)
}

fn leads(session: &Session, u: usize, v: usize) -> Result<Connection, Refusal> {
    let (after, answer) = session.clone().leads(u, v);
    assert_eq!(after, *session);
    answer
}

#[test]
fn a_start_takes_1_to_128_words() {
    for size in [1, 2, 127, 128] {
        assert_eq!(fresh(size).vertex_count(), size);
        assert!(fresh(size).edges().is_empty());
    }
    for size in [0, 129, 255, 256, 1 << 20] {
        let (session, refusal) = Session::start(size);
        assert_eq!(refusal, Some(Refusal::Size));
        assert_eq!((session.vertex_count(), session.edges().len()), (0, 0));
    }
}

#[test]
fn a_session_of_no_words_knows_no_word() {
    let (session, _) = Session::start(0);
    assert_eq!(refused(&session, 0, 0), Some(3));
    assert_eq!(leads(&session, 0, 0), Err(Refusal::UnknownVertex));
}

#[test]
fn a_refused_start_on_a_lent_list_leaves_the_earlier_session() {
    let earlier = with_edges(3, &[(0, 1)]);
    for size in [0, 129] {
        let (session, refusal) = Session::start_after(Some(earlier.clone()), size);
        assert_eq!(
            (session.as_ref(), refusal),
            (Some(&earlier), Some(Refusal::Size))
        );
        assert_eq!(
            Session::start_after(None, size),
            (None, Some(Refusal::Size))
        );
    }
    assert_eq!(
        Session::start_after(Some(earlier), 2),
        (Some(fresh(2)), None)
    );
}

#[test]
fn add_refuses_strangers_doubles_and_rings_in_this_order() {
    let session = with_edges(3, &[(0, 1), (1, 2)]);
    assert_eq!(refused(&session, 3, 0), Some(3));
    assert_eq!(refused(&session, 0, 3), Some(3));
    assert_eq!(refused(&session, 3, 3), Some(3));
    assert_eq!(refused(&session, 0, 1), Some(4));
    assert_eq!(refused(&session, 2, 0), Some(5));
    assert_eq!(refused(&session, 1, 0), Some(5));
    assert_eq!(refused(&session, 1, 1), Some(5));
    assert_eq!(refused(&session, 0, 2), None);
}

#[test]
fn a_full_session_still_tells_3_4_and_5_first() {
    let session = with_edges(128, &rising(128, 4096));
    assert_eq!(session.edges().len(), 4096);
    assert_eq!(refused(&session, 128, 0), Some(3));
    assert_eq!(refused(&session, 0, 1), Some(4));
    assert_eq!(refused(&session, 1, 0), Some(5));
    assert_eq!(refused(&session, 126, 127), Some(9));
}

#[test]
fn full_is_not_said_too_early() {
    let pairs = rising(128, 4096);
    let session = with_edges(128, &pairs[..4095]);
    let (u, v) = pairs[4095];
    assert_eq!(refused(&session, u, v), None);
}

#[test]
fn leads_tells_an_arrow_from_longer_routes() {
    let session = with_edges(4, &[(0, 1), (1, 2)]);
    assert_eq!(leads(&session, 0, 1), Ok(Connection::EdgeOnly));
    assert_eq!(leads(&session, 0, 2), Ok(Connection::LongerOnly));
    assert_eq!(leads(&session, 2, 0), Ok(Connection::Unreached));
    assert_eq!(leads(&session, 0, 0), Ok(Connection::Unreached));
    assert_eq!(leads(&session, 0, 3), Ok(Connection::Unreached));
    assert_eq!(leads(&session, 0, 4), Err(Refusal::UnknownVertex));
    assert_eq!(leads(&session, 4, 0), Err(Refusal::UnknownVertex));
}

/// An arrow added makes longer routes of the pairs around it, and of its own pair none.
#[test]
fn answers_change_as_the_session_grows() {
    let session = with_edges(4, &[(0, 1), (2, 3), (0, 3)]);
    assert_eq!(leads(&session, 0, 3), Ok(Connection::EdgeOnly));
    assert_eq!(leads(&session, 0, 2), Ok(Connection::Unreached));
    let (session, _) = session.add(1, 2);
    assert_eq!(leads(&session, 1, 2), Ok(Connection::EdgeOnly));
    assert_eq!(leads(&session, 0, 2), Ok(Connection::LongerOnly));
    assert_eq!(leads(&session, 1, 3), Ok(Connection::LongerOnly));
    assert_eq!(leads(&session, 0, 3), Ok(Connection::Both));
    let (session, _) = session.add(1, 3);
    assert_eq!(leads(&session, 1, 3), Ok(Connection::Both));
}

#[test]
fn calls_answer_as_the_functions_do() {
    let (session, answer) = fresh(2).call(Call::Add(0, 1));
    assert_eq!(answer, Answer::Added);
    let (session, answer) = session.call(Call::Leads(0, 1));
    assert_eq!(answer, Answer::Leads(Connection::EdgeOnly));
    let (session, answer) = session.call(Call::Leads(1, 0));
    assert_eq!(answer, Answer::Leads(Connection::Unreached));
    let (session, answer) = session.call(Call::Add(0, 1));
    assert_eq!(answer, Answer::Refused(Refusal::DuplicateEdge));
    let (_, answer) = session.call(Call::Leads(2, 0));
    assert_eq!(answer, Answer::Refused(Refusal::UnknownVertex));
}

/// The machine's answer: descent is closed anew for every call.
fn machine(size: usize, edges: &mut BTreeSet<(usize, usize)>, call: Call) -> Answer {
    let (Call::Add(u, v) | Call::Leads(u, v)) = call;
    if u >= size || v >= size {
        return Answer::Refused(Refusal::UnknownVertex);
    }
    if let Call::Leads(..) = call {
        let descent = Relation::of(size, edges.iter().copied()).closed();
        let longer = (0..size).any(|w| edges.contains(&(u, w)) && descent.has(w, v));
        return Answer::Leads(Connection::by(edges.contains(&(u, v)), longer));
    }
    let mut grown = edges.clone();
    if !grown.insert((u, v)) {
        return Answer::Refused(Refusal::DuplicateEdge);
    }
    if Relation::of(size, grown.iter().copied())
        .closed()
        .has_loop()
    {
        return Answer::Refused(Refusal::Cycle);
    }
    *edges = grown;
    Answer::Added
}

#[test]
fn random_calls_do_as_the_machine_does() {
    let seed = 0x5E55_0001;
    println!("seed {seed}");
    let mut generator = Generator::new(seed);
    let mut answers = BTreeSet::new();
    for _ in 0..400 {
        let (size, calls) = calls(&mut generator);
        let (mut session, refusal) = Session::start(size);
        assert_eq!(refusal.is_some(), size == 0 || size > 128);
        let size = session.vertex_count();
        let mut edges = BTreeSet::new();
        for call in calls.into_iter().take(60) {
            let (after, answer) = session.call(call);
            assert_eq!(answer, machine(size, &mut edges, call));
            assert_eq!(*after.edges(), edges);
            answers.insert(format!("{answer:?}"));
            session = after;
        }
    }
    assert_eq!(answers.len(), 8, "{answers:?}");
}
