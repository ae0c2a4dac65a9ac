//! The sides that are timed, each with lists that are made once and lent to every call.

use crate::inputs::{Input, ROOM};
use ceviloneth::raw::ChartCounts;
use ceviloneth::{raw, ARROW_NUMBERS, BUNDLE_NUMBERS, STATE_NUMBERS, WORD_NUMBERS};
use reference::chart::Room;
use reference::connection::leads;
use reference::geometry::Place;
use reference::record::MAX_VERTICES;
use reference::session::{Answer, Call, Session};
use reference::strokes::Polyline;
use std::hint::black_box;

/// A chart call that fills lent lists of numbers.
type ChartCall = fn(&[u8], &mut [u16], &mut [u16], &mut [u16]) -> ChartCounts;

/// The proved library or the peer, called in the same way.
pub struct Side {
    call: ChartCall,
    lists: [Vec<u16>; 3],
}

impl Side {
    /// The proved library.
    pub fn proved() -> Side {
        Side::new(raw::chart)
    }

    /// The peer.
    pub fn peer() -> Side {
        Side::new(peer::chart)
    }

    fn new(call: ChartCall) -> Side {
        let lists = ROOM.map(|numbers| vec![0; numbers]);
        Side { call, lists }
    }

    /// Draws all records of an input.
    pub fn draw(&mut self, input: &Input) {
        self.draw_each(&input.records, input.room);
    }

    /// Draws records with lists of so many numbers.
    pub fn draw_each(&mut self, records: &[Vec<u8>], room: [usize; 3]) {
        let [words, arrows, bundles] = &mut self.lists;
        let words = &mut words[..room[0]];
        let (arrows, bundles) = (&mut arrows[..room[1]], &mut bundles[..room[2]]);
        for record in records {
            black_box((self.call)(black_box(record), words, arrows, bundles));
        }
    }
}

/// The second implementation with lists of its own.
#[derive(Default)]
pub struct Second {
    own: Room,
}

impl Second {
    /// New lists.
    pub fn new() -> Second {
        Second::default()
    }

    /// Draws all records of an input.
    pub fn draw(&mut self, input: &Input) {
        let [words, arrows, bundles] = input.room;
        let entries = [
            words / WORD_NUMBERS,
            arrows / ARROW_NUMBERS,
            bundles / BUNDLE_NUMBERS,
        ];
        for record in &input.records {
            black_box(self.own.draw(black_box(record), entries));
        }
    }
}

/// Runs a script of session calls with the proved library; gives the number of arrows.
pub fn run_proved(state: &mut [u64; STATE_NUMBERS], script: &[Call]) -> u64 {
    raw::session_start(state, MAX_VERTICES);
    for &call in script {
        match call {
            Call::Add(u, v) => drop(black_box(raw::session_add(state, u, v))),
            Call::Leads(u, v) => drop(black_box(raw::session_leads(state, u, v))),
        }
    }
    state[1]
}

/// The same with the second implementation.
pub fn run_second(script: &[Call]) -> u64 {
    let (mut session, _) = Session::start(MAX_VERTICES);
    for &call in script {
        let (after, answer): (Session, Answer) = session.call(call);
        black_box(answer);
        session = after;
    }
    session.edges().len() as u64
}

/// Asks a session of the proved library how words lead to each other.
pub fn ask_proved(state: &[u64; STATE_NUMBERS], pairs: &[(usize, usize)]) {
    for &(u, v) in pairs {
        black_box(raw::session_leads(black_box(state), u, v));
    }
}

/// The same with the second implementation.
pub fn ask_second(session: &mut Session, pairs: &[(usize, usize)]) {
    for &(u, v) in pairs {
        let (after, answer) = std::mem::take(session).leads(u, v);
        *session = after;
        let _ = black_box(answer);
    }
}

/// Asks the proved library the same of a record.
pub fn ask_record_proved(record: &[u8], pairs: &[(usize, usize)]) {
    for &(u, v) in pairs {
        black_box(raw::leads(black_box(record), u, v));
    }
}

/// The same with the second implementation.
pub fn ask_record_second(record: &[u8], pairs: &[(usize, usize)]) {
    for &(u, v) in pairs {
        let _ = black_box(leads(black_box(record), u, v));
    }
}

/// Makes side strokes with the proved library.
pub fn strokes_proved(places: &[[Place; 4]]) {
    for places in places {
        let numbers = places.map(|place| [place.column as u32, place.row as u32]);
        black_box(raw::stroke_side(black_box(numbers)));
    }
}

/// The same with the second implementation, down to the numbers in points.
pub fn strokes_second(places: &[[Place; 4]]) {
    for places in places {
        if let Ok(line) = Polyline::path_transitive(black_box(*places)) {
            for point in line.points() {
                black_box((point.across(), point.up()));
            }
        }
    }
}
