//! Session scripts on both sides, starts in any place: answers, and the state after each call.

use crate::tester::{Outcome, Tester};
use ceviloneth::{raw, STATE_NUMBERS};
use reference::connection::Connection;
use reference::random::{lent_calls, Generator};
use reference::record::{MAX_EDGES, MAX_VERTICES};
use reference::refusal::Refusal;
use reference::session::{Answer, Call, LentCall, Session};

/// Random scripts, scripts that fill a session, and lists that are too short.
pub fn sessions(tester: &mut Tester, generator: &mut Generator, count: usize) -> Outcome {
    for _ in 0..count {
        compare(tester, lent_calls(generator))?;
    }
    for _ in 0..1 + count / 5_000 {
        compare(tester, filling(generator))?;
    }
    for length in 0..STATE_NUMBERS {
        tester.compared += 1;
        too_short(length, lent_calls(generator))?;
    }
    Ok(())
}

/// Adds until the session is full, and a little more of every kind.
fn filling(generator: &mut Generator) -> Vec<LentCall> {
    let mut pairs: Vec<(usize, usize)> = (0..MAX_VERTICES)
        .flat_map(|v| (0..v).map(move |u| (u, v)))
        .collect();
    generator.shuffle(&mut pairs);
    let more = [(0, 128), (usize::MAX, 1), pairs[0], (127, 0), (5, 5)];
    let adds = pairs[..MAX_EDGES + 40].iter().chain(&more);
    let asks = pairs.iter().step_by(3).flat_map(|&(u, v)| [(u, v), (v, u)]);
    let start = LentCall::Start(MAX_VERTICES);
    let adds = adds.map(|&(u, v)| LentCall::On(Call::Add(u, v)));
    let asks = asks.map(|(u, v)| LentCall::On(Call::Leads(u, v)));
    [start].into_iter().chain(adds).chain(asks).collect()
}

fn compare(tester: &mut Tester, script: Vec<LentCall>) -> Outcome {
    tester.compared += 1;
    let Err(first) = run(&script) else {
        return Ok(());
    };
    let small = shortest(script);
    let difference = run(&small).err().unwrap_or(first);
    Err(format!("session calls {small:?}\n{difference}"))
}

/// The script without every call that the difference can do without.
fn shortest(mut script: Vec<LentCall>) -> Vec<LentCall> {
    let mut place = 0;
    while place < script.len() {
        let call = script.remove(place);
        if run(&script).is_ok() {
            script.insert(place, call);
            place += 1;
        }
    }
    script
}

/// A list of that length with any numbers; they look like a session of nine words.
fn any_numbers(length: usize) -> Vec<u64> {
    let number = |n: u64| if n < 2 { 9 } else { (n << 40) | (7 * n) };
    (0..length as u64).map(number).collect()
}

/// Runs a script on both sides.
fn run(script: &[LentCall]) -> Outcome {
    let mut state = any_numbers(STATE_NUMBERS + 2);
    let mut session = None;
    for &call in script {
        session = match call {
            LentCall::Start(words) => start(&mut state, session, words)?,
            LentCall::On(call) => on(&mut state, session, call)?,
        };
    }
    stands(&state, session.as_ref())
}

/// A start on both sides; refused, it leaves the list as it was, and the earlier session.
fn start(
    state: &mut [u64],
    earlier: Option<Session>,
    words: usize,
) -> Result<Option<Session>, String> {
    let before = state.to_vec();
    let found = raw::session_start(state, words);
    let (session, refusal) = Session::start_after(earlier.clone(), words);
    if found != refusal.map_or(0, Refusal::number) {
        return Err(format!(
            "start of {words}: the proved library answers {found}, not {refusal:?}"
        ));
    }
    match refusal {
        Some(_) => same("a refused start", state, &before)?,
        None => stands(&before, earlier.as_ref())?,
    }
    Ok(session)
}

/// A call on both sides; before the first accepted start any answer will do.
fn on(state: &mut [u64], session: Option<Session>, call: Call) -> Result<Option<Session>, String> {
    let before = state.to_vec();
    let found = proved(state, call);
    let Some(session) = session else {
        return Ok(None);
    };
    let (after, expected) = session.call(call);
    if found != numbers(expected) {
        return Err(format!(
            "{call:?}: the proved library answers {found:?}, not {expected:?}"
        ));
    }
    if expected != Answer::Added {
        same("a call that adds nothing", state, &before)?;
    }
    Ok(Some(after))
}

/// Every call on a list that is too short answers 8 and leaves it as it was.
fn too_short(length: usize, script: Vec<LentCall>) -> Outcome {
    let mut state = any_numbers(length);
    for call in script {
        let found = match call {
            LentCall::Start(words) => (raw::session_start(&mut state, words), 0),
            LentCall::On(call) => proved(&mut state, call),
        };
        if found != (Refusal::Short.number(), 0) {
            return Err(format!("{call:?} on {length} numbers answers {found:?}"));
        }
        same("a list too short", &state, &any_numbers(length))?;
    }
    Ok(())
}

/// The numbers of the refusal and of the answer.
fn numbers(answer: Answer) -> (u8, u8) {
    match answer {
        Answer::Added => (0, 0),
        Answer::Leads(connection) => (0, connection.number()),
        Answer::Refused(refusal) => (refusal.number(), 0),
    }
}

fn proved(state: &mut [u64], call: Call) -> (u8, u8) {
    match call {
        Call::Add(u, v) => (raw::session_add(state, u, v), 0),
        Call::Leads(u, v) => {
            let told = raw::session_leads(state, u, v);
            (told.refusal, told.leads)
        }
    }
}

/// The list spells the session, where there is one; what lies past it is as it was.
fn stands(state: &[u64], session: Option<&Session>) -> Outcome {
    let mut expected = any_numbers(state.len());
    match session {
        Some(session) => expected[..STATE_NUMBERS].copy_from_slice(&spelt(session)),
        None => expected[..STATE_NUMBERS].copy_from_slice(&state[..STATE_NUMBERS]),
    }
    same("the state after these calls", state, &expected)
}

/// The numbers that stand for a session.
fn spelt(session: &Session) -> Vec<u64> {
    let mut state = vec![0; STATE_NUMBERS];
    state[0] = session.vertex_count() as u64;
    state[1] = session.edges().len() as u64;
    for &(u, v) in session.edges() {
        state[2 + 2 * u + v / 64] |= 1 << (v % 64);
    }
    let mut known = session.clone();
    for u in 0..session.vertex_count() {
        for v in 0..session.vertex_count() {
            let (after, leads) = known.leads(u, v);
            known = after;
            let bit = u64::from(leads.is_ok_and(Connection::reaches)) << (v % 64);
            state[258 + 2 * u + v / 64] |= bit;
        }
    }
    state
}

fn same(when: &str, state: &[u64], expected: &[u64]) -> Outcome {
    match (0..expected.len()).find(|&place| state[place] != expected[place]) {
        None => Ok(()),
        Some(place) => Err(format!(
            "{when}: number {place} is {:x}, not {:x}",
            state[place], expected[place]
        )),
    }
}
