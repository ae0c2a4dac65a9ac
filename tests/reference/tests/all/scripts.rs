//! Scripts of a session: which lines are orders, and what is answered.

use reference::random::{lent_calls, Generator};
use reference::script::answers;
use reference::session::{Answer, Call, LentCall, Session};
use std::collections::BTreeSet;

/// The answers, a line each.
fn said(script: &str) -> Vec<String> {
    answers(script.as_bytes())
        .lines()
        .map(str::to_string)
        .collect()
}

#[test]
fn the_four_answers_of_leads() {
    let script = "words 4\nadd 0 1\nadd 1 2\nadd 0 2\nadd 2 3\n\
                  leads 1 0\nleads 0 1\nleads 0 3\nleads 0 2\nleads 0 0\nleads 0 4\n";
    let expected = ["no", "arrow", "longer", "both", "no", "refused 3"];
    assert_eq!(said(script)[..5], ["ok"; 5]);
    assert_eq!(said(script)[5..], expected);
}

#[test]
fn before_words_and_after_a_refused_one_there_are_no_vertices() {
    assert_eq!(said("add 0 1\nleads 0 0\n"), ["refused 3"; 2]);
    for size in [
        "0",
        "129",
        "18446744073709551616",
        "99999999999999999999999",
    ] {
        let script = format!("words 3\nadd 0 1\nwords {size}\nleads 0 1\n");
        assert_eq!(said(&script), ["ok", "ok", "refused 2", "refused 3"]);
    }
}

#[test]
fn numbers_have_one_digit_or_more() {
    let script = "words 003\nadd 000 00000000000000000000000001\nleads 0 01\n";
    assert_eq!(said(script), ["ok", "ok", "arrow"]);
    // What is too large for any number must not come round to a small one.
    for number in [
        "18446744073709551616",
        "340282366920938463463374607431768211457",
    ] {
        let script = format!("words 3\nadd 0 {number}\nleads {number} 1\n");
        assert_eq!(said(&script), ["ok", "refused 3", "refused 3"]);
    }
}

#[test]
fn other_lines_are_unreadable() {
    for line in [
        "",
        " ",
        "words",
        "words ",
        "words  3",
        "words 3 ",
        " words 3",
        "words 3 4",
        "words three",
        "words3",
        "words -1",
        "words 3.0",
        "Words 3",
        "wordss 3",
        "word 3",
        "3",
        "ok",
        "yes",
        "add",
        "add 0",
        "add 0 ",
        "add  0 1",
        "add 0  1",
        "add 0 1 ",
        "add 0 1 2",
        "add\t0\t1",
        "add +0 1",
        "add 0 -1",
        "add 0x0 1",
        "add 0 :",
        "add 0 /",
        "leads 0",
        "leads 0 1 2",
        "lead 0 1",
        "leadss 0 1",
        "leads 0 1\r",
        "leads 0 1\0",
        "> leads 0 1",
        "# leads 0 1",
    ] {
        let script = format!("words 2\nadd 0 1\n{line}\nleads 0 1\n");
        let expected = ["ok", "ok", "unreadable", "arrow"];
        assert_eq!(said(&script), expected, "{line:?}");
    }
    assert_eq!(
        answers(&[0xFF, b'\n', 0xC3, b' ', 10, b'\n']),
        "unreadable\n".repeat(3)
    );
}

#[test]
fn the_last_line_needs_no_line_feed() {
    assert_eq!(answers(b""), "");
    assert_eq!(answers(b"\n"), "unreadable\n");
    assert_eq!(answers(b"words 1"), "ok\n");
    assert_eq!(answers(b"words 1\nleads 0 0"), "ok\nno\n");
    assert_eq!(answers(b"words 1\n\n"), "ok\nunreadable\n");
}

/// A call as a line.
fn line(call: LentCall) -> String {
    match call {
        LentCall::Start(size) => format!("words {size}\n"),
        LentCall::On(Call::Add(u, v)) => format!("add {u} {v}\n"),
        LentCall::On(Call::Leads(u, v)) => format!("leads {u} {v}\n"),
    }
}

/// The answer to a call as a line; here a refused start leaves no earlier session.
fn answer(session: Session, call: LentCall) -> (Session, String) {
    let (session, answer) = match call {
        LentCall::Start(size) => {
            let (session, refusal) = Session::start(size);
            (session, refusal.map_or(Answer::Added, Answer::Refused))
        }
        LentCall::On(call) => session.call(call),
    };
    let said = match answer {
        Answer::Added => "ok".to_string(),
        Answer::Leads(connection) => connection.word().to_string(),
        Answer::Refused(refusal) => format!("refused {}", refusal.number()),
    };
    (session, said)
}

#[test]
fn random_scripts_are_answered_as_the_calls_are() {
    let seed = 0x5C21_0001;
    println!("seed {seed}");
    let mut generator = Generator::new(seed);
    let mut seen = BTreeSet::new();
    for _ in 0..300 {
        let calls = lent_calls(&mut generator);
        let script: String = calls.iter().copied().map(line).collect();
        let mut session = Session::default();
        let mut expected = Vec::new();
        for call in calls {
            let (after, said) = answer(session, call);
            session = after;
            expected.push(said);
        }
        assert_eq!(said(&script), expected);
        seen.extend(expected);
    }
    assert_eq!(seen.len(), 9, "{seen:?}");
}
