//! Scripts of the program `session`: a line is an order, and a line answers it (14.3).

use crate::session::{Answer, Call, Session};

/// What a line orders.
enum Order {
    /// A new session with so many vertices.
    Words(usize),
    /// A call on the session.
    On(Call),
}

/// What the program prints for a script, byte for byte.
pub fn answers(script: &[u8]) -> String {
    let mut session = Session::default();
    let mut said = String::new();
    // A line feed ends a line, and so does the end of the script.
    for line in script.split_inclusive(|&byte| byte == b'\n') {
        let order = order(line.strip_suffix(b"\n").unwrap_or(line));
        let (after, answer) = match order {
            Some(order) => perform(session, order),
            None => (session, "unreadable".to_string()),
        };
        session = after;
        said += &answer;
        said.push('\n');
    }
    said
}

/// The order of a line, if it is one: parts with one blank between them, and nothing else.
fn order(line: &[u8]) -> Option<Order> {
    let parts: Vec<&[u8]> = line.split(|&byte| byte == b' ').collect();
    match parts[..] {
        [b"words", size] => Some(Order::Words(number(size)?)),
        [b"add", u, v] => Some(Order::On(Call::Add(number(u)?, number(v)?))),
        [b"leads", u, v] => Some(Order::On(Call::Leads(number(u)?, number(v)?))),
        _ => None,
    }
}

/// A number of one digit or more; one that is too large for its type is as unknown as the largest.
fn number(part: &[u8]) -> Option<usize> {
    let next = |value: usize, digit: &u8| {
        let digit = usize::from(digit - b'0');
        value.saturating_mul(10).saturating_add(digit)
    };
    let is_number = !part.is_empty() && part.iter().all(u8::is_ascii_digit);
    is_number.then(|| part.iter().fold(0, next))
}

/// The session after an order, and the line that answers it. A refused start leaves no vertices.
fn perform(session: Session, order: Order) -> (Session, String) {
    let (session, answer) = match order {
        Order::Words(size) => {
            let (session, refusal) = Session::start(size);
            (session, refusal.map_or(Answer::Added, Answer::Refused))
        }
        Order::On(call) => session.call(call),
    };
    let said = match answer {
        Answer::Added => "ok".to_string(),
        Answer::Leads(connection) => connection.word().to_string(),
        Answer::Refused(refusal) => refusal.to_string(),
    };
    (session, said)
}
