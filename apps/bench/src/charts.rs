//! The table of charts, and what is asked of its ratios to the peer.

use crate::inputs::{grouped, Class, Input};
use crate::sides::{Second, Side};
use crate::timing;

/// Seconds for a record of an input, on average.
pub struct Row {
    name: String,
    class: Class,
    proved: f64,
    peer: f64,
    second: f64,
}

impl Row {
    /// Times all sides on an input.
    fn of(input: &Input, proved: &mut Side, peer: &mut Side, second: &mut Second) -> Row {
        let seconds = timing::seconds([
            &mut || proved.draw(input),
            &mut || peer.draw(input),
            &mut || second.draw(input),
        ]);
        let [proved, peer, second] = seconds.map(|all| all / input.records.len() as f64);
        Row {
            name: input.name.clone(),
            class: input.class,
            proved,
            peer,
            second,
        }
    }

    fn ratio_to_peer(&self) -> f64 {
        self.proved / self.peer
    }

    fn print(&self) {
        let [proved, peer, second] = [self.proved, self.peer, self.second].map(micros);
        println!(
            "| {} | {proved} | {peer} | {second} | {:.2} | {:.3} | {} |",
            self.name,
            self.ratio_to_peer(),
            self.proved / self.second,
            grouped((1.0 / self.proved) as usize)
        );
    }
}

/// Times every input and prints the table.
pub fn table(inputs: &[Input]) -> Vec<Row> {
    println!("## Charts\n\nRead, checked, drawn and handed over; time for a record.\n");
    println!(
        "| Records | Proved, µs | Peer, µs | Second, µs | Ratio to the peer | to the second | \
         Proved, charts a second |"
    );
    println!("|---|---:|---:|---:|---:|---:|---:|");
    let (mut proved, mut peer, mut second) = (Side::proved(), Side::peer(), Second::new());
    let mut timed = |input| {
        let row = Row::of(input, &mut proved, &mut peer, &mut second);
        row.print();
        row
    };
    inputs.iter().map(&mut timed).collect()
}

/// The most that is asked of a ratio to the peer.
fn asked(class: Class) -> Option<f64> {
    match class {
        Class::Dictionary => Some(0.7),
        Class::Dense => Some(0.3),
        Class::Chart => Some(1.0),
        Class::Floored => Some(1.2),
        Class::Refused => None,
    }
}

/// The chart with the highest ratio to the peer, of those with floors or of those without.
fn worst(rows: &[Row], floored: bool) -> Option<&Row> {
    rows.iter()
        .filter(|row| row.class != Class::Refused && floored == (row.class == Class::Floored))
        .max_by(|one, other| one.ratio_to_peer().total_cmp(&other.ratio_to_peer()))
}

/// Prints the ratios of which something is asked: the worst of all charts without floors and with
/// them, of the dictionary, and of the dense record. Gives the rows that are over.
pub fn verdict(rows: &[Row]) -> Vec<String> {
    println!("\n## Ratios to the peer\n\n| Records | Ratio | Asked, at most |\n|---|---:|---:|");
    for (class, charts) in [
        (Class::Chart, "charts"),
        (Class::Floored, "charts with floors"),
    ] {
        if let (Some(row), Some(most)) = (worst(rows, class == Class::Floored), asked(class)) {
            let (name, ratio) = (&row.name, row.ratio_to_peer());
            println!("| worst of all {charts}: {name} | {ratio:.2} | {most:.1} |");
        }
    }
    for row in rows {
        if let (Class::Dictionary | Class::Dense, Some(most)) = (row.class, asked(row.class)) {
            println!("| {} | {:.2} | {most} |", row.name, row.ratio_to_peer());
        }
    }
    let over = |row: &&Row| asked(row.class).is_some_and(|most| row.ratio_to_peer() > most);
    let told = |row: &Row| format!("{}: ratio to the peer {:.3}", row.name, row.ratio_to_peer());
    rows.iter().filter(over).map(told).collect()
}

/// Microseconds, with three digits or more that count.
fn micros(seconds: f64) -> String {
    let micros = 1e6 * seconds;
    match micros {
        0.0..10.0 => format!("{micros:.3}"),
        _ => format!("{micros:.1}"),
    }
}
