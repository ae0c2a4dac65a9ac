//! All pairs of words of all small graphs, and of a word that is not there: asked of the record, of a session
//! with its arrows, and told by the lines and the marks of the chart (docs/SPECIFICATION.md, 2.4).

use crate::questions::Expected;
use crate::records::all_arrow_sets;
use crate::tester::{Outcome, Tester};
use ceviloneth::{raw, Lists, Word, STATE_NUMBERS};
use reference::connection::Connection;
use reference::hex::to_hex;
use reference::lawful::{acyclic_graphs, sound_channels};
use reference::record::{Edge, Record};
use reference::shrink::shrink;

/// Every set of arrows over up to four words, rings too; of those without a ring also the charts with
/// every sound choice of house lines.
pub fn pairs(tester: &mut Tester) -> Outcome {
    for size in 1..=4 {
        for record in all_arrow_sets(size) {
            tester.compared += 1;
            all_pairs(tester, &record)?;
        }
        for record in acyclic_graphs(size) {
            let given = sound_channels(&record).map(|channels| record.with_given(channels));
            for record in given.chain([record.clone()]) {
                chart_tells(tester, &record.to_bytes())?;
            }
        }
    }
    Ok(())
}

/// Asks the record for all pairs, and a session where it is sound; counts the answers that are no refusals.
fn all_pairs(tester: &mut Tester, record: &Record) -> Outcome {
    let bytes = record.to_bytes();
    let expected = Expected::of(&bytes);
    let session = match record.check() {
        Ok(()) => Some(session(record)?),
        Err(_) => None,
    };
    for u in 0..=record.vertex_count {
        for v in 0..=record.vertex_count {
            let expected = expected.answer(u, v);
            let mut told = vec![raw::leads(&bytes, u, v)];
            told.extend(session.iter().map(|state| raw::session_leads(state, u, v)));
            let is_wrong = |told: &raw::Answer| (told.refusal, told.leads) != expected;
            if told.iter().any(is_wrong) {
                return Err(format!(
                    "how {u} leads to {v} in {record:?}: {told:?}, not {expected:?}"
                ));
            }
            if expected.0 == 0 {
                tester.led[usize::from(expected.1)] += 1;
            }
        }
    }
    Ok(())
}

/// A session to which the arrows were added one by one.
fn session(record: &Record) -> Result<Vec<u64>, String> {
    let mut state = vec![0; STATE_NUMBERS];
    let mut refusals = vec![raw::session_start(&mut state, record.vertex_count)];
    for edge in &record.edges {
        refusals.push(raw::session_add(&mut state, edge.tail, edge.head));
    }
    match refusals.iter().all(|&refusal| refusal == 0) {
        true => Ok(state),
        false => Err(format!("a session refuses {record:?}: {refusals:?}")),
    }
}

/// Compares a chart, if there is one, with the answers of its record.
pub fn chart_tells(tester: &mut Tester, bytes: &[u8]) -> Outcome {
    tester.compared += 1;
    let mut lists = Lists::new();
    if differs(&mut lists, bytes).is_none() {
        return Ok(());
    }
    let small = shrink(bytes, |bytes| differs(&mut lists, bytes).is_some());
    let difference = differs(&mut lists, &small).unwrap_or_default();
    Err(format!("record {}\n{difference}", to_hex(&small)))
}

/// The first mark or neighbour of a chart that is not as the answers say; of many arrows some are tried.
fn differs(lists: &mut Lists, bytes: &[u8]) -> Option<String> {
    let (record, chart) = (Record::parse(bytes).ok()?, lists.chart(bytes).ok()?);
    let leads = |u: usize, v: usize| raw::leads(bytes, u, v).leads;
    let arrows = record.edges.iter().zip(&chart.arrows);
    for (edge, arrow) in arrows.step_by(1 + record.edges.len() / 24) {
        let answer = leads(edge.tail, edge.head);
        if arrow.implied != (answer == Connection::Both.number()) {
            return Some(format!("{arrow:?}, but its ends answer {answer}"));
        }
    }
    let mut in_lines: Vec<(&Word, usize)> = chart.words.iter().zip(0..).collect();
    in_lines.sort_by_key(|(word, _)| (word.line, word.position));
    let of_one_line = |pair: &&[(&Word, usize)]| pair[0].0.line == pair[1].0.line;
    let mut neighbours = in_lines.windows(2).filter(of_one_line);
    neighbours.find_map(|pair| {
        let (u, v) = (pair[0].1, pair[1].1);
        let (answer, has_arrow) = (leads(u, v), record.edges.contains(&Edge::new(u, v)));
        let longer_only = answer == Connection::LongerOnly.number();
        let wrong = answer == 0 || longer_only == has_arrow;
        wrong.then(|| format!("{u} stands before {v} in a line, but they answer {answer}"))
    })
}
