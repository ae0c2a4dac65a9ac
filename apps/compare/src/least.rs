//! All small graphs, by brute force: no lawful chart is smaller (docs/SPECIFICATION.md, 10.5).

use crate::answers::Room;
use crate::tester::{Outcome, Tester};
use reference::chart::Chart;
use reference::lawful::{
    acyclic_graphs, choices, descent, least_links, least_parts, least_rows, least_tracks,
    sound_channels, LawfulChart,
};
use reference::record::Record;

/// Compares all voices, so that one chart speaks for them, and tries all lawful charts: of every
/// graph, alone and with every sound choice of house lines, without floors and with low ones.
pub fn least(tester: &mut Tester) -> Outcome {
    for size in 1..=4 {
        let links = least_links(size);
        for record in acyclic_graphs(size) {
            let least = links.get(&descent(&record)).copied();
            let given = sound_channels(&record).map(|channels| record.with_given(channels));
            for given in given.chain([record.clone()]) {
                compare(tester, &given, least)?;
                // Of four words, those without house lines alone: with them there would be millions.
                if size < 4 || given == record {
                    with_floors(tester, &given, least)?;
                }
            }
        }
    }
    Ok(())
}

/// The same graph and house lines with every choice of floors below 3.
fn with_floors(tester: &mut Tester, record: &Record, links: Option<usize>) -> Outcome {
    for floors in choices(record.vertex_count, 3) {
        compare(tester, &record.with_floors(floors), links)?;
    }
    Ok(())
}

fn compare(tester: &mut Tester, record: &Record, links: Option<usize>) -> Outcome {
    tester.record(&record.to_bytes(), Room::EXACT)?;
    check(record, links)
}

fn check(record: &Record, links: Option<usize>) -> Outcome {
    let chart = Chart::draw(record).map_err(|refusal| format!("{refusal}: {record:?}"))?;
    let ours = LawfulChart::of(record, &chart);
    let counts = &chart.counts;
    let tracks = |part: usize| {
        let own = ours.track_count(part);
        own == counts.tracks[part] && Some(own) == least_tracks(&ours.bundles_of(part))
    };
    let met = ours.is_lawful(record)
        && ours.has_given_whole(record)
        && ours.keeps_floors(record)
        && ours.row_count() == counts.rows
        && ours.part_count() == counts.channels
        && ours.links.len() == counts.reduced_edges
        && Some(counts.rows) == least_rows(record)
        && Some(counts.channels) == least_parts(record)
        && Some(counts.reduced_edges) == links
        && (0..counts.channels).all(tracks);
    match met {
        true => Ok(()),
        false => Err(format!("a lawful chart is smaller: {record:?}")),
    }
}
