//! Short ways to write records and to look at charts.

use reference::chart::Chart;
use reference::record::{Edge, Record};
use reference::refusal::Refusal;

/// A record without given channels and floors.
pub fn graph(vertex_count: usize, edges: &[(usize, usize)]) -> Record {
    let edges = edges.iter().map(|&(u, v)| Edge::new(u, v));
    Record::new(vertex_count, edges.collect())
}

/// A record with given channels.
pub fn with_channels(
    vertex_count: usize,
    edges: &[(usize, usize)],
    channels: &[&[usize]],
) -> Record {
    let channels = channels.iter().map(|channel| channel.to_vec());
    graph(vertex_count, edges).with_given(channels.collect())
}

/// A record with floors and no given channels.
pub fn with_floors(vertex_count: usize, edges: &[(usize, usize)], floors: &[usize]) -> Record {
    graph(vertex_count, edges).with_floors(floors.to_vec())
}

/// The chart of a record that must be accepted.
pub fn draw(record: &Record) -> Chart {
    Chart::draw(record).expect("an accepted record")
}

/// The vertices of each channel, read off the entries.
pub fn channels(chart: &Chart) -> Vec<Vec<usize>> {
    let mut lists = vec![Vec::new(); chart.counts.channels];
    for (vertex, entry) in chart.vertices.iter().enumerate() {
        lists[entry.channel].push((entry.position, vertex));
    }
    let in_order = |mut list: Vec<(usize, usize)>| {
        list.sort_unstable();
        assert!(list.iter().map(|&(position, _)| position).eq(0..list.len()));
        list.into_iter().map(|(_, vertex)| vertex).collect()
    };
    lists.into_iter().map(in_order).collect()
}

/// The rows of all vertices.
pub fn rows(chart: &Chart) -> Vec<usize> {
    chart.vertices.iter().map(|entry| entry.row).collect()
}

/// The numbers of the transitive edges.
pub fn transitive(chart: &Chart) -> Vec<usize> {
    let edges = chart.edges.iter().filter(|entry| !entry.reduced);
    edges.map(|entry| entry.number).collect()
}

/// First row, last row and track of each bundle.
pub fn bundles(chart: &Chart) -> Vec<(usize, usize, usize)> {
    let bundle = chart.bundles.iter();
    bundle.map(|b| (b.first_row, b.last_row, b.track)).collect()
}

/// The number of the refusal, 0 for an accepted record.
pub fn refusal(bytes: &[u8]) -> u8 {
    Record::read(bytes).err().map_or(0, Refusal::number)
}

/// A field.
pub fn field(tag: u8, content: &[u8]) -> Vec<u8> {
    let length = u16::try_from(content.len()).expect("two bytes");
    let mut bytes = vec![tag];
    bytes.extend(length.to_be_bytes());
    bytes.extend(content);
    bytes
}

/// Fields one after the other.
pub fn fields(parts: &[(u8, &[u8])]) -> Vec<u8> {
    let field = |&(tag, content): &(u8, &[u8])| field(tag, content);
    parts.iter().flat_map(field).collect()
}

/// All pairs of a lower and a higher vertex, the first `count` of them.
pub fn rising(vertex_count: usize, count: usize) -> Vec<(usize, usize)> {
    let pairs = (0..vertex_count).flat_map(|v| (0..v).map(move |u| (u, v)));
    pairs.take(count).collect()
}

/// 128 vertices in rows of so many: edges from all of a row to all of the next, then to all of the
/// one after, as many as a record may have.
pub fn layered(breadth: usize) -> Record {
    let row = |vertex: usize| vertex / breadth;
    let rising = |rise: usize| {
        let pairs = (0..128).flat_map(|u| (u..128).map(move |v| (u, v)));
        pairs.filter(move |&(u, v)| row(v) - row(u) == rise)
    };
    let pairs: Vec<_> = rising(1).chain(rising(2)).take(4096).collect();
    graph(128, &pairs)
}

/// The tallest chart there is: 128 vertices in one path, with some edges two on, and the first at the
/// highest floor.
pub fn tallest() -> Record {
    let path = (0..127).map(|u| (u, u + 1));
    let over = (0..126).step_by(5).map(|u| (u, u + 2));
    let mut floors = vec![0; 128];
    floors[0] = 127;
    with_floors(128, &path.chain(over).collect::<Vec<_>>(), &floors)
}
