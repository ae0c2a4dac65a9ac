//! The edges of what is accepted, and the order of the refusals.

use crate::support::{channels, draw, field, fields, graph, refusal, rising, with_channels};
use reference::record::Record;
use reference::refusal::Refusal;

const ONE: (u8, &[u8]) = (1, &[1]);
const TWO: (u8, &[u8]) = (1, &[2]);
const NO_ARROWS: (u8, &[u8]) = (2, &[]);

#[test]
fn the_least_record_is_accepted() {
    assert_eq!(refusal(&[1, 0, 1, 1, 2, 0, 0]), 0);
}

#[test]
fn every_shorter_piece_of_a_record_gives_1() {
    let whole = with_channels(3, &[(0, 1), (1, 2)], &[&[0, 1], &[2]]).to_bytes();
    assert_eq!(refusal(&whole), 0);
    let bare = graph(3, &[(0, 1), (1, 2)]).to_bytes().len();
    for length in (0..whole.len()).filter(|&length| length != bare) {
        assert_eq!(refusal(&whole[..length]), 1, "{length}");
    }
}

#[test]
fn a_tag_1_field_of_another_length_gives_1() {
    assert_eq!(refusal(&fields(&[(1, &[]), NO_ARROWS])), 1);
    assert_eq!(refusal(&fields(&[(1, &[1, 1]), NO_ARROWS])), 1);
}

#[test]
fn an_odd_number_of_arrow_bytes_gives_1() {
    assert_eq!(refusal(&fields(&[TWO, (2, &[0])])), 1);
    assert_eq!(refusal(&fields(&[TWO, (2, &[0, 1, 0])])), 1);
    assert_eq!(refusal(&fields(&[TWO, (2, &[0, 1])])), 0);
}

#[test]
fn an_empty_tag_2_field_is_accepted_and_a_missing_one_is_not() {
    assert_eq!(refusal(&fields(&[ONE, NO_ARROWS])), 0);
    assert_eq!(refusal(&fields(&[ONE])), 1);
    assert_eq!(refusal(&fields(&[ONE, (3, &[1, 0])])), 1);
}

#[test]
fn an_empty_tag_3_field_counts_as_none() {
    assert_eq!(refusal(&fields(&[ONE, NO_ARROWS, (3, &[])])), 0);
    let rising = rising(6, 9);
    let empty = draw(&with_channels(6, &rising, &[]));
    assert_eq!(empty, draw(&graph(6, &rising)));
}

#[test]
fn other_orders_and_other_tags_give_1() {
    let lines: (u8, &[u8]) = (3, &[1, 0]);
    assert_eq!(refusal(&fields(&[ONE, NO_ARROWS, lines])), 0);
    let wrong: [&[(u8, &[u8])]; 9] = [
        &[],
        &[NO_ARROWS, ONE],
        &[NO_ARROWS],
        &[lines, ONE, NO_ARROWS],
        &[ONE, lines, NO_ARROWS],
        &[ONE, ONE, NO_ARROWS],
        &[ONE, NO_ARROWS, NO_ARROWS],
        &[ONE, NO_ARROWS, lines, lines],
        &[ONE, NO_ARROWS, lines, ONE],
    ];
    for order in wrong {
        assert_eq!(refusal(&fields(order)), 1, "{order:?}");
    }
    for tag in [0, 1, 2, 5, 255] {
        assert_eq!(refusal(&fields(&[ONE, NO_ARROWS, (tag, &[1, 0])])), 1);
        assert_eq!(refusal(&fields(&[ONE, NO_ARROWS, (tag, &[])])), 1);
    }
}

#[test]
fn nothing_may_follow() {
    for mut bytes in [
        fields(&[ONE, NO_ARROWS]),
        fields(&[ONE, NO_ARROWS, (3, &[1, 0])]),
    ] {
        assert_eq!(refusal(&bytes), 0);
        bytes.push(0);
        assert_eq!(refusal(&bytes), 1);
    }
}

#[test]
fn the_high_byte_of_a_length_comes_first() {
    assert_eq!(refusal(&[1, 1, 0, 1, 2, 0, 0]), 1);
    let many = graph(128, &rising(128, 200)).to_bytes();
    assert_eq!(many[4..7], [2, 1, 144]);
    assert_eq!(refusal(&many), 0);
}

#[test]
fn an_empty_line_or_one_past_its_field_gives_1() {
    for lines in [
        [0, 0].as_slice(),
        &[1, 0, 0],
        &[2, 0],
        &[1, 0, 1],
        &[255, 0],
    ] {
        assert_eq!(refusal(&fields(&[ONE, NO_ARROWS, (3, lines)])), 1);
    }
}

#[test]
fn layout_inside_the_lines_goes_before_size() {
    let size: (u8, &[u8]) = (1, &[129]);
    assert_eq!(refusal(&fields(&[size, NO_ARROWS, (3, &[0])])), 1);
    assert_eq!(refusal(&fields(&[size, NO_ARROWS, (3, &[2, 0])])), 1);
    assert_eq!(refusal(&fields(&[size, NO_ARROWS, (3, &[1, 0])])), 2);
}

#[test]
fn sizes_at_their_limits() {
    for (n, expected) in [(0, 2), (1, 0), (128, 0), (129, 2), (255, 2)] {
        assert_eq!(refusal(&fields(&[(1, &[n]), NO_ARROWS])), expected, "{n}");
    }
    for (m, expected) in [(4095, 0), (4096, 0), (4097, 2), (8128, 2)] {
        let bytes = graph(128, &rising(128, m)).to_bytes();
        assert_eq!(refusal(&bytes), expected, "{m}");
    }
    assert_eq!(refusal(&fields(&[TWO, (2, &[9; 65_000])])), 2);
}

#[test]
fn a_record_has_at_most_65535_bytes() {
    let lines = |length: usize| {
        let mut content = Vec::new();
        while content.len() < length {
            let words = (length - content.len()).min(256) - 1;
            content.push(u8::try_from(words).expect("one byte"));
            content.extend(vec![0; words]);
        }
        [fields(&[ONE, NO_ARROWS]), field(3, &content)].concat()
    };
    assert_eq!(lines(65_525).len(), 65_535);
    assert_eq!(refusal(&lines(65_525)), 6);
    assert_eq!(refusal(&lines(65_526)), 1);
}

#[test]
fn strangers_in_arrows_and_lines() {
    assert_eq!(refusal(&graph(2, &[(2, 0)]).to_bytes()), 3);
    assert_eq!(refusal(&graph(2, &[(0, 2)]).to_bytes()), 3);
    assert_eq!(refusal(&graph(128, &[(0, 128)]).to_bytes()), 3);
    assert_eq!(refusal(&with_channels(2, &[], &[&[0], &[2]]).to_bytes()), 3);
    assert_eq!(refusal(&with_channels(2, &[], &[&[0], &[1]]).to_bytes()), 0);
}

#[test]
fn a_double_arrow_need_not_follow_at_once() {
    assert_eq!(refusal(&graph(3, &[(0, 1), (1, 2), (0, 1)]).to_bytes()), 4);
    assert_eq!(refusal(&graph(3, &[(0, 1), (1, 2), (0, 2)]).to_bytes()), 0);
}

#[test]
fn an_arrow_to_itself_twice_gives_4() {
    assert_eq!(refusal(&graph(1, &[(0, 0), (0, 0)]).to_bytes()), 4);
}

#[test]
fn rings_of_every_length_give_5() {
    for length in [1, 2, 3, 64, 65, 128] {
        let ring: Vec<_> = (0..length).map(|u| (u, (u + 1) % length)).collect();
        assert_eq!(refusal(&graph(length, &ring).to_bytes()), 5, "{length}");
        let open = &ring[..length - 1];
        assert_eq!(refusal(&graph(length, open).to_bytes()), 0, "{length}");
    }
}

#[test]
fn lines_that_repeat_a_word_give_6() {
    let lines: [&[&[usize]]; 5] = [
        &[&[0, 1, 2], &[2]],
        &[&[0, 1], &[1]],
        &[&[0, 1, 2, 2]],
        &[&[0, 2], &[0]],
        &[&[1], &[1]],
    ];
    for lines in lines {
        assert_eq!(refusal_with(lines), 6, "{lines:?}");
    }
}

#[test]
fn lines_may_lack_words() {
    let lines: [&[&[usize]]; 6] = [
        &[],
        &[&[2]],
        &[&[0, 1]],
        &[&[0, 2]],
        &[&[2], &[0]],
        &[&[0, 1, 2]],
    ];
    for lines in lines {
        assert_eq!(refusal_with(lines), 0, "{lines:?}");
    }
}

#[test]
fn a_repeat_anywhere_gives_6_before_a_break_anywhere() {
    let lines: [&[&[usize]]; 4] = [
        &[&[1, 0, 1]],
        &[&[1, 0], &[2], &[2]],
        &[&[2], &[2], &[1, 0]],
        &[&[2, 1], &[0, 1]],
    ];
    for lines in lines {
        assert_eq!(refusal_with(lines), 6, "{lines:?}");
    }
    assert_eq!(refusal_with(&[&[1, 0], &[2]]), 7);
}

/// The refusal of the path 0 1 2 with these house lines.
fn refusal_with(lines: &[&[usize]]) -> u8 {
    refusal(&with_channels(3, &[(0, 1), (1, 2)], lines).to_bytes())
}

#[test]
fn a_line_may_leap_but_not_fall() {
    assert_eq!(refusal_with(&[&[0, 2], &[1]]), 0);
    assert_eq!(refusal_with(&[&[2, 0], &[1]]), 7);
    assert_eq!(refusal_with(&[&[0], &[2, 1]]), 7);
    assert_eq!(
        refusal(&with_channels(3, &[(0, 1)], &[&[0, 1, 2]]).to_bytes()),
        7
    );
}

#[test]
fn house_lines_are_used_in_their_order() {
    let lines: [&[usize]; 3] = [&[3], &[1, 2], &[0]];
    let chart = draw(&with_channels(4, &[(0, 1), (1, 2), (2, 3)], &lines));
    assert_eq!(channels(&chart), lines);
}

#[test]
fn planned_lines_follow_the_house_lines() {
    let path = [(0, 1), (1, 2), (2, 3), (3, 4)];
    let chart = draw(&with_channels(6, &path, &[&[3], &[1, 4]]));
    assert_eq!(channels(&chart), [vec![3], vec![1, 4], vec![0, 2], vec![5]]);
}

/// The refusals of a record in the order of their checks.
const ORDER: [u8; 8] = [1, 2, 12, 3, 4, 5, 6, 7];

#[test]
fn of_several_faults_the_first_in_order_is_given() {
    for faults in 1..=u8::MAX {
        let chosen = ORDER.iter().enumerate();
        let chosen = chosen.filter(|(place, _)| faults >> place & 1 == 1);
        let chosen: Vec<u8> = chosen.map(|(_, &number)| number).collect();
        for floors in [vec![0; 3], vec![0; 5], vec![0, 128, 0, 0], Vec::new()] {
            let bytes = with_faults(|number| chosen.contains(&number), floors);
            assert_eq!(refusal(&bytes), chosen[0], "{chosen:?}");
        }
    }
}

/// A record with the wanted ones of these faults, of which 12 is by these floors.
fn with_faults(has: impl Fn(u8) -> bool, floors: Vec<usize>) -> Vec<u8> {
    let mut record = with_channels(4, &[(0, 1), (2, 3)], &[&[0, 1], &[2, 3]]);
    record.floors = has(12).then_some(floors);
    let lines = record.channels.as_mut().expect("lines");
    if has(7) {
        lines[0].reverse();
    }
    if has(6) {
        lines.push(vec![3]);
    }
    let faulty_arrows = [(5, (3, 2)), (4, (0, 1)), (3, (0, 200))];
    for (number, ends) in faulty_arrows {
        if has(number) {
            record.edges.extend(graph(0, &[ends]).edges);
        }
    }
    if has(2) {
        record.vertex_count = 129;
    }
    let mut bytes = record.to_bytes();
    if has(1) {
        bytes.push(0);
    }
    bytes
}

#[test]
fn refusals_have_their_numbers_and_words() {
    let table = [
        (Refusal::Layout, 1, "layout"),
        (Refusal::Size, 2, "size"),
        (Refusal::UnknownVertex, 3, "stranger"),
        (Refusal::DuplicateEdge, 4, "double"),
        (Refusal::Cycle, 5, "ring"),
        (Refusal::Cover, 6, "cover"),
        (Refusal::Broken, 7, "broken"),
        (Refusal::Short, 8, "short"),
        (Refusal::Full, 9, "full"),
        (Refusal::OffPage, 10, "off page"),
        (Refusal::Broad, 11, "broad"),
        (Refusal::Floor, 12, "floor"),
    ];
    for (refusal, number, word) in table {
        assert_eq!((refusal.number(), refusal.word()), (number, word));
        assert_eq!(refusal.to_string(), format!("refused {number}"));
    }
}

#[test]
fn reading_keeps_what_the_record_says() {
    let record = with_channels(3, &[(0, 1), (0, 2)], &[&[0, 2], &[1]]);
    assert_eq!(Record::read(&record.to_bytes()).as_ref(), Ok(&record));
    let record = record.with_floors(vec![0, 127, 3]);
    assert_eq!(Record::read(&record.to_bytes()), Ok(record));
    let record = graph(3, &[(2, 1), (2, 0)]);
    assert_eq!(Record::read(&record.to_bytes()), Ok(record));
}
