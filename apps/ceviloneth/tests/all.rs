//! The wrapper over the proved archive: values, refusals and their words.

use ceviloneth::{
    chart, chart_into, leads, stroke_bent, stroke_side, stroke_straight, version, Bundle, Kind,
    Leads, Lists, Place, Point, Refusal, Session, Word, ARROW_NUMBERS, BUNDLE_NUMBERS, MOST_ARROWS,
    MOST_BUNDLES, MOST_FLOOR, MOST_LINES, MOST_ROWS, MOST_WORDS, VERSION, WORD_NUMBERS,
};

const P5: &[u8] = &[1, 0, 1, 4, 2, 0, 12, 0, 1, 0, 2, 0, 3, 1, 2, 1, 3, 2, 3];
const P6: &[u8] = &[
    1, 0, 1, 6, 2, 0, 8, 1, 2, 3, 4, 4, 5, 0, 5, 3, 0, 9, 1, 0, 2, 1, 2, 3, 3, 4, 5,
];

/// The number behind a name of the header.
fn header(name: &str) -> Option<usize> {
    let header = include_str!("../../../include/ceviloneth.h");
    let mut words = header.lines().map(|line| line.split_whitespace());
    let mut found = words.find(|words| words.clone().take(2).eq(["#define", name]))?;
    found.nth(2)?.parse().ok()
}

#[test]
fn header_wrapper_and_archive_are_of_one_version() {
    assert_eq!(header("CEVILONETH_VERSION"), Some(VERSION as usize));
    assert_eq!(version(), VERSION);
}

#[test]
fn sizes_and_limits_are_those_of_the_header() {
    for (name, number) in [
        ("CEVILONETH_WORD_NUMBERS", WORD_NUMBERS),
        ("CEVILONETH_ARROW_NUMBERS", ARROW_NUMBERS),
        ("CEVILONETH_BUNDLE_NUMBERS", BUNDLE_NUMBERS),
        ("CEVILONETH_WORDS", WORD_NUMBERS * MOST_WORDS),
        ("CEVILONETH_ARROWS", ARROW_NUMBERS * MOST_ARROWS),
        ("CEVILONETH_BUNDLES", BUNDLE_NUMBERS * MOST_BUNDLES),
        ("CEVILONETH_LINES", MOST_LINES),
        ("CEVILONETH_ROWS", MOST_ROWS),
        ("CEVILONETH_MOST_FLOOR", usize::from(MOST_FLOOR)),
    ] {
        assert_eq!(header(name), Some(number), "{name}");
    }
}

#[test]
fn answers_have_the_numbers_of_the_header_and_their_words() {
    for (answer, name, said) in [
        (Leads::NotAtAll, "CEVILONETH_NOT_AT_ALL", "not at all"),
        (Leads::Arrow, "CEVILONETH_ARROW", "by an arrow only"),
        (Leads::Longer, "CEVILONETH_LONGER", "by longer routes only"),
        (Leads::Both, "CEVILONETH_BOTH", "by both"),
    ] {
        assert_eq!(header(name), Some(usize::from(answer.number())));
        assert_eq!(answer.to_string(), said);
        assert_eq!(answer.at_all(), answer != Leads::NotAtAll);
    }
}

#[test]
#[should_panic]
fn a_number_that_is_no_answer_is_not_taken_for_one() {
    let beyond = Leads::Both.number() + 1;
    let _ = ceviloneth::raw::Answer {
        refusal: 0,
        leads: beyond,
    }
    .answer();
}

#[test]
fn a_chart_is_handed_over_whole() {
    let chart = chart(P5).expect("a chart");
    let counts = chart.counts;
    assert_eq!((counts.words, counts.arrows, counts.bundles), (4, 6, 2));
    assert_eq!(
        (counts.rows, counts.lines, counts.firm, counts.width),
        (4, 1, 3, 5)
    );
    assert_eq!(counts.side_columns[..2], [2, 0]);
    let last = Word {
        line: 0,
        position: 3,
        column: 3,
        row: 3,
        descendants: 0,
        floor: 0,
    };
    assert_eq!((chart.words.len(), chart.words[3]), (4, last));
    assert_eq!(chart.arrows[2].kind, Kind::Side { bundle: 0 });
    assert!(chart.arrows[2].implied && !chart.arrows[5].implied);
    let second = Bundle {
        line: 0,
        first_row: 0,
        last_row: 2,
        side_column: 1,
    };
    assert_eq!(chart.bundles[1], second);
}

#[test]
fn kinds_carry_their_numbers() {
    let chart = chart(P6).expect("a chart");
    let bend = Kind::Bent { column: 2, row: 1 };
    assert_eq!(
        (chart.arrows[0].kind, chart.arrows[3].kind),
        (Kind::Spine, bend)
    );
}

/// Words 0 to 2 in a row and, with nothing to them, 3; then a field of house lines.
fn four_words(house_lines: &[u8]) -> Vec<u8> {
    let head = [1, 0, 1, 4, 2, 0, 4, 0, 1, 1, 2, 3, 0];
    [&head[..], &[house_lines.len() as u8], house_lines].concat()
}

#[test]
fn house_lines_of_some_words_come_first() {
    let chart = chart(&four_words(&[1, 3, 1, 1])).expect("a chart");
    let place = |word: &Word| (word.line, word.position);
    let places: Vec<_> = chart.words.iter().map(place).collect();
    assert_eq!(chart.counts.lines, 3);
    assert_eq!(places, [(2, 0), (1, 0), (2, 1), (0, 0)]);
}

#[test]
fn an_empty_field_of_house_lines_counts_as_none() {
    let empty = four_words(&[]);
    let without = &empty[..empty.len() - 3];
    assert_eq!(chart(&empty), chart(without));
    assert!(chart(without).is_ok());
}

/// A record with a field of floors behind it.
fn with_floors(record: &[u8], floors: &[u8]) -> Vec<u8> {
    [record, &[4, 0, floors.len() as u8], floors].concat()
}

#[test]
fn words_stand_at_their_floors_or_above() {
    for record in [P5.to_vec(), four_words(&[1, 3])] {
        let lifted = chart(&with_floors(&record, &[0, 5, 0, 9])).expect("a chart");
        let heights: Vec<_> = lifted.words.iter().map(|w| (w.row, w.floor)).collect();
        assert_eq!(heights, [(0, 0), (5, 5), (6, 0), (9, 9)]);
        assert_eq!(lifted.counts.rows, 10);
        assert_eq!(chart(&with_floors(&record, &[0; 4])), chart(&record));
    }
}

#[test]
fn the_tallest_chart_has_all_rows_of_the_page() {
    let last = MOST_WORDS as u8 - 1;
    let arrows: Vec<u8> = (0..last).flat_map(|word| [word, word + 1]).collect();
    let head = [1, 0, 1, last + 1, 2, 0, arrows.len() as u8];
    let mut floors = vec![0; MOST_WORDS];
    floors[0] = MOST_FLOOR;
    let tallest = with_floors(&[&head[..], &arrows].concat(), &floors);
    let chart = chart(&tallest).expect("a chart");
    assert_eq!(chart.counts.rows, MOST_ROWS);
    let ends = [chart.words[0], chart.words[MOST_WORDS - 1]];
    assert_eq!(ends.map(|word| word.row), [127, 254]);
    let places = ends.map(|word| Place {
        column: word.column.into(),
        row: word.row.into(),
    });
    assert!(stroke_straight(places).is_ok());
}

#[test]
fn wrong_floors_are_refused_before_what_the_arrows_say() {
    for floors in [&[][..], &[0; 3], &[0; 5], &[0, 0, MOST_FLOOR + 1, 0]] {
        let record = with_floors(P5, floors);
        assert_eq!(chart(&record), Err(Refusal::Floor), "{floors:?}");
        assert_eq!(leads(&record, 0, 1), Err(Refusal::Floor));
        // An arrow to a word that isn't there.
        let stranger = with_floors(&[1, 0, 1, 4, 2, 0, 2, 0, 9], floors);
        assert_eq!(chart(&stranger), Err(Refusal::Floor));
    }
    let size = with_floors(&[1, 0, 1, 0, 2, 0, 0], &[0, 200]);
    assert_eq!(chart(&size), Err(Refusal::Size));
    let early = [P5, &[4, 0, 4, 0, 0, 0, 0, 3, 0, 0]].concat();
    assert_eq!(chart(&early), Err(Refusal::Layout));
    let reason = "there is not one floor for each word, or one is above 127";
    assert_eq!(Refusal::Floor.reason(), reason);
}

#[test]
fn a_word_that_house_lines_repeat_is_refused() {
    for house_lines in [&[1, 3, 1, 3][..], &[2, 3, 3], &[2, 1, 0, 1, 3, 1, 3]] {
        let refused = chart(&four_words(house_lines));
        assert_eq!(refused, Err(Refusal::Cover), "{house_lines:?}");
    }
    assert_eq!(chart(&four_words(&[2, 1, 0])), Err(Refusal::Broken));
    let reason = "a word is in the house lines more than once";
    assert_eq!(Refusal::Cover.reason(), reason);
}

#[test]
fn refusals_have_their_numbers_and_words() {
    let words = [
        "layout", "size", "stranger", "double", "ring", "cover", "broken", "short", "full",
        "off page", "broad", "floor",
    ];
    let all = [
        Refusal::Layout,
        Refusal::Size,
        Refusal::Stranger,
        Refusal::Double,
        Refusal::Ring,
        Refusal::Cover,
        Refusal::Broken,
        Refusal::Short,
        Refusal::Full,
        Refusal::OffPage,
        Refusal::Broad,
        Refusal::Floor,
    ];
    for ((refusal, word), number) in all.into_iter().zip(words).zip(1..) {
        assert_eq!((refusal.number(), refusal.word()), (number, word));
        assert_eq!(refusal.to_string(), format!("{number} {word}"));
    }
}

#[test]
fn refused_records_and_short_lists() {
    assert_eq!(chart(&[]), Err(Refusal::Layout));
    assert_eq!(chart(&[1, 0, 1, 0, 2, 0, 0]), Err(Refusal::Size));
    assert_eq!(
        Lists::new().check(&[1, 0, 1, 1, 2, 0, 2, 0, 0]),
        Err(Refusal::Ring)
    );
    let lists = (
        [7; 4 * WORD_NUMBERS],
        [7; 6 * ARROW_NUMBERS],
        [7; 2 * BUNDLE_NUMBERS],
    );
    let (mut words, mut arrows, mut bundles) = lists;
    for [w, a, b] in [[1, 0, 0], [0, 1, 0], [0, 0, 1]] {
        let (w, a, b) = (words.len() - w, arrows.len() - a, bundles.len() - b);
        let short = chart_into(P5, &mut words[..w], &mut arrows[..a], &mut bundles[..b]);
        assert_eq!(short, Err(Refusal::Short));
        assert_eq!((words, arrows, bundles), lists);
    }
    assert!(chart_into(P5, &mut words, &mut arrows, &mut bundles).is_ok());
}

/// So many words and no arrows.
fn apart(words: usize) -> [u8; 7] {
    [1, 0, 1, words as u8, 2, 0, 0]
}

#[test]
fn a_chart_of_more_lines_than_the_most_is_broad() {
    let most = chart(&apart(MOST_LINES)).expect("a chart");
    assert_eq!(most.counts.lines, MOST_LINES);
    let broad = apart(MOST_LINES + 1);
    assert_eq!(chart(&broad), Err(Refusal::Broad));
    assert_eq!(Refusal::Broad.reason(), "the chart has more than 31 lines");
    let (mut words, mut arrows, mut bundles) = ([7; 200], [7; 1], [7; 1]);
    for length in [0, words.len()] {
        let refused = chart_into(&broad, &mut words[..length], &mut arrows, &mut bundles);
        assert_eq!(refused, Err(Refusal::Broad));
    }
    assert_eq!((words, arrows, bundles), ([7; 200], [7; 1], [7; 1]));
    assert_eq!(leads(&broad, 0, MOST_LINES), Ok(Leads::NotAtAll));
}

#[test]
fn sessions_grow_and_refuse() {
    assert_eq!(Session::start(0), Err(Refusal::Size));
    assert_eq!(Session::start(129), Err(Refusal::Size));
    let mut session = Session::start(3).expect("a session");
    assert_eq!(session.add(0, 1), Ok(()));
    assert_eq!(session.add(1, 2), Ok(()));
    assert_eq!(session.add(0, 3), Err(Refusal::Stranger));
    assert_eq!(session.add(0, 1), Err(Refusal::Double));
    assert_eq!(session.add(2, 0), Err(Refusal::Ring));
    assert_eq!(session.leads(2, 0), Ok(Leads::NotAtAll));
    assert_eq!(session.leads(0, 1), Ok(Leads::Arrow));
    assert_eq!(session.leads(0, 2), Ok(Leads::Longer));
    assert_eq!(session.leads(usize::MAX, 0), Err(Refusal::Stranger));
    assert_eq!((session.words(), session.arrows()), (3, 2));
    assert_eq!(session.add(0, 2), Ok(()));
    assert_eq!(session.leads(0, 2), Ok(Leads::Both));
    assert_eq!(session.leads(0, 0), Ok(Leads::NotAtAll));
}

/// Neighbours of a line are led to, and an arrow is implied where its ends answer both.
#[test]
fn lines_and_marks_go_by_the_answers() {
    let chart = chart(P6).expect("a chart");
    for (from, word) in chart.words.iter().enumerate() {
        let next = (word.line, word.position + 1);
        let mut words = chart.words.iter();
        if let Some(to) = words.position(|word| (word.line, word.position) == next) {
            assert!(leads(P6, from, to).is_ok_and(Leads::at_all));
        }
    }
    let chart = ceviloneth::chart(P5).expect("a chart");
    for (arrow, ends) in chart.arrows.iter().zip(P5[7..].chunks(2)) {
        let answer = leads(P5, ends[0].into(), ends[1].into());
        assert_eq!(answer == Ok(Leads::Both), arrow.implied);
    }
}

#[test]
fn questions_and_strokes() {
    let both_ways = (leads(P5, 0, 3), leads(P5, 3, 0));
    assert_eq!(both_ways, (Ok(Leads::Both), Ok(Leads::NotAtAll)));
    assert_eq!(leads(P5, 0, 1), Ok(Leads::Arrow));
    assert_eq!(leads(P6, 3, 5), Ok(Leads::Longer));
    assert_eq!(leads(P5, 0, 4), Err(Refusal::Stranger));
    assert_eq!(leads(&[], 0, 0), Err(Refusal::Layout));
    let at = |column, row| Place { column, row };
    let point = |across, up| Point { across, up };
    let straight = stroke_straight([at(0, 0), at(3, 3)]);
    assert_eq!(straight, Ok([point(0.0, 0.0), point(31.5, 84.75)]));
    assert_eq!(
        stroke_bent([at(0, 0), at(640, 0), at(0, 0)]),
        Err(Refusal::OffPage)
    );
    let side = stroke_side([at(2, 0), at(1, 0), at(1, 254), at(639, 254)]);
    assert_eq!(side.map(|points| points[3]), Ok(point(6709.5, 7175.5)));
    let beyond = stroke_side([at(2, 0), at(1, 0), at(1, 255), at(639, 254)]);
    assert_eq!(beyond, Err(Refusal::OffPage));
}
