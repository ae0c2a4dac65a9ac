//! Wrong readings (SPECIFICATION.md, 16.3), and records that tell them from the right one.

use crate::support::{bundles, channels, draw, graph, rows, transitive, with_channels};
use reference::geometry::Place;
use reference::kinds::Kind;

#[test]
fn followers_are_not_kept_once_taken() {
    let chart = draw(&graph(4, &[(0, 2), (0, 3), (1, 2)]));
    assert_eq!(channels(&chart), [[0, 3], [1, 2]]);
}

#[test]
fn lines_may_leap_over_arrows() {
    let chart = draw(&graph(5, &[(0, 2), (1, 2), (2, 3), (2, 4)]));
    assert_eq!(channels(&chart), [vec![0, 2, 3], vec![1, 4]]);
}

#[test]
fn bundles_that_share_one_row_stand_apart() {
    let chart = draw(&graph(5, &[(0, 1), (1, 2), (2, 3), (3, 4), (0, 2), (2, 4)]));
    assert_eq!(bundles(&chart), [(0, 2, 0), (2, 4, 1)]);
}

#[test]
fn bundles_that_share_no_row_stand_in_one_column() {
    let edges = [(0, 1), (1, 2), (2, 3), (3, 4), (4, 5), (0, 2), (3, 5)];
    assert_eq!(bundles(&draw(&graph(6, &edges))), [(0, 2, 0), (3, 5, 0)]);
}

#[test]
fn longer_routes_imply_too() {
    let chart = draw(&graph(4, &[(0, 1), (1, 2), (2, 3), (0, 3)]));
    assert_eq!(transitive(&chart), [3]);
}

#[test]
fn a_held_word_is_tried_before_a_free_higher_one() {
    // Word 1 takes 3 from word 0, which goes on to 4; taking the free 5 would leave 0 with 3.
    let chart = draw(&graph(6, &[(0, 3), (0, 4), (1, 3), (1, 5), (2, 5)]));
    assert_eq!(channels(&chart), [[0, 4], [1, 3], [2, 5]]);
}

#[test]
fn an_ask_in_vain_moves_no_holder() {
    // Word 2 tries 3 and then, over word 0, also 4, both in vain.
    let edges = [(0, 3), (0, 4), (1, 4), (2, 3), (5, 3), (5, 4), (5, 6)];
    let chart = draw(&graph(7, &edges));
    assert_eq!(
        channels(&chart),
        [vec![0, 3], vec![1, 4], vec![2], vec![5, 6]]
    );
}

#[test]
fn a_holder_is_moved_over_several_others() {
    // Word 3 takes 4 from 0, which takes 5 from 1, which takes 6 from 2, which goes on to 7.
    let edges = [(0, 4), (0, 5), (1, 5), (1, 6), (2, 6), (2, 7), (3, 4)];
    let chart = draw(&graph(8, &edges));
    assert_eq!(channels(&chart), [[0, 5], [1, 6], [2, 7], [3, 4]]);
}

#[test]
fn planned_lines_lead_through_house_lines() {
    let chart = draw(&with_channels(3, &[(0, 1), (1, 2)], &[&[1]]));
    assert_eq!(channels(&chart), [vec![1], vec![0, 2]]);
}

#[test]
fn words_of_house_lines_are_not_taken_and_do_not_ask() {
    // Word 0 would take 1, and 1 would take 2.
    let chart = draw(&with_channels(4, &[(0, 1), (1, 2), (2, 3)], &[&[1], &[2]]));
    assert_eq!(channels(&chart), [vec![1], vec![2], vec![0, 3]]);
}

#[test]
fn house_lines_are_not_drawn_out() {
    // Alone they would be one line; words before, between and after stay out of the house line.
    let path = [(0, 1), (1, 2), (2, 3), (3, 4)];
    let chart = draw(&with_channels(5, &path, &[&[1, 3]]));
    assert_eq!(channels(&chart), [vec![1, 3], vec![0, 2, 4]]);
}

#[test]
fn a_holder_is_moved_beside_house_lines() {
    // Word 0 holds 3 and word 1 asks for it, so 0 goes on to 5, past word 4 of the house line.
    let edges = [(0, 3), (0, 4), (0, 5), (1, 3)];
    let chart = draw(&with_channels(6, &edges, &[&[4]]));
    assert_eq!(channels(&chart), [vec![4], vec![0, 5], vec![1, 3], vec![2]]);
}

#[test]
fn planned_lines_are_numbered_by_first_word_after_all_house_lines() {
    let chart = draw(&with_channels(5, &[(4, 0), (3, 1)], &[&[2]]));
    assert_eq!(channels(&chart), [vec![2], vec![3, 1], vec![4, 0]]);
}

#[test]
fn lines_are_numbered_by_first_word() {
    let chart = draw(&graph(4, &[(3, 0), (2, 1)]));
    assert_eq!(channels(&chart), [[2, 1], [3, 0]]);
}

#[test]
fn rows_are_compacted_and_no_ranks() {
    let chart = draw(&graph(5, &[(0, 1), (2, 3), (3, 4), (1, 4)]));
    assert_eq!(rows(&chart), [0, 1, 0, 1, 2]);
    let longest = draw(&graph(4, &[(0, 3), (0, 1), (1, 2), (2, 3)]));
    assert_eq!(rows(&longest), [0, 1, 2, 3]);
}

const SPINE: [(usize, usize); 4] = [(0, 1), (1, 2), (2, 3), (3, 4)];

#[test]
fn into_goes_before_out_of_even_from_a_higher_position() {
    let sides = [(0, 2), (0, 3), (1, 4), (2, 4)];
    let chart = draw(&graph(5, &[SPINE.as_slice(), &sides].concat()));
    assert_eq!(bundles(&chart), [(1, 4, 1), (0, 3, 0)]);
}

#[test]
fn of_equal_counts_the_lower_position_goes_first() {
    let sides = [(2, 4), (1, 3)];
    let chart = draw(&graph(5, &[SPINE.as_slice(), &sides].concat()));
    assert_eq!(bundles(&chart), [(1, 3, 0), (2, 4, 1)]);
}

#[test]
fn positions_count_and_not_word_numbers() {
    // The chain 4 3 2 1 0: into 1 stands at position 3, into 0 at position 4.
    let edges = [(4, 3), (3, 2), (2, 1), (1, 0), (2, 0), (3, 1)];
    assert_eq!(bundles(&draw(&graph(5, &edges))), [(1, 3, 0), (2, 4, 1)]);
}

#[test]
fn the_largest_count_goes_first() {
    let sides = [(0, 2), (0, 3), (0, 4), (1, 3)];
    let chart = draw(&graph(5, &[SPINE.as_slice(), &sides].concat()));
    assert_eq!(bundles(&chart), [(0, 4, 0), (1, 3, 1)]);
}

#[test]
fn counts_are_of_arrows_not_yet_bundled() {
    // Into 4 has three. Then out of 0 has two left (to 2 and 3), into 3 has two (from 0 and 1).
    let sides = [(0, 4), (1, 4), (2, 4), (0, 2), (0, 3), (1, 3)];
    let chart = draw(&graph(5, &[SPINE.as_slice(), &sides].concat()));
    assert_eq!(bundles(&chart), [(0, 4, 0), (0, 3, 1), (0, 2, 2)]);
}

#[test]
fn bundles_of_the_last_line_stand_on_its_left() {
    let edges = [(0, 1), (1, 2), (0, 2), (3, 4), (4, 5), (3, 5)];
    let chart = draw(&graph(6, &edges));
    assert_eq!((chart.place(0).column, chart.place(3).column), (2, 6));
    assert_eq!(chart.counts.width, 8);
    let side = chart.route(5, graph(6, &edges).edges[5]);
    assert!(side[1].column == 4 && side[2].column == 4);
}

#[test]
fn a_spine_arrow_may_be_implied() {
    let lines: [&[usize]; 2] = [&[0, 2], &[1]];
    let chart = draw(&with_channels(3, &[(0, 1), (1, 2), (0, 2)], &lines));
    assert_eq!(chart.edges[2].kind, Kind::Path);
    assert!(!chart.edges[2].reduced);
}

#[test]
fn bends_turn_to_the_side_of_the_end() {
    let edges = [(1, 2), (3, 4), (4, 5), (0, 5)];
    let right = draw(&with_channels(6, &edges, &[&[0], &[1, 2], &[3, 4, 5]]));
    let left = draw(&with_channels(6, &edges, &[&[3, 4, 5], &[1, 2], &[0]]));
    let bent = |column| Kind::Bent {
        bend: Place::new(column, 1),
    };
    assert_eq!(right.edges[3].kind, bent(2));
    assert_eq!(left.edges[3].kind, bent(6));
}

#[test]
fn a_bend_stands_one_row_below_the_end() {
    // Words 0 (row 0) and 7 (row 4) in the outer lines, word 2 (row 2) midway between them.
    let edges = [(0, 7), (4, 5), (5, 6), (6, 8), (8, 7), (1, 3), (3, 2)];
    let lines: [&[usize]; 3] = [&[0], &[1, 3, 2], &[4, 5, 6, 8, 7]];
    let chart = draw(&with_channels(9, &edges, &lines));
    assert_eq!(rows(&chart)[7], 4);
    let bend = Place::new(chart.place(0).column + 1, 3);
    assert_eq!(chart.edges[0].kind, Kind::Bent { bend });
}

#[test]
fn a_word_at_the_end_or_beyond_bends_nothing() {
    // The segment from 0 to 3 ends before word 5, which lies on its continuation.
    let edges = [(0, 3), (2, 3), (4, 6), (6, 5)];
    let lines: [&[usize]; 4] = [&[0], &[2, 3], &[4, 6, 5], &[1]];
    let chart = draw(&with_channels(7, &edges, &lines));
    assert_eq!(chart.place(5), Place::new(7, 2));
    assert_eq!(chart.edges[0].kind, Kind::Straight);
}
