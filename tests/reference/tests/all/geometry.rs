//! Segments between places.

use reference::geometry::{on_segment, strictly_inside, Place};

/// Every place of a small grid on the segment from `a` to `b`.
fn on(a: (usize, usize), b: (usize, usize)) -> Vec<(usize, usize)> {
    let place = |(column, row)| Place::new(column, row);
    let grid = (0..9).flat_map(|column| (0..9).map(move |row| (column, row)));
    grid.filter(|&at| on_segment(place(a), place(b), place(at)))
        .collect()
}

#[test]
fn a_segment_holds_its_ends_and_what_lies_between() {
    assert_eq!(on((1, 0), (7, 4)), [(1, 0), (4, 2), (7, 4)]);
    assert_eq!(on((7, 0), (1, 4)), [(1, 4), (4, 2), (7, 0)]);
    assert_eq!(on((2, 3), (2, 5)), [(2, 3), (2, 4), (2, 5)]);
    assert_eq!(on((2, 3), (4, 3)), [(2, 3), (3, 3), (4, 3)]);
    assert_eq!(on((1, 0), (3, 3)), [(1, 0), (3, 3)]);
    assert_eq!(on((5, 5), (5, 5)), [(5, 5)]);
}

#[test]
fn strictly_inside_leaves_out_the_ends() {
    let (a, b) = (Place::new(1, 0), Place::new(7, 2));
    assert!(strictly_inside(a, b, Place::new(4, 1)));
    assert!(!strictly_inside(a, b, a) && !strictly_inside(a, b, b));
    assert!(!strictly_inside(a, b, Place::new(10, 3)));
    assert!(!strictly_inside(a, b, Place::new(5, 1)));
}
