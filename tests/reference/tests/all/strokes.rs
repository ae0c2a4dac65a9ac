//! Page strokes: exact quarters, and the edge of the page.

use crate::support::{draw, layered, tallest, with_channels};
use reference::geometry::Place;
use reference::refusal::Refusal;
use reference::strokes::{Point, Polyline, PAGE_COLUMNS, PAGE_ROWS};

fn point(column: usize, row: usize) -> Result<Point, Refusal> {
    Point::at(Place::new(column, row))
}

#[test]
fn column_3_is_31_and_a_half_and_row_3_is_84_and_three_quarters() {
    let point = point(3, 3).expect("on the page");
    assert_eq!((point.across(), point.up()), (31.5, 84.75));
    assert_eq!((point.quarters_across, point.quarters_up), (126, 339));
}

#[test]
fn the_first_place_is_the_corner() {
    let point = point(0, 0).expect("on the page");
    assert_eq!((point.across(), point.up()), (0.0, 0.0));
}

#[test]
fn every_place_of_the_page_is_exact() {
    for column in 0..PAGE_COLUMNS {
        for row in 0..PAGE_ROWS {
            let point = point(column, row).expect("on the page");
            assert_eq!(f64::from(point.across()) * 4.0, column as f64 * 42.0);
            assert_eq!(f64::from(point.up()) * 4.0, row as f64 * 113.0);
        }
    }
}

#[test]
fn the_page_ends_before_column_640_and_row_255() {
    assert!(point(639, 254).is_ok());
    for (column, row) in [
        (640, 0),
        (0, 255),
        (640, 255),
        (usize::MAX, 0),
        (0, usize::MAX),
    ] {
        assert_eq!(point(column, row), Err(Refusal::OffPage));
    }
}

#[test]
fn each_place_of_a_stroke_is_checked() {
    let on = Place::new(1, 1);
    for off in [Place::new(640, 0), Place::new(0, 255)] {
        for length in 2..=4 {
            for wrong in 0..length {
                let mut places = vec![on; length];
                assert!(matches!(Polyline::through(&places), Some(Ok(_))));
                places[wrong] = off;
                assert_eq!(Polyline::through(&places), Some(Err(Refusal::OffPage)));
            }
        }
    }
}

#[test]
fn a_stroke_has_two_three_or_four_places() {
    let places: Vec<Place> = (0..6)
        .map(|number| Place::new(number, 2 * number))
        .collect();
    for length in 0..=6 {
        let stroke = Polyline::through(&places[..length]).map(|stroke| stroke.expect("on page"));
        let right = match length {
            2 => matches!(stroke, Some(Polyline::Straight(_))),
            3 => matches!(stroke, Some(Polyline::Bent(_))),
            4 => matches!(stroke, Some(Polyline::PathTransitive(_))),
            _ => stroke.is_none(),
        };
        assert!(right, "{length}");
        if let Some(stroke) = stroke {
            let expected = places[..length].iter().map(|&place| Point::at(place));
            assert!(expected.eq(stroke.points().iter().map(|&point| Ok(point))));
        }
    }
}

#[test]
fn arrows_become_strokes_of_their_kind() {
    let lines: [&[usize]; 3] = [&[0], &[1, 2], &[3, 4, 5]];
    let edges = [(1, 2), (3, 4), (4, 5), (3, 5), (0, 5), (0, 4)];
    let record = with_channels(6, &edges, &lines);
    let chart = draw(&record);
    let lengths: Vec<usize> = (0..edges.len())
        .map(|number| chart.route(number, record.edges[number]).len())
        .collect();
    // The third line has a side column, so word 2 is no longer midway.
    assert_eq!(lengths, [2, 2, 2, 4, 2, 2]);
    let bent = with_channels(6, &[(1, 2), (3, 4), (4, 5), (0, 5)], &lines);
    let route = draw(&bent).route(3, bent.edges[3]);
    assert_eq!(
        route,
        [Place::new(1, 0), Place::new(2, 1), Place::new(7, 2)]
    );
    assert!(matches!(
        Polyline::through(&route),
        Some(Ok(Polyline::Bent(_)))
    ));
}

#[test]
fn the_largest_and_the_tallest_chart_fit_the_page() {
    for record in [layered(31), tallest()] {
        let chart = draw(&record);
        for (number, &edge) in record.edges.iter().enumerate() {
            let stroke = Polyline::through(&chart.route(number, edge));
            assert!(matches!(stroke, Some(Ok(_))), "{number}");
        }
    }
    assert_eq!(draw(&tallest()).counts.rows, PAGE_ROWS);
}
