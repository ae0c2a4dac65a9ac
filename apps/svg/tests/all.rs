//! Pictures of listings.

use reference::listing::listing;
use reference::vectors::{parse, Vector};
use std::io::Write;
use std::process::{Command, Output, Stdio};

/// Samples that have a page.
const SAMPLES: [&str; 8] = [
    "p1",
    "p5",
    "p6",
    "editor",
    "house",
    "centuries",
    "tall",
    "large",
];

fn vector(name: &str) -> Vector {
    let text = include_str!("../../../tests/reference/vectors/base.txt");
    let vectors = parse(text).expect("vectors");
    let found = vectors.into_iter().find(|vector| vector.name == name);
    found.expect("the vector")
}

fn draw(listing: &str) -> Output {
    run(&[], listing)
}

fn run(arguments: &[&str], listing: &str) -> Output {
    let mut child = Command::new(env!("CARGO_BIN_EXE_svg"))
        .args(arguments)
        .stdin(Stdio::piped())
        .stdout(Stdio::piped())
        .stderr(Stdio::piped())
        .spawn()
        .expect("the program runs");
    let mut input = child.stdin.take().expect("its input");
    // Called in a wrong way it ends without reading.
    let _ = input.write_all(listing.as_bytes());
    drop(input);
    child.wait_with_output().expect("it ends")
}

fn picture(listing: &str) -> String {
    text(draw(listing))
}

fn page(listing: &str) -> String {
    text(run(&["--html"], listing))
}

fn text(output: Output) -> String {
    assert!(output.status.success(), "{output:?}");
    String::from_utf8(output.stdout).expect("text")
}

/// A file of the repository.
fn kept(path: &str) -> String {
    let root = concat!(env!("CARGO_MANIFEST_DIR"), "/../..");
    std::fs::read_to_string(format!("{root}/{path}")).expect(path)
}

fn sample_listing(name: &str) -> String {
    kept(&format!("samples/{name}.listing"))
}

/// The text before the first place of another.
fn before<'a>(text: &'a str, end: &str) -> &'a str {
    text.split(end).next().expect("a part")
}

/// The texts that begin after one text and end before another, in their order.
fn between<'a>(text: &'a str, begin: &str, end: &str) -> Vec<&'a str> {
    let parts = text.split(begin).skip(1);
    parts.map(|part| before(part, end)).collect()
}

/// The lines of a listing that begin with a letter, as their parts.
fn entries<'a>(listing: &'a str, letter: &str) -> Vec<Vec<&'a str>> {
    let lines = listing.lines().map(|line| line.split(' ').collect());
    lines
        .filter(|parts: &Vec<&str>| parts[0] == letter)
        .collect()
}

#[test]
fn every_word_and_arrow_is_drawn() {
    let picture = picture(&vector("P1").listing);
    assert_eq!(picture.matches("<circle").count(), 5);
    assert_eq!(picture.matches("<path class=\"arrow").count(), 6);
    assert_eq!(picture.matches("straight implied\"").count(), 1);
    assert_eq!(picture.matches("spine\"").count(), 2);
}

#[test]
fn side_arrows_run_in_their_columns() {
    let picture = picture(&vector("P5").listing);
    // Column 1 and 0 of 10.5 points each, after a margin of 16.
    assert!(picture.contains("L26.50 100.75 L26.50 16.00"), "{picture}");
    assert!(picture.contains("L16.00 100.75 L16.00 44.25"), "{picture}");
}

#[test]
fn bends_stand_where_the_listing_says() {
    // Column 2 is 21 points across, row 1 is 28.25 up.
    let picture = picture(&vector("P6").listing);
    assert!(
        picture.contains("bent\" d=\"M26.50 72.50 L37.00 44.25 L"),
        "{picture}"
    );
}

/// The listing with these floors instead of its own; with none, as of a record without the field.
fn with_floors(listing: &str, floors: Option<&[usize]>) -> String {
    let mut number = 0;
    let lines = listing.lines().map(|line| {
        let parts: Vec<&str> = line.split(' ').collect();
        if parts[0] != "w" {
            return format!("{line}\n");
        }
        number += 1;
        let floor = floors.map_or(String::new(), |floors| format!(" {}", floors[number - 1]));
        format!("{}{floor}\n", parts[..6].join(" "))
    });
    lines.collect()
}

/// The numbers that stand between two texts.
fn measures(text: &str, begin: &str, end: &str) -> Vec<f32> {
    let numbers = between(text, begin, end).into_iter();
    numbers
        .map(|number| number.parse().expect("a number"))
        .collect()
}

#[test]
fn a_line_runs_below_the_rows_of_each_floor() {
    let listing = sample_listing("centuries");
    let picture = picture(&listing);
    let floors = between(&picture, "<g class=\"floor\">", "</g>");
    assert_eq!(floors.len(), 2);
    let words = measures(&picture, " cy=\"", "\"");
    let rows = entries(&listing, "w");
    assert_eq!(words.len(), rows.len());
    for (floor, drawn) in [3, 6].into_iter().zip(floors) {
        assert!(drawn.ends_with(&format!(">{floor}</text>")), "{drawn}");
        let [line] = measures(drawn, " y1=\"", "\"")[..] else {
            panic!("one line: {drawn}")
        };
        for (row, word) in rows.iter().zip(&words) {
            let row: usize = row[5].parse().expect("a row");
            // Rows go up on the page and down in the picture; no line meets a word's point.
            assert_eq!(row >= floor, *word + 4.6 < line, "{floor}: {row}");
            assert_eq!(row < floor, line < *word - 4.6, "{floor}: {row}");
        }
    }
}

#[test]
fn only_floors_above_row_0_are_drawn() {
    let listing = sample_listing("centuries");
    let without = picture(&with_floors(&listing, None));
    assert!(!without.contains("floor"));
    assert_eq!(picture(&with_floors(&listing, Some(&[0; 11]))), without);
    let first = picture(&with_floors(
        &listing,
        Some(&[0, 1, 0, 0, 0, 0, 0, 0, 0, 0, 0]),
    ));
    assert_eq!(between(&first, "<title>floor ", "<"), ["1"]);
    // Beneath all else, and nothing else differs.
    let lines = first.lines().filter(|line| !line.contains("floor"));
    assert_eq!(
        lines.collect::<Vec<_>>(),
        without.lines().collect::<Vec<_>>()
    );
    assert!(first.find("<g class=\"floor\"") < first.find("<path class=\"arrow"));
}

#[test]
fn every_word_has_a_floor_or_none_has_and_none_is_below_its_own() {
    let listing = |floors: [&str; 3]| {
        let [first, second, third] = floors;
        format!(
            "chart 3 0 rows 6 lines 3 firm 0 bundles 0 width 9\n\
             w 0 0 0 1 0{first}\nw 1 1 0 4 0{second}\nw 2 2 0 7 5{third}\n"
        )
    };
    let all_or_none = "unlike word 0: every w line ends with a floor, or none does";
    let no_line = "line 3 is no line of a listing: w 1 1 0 4 0";
    for (floors, error) in [
        (
            [" 0", " 0", ""],
            format!("word 2 has no floor, {all_or_none}"),
        ),
        (["", " 0", ""], format!("word 1 has a floor, {all_or_none}")),
        ([" 0", " 0", " 6"], "word 2 stands below its floor".into()),
        ([" 0", " x", " 5"], format!("{no_line} x")),
        ([" 0", " 0 0", " 5"], format!("{no_line} 0 0")),
    ] {
        let output = draw(&listing(floors));
        assert_eq!(output.status.code(), Some(1), "{floors:?}");
        let said = String::from_utf8_lossy(&output.stderr);
        assert_eq!(said, format!("svg: {error}\n"));
    }
    assert!(draw(&listing([" 0", " 0", " 5"])).status.success());
}

#[test]
fn rows_reach_254() {
    let listing = sample_listing("tall");
    let tall = picture(&listing);
    // 254 rows of 28.25 points each lie between the margins of 16, and the last word is at the top.
    assert!(tall.contains(" height=\"7207.5pt\""));
    assert!(tall.ends_with("cy=\"16\" r=\"4.6\"/><text x=\"26.5\" y=\"17.8\">127</text>\n</svg>\n"));
    let output = draw(&listing.replace("rows 255", "rows 256"));
    assert_eq!(output.status.code(), Some(1));
    assert_eq!(output.stderr, b"svg: column 2, row 255 is off the page\n");
}

#[test]
fn the_pictures_in_docs_are_what_it_draws() {
    for name in ["P1", "P5", "P6", "editor", "centuries", "large"] {
        let root = concat!(env!("CARGO_MANIFEST_DIR"), "/../..");
        let sample = name.to_lowercase();
        let record = std::fs::read(format!("{root}/samples/{sample}.record"));
        let drawn = picture(&listing(&record.expect("the record")));
        assert_eq!(drawn, kept(&format!("docs/pictures/{name}.svg")), "{name}");
    }
}

#[test]
fn what_is_no_chart_is_refused() {
    let header = "chart 1 0 rows 1 lines 1 firm 0 bundles 0 width 3\n";
    for rest in [
        "w 1 0 0 1 0\n",
        "x\n",
        "a 0 0 1 S f\n",
        "w 0 0 0 1\n",
        "a 0\n",
        "w 0 0 0 900 0\n",
    ] {
        assert_eq!(
            draw(&format!("{header}{rest}")).status.code(),
            Some(1),
            "{rest}"
        );
    }
    for listing in ["", "refused 5\n", "chart\n"] {
        let output = draw(listing);
        assert_eq!(output.status.code(), Some(1), "{listing}");
        assert!(output.stderr.starts_with(b"svg: "));
    }
}

#[test]
fn every_word_is_on_the_page() {
    for sample in SAMPLES {
        let listing = sample_listing(sample);
        let page = page(&listing);
        let expected = entries(&listing, "w")
            .iter()
            .map(|word| {
                let floor = word.get(6).map(|floor| format!(", floor {floor}"));
                let floor = floor.unwrap_or_default();
                format!("word {}, line {}{floor}", word[1], word[2])
            })
            .collect::<Vec<_>>();
        let words = between(&page, "<g class=\"word\"", "</g>");
        let labels = words
            .iter()
            .flat_map(|word| between(word, "aria-label=\"", "\""));
        assert_eq!(labels.collect::<Vec<_>>(), expected, "{sample}");
        assert!(words.iter().all(|word| word.contains(" tabindex=\"0\"")));
    }
}

#[test]
fn the_page_tells_floors_where_words_have_them() {
    let listing = sample_listing("centuries");
    let page_with = |floors| page(&with_floors(&listing, floors));
    let words = entries(&listing, "w");
    let floors: Vec<&str> = words.iter().map(|word| word[6]).collect();
    let with = page(&listing);
    assert_eq!(between(&with, " data-floor=\"", "\""), floors);
    assert_eq!(between(&with, "aria-label=\"floor ", "\""), ["3", "6"]);
    // A field of zeros is told too, without lines; without the field only the script knows of floors.
    let zeros = page_with(Some(&[0; 11]));
    assert_eq!(between(&zeros, " data-floor=\"", "\""), ["0"; 11]);
    assert!(!zeros.contains("class=\"floor\""));
    assert!(!before(&page_with(None), "<script").contains("floor"));
}

#[test]
fn every_arrow_is_on_the_page_as_data_and_as_a_stroke() {
    for sample in SAMPLES {
        let listing = sample_listing(sample);
        let page = page(&listing);
        let arrows = entries(&listing, "a");
        let pairs = arrows
            .iter()
            .map(|arrow| format!("[{},{}]", arrow[2], arrow[3]));
        let data = format!("[{}]", pairs.collect::<Vec<_>>().join(","));
        assert_eq!(
            between(&page, "\"application/json\">", "<"),
            [data],
            "{sample}"
        );
        let mut strokes = between(&page, " data-arrow=\"", " d=");
        strokes.sort_by_key(|stroke| before(stroke, "\"").parse::<usize>().expect("a number"));
        let expected = arrows.iter().map(|arrow| {
            let [_, number, from, to, ..] = arrow[..] else {
                panic!("an arrow")
            };
            format!("{number}\" role=\"img\" aria-label=\"arrow from word {from} to word {to}\"")
        });
        assert_eq!(strokes, expected.collect::<Vec<_>>(), "{sample}");
    }
}

#[test]
fn the_page_has_the_strokes_and_points_of_the_picture() {
    for sample in SAMPLES {
        let listing = sample_listing(sample);
        let (picture, page) = (picture(&listing), page(&listing));
        // After the head of the arrows; the page has one more head, after the picture.
        let strokes = |text| between(text, " d=\"", "</title>").split_off(1);
        let page_strokes = strokes(before(&page, "class=\"heads\""));
        assert_eq!(page_strokes, strokes(&picture), "{sample}");
        for point in between(&picture, "\n<circle", "\n") {
            assert!(page.contains(&format!("<circle{point}</g>")), "{point}");
        }
    }
}

#[test]
fn the_page_needs_nothing_from_elsewhere() {
    for sample in SAMPLES {
        let page = page(&sample_listing(sample));
        let page = page.replace("http://www.w3.org/2000/svg", "");
        for other in [
            "http:", "https:", "file:", "\"//", "src=", "@import", "import(", "fetch(",
        ] {
            assert!(!page.contains(other), "{sample}: {other}");
        }
        assert_eq!(between(&page, "href=\"", "\""), ["data:,"]);
        let links = between(&page, "url(", ")");
        assert!(links.iter().all(|link| link.starts_with('#')), "{links:?}");
        assert!(page.contains("content=\"default-src 'none'; "));
    }
}

#[test]
fn every_name_is_on_the_page_once_and_every_element_is_closed() {
    let page = page(&sample_listing("editor"));
    let mut names = between(&page, " id=\"", "\"");
    names.sort();
    assert_eq!(
        names,
        ["answer", "arrows", "chart", "clear", "head", "keys", "lit-head"]
    );
    for element in [
        "html", "head", "body", "style", "script", "svg", "g", "marker",
    ] {
        let opened = [' ', '>'].map(|end| page.matches(&format!("<{element}{end}")).count());
        let closed = page.matches(&format!("</{element}>")).count();
        assert_eq!(opened[0] + opened[1], closed, "{element}");
    }
}

#[test]
fn of_the_listing_only_numbers_get_into_the_page() {
    let page_with = |count: &str, number: &str| {
        page(&format!(
            "chart {count} 1 rows 2 lines {count} firm 1 bundles 0 width 3\n\
             w {number} 0 {number} 1 0\nw 1 0 1 1 1\na 0 {number} 1 S f\n"
        ))
    };
    // The counts of the first line are not read, and numbers are written anew.
    assert_eq!(page_with("</script><b>&\"'", "+0"), page_with("2", "0"));
    for line in [
        "w <b> 0 0 1 0",
        "w 0 <b> 0 1 0",
        "w 0 0 <b> 1 0",
        "w 0 0 0 1 0 <b>",
        "a 0 0 1 <b> f",
    ] {
        let listing = format!("chart 1 0 rows 1 lines 1 firm 0 bundles 0 width 3\n{line}\n");
        let output = run(&["--html"], &listing);
        assert_eq!(output.status.code(), Some(1), "{line}");
        assert!(output.stdout.is_empty());
    }
}

#[test]
fn the_title_counts_words_and_arrows() {
    let one = "chart 1 0 rows 1 lines 1 firm 0 bundles 0 width 3\nw 0 0 0 1 0\n";
    assert!(page(one).contains("<title>Descent chart: 1 word, 0 arrows</title>"));
    let page = page(&sample_listing("editor"));
    assert!(page.contains("<title>Descent chart: 11 words, 15 arrows</title>"));
}

#[test]
fn the_page_in_docs_is_what_it_draws() {
    let drawn = page(&sample_listing("editor"));
    assert!(
        drawn == kept("docs/pictures/editor.html"),
        "docs/pictures/README.md tells how to draw editor.html again"
    );
}

#[test]
fn wrong_use_is_told() {
    for arguments in [&["--htm"][..], &["--html", "--html"], &["chart"], &[""]] {
        let output = run(arguments, &sample_listing("p1"));
        assert_eq!(output.status.code(), Some(2), "{arguments:?}");
        assert!(output.stderr.starts_with(b"usage: svg "));
        assert!(output.stdout.is_empty());
    }
}
