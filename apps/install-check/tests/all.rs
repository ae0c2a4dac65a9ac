//! What install-check prints and answers, tried as a person would.

use std::fs;
use std::path::{Path, PathBuf};
use std::process::{Command, Output, Stdio};

const SOUND: &[u8] = &[1, 0, 1, 2, 2, 0, 2, 0, 1];
const RING: &[u8] = &[1, 0, 1, 1, 2, 0, 2, 0, 0];
/// Two words; house lines of one of them, of none, and of one word twice.
const SOME: &[u8] = &[1, 0, 1, 2, 2, 0, 2, 0, 1, 3, 0, 2, 1, 1];
const NONE: &[u8] = &[1, 0, 1, 2, 2, 0, 2, 0, 1, 3, 0, 0];
const TWICE: &[u8] = &[1, 0, 1, 2, 2, 0, 2, 0, 1, 3, 0, 4, 1, 1, 1, 1];

/// A folder of its own for each test, empty at first.
fn folder(name: &str) -> PathBuf {
    let folder = Path::new(env!("CARGO_TARGET_TMPDIR")).join(name);
    let _ = fs::remove_dir_all(&folder);
    fs::create_dir_all(&folder).expect("a folder");
    folder
}

fn put(folder: &Path, name: &str, bytes: &[u8]) -> PathBuf {
    let path = folder.join(name);
    fs::write(&path, bytes).expect("a file");
    path
}

fn run(arguments: &[&Path]) -> Output {
    let program = env!("CARGO_BIN_EXE_install-check");
    let output = Command::new(program).args(arguments).output();
    output.expect("the program runs")
}

fn status(output: &Output) -> Option<i32> {
    output.status.code()
}

fn text(bytes: &[u8]) -> String {
    String::from_utf8_lossy(bytes).into_owned()
}

#[test]
fn sound_records_pass() {
    let folder = folder("sound");
    put(&folder, "a", SOUND);
    let output = run(&[&folder]);
    assert_eq!(status(&output), Some(0));
    let summary = "1 checked: 1 sound, 0 refused; 0 can't be read\n";
    assert_eq!(text(&output.stdout), summary);
    assert!(output.stderr.is_empty(), "no progress off a terminal");
}

#[test]
fn refused_records_are_named_with_number_and_word() {
    let folder = folder("refused");
    fs::create_dir(folder.join("inner")).expect("a folder");
    put(&folder, "a", SOUND);
    put(&folder.join("inner"), "ring", RING);
    put(&folder, "torn", &SOUND[..5]);
    put(&folder, "long", &vec![1; 70_000]);
    let output = run(&[&folder]);
    assert_eq!(status(&output), Some(1));
    let said = text(&output.stdout);
    assert!(said.contains("inner/ring: refused 5 ring"), "{said}");
    assert!(said.contains("torn: refused 1 layout"), "{said}");
    assert!(said.contains("long: refused 1 layout"), "{said}");
    assert!(said.ends_with("4 checked: 1 sound, 3 refused; 0 can't be read\n"));
}

#[test]
fn house_lines_may_lack_words_and_may_not_repeat_them() {
    let folder = folder("house");
    put(&folder, "none", NONE);
    put(&folder, "some", SOME);
    let twice = put(&folder, "twice", TWICE);
    let output = run(&[&folder]);
    assert_eq!(status(&output), Some(1));
    let expected = format!(
        "{}: refused 6 cover (a word is in the house lines more than once)\n\
         3 checked: 2 sound, 1 refused; 0 can't be read\n",
        twice.display()
    );
    assert_eq!(text(&output.stdout), expected);
}

#[test]
fn floors_are_one_a_word_and_at_most_127() {
    let folder = folder("floors");
    let with =
        |record: &[u8], floors: &[u8]| [record, &[4, 0, floors.len() as u8], floors].concat();
    put(&folder, "after-house-lines", &with(SOME, &[3, 0]));
    put(&folder, "highest", &with(SOUND, &[0, 127]));
    let wrong = [
        put(&folder, "too-few", &with(SOUND, &[0])),
        put(&folder, "too-high", &with(SOUND, &[0, 128])),
        // The field is there and has no floor; that goes before what is wrong with the arrows.
        put(&folder, "without-one", &with(RING, &[])),
    ];
    let output = run(&[&folder]);
    assert_eq!(status(&output), Some(1));
    let reason = "12 floor (there is not one floor for each word, or one is above 127)";
    let lines = wrong.map(|path| format!("{}: refused {reason}\n", path.display()));
    let summary = "5 checked: 2 sound, 3 refused; 0 can't be read\n";
    assert_eq!(text(&output.stdout), lines.concat() + summary);
}

#[test]
fn a_chart_that_cannot_be_shown_is_broad() {
    let folder = folder("broad");
    let apart = |words: u8| [1, 0, 1, words, 2, 0, 0];
    put(&folder, "most", &apart(31));
    let broad = put(&folder, "one-more", &apart(32));
    let output = run(&[&folder]);
    assert_eq!(status(&output), Some(1));
    let expected = format!(
        "{}: refused 11 broad (the chart has more than 31 lines)\n\
         2 checked: 1 sound, 1 refused; 0 can't be read\n",
        broad.display()
    );
    assert_eq!(text(&output.stdout), expected);
}

/// So many that several threads share the work; what is said follows the files' order all the same.
#[test]
fn many_files_are_told_in_order() {
    let folder = folder("many");
    let mut expected = String::new();
    let (mut sound, mut refused) = (0, 0);
    for number in 0..3000 {
        let name = format!("entry-{number:04}");
        let (bytes, reason) = match number % 7 {
            2 => (RING, Some("5 ring")),
            5 => (&SOUND[..number % 9], Some("1 layout")),
            _ => (SOUND, None),
        };
        let path = put(&folder, &name, bytes);
        match reason {
            None => sound += 1,
            Some(reason) => {
                refused += 1;
                expected += &format!("{}: refused {reason}\n", path.display());
            }
        }
    }
    let output = run(&[&folder]);
    assert_eq!(status(&output), Some(1));
    assert!(output.stderr.is_empty());
    let said = text(&output.stdout);
    let (lines, summary) = said.trim_end().rsplit_once('\n').expect("lines");
    let short = |line: &str| line.split(" (").next().unwrap_or_default().to_string() + "\n";
    assert_eq!(lines.lines().map(short).collect::<String>(), expected);
    let counts = format!("3000 checked: {sound} sound, {refused} refused; 0 can't be read");
    assert_eq!(summary, counts);
}

/// A reader that goes away ends the check with a word, whatever the threads still do.
#[test]
fn a_closed_output_ends_the_check() {
    let folder = folder("closed");
    for number in 0..2000 {
        put(&folder, &number.to_string(), RING);
    }
    let mut child = Command::new(env!("CARGO_BIN_EXE_install-check"))
        .arg(&folder)
        .stdout(Stdio::piped())
        .stderr(Stdio::piped())
        .spawn()
        .expect("the program runs");
    drop(child.stdout.take());
    let output = child.wait_with_output().expect("it ends");
    assert_eq!(status(&output), Some(2));
    assert!(text(&output.stderr).starts_with("install-check: standard output: "));
}

#[test]
fn a_file_that_cannot_be_read_gives_2() {
    let folder = folder("unread");
    let ring = put(&folder, "ring", RING);
    let output = run(&[&ring, &folder.join("missing")]);
    assert_eq!(status(&output), Some(2));
    assert!(text(&output.stderr).contains("missing: can't be read"));
    assert!(text(&output.stdout).contains("1 refused; 1 can't be read"));
}

#[test]
fn a_device_is_no_record() {
    let output = run(&[Path::new("/dev/null")]);
    assert_eq!(status(&output), Some(2));
    assert!(text(&output.stderr).contains("neither a file nor a folder"));
}

#[test]
fn lists_name_files() {
    let folder = folder("list");
    let sound = put(&folder, "sound", SOUND);
    let ring = put(&folder, "ring", RING);
    let lines = format!("{}\n\n{}\n", sound.display(), ring.display());
    let list = put(&folder, "list", lines.as_bytes());
    let output = run(&[Path::new("--list"), &list]);
    assert_eq!(status(&output), Some(1));
    assert!(text(&output.stdout).ends_with("2 checked: 1 sound, 1 refused; 0 can't be read\n"));
}

#[test]
fn links_in_a_circle_end() {
    let folder = folder("circle");
    put(&folder, "a", SOUND);
    std::os::unix::fs::symlink(&folder, folder.join("again")).expect("a link");
    let output = run(&[&folder]);
    assert_eq!(status(&output), Some(0));
    assert!(text(&output.stdout).starts_with("1 checked"));
}

#[test]
fn nothing_to_check_is_no_success() {
    let empty = folder("empty");
    for arguments in [vec![], vec![empty.as_path()], vec![Path::new("--what")]] {
        let output = run(&arguments);
        assert_eq!(status(&output), Some(2), "{arguments:?}");
        assert!(text(&output.stderr).starts_with("install-check: "));
    }
}

#[test]
fn help_tells_the_use() {
    let output = run(&[Path::new("--help")]);
    assert_eq!(status(&output), Some(0));
    assert!(text(&output.stdout).starts_with("usage: install-check"));
}
