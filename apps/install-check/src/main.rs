//! Checks records whole, arrows included, before a dictionary is installed.

mod checking;
mod files;
mod progress;

use ceviloneth::Refusal;
use checking::check_in_order;
use files::Files;
use progress::Progress;
use std::fs;
use std::io::{self, Write};
use std::path::{Path, PathBuf};
use std::process::ExitCode;

const HELP: &str = "usage: install-check [--list FILE] PATH...

Checks records whole: layout, sizes, floors, arrows, house lines, and that the chart can be shown.
PATH is a record file, or a folder, of which every file is checked, and those of its folders too.
--list FILE names a text file with one PATH a line. Many files are checked on every core.

For each refused record it prints its name, the number and the word of the refusal, then a summary:
  1 layout, 2 size, 3 stranger, 4 double, 5 ring, 6 cover, 7 broken, 11 broad, 12 floor

Exit status: 0 all are sound; 1 some were refused; 2 a file can't be read, or wrong use.
";

fn main() -> ExitCode {
    let arguments: Vec<_> = std::env::args_os().skip(1).collect();
    if arguments
        .iter()
        .any(|word| word == "--help" || word == "-h")
    {
        print!("{HELP}");
        return ExitCode::SUCCESS;
    }
    match named(arguments).and_then(|paths| check_all(&paths)) {
        Ok(status) => ExitCode::from(status),
        Err(error) => {
            eprintln!("install-check: {error}");
            ExitCode::from(2)
        }
    }
}

/// The paths named by the arguments, those of lists too.
fn named(arguments: Vec<std::ffi::OsString>) -> Result<Vec<PathBuf>, String> {
    let mut paths = Vec::new();
    let mut words = arguments.into_iter();
    while let Some(word) = words.next() {
        if word == "--list" {
            let list = words.next().ok_or("--list needs the name of a file")?;
            let text = fs::read_to_string(&list);
            let text = text.map_err(|error| format!("{}: {error}", shown(Path::new(&list))))?;
            let lines = text.lines().filter(|line| !line.is_empty());
            paths.extend(lines.map(PathBuf::from));
        } else if word.to_string_lossy().starts_with("--") {
            return Err(format!(
                "unknown option {}; see --help",
                word.to_string_lossy()
            ));
        } else {
            paths.push(PathBuf::from(word));
        }
    }
    if paths.is_empty() {
        return Err("no file or folder is named; see --help".to_string());
    }
    Ok(paths)
}

/// Checks all files and prints what is refused; gives the exit status.
fn check_all(paths: &[PathBuf]) -> Result<u8, String> {
    let mut files = Files::default();
    for path in paths {
        files.add(path);
    }
    let mut tally = Tally::default();
    for (path, error) in &files.unread {
        tally.unread(path, error);
    }
    let mut progress = Progress::new(files.found.len());
    check_in_order(&files.found, |place, verdict| {
        progress.at(place);
        if !matches!(verdict, Ok(Ok(()))) {
            progress.clear();
        }
        match verdict {
            Ok(Ok(())) => tally.sound += 1,
            Ok(Err(refusal)) => tally.refused(&files.found[place], refusal)?,
            Err(error) => tally.unread(&files.found[place], &error),
        }
        Ok(())
    })?;
    progress.clear();
    tally.summary()
}

/// What was found so far.
#[derive(Default)]
struct Tally {
    sound: usize,
    refused: usize,
    unread: usize,
}

impl Tally {
    fn refused(&mut self, path: &Path, refusal: Refusal) -> Result<(), String> {
        self.refused += 1;
        say(&format!(
            "{}: refused {refusal} ({})",
            shown(path),
            refusal.reason()
        ))
    }

    fn unread(&mut self, path: &Path, error: &io::Error) {
        self.unread += 1;
        eprintln!("{}: can't be read: {error}", shown(path));
    }

    fn summary(&self) -> Result<u8, String> {
        let checked = self.sound + self.refused;
        if checked + self.unread == 0 {
            return Err("the folders have no files: nothing was checked".to_string());
        }
        let Tally {
            sound,
            refused,
            unread,
        } = self;
        say(&format!(
            "{checked} checked: {sound} sound, {refused} refused; {unread} can't be read"
        ))?;
        Ok(match (unread, refused) {
            (0, 0) => 0,
            (0, _) => 1,
            _ => 2,
        })
    }
}

fn say(line: &str) -> Result<(), String> {
    let written = writeln!(io::stdout(), "{line}");
    written.map_err(|error| format!("standard output: {error}"))
}

/// A path for a person: control characters, which could change the terminal, as question marks.
fn shown(path: &Path) -> String {
    let plain = |letter: char| if letter.is_control() { '?' } else { letter };
    path.display().to_string().chars().map(plain).collect()
}
