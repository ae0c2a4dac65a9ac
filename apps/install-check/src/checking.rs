//! Checks files on every core and hands the verdicts over in the files' order.

use ceviloneth::{Lists, Refusal};
use std::collections::BTreeMap;
use std::fs::File;
use std::io::{self, Read};
use std::path::{Path, PathBuf};
use std::sync::atomic::{AtomicUsize, Ordering::Relaxed};
use std::sync::mpsc::{self, Receiver, Sender};
use std::thread;

/// Whether a file could be read, and whether its record is sound.
pub type Verdict = io::Result<Result<(), Refusal>>;

/// A longer file is refused like one of this length, so no more of it is read.
const LONGEST: u64 = 65_536;

/// How many files a thread takes at once, so that handing verdicts over costs little beside them.
const BATCH: usize = 32;

/// The verdicts of a batch, with the place of its first file.
type Batch = (usize, Vec<Verdict>);

/// Tells of each file by its place, in order and as soon as those before are told; ends at the first
/// error of `tell`.
pub fn check_in_order(
    files: &[PathBuf],
    tell: impl FnMut(usize, Verdict) -> Result<(), String>,
) -> Result<(), String> {
    let next = &AtomicUsize::new(0);
    let (sender, receiver) = mpsc::channel();
    thread::scope(|scope| {
        for number in 0..thread_count(files.len()) {
            let sender = sender.clone();
            let thread = thread::Builder::new();
            let started = thread.spawn_scoped(scope, move || check(files, next, &sender));
            match started {
                Ok(_) => {}
                Err(error) if number == 0 => return Err(format!("no thread starts: {error}")),
                // Those that run do all the work.
                Err(_) => break,
            }
        }
        drop(sender);
        tell_in_order(receiver, tell)
    })
}

/// No more threads than cores or batches.
fn thread_count(files: usize) -> usize {
    let cores = thread::available_parallelism().map_or(1, usize::from);
    files.div_ceil(BATCH).min(cores)
}

/// A thread's work: takes the next batch until none is left, or nobody listens any more.
fn check(files: &[PathBuf], next: &AtomicUsize, verdicts: &Sender<Batch>) {
    let mut lists = Lists::new();
    let mut verdict = |path: &PathBuf| -> Verdict {
        let record = read(path)?;
        Ok(lists.check(&record).map(|_| ()))
    };
    loop {
        let first = next.fetch_add(BATCH, Relaxed);
        let batch = files.iter().skip(first).take(BATCH);
        let batch: Vec<Verdict> = batch.map(&mut verdict).collect();
        if batch.is_empty() || verdicts.send((first, batch)).is_err() {
            return;
        }
    }
}

/// Keeps batches that come early until those before them are told.
fn tell_in_order(
    verdicts: Receiver<Batch>,
    mut tell: impl FnMut(usize, Verdict) -> Result<(), String>,
) -> Result<(), String> {
    let mut early = BTreeMap::new();
    let mut due = 0;
    for (first, batch) in verdicts {
        early.insert(first, batch);
        while let Some(batch) = early.remove(&due) {
            for verdict in batch {
                tell(due, verdict)?;
                due += 1;
            }
        }
    }
    Ok(())
}

/// The bytes of a file, as far as they matter.
fn read(path: &Path) -> io::Result<Vec<u8>> {
    let mut bytes = Vec::new();
    File::open(path)?.take(LONGEST).read_to_end(&mut bytes)?;
    Ok(bytes)
}
