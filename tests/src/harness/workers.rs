//! Items compared by several workers at once, and what they have hit merged.

use std::ops::Range;
use std::path::{Path, PathBuf};
use std::sync::atomic::{AtomicU64, Ordering};
use std::sync::OnceLock;
use std::thread;

use super::child::Scratch;

const WORKERS: usize = 2;

/// What a worker has hit; empty at first.
pub trait Merge: Default + Send {
    /// Adds what another worker has hit.
    fn merge(&mut self, other: Self);
}

/// The items 0 to `count` − 1, or `only` this one.
pub fn items(count: u64, only: Option<u64>) -> Range<u64> {
    match only {
        Some(index) => index..index + 1,
        None => 0..count,
    }
}

/// Compares each item by `one`, and gives what they all have hit. The first failure is the answer:
/// no item is begun after it. The path given to `one` is for a file of its worker alone.
pub fn each<T: Merge>(
    items: Range<u64>,
    one: impl Fn(u64, &Path, &mut T) -> Result<(), String> + Sync,
) -> Result<T, String> {
    let scratch = Scratch::new().map_err(|error| format!("no scratch directory: {error}"))?;
    let next = AtomicU64::new(items.start);
    let failure = OnceLock::new();
    let work = |path: PathBuf| {
        let mut tally = T::default();
        loop {
            let index = next.fetch_add(1, Ordering::Relaxed);
            if index >= items.end || failure.get().is_some() {
                return tally;
            }
            if let Err(why) = one(index, &path, &mut tally) {
                // Not if another was first.
                let _ = failure.set(why);
            }
        }
    };
    let mut total = T::default();
    thread::scope(|scope| {
        let spawn = |worker| {
            let path = scratch.file(&format!("worker-{worker}"));
            let work = &work;
            scope.spawn(move || work(path))
        };
        let workers: Vec<_> = (0..WORKERS).map(spawn).collect();
        for worker in workers {
            total.merge(worker.join().expect("no worker panics"));
        }
    });
    match failure.into_inner() {
        Some(why) => Err(why),
        None => Ok(total),
    }
}
