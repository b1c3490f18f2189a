//! What was hit, by name, and how often.

use std::collections::BTreeMap;
use std::path::Path;

use super::workers::{self, Merge};

#[derive(Default)]
pub struct Hits(BTreeMap<String, u64>);

impl Hits {
    /// One more of this name.
    pub fn enter(&mut self, name: impl Into<String>) {
        self.add(name, 1);
    }

    /// So many more of this name.
    pub fn add(&mut self, name: impl Into<String>, count: u64) {
        *self.0.entry(name.into()).or_default() += count;
    }

    fn count(&self, name: &str) -> u64 {
        self.0.get(name).copied().unwrap_or(0)
    }
}

impl Merge for Hits {
    fn merge(&mut self, other: Hits) {
        for (name, count) in other.0 {
            self.add(name, count);
        }
    }
}

/// What was compared, and how often each aim was hit; a failure if one was not.
pub fn account(hits: &Hits, aims: &[String], compared: &str) -> Result<String, String> {
    let line = |name: &String| format!("  {:>7}  {name}\n", hits.count(name));
    let lines: String = aims.iter().map(line).collect();
    let text = format!("{compared}; hit:\n{lines}");
    let missing: Vec<_> = aims.iter().filter(|name| hits.count(name) == 0).cloned().collect();
    match missing.is_empty() {
        true => Ok(text + "equal throughout; all of these were hit\n"),
        false => Err(format!("{text}not hit: {}: more files?", missing.join("; "))),
    }
}

/// Compares so many items, or `only` this one, as [`workers::each`] does; says how often they hit each
/// aim.
pub fn compare(
    count: u64,
    only: Option<u64>,
    items: &str,
    aims: &[String],
    one: impl Fn(u64, &Path, &mut Hits) -> Result<(), String> + Sync,
) -> Result<String, String> {
    let total = workers::each(workers::items(count, only), one)?;
    match only {
        Some(_) => Ok("equal\n".into()),
        None => account(&total, aims, &format!("{count} {items}")),
    }
}
