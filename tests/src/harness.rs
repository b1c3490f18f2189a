//! What is done with the model: run files and texts made at random, the programs `play`, `compose`,
//! `list`, `sums`, `trial` and `find` held against it, sample runs checked, demand 3 watched, trials
//! looked at from outside, states handed in, one transaction and its reply walked through whole, and
//! figures taken.

pub mod answers;
pub mod asking;
pub mod bench;
pub mod bench_find;
pub mod bench_trials;
pub mod cases;
pub mod child;
pub mod compare;
pub mod compare_find;
pub mod compare_probe;
pub mod compare_sums;
pub mod compare_text;
pub mod compare_trials;
pub mod driver;
pub mod equally_short;
pub mod forward;
pub mod fuzz;
pub mod generate;
pub mod hits;
pub mod outside;
pub mod page;
pub mod parts;
pub mod questions;
pub mod random;
pub mod samples;
pub mod seen;
pub mod settings;
pub mod states;
pub mod sum_ways;
pub mod tally;
pub mod texts;
pub mod walk;
pub mod watch;
pub mod ways;
pub mod workers;
