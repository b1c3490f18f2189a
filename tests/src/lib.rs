//! The model written apart: an independent reference model of the IEEE 1394 rehearsal bench,
//! written from document 01, requests 1 to 11 of document 02 and the readings of them, and from
//! nothing else.
//!
//! The model itself:
//! - [`bus`]: packets, signals, node modes, the reception charts, the twelve actions, refusals 2 to 7,
//!   12, 13 and 15;
//! - [`table`]: the reception charts as one table, printed;
//! - [`counts`]: how many sequences of its classes leave a node in which mode, printed;
//! - [`runfile`]: blocks of 512 bytes, read and written, and their sums;
//! - [`transcript`]: the printed text;
//! - [`player`]: a run file in, the printed text out;
//! - [`unplayed`]: a run file in whose actions are looked at, and not played;
//! - [`sums`]: such a file in, its sums out;
//! - [`plain`]: what texts in plain words have in common;
//! - [`notation`]: runs in plain words, a text to a run file and back;
//! - [`trial`]: load trials, settings to actions and a tally;
//! - [`settings`]: such settings in plain words;
//! - [`routes`]: a state and a question to the first route;
//! - [`questions`]: a run and such a question in plain words;
//! - [`probe`]: a state handed in and such a question as bytes.
//!
//! What is done with it, against the programs `play`, `compose`, `list`, `sums`, `trial` and `find`,
//! stands in [`harness`].
//!
//! All forms of a run meet in [`bus::Record`]: `runfile` turns bytes into records and back, and
//! `notation` lines of text.

#![forbid(unsafe_code)]

pub mod bus;
pub mod counts;
pub mod harness;
pub mod notation;
pub mod plain;
pub mod player;
pub mod probe;
pub mod questions;
pub mod routes;
pub mod runfile;
pub mod settings;
pub mod sums;
pub mod table;
pub mod transcript;
pub mod trial;
pub mod unplayed;
