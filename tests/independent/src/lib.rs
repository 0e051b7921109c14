//! The grid written a second time, from document 01 with the requests of 02 alone, to be compared
//! with the proved program.
//!
//! The machine is `grid` (the memory), `access` and `rules` (what an accepted call does), `calls` (who
//! is refused and why), `schedule` (the file), `listing` (the text) and `lines` (the file as comma
//! lines). `variants` holds wrong grids and wrong conversions. `generate` makes schedules and damaged
//! files from a seed, `call_cases` calls on any memory, `line_cases` texts and files to convert;
//! `comparison` runs a program on them. The rest are the commands.

pub mod access;
pub mod call_cases;
pub mod calls;
pub mod compare;
pub mod comparison;
pub mod cut;
pub mod event_line;
pub mod generate;
pub mod grid;
pub mod history;
pub mod invariants;
pub mod light_load;
pub mod line_cases;
pub mod lines;
pub mod listing;
pub mod options;
pub mod power;
pub mod program;
pub mod random;
pub mod refusal;
pub mod rules;
pub mod schedule;
pub mod trace;
pub mod variants;

pub use grid::Settings;
