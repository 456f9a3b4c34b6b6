//! What `generate`, `judge`, `expected`, `compare`, `bursts`, `costs` and `cards` share:
//! sessions and schedule files drawn at random, what is claimed of a session before any
//! answer is seen, the judging of two sides' answers, and smaller sessions.

pub mod again;
pub mod carded;
pub mod cards;
pub mod draw;
pub mod editions;
pub mod fades;
pub mod family;
pub mod files;
pub mod line;
pub mod out;
pub mod plain;
pub mod plan;
pub mod session;
pub mod side;
pub mod smaller;
pub mod summary;
pub mod verdict;
