//! The reference: an interpreter of document 01, with the requests of document
//! 02 that have landed (C-13, C-17 and C-20, which change no answer, C-18, C-15, C-14,
//! C-12, C-19, C-16 and C-11), and of their readings (docs/DECISIONS.md). "01" stands for all
//! of that in the programs of this folder. It shares nothing with the port, and with the oracle
//! only the session language. It also claims, from the calls alone, where
//! param.rs does otherwise, and counts what a session costs. It has two renderers, of
//! which `walk` answers `block`, `places` answers `plain`; `card` reads and writes
//! schedule files.

pub mod card;
pub mod claims;
pub mod costs;
pub mod edition;
pub mod near;
pub mod numbers;
pub mod param;
pub mod places;
pub mod queue;
#[path = "../oracle/session.rs"]
pub mod session;
pub mod walk;
