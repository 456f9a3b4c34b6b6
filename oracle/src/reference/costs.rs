//! What a session cost so far (02, C-20). Each number is counted at its own place of
//! the interpreter, none from the others: the sums that C-20 promises are not used here.

use std::fmt;

/// The totals since the parameter was made. "Refused calls count nowhere."
#[derive(Clone, Copy, Debug, Default, PartialEq)]
pub struct Costs {
    /// Heads taken, empty queues found, one-valued blocks.
    pub steps: u64,
    /// Blocks that were answered.
    pub blocks: u64,
    /// Events that the walk consumed.
    pub finished: u64,
    /// Exponentials that the walk turned into steps.
    pub turned: u64,
    /// Events that a call put into the queue.
    pub stored: u64,
    /// Events that went by a cancel or a cancel-and-hold, "counted from the queue before
    /// and after".
    pub cancelled: u64,
    /// The queue's length.
    pub waiting: u64,
}

impl Costs {
    /// What the steps come to at most: "twice the events stored plus the answered blocks".
    pub fn bound(&self) -> u64 {
        2 * self.stored + self.blocks
    }
}

/// As the program `play` answers the word `cost`.
impl fmt::Display for Costs {
    fn fmt(&self, f: &mut fmt::Formatter) -> fmt::Result {
        let Self { steps, blocks, finished, turned, stored, cancelled, waiting } = self;
        write!(f, "cost {steps} steps = {blocks} blocks answered + {finished} events finished")?;
        write!(f, " + {turned} exponentials turned; {stored} events stored = {finished} finished")?;
        write!(f, " + {cancelled} cancelled + {waiting} waiting; at most {} steps", self.bound())
    }
}
