//! A schedule file for the memory card: written from a parameter, and read in parts.
use crate::raw::{self, CARD_LENGTH, STATE, STORE, WINDOW_LENGTH};
use crate::{answer, AudioParam, AutomationRate, Edition, Error};

/// Why a file, or a schedule that is to be written, is refused, and where.
#[derive(Clone, Copy, Debug, PartialEq, Eq)]
pub struct CardError {
    pub error: Error,
    /// in reading the byte offset of the field; in writing the event's place, or for `NoRoom` how many bytes the file has
    pub at: usize,
}

impl std::fmt::Display for CardError {
    fn fmt(&self, f: &mut std::fmt::Formatter) -> std::fmt::Result {
        write!(f, "{} at {}", self.error, self.at)
    }
}

impl std::error::Error for CardError {}

fn placed(number: u32, at: usize) -> Result<usize, CardError> {
    answer(number).map(|_| at).map_err(|error| CardError { error, at })
}

impl AudioParam {
    /// Writes the schedule, before its first block and with no held event, into `out`: how many bytes the file has.
    pub fn write_card(&self, out: &mut [u8]) -> Result<usize, CardError> {
        let mut at = 0;
        let n = unsafe {
            raw::crackledray_card_write(
                self.state.as_ptr(),
                STATE,
                self.store.as_ptr(),
                self.store.len(),
                out.as_mut_ptr(),
                out.len(),
                &mut at,
            )
        };
        placed(n, at)
    }
}

/// A file that comes in parts.
#[derive(Clone)]
pub struct CardReader {
    card: [u64; CARD_LENGTH],
    window: Box<[u8]>,
    numbers: Box<[f32]>,
}

impl CardReader {
    /// For a parameter of this rate, under this edition.
    pub fn new(rate: AutomationRate, edition: Edition) -> Self {
        let mut r = CardReader {
            card: [0; CARD_LENGTH],
            window: vec![0; WINDOW_LENGTH].into_boxed_slice(),
            numbers: vec![0.0; STORE].into_boxed_slice(),
        };
        // answered, since the lengths are right
        unsafe {
            raw::crackledray_card_open(
                r.card.as_mut_ptr(),
                CARD_LENGTH,
                r.numbers.as_mut_ptr(),
                STORE,
                rate == AutomationRate::K,
                edition.number(),
            )
        };
        r
    }

    /// The next part, of at most 65,536 bytes, cut anywhere. A field that is refused is said at the end.
    pub fn part(&mut self, part: &[u8]) -> Result<(), Error> {
        answer(unsafe {
            raw::crackledray_card_part(
                self.card.as_mut_ptr(),
                CARD_LENGTH,
                self.window.as_mut_ptr(),
                WINDOW_LENGTH,
                self.numbers.as_mut_ptr(),
                STORE,
                part.as_ptr(),
                part.len(),
            )
        })
    }

    /// The end of the file: its parameter.
    pub fn end(mut self) -> Result<AudioParam, CardError> {
        let mut p = AudioParam::unmade();
        let mut at = 0;
        let n = unsafe {
            raw::crackledray_card_end(
                self.card.as_ptr(),
                CARD_LENGTH,
                self.window.as_ptr(),
                WINDOW_LENGTH,
                self.numbers.as_mut_ptr(),
                STORE,
                p.state.as_mut_ptr(),
                STATE,
                p.store.as_mut_ptr(),
                STORE,
                &mut at,
            )
        };
        placed(n, at).map(|_| p)
    }
}
