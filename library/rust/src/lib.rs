//! One audio parameter, proved: its scheduling calls and its block renderer, named as in web-audio-api-rs, and a schedule file
//! written and read.
//!
//! Assumed: x86-64 (what the archive links into), floats rounded to nearest, subnormals on.

mod card;
pub mod raw;

pub use card::{CardError, CardReader};

use raw::{COUNT, LONG_COUNT, STATE, STORE};

/// Whether a block has a value for each sample (A) or one for all (K).
#[derive(Clone, Copy, Debug, PartialEq, Eq)]
pub enum AutomationRate {
    A,
    K,
}

/// How many samples a block can have. A parameter is made under an edition and keeps it; all else is the same under both.
#[derive(Clone, Copy, Debug, PartialEq, Eq)]
#[repr(u64)]
pub enum Edition {
    /// Web Audio API 1.0: 1 to 128
    First = 1,
    /// Web Audio API 1.1: 1 to 1,024
    Second = 2,
}

impl Edition {
    pub fn number(self) -> u64 {
        self as u64
    }

    /// Samples of a block, at most.
    pub fn ceiling(self) -> usize {
        match self {
            Edition::First => COUNT,
            Edition::Second => LONG_COUNT,
        }
    }
}

/// Why a call is refused, with document 01's numbers and, of a file, 02's; those from 100 on are the library's own.
#[derive(Clone, Copy, Debug, PartialEq, Eq)]
#[repr(u32)]
pub enum Error {
    /// a bound or the default is not finite, or not min ≤ default ≤ max
    Bounds = 1,
    /// a value, time, time constant, duration or curve number is not finite
    NotFinite = 2,
    /// a scheduled or cancel time is below 0
    BeforeZero = 3,
    /// a time constant below 0, or a duration not above 0
    NotAbove = 4,
    /// an exponential ramp to 0
    ZeroTarget = 5,
    /// a curve of fewer than 2 numbers
    ShortCurve = 6,
    /// 64 events wait
    QueueFull = 7,
    /// the waiting curves and this one have more than 4,096 numbers
    StoreFull = 8,
    /// block time, sample period, count (by the edition's ceiling), or the lengths of input and output
    BadBlock = 9,
    /// a block before the last answered one
    OutOfOrder = 10,
    /// inside a waiting curve, or a curve with a waiting event's time inside; given before 7 and 8
    Inside = 11,
    /// an edition that is neither 1 nor 2; an `Edition` never is
    UnknownEdition = 12,
    /// the curve store has not 4,096 numbers
    BadStore = 14,
    /// a field's tag is not 1 to 6
    UnknownTag = 20,
    /// a field's length is not that of its tag
    WrongLength = 21,
    /// an event before the range, a second range, or none by the end
    Misplaced = 22,
    /// the file ends inside a field
    CutShort = 23,
    /// in writing: a held event, a block already answered, or a curve number that is not finite
    Unwritable = 24,
    /// an event earlier than the one before it, a time of -0, or a time constant of 0
    OutOfTurn = 28,
    /// the state fails its test; that of an `AudioParam`, which calls left, never does
    BadState = 100,
    /// in writing: the slice is shorter than the file
    NoRoom = 101,
    /// a part of more than 65,536 bytes
    LongPart = 102,
}

impl Error {
    pub const ALL: [Error; 22] = [
        Error::Bounds,
        Error::NotFinite,
        Error::BeforeZero,
        Error::NotAbove,
        Error::ZeroTarget,
        Error::ShortCurve,
        Error::QueueFull,
        Error::StoreFull,
        Error::BadBlock,
        Error::OutOfOrder,
        Error::Inside,
        Error::UnknownEdition,
        Error::BadStore,
        Error::UnknownTag,
        Error::WrongLength,
        Error::Misplaced,
        Error::CutShort,
        Error::Unwritable,
        Error::OutOfTurn,
        Error::BadState,
        Error::NoRoom,
        Error::LongPart,
    ];

    pub fn number(self) -> u32 {
        self as u32
    }
}

impl std::fmt::Display for Error {
    fn fmt(&self, f: &mut std::fmt::Formatter) -> std::fmt::Result {
        write!(f, "refused: {} ({:?})", self.number(), self)
    }
}

impl std::error::Error for Error {}

/// What an answered block says, beside its samples.
#[derive(Clone, Copy, Debug, PartialEq)]
pub struct Block {
    /// events walked, at most 129
    pub steps: usize,
    /// the value before the block
    pub current: f32,
    /// all samples are one value
    pub one: bool,
}

/// A parameter with its curve store. A refused call changes nothing.
#[derive(Clone)]
pub struct AudioParam {
    state: [u64; STATE],
    store: Box<[f32]>,
}

/// The archive's own version; `raw::VERSION` is the one that this crate was written for.
pub fn version() -> u32 {
    unsafe { raw::crackledray_version() }
}

fn answer(number: u32) -> Result<(), Error> {
    match Error::ALL.iter().find(|e| e.number() == number) {
        Some(e) => Err(*e),
        None => Ok(()),
    }
}

impl AudioParam {
    /// Under the first edition.
    pub fn new(min: f32, default: f32, max: f32, rate: AutomationRate) -> Result<Self, Error> {
        let mut p = Self::unmade();
        let k = rate == AutomationRate::K;
        // SAFETY: here and below, each pointer and length are of one slice, and no two overlap.
        let n = unsafe { raw::crackledray_make(p.state.as_mut_ptr(), STATE, min, default, max, k) };
        answer(n).map(|_| p)
    }

    pub fn with_edition(
        min: f32,
        default: f32,
        max: f32,
        rate: AutomationRate,
        edition: Edition,
    ) -> Result<Self, Error> {
        let mut p = Self::unmade();
        let n = unsafe {
            raw::crackledray_make_under(
                p.state.as_mut_ptr(),
                STATE,
                min,
                default,
                max,
                rate == AutomationRate::K,
                edition.number(),
            )
        };
        answer(n).map(|_| p)
    }

    /// Memory that a make writes over.
    fn unmade() -> Self {
        AudioParam { state: [0; STATE], store: vec![0.0; STORE].into_boxed_slice() }
    }

    pub fn set_value(&mut self, value: f32) -> Result<(), Error> {
        answer(unsafe { raw::crackledray_set(self.state.as_mut_ptr(), STATE, value) })
    }

    pub fn set_value_at_time(&mut self, value: f32, start_time: f64) -> Result<(), Error> {
        answer(unsafe { raw::crackledray_step(self.state.as_mut_ptr(), STATE, value, start_time) })
    }

    pub fn linear_ramp_to_value_at_time(&mut self, value: f32, end_time: f64) -> Result<(), Error> {
        answer(unsafe { raw::crackledray_linear(self.state.as_mut_ptr(), STATE, value, end_time) })
    }

    pub fn exponential_ramp_to_value_at_time(
        &mut self,
        value: f32,
        end_time: f64,
    ) -> Result<(), Error> {
        answer(unsafe {
            raw::crackledray_exponential(self.state.as_mut_ptr(), STATE, value, end_time)
        })
    }

    pub fn set_target_at_time(
        &mut self,
        value: f32,
        start_time: f64,
        time_constant: f64,
    ) -> Result<(), Error> {
        answer(unsafe {
            raw::crackledray_target(
                self.state.as_mut_ptr(),
                STATE,
                value,
                start_time,
                time_constant,
            )
        })
    }

    pub fn set_value_curve_at_time(
        &mut self,
        values: &[f32],
        start_time: f64,
        duration: f64,
    ) -> Result<(), Error> {
        answer(unsafe {
            raw::crackledray_curve(
                self.state.as_mut_ptr(),
                STATE,
                values.as_ptr(),
                values.len(),
                start_time,
                duration,
                self.store.as_mut_ptr(),
                self.store.len(),
            )
        })
    }

    /// Removes every event at the time or later, and every curve that ends then or later.
    pub fn cancel_scheduled_values(&mut self, cancel_time: f64) -> Result<(), Error> {
        answer(unsafe {
            raw::crackledray_cancel(
                self.state.as_mut_ptr(),
                STATE,
                cancel_time,
                self.store.as_mut_ptr(),
                self.store.len(),
            )
        })
    }

    pub fn cancel_and_hold_at_time(&mut self, cancel_time: f64) -> Result<(), Error> {
        answer(unsafe {
            raw::crackledray_hold(
                self.state.as_mut_ptr(),
                STATE,
                cancel_time,
                self.store.as_mut_ptr(),
                self.store.len(),
            )
        })
    }

    /// `count` samples, from 1 to the edition's ceiling, from `block_time` on into the first places of the output, mixed
    /// with the input (empty: silence).
    pub fn process(
        &mut self,
        block_time: f64,
        period: f64,
        count: usize,
        input: &[f32],
        output: &mut [f32],
    ) -> Result<Block, Error> {
        let mut block = Block { steps: 0, current: 0.0, one: false };
        answer(unsafe {
            raw::crackledray_block(
                self.state.as_mut_ptr(),
                STATE,
                block_time,
                period,
                count,
                input.as_ptr(),
                input.len(),
                output.as_mut_ptr(),
                output.len(),
                self.store.as_mut_ptr(),
                self.store.len(),
                &mut block.steps,
                &mut block.current,
                &mut block.one,
            )
        })
        .map(|_| block)
    }

    pub fn min_value(&self) -> f32 {
        f32::from_bits(self.state[1] as u32)
    }

    pub fn default_value(&self) -> f32 {
        f32::from_bits(self.state[2] as u32)
    }

    pub fn max_value(&self) -> f32 {
        f32::from_bits(self.state[3] as u32)
    }

    pub fn automation_rate(&self) -> AutomationRate {
        match self.state[4] {
            0 => AutomationRate::A,
            _ => AutomationRate::K,
        }
    }

    pub fn edition(&self) -> Edition {
        match self.state[5] {
            2 => Edition::Second,
            _ => Edition::First,
        }
    }

    /// How many events wait.
    pub fn waiting(&self) -> usize {
        self.state[14] as usize
    }
}
