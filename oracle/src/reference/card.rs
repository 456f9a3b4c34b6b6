//! Schedules on the memory card (02, C-11): "a reader and a writer for a schedule file".

use crate::param::{is_minus_zero, refusal, Reference};
use crate::queue::{Event, Kind};
use crate::session::{Call, Load};
use std::fmt;

/// "Tags 1 to 5 are step, linear, exponential, target, curve; 6 is the range".
const STEP: u8 = 1;
const LINEAR: u8 = 2;
const EXPONENTIAL: u8 = 3;
const TARGET: u8 = 4;
const CURVE: u8 = 5;
const RANGE: u8 = 6;

/// A refusal, "with the byte offset of its field or its event place".
#[derive(Clone, Copy, Debug, PartialEq)]
pub struct Fault {
    pub number: u8,
    pub at: usize,
}

impl fmt::Display for Fault {
    fn fmt(&self, f: &mut fmt::Formatter) -> fmt::Result {
        write!(f, "refused {} {}", self.number, self.at)
    }
}

/// "One byte tag, two bytes length, low byte first, then that many bytes": as far as the
/// file has them.
pub struct Field<'a> {
    tag: u8,
    length: Option<usize>,
    body: Option<&'a [u8]>,
}

impl<'a> Field<'a> {
    /// The field whose tag stands at this offset, which is below the file's length.
    pub fn at(file: &'a [u8], offset: usize) -> Self {
        let rest = &file[offset..];
        let length = rest.get(1..3).map(|two| usize::from(two[0]) + 256 * usize::from(two[1]));
        let body = length.and_then(|length| rest.get(3..3 + length));
        Self { tag: rest[0], length, body }
    }

    /// Of a curve 16 + 4n is right, also for n below 2.
    fn has_right_length(&self) -> bool {
        self.length.is_none_or(|length| match self.tag {
            TARGET => length == 20,
            CURVE => length >= 16 && length % 4 == 0,
            _ => length == 12,
        })
    }

    pub fn is_cut(&self) -> bool {
        self.body.is_none()
    }

    /// "20 unknown tag, 21 wrong length, 22 an event before the range, a second range ..,
    /// 23 field cut short .., the lowest number of one field first". 20 and 22 need the
    /// tag alone, 21 the length.
    fn refused(&self, is_first: bool) -> Option<u8> {
        refusal(&[
            (20, !(STEP..=RANGE).contains(&self.tag)),
            (21, !self.has_right_length()),
            (22, is_first != (self.tag == RANGE)),
            (23, self.is_cut()),
        ])
    }

    /// What a whole field of a right length says, "in the order value, time, time constant
    /// or duration; a curve has start, duration, then its numbers". The range is a `make`;
    /// "the caller gives the rate", and the edition.
    pub fn call(&self, &Load { a_rate, edition, .. }: &Load) -> Call {
        let mut body = Body(self.body.expect("a whole field"));
        match self.tag {
            STEP => Call::Step(body.f32(), body.f64()),
            LINEAR => Call::Linear(body.f32(), body.f64()),
            EXPONENTIAL => Call::Exponential(body.f32(), body.f64()),
            TARGET => Call::Target(body.f32(), body.f64(), body.f64()),
            CURVE => Call::Curve(body.f64(), body.f64(), body.numbers()),
            _ => {
                let (min, default, max) = (body.f32(), body.f32(), body.f32());
                Call::Make { min, default, max, a_rate, edition }
            }
        }
    }

    fn size(&self) -> usize {
        3 + self.body.map_or(0, <[u8]>::len)
    }
}

/// "f32 and f64 are their bits, low byte first": taken in turn.
struct Body<'a>(&'a [u8]);

impl Body<'_> {
    fn bytes<const N: usize>(&mut self) -> [u8; N] {
        let (bytes, rest) = self.0.split_first_chunk().expect("a right length");
        self.0 = rest;
        *bytes
    }

    fn f32(&mut self) -> f32 {
        f32::from_le_bytes(self.bytes())
    }

    fn f64(&mut self) -> f64 {
        f64::from_le_bytes(self.bytes())
    }

    /// All that is left.
    fn numbers(&mut self) -> Vec<f32> {
        (0..self.0.len() / 4).map(|_| self.f32()).collect()
    }
}

/// The parameter so far, and the time of the last event.
struct Reader {
    reference: Reference,
    before: f64,
}

impl Reader {
    /// "28 an event earlier than the one before it, a time of -0, or a time constant of 0
    /// .., before 01's own". Else it is taken as a call is.
    fn refused(&mut self, call: &Call) -> Option<u8> {
        let time = time(call);
        let early = time.is_some_and(|t| t < self.before || is_minus_zero(t));
        let no_target = matches!(call, Call::Target(_, _, constant) if *constant == 0.);
        if early || no_target {
            return Some(28);
        }
        self.before = time.unwrap_or(self.before);
        self.reference.command(call)
    }
}

/// Of an event; a curve's is its start.
fn time(call: &Call) -> Option<f64> {
    match call {
        Call::Step(_, t) | Call::Linear(_, t) | Call::Exponential(_, t) => Some(*t),
        Call::Target(_, t, _) | Call::Curve(t, ..) => Some(*t),
        _ => None,
    }
}

/// "The range comes first and once"; each field is refused at its offset, and "none by the
/// end (offset the length)" is the empty file. The file is read as a whole: "the answer
/// does not depend on the cuts" into parts.
pub fn read(load: &Load) -> Result<Reference, Fault> {
    let mut reader = Reader { reference: Reference::empty(), before: f64::NEG_INFINITY };
    let mut at = 0;
    while at < load.file.len() {
        let field = Field::at(&load.file, at);
        let refused = field.refused(at == 0).or_else(|| reader.refused(&field.call(load)));
        if let Some(number) = refused {
            return Err(Fault { number, at });
        }
        at += field.size();
    }
    if at == 0 {
        return Err(Fault { number: 22, at });
    }
    Ok(reader.reference)
}

/// "Only a schedule before its first block, with no held event, is written": 24 for "a held
/// event, a block already answered (place 0) or a curve number not finite".
pub fn write(range: [f32; 3], events: &[Event], is_played: bool) -> Result<Vec<u8>, Fault> {
    let kept = |event: &Event| event.hold.is_none() && has_finite_numbers(event);
    let place = if is_played { Some(0) } else { events.iter().position(|e| !kept(e)) };
    match place {
        Some(at) => Err(Fault { number: 24, at }),
        None => Ok(written(range, events)),
    }
}

fn has_finite_numbers(event: &Event) -> bool {
    match &event.kind {
        Kind::Curve { numbers, .. } => numbers.iter().all(|v| v.is_finite()),
        _ => true,
    }
}

/// The bytes of any range and events, whether a reader takes them or not.
pub fn written(range: [f32; 3], events: &[Event]) -> Vec<u8> {
    let fields = events.iter().map(event_field);
    [field(RANGE, f32s(&range))].into_iter().chain(fields).flatten().collect()
}

fn event_field(event: &Event) -> Vec<u8> {
    let (value, time) = (f32s(&[event.value]), f64s(&[event.time]));
    match &event.kind {
        Kind::Step => field(STEP, [value, time].concat()),
        Kind::Linear => field(LINEAR, [value, time].concat()),
        Kind::Exponential => field(EXPONENTIAL, [value, time].concat()),
        Kind::Target { constant } => field(TARGET, [value, time, f64s(&[*constant])].concat()),
        Kind::Curve { duration, numbers } => {
            field(CURVE, [time, f64s(&[*duration]), f32s(numbers)].concat())
        }
    }
}

fn field(tag: u8, body: Vec<u8>) -> Vec<u8> {
    let length = (body.len() as u16).to_le_bytes().to_vec();
    [vec![tag], length, body].concat()
}

fn f32s(numbers: &[f32]) -> Vec<u8> {
    numbers.iter().flat_map(|v| v.to_le_bytes()).collect()
}

fn f64s(numbers: &[f64]) -> Vec<u8> {
    numbers.iter().flat_map(|v| v.to_le_bytes()).collect()
}
