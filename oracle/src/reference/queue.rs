//! The waiting events: arriving, cancel, cancel-and-hold (01, "Events as they
//! arrive"; 02, C-12, C-14 and C-15), with the claims of what param.rs does
//! differently there.

use crate::claims::{Claims, Reach};

#[derive(Clone, Debug, PartialEq)]
pub enum Kind {
    Step,
    Linear,
    Exponential,
    Target { constant: f64 },
    Curve { duration: f64, numbers: Vec<f32> },
}

impl Kind {
    pub fn name(&self) -> &'static str {
        match self {
            Kind::Step => "step",
            Kind::Linear => "linear",
            Kind::Exponential => "exponential",
            Kind::Target { .. } => "target",
            Kind::Curve { .. } => "curve",
        }
    }
}

#[derive(Clone, Debug, PartialEq)]
pub struct Event {
    pub kind: Kind,
    pub value: f32,
    pub time: f64,
    pub hold: Option<f64>,
}

impl Event {
    pub fn new(kind: Kind, value: f32, time: f64) -> Self {
        Self { kind, value, time, hold: None }
    }

    pub fn is_ramp(&self) -> bool {
        matches!(self.kind, Kind::Linear | Kind::Exponential)
    }

    pub fn is_curve(&self) -> bool {
        matches!(self.kind, Kind::Curve { .. })
    }

    /// The time it is filed under: "A held ramp must be filed under its hold time",
    /// all else under its own. "The order of the queue is by that. Cancel, hold, ..
    /// and the target's look at the next event read this time" (02, C-15).
    pub fn filed(&self) -> f64 {
        self.hold.filter(|_| self.is_ramp()).unwrap_or(self.time)
    }

    /// The same in param.rs, whose queue goes by the event's own time.
    fn own(&self) -> f64 {
        self.time
    }

    /// Start and start plus duration, if it is a curve.
    fn whole(&self) -> Option<(f64, f64)> {
        match &self.kind {
            Kind::Curve { duration, .. } => Some((self.time, self.time + duration)),
            _ => None,
        }
    }

    /// The same up to its end, "the end being start plus duration or an earlier hold
    /// time" (02, C-14). As rounded: it may be the start, or infinite.
    fn span(&self) -> Option<(f64, f64)> {
        self.whole().map(|(start, end)| (start, self.hold.unwrap_or(end)))
    }

    /// Whether a time lies in its span, "from its start up to but without its end".
    fn spans(&self, time: f64) -> bool {
        self.span().is_some_and(|(start, end)| start <= time && time < end)
    }

    /// Whether a cancel at c leaves it. What is filed at or after c goes; "a curve also
    /// goes if the cancel time is at or before start plus duration, or its hold time if
    /// it has one" (02, C-12).
    fn outlives(&self, c: f64) -> bool {
        let reaches = self.span().is_some_and(|(_, end)| c <= end);
        self.filed() < c && !reaches
    }
}

/// The time that events are filed under: 02's, or param.rs's.
type Filing = fn(&Event) -> f64;

/// The place behind all events of equal or smaller time.
fn place(queue: &[Event], time: f64, filing: Filing) -> usize {
    queue.iter().take_while(|e| filing(e) <= time).count()
}

pub fn insert(queue: &mut Vec<Event>, event: Event) {
    queue.insert(place(queue, event.filed(), Event::filed), event);
}

/// "Refuse an event whose time lies at or after a waiting curve's start and before
/// its end .. Refuse a curve whose own span .. holds a waiting event's time, or whose
/// start lies inside a waiting curve's span" (02, C-14).
pub fn inside(queue: &[Event], event: &Event) -> bool {
    queue.iter().any(|e| e.spans(event.time) || event.spans(e.filed()))
}

/// The same in param.rs, where it panics: between start and start plus duration, held
/// or not, by the events' own times; of a new curve its own span alone.
pub fn rust_inside(queue: &[Event], event: &Event) -> bool {
    let between = |t: f64, (start, end): (f64, f64)| start < t && t < end;
    queue.iter().any(|e| match event.whole() {
        Some(mine) => between(e.own(), mine),
        None => e.whole().is_some_and(|theirs| between(event.time, theirs)),
    })
}

/// What the Rust's intake does otherwise with an event that is taken: it panics behind
/// a curve's hold. (Where a held ramp is inside a new curve by its own time alone, it
/// panics too; that curve's place is another anyway.)
pub fn claim_arrival(queue: &[Event], event: &Event, no_last: bool, claims: &mut Claims) {
    let clash = event.whole().is_none() && rust_inside(queue, event);
    claims.note(Reach::Ends, "curve-inside", clash);
    let place = |filing: Filing| place(queue, event.time, filing);
    let elsewhere = place(Event::filed) != place(Event::own);
    claims.note(Reach::Ends, "held-ramp", !clash && elsewhere);
    let target = matches!(event.kind, Kind::Target { .. });
    let first = queue.is_empty() && (target || (event.is_ramp() && no_last));
    claims.note(Reach::Ends, "implicit-step", first);
}

/// Removes what a cancel at c does not leave; the head, if it went. param.rs goes by an
/// event's own time alone: it leaves a curve that began before c.
pub fn cancel(queue: &mut Vec<Event>, c: f64, claims: &mut Claims) -> Option<Event> {
    let other = |e: &&Event| e.outlives(c) != (e.own() < c);
    let (ramp, rest): (Vec<_>, Vec<_>) = queue.iter().filter(other).partition(|e| e.is_ramp());
    claims.note(Reach::Ends, "held-ramp", !ramp.is_empty());
    claims.note(Reach::Ends, "cancel-in-curve", !rest.is_empty());
    let gone = queue.first().filter(|e| !e.outlives(c)).cloned();
    queue.retain(|e| e.outlives(c));
    gone
}

/// The event that a hold at c is for, by 01. But "at or after a waiting curve's start
/// and before its end" it "holds that curve, as if no ramp followed" (02, C-14).
fn held_place(queue: &[Event], c: f64, filing: Filing) -> Option<usize> {
    if let Some(running) = queue.iter().position(|e| e.spans(c)) {
        return Some(running);
    }
    let later = place(queue, c, filing);
    if queue.get(later).is_some_and(Event::is_ramp) {
        return Some(later);
    }
    let before = later.checked_sub(1)?;
    let held = match (&queue[before].kind, queue[before].whole()) {
        (Kind::Target { .. }, _) => true,
        (_, Some((_, end))) => c < end,
        _ => false,
    };
    held.then_some(before)
}

/// An existing hold time only moves earlier. The ramp just held is filed under
/// c from then on: it is not among the later events, which go. The head, if it went.
pub fn hold(queue: &mut Vec<Event>, c: f64, claims: &mut Claims) -> Option<Event> {
    let before = queue.clone();
    if let Some(i) = held_place(queue, c, Event::filed) {
        let earlier = queue[i].hold.map_or(c, |h| h.min(c));
        queue[i].hold = Some(earlier);
    }
    let gone = queue.first().filter(|e| e.filed() > c).cloned();
    queue.retain(|e| e.filed() <= c);
    if *queue != rust_hold(&before, c) {
        claim_hold(&before, c, claims);
    }
    gone
}

/// The event that param.rs marks: it takes no later event at the largest f64,
/// and looks at the earlier one only where there is no later one.
fn rust_held_place(queue: &[Event], c: f64) -> Option<usize> {
    if let Some(i) = queue.iter().position(|e| e.own() > c && e.own() < f64::MAX) {
        return queue[i].is_ramp().then_some(i);
    }
    let before = queue.iter().rposition(|e| e.own() <= c)?;
    let held = match (&queue[before].kind, queue[before].whole()) {
        (Kind::Target { .. }, _) => true,
        (_, Some((_, end))) => c <= end,
        _ => false,
    };
    held.then_some(before)
}

/// Whether param.rs keeps an event after a hold at c: by its hold time where it
/// has one.
fn rust_keeps(e: &Event, c: f64) -> bool {
    e.hold.unwrap_or(e.own()) <= c
}

/// What param.rs has after a hold at c: the event that it marks gets c, later or not.
fn rust_hold(queue: &[Event], c: f64) -> Vec<Event> {
    let mut after = queue.to_vec();
    if let Some(i) = rust_held_place(queue, c) {
        after[i].hold = Some(c);
    }
    after.retain(|e| rust_keeps(e, c));
    after
}

/// Why param.rs has another queue after a hold at c than 01. A ramp that is held
/// already, at c or before, is its first later event, and is found.
fn claim_hold(queue: &[Event], c: f64, claims: &mut Claims) {
    let (ours, theirs) = (held_place(queue, c, Event::filed), rust_held_place(queue, c));
    if ours != held_place(queue, c, Event::own) {
        return claims.note(Reach::Ends, "held-ramp", true);
    }
    let in_curve = |i: usize| queue[i].spans(c);
    let ramp = |i: usize| queue[i].is_ramp();
    let instead = ours.is_some_and(in_curve) && theirs.is_some_and(ramp);
    claims.note(Reach::Ends, "hold-in-curve", instead);
    let largest = ours.is_some_and(|i| queue[i].is_ramp() && queue[i].time == f64::MAX);
    claims.note(Reach::Ends, "hold-largest-time", largest);
    let shadowed = ours.is_some() && theirs.is_none() && !largest;
    claims.note(Reach::Ends, "hold-shadowed", shadowed);
    let later = theirs.is_some_and(|i| queue[i].hold.is_some_and(|h| h < c));
    claims.note(Reach::Ends, "hold-moves-later", later);
    claims.note(Reach::Ends, "hold-curve-end", ours.is_none() && theirs.is_some() && !later);
    // A target or curve that is held for later, though it has begun.
    let other = |i: &usize| ours != Some(*i) && theirs != Some(*i);
    let drops = |i: usize| queue[i].filed() <= c && !rust_keeps(&queue[i], c);
    let dropped = (0..queue.len()).filter(other).any(drops);
    claims.note(Reach::Ends, "hold-drops-by-hold", dropped);
}
