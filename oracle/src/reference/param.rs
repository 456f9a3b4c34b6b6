//! The parameter by 01: its calls with their refusals, the store, the answers.

use crate::card::{self, Fault};
use crate::claims::{Claims, Reach};
use crate::costs::Costs;
use crate::edition::Edition;
use crate::near::{Near, Value};
use crate::numbers::mixed;
use crate::places::{Look, Start};
use crate::queue::{cancel, claim_arrival, hold, insert, inside, rust_inside, Event, Kind};
use crate::session::{curve_numbers, hex32, hex64, hex_file, list32, read_line};
use crate::session::{Block, Call, Line, Load};
use crate::walk::{Facts, Walk};

const STORE: usize = 4096;

#[derive(Clone)]
pub struct Reference {
    edition: Edition,
    a_rate: bool,
    min: f32,
    default: f32,
    max: f32,
    intrinsic: Value,
    queue: Vec<Event>,
    /// Time and end of the last answered block; its end is its next block time.
    played: Option<(f64, f64)>,
    last: Option<(f64, Value)>,
    store: Vec<f32>,
    lent: usize,
    /// Without the waiting events, which the queue has.
    costs: Costs,
    /// What param.rs does differently in the call just answered.
    pub claims: Claims,
}

/// The number of the first row that applies: "the lowest number is given", but for
/// C-14's 11, "given after 6 and before 7 and 8".
pub fn refusal(rows: &[(u8, bool)]) -> Option<u8> {
    rows.iter().find(|(_, applies)| *applies).map(|(number, _)| *number)
}

fn not_finite(numbers: &[f64]) -> bool {
    numbers.iter().any(|n| !n.is_finite())
}

/// A time of -0 is taken as 0.
fn plus_zero(time: f64) -> f64 {
    time + 0.
}

pub fn is_minus_zero(time: f64) -> bool {
    time == 0. && time.is_sign_negative()
}

impl Reference {
    /// What refusals 1 and 12 return, and what a session starts with.
    pub fn empty() -> Self {
        Self {
            edition: Edition::First,
            a_rate: true,
            min: 0.,
            default: 0.,
            max: 0.,
            intrinsic: Value::same(0.),
            queue: Vec::new(),
            played: None,
            last: None,
            store: vec![0.; 8192],
            lent: STORE,
            costs: Costs::default(),
            claims: Claims::default(),
        }
    }

    /// The waiting events, in queue order.
    pub fn waiting(&self) -> &[Event] {
        &self.queue
    }

    pub fn intrinsic(&self) -> f32 {
        self.intrinsic.value
    }

    pub fn edition(&self) -> Edition {
        self.edition
    }

    pub fn range(&self) -> [f32; 3] {
        [self.min, self.default, self.max]
    }

    /// The totals since the last `make`, refused or not, or answered `load`; before the
    /// first, of all calls.
    pub fn costs(&self) -> Costs {
        Costs { waiting: self.queue.len() as u64, ..self.costs }
    }

    /// The answer to a line of a session.
    pub fn answer_line(&mut self, line: &str) -> String {
        match read_line(line) {
            Line::Blank => String::new(),
            Line::Unread => "unread".to_string(),
            Line::Call(call) => self.answer(&call),
        }
    }

    pub fn answer(&mut self, call: &Call) -> String {
        self.claims = Claims::default();
        match call {
            Call::Block(b) if b.plain => self.plain(b),
            Call::Block(b) => self.block(b),
            Call::State => self.state(),
            Call::Save => match self.saved() {
                Ok(file) => format!("saved {}", hex_file(&file)),
                Err(fault) => fault.to_string(),
            },
            Call::Load(load) => self.load(load),
            _ => self.command(call).map_or("ok".to_string(), |n| format!("refused {n}")),
        }
    }

    /// A call that is answered or refused with a number alone.
    pub fn command(&mut self, call: &Call) -> Option<u8> {
        match call {
            Call::Make { min, default, max, a_rate, edition } => {
                self.make([*min, *default, *max], *a_rate, *edition)
            }
            Call::Set(v) => self.set(*v),
            Call::Step(v, t) => self.simple(Kind::Step, *v, *t),
            Call::Linear(v, t) => self.simple(Kind::Linear, *v, *t),
            Call::Exponential(v, t) => self.simple(Kind::Exponential, *v, *t),
            Call::Target(v, t, constant) => self.target(*v, *t, *constant),
            Call::Curve(t, d, values) => self.curve(*t, *d, values),
            Call::Cancel(t) => self.cancel(*t),
            Call::Hold(t) => self.hold(*t),
            Call::Lend(n) => self.lend(*n),
            Call::Poke(i, v) => self.poke(*i, *v),
            _ => unreachable!("it has another answer"),
        }
    }

    /// "An unknown edition gets 12, after 1, with the same empty parameter, of the first
    /// edition" (02, C-19); without a number it is the first.
    fn make(&mut self, range: [f32; 3], a_rate: bool, number: Option<u8>) -> Option<u8> {
        *self = Self::empty();
        let [min, default, max] = range;
        let finite = range.iter().all(|v| v.is_finite());
        let sound = finite && min <= default && default <= max;
        let known = number.map_or(Some(Edition::First), Edition::numbered);
        let refused = refusal(&[(1, !sound), (12, known.is_none())]);
        self.claims.note(Reach::Part, "refused", refused == Some(1));
        let Some(edition) = known.filter(|_| sound) else { return refused };
        let intrinsic = Value::same(default);
        *self = Self { edition, min, default, max, a_rate, intrinsic, ..Self::empty() };
        None
    }

    /// A refusal, with what the Rust does there: rows up to 6 panic in it too.
    fn refuse(&mut self, number: Option<u8>) -> Option<u8> {
        let name = match number? {
            ..=6 => "refused",
            7 => "queue-limit",
            8 => "curve-limit",
            _ => "store",
        };
        let reach = if name == "refused" { Reach::Part } else { Reach::Ends };
        self.claims.note(reach, name, true);
        number
    }

    /// The same of an event. Where 11 is given the Rust panics too, or takes it.
    fn refuse_event(&mut self, number: Option<u8>, event: &Event) -> Option<u8> {
        if number != Some(11) {
            return self.refuse(number);
        }
        let reach = if rust_inside(&self.queue, event) { Reach::Part } else { Reach::Ends };
        self.claims.note(reach, "curve-inside", true);
        number
    }

    fn full(&self) -> bool {
        self.queue.len() >= 64
    }

    fn inside(&self, event: &Event) -> bool {
        inside(&self.queue, event)
    }

    fn schedule(&mut self, event: &Event) {
        self.claims.note(Reach::Ends, "minus-zero-time", is_minus_zero(event.time));
        let event = Event { time: plus_zero(event.time), ..event.clone() };
        claim_arrival(&self.queue, &event, self.last.is_none(), &mut self.claims);
        insert(&mut self.queue, event);
        self.costs.stored += 1;
    }

    /// A step at 0; inside where a curve from 0 waits.
    fn set(&mut self, v: f32) -> Option<u8> {
        let event = Event::new(Kind::Step, v, 0.);
        let rows = [(2, !v.is_finite()), (11, self.inside(&event)), (7, self.full())];
        let refused = refusal(&rows);
        if refused.is_none() {
            let Value { value, near } = self.intrinsic;
            let changes = v.to_bits() != value.to_bits() || near != Near::Same;
            self.claims.note(Reach::Ends, "set-now", changes);
            self.schedule(&event);
        }
        self.refuse_event(refused, &event)
    }

    fn simple(&mut self, kind: Kind, v: f32, t: f64) -> Option<u8> {
        let zero = kind == Kind::Exponential && v == 0.;
        let finite = v.is_finite() && t.is_finite();
        let event = Event::new(kind, v, t);
        let refused = refusal(&[
            (2, !finite),
            (3, t < 0.),
            (5, zero),
            (11, self.inside(&event)),
            (7, self.full()),
        ]);
        if refused.is_none() {
            self.schedule(&event);
        }
        self.refuse_event(refused, &event)
    }

    fn target(&mut self, v: f32, t: f64, constant: f64) -> Option<u8> {
        let bad = !v.is_finite() || not_finite(&[t, constant]);
        let kind = if constant == 0. { Kind::Step } else { Kind::Target { constant } };
        let event = Event::new(kind, v, t);
        let refused = refusal(&[
            (2, bad),
            (3, t < 0.),
            (4, constant < 0.),
            (11, self.inside(&event)),
            (7, self.full()),
        ]);
        if refused.is_none() {
            self.schedule(&event);
        }
        self.refuse_event(refused, &event)
    }

    fn curve(&mut self, t: f64, duration: f64, values: &[f32]) -> Option<u8> {
        let not_numbers = values.iter().any(|v| !v.is_finite());
        let waiting: usize = self.lengths().iter().sum();
        let event = Event::new(Kind::Curve { duration, numbers: values.to_vec() }, 0., t);
        let rust_panics = values.len() < 2
            || not_finite(&[t, duration])
            || t < 0.
            || duration <= 0.
            || rust_inside(&self.queue, &event);
        let refused = refusal(&[
            (2, not_finite(&[t, duration]) || not_numbers),
            (3, t < 0.),
            (4, duration <= 0.),
            (6, values.len() < 2),
            (11, self.inside(&event)),
            (7, self.full()),
            (8, waiting + values.len() > STORE),
            (14, self.lent != STORE),
        ]);
        if refused.is_none() {
            self.read_store();
            self.schedule(&event);
            self.pack_store();
        }
        if refused == Some(2) && !rust_panics {
            self.claims.note(Reach::Ends, "curve-numbers", true);
            return refused;
        }
        self.refuse_event(refused, &event)
    }

    fn cancel(&mut self, c: f64) -> Option<u8> {
        let rows = [(2, !c.is_finite()), (3, c < 0.), (14, self.lent != STORE)];
        let refused = refusal(&rows);
        if refused.is_none() {
            self.read_store();
            let waited = self.queue.len();
            let gone = cancel(&mut self.queue, c, &mut self.claims);
            self.count_cancelled(waited);
            if gone.as_ref().is_some_and(Event::is_ramp) {
                self.claims.note(Reach::Ends, "no-last-event", self.last.is_none());
                self.intrinsic = self.last.map_or(self.intrinsic, |(_, v)| v);
            }
            self.leave_curve(gone);
            self.pack_store();
        }
        self.refuse(refused)
    }

    fn hold(&mut self, c: f64) -> Option<u8> {
        let rows = [(2, !c.is_finite()), (3, c < 0.), (14, self.lent != STORE)];
        let refused = refusal(&rows);
        if refused.is_none() {
            self.claims.note(Reach::Ends, "minus-zero-time", is_minus_zero(c));
            self.read_store();
            let waited = self.queue.len();
            let gone = hold(&mut self.queue, plus_zero(c), &mut self.claims);
            self.count_cancelled(waited);
            self.leave_curve(gone);
            self.pack_store();
        }
        self.refuse(refused)
    }

    /// Those that went, of so many that waited before the cancel or hold.
    fn count_cancelled(&mut self, waited: usize) {
        self.costs.cancelled += (waited - self.queue.len()) as u64;
    }

    /// "If a curve removed by any cancel was the head and had started by the last
    /// answered block's end .. the intrinsic value returns to the last event's value, if
    /// there is one" (02, C-12). In param.rs it stays. Where it is that value already, it
    /// stays with us too, as near to the Rust's as it was.
    fn leave_curve(&mut self, head: Option<Event>) {
        let end = self.played.map(|(_, end)| end);
        let ran = |e: &Event| e.is_curve() && end.is_some_and(|end| e.time <= end);
        let Some((_, back)) = self.last.filter(|_| head.as_ref().is_some_and(ran)) else { return };
        if hex32(back.value) != hex32(self.intrinsic.value) {
            let stays = self.claims.has("cancel-in-curve");
            self.claims.note(Reach::Ends, "cancelled-curve", !stays);
            self.intrinsic = back;
        }
    }

    fn lend(&mut self, n: usize) -> Option<u8> {
        self.lent = n;
        None
    }

    fn poke(&mut self, i: usize, v: f32) -> Option<u8> {
        let inside = i < self.lengths().iter().sum();
        let changes = self.store[i].to_bits() != v.to_bits();
        self.claims.note(Reach::Ends, "store", inside && changes);
        self.store[i] = v;
        None
    }

    /// How many numbers each waiting curve has, in queue order.
    fn lengths(&self) -> Vec<usize> {
        let length = |e: &Event| match &e.kind {
            Kind::Curve { numbers, .. } => Some(numbers.len()),
            _ => None,
        };
        self.queue.iter().filter_map(length).collect()
    }

    /// The waiting curves' numbers as they stand in the store.
    fn read_store(&mut self) {
        let mut at = 0;
        for event in &mut self.queue {
            if let Kind::Curve { numbers, .. } = &mut event.kind {
                let n = numbers.len();
                numbers.copy_from_slice(&self.store[at..at + n]);
                at += n;
            }
        }
    }

    /// The waiting curves' numbers end to end, then zeros.
    fn pack_store(&mut self) {
        let mut at = 0;
        self.store[..STORE].fill(0.);
        for event in &self.queue {
            if let Kind::Curve { numbers, .. } = &event.kind {
                self.store[at..at + numbers.len()].copy_from_slice(numbers);
                at += numbers.len();
            }
        }
    }

    fn block_refusal(&mut self, b: &Block) -> Option<u8> {
        let time = plus_zero(b.time);
        let fits = b.input.is_empty() || b.input.len() as u64 == b.count;
        let counts = 1..=self.edition.ceiling() as u64;
        let lengths = !counts.contains(&b.count) || (b.out as u64) < b.count || !fits;
        let numbers = not_finite(&[time, b.period]) || time < 0. || b.period <= 0.;
        let back = self.played.is_some_and(|(last, _)| time < last);
        let rows = [(9, lengths || numbers), (10, back), (14, self.lent != STORE)];
        let refused = refusal(&rows)?;
        self.claims.note(Reach::Part, "refused", lengths);
        self.claims.note(Reach::Ends, "block-unchecked", !lengths && refused < 14);
        self.claims.note(Reach::Ends, "store", refused == 14);
        Some(refused)
    }

    fn block(&mut self, b: &Block) -> String {
        if let Some(number) = self.block_refusal(b) {
            return format!("refused {number} clean");
        }
        self.costs.blocks += 1;
        self.claims.note(Reach::Ends, "minus-zero-time", is_minus_zero(b.time));
        let (time, count) = (plus_zero(b.time), b.count as usize);
        let next = (count as f64).mul_add(b.period, time);
        let facts = Facts { time, period: b.period, count, next, a_rate: self.a_rate };
        let Value { value: before, near } = self.intrinsic;
        let odd = before.is_nan() || (before == 0. && before.is_sign_negative());
        self.claims.note(Reach::Part, "current-value", odd);
        self.read_store();
        let (values, steps, constant) = self.values(facts);
        let one = !self.a_rate || (constant && b.input.is_empty());
        let single = count == 1 && b.input.is_empty() && !one;
        self.claims.note(Reach::Part, "one-sample", single);
        let samples = self.mix(&values, &b.input, count);
        self.claims.current = near;
        self.claim_nears();
        self.played = Some((time, next));
        self.pack_store();
        let current = mixed(before + 0., self.min, self.default, self.max);
        let text = list32(&samples, " ");
        format!("block {steps} {} {}{text} clean", hex32(current), u8::from(one))
    }

    /// The block's values, its steps, and whether it is one-valued.
    fn values(&mut self, facts: Facts) -> (Vec<Value>, u32, bool) {
        let waits = self.queue.first().map(|e| (e.is_ramp(), e.time));
        let at_end = waits.is_some_and(|(ramp, t)| !ramp && t == facts.next);
        self.claims.note(Reach::Ends, "block-end", at_end);
        if waits.is_none_or(|(ramp, t)| !ramp && t > facts.next) {
            self.costs.steps += 1;
            return (vec![self.intrinsic], 1, true);
        }
        let mut walk = Walk {
            facts,
            queue: &mut self.queue,
            intrinsic: &mut self.intrinsic,
            last: &mut self.last,
            claims: &mut self.claims,
            costs: &mut self.costs,
            buffer: Vec::with_capacity(facts.count),
            steps: 0,
        };
        walk.run();
        (walk.buffer, walk.steps, false)
    }

    /// A block by the plain renderer: "its samples, current value, carried parameter and
    /// step count equal those of the fast one" (02, C-16). It is played by both, and
    /// the interpreter ends where they differ. What it claims and costs is the block's.
    fn plain(&mut self, b: &Block) -> String {
        let mut other = self.clone();
        let (fast, plain) = (self.block(b), other.by_places(b));
        assert_eq!(plain, fast, "the interpreter's `plain` is not its `block`");
        let behind = (other.state(), self.clone().state());
        assert_eq!(behind.0, behind.1, "behind the interpreter's `plain`, and its `block`");
        plain
    }

    /// The same by the plain renderer alone. No claim is made, no cost is counted.
    fn by_places(&mut self, b: &Block) -> String {
        if let Some(number) = self.block_refusal(b) {
            return format!("refused {number} clean");
        }
        self.read_store();
        let Self { a_rate, min, default, max, .. } = *self;
        let (time, period, count) = (plus_zero(b.time), b.period, b.count as usize);
        let (level, last) = (self.intrinsic.value, self.last.map(|(t, v)| (t, v.value)));
        let start = Start { time, period, count, a_rate, level, last, waiting: &self.queue };
        let mut text = String::new();
        for place in 0..count {
            let with = b.input.get(if a_rate { place } else { 0 }).unwrap_or(&0.);
            let sum = with + Look::at(start, place).value();
            text += &format!(" {}", hex32(mixed(sum, min, default, max)));
        }
        let look = Look::at(start, 0); // any place's leaves the same
        let one = !a_rate || (look.one_valued && b.input.is_empty());
        let current = hex32(mixed(level + 0., min, default, max));
        let answer = format!("block {} {current} {}{text} clean", look.steps, u8::from(one));
        let (intrinsic, queue) = (Value::same(look.level), look.left());
        self.last = look.last.map(|(t, v)| (t, Value::same(v)));
        (self.intrinsic, self.queue) = (intrinsic, queue);
        self.played = Some((time, (count as f64).mul_add(period, time)));
        self.pack_store();
        answer
    }

    /// The names under which numbers of a block or of a print may differ.
    fn claim_nears(&mut self) {
        self.claims.intrinsic = self.intrinsic.near;
        self.claims.last = self.last.map_or(Near::Same, |(_, v)| v.near);
        let Claims { current, intrinsic, last, .. } = self.claims;
        let places = self.claims.places.clone();
        for near in places.into_iter().chain([current, intrinsic, last]) {
            self.claims.note_near(near);
        }
    }

    /// Mixed with the input; one value serves all places, K-rate has one input.
    fn mix(&mut self, values: &[Value], input: &[f32], count: usize) -> Vec<f32> {
        let mut samples = Vec::with_capacity(count);
        for i in 0..count {
            let Value { value, near } = values[if values.len() == 1 { 0 } else { i }];
            self.claims.places.push(near);
            let with = input.get(if self.a_rate { i } else { 0 }).copied().unwrap_or(0.);
            let sum = with + value;
            let other = |bound: f32| sum == 0. && bound == 0. && sum.to_bits() != bound.to_bits();
            let either = other(self.min) || other(self.max);
            self.claims.note(Reach::Part, "zero-bound", either);
            samples.push(mixed(sum, self.min, self.default, self.max));
        }
        samples
    }

    /// The schedule file of what waits, the curves' numbers as they stand in the store
    /// (02, C-11).
    pub fn saved(&self) -> Result<Vec<u8>, Fault> {
        let mut seen = self.clone();
        seen.read_store();
        card::write(self.range(), &seen.queue, self.played.is_some())
    }

    /// "A refused reading leaves the parameter and store that the caller had. An answered
    /// one is as making a parameter, then each event in turn" (02, C-11). param.rs has no
    /// files, so that nothing is claimed.
    fn load(&mut self, load: &Load) -> String {
        match card::read(load) {
            Ok(read) => {
                *self = Self { claims: Claims::default(), ..read };
                "ok".to_string()
            }
            Err(fault) => fault.to_string(),
        }
    }

    fn state(&mut self) -> String {
        self.claim_nears();
        let mut seen = self.clone();
        seen.read_store();
        let packed: usize = seen.lengths().iter().sum();
        let zeros = seen.store[packed..STORE].iter().all(|v| v.to_bits() == 0);
        let rate = match (self.a_rate, self.edition) {
            (true, Edition::First) => "a",
            (false, Edition::First) => "k",
            (true, Edition::Second) => "a2",
            (false, Edition::Second) => "k2",
        };
        let bounds = list32(&self.range(), " ");
        let times = |(t, end): (f64, f64)| format!("{}:{}", hex64(t), hex64(end));
        let block = self.played.map_or("-".to_string(), times);
        let pair = |(t, v): (f64, Value)| format!("{}:{}", hex64(t), hex32(v.value));
        let last = self.last.map_or("-".to_string(), pair);
        let events: String = seen.queue.iter().map(|e| format!(" {}", event(e))).collect();
        let (intrinsic, n) = (hex32(self.intrinsic.value), seen.queue.len());
        let rest = if zeros { "zeros" } else { "dirty" };
        format!("state {rate}{bounds} {intrinsic} {block} {last} {n}{events} {rest}")
    }
}

/// A waiting event as `state` prints it.
fn event(e: &Event) -> String {
    let (value, time) = (hex32(e.value), hex64(e.time));
    let hold = e.hold.map_or("-".to_string(), hex64);
    match &e.kind {
        Kind::Step => format!("step:{value}:{time}"),
        Kind::Linear => format!("linear:{value}:{time}:{hold}"),
        Kind::Exponential => format!("exponential:{value}:{time}:{hold}"),
        Kind::Target { constant } => format!("target:{value}:{time}:{}:{hold}", hex64(*constant)),
        Kind::Curve { duration, numbers } => {
            format!("curve:{time}:{}:{hold}:{}", hex64(*duration), curve_numbers(numbers))
        }
    }
}
