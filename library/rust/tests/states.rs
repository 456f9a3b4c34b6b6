//! States, raw: one that fails the test is answered 100 by every call and nothing changes; one that calls left is accepted.
use crackledray::raw;

/// What a call may write.
#[derive(Clone, Debug, PartialEq)]
struct Lent {
    state: Vec<u64>,
    store: Vec<f32>,
    output: [f32; 4],
    steps: usize,
    current: f32,
    one: bool,
}

fn lend(state: &[u64]) -> Lent {
    let store = vec![0.25; raw::STORE];
    Lent { state: state.to_vec(), store, output: [-77.0; 4], steps: 7, current: 7.0, one: true }
}

/// A call of a value, a time, and a time constant, duration or sample period.
type Call = fn(&mut Lent, f32, f64, f64) -> u32;

/// Each call that reads a state.
const CALLS: [(&str, Call); 9] = [
    ("set", |l, v, _, _| unsafe { raw::crackledray_set(l.state.as_mut_ptr(), l.state.len(), v) }),
    ("step", |l, v, t, _| unsafe {
        raw::crackledray_step(l.state.as_mut_ptr(), l.state.len(), v, t)
    }),
    ("linear", |l, v, t, _| unsafe {
        raw::crackledray_linear(l.state.as_mut_ptr(), l.state.len(), v, t)
    }),
    ("exponential", |l, v, t, _| unsafe {
        raw::crackledray_exponential(l.state.as_mut_ptr(), l.state.len(), v, t)
    }),
    ("target", |l, v, t, c| unsafe {
        raw::crackledray_target(l.state.as_mut_ptr(), l.state.len(), v, t, c)
    }),
    ("curve", curve_call),
    ("cancel", |l, _, t, _| unsafe {
        raw::crackledray_cancel(
            l.state.as_mut_ptr(),
            l.state.len(),
            t,
            l.store.as_mut_ptr(),
            l.store.len(),
        )
    }),
    ("hold", |l, _, t, _| unsafe {
        raw::crackledray_hold(
            l.state.as_mut_ptr(),
            l.state.len(),
            t,
            l.store.as_mut_ptr(),
            l.store.len(),
        )
    }),
    ("block", block_call),
];

/// The numbers are the value, 1 and the value again.
fn curve_call(l: &mut Lent, value: f32, time: f64, duration: f64) -> u32 {
    let values = [value, 1.0, value];
    unsafe {
        raw::crackledray_curve(
            l.state.as_mut_ptr(),
            l.state.len(),
            values.as_ptr(),
            values.len(),
            time,
            duration,
            l.store.as_mut_ptr(),
            l.store.len(),
        )
    }
}

/// Four samples of silence.
fn block_call(l: &mut Lent, _: f32, time: f64, period: f64) -> u32 {
    let silence = [0.0f32; 1];
    unsafe {
        raw::crackledray_block(
            l.state.as_mut_ptr(),
            l.state.len(),
            time,
            period,
            4,
            silence.as_ptr(),
            0,
            l.output.as_mut_ptr(),
            l.output.len(),
            l.store.as_mut_ptr(),
            l.store.len(),
            &mut l.steps,
            &mut l.current,
            &mut l.one,
        )
    }
}

// ---- states made by hand

const INFINITY: f64 = f64::INFINITY;
const NAN: f64 = f64::NAN;

type Named = (&'static str, Vec<u64>);

fn good() -> Vec<u64> {
    let mut state = vec![0xdead_beef_dead_beef; raw::STATE];
    let n =
        unsafe { raw::crackledray_make(state.as_mut_ptr(), raw::STATE, -10.0, 0.0, 10.0, false) };
    assert_eq!(n, 0);
    state
}

/// The good state with other numbers at places.
fn with(words: &[(usize, u64)]) -> Vec<u64> {
    let mut state = good();
    for (place, word) in words {
        state[*place] = *word;
    }
    state
}

/// The good state in which these wait.
fn waiting(events: &[[u64; 6]]) -> Vec<u64> {
    let mut state = with(&[(14, events.len() as u64)]);
    state[15..15 + 6 * events.len()].copy_from_slice(&events.concat());
    state
}

/// The same after a block at the time was answered, with this end.
fn ended(mut state: Vec<u64>, time: f64, end: f64) -> Vec<u64> {
    state[7..11].copy_from_slice(&[1, time.to_bits(), 1, end.to_bits()]);
    state
}

fn played(state: Vec<u64>) -> Vec<u64> {
    ended(state, 0.0, 1.0)
}

/// The same as 0.6.0 had it: 398 numbers, version 2, without edition.
fn of_0_6(state: &[u64]) -> Vec<u64> {
    [&[2], &state[1..5], &state[6..]].concat()
}

/// The same as 0.5.0 had it: 395 numbers, without version, edition and end.
fn of_0_5(state: &[u64]) -> Vec<u64> {
    [&state[1..5], &state[6..9], &state[11..]].concat()
}

/// And so many zeros behind it that it has the length of now.
fn longer(state: Vec<u64>) -> Vec<u64> {
    let zeros = vec![0; raw::STATE - state.len()];
    [state, zeros].concat()
}

fn single(value: f32) -> u64 {
    value.to_bits() as u64
}

fn step(value: f32, time: f64) -> [u64; 6] {
    [0, single(value), time.to_bits(), 0, 0, 0]
}

fn linear(value: f32, time: f64) -> [u64; 6] {
    [1, single(value), time.to_bits(), 0, 0, 0]
}

fn exponential(value: f32, time: f64) -> [u64; 6] {
    [2, single(value), time.to_bits(), 0, 0, 0]
}

fn target(value: f32, time: f64, constant: f64) -> [u64; 6] {
    [3, single(value), time.to_bits(), constant.to_bits(), 0, 0]
}

fn curve(numbers: u64, time: f64, duration: f64) -> [u64; 6] {
    [4, numbers, time.to_bits(), duration.to_bits(), 0, 0]
}

fn held(event: [u64; 6], time: f64) -> [u64; 6] {
    [event[0], event[1], event[2], event[3], 1, time.to_bits()]
}

/// Each of these differs from a bad state below by what that one is named for.
fn good_by_hand() -> Vec<Named> {
    vec![
        ("nothing waits", good()),
        ("K-rate", with(&[(4, 1)])),
        ("the second edition", with(&[(5, 2)])),
        ("the second edition, K-rate", with(&[(4, 1), (5, 2)])),
        ("bounds of 0", with(&[(1, 0), (3, 0)])),
        ("a last block", played(good())),
        ("a last block of no length", ended(good(), 2.0, 2.0)),
        ("a last block of no length at 0", ended(good(), 0.0, 0.0)),
        ("a last block that ends at infinity", ended(good(), 2.0, INFINITY)),
        ("no last block: its times are not read", with(&[(8, NAN.to_bits()), (10, NAN.to_bits())])),
        ("a last event", with(&[(11, 1), (12, 1.0f64.to_bits()), (13, 0)])),
        ("a NaN intrinsic value", with(&[(6, single(f32::NAN))])),
        ("a step", waiting(&[step(5.0, 3.0)])),
        ("a step at infinity", played(waiting(&[step(5.0, INFINITY)]))),
        ("a linear ramp", waiting(&[linear(5.0, 3.0)])),
        ("an exponential ramp", waiting(&[exponential(5.0, 3.0)])),
        ("a target", waiting(&[target(5.0, 3.0, 1.0)])),
        ("a curve", waiting(&[curve(2, 3.0, 1.0)])),
        ("a held linear ramp", waiting(&[held(linear(5.0, 3.0), 3.0)])),
        ("a held exponential ramp", waiting(&[held(exponential(5.0, 3.0), 0.0)])),
        ("a held target", waiting(&[held(target(5.0, 3.0, 1.0), 9.0)])),
        ("a held curve", waiting(&[held(curve(2, 3.0, 1.0), 3.5)])),
        ("two at one time", waiting(&[step(5.0, 3.0), linear(6.0, 3.0)])),
        ("a full store", waiting(&[curve(2048, 3.0, 1.0), curve(2048, 4.0, 1.0)])),
        ("a step at a curve's end", waiting(&[curve(2, 3.0, 1.0), step(5.0, 4.0)])),
        ("a step at a curve's hold time", waiting(&[held(curve(2, 3.0, 2.0), 4.0), step(5.0, 4.0)])),
        ("a curve held at its start", waiting(&[held(curve(2, 3.0, 2.0), 3.0), step(5.0, 3.0)])),
        ("a step that a target left at a curve's start", played(waiting(&[step(5.0, 3.0), curve(2, 3.0, 1.0)]))),
        ("64 events", waiting(&[step(5.0, 3.0); 64])),
        ("a step with a hold time, which is not read", waiting(&[held(step(5.0, 3.0), f64::NAN)])),
        ("a ramp with a fourth number, which is not read", waiting(&[[1, single(5.0), 3.0f64.to_bits(), 77, 0, 0]])),
    ]
}

fn bad_heads() -> Vec<Named> {
    vec![
        ("no numbers", vec![]),
        ("398 numbers", good()[..398].to_vec()),
        ("400 numbers", [good(), vec![0]].concat()),
        ("a minimum above the default", with(&[(1, single(11.0))])),
        ("an infinite minimum", with(&[(1, single(f32::NEG_INFINITY))])),
        ("a maximum of NaN", with(&[(3, single(f32::NAN))])),
        ("rate word 2", with(&[(4, 2)])),
        ("rate word 77", with(&[(4, 77)])),
        ("rate word 2^32", with(&[(4, 1 << 32)])),
        ("a last event at NaN", with(&[(11, 1), (12, NAN.to_bits()), (13, 0)])),
        ("65 events", with(&[(14, 65)])),
        ("2^64 - 1 events", with(&[(14, u64::MAX)])),
    ]
}

/// The low bits of three of them are an edition's.
fn bad_editions() -> Vec<Named> {
    let mut busy = played(waiting(&[step(5.0, 3.0)]));
    busy[5] = 3;
    vec![
        ("edition word 0", with(&[(5, 0)])),
        ("edition word 3", with(&[(5, 3)])),
        ("edition word 3, K-rate", with(&[(4, 1), (5, 3)])),
        ("edition word 3, with a block and an event", busy),
        ("edition word 255", with(&[(5, 255)])),
        ("edition word 2^8 + 1", with(&[(5, (1 << 8) + 1)])),
        ("edition word 2^32 + 1", with(&[(5, (1 << 32) + 1)])),
        ("edition word 2^32 + 2", with(&[(5, (1 << 32) + 2)])),
        ("edition word 2^64 - 1", with(&[(5, u64::MAX)])),
    ]
}

/// 0.5.0's of the bounds -10, 0 and 0 and a block, in a longer array, would be one of bounds of 0: there the version alone is bad.
/// One of a minimum of 3 × 2^-149 has the version, and a maximum below its minimum. 0.6.0's with the version of now alone has the
/// intrinsic value, 0, for its edition.
fn bad_versions() -> Vec<Named> {
    let low = [vec![single(-10.0), 0, 0, 0, 0, 1, 1.0f64.to_bits()], vec![0; 388]].concat();
    let tiny = [vec![3, 3, 3, 1, 3], vec![0; 390]].concat();
    let busy = played(waiting(&[step(5.0, 3.0)]));
    let renamed = [&[3], &of_0_6(&good())[1..]].concat();
    vec![
        ("version 0", with(&[(0, 0)])),
        ("version 1", with(&[(0, 1)])),
        ("version 2", with(&[(0, 2)])),
        ("version 4", with(&[(0, 4)])),
        ("version 2^32 + 3", with(&[(0, (1 << 32) + 3)])),
        ("zeros", vec![0; raw::STATE]),
        ("0.6.0's", of_0_6(&good())),
        ("0.6.0's, 399 numbers", longer(of_0_6(&good()))),
        ("0.6.0's with a block and an event", of_0_6(&busy)),
        ("0.6.0's with a block and an event, 399 numbers", longer(of_0_6(&busy))),
        ("0.6.0's of version 3", renamed.clone()),
        ("0.6.0's of version 3, 399 numbers", longer(renamed)),
        ("0.5.0's", of_0_5(&good())),
        ("0.5.0's, 398 numbers", [of_0_5(&good()), vec![0; 3]].concat()),
        ("0.5.0's, 399 numbers", longer(of_0_5(&good()))),
        ("0.5.0's with a block and an event", of_0_5(&busy)),
        ("0.5.0's of a maximum of 0", low.clone()),
        ("0.5.0's of a maximum of 0, 399 numbers", longer(low)),
        ("0.5.0's of a minimum of 3 × 2^-149", tiny.clone()),
        ("0.5.0's of a minimum of 3 × 2^-149, 399 numbers", longer(tiny)),
    ]
}

/// An end is that of its block. Where the time is bad, the end is one for every time.
fn bad_blocks() -> Vec<Named> {
    let four = 4.0f64.to_bits();
    vec![
        ("a last block at NaN", ended(good(), NAN, INFINITY)),
        ("a last block at -5", ended(good(), -5.0, INFINITY)),
        ("a last block at -0", ended(good(), -0.0, INFINITY)),
        ("a last block at infinity", ended(good(), INFINITY, INFINITY)),
        ("a last block without an end", with(&[(7, 1), (8, four), (10, four)])),
        ("an end without a last block", with(&[(8, four), (9, 1), (10, four)])),
        ("an end before its block", ended(good(), 4.0, 3.0)),
        ("an end just before its block", ended(good(), 4.0, 4.0f64.next_down())),
        ("an end below 0", ended(good(), 0.0, -1.0)),
        ("an end at -0", ended(good(), 0.0, -0.0)),
        ("an end at -infinity", ended(good(), 0.0, -INFINITY)),
        ("an end at NaN", ended(good(), 0.0, NAN)),
    ]
}

fn bad_values() -> Vec<[u64; 6]> {
    let mut events = vec![exponential(0.0, 3.0), exponential(-0.0, 3.0)];
    for value in [f32::NAN, f32::INFINITY, f32::NEG_INFINITY] {
        events.extend([step(value, 3.0), linear(value, 3.0)]);
        events.extend([exponential(value, 3.0), target(value, 3.0, 1.0)]);
    }
    events
}

/// Those of a step, which can wait at infinity, first.
fn bad_times() -> Vec<[u64; 6]> {
    let mut events = vec![step(5.0, NAN), step(5.0, -3.0), step(5.0, -0.0), step(5.0, -INFINITY)];
    for time in [NAN, -3.0, -0.0, INFINITY] {
        events.extend([linear(5.0, time), exponential(5.0, time)]);
        events.extend([target(5.0, time, 1.0), curve(2, time, 1.0)]);
    }
    for length in [-1.0, -4.0, 0.0, -0.0, NAN, INFINITY] {
        events.extend([target(5.0, 3.0, length), curve(2, 3.0, length)]);
    }
    for time in [-1.0, -0.0, NAN, INFINITY] {
        events.extend([held(linear(5.0, 3.0), time), held(exponential(5.0, 3.0), time)]);
        events.extend([held(target(5.0, 3.0, 1.0), time), held(curve(2, 3.0, 1.0), time)]);
    }
    events
}

fn bad_others() -> Vec<[u64; 6]> {
    let no_kind = |kind: u64| [kind, 2, 0, 1.0f64.to_bits(), 0, 0];
    vec![
        no_kind(5),
        no_kind(u64::MAX),
        curve(0, 3.0, 1.0),
        curve(1, 3.0, 1.0),
        curve(4097, 3.0, 1.0),
        curve(u64::MAX, 3.0, 1.0),
        held(linear(5.0, 3.0), 3.5),
        held(exponential(5.0, 3.0), 3.5),
        held(curve(2, 3.0, 1.0), 2.5),
        held(curve(2, 3.0, 1.0), 4.5),
    ]
}

fn bad_queues() -> Vec<Named> {
    vec![
        ("a step at infinity before the first block", waiting(&[step(5.0, INFINITY)])),
        ("two out of order", waiting(&[step(5.0, 3.0), step(5.0, 2.0)])),
        ("a step inside a curve", waiting(&[curve(2, 3.0, 1.0), step(5.0, 3.5)])),
        ("a step at a curve's start, behind it", waiting(&[curve(2, 3.0, 1.0), step(5.0, 3.0)])),
        ("a curve inside a curve", waiting(&[curve(2, 3.0, 2.0), curve(2, 4.0, 2.0)])),
        ("a step before a hold", waiting(&[held(curve(2, 3.0, 2.0), 4.0), step(5.0, 3.5)])),
        ("curves of 4,097", waiting(&[curve(2048, 3.0, 1.0), curve(2049, 4.0, 1.0)])),
        ("good, then bad", waiting(&[step(5.0, 3.0), step(f32::NAN, 4.0)])),
    ]
}

/// An event in words: its value (a curve's count), time, time constant or duration, and hold time.
fn told(event: [u64; 6]) -> String {
    let kind = ["step", "linear", "exponential", "target", "curve"].get(event[0] as usize);
    let value = match event[0] {
        4 => event[1].to_string(),
        _ => format!("{:?}", f32::from_bits(event[1] as u32)),
    };
    let [time, other, hold] = [event[2], event[3], event[5]].map(f64::from_bits);
    let held = if event[4] == 0 { String::new() } else { format!(" held at {hold:?}") };
    format!("{} {value} at {time:?} by {other:?}{held}", kind.unwrap_or(&"no kind"))
}

/// Each bad event waits alone, before and after a first block: what is bad is the event.
fn bad_states() -> Vec<(String, Vec<u64>)> {
    let named = [bad_heads(), bad_editions(), bad_versions(), bad_blocks(), bad_queues()].concat();
    let mut all: Vec<_> = named.into_iter().map(|(n, s)| (n.to_string(), s)).collect();
    for event in [bad_values(), bad_times(), bad_others()].concat() {
        all.push((told(event), waiting(&[event])));
        all.push((told(event) + ", after a block", played(waiting(&[event]))));
    }
    all
}

/// The calls that do not answer 100, or change something; with their numbers.
fn wrong_of(state: &[u64]) -> Vec<String> {
    let mut wrong = vec![];
    for (name, call) in CALLS {
        // numbers that a good state answers, and numbers that it refuses
        for (value, time, other) in [(5.0, 2.0, 1.0), (f32::NAN, -1.0, -1.0)] {
            let mut after = lend(state);
            let number = call(&mut after, value, time, other);
            if (number, &after) != (100, &lend(state)) {
                wrong.push(format!("{name} {number}"));
            }
        }
    }
    wrong
}

// ---- tests

#[test]
fn bad_states_are_refused_and_stay() {
    let mut lines = vec![];
    for (name, state) in bad_states() {
        let wrong = wrong_of(&state);
        if !wrong.is_empty() {
            lines.push(format!("{name}: {}", wrong.join(", ")));
        }
    }
    let all = bad_states().len();
    assert!(lines.is_empty(), "{} of {all} are not refused:\n{}", lines.len(), lines.join("\n"));
}

#[test]
fn good_states_are_accepted() {
    for (state, words) in good_by_hand() {
        for (name, call) in CALLS {
            let number = call(&mut lend(&words), 5.0, 2.0, 1.0);
            assert!(number == 0 || number == 7 || number == 8, "{state}: {name} answers {number}");
        }
    }
}

/// Flags above 1, and bits above a float's 32, are read as those below; a refused call leaves them, an answered one does not.
#[test]
fn a_refused_call_leaves_every_word() {
    let mut state = waiting(&[linear(5.0, 3.0)]);
    let flags = [(7, 2), (8, 0), (9, 3), (10, 0), (19, 9), (20, 0)];
    for (place, word) in [&[(1, 7 << 32 | state[1]), (398, 3)], &flags[..]].concat() {
        state[place] = word;
    }
    for (name, call) in CALLS {
        let mut after = lend(&state);
        let number = call(&mut after, f32::NAN, -1.0, -1.0);
        assert!(number == 2 || number == 3 || number == 9, "{name} answers {number}");
        assert_eq!(after.state, state, "{name}");
    }
    let mut after = lend(&state);
    assert_eq!(CALLS[1].1(&mut after, 6.0, 4.0, 0.0), 0);
    assert_eq!((after.state[1], after.state[398]), (single(-10.0), 3));
    assert_eq!([7, 9, 19].map(|flag| after.state[flag]), [1; 3]);
}

/// A target that has arrived becomes a step at the next block's time, here 10^308 + 4 × 10^308.
#[test]
fn a_block_leaves_a_step_at_infinity() {
    let mut lent = lend(&good());
    assert_eq!(CALLS[4].1(&mut lent, 5.0, 0.0, 1.0), 0);
    assert_eq!(block_call(&mut lent, 0.0, 1e308, 1e308), 0);
    assert_eq!(lent.state, ended(lent.state.clone(), 1e308, INFINITY));
    assert_eq!(lent.state[14..21], [vec![1], step(5.0, INFINITY).to_vec()].concat());
    for (name, call) in CALLS {
        assert_eq!(call(&mut lent.clone(), 6.0, 1e308, 1e308), 0, "{name}");
    }
}

/// Its time and four periods; that of the last block, also where one before it reached further.
#[test]
fn a_block_leaves_its_end() {
    let mut lent = lend(&good());
    for (time, period, end) in [(0.0, 4.0, 16.0), (4.0, 0.5, 6.0)] {
        assert_eq!(block_call(&mut lent, 0.0, time, period), 0);
        assert_eq!(lent.state, ended(lent.state.clone(), time, end));
    }
}

/// The value, 5 before, where a curve from 3 to 4 is cancelled, and where a hold before it takes it. The last event's is 2.
fn values_without_curve(mut state: Vec<u64>) -> [f32; 2] {
    state[6] = single(5.0);
    state[11..14].copy_from_slice(&[1, 0, single(2.0)]);
    [(6, 3.5), (7, 2.5)].map(|(i, time)| {
        let mut after = lend(&state);
        assert_eq!((CALLS[i].1(&mut after, 0.0, time, 0.0), after.state[14]), (0, 0));
        f32::from_bits(after.state[6] as u32)
    })
}

#[test]
fn the_end_says_whether_a_curve_had_started() {
    let curve = || waiting(&[curve(2, 3.0, 1.0)]);
    assert_eq!(values_without_curve(curve()), [5.0; 2]);
    assert_eq!(values_without_curve(ended(curve(), 0.0, 3.0f64.next_down())), [5.0; 2]);
    assert_eq!(values_without_curve(ended(curve(), 0.0, 3.0)), [2.0; 2]);
    assert_eq!(values_without_curve(ended(curve(), 3.0, INFINITY)), [2.0; 2]);
}

/// As README.md says how a state of 0.6.0 is moved.
fn moved_from_0_6(state: &[u64]) -> Vec<u64> {
    [&[3], &state[1..5], &[1], &state[5..]].concat()
}

/// And one of 0.5.0.
fn moved_from_0_5(state: &[u64], end: [u64; 2]) -> Vec<u64> {
    [&[3], &state[..4], &[1], &state[4..7], &end, &state[7..]].concat()
}

#[test]
fn a_state_of_0_6_can_be_moved() {
    let mut lent = lend(&waiting(&[step(5.0, 3.0)]));
    assert_eq!(moved_from_0_6(&of_0_6(&lent.state)), lent.state);
    assert_eq!(block_call(&mut lent, 0.0, 0.7, 0.1), 0);
    assert_eq!(moved_from_0_6(&of_0_6(&lent.state)), lent.state);
}

#[test]
fn a_state_of_0_5_can_be_moved() {
    let mut lent = lend(&waiting(&[step(5.0, 3.0)]));
    assert_eq!(moved_from_0_5(&of_0_5(&lent.state), [0, 0]), lent.state);
    assert_eq!(block_call(&mut lent, 0.0, 0.7, 0.1), 0);
    let end = 4f64.mul_add(0.1, 0.7);
    assert_eq!(moved_from_0_5(&of_0_5(&lent.state), [1, end.to_bits()]), lent.state);
}

/// Numbers of Knuth's generator, for choices.
struct Dice(u64);

impl Dice {
    fn of<T: Copy>(&mut self, choices: &[T]) -> T {
        self.0 = self.0.wrapping_mul(6364136223846793005).wrapping_add(1442695040888963407);
        choices[(self.0 >> 33) as usize % choices.len()]
    }
}

#[test]
fn what_calls_leave_is_accepted() {
    let values = [0.0, -0.0, 1.0, -3.0, 5.0, 1e-45, f32::MAX, f32::MIN, f32::NAN, f32::INFINITY];
    let times = [0.0, -0.0, 0.0, 1.0, 1.0, 2.5, 4.0, 4.0, 9.0, 5e-324, 1e308, -1.0, NAN, INFINITY];
    let others = [0.0, -0.0, 0.25, 1.0, 1.0, 3.0, 5e-324, 1e308, -1.0, NAN, INFINITY];
    let mut dice = Dice(1);
    let mut answered = [0; 9];
    for _ in 0..2000 {
        let edition = dice.of(&[1, 2]);
        let mut lent = lend(&with(&[(5, edition)]));
        lent.store.fill(dice.of(&[0.0, 0.25, f32::NAN, f32::MAX]));
        for _ in 0..40 {
            let i = dice.of(&[0, 1, 2, 3, 4, 5, 6, 7, 8, 8, 8]);
            let (value, time, other) = (dice.of(&values), dice.of(&times), dice.of(&others));
            let before = lent.state.clone();
            let number = CALLS[i].1(&mut lent, value, time, other);
            assert_ne!(number, 100, "{} of {before:x?}", CALLS[i].0);
            assert!(number == 0 || lent.state == before, "{} changes {before:x?}", CALLS[i].0);
            assert_eq!(lent.state[5], edition, "{} of {before:x?}", CALLS[i].0);
            answered[i] += (number == 0) as usize;
        }
    }
    assert!(answered.iter().all(|n| *n > 1000), "{answered:?}");
}

/// The same random calls under the first and under the second: blocks have four samples.
#[test]
fn the_editions_differ_in_nothing_else() {
    let values = [0.0, -0.0, 1.0, -3.0, 5.0, 1e-45, f32::MAX, f32::NAN];
    let times = [0.0, 0.0, 1.0, 1.0, 2.5, 4.0, 4.0, 9.0, 1e308, -1.0, NAN];
    let others = [0.0, 0.25, 1.0, 1.0, 3.0, 1e308, -1.0, NAN];
    let mut dice = Dice(19);
    for _ in 0..1000 {
        let (mut first, mut second) = (lend(&good()), lend(&with(&[(5, 2)])));
        for _ in 0..40 {
            let i = dice.of(&[0, 1, 2, 3, 4, 5, 6, 7, 8, 8, 8]);
            let (value, time, other) = (dice.of(&values), dice.of(&times), dice.of(&others));
            let number = CALLS[i].1(&mut first, value, time, other);
            assert_eq!(CALLS[i].1(&mut second, value, time, other), number, "{}", CALLS[i].0);
            let mut like = second.clone();
            like.state[5] = 1;
            assert_eq!(like, first, "{}", CALLS[i].0);
        }
    }
}

#[test]
fn a_store_of_4095_floats_is_refused() {
    let mut lent = lend(&waiting(&[step(5.0, 3.0)]));
    lent.store.pop();
    let state = lent.state.clone();
    assert_eq!(block_call(&mut lent, 0.0, 0.0, 1.0), 14);
    assert_eq!((lent.state, lent.output), (state, [-77.0; 4]));
    assert_eq!((lent.steps, lent.current, lent.one), (0, 0.0, false));
}

/// A make of these bounds over a state of so many numbers, all 3; under an edition, or by the call that has none.
fn made_over(
    length: usize,
    bounds: [f32; 3],
    k_rate: bool,
    edition: Option<u64>,
) -> (u32, Vec<u64>) {
    let (mut state, [min, default, max]) = (vec![3u64; length], bounds);
    let s = state.as_mut_ptr();
    let number = unsafe {
        match edition {
            None => raw::crackledray_make(s, length, min, default, max, k_rate),
            Some(e) => raw::crackledray_make_under(s, length, min, default, max, k_rate, e),
        }
    };
    (number, state)
}

#[test]
fn a_bad_length_is_not_made() {
    for length in [395, 397, 398, 400] {
        for (low, edition) in [(0.0, None), (0.0, Some(1)), (0.0, Some(2)), (2.0, Some(3))] {
            let made = made_over(length, [low, 0.0, 1.0], false, edition);
            assert_eq!(made, (100, vec![3; length]), "{low}, {edition:?}");
        }
    }
}

/// A parameter of A-rate and the first edition with all numbers 0 is written behind the version: a state that is accepted.
#[test]
fn a_refused_make_writes_a_state_of_zeros() {
    let (good, bad) = ([0.0, 0.0, 1.0], [1.0, 0.0, 2.0]);
    let unknown = [0, 3, 255, 257, 1 << 32, (1 << 32) + 2, u64::MAX];
    let mut all = vec![(1, bad, None), (1, bad, Some(1)), (1, bad, Some(2))];
    all.extend(unknown.map(|edition| (1, bad, Some(edition))));
    all.extend(unknown.map(|edition| (12, good, Some(edition))));
    for (why, bounds, edition) in all {
        let (number, state) = made_over(raw::STATE, bounds, true, edition);
        assert_eq!((number, state[0], state[5]), (why, raw::STATE_VERSION, 1), "{edition:?}");
        assert_eq!((&state[1..5], &state[6..15]), (&[0; 4][..], &[0; 9][..]), "{edition:?}");
        assert_eq!(state[15..], [3; 384], "{edition:?}");
        assert_eq!(CALLS[0].1(&mut lend(&state), 5.0, 0.0, 0.0), 0, "{edition:?}");
    }
}

/// The rest of the state is what the call without an edition writes.
#[test]
fn a_make_writes_its_edition() {
    for k_rate in [false, true] {
        let (number, mut state) = made_over(raw::STATE, [-1.0, 0.5, 2.0], k_rate, None);
        assert_eq!((number, state[5]), (0, 1));
        for edition in [1, 2] {
            state[5] = edition;
            let made = made_over(raw::STATE, [-1.0, 0.5, 2.0], k_rate, Some(edition));
            assert_eq!(made, (0, state.clone()));
        }
    }
}
