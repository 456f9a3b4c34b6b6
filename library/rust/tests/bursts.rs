//! Bursts of cancels (02, C-17), raw: a burst leaves the state and the store of one cancel at the least time that is accepted, and
//! the blocks behind it are the same. Not so where another call stands between the cancels.
use crackledray::raw;

/// What a caller owns, by its bits: a NaN is itself, and -0 is not 0.
#[derive(Clone, Debug, PartialEq)]
struct Owned {
    state: Vec<u64>,
    store: Vec<u32>,
}

/// A parameter from -10 to 10 of A-rate; its store has no zeros before the first call.
fn fresh() -> Owned {
    let mut state = vec![0xdead_beef_dead_beef; raw::STATE];
    let n =
        unsafe { raw::crackledray_make(state.as_mut_ptr(), raw::STATE, -10.0, 0.0, 10.0, false) };
    assert_eq!(n, 0);
    Owned { state, store: vec![0x7f00_0001; raw::STORE] }
}

type Timed = unsafe extern "C" fn(*mut u64, usize, f64, *mut f32, usize) -> u32;
type Valued = unsafe extern "C" fn(*mut u64, usize, f32, f64) -> u32;

impl Owned {
    fn timed(&mut self, call: Timed, time: f64) -> u32 {
        let (state, store) = (&mut self.state, self.store.as_mut_ptr().cast());
        unsafe { call(state.as_mut_ptr(), state.len(), time, store, self.store.len()) }
    }

    fn cancel(&mut self, time: f64) -> u32 {
        self.timed(raw::crackledray_cancel, time)
    }

    fn hold(&mut self, time: f64) {
        assert_eq!(self.timed(raw::crackledray_hold, time), 0, "a hold at {time}");
    }

    fn valued(mut self, call: Valued, value: f32, time: f64) -> Self {
        let n = unsafe { call(self.state.as_mut_ptr(), self.state.len(), value, time) };
        assert_eq!(n, 0, "{value} at {time}");
        self
    }

    fn step(self, value: f32, time: f64) -> Self {
        self.valued(raw::crackledray_step, value, time)
    }

    fn linear(self, value: f32, time: f64) -> Self {
        self.valued(raw::crackledray_linear, value, time)
    }

    fn curve(mut self, values: &[f32], time: f64, duration: f64) -> Self {
        let (state, store) = (&mut self.state, self.store.as_mut_ptr().cast());
        let n = unsafe {
            raw::crackledray_curve(
                state.as_mut_ptr(),
                state.len(),
                values.as_ptr(),
                values.len(),
                time,
                duration,
                store,
                self.store.len(),
            )
        };
        assert_eq!(n, 0, "a curve from {time}");
        self
    }

    /// A block of period 1 with silence: its samples, steps, current value, and whether they are one.
    fn block(&mut self, time: f64, count: usize) -> (Vec<u32>, usize, u32, bool) {
        let (mut output, silence) = (vec![0f32; count], [0f32; 1]);
        let (mut steps, mut current, mut one) = (0, 0.0, false);
        let n = unsafe {
            raw::crackledray_block(
                self.state.as_mut_ptr(),
                self.state.len(),
                time,
                1.0,
                count,
                silence.as_ptr(),
                0,
                output.as_mut_ptr(),
                output.len(),
                self.store.as_mut_ptr().cast(),
                self.store.len(),
                &mut steps,
                &mut current,
                &mut one,
            )
        };
        assert_eq!(n, 0, "a block at {time}");
        (output.into_iter().map(f32::to_bits).collect(), steps, f32::to_bits(current), one)
    }

    fn played(mut self, time: f64, count: usize) -> Self {
        self.block(time, count);
        self
    }

    fn waiting(&self) -> u64 {
        self.state[14]
    }

    fn value(&self) -> f32 {
        f32::from_bits(self.state[6] as u32)
    }

    /// The number that a cancel at this time is answered with.
    fn answer(&self, time: f64) -> u32 {
        match time {
            _ if !time.is_finite() => 2,
            _ if time < 0.0 => 3,
            _ if self.store.len() != raw::STORE => 14,
            _ => 0,
        }
    }
}

/// The burst, each cancel answered as its time says, and a refused one changing nothing.
fn burst(mut p: Owned, times: &[f64]) -> Owned {
    for time in times {
        let before = p.clone();
        let number = p.cancel(*time);
        assert_eq!(number, before.answer(*time), "{time:?} of {times:?}");
        assert!(
            number == 0 || p == before,
            "{time:?} of {times:?} is refused, and changes something"
        );
    }
    p
}

/// One cancel at the least time that is accepted; nothing where none is.
fn one(mut p: Owned, times: &[f64]) -> Owned {
    let accepted = times.iter().copied().filter(|time| p.answer(*time) == 0);
    if let Some(least) = accepted.reduce(f64::min) {
        assert_eq!(p.cancel(least), 0);
    }
    p
}

/// The burst beside its one cancel: state, store, and two blocks from `next` on, which reach behind all events of these tests.
/// What they leave.
fn same(p: &Owned, times: &[f64], next: f64) -> Owned {
    let (mut a, mut b) = (burst(p.clone(), times), one(p.clone(), times));
    assert!(a == b, "{times:?}: {:?} beside {:?}", a.state, b.state);
    let left = a.clone();
    for (time, count) in [(next, 5), (next + 5.0, 128)] {
        assert_eq!(a.block(time, count), b.block(time, count), "{times:?}: a block at {time}");
        assert!(a == b, "{times:?}: behind the block at {time}");
    }
    left
}

/// A step to 1, a ramp to 8 at 10, a curve from 12 to 16, a step at 20.
fn waiting() -> Owned {
    fresh().step(1.0, 0.0).linear(8.0, 10.0).curve(&[5.0, -5.0, 2.0], 12.0, 4.0).step(3.0, 20.0)
}

/// At, beside and between its events' times, and behind them.
const TIMES: [f64; 14] =
    [0.0, -0.0, 5e-324, 7.0, 9.999, 10.0, 10.001, 12.0, 14.0, 16.0, 16.001, 20.0, 20.001, 1e308];

#[test]
fn two_cancels_are_one_in_either_order() {
    let mut left = [0; 5];
    for first in TIMES {
        for second in TIMES {
            let p = same(&waiting(), &[first, second], 0.0);
            assert_eq!(p, same(&waiting(), &[second, first], 0.0));
            left[p.waiting() as usize] += 1;
        }
    }
    assert!(left.iter().all(|n| *n > 0), "how many are left: {left:?}");
}

#[test]
fn a_repeated_cancel_changes_nothing_more() {
    for time in TIMES {
        let once = same(&waiting(), &[time], 0.0);
        assert_eq!(once, same(&waiting(), &[time; 2], 0.0), "{time}");
        assert_eq!(once, same(&waiting(), &[time; 7], 0.0), "{time}");
        assert_eq!(once, burst(once.clone(), &[time]), "{time}");
    }
}

#[test]
fn minus_zero_is_zero() {
    assert_eq!(burst(waiting(), &[-0.0]), burst(waiting(), &[0.0]));
}

const REFUSED: [f64; 6] = [f64::NAN, f64::INFINITY, f64::NEG_INFINITY, -1.0, -5e-324, f64::MIN];

#[test]
fn refused_cancels_count_nowhere() {
    let all = [&[14.0], &REFUSED[..], &[11.0], &REFUSED, &[30.0]].concat();
    assert_eq!(same(&waiting(), &all, 0.0), burst(waiting(), &[11.0]));
    assert_eq!(same(&waiting(), &REFUSED, 0.0), waiting());
    for time in REFUSED {
        assert_eq!(same(&waiting(), &[20.0, time, 10.0], 0.0).waiting(), 1, "{time}");
    }
}

/// By 14; the blocks are played with the whole store again.
#[test]
fn with_a_store_of_4095_all_are_refused() {
    let mut p = waiting();
    let last = p.store.pop().unwrap();
    let mut left = burst(p, &[14.0, f64::NAN, 7.0, -1.0]);
    left.store.push(last);
    assert_eq!(left, waiting());
}

/// A step to 2; a curve from 1 to 6 of which a block has played up to 3, where it is at 4; a step at 9.
fn running_curve() -> Owned {
    let p = fresh().step(2.0, 0.0).curve(&[0.0, 10.0], 1.0, 5.0).step(7.0, 9.0).played(0.0, 3);
    assert_eq!((p.waiting(), p.value()), (2, 4.0));
    p
}

#[test]
fn a_running_curve_goes_once() {
    for times in [[8.0, 3.0], [3.0, 8.0], [6.0, 0.0], [9.0, 6.0], [1.0, 1.0], [6.0, 5.0]] {
        let p = same(&running_curve(), &times, 3.0);
        assert_eq!((p.waiting(), p.value()), (0, 2.0), "{times:?}");
    }
    let p = same(&running_curve(), &[9.0, 6.0f64.next_up(), 7.0], 3.0);
    assert_eq!((p.waiting(), p.value()), (1, 4.0));
}

/// A step to 2; a ramp to 10 at 8 of which a block has played up to 4, where it is at 6; a curve from 9 to 11.
fn running_ramp() -> Owned {
    let p = fresh().step(2.0, 0.0).linear(10.0, 8.0).curve(&[1.0, -1.0], 9.0, 2.0).played(0.0, 4);
    assert_eq!((p.waiting(), p.value()), (2, 6.0));
    p
}

#[test]
fn a_running_ramp_goes_once() {
    for times in [[10.0, 5.0], [5.0, 10.0], [8.0, 8.0], [11.0, 0.0], [8.0, 9.0]] {
        let p = same(&running_ramp(), &times, 4.0);
        assert_eq!((p.waiting(), p.value()), (0, 2.0), "{times:?}");
    }
    let p = same(&running_ramp(), &[12.0, 11.0, 8.0f64.next_up()], 4.0);
    assert_eq!((p.waiting(), p.value()), (1, 6.0));
}

/// The ramp is held, so filed under its hold time: a cancel behind that leaves it.
#[test]
fn a_held_ramp_goes_by_its_hold_time() {
    let mut p = running_ramp();
    p.hold(5.0);
    let p = p.step(1.0, 6.0);
    let left = [[9.0, 5.5], [5.5, 9.0]].map(|times| same(&p, &times, 4.0));
    assert_eq!(left.map(|p| (p.waiting(), p.value())), [(1, 6.0); 2]);
    let left = [[5.0, 7.0], [7.0, 5.0]].map(|times| same(&p, &times, 4.0));
    assert_eq!(left.map(|p| (p.waiting(), p.value())), [(0, 2.0); 2]);
}

/// The ramp is the head; the curve goes first, or with it.
#[test]
fn a_curve_behind_a_ramp() {
    for times in [[9.5, 4.0], [4.0, 9.5], [11.0, 8.0], [8.0, 11.0]] {
        let left = same(&running_ramp(), &times, 4.0);
        assert_eq!((left.waiting(), left.value()), (0, 2.0), "{times:?}");
    }
    for times in [[11.0, 8.5], [8.5, 11.0], [9.0, 10.0]] {
        let left = same(&running_ramp(), &times, 4.0);
        assert_eq!((left.waiting(), left.value()), (1, 6.0), "{times:?}");
    }
    assert_eq!(same(&running_ramp(), &[13.0, 11.5], 4.0), running_ramp());
}

/// The curve is put ahead of the ramp that runs, and had started by the block's end: the ramp goes first, and leaves the value;
/// the curve does not.
#[test]
fn a_curve_ahead_of_a_running_ramp() {
    let p = || running_ramp().curve(&[3.0, 4.0], 2.0, 1.0);
    for times in [[8.0, 1.0], [1.0, 8.0], [3.0, 11.0], [5.0, 3.0]] {
        let left = same(&p(), &times, 4.0);
        assert_eq!((left.waiting(), left.value()), (0, 2.0), "{times:?}");
    }
    for times in [[8.0, 3.5], [3.5, 8.0]] {
        let left = same(&p(), &times, 4.0);
        assert_eq!((left.waiting(), left.value()), (1, 6.0), "{times:?}");
    }
}

/// 64 events, every fourth of them a curve; their 4,096 numbers fill the store.
fn full() -> Owned {
    let mut p = fresh();
    for i in 0..64 {
        let (time, value) = (i as f64, (i % 10) as f32);
        let numbers: Vec<f32> = (0..256).map(|k| (i * 256 + k) as f32 / 2048.0).collect();
        p = match i % 4 {
            0 => p.step(value, time),
            1 => p.linear(-value, time),
            2 => p.curve(&numbers, time, 0.5),
            _ => p.valued(raw::crackledray_exponential, value + 0.5, time),
        };
    }
    assert_eq!((p.waiting(), p.store[4095]), (64, ((62 * 256 + 255) as f32 / 2048.0).to_bits()));
    p
}

#[test]
fn a_full_queue_and_a_full_store() {
    for low in [0.0, 2.5, 2.75, 17.0, 30.25, 33.0, 62.5, 63.0, 70.0] {
        for high in [3.0, 31.0, 34.5, 62.0, 63.0, 64.0] {
            let left = same(&full(), &[high, low, high, f64::NAN, low], 0.0);
            assert_eq!(left, same(&full(), &[low, high], 0.0));
            let numbers = left.store.iter().rposition(|bits| *bits != 0).map_or(0, |i| i + 1);
            let curves = (0..16).filter(|i| ((4 * i + 2) as f64 + 0.5) < low.min(high)).count();
            assert_eq!(numbers, 256 * curves, "{low} and {high}");
        }
    }
    let falling: Vec<f64> = (0..=128).map(|i| (128 - i) as f64 / 2.0).collect();
    assert_eq!(same(&full(), &falling, 0.0).waiting(), 0);
    // the least is 34.5, the very end of a curve
    assert_eq!(same(&full(), &falling[..60], 0.0).waiting(), 34);
}

/// The same behind blocks, where events are finished and a head may run.
#[test]
fn a_full_queue_that_plays() {
    for count in [1, 2, 3, 30, 47] {
        let p = full().played(0.0, count);
        for (high, low) in [(60.0, 48.0), (63.5, 50.5), (50.0, 0.0), (48.25, 47.75)] {
            let left = same(&p, &[high, low], count as f64);
            assert_eq!(left, same(&p, &[low, high, high], count as f64));
        }
    }
}

/// 02: "no call standing between the two cancels".
#[test]
fn a_hold_between_them_breaks_it() {
    let ramp = || fresh().step(1.0, 0.0).linear(8.0, 10.0).played(0.0, 2);
    let between = |first: f64, second: f64| {
        let mut p = burst(ramp(), &[first]);
        p.hold(5.0);
        burst(p, &[second])
    };
    let (earlier, later) = (between(7.0, 20.0), between(20.0, 7.0));
    assert_eq!((earlier.waiting(), later.waiting()), (0, 1));
    let held = [1, 8.0f32.to_bits() as u64, 10.0f64.to_bits(), 0, 1, 5.0f64.to_bits()];
    assert_eq!(later.state[15..21], held);
    assert_eq!(same(&ramp(), &[20.0, 7.0], 2.0), same(&ramp(), &[7.0, 20.0], 2.0));
}
