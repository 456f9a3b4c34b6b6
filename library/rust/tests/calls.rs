//! The bench sheet of document 01, cancelled curves (02, C-12), every refusal, the version, the layout and the numbers, through the library.
use crackledray::{raw, version, AudioParam, AutomationRate, Block, Edition, Error};
use AutomationRate::{A, K};

type Made = Result<AudioParam, Error>;

fn ten() -> AudioParam {
    AudioParam::new(-10.0, 0.0, 10.0, A).unwrap()
}

/// Makes calls, all of which are answered.
fn with(mut p: AudioParam, calls: impl FnOnce(&mut AudioParam) -> Result<(), Error>) -> AudioParam {
    calls(&mut p).unwrap();
    p
}

/// A block at `time` of period 1 with silence: its samples and its steps. The place behind them stays.
fn block(p: &mut AudioParam, time: f64, count: usize) -> (Vec<f32>, usize) {
    let mut output = vec![-77.0; count + 1];
    let b = p.process(time, 1.0, count, &[], &mut output).unwrap();
    assert_eq!(output.pop(), Some(-77.0));
    (output, b.steps)
}

#[test]
fn bench_sheet() {
    let mut b2 = with(ten(), |p| p.set_value_at_time(5.0, 2.0));
    assert_eq!(block(&mut b2, 0.0, 4), (vec![0.0, 0.0, 5.0, 5.0], 2));
    let mut b3 = with(ten(), |p| p.set_value_at_time(5.0, 2.5));
    assert_eq!(block(&mut b3, 0.0, 4), (vec![0.0, 0.0, 0.0, 5.0], 2));
    let mut b4 = with(ten(), |p| p.set_value_at_time(5.0, 4.0));
    assert_eq!(block(&mut b4, 0.0, 4), (vec![0.0; 4], 2));
    assert_eq!(block(&mut b4, 4.0, 4), (vec![5.0; 4], 1));
    let b5 = with(ten(), |p| {
        p.set_value_at_time(0.0, 0.0)?;
        p.linear_ramp_to_value_at_time(8.0, 8.0)
    });
    let up = vec![0.0, 1.0, 2.0, 3.0, 4.0, 5.0, 6.0, 7.0, 8.0, 8.0];
    assert_eq!(block(&mut b5.clone(), 0.0, 10), (up, 3));
    let mut b6 = with(b5.clone(), |p| p.cancel_and_hold_at_time(2.0));
    assert_eq!(block(&mut b6, 0.0, 4), (vec![0.0, 1.0, 2.0, 2.0], 3));
    let mut b7 = with(ten(), |p| p.set_value_curve_at_time(&[0.0, 4.0, 0.0], 0.0, 4.0));
    assert_eq!(block(&mut b7, 0.0, 6), (vec![0.0, 2.0, 4.0, 2.0, 0.0, 0.0], 2));
    let mut b8 = with(ten(), |p| {
        p.set_value_at_time(0.0, 0.0)?;
        p.exponential_ramp_to_value_at_time(5.0, 3.0)
    });
    assert_eq!(block(&mut b8, 0.0, 5), (vec![0.0, 0.0, 0.0, 5.0, 5.0], 4));
    let three = AudioParam::new(-10.0, 0.0, 3.0, A).unwrap();
    let mut b9 = with(three, |p| p.set_value_at_time(5.0, 2.0));
    assert_eq!(block(&mut b9, 0.0, 4), (vec![0.0, 0.0, 3.0, 3.0], 2));
    let mut b12 = b5;
    assert_eq!(block(&mut b12, 0.0, 4), (vec![0.0, 1.0, 2.0, 3.0], 2));
    b12.cancel_scheduled_values(5.0).unwrap();
    assert_eq!(block(&mut b12, 4.0, 4), (vec![0.0; 4], 1));
}

#[test]
fn bench_sheet_k_rate_and_mix() {
    let k = AudioParam::new(-10.0, 0.0, 10.0, K).unwrap();
    let mut b10 = with(k, |p| p.set_value_at_time(5.0, 0.0));
    assert_eq!(block(&mut b10, 0.0, 4), (vec![0.0; 4], 2));
    assert_eq!(block(&mut b10, 4.0, 4), (vec![5.0; 4], 1));
    let mut b11 = AudioParam::new(-1.0, 0.5, 1.0, A).unwrap();
    let mut output = [0.0; 2];
    let said = b11.process(0.0, 1.0, 2, &[f32::NAN, 0.0], &mut output);
    let rests = Block { steps: 1, current: 0.5, one: false };
    assert_eq!((output, said), ([0.5; 2], Ok(rests)));
}

/// A step to 2, and a curve from 1 to 6 of which a block has played up to 3; there it is at 4.
fn running() -> AudioParam {
    let mut p = with(ten(), |p| {
        p.set_value_at_time(2.0, 0.0)?;
        p.set_value_curve_at_time(&[0.0, 10.0], 1.0, 5.0)
    });
    assert_eq!(block(&mut p, 0.0, 3), (vec![2.0, 0.0, 2.0], 2));
    p
}

#[test]
fn a_cancel_takes_a_running_curve() {
    for time in [0.0, 1.0, 3.0, 6.0] {
        let mut p = with(running(), |p| p.cancel_scheduled_values(time));
        assert_eq!(p.waiting(), 0, "cancelled at {time}");
        assert_eq!(block(&mut p, 3.0, 4), (vec![2.0; 4], 1), "cancelled at {time}");
    }
}

#[test]
fn a_cancel_behind_a_curve_leaves_it() {
    let mut p = with(running(), |p| p.cancel_scheduled_values(6.0f64.next_up()));
    assert_eq!(block(&mut p, 3.0, 5), (vec![4.0, 6.0, 8.0, 10.0, 10.0], 2));
}

#[test]
fn a_held_curve_ends_at_its_hold_time() {
    let held = with(running(), |p| p.cancel_and_hold_at_time(4.0));
    let mut left = with(held.clone(), |p| p.cancel_scheduled_values(4.0f64.next_up()));
    assert_eq!(block(&mut left, 3.0, 4), (vec![4.0, 6.0, 6.0, 6.0], 2));
    let mut taken = with(held, |p| p.cancel_scheduled_values(4.0));
    assert_eq!(block(&mut taken, 3.0, 4), (vec![2.0; 4], 1));
}

/// A hold at its very start holds it there, at 0.
#[test]
fn a_hold_before_a_running_curve_takes_it() {
    let mut taken = with(running(), |p| p.cancel_and_hold_at_time(1.0f64.next_down()));
    assert_eq!(block(&mut taken, 3.0, 4), (vec![2.0; 4], 1));
    let mut held = with(running(), |p| p.cancel_and_hold_at_time(1.0));
    assert_eq!(block(&mut held, 3.0, 4), (vec![0.0; 4], 2));
}

/// A ramp has played up to 4, where the next block begins; then a curve goes ahead of it, and is cancelled with it.
#[test]
fn the_value_returns_where_the_curve_had_started() {
    for (start, level) in [(3.0, 0.0), (4.0, 0.0), (4.0f64.next_up(), 4.0)] {
        let mut p = with(ten(), |p| {
            p.set_value_at_time(0.0, 0.0)?;
            p.linear_ramp_to_value_at_time(8.0, 8.0)
        });
        assert_eq!(block(&mut p, 0.0, 4), (vec![0.0, 1.0, 2.0, 3.0], 2));
        p.set_value_curve_at_time(&[5.0, 6.0], start, 1.0).unwrap();
        p.cancel_scheduled_values(0.0).unwrap();
        assert_eq!(block(&mut p, 4.0, 4), (vec![level; 4], 1), "a curve from {start}");
    }
}

/// No event is finished that the value could return to.
#[test]
fn without_a_last_event_the_value_stays() {
    let mut p = with(ten(), |p| p.set_value_curve_at_time(&[0.0, 10.0], 0.0, 5.0));
    assert_eq!(block(&mut p, 0.0, 3), (vec![0.0, 2.0, 4.0], 1));
    p.cancel_scheduled_values(3.0).unwrap();
    assert_eq!(block(&mut p, 3.0, 4), (vec![6.0; 4], 1));
}

/// A set has gone ahead of it; the current value is the one before the block.
#[test]
fn behind_another_event_a_curve_leaves_the_value() {
    let mut p = with(running(), |p| {
        p.set_value(9.0)?;
        p.cancel_scheduled_values(3.0)
    });
    assert_eq!(p.waiting(), 1);
    assert_eq!(p.process(3.0, 1.0, 1, &[], &mut [0.0]).unwrap().current, 4.0);
}

#[test]
fn what_a_parameter_says() {
    let mut p = AudioParam::new(-1.0, 0.5, 2.0, K).unwrap();
    assert_eq!((p.min_value(), p.default_value(), p.max_value()), (-1.0, 0.5, 2.0));
    assert_eq!((p.automation_rate(), p.waiting()), (K, 0));
    p.set_value(1.0).unwrap();
    p.set_target_at_time(1.0, 2.0, 3.0).unwrap();
    assert_eq!(p.waiting(), 2);
}

#[test]
fn refusals() {
    let refused: Made = AudioParam::new(1.0, 0.0, 2.0, A);
    assert_eq!(refused.err(), Some(Error::Bounds));
    let mut p = ten();
    assert_eq!(p.set_value(f32::NAN), Err(Error::NotFinite));
    assert_eq!(p.set_value_at_time(1.0, -1.0), Err(Error::BeforeZero));
    assert_eq!(p.set_target_at_time(1.0, 1.0, -1.0), Err(Error::NotAbove));
    assert_eq!(p.exponential_ramp_to_value_at_time(0.0, 1.0), Err(Error::ZeroTarget));
    assert_eq!(p.set_value_curve_at_time(&[1.0], 0.0, 1.0), Err(Error::ShortCurve));
    assert_eq!(p.set_value_curve_at_time(&[1.0; 4097], 0.0, 1.0), Err(Error::StoreFull));
    assert_eq!(p.cancel_scheduled_values(f64::INFINITY), Err(Error::NotFinite));
    assert_eq!(p.cancel_and_hold_at_time(-1.0), Err(Error::BeforeZero));
    let mut output = [0.0; 128];
    assert_eq!(p.process(0.0, 1.0, 129, &[], &mut output), Err(Error::BadBlock));
    assert_eq!(p.process(0.0, 1.0, 2, &[0.0], &mut output), Err(Error::BadBlock));
    p.process(4.0, 1.0, 4, &[], &mut output).unwrap();
    assert_eq!(p.process(3.0, 1.0, 4, &[], &mut output), Err(Error::OutOfOrder));
    p.set_value_curve_at_time(&[1.0, 2.0], 10.0, 5.0).unwrap();
    assert_eq!(p.set_value_at_time(1.0, 10.0), Err(Error::Inside));
    p.set_value_at_time(1.0, 15.0).unwrap();
    assert_eq!(p.set_value_curve_at_time(&[1.0, 2.0], 9.0, 2.0), Err(Error::Inside));
    for i in 0..62 {
        p.set_value_at_time(1.0, 100.0 + i as f64).unwrap();
    }
    assert_eq!(p.set_value_at_time(1.0, 14.0), Err(Error::Inside));
    assert_eq!(p.set_value(0.0), Err(Error::QueueFull));
    assert_eq!(p.waiting(), 64);
}

/// The number behind a word that begins a line.
fn named<'a>(file: &'a str, word: &str) -> &'a str {
    file.lines().find_map(|line| line.strip_prefix(word)).unwrap().trim()
}

#[test]
fn one_version_everywhere() {
    let (header, cargo) = (include_str!("../../crackledray.h"), include_str!("../Cargo.toml"));
    assert_eq!(version(), raw::VERSION);
    assert_eq!(named(header, "#define CRACKLEDRAY_VERSION "), format!("0x{:06x}u", raw::VERSION));
    let [_, major, minor, patch] = raw::VERSION.to_be_bytes();
    assert_eq!(named(cargo, "version ="), format!("\"{major}.{minor}.{patch}\""));
}

/// The number of a name in an enum of the header.
fn in_header(name: &str) -> u64 {
    let number = named(include_str!("../../crackledray.h"), &format!("    {name} = "));
    number.split([',', ' ']).next().unwrap().parse().unwrap()
}

#[test]
fn one_layout_everywhere() {
    assert_eq!(in_header("CRACKLEDRAY_STATE"), raw::STATE as u64);
    assert_eq!(in_header("CRACKLEDRAY_STATE_VERSION"), raw::STATE_VERSION);
    assert_eq!(in_header("CRACKLEDRAY_STORE"), raw::STORE as u64);
    assert_eq!(in_header("CRACKLEDRAY_COUNT"), raw::COUNT as u64);
    assert_eq!(in_header("CRACKLEDRAY_LONG_COUNT"), raw::LONG_COUNT as u64);
    let mut state = [0; raw::STATE];
    let n = unsafe { raw::crackledray_make(state.as_mut_ptr(), raw::STATE, 0.0, 0.0, 1.0, false) };
    assert_eq!((n, state[0]), (0, raw::STATE_VERSION));
}

/// An error's name in the header: `NotFinite` is CRACKLEDRAY_NOT_FINITE.
fn in_capitals(error: Error) -> String {
    format!("{error:?}").chars().fold("CRACKLEDRAY".to_string(), |name, c| {
        let parted = if c.is_uppercase() { "_" } else { "" };
        name + parted + &c.to_ascii_uppercase().to_string()
    })
}

#[test]
fn one_number_everywhere() {
    for error in Error::ALL {
        assert_eq!(in_header(&in_capitals(error)), error.number() as u64);
    }
    assert_eq!(in_header("CRACKLEDRAY_FIRST_EDITION"), Edition::First.number());
    assert_eq!(in_header("CRACKLEDRAY_SECOND_EDITION"), Edition::Second.number());
}
