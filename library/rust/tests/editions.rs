//! The two editions (02, C-19): how long a block can be under each, long blocks beside what is expected and beside short ones, and
//! that short ones are the same under both. states.rs has the states that are made, and those of unknown editions.
use crackledray::{raw, AudioParam, AutomationRate, Block, Edition, Error};
use AutomationRate::{A, K};
use Edition::{First, Second};

/// What stands in the output before a block, and behind its samples.
const MARK: f32 = -77.0;

fn under(edition: Edition, rate: AutomationRate) -> AudioParam {
    AudioParam::with_edition(-100.0, 0.5, 100.0, rate, edition).unwrap()
}

/// A block of period 1: its samples and what it says. The 40 places behind them stay.
fn mixed(p: &mut AudioParam, time: f64, count: usize, input: &[f32]) -> (Vec<f32>, Block) {
    let mut output = vec![MARK; count + 40];
    let block = p.process(time, 1.0, count, input, &mut output).unwrap();
    assert_eq!(output.split_off(count), [MARK; 40], "behind {count} samples at {time}");
    (output, block)
}

fn played(p: &mut AudioParam, time: f64, count: usize) -> (Vec<f32>, Block) {
    mixed(p, time, count, &[])
}

fn bits(samples: &[f32]) -> Vec<u32> {
    samples.iter().map(|sample| sample.to_bits()).collect()
}

#[test]
fn what_an_edition_says() {
    assert_eq!((First.number(), First.ceiling()), (1, 128));
    assert_eq!((Second.number(), Second.ceiling()), (2, 1024));
    for (edition, rate) in [(First, A), (First, K), (Second, A), (Second, K)] {
        let p = under(edition, rate);
        assert_eq!((p.edition(), p.automation_rate(), p.waiting()), (edition, rate, 0));
        assert_eq!((p.min_value(), p.default_value(), p.max_value()), (-100.0, 0.5, 100.0));
    }
    assert_eq!(AudioParam::new(0.0, 0.5, 1.0, A).unwrap().edition(), First);
}

#[test]
fn bad_bounds_are_refused_under_either() {
    for edition in [First, Second] {
        let refused = AudioParam::with_edition(1.0, 0.0, 2.0, A, edition);
        assert_eq!(refused.err(), Some(Error::Bounds));
    }
}

/// A make begins anew, whatever the state was made under before.
#[test]
fn a_make_changes_the_edition() {
    let mut state = [0; raw::STATE];
    let (s, n) = (state.as_mut_ptr(), raw::STATE);
    let under =
        |edition| unsafe { raw::crackledray_make_under(s, n, 0.0, 0.0, 1.0, false, edition) };
    let made = || unsafe { raw::crackledray_make(s, n, 0.0, 0.0, 1.0, false) };
    let edition = || unsafe { *s.add(5) };
    assert_eq!((under(2), edition()), (0, 2));
    assert_eq!((made(), edition()), (0, 1));
    assert_eq!((under(2), edition()), (0, 2));
    assert_eq!((under(1), edition()), (0, 1));
    assert_eq!((under(2), edition()), (0, 2));
    assert_eq!((under(3), edition()), (12, 1));
}

/// A refused block writes nothing, and the next one is answered.
#[test]
fn counts_go_to_the_ceiling() {
    let counts = [0, 1, 2, 127, 128, 129, 130, 255, 256, 1023, 1024, 1025, 1026, 2048, usize::MAX];
    for (edition, rate) in [(First, A), (First, K), (Second, A), (Second, K)] {
        for count in counts {
            let (mut p, mut output) = (under(edition, rate), vec![MARK; 2048]);
            p.linear_ramp_to_value_at_time(1.0, 5000.0).unwrap();
            let answer = p.process(3.0, 1.0, count, &[], &mut output).map(|block| block.steps);
            let fits = 1 <= count && count <= edition.ceiling();
            let expected = if fits { Ok(1) } else { Err(Error::BadBlock) };
            assert_eq!(answer, expected, "{count} under {edition:?}");
            let written = output.iter().position(|sample| *sample == MARK).unwrap();
            assert_eq!(written, if fits { count } else { 0 }, "{count} under {edition:?}");
            assert!(output[written..].iter().all(|sample| *sample == MARK));
            let (_, block) = played(&mut p, 3.0, edition.ceiling());
            assert_eq!((block.steps, p.waiting(), p.edition()), (1, 1, edition));
        }
    }
}

#[test]
fn lengths_of_a_long_block() {
    let mut p = under(Second, A);
    let mut output = [MARK; 1100];
    for (room, inputs) in [(1023, 0), (1023, 1024), (1024, 1), (1100, 1023), (1100, 1025)] {
        let answer = p.process(0.0, 1.0, 1024, &vec![0.0; inputs], &mut output[..room]);
        assert_eq!(answer, Err(Error::BadBlock), "{room}, {inputs}");
        assert_eq!(output, [MARK; 1100]);
    }
    for (room, inputs) in [(1024, 0), (1024, 1024), (1100, 1024)] {
        let answer = p.process(0.0, 1.0, 1024, &vec![0.0; inputs], &mut output[..room]);
        assert_eq!(answer.map(|block| block.steps), Ok(1), "{room}, {inputs}");
    }
}

#[test]
fn a_long_block_of_one_value() {
    for rate in [A, K] {
        let mut p = under(Second, rate);
        for time in [0.0, 1024.0] {
            let said = Block { steps: 1, current: 0.5, one: true };
            assert_eq!(played(&mut p, time, 1024), (vec![0.5; 1024], said), "{rate:?}");
        }
    }
}

/// 64 of them, 16 samples apart; the last one goes on in the next block.
#[test]
fn a_long_block_of_steps() {
    let mut p = under(Second, A);
    for i in 0..64 {
        p.set_value_at_time(i as f32, 16.0 * i as f64).unwrap();
    }
    let expected: Vec<f32> = (0..1024).map(|place| (place / 16) as f32).collect();
    let said = Block { steps: 65, current: 0.5, one: false };
    assert_eq!(played(&mut p, 0.0, 1024), (expected, said));
    assert_eq!(p.waiting(), 0);
    let said = Block { steps: 1, current: 63.0, one: true };
    assert_eq!(played(&mut p, 1024.0, 1024), (vec![63.0; 1024], said));
}

/// At K-rate a block has the value of its beginning, and the events are finished all the same.
#[test]
fn a_long_block_at_k_rate() {
    let mut p = under(Second, K);
    for i in 0..64 {
        p.set_value_at_time(i as f32, 16.0 * i as f64).unwrap();
    }
    let (samples, block) = played(&mut p, 0.0, 1024);
    assert_eq!((samples, block.steps, p.waiting()), (vec![0.5; 1024], 65, 0));
    assert_eq!(played(&mut p, 1024.0, 1024).0, vec![63.0; 1024]);
}

#[test]
fn a_long_block_with_an_input() {
    let mut p = under(Second, A);
    p.set_value_at_time(0.0, 0.0).unwrap();
    p.linear_ramp_to_value_at_time(64.0, 1024.0).unwrap();
    let input: Vec<f32> = (0..1024).map(|place| (place % 8) as f32 * 10.0).collect();
    let expected: Vec<f32> =
        (0..1024).map(|i| (i as f32 / 16.0 + (i % 8) as f32 * 10.0).min(100.0)).collect();
    assert_eq!(mixed(&mut p, 0.0, 1024, &input).0, expected);
    // the ramp is reached behind the block's last sample
    assert_eq!((p.waiting(), played(&mut p, 1024.0, 1).0), (1, vec![64.0]));
}

/// Every kind, each over more than 128 samples, and every time and period exact.
fn long_events(p: &mut AudioParam) {
    p.set_value_at_time(1.0, 0.0).unwrap();
    p.linear_ramp_to_value_at_time(9.0, 200.0).unwrap();
    p.exponential_ramp_to_value_at_time(30.0, 390.0).unwrap();
    p.set_target_at_time(-5.0, 400.5, 100.0).unwrap();
    p.set_value_curve_at_time(&[1.0, -8.0, 80.0, 0.1, 7.0, 7.0, -3.0], 600.0, 250.0).unwrap();
    p.set_value_at_time(11.0, 860.25).unwrap();
    p.linear_ramp_to_value_at_time(-11.0, 1000.0).unwrap();
    p.exponential_ramp_to_value_at_time(-90.0, 1290.0).unwrap();
}

/// So many blocks of so many samples, one behind the other: all samples, and the steps of each.
fn in_blocks(p: &mut AudioParam, count: usize, blocks: usize) -> (Vec<u32>, Vec<usize>) {
    let played = (0..blocks).map(|i| played(p, (i * count) as f64, count));
    let (samples, said): (Vec<_>, Vec<_>) = played.unzip();
    (bits(&samples.concat()), said.iter().map(|block| block.steps).collect())
}

#[test]
fn a_long_block_is_eight_short_ones() {
    let (mut short, mut long) = (under(First, A), under(Second, A));
    long_events(&mut short);
    long_events(&mut long);
    let (ours, steps) = in_blocks(&mut long, 1024, 2);
    assert_eq!((ours, steps), (in_blocks(&mut short, 128, 16).0, vec![8, 2]));
}

/// Samples bit for bit, and all else that blocks say.
#[test]
fn a_block_of_100_is_the_same_under_both() {
    for rate in [A, K] {
        let (mut first, mut second) = (under(First, rate), under(Second, rate));
        long_events(&mut first);
        long_events(&mut second);
        let input: Vec<f32> = (0..100).map(|place| place as f32 / 7.0 - 5.0).collect();
        for i in 0..14 {
            let (time, input) = (100.0 * i as f64, if i % 3 == 2 { &input[..] } else { &[] });
            let (ours, said) = mixed(&mut first, time, 100, input);
            let (theirs, says) = mixed(&mut second, time, 100, input);
            assert_eq!((bits(&ours), said), (bits(&theirs), says), "{rate:?}, {time}");
            assert_eq!(first.waiting(), second.waiting(), "{rate:?}, {time}");
        }
        assert_eq!(first.waiting(), 0);
    }
}

/// Each of these counts, up to the first edition's ceiling.
#[test]
fn short_blocks_are_the_same_under_both() {
    for count in [1, 2, 15, 16, 17, 63, 64, 100, 127, 128] {
        let (mut first, mut second) = (under(First, A), under(Second, A));
        long_events(&mut first);
        long_events(&mut second);
        let blocks = 1300 / count + 1;
        let ours = in_blocks(&mut first, count, blocks);
        assert_eq!(ours, in_blocks(&mut second, count, blocks), "{count}");
    }
}

#[test]
fn every_call_keeps_the_edition() {
    type Call = fn(&mut AudioParam) -> Result<(), Error>;
    let answered: [Call; 9] = [
        |p| p.set_value(1.0),
        |p| p.set_value_at_time(1.0, 1.0),
        |p| p.linear_ramp_to_value_at_time(2.0, 2.0),
        |p| p.exponential_ramp_to_value_at_time(3.0, 3.0),
        |p| p.set_target_at_time(4.0, 4.0, 1.0),
        |p| p.set_value_curve_at_time(&[5.0, 6.0], 5.0, 10.0),
        |p| p.process(0.0, 1.0, 8, &[], &mut [0.0; 8]).map(|_| ()),
        |p| p.cancel_and_hold_at_time(9.0),
        |p| p.cancel_scheduled_values(4.0),
    ];
    let refused: [Call; 9] = [
        |p| p.set_value(f32::NAN),
        |p| p.set_value_at_time(1.0, -1.0),
        |p| p.linear_ramp_to_value_at_time(f32::NAN, 2.0),
        |p| p.exponential_ramp_to_value_at_time(0.0, 3.0),
        |p| p.set_target_at_time(4.0, 4.0, -1.0),
        |p| p.set_value_curve_at_time(&[5.0], 5.0, 10.0),
        |p| p.process(0.0, 1.0, 1025, &[], &mut [0.0; 1025]).map(|_| ()),
        |p| p.cancel_and_hold_at_time(f64::NAN),
        |p| p.cancel_scheduled_values(-1.0),
    ];
    for edition in [First, Second] {
        let mut p = under(edition, A);
        for (i, (answered, refused)) in answered.iter().zip(refused).enumerate() {
            assert!(refused(&mut p).is_err(), "{i}");
            assert_eq!((answered(&mut p), p.edition()), (Ok(()), edition), "{i}");
        }
    }
}
