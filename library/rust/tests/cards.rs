//! Schedule files (02, C-11): written and read back however they are cut, each refusal with its place, and arrays that fail their
//! test, which change nothing.
use crackledray::{raw, AudioParam, AutomationRate, CardError, CardReader, Edition, Error};
use AutomationRate::{A, K};
use Edition::{First, Second};

/// The range 0, 5, 10.
const RANGE: [u8; 15] = [6, 12, 0, 0, 0, 0, 0, 0, 0, 0xa0, 0x40, 0, 0, 0x20, 0x41];
/// 02's example: a step 5 at 2.
const STEP: [u8; 15] = [1, 0x0c, 0, 0, 0, 0xa0, 0x40, 0, 0, 0, 0, 0, 0, 0, 0x40];

fn field(tag: u8, contents: &[u8]) -> Vec<u8> {
    let length = (contents.len() as u16).to_le_bytes();
    [&[tag], &length[..], contents].concat()
}

/// A step or a ramp.
fn event(tag: u8, value: f32, time: f64) -> Vec<u8> {
    field(tag, &[&value.to_le_bytes()[..], &time.to_le_bytes()].concat())
}

fn schedule() -> AudioParam {
    let mut p = AudioParam::new(0.0, 5.0, 10.0, A).unwrap();
    p.set_value(4.0).unwrap();
    p.set_value_at_time(5.0, 2.0).unwrap();
    p.linear_ramp_to_value_at_time(6.0, 3.0).unwrap();
    p.exponential_ramp_to_value_at_time(7.0, 4.0).unwrap();
    p.set_target_at_time(1.0, 5.0, 0.5).unwrap();
    p.set_value_curve_at_time(&[1.0, 9.0, 2.0], 6.0, 2.0).unwrap();
    p
}

fn written(p: &AudioParam) -> Vec<u8> {
    let mut out = vec![0xee; raw::FILE_LENGTH + 1];
    let length = p.write_card(&mut out).unwrap();
    assert!(out[length..].iter().all(|byte| *byte == 0xee), "written behind the file");
    out.truncate(length);
    out
}

fn read(
    file: &[u8],
    size: usize,
    rate: AutomationRate,
    edition: Edition,
) -> Result<AudioParam, CardError> {
    let mut r = CardReader::new(rate, edition);
    for part in file.chunks(size) {
        r.part(part).unwrap();
    }
    r.end()
}

fn refused(file: &[u8]) -> (Error, usize) {
    let e = read(file, 7, A, First).err().expect("the file is answered");
    for size in [1, 2, 16, raw::PART_LENGTH] {
        assert_eq!(read(file, size, A, First).err(), Some(e), "in parts of {size}");
    }
    (e.error, e.at)
}

fn samples(p: &mut AudioParam) -> Vec<u32> {
    let mut output = [0.0; 100];
    p.process(0.0, 0.1, 100, &[], &mut output).unwrap();
    output.map(f32::to_bits).to_vec()
}

#[test]
fn what_is_written_is_read_back() {
    let mut p = schedule();
    let file = written(&p);
    assert_eq!((file.len(), &file[..15]), (15 * 5 + 23 + 31, &RANGE[..]));
    assert_eq!(file[15..30], event(1, 4.0, 0.0)[..]);
    assert_eq!(file[30..45], STEP[..]);
    let played = samples(&mut p);
    for size in [1, 3, 7, 15, 100, raw::PART_LENGTH] {
        let mut q = read(&file, size, A, First).unwrap();
        assert_eq!((q.edition(), q.automation_rate(), q.waiting()), (First, A, 6));
        assert_eq!(written(&q), file, "in parts of {size}");
        assert_eq!(samples(&mut q), played, "in parts of {size}");
    }
    let q = read(&file, 9, K, Second).unwrap();
    assert_eq!((q.edition(), q.automation_rate(), q.waiting()), (Second, K, 6));
}

#[test]
fn the_longest_file() {
    let mut p = AudioParam::new(0.0, 5.0, 10.0, A).unwrap();
    for i in 0..63 {
        p.set_target_at_time(1.0, i as f64, 0.5).unwrap();
    }
    p.set_value_curve_at_time(&[3.0; raw::STORE], 63.0, 1.0).unwrap();
    let file = written(&p);
    assert_eq!(file.len(), raw::FILE_LENGTH);
    assert_eq!(written(&read(&file, 7, A, First).unwrap()), file);
    let mut short = [0xee; raw::FILE_LENGTH - 1];
    let e = p.write_card(&mut short).unwrap_err();
    assert_eq!((e.error, e.at), (Error::NoRoom, raw::FILE_LENGTH));
    assert!(short.iter().all(|byte| *byte == 0xee));
}

#[test]
fn what_is_not_read() {
    let with = |more: &[u8]| [&RANGE[..], more].concat();
    assert_eq!(refused(&[]), (Error::Misplaced, 0));
    assert_eq!(refused(&STEP), (Error::Misplaced, 0));
    assert_eq!(refused(&with(&RANGE)), (Error::Misplaced, 15));
    assert_eq!(refused(&with(&[9])), (Error::UnknownTag, 15));
    assert_eq!(refused(&with(&[1, 13, 0])), (Error::WrongLength, 15));
    assert_eq!(refused(&with(&STEP[..14])), (Error::CutShort, 15));
    assert_eq!(refused(&with(&[&STEP[..], &event(2, 1.0, 1.0)].concat())), (Error::OutOfTurn, 30));
    assert_eq!(refused(&with(&event(1, 1.0, -0.0))), (Error::OutOfTurn, 15));
    assert_eq!(refused(&with(&event(1, 1.0, -1.0))), (Error::BeforeZero, 15));
    assert_eq!(refused(&with(&event(3, 0.0, 1.0))), (Error::ZeroTarget, 15));
    assert_eq!(refused(&field(6, &[0xff; 12])), (Error::Bounds, 0));
    // the first field that is refused, whatever comes behind it
    assert_eq!(
        refused(&with(&[&STEP[..], &[7, 0, 0], &[9, 0, 0]].concat())),
        (Error::UnknownTag, 30)
    );
}

#[test]
fn what_is_not_written() {
    let mut out = [0xee; 200];
    let mut p = schedule();
    p.cancel_and_hold_at_time(3.5).unwrap();
    assert_eq!(p.write_card(&mut out), Err(CardError { error: Error::Unwritable, at: 3 }));
    let mut p = schedule();
    samples(&mut p);
    assert_eq!(p.write_card(&mut out), Err(CardError { error: Error::Unwritable, at: 0 }));
    assert_eq!(out, [0xee; 200]);
}

// ---- raw

/// All that the calls of a reader may write.
#[derive(Clone, Debug, PartialEq)]
struct Lent {
    card: Vec<u64>,
    window: Vec<u8>,
    numbers: Vec<f32>,
    state: Vec<u64>,
    store: Vec<f32>,
    at: usize,
}

fn lend() -> Lent {
    Lent {
        card: vec![0xdead_beef; raw::CARD_LENGTH],
        window: vec![0xee; raw::WINDOW_LENGTH],
        numbers: vec![0.25; raw::STORE],
        state: vec![0xdead_beef; raw::STATE],
        store: vec![0.5; raw::STORE],
        at: 77,
    }
}

impl Lent {
    fn open(&mut self, edition: u64) -> u32 {
        let (card, numbers) = (&mut self.card, &mut self.numbers);
        unsafe {
            raw::crackledray_card_open(
                card.as_mut_ptr(),
                card.len(),
                numbers.as_mut_ptr(),
                numbers.len(),
                false,
                edition,
            )
        }
    }

    fn part(&mut self, part: &[u8]) -> u32 {
        let (card, window, numbers) = (&mut self.card, &mut self.window, &mut self.numbers);
        unsafe {
            raw::crackledray_card_part(
                card.as_mut_ptr(),
                card.len(),
                window.as_mut_ptr(),
                window.len(),
                numbers.as_mut_ptr(),
                numbers.len(),
                part.as_ptr(),
                part.len(),
            )
        }
    }

    fn end(&mut self) -> u32 {
        unsafe {
            raw::crackledray_card_end(
                self.card.as_ptr(),
                self.card.len(),
                self.window.as_ptr(),
                self.window.len(),
                self.numbers.as_mut_ptr(),
                self.numbers.len(),
                self.state.as_mut_ptr(),
                self.state.len(),
                self.store.as_mut_ptr(),
                self.store.len(),
                &mut self.at,
            )
        }
    }
}

/// Opened, with the range and half a step.
fn begun() -> Lent {
    let mut l = lend();
    assert_eq!(l.open(1), 0);
    assert_eq!(l.part(&RANGE), 0);
    assert_eq!(l.part(&STEP[..7]), 0);
    assert_eq!((l.card[0], l.card[1], l.card[2], l.card[3]), (raw::CARD_VERSION, 0, 15, 7));
    l
}

#[test]
fn a_longer_part_is_not_read() {
    let mut l = begun();
    let before = l.clone();
    assert_eq!(l.part(&vec![9; raw::PART_LENGTH + 1]), 102);
    assert_eq!(l, before);
    assert_eq!((l.part(&[]), l.part(&STEP[7..]), l.end()), (0, 0, 0));
    assert_eq!((l.at, l.state[14]), (30, 1));
    assert!(l.store.iter().all(|number| number.to_bits() == 0));
}

#[test]
fn behind_a_refused_field_nothing_is_read() {
    let mut l = begun();
    assert_eq!(l.part(&[&STEP[7..], &[9]].concat()), 0);
    // a tag alone waits for its length
    assert_eq!((l.card[1], l.card[3]), (0, 1));
    assert_eq!(l.part(&[0, 0]), 0);
    assert_eq!((l.card[1], l.card[2], l.card[3]), (20, 30, 0));
    let before = l.clone();
    assert_eq!((l.part(&STEP), l.part(&vec![9; raw::PART_LENGTH + 1])), (0, 102));
    assert_eq!(l, before);
    assert_eq!((l.end(), l.at), (20, 30));
    assert_eq!((&l.state, &l.store), (&before.state, &before.store));
    l.store.pop();
    assert_eq!((l.end(), l.at), (14, 0));
}

#[test]
fn an_unknown_edition_is_refused_at_the_range() {
    for edition in [0, 3, u64::MAX] {
        let mut l = lend();
        assert_eq!((l.open(edition), l.part(&RANGE), l.end(), l.at), (0, 0, 12, 0));
        assert_eq!((&l.state, &l.store), (&lend().state, &lend().store));
    }
}

#[test]
fn arrays_that_fail_their_test() {
    let bad: [(&str, fn(&mut Lent)); 14] = [
        ("zeros", |l| l.card.fill(0)),
        ("a short card", |l| l.card.truncate(raw::CARD_LENGTH - 1)),
        ("a long card", |l| l.card.push(0)),
        ("a short window", |l| l.window.truncate(raw::WINDOW_LENGTH - 1)),
        ("a long window", |l| l.window.push(0)),
        ("short numbers", |l| l.numbers.truncate(raw::STORE - 1)),
        ("long numbers", |l| l.numbers.push(0.0)),
        ("a version", |l| l.card[0] = 2),
        ("a number", |l| l.card[1] = 256),
        ("an offset", |l| l.card[2] = 65539),
        ("an offset before the range", |l| l.card[6] = 0),
        ("bytes held", |l| l.card[3] = raw::WINDOW_LENGTH as u64),
        ("a whole field", |l| l.card[3] = 15),
        ("the state", |l| l.card[9] = 2),
    ];
    for (name, change) in bad {
        let mut l = begun();
        change(&mut l);
        let before = l.clone();
        assert_eq!((l.part(&STEP[7..]), l.end()), (100, 100), "{name}");
        assert_eq!(l, before, "{name}");
    }
    let mut l = begun();
    l.state.pop();
    let before = l.clone();
    assert_eq!((l.end(), &l), (100, &before), "a short state");
    for change in [bad[1].1, bad[2].1, bad[5].1, bad[6].1] {
        let mut l = lend();
        change(&mut l);
        let before = l.clone();
        assert_eq!((l.open(1), &l), (100, &before));
    }
}

#[test]
fn a_bad_state_is_not_written() {
    let (state, store) = (lend().state, lend().store);
    let (mut out, mut at) = ([0xee; 200], 77);
    let n = unsafe {
        raw::crackledray_card_write(
            state.as_ptr(),
            state.len(),
            store.as_ptr(),
            store.len(),
            out.as_mut_ptr(),
            out.len(),
            &mut at,
        )
    };
    assert_eq!((n, at, out), (100, 77, [0xee; 200]));
}
