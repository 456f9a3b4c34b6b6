//! Schedule files (02, C-11) drawn at random: sound ones, by the reference's writer,
//! damaged ones, and some that no writer wrote.

use crate::draw::Draw;
use reference::card::written;
use reference::param::Reference;
use reference::queue::{Event, Kind};
use reference::session::{Call, Load};

/// How many events may wait, and how many numbers their curves may have.
const EVENTS: usize = 64;
const NUMBERS: usize = 4096;

const RANGES: [[f32; 3]; 6] = [
    [-10., 0., 10.],
    [-10., 0., 10.],
    [0., 230., 400.],
    [-0., 0., 5.],
    [f32::MIN, 1., f32::MAX],
    [2., 2., 2.],
];

const WRONG_RANGES: [[f32; 3]; 5] = [
    [-10., 0., -10.],
    [1., 0., 2.],
    [0., f32::NAN, 1.],
    [f32::NEG_INFINITY, 0., 1.],
    [0., 0., f32::INFINITY],
];

/// A finite value.
fn value(draw: &mut Draw) -> f32 {
    match draw.below(4) {
        0 => draw.pick(&[0., -0., 1., 5., -1e-40, f32::MAX, f32::MIN_POSITIVE]),
        1 => f32::from_bits(draw.bits() as u32 & 0xbfff_ffff),
        _ => (draw.below(81) as f32 - 40.) / 4.,
    }
}

/// A time that is not refused, often one that another event has.
fn time(draw: &mut Draw) -> f64 {
    match draw.below(20) {
        0 => draw.pick(&[0., 5e-324, 1e-300, 1e9, f64::MAX]),
        1..5 => draw.fraction() * 10.,
        _ => draw.below(40) as f64 / 4.,
    }
}

/// A time constant or a duration.
fn length(draw: &mut Draw) -> f64 {
    match draw.below(8) {
        0 => draw.pick(&[5e-324, 1e-9, 1e308]),
        1 => draw.fraction() * 3. + 1e-3,
        _ => draw.pick(&[0.25, 0.25, 0.5, 1., 2.]),
    }
}

/// A call that `make`s a parameter, or is refused by its range.
pub fn making(draw: &mut Draw) -> Call {
    let wrong = draw.percent(3);
    let [min, default, max] = draw.pick(if wrong { &WRONG_RANGES[..] } else { &RANGES });
    let edition = draw.pick(&[None, None, None, Some(1), Some(2)]);
    Call::Make { min, default, max, a_rate: draw.percent(50), edition }
}

/// A call that schedules an event, refused at most for what waits or an exponential to 0.
pub fn scheduling(draw: &mut Draw) -> Call {
    let (value, time) = (value(draw), time(draw));
    match draw.below(20) {
        0 => Call::Set(value),
        1 => Call::Step(value, -0.),
        2 => Call::Target(value, time, draw.pick(&[0., -0.])),
        3..7 => Call::Step(value, time),
        7..10 => Call::Linear(value, time),
        10..13 => Call::Exponential(value, time),
        13..16 => Call::Target(value, time, length(draw)),
        _ => Call::Curve(time, length(draw), numbers(draw)),
    }
}

/// A few numbers of a curve.
fn numbers(draw: &mut Draw) -> Vec<f32> {
    (0..2 + draw.below(4)).map(|_| value(draw)).collect()
}

/// A new parameter with up to so many events.
pub fn scheduled(draw: &mut Draw, most: usize) -> Reference {
    let mut reference = Reference::empty();
    reference.answer(&making(draw));
    for _ in 0..draw.below(most + 1) {
        reference.answer(&scheduling(draw));
    }
    reference
}

/// What the writer writes of a new parameter.
pub fn saved(reference: &Reference) -> Vec<u8> {
    reference.saved().expect("nothing is held, and no block answered")
}

/// The same of up to so many events.
pub fn sound(draw: &mut Draw, most: usize) -> Vec<u8> {
    saved(&scheduled(draw, most))
}

/// The longest sound file: 63 targets and a curve of 4,096 numbers, which they stand
/// before, at the end of and behind.
pub fn full(draw: &mut Draw) -> Vec<u8> {
    let mut reference = Reference::empty();
    let numbers = (0..NUMBERS).map(|_| value(draw)).collect();
    let before = 1 + draw.below(EVENTS - 2);
    reference.answer(&making(draw));
    reference.answer(&Call::Curve(before as f64, 1., numbers));
    for i in 0..EVENTS - 1 {
        let time = if i < before { i } else { i + 1 } as f64;
        reference.answer(&Call::Target(value(draw), time, length(draw)));
    }
    saved(&reference)
}

/// As many steps as may wait, or one more.
pub fn crowded(draw: &mut Draw) -> Vec<u8> {
    let n = draw.pick(&[EVENTS, EVENTS + 1]);
    let step = |i: usize| Event::new(Kind::Step, i as f32, (i / 2) as f64);
    written(draw.pick(&RANGES), &(0..n).map(step).collect::<Vec<_>>())
}

/// Curves with about as many numbers as may wait, in one or in two.
pub fn long(draw: &mut Draw) -> Vec<u8> {
    let n = draw.pick(&[NUMBERS - 2, NUMBERS - 1, NUMBERS, NUMBERS + 1, 7000]);
    let curve = |time: f64, n: usize, v: f32| {
        Event::new(Kind::Curve { duration: 1., numbers: vec![v; n] }, 0., time)
    };
    let mut events = vec![curve(1., n, value(draw))];
    if draw.percent(70) {
        events.push(curve(draw.pick(&[1.5, 2., 3.]), 2, 5.));
    }
    written(draw.pick(&RANGES), &events)
}

/// Whole fields with right lengths, of which one is mostly not to be taken: a range, an
/// event with a wrong number or out of order, one inside a curve.
pub fn unsound(draw: &mut Draw) -> Vec<u8> {
    let reference = scheduled(draw, 6);
    let (mut range, mut events) = (reference.range(), reference.waiting().to_vec());
    match draw.below(10) {
        0 => range = draw.pick(&WRONG_RANGES),
        1..4 => {
            events.extend(scheduled(draw, 8).waiting().to_vec());
            events.sort_by(|a, b| a.time.total_cmp(&b.time));
        }
        _ => {
            let mut one = event(draw);
            (0..=draw.below(3)).for_each(|_| spoil(draw, &mut one));
            events.insert(draw.below(events.len() + 1) * draw.below(2), one);
        }
    }
    written(range, &events)
}

fn event(draw: &mut Draw) -> Event {
    let kind = match draw.below(8) {
        0 => Kind::Step,
        1 => Kind::Linear,
        2..4 => Kind::Exponential,
        4..6 => Kind::Target { constant: length(draw) },
        _ => Kind::Curve { duration: length(draw), numbers: numbers(draw) },
    };
    Event::new(kind, value(draw), time(draw))
}

/// One number of the event at an edge of what is taken, or beyond it.
fn spoil(draw: &mut Draw, event: &mut Event) {
    let odd = [0., -0., -1., -1., -5e-324, 5e-324, f64::NAN, f64::INFINITY, f64::NEG_INFINITY];
    let length = draw.pick(&odd);
    match &mut event.kind {
        _ if draw.percent(35) => event.time = length,
        Kind::Target { constant } if draw.percent(70) => *constant = length,
        Kind::Curve { duration, .. } if draw.percent(35) => *duration = length,
        Kind::Curve { numbers, .. } => match draw.below(3) {
            0 => numbers.push(draw.pick(&[f32::NAN, f32::INFINITY, -0.])),
            few => numbers.truncate(few - 1),
        },
        _ => event.value = draw.pick(&[0., 0., -0., f32::NAN, f32::INFINITY]),
    }
}

/// The fields of a file, by their lengths; the last one may be cut.
pub fn fields(file: &[u8]) -> Vec<Vec<u8>> {
    let (mut all, mut rest) = (Vec::new(), file);
    while !rest.is_empty() {
        let length = rest.get(1..3).map_or(0, |two| u16::from_le_bytes([two[0], two[1]]));
        let (field, behind) = rest.split_at(rest.len().min(3 + usize::from(length)));
        all.push(field.to_vec());
        rest = behind;
    }
    all
}

/// How many kinds of fields a file has.
pub fn kinds(file: &[u8]) -> usize {
    let fields = fields(file);
    (0..=255).filter(|tag| fields.iter().any(|field| field[0] == *tag)).count()
}

/// What a field's tag and the two bytes of its length become.
const ODD_BYTES: [&[u8]; 3] = [
    &[0, 7, 8, 128, 254, 255, 1, 4, 5, 6],
    &[0, 11, 12, 13, 15, 16, 20, 24, 255],
    &[1, 12, 64, 255],
];

/// The file, which has a byte, with one damage: to its bytes, to one field or to their
/// order.
pub fn damaged(draw: &mut Draw, file: &[u8]) -> Vec<u8> {
    if draw.percent(35) {
        return damaged_bytes(draw, file);
    }
    let mut fields = fields(file);
    let (i, j) = (draw.below(fields.len()), draw.below(fields.len()));
    let size = fields[i].len();
    match draw.below(10) {
        0 => fields.swap(i, j),
        1 => fields.insert(j, fields[i].clone()),
        2 => fields.insert(1 + j, fields[0].clone()),
        3 => drop(fields.remove(i)),
        4..7 => {
            let place = draw.below(size.min(3));
            fields[i][place] = draw.pick(ODD_BYTES[place]);
        }
        7 => fields[i].truncate(draw.below(size)),
        8 => fields.push(vec![draw.pick(&[0, 1, 2, 3, 4, 5, 6, 7])]),
        _ => fields.push(vec![draw.pick(&[0, 1, 4, 5, 6, 7]), draw.pick(&[12, 13, 20, 24])]),
    }
    fields.concat()
}

/// Cut, or with one byte changed, removed or doubled; of long files mostly near an end.
fn damaged_bytes(draw: &mut Draw, file: &[u8]) -> Vec<u8> {
    let (mut bytes, n) = (file.to_vec(), file.len());
    let (any, near) = (draw.below(n), draw.below(n.min(60)));
    let at = draw.pick(&[any, near, n - 1 - near]);
    match draw.below(5) {
        0..2 => bytes.truncate(at),
        2 => bytes[at] ^= 1 << draw.below(8),
        3 => drop(bytes.remove(at)),
        _ => bytes.insert(at, bytes[at]),
    }
    bytes
}

/// A run of fields that no schedule gave, most of them with a known tag, its length and
/// rising times; now and then cut.
pub fn run(draw: &mut Draw) -> Vec<u8> {
    let mut now = 0.;
    let start = if draw.percent(90) { written(draw.pick(&RANGES), &[]) } else { Vec::new() };
    let more = (0..draw.below(7)).flat_map(|_| any_field(draw, &mut now));
    let mut file = [start, more.collect()].concat();
    if draw.percent(10) {
        file.truncate(draw.below(file.len() + 1));
    }
    file
}

fn any_field(draw: &mut Draw, now: &mut f64) -> Vec<u8> {
    let tag = if draw.percent(95) { 1 + draw.below(5) } else { draw.pick(&[0, 6, 7, 255]) };
    let right = match tag {
        4 => 20,
        5 => 16 + 4 * draw.below(5),
        _ => 12,
    };
    let odd = draw.pick(&[0, 3, 11, 13, 15, 17, 40, right * 256]);
    let size = if draw.percent(95) { right } else { odd };
    *now += draw.pick(&[0., 0., 0.25, 1., 5.]);
    let time = if draw.percent(90) { *now } else { draw.pick(&[-0., -1., f64::NAN, *now / 2.]) };
    let span = if draw.percent(90) { length(draw) } else { draw.pick(&[0., -0., -1.]) };
    let times = [time.to_le_bytes(), span.to_le_bytes()].concat();
    let values: Vec<u8> = (0..4).flat_map(|_| any_value(draw).to_le_bytes()).collect();
    let mut body = if tag == 5 { [times, values] } else { [values[..4].to_vec(), times] }.concat();
    body.resize(size, 0);
    [vec![tag as u8], (size as u16).to_le_bytes().to_vec(), body].concat()
}

fn any_value(draw: &mut Draw) -> f32 {
    if draw.percent(97) {
        value(draw)
    } else {
        draw.pick(&[f32::NAN, f32::INFINITY, f32::NEG_INFINITY])
    }
}

/// Bytes of any kind, half of the time behind a range.
pub fn noise(draw: &mut Draw) -> Vec<u8> {
    let start = if draw.percent(50) { written(draw.pick(&RANGES), &[]) } else { Vec::new() };
    let small = draw.percent(50);
    let byte = |draw: &mut Draw| draw.bits() as u8 & if small { 7 } else { 255 };
    [start, (0..draw.below(50)).map(|_| byte(draw)).collect()].concat()
}

/// The sizes of parts that a file comes in.
const PARTS: [usize; 7] = [1, 2, 3, 7, 64, 1000, 65536];

/// The call that reads this file; of an unknown edition so many in a hundred.
pub fn loading(draw: &mut Draw, file: Vec<u8>, unknown: usize) -> Load {
    let known = draw.pick(&[None, None, None, Some(1), Some(2), Some(2)]);
    let odd = draw.pick(&[Some(0), Some(3), Some(255)]);
    let edition = if draw.percent(unknown) { odd } else { known };
    Load { part: draw.pick(&PARTS), file, a_rate: draw.percent(50), edition }
}
