//! The files that are played: every cut of some sound ones, each of their bytes changed to
//! every other, a bit changed in each byte of the longest one, and random ones.

use comparing::draw::Draw;
use comparing::family::seeded;
use comparing::files::{crowded, damaged, full, kinds, loading, long, noise, run};
use comparing::files::{saved, scheduled, unsound};
use reference::card::{read, written};
use reference::param::Reference;
use reference::session::{Call, Load};

/// How a file came about.
#[derive(Clone, Copy, Debug, PartialEq, Eq, PartialOrd, Ord)]
pub enum Kind {
    Long,
    Cut,
    Byte,
    Bit,
    Fields,
    Noise,
    Damaged,
    Unsound,
}

impl Kind {
    pub fn name(self) -> &'static str {
        match self {
            Kind::Long => "files about as long as a line may have",
            Kind::Cut => "cuts of sound files",
            Kind::Byte => "sound files with one byte changed",
            Kind::Bit => "full files with one bit changed",
            Kind::Fields => "random runs of fields",
            Kind::Noise => "random bytes",
            Kind::Damaged => "damaged sound files",
            Kind::Unsound => "files with one wrong field, or too many",
        }
    }
}

pub struct Case {
    pub kind: Kind,
    pub load: Load,
}

/// A file that is still to be made.
#[derive(Clone, Copy)]
enum Plan<'a> {
    /// One that has so many bytes.
    Long(usize),
    /// The first bytes of a sound one.
    Cut(&'a [u8]),
    /// A sound one with other bits in the byte at a place.
    Byte(&'a [u8], usize, u8),
    /// The longest one with a changed bit in the byte at a place.
    Bit(usize),
    /// A random one, by its number.
    Random(usize),
}

/// Bytes of the long files: one more than 30,000 is not read.
const LONG: [usize; 4] = [29_999, 30_000, 30_001, 40_000];

/// How many sound files there are, and random ones.
const SOUND: usize = 50;
const RANDOM: usize = 100_000;

/// Of a sound file: its most bytes, and how many kinds of fields it has at least.
const BYTES: usize = 300;
const KINDS: usize = 5;

/// Sound files that are short and of many kinds; of each the reader gives back the
/// parameter that was written.
fn sound(draw: &mut Draw) -> Vec<Vec<u8>> {
    let mut all = Vec::new();
    while all.len() < SOUND {
        let written = scheduled(draw, 14);
        let file = saved(&written);
        if file.len() <= BYTES && kinds(&file) >= KINDS {
            give_back(written, &file);
            all.push(file);
        }
    }
    all
}

/// "What the writer writes, the reader gives back, event for event": or the program ends.
fn give_back(mut written: Reference, file: &[u8]) {
    let load = Load { part: 65536, file: file.to_vec(), a_rate: true, edition: None };
    let given = read(&load).map(|mut reference| print(&mut reference));
    assert_eq!(given.ok(), Some(print(&mut written)), "it does not read what it wrote");
}

/// What `state` prints of the parameter, without its rate.
fn print(reference: &mut Reference) -> String {
    let state = reference.answer(&Call::State);
    state.split(' ').skip(2).collect::<Vec<_>>().join(" ")
}

/// The file with other bits in the byte at a place.
fn changed(file: &[u8], at: usize, bits: u8) -> Vec<u8> {
    let mut bytes = file.to_vec();
    bytes[at] ^= bits;
    bytes
}

pub struct Files {
    seed: u64,
    /// One in so many is played.
    one_in: usize,
    sound: Vec<Vec<u8>>,
    full: Vec<u8>,
}

impl Files {
    pub fn new(seed: u64, one_in: usize) -> Self {
        let mut draw = Draw::new(seed);
        Self { seed, one_in, sound: sound(&mut draw), full: full(&mut draw) }
    }

    /// How many are played.
    pub fn count(&self) -> usize {
        self.plans().count()
    }

    pub fn cases(&self) -> impl Iterator<Item = Case> + '_ {
        self.plans().map(|(number, plan)| {
            let (kind, file) = self.made(plan);
            Case { kind, load: loading(&mut seeded(self.seed, number), file, 2) }
        })
    }

    fn plans(&self) -> impl Iterator<Item = (usize, Plan<'_>)> {
        let sound = || self.sound.iter().map(Vec::as_slice);
        let cuts = sound().flat_map(|file| (0..=file.len()).map(|n| Plan::Cut(&file[..n])));
        let bytes = sound().flat_map(|file| (0..file.len()).flat_map(|at| all_other(file, at)));
        let bits = (0..self.full.len()).map(Plan::Bit);
        let all = cuts.chain(bytes).chain(bits).chain((0..RANDOM).map(Plan::Random));
        LONG.map(Plan::Long).into_iter().chain(all.step_by(self.one_in)).enumerate()
    }

    fn made(&self, plan: Plan) -> (Kind, Vec<u8>) {
        match plan {
            Plan::Long(n) => (Kind::Long, cut_curve(n)),
            Plan::Cut(file) => (Kind::Cut, file.to_vec()),
            Plan::Byte(file, at, bits) => (Kind::Byte, changed(file, at, bits)),
            Plan::Bit(at) => {
                let bit = seeded(!self.seed, at).below(8);
                (Kind::Bit, changed(&self.full, at, 1 << bit))
            }
            Plan::Random(number) => {
                let mut draw = seeded(!self.seed, self.full.len() + number);
                match number % 4 {
                    0 => (Kind::Fields, run(&mut draw)),
                    1 => (Kind::Noise, noise(&mut draw)),
                    2 => (Kind::Damaged, self.damaged(&mut draw)),
                    _ => (Kind::Unsound, wrong(&mut draw)),
                }
            }
        }
    }

    /// A sound file with up to three damages.
    fn damaged(&self, draw: &mut Draw) -> Vec<u8> {
        let mut file = self.sound[draw.below(self.sound.len())].clone();
        for _ in 0..=draw.below(3) {
            if !file.is_empty() {
                file = damaged(draw, &file);
            }
        }
        file
    }
}

/// So many bytes: a range, and a curve of 16,379 numbers that is cut.
fn cut_curve(n: usize) -> Vec<u8> {
    let mut file = [written([0.; 3], &[]), vec![5, 0xfc, 0xff]].concat();
    file.resize(n, 0);
    file
}

/// Whole fields, one of which is mostly not to be taken.
fn wrong(draw: &mut Draw) -> Vec<u8> {
    match draw.below(40) {
        0 => long(draw),
        1..4 => crowded(draw),
        _ => unsound(draw),
    }
}

/// Every other byte at a place of a sound file.
fn all_other(file: &[u8], at: usize) -> impl Iterator<Item = Plan<'_>> {
    (1..=255).map(move |bits| Plan::Byte(file, at, bits))
}
