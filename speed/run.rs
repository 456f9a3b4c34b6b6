//! Nanoseconds a block: the port by value, by tick and by its exported call, beside the Rust at default flags and at
//! target-cpu=native, in one run, interleaved, the best of several rounds; what of it a step and a sample take; blocks
//! of up to 1,024 under the second edition; and blocks by the plain renderer. speed/run builds it.

use crackledray::{raw, Edition};
use std::hint::black_box;
use std::time::Instant;

const PERIOD: f64 = 1.0 / 48000.0;
const KINDS: [&str; 16] = [
    "constant", "linear", "exponential", "target", "curve", "steps", "ramps", "k-linear", "short",
    "session", "beyond", "exponentials", "targets", "curves", "turned", "held",
];
const WAYS: [&str; 5] = ["rust", "native", "value", "tick", "exported"];
/// Kinds of one event that goes on: what a sample takes.
const LASTING: [&str; 4] = ["linear", "exponential", "target", "curve"];
/// Kinds of 64 events that a block uses up: what a further step takes.
const USED: [&str; 7] = ["steps", "ramps", "exponentials", "targets", "curves", "turned", "held"];
/// What long blocks are of, how many samples they have, and who plays them.
const LONG_KINDS: [&str; 6] = ["constant", "linear", "exponential", "target", "curve", "steps"];
const LONG_COUNTS: [usize; 4] = [128, 256, 512, 1024];
const LONG_WAYS: [&str; 4] = ["rust", "value", "tick", "exported"];
/// The same of the plain renderer; a count above 128 is of the second edition.
const PLAIN_KINDS: [&str; 3] = ["linear", "target", "steps"];
const PLAIN_COUNTS: [usize; 4] = [1, 16, 128, 1024];
const PLAIN_WAYS: [&str; 3] = ["rust", "value", "plain"];
/// How many blocks of an event that goes on are played there.
const PLAIN_BLOCKS: usize = 256;
/// How many samples of an event that goes on are played, whatever the count: 4,000 blocks of 128.
const SAMPLES: usize = 512_000;
/// How many events can wait.
const EVENTS: usize = 64;
/// Where a state has how many events wait.
const WAITING: usize = 14;
/// How many parameters are made ready for a kind whose events are used up by one block.
const READY: usize = 16;
/// How many blocks of a long session lie between two of these parameters.
const BETWEEN: usize = 1000;
/// Words of 64 bits in a parameter (`AudioParam`, 3,160 bytes).
const PARAMETER: usize = 395;

/// Blocks in a loop of the port's own: `by_value`, `speed_tick` and `speed_plain`.
type Loop = unsafe extern "C" fn(
    *const u64,
    usize,
    f64,
    f64,
    usize,
    f64,
    bool,
    usize,
    *const f32,
    usize,
    *mut f32,
    usize,
    *mut f32,
    usize,
) -> usize;

extern "C" {
    fn speed_value(
        state: *const u64,
        states: usize,
        time: f64,
        period: f64,
        count: usize,
        advance: f64,
        blocks: usize,
        input: *const f32,
        inputs: usize,
        output: *mut f32,
        outputs: usize,
        store: *mut f32,
        stores: usize,
    ) -> usize;
    fn speed_again(
        state: *const u64,
        states: usize,
        time: f64,
        period: f64,
        count: usize,
        advance: f64,
        again: bool,
        blocks: usize,
        input: *const f32,
        inputs: usize,
        output: *mut f32,
        outputs: usize,
        store: *mut f32,
        stores: usize,
    ) -> usize;
    fn speed_tick(
        state: *const u64,
        states: usize,
        time: f64,
        period: f64,
        count: usize,
        advance: f64,
        again: bool,
        blocks: usize,
        input: *const f32,
        inputs: usize,
        output: *mut f32,
        outputs: usize,
        store: *mut f32,
        stores: usize,
    ) -> usize;
    fn speed_plain(
        state: *const u64,
        states: usize,
        time: f64,
        period: f64,
        count: usize,
        advance: f64,
        again: bool,
        blocks: usize,
        input: *const f32,
        inputs: usize,
        output: *mut f32,
        outputs: usize,
        store: *mut f32,
        stores: usize,
    ) -> usize;
}

/// By value, in a row or again and again: two loops in two archives, since a test in one would cost each block a copy.
unsafe extern "C" fn by_value(
    state: *const u64,
    states: usize,
    time: f64,
    period: f64,
    count: usize,
    advance: f64,
    again: bool,
    blocks: usize,
    input: *const f32,
    inputs: usize,
    output: *mut f32,
    outputs: usize,
    store: *mut f32,
    stores: usize,
) -> usize {
    if again {
        return speed_again(
            state, states, time, period, count, advance, again, blocks, input, inputs, output,
            outputs, store, stores,
        );
    }
    speed_value(
        state, states, time, period, count, advance, blocks, input, inputs, output, outputs, store,
        stores,
    )
}

/// A parameter that takes the calls of a schedule.
trait Takes {
    fn step(&mut self, value: f32, time: f64);
    fn linear(&mut self, value: f32, time: f64);
    fn exponential(&mut self, value: f32, time: f64);
    fn target(&mut self, value: f32, time: f64, constant: f64);
    fn curve(&mut self, values: &[f32], time: f64, duration: f64);
    fn hold(&mut self, time: f64);
}

macro_rules! takes {
    ($t:ty) => {
        impl Takes for $t {
            fn step(&mut self, value: f32, time: f64) {
                self.step(value, time)
            }
            fn linear(&mut self, value: f32, time: f64) {
                self.linear(value, time)
            }
            fn exponential(&mut self, value: f32, time: f64) {
                self.exponential(value, time)
            }
            fn target(&mut self, value: f32, time: f64, constant: f64) {
                self.target(value, time, constant)
            }
            fn curve(&mut self, values: &[f32], time: f64, duration: f64) {
                self.curve(values, time, duration)
            }
            fn hold(&mut self, time: f64) {
                self.hold(time)
            }
        }
    };
}
takes!(original_default::Original);
takes!(original_native::Original);
takes!(original_256::Original);
takes!(original_512::Original);
takes!(original_1024::Original);

/// The port's parameter as its caller keeps it.
#[derive(Clone)]
struct Port {
    state: Vec<u64>,
    store: Vec<f32>,
    output: Vec<f32>,
}

impl Port {
    fn new(k_rate: bool, edition: Edition) -> Self {
        let mut p = Port {
            state: vec![0; raw::STATE],
            store: vec![0.0; raw::STORE],
            output: vec![0.0; edition.ceiling()],
        };
        let (s, n, edition) = (p.state.as_mut_ptr(), raw::STATE, edition.number());
        let n = unsafe { raw::crackledray_make_under(s, n, -1000.0, 0.5, 1000.0, k_rate, edition) };
        assert_eq!(n, 0);
        p
    }

    /// Blocks by the exported call: the steps of the last, whose samples stay in the output.
    #[inline(never)]
    fn blocks(&mut self, time: f64, count: usize, advance: f64, blocks: usize) -> usize {
        let (mut time, mut steps, mut current, mut one) = (time, 0, 0.0, false);
        let silence = [0.0f32; 1];
        for _ in 0..blocks {
            let n = unsafe {
                raw::crackledray_block(
                    self.state.as_mut_ptr(),
                    raw::STATE,
                    time,
                    PERIOD,
                    count,
                    silence.as_ptr(),
                    0,
                    self.output.as_mut_ptr(),
                    self.output.len(),
                    self.store.as_mut_ptr(),
                    raw::STORE,
                    &mut steps,
                    &mut current,
                    &mut one,
                )
            };
            assert_eq!(n, 0);
            time += advance;
        }
        steps
    }
}

impl Takes for Port {
    fn step(&mut self, value: f32, time: f64) {
        assert_eq!(0, unsafe {
            raw::crackledray_step(self.state.as_mut_ptr(), raw::STATE, value, time)
        });
    }
    fn linear(&mut self, value: f32, time: f64) {
        assert_eq!(0, unsafe {
            raw::crackledray_linear(self.state.as_mut_ptr(), raw::STATE, value, time)
        });
    }
    fn exponential(&mut self, value: f32, time: f64) {
        assert_eq!(0, unsafe {
            raw::crackledray_exponential(self.state.as_mut_ptr(), raw::STATE, value, time)
        });
    }
    fn target(&mut self, value: f32, time: f64, constant: f64) {
        assert_eq!(0, unsafe {
            raw::crackledray_target(self.state.as_mut_ptr(), raw::STATE, value, time, constant)
        });
    }
    fn curve(&mut self, values: &[f32], time: f64, duration: f64) {
        let store = self.store.as_mut_ptr();
        let n = unsafe {
            raw::crackledray_curve(
                self.state.as_mut_ptr(),
                raw::STATE,
                values.as_ptr(),
                values.len(),
                time,
                duration,
                store,
                raw::STORE,
            )
        };
        assert_eq!(n, 0);
    }
    fn hold(&mut self, time: f64) {
        let store = self.store.as_mut_ptr();
        assert_eq!(0, unsafe {
            raw::crackledray_hold(self.state.as_mut_ptr(), raw::STATE, time, store, raw::STORE)
        });
    }
}

/// The events of a kind for a block of `count` at `from`. Those that go on last for an hour, so that no run comes to their end.
fn schedule(kind: &str, p: &mut impl Takes, from: f64, count: usize) {
    let hour = 3600.0;
    // nearest to the place, but seldom at its very time, as an operator's times lie
    let near = |place: usize, i: usize| {
        let aside = (i as f64 * 0.618).fract() - 0.5;
        from + (place as f64 + aside).max(0.0) * PERIOD
    };
    match kind {
        "constant" => {}
        "linear" | "k-linear" | "short" => {
            p.step(1.0, 0.0);
            p.linear(2.0, hour);
        }
        "exponential" => {
            p.step(1.0, 0.0);
            p.exponential(2.0, hour);
        }
        "target" => {
            p.step(1.0, 0.0);
            p.target(2.0, 0.0, hour);
        }
        "curve" => {
            let numbers: Vec<f32> = (0..1024).map(|i| (i * 37 % 101) as f32).collect();
            p.curve(&numbers, 0.0, hour);
        }
        "steps" => {
            let place = |i: usize| i * count / EVENTS;
            (0..EVENTS).for_each(|i| p.step(i as f32, place(i) as f64 * PERIOD))
        }
        "ramps" => (0..EVENTS).for_each(|i| p.linear((i % 5) as f32, (2 * i + 1) as f64 * PERIOD)),
        "session" => (0..EVENTS).for_each(|i| p.step(i as f32, near(2 * i, i))),
        "beyond" => (0..EVENTS).for_each(|i| p.step(i as f32, near(16 + 7 * i / 4, i))),
        _ => pairs(kind, p),
    }
}

/// 64 events with two places each, 2i and 2i + 1: from a tenth of a period before the first on, so that no sample but
/// the block's first lies at an event's very start.
fn pairs(kind: &str, p: &mut impl Takes) {
    let level = |i: usize| 1.0 + (i * 37 % 101) as f32 / 32.0;
    let start = |i: usize| (2.0 * i as f64 - 0.1).max(0.0) * PERIOD;
    let all = 0..EVENTS;
    match kind {
        "exponentials" => all.for_each(|i| p.exponential(level(i), start(i + 1))),
        // each ends the one before, the hold the last
        "targets" => {
            all.for_each(|i| p.target(level(i), start(i), 3.0 * PERIOD));
            p.hold(start(EVENTS));
        }
        // each ends a tenth of a period and more before the next, however its end is rounded
        "curves" => {
            all.for_each(|i| p.curve(&[level(i), level(i + 1)], start(i), 1.8 * PERIOD));
        }
        // signs in turn, so that no ratio is above 0
        "turned" => all.for_each(|i| {
            let sign = if i % 2 == 0 { -1.0 } else { 1.0 };
            p.exponential(sign * level(i), start(i + 1));
        }),
        // each is stopped before its own end, so that its value there is one sample more
        "held" => all.for_each(|i| {
            p.exponential(level(i), start(i + 1) + 0.7 * PERIOD);
            p.hold(start(i + 1));
        }),
        _ => unreachable!(),
    }
}

/// Nanoseconds a block, what of them is not the block's own, and the samples of the last block.
struct Played {
    ns: f64,
    off: f64,
    samples: Vec<f32>,
}

struct Bench {
    kind: &'static str,
    edition: Edition,
    count: usize,
    /// its events are used up by one block
    once: bool,
    /// that block lies far on in a session, in each parameter elsewhere
    late: bool,
    blocks: usize,
}

impl Bench {
    fn of(kind: &'static str, blocks: usize) -> Self {
        let late = kind == "session" || kind == "beyond";
        let once = late || USED.contains(&kind);
        let count = if kind == "short" { 64 } else { 128 };
        let blocks = if once { READY } else { blocks };
        Bench { kind, edition: Edition::First, count, once, late, blocks }
    }

    /// Blocks of so many samples under the second edition.
    fn long(kind: &'static str, count: usize) -> Self {
        Bench { edition: Edition::Second, count, ..Bench::of(kind, SAMPLES / count) }
    }

    /// Blocks for the plain renderer, under the first edition that has them.
    fn plain(kind: &'static str, count: usize) -> Self {
        let edition = if count <= 128 { Edition::First } else { Edition::Second };
        Bench { edition, count, ..Bench::of(kind, PLAIN_BLOCKS) }
    }

    /// The time of the first block of the parameter made ready as the i-th.
    fn from(&self, i: usize) -> f64 {
        if self.late { ((i + 1) * BETWEEN) as f64 * self.advance() } else { 0.0 }
    }

    fn port(&self, i: usize) -> Port {
        let mut p = Port::new(self.kind == "k-linear", self.edition);
        schedule(self.kind, &mut p, self.from(i), self.count);
        p
    }

    fn advance(&self) -> f64 {
        self.count as f64 * PERIOD
    }

    /// The steps of a block, but for the first of a kind that goes on.
    fn steps(&self) -> usize {
        match self.kind {
            "turned" => 2 * EVENTS + 1,
            _ if self.once => EVENTS + 1,
            _ => 1,
        }
    }

    /// Each parameter has the steps that the kind says; 64 events wait and none is left, or one goes on.
    fn check(&self) {
        for i in 0..READY {
            let mut p = self.port(i);
            let waited = p.state[WAITING];
            let blocks = if self.once { 1 } else { 2 };
            let steps = p.blocks(self.from(i), self.count, self.advance(), blocks);
            let left = if self.once || self.kind == "constant" { 0 } else { 1 };
            assert_eq!((steps, p.state[WAITING]), (self.steps(), left), "{}", self.kind);
            assert!(!self.once || waited == EVENTS as u64, "{}: {waited} wait", self.kind);
        }
    }

    /// Blocks by one way.
    fn way(&self, way: &str) -> Played {
        let a_rate = self.kind != "k-linear";
        macro_rules! original {
            ($t:ty) => {{
                let ready = |i| {
                    let mut p = <$t>::new(-1000.0, 0.5, 1000.0, a_rate);
                    schedule(self.kind, &mut p, self.from(i), self.count);
                    p
                };
                self.play(
                    ready,
                    |p, from, n| p.blocks(from, PERIOD, self.count, self.advance(), n),
                    |p| p.samples(self.count),
                )
            }};
        }
        let samples = |p: &Port| p.output[..self.count].to_vec();
        match way {
            // each with room for that count and no more
            "rust" => match self.count {
                256 => original!(original_256::Original),
                512 => original!(original_512::Original),
                1024 => original!(original_1024::Original),
                _ => original!(original_default::Original),
            },
            "native" => original!(original_native::Original),
            "exported" => self.play(
                |i| self.port(i),
                |p, from, n| _ = p.blocks(from, self.count, self.advance(), n),
                samples,
            ),
            "value" => self.inside(by_value),
            "plain" => self.inside(speed_plain),
            _ => self.inside(speed_tick),
        }
    }

    /// Parameters are made ready outside of the time that is taken.
    fn play<P>(
        &self,
        ready: impl Fn(usize) -> P,
        blocks: impl Fn(&mut P, f64, usize),
        samples: impl Fn(&P) -> Vec<f32>,
    ) -> Played {
        let mut all: Vec<P> = (0..if self.once { READY } else { 1 }).map(ready).collect();
        let each = if self.once { 1 } else { self.blocks };
        let began = Instant::now();
        for (i, p) in all.iter_mut().enumerate() {
            blocks(black_box(p), self.from(i), each);
        }
        let took = began.elapsed().as_nanos() as f64;
        Played { ns: took / self.blocks as f64, off: 0.0, samples: samples(&all[0]) }
    }

    /// Blocks in a loop of the port's own: the state is read once, before the first.
    fn inside(&self, blocks_in_a_loop: Loop) -> Played {
        let mut p = self.port(0);
        // what a block uses up is played again and again
        let blocks = if self.once { self.blocks * 16 } else { self.blocks };
        let (ns, off) = if self.kind == "curves" {
            // the empty calls first, so that the samples are a block's
            let off = self.put_back(&mut p, blocks_in_a_loop, 0, blocks);
            (self.put_back(&mut p, blocks_in_a_loop, 1, blocks), off)
        } else {
            let began = Instant::now();
            self.call(&mut p, blocks_in_a_loop, blocks);
            (began.elapsed().as_nanos() as f64 / blocks as f64, 0.0)
        };
        Played { ns, off, samples: p.output[..self.count].to_vec() }
    }

    /// So many blocks by one call of a loop.
    fn call(&self, p: &mut Port, blocks_in_a_loop: Loop, blocks: usize) {
        let silence = [0.0f32; 1];
        let steps = unsafe {
            blocks_in_a_loop(
                p.state.as_ptr(),
                raw::STATE,
                self.from(0),
                PERIOD,
                self.count,
                if self.once { 0.0 } else { self.advance() },
                self.once,
                blocks,
                silence.as_ptr(),
                0,
                p.output.as_mut_ptr(),
                p.output.len(),
                p.store.as_mut_ptr(),
                raw::STORE,
            )
        };
        assert_eq!(steps, if blocks == 0 { 0 } else { self.steps() });
    }

    /// A block clears the numbers of the curves that it uses up, so they are put back before each: nanoseconds a call of
    /// so many blocks (1, or 0 for what a call takes that is not the block's).
    fn put_back(&self, p: &mut Port, blocks_in_a_loop: Loop, blocks: usize, calls: usize) -> f64 {
        let numbers = p.store[..2 * EVENTS].to_vec();
        let began = Instant::now();
        for _ in 0..calls {
            p.store[..2 * EVENTS].copy_from_slice(&numbers);
            self.call(black_box(p), blocks_in_a_loop, blocks);
        }
        began.elapsed().as_nanos() as f64 / calls as f64
    }
}

/// Whether two samples are the same but for what exp and powf round otherwise.
fn close(a: f32, b: f32) -> bool {
    (a - b).abs() <= 1e-5 * a.abs().max(b.abs()).max(1.0)
}

/// Nanoseconds that a thing takes alone, many times over.
fn alone(mut thing: impl FnMut()) -> f64 {
    let times = 20_000;
    let began = Instant::now();
    for _ in 0..times {
        thing();
    }
    began.elapsed().as_nanos() as f64 / times as f64
}

/// What no by-value block can do without: zeros behind the curves' numbers, and copies of the parameter.
fn floors(rounds: usize) -> (f64, f64) {
    let mut store = [1.0f32; raw::STORE];
    let (from, mut to) = ([1u64; PARAMETER], [0u64; PARAMETER]);
    let mut best = (f64::INFINITY, f64::INFINITY);
    for _ in 0..rounds {
        best.0 = best.0.min(alone(|| black_box(&mut store).fill(0.0)));
        best.1 = best.1.min(alone(|| black_box(&mut to).copy_from_slice(black_box(&from))));
    }
    best
}

/// The best of the rounds for each way, in which the ways take turns.
fn best<const N: usize>(bench: &Bench, ways: [&str; N], rounds: usize) -> [f64; N] {
    bench.check();
    let mut best = [f64::INFINITY; N];
    let mut off = best;
    let rust = bench.way("rust").samples;
    for _ in 0..rounds {
        for (i, way) in ways.iter().enumerate() {
            let played = bench.way(way);
            assert!(
                rust.len() == bench.count
                    && rust.iter().zip(&played.samples).all(|(a, b)| close(*a, *b)),
                "{}: {way} plays other samples: {rust:?} {:?}",
                bench.kind,
                played.samples
            );
            best[i] = best[i].min(played.ns);
            off[i] = off[i].min(played.off);
        }
    }
    (0..N).for_each(|i| best[i] -= off[i]);
    best
}

struct Row {
    kind: &'static str,
    best: [f64; WAYS.len()],
}

impl Row {
    fn of(kind: &'static str, rounds: usize) -> Self {
        Row { kind, best: best(&Bench::of(kind, 4000), WAYS, rounds) }
    }

    /// By value, by tick, by the exported call.
    fn ours(&self) -> [f64; 3] {
        [self.best[2], self.best[3], self.best[4]]
    }

    fn print(&self) {
        let ([r, n, v, t, e], kind) = (self.best, self.kind);
        println!(
            "{kind:12} {r:9.1} {n:9.1} {v:9.1} {t:9.1} {e:9.1}   {:10.2} {:10.2} {:14.2} {:13.2}",
            v / r,
            t / r,
            e / r,
            v / n
        );
    }
}

/// The second table: what the differences of rows say of a step and of a sample.
fn costs(rows: &[Row]) {
    let of = |kind: &str| rows.iter().find(|r| r.kind == kind).expect("a row").ours();
    let line = |what: &str, kind: &str, [v, t, e]: [f64; 3], by: &str| {
        println!("{what:14} {kind:12} {v:9.2} {t:9.2} {e:9.2}   {by}")
    };
    let apart = |a: [f64; 3], b: [f64; 3], n: usize| [0, 1, 2].map(|i| (a[i] - b[i]) / n as f64);
    let base = of("constant");
    println!("A step and a sample: nanoseconds by differences of the rows above.");
    println!("{:14} {:12} {:>9} {:>9} {:>9}", "what", "kind", "value", "tick", "exported");
    line("base", "constant", base, "the row: an answered block with no event");
    for kind in LASTING {
        line("sample", kind, apart(of(kind), base, 128), "(row - constant) / 128");
    }
    line("further-sample", "linear", apart(of("linear"), of("short"), 64), "(row - short) / 64");
    for kind in USED {
        let n = Bench::of(kind, 1).steps() - 1;
        let by = format!("(row - constant) / {n}");
        line("further-step", kind, apart(of(kind), base, n), &by);
    }
    let dearest = |i: usize| {
        let by = |a: &&Row, b: &&Row| a.ours()[i].total_cmp(&b.ours()[i]);
        rows.iter().max_by(by).expect("a row")
    };
    let kinds = [0, 1, 2].map(|i| dearest(i).kind).join(", ");
    line("dearest", "block", [0, 1, 2].map(|i| dearest(i).ours()[i]), &kinds);
}

/// The third table: the second edition, by kind and count, what a block takes and what of it a sample.
fn long(rounds: usize) {
    println!("Long blocks: the second edition, nanoseconds a block of n samples, and a sample (/n).");
    println!("rust: the original's text in a crate whose RENDER_QUANTUM_SIZE is n; as it stands, its list has room for 128 values.");
    println!(
        "{:12} {:>5} {:>9} {:>9} {:>9} {:>9}   {:>7} {:>7} {:>7} {:>10}   value/rust  exported/rust",
        "kind", "n", "rust", "value", "tick", "exported", "rust/n", "value/n", "tick/n", "exported/n"
    );
    for kind in LONG_KINDS {
        for count in LONG_COUNTS {
            let block = best(&Bench::long(kind, count), LONG_WAYS, rounds);
            let ([r, v, t, e], [rs, vs, ts, es]) = (block, block.map(|ns| ns / count as f64));
            println!(
                "{kind:12} {count:5} {r:9.1} {v:9.1} {t:9.1} {e:9.1}   {rs:7.3} {vs:7.3} {ts:7.3} {es:10.3}   {:10.2} {:14.2}",
                v / r,
                e / r
            );
        }
    }
}

/// The fourth table: the plain renderer, by kind and count, beside the Rust and `process`, whose very samples it must play.
fn plain(rounds: usize) {
    println!("The plain renderer: nanoseconds a block of n samples, above 128 under the second edition.");
    println!(
        "{:12} {:>5} {:>9} {:>9} {:>12} {:>9}   plain/value  plain/rust",
        "kind", "n", "rust", "value", "plain", "plain/n"
    );
    for kind in PLAIN_KINDS {
        for count in PLAIN_COUNTS {
            let bench = Bench::plain(kind, count);
            let bits = |way| bench.way(way).samples.into_iter().map(f32::to_bits).collect::<Vec<_>>();
            assert_eq!(bits("plain"), bits("value"), "{kind}");
            let [r, v, p] = best(&bench, PLAIN_WAYS, rounds);
            let each = p / count as f64;
            println!(
                "{kind:12} {count:5} {r:9.1} {v:9.1} {p:12.1} {each:9.1}   {:11.1} {:11.1}",
                p / v,
                p / r
            );
        }
    }
}

fn head(rounds: usize) {
    println!("Nanoseconds a block of 128 samples (short: 64), sample period 1/48000 s, silence; best of {rounds} rounds, interleaved.");
    println!("Machine: {}. Nobody clears a buffer between blocks: the output is written over, in the port and in the Rust;", std::env::consts::ARCH);
    println!("the Rust clears its own list of values at each block, and the port writes the curve store's numbers and zeros.");
    println!("rust: the original at default flags; native: with target-cpu=native; value: process; tick; exported: crackledray_block.");
    println!();
    println!(
        "{:12} {:>9} {:>9} {:>9} {:>9} {:>9}   value/rust  tick/rust  exported/rust  value/native",
        "kind", "rust", "native", "value", "tick", "exported"
    );
}

fn main() {
    let rounds: usize =
        std::env::args().nth(1).map_or(15, |w| w.parse().expect("a number of rounds"));
    head(rounds);
    let mut rows = Vec::new();
    for kind in KINDS {
        let row = Row::of(kind, rounds);
        row.print();
        rows.push(row);
    }
    let (zeros, copy) = floors(rounds);
    println!();
    println!("alone: zeros over the whole curve store {zeros:.1} ns; one copy of the parameter {copy:.1} ns");
    println!();
    costs(&rows);
    println!();
    long(rounds);
    println!();
    plain(rounds);
    println!();
    for row in rows {
        for (way, ns) in WAYS[2..].iter().zip(row.ours()) {
            println!("ratio {} {way} {:.2}", row.kind, ns / row.best[0]);
        }
    }
}
