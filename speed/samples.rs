// The port's runs of samples beside the Rust's own sample functions: speed, and how far they differ where the Rust takes exp and powf.
// Built and run by speed/samples and speed/limits. Standard library alone. x86-64's default flags have no fused instruction: there Rust's mul_add is a call.
use std::hint::black_box;
use std::time::Instant;

extern "C" {
    fn samples_linear(out: *mut f32, len: usize, start: f64, duration: f64, from: f32, diff: f32, time: f64, dt: f64);
    fn samples_ratio_log(ratio: f32) -> i64;
    fn samples_exponential(out: *mut f32, len: usize, start: f64, duration: f64, from: f32, log: i64, time: f64, dt: f64);
    fn samples_target(out: *mut f32, len: usize, start: f64, constant: f64, target: f32, diff: f32, intrinsic: f32, time: f64, dt: f64);
    fn samples_curve(out: *mut f32, len: usize, start: f64, duration: f64, values: *const f32, count: usize, intrinsic: f32, time: f64, dt: f64);
}

const COUNT: usize = 128;
const DT: f64 = 1.0 / 48000.0;

// ---- the Rust's own, cut out of param.rs by build.sh

include!(env!("RUST_SAMPLES"));

// ---- a run of each: what the four kinds have in common

#[derive(Clone, Copy)]
struct Ramp {
    start: f64,
    length: f64, // duration, or time constant
    from: f32,
    to: f32,
    time: f64,
}

trait Kind {
    fn rust(&self, r: &Ramp, out: &mut [f32]);
    fn port(&self, r: &Ramp, out: &mut [f32]);
}

fn fill(out: &mut [f32], mut time: f64, sample: impl Fn(f64) -> f32) {
    for x in out.iter_mut() {
        *x = sample(time);
        time += DT;
    }
}

struct Linear;
impl Kind for Linear {
    #[inline(never)]
    fn rust(&self, r: &Ramp, out: &mut [f32]) {
        fill(out, r.time, |t| compute_linear_ramp_sample(r.start, r.length, r.from, r.to - r.from, t));
    }
    #[inline(never)]
    fn port(&self, r: &Ramp, out: &mut [f32]) {
        unsafe { samples_linear(out.as_mut_ptr(), out.len(), r.start, r.length, r.from, r.to - r.from, r.time, DT) }
    }
}

struct Exponential;
impl Kind for Exponential {
    #[inline(never)]
    fn rust(&self, r: &Ramp, out: &mut [f32]) {
        let ratio = r.to / r.from;
        fill(out, r.time, |t| compute_exponential_ramp_sample(r.start, r.length, r.from, ratio, t));
    }
    #[inline(never)]
    fn port(&self, r: &Ramp, out: &mut [f32]) {
        unsafe {
            let log = samples_ratio_log(r.to / r.from);
            samples_exponential(out.as_mut_ptr(), out.len(), r.start, r.length, r.from, log, r.time, DT)
        }
    }
}

struct Target;
impl Kind for Target {
    #[inline(never)]
    fn rust(&self, r: &Ramp, out: &mut [f32]) {
        fill(out, r.time, |t| compute_set_target_sample(r.start, r.length, r.to, r.from - r.to, t));
    }
    #[inline(never)]
    fn port(&self, r: &Ramp, out: &mut [f32]) {
        unsafe { samples_target(out.as_mut_ptr(), out.len(), r.start, r.length, r.to, r.from - r.to, 0.0, r.time, DT) }
    }
}

struct Curve(Vec<f32>);
impl Kind for Curve {
    #[inline(never)]
    fn rust(&self, r: &Ramp, out: &mut [f32]) {
        fill(out, r.time, |t| compute_set_value_curve_sample(r.start, r.length, &self.0, t));
    }
    #[inline(never)]
    fn port(&self, r: &Ramp, out: &mut [f32]) {
        unsafe { samples_curve(out.as_mut_ptr(), out.len(), r.start, r.length, self.0.as_ptr(), self.0.len(), 0.0, r.time, DT) }
    }
}

// ---- speed: best of many rounds, the two taken in turn

fn nanoseconds(mut run: impl FnMut()) -> f64 {
    let t = Instant::now();
    for _ in 0..40 {
        run();
    }
    t.elapsed().as_nanos() as f64 / (40 * COUNT) as f64
}

fn compare(name: &str, goal: &str, kind: &dyn Kind, ramps: &[Ramp]) {
    let (mut rust, mut port) = (0.0, 0.0);
    let mut out = [0f32; COUNT];
    for r in ramps {
        let (mut a, mut b) = (f64::MAX, f64::MAX);
        for _ in 0..150 {
            a = a.min(nanoseconds(|| kind.rust(black_box(r), black_box(&mut out))));
            b = b.min(nanoseconds(|| kind.port(black_box(r), black_box(&mut out))));
        }
        rust += a / ramps.len() as f64;
        port += b / ramps.len() as f64;
    }
    println!("{name:12} Rust {rust:6.2}  port {port:6.2}  ratio {:.2}  {goal}", port / rust);
}

fn speed() {
    let load = std::fs::read_to_string("/proc/loadavg").unwrap_or_default();
    println!("nanoseconds a sample, runs of {COUNT}, the best of 150 rounds taken in turn; load {}", load.trim());
    let ramp = |length: f64, from: f32, to: f32, into: f64| Ramp { start: 1.0, length, from, to, time: 1.0 + into };
    let ramps = [
        ramp(0.0031, 0.1, 0.8, 0.0),
        ramp(0.0031, 0.5, -0.4, 0.0),
        ramp(1.0, 440.0, 880.0, 0.3),
        ramp(0.25, 0.0, 1.0, 0.1),
        ramp(0.02, 1000.0, 0.7, 0.003),
    ];
    let grows = [
        ramp(0.0031, 0.1, 0.8, 0.0),
        ramp(0.0031, 1.0, 0.001, 0.0),
        ramp(1.0, 440.0, 880.0, 0.3),
        ramp(0.25, 0.01, 1.0, 0.1),
        ramp(0.02, 1000.0, 0.7, 0.003),
    ];
    let values = |n: usize| (0..n).map(|i| (i as f32 * 0.37).sin()).collect::<Vec<_>>();
    compare("linear", "(goal 1.0)", &Linear, &ramps);
    compare("curve of 17", "(goal 1.0)", &Curve(values(17)), &ramps);
    compare("curve of 2", "(goal 1.0)", &Curve(values(2)), &ramps);
    compare("target", "(goal 1.5, in the end 1.0)", &Target, &ramps);
    // every second sum lies in the middle between two samples
    compare("target, ties", "(goal 1.5, in the end 1.0)", &Target, &[ramp(3600.0, 1.0, 2.0, 0.3)]);
    compare("target, late", "(goal 1.5, in the end 1.0)", &Target, &[ramp(0.01, 0.1, 0.8, 0.1), ramp(0.01, 1.0, 0.0, 0.1), ramp(0.1, 440.0, 880.0, 0.6)]);
    compare("exponential", "(goal 1.5, in the end 1.0)", &Exponential, &grows);
}

// ---- limits: "target within 2^-20 × (|start| + |target|) + 2^-148 .., exponential within a relative 2^-18 for normal samples, ratios 2^-20 to 2^20 and phases 0 to 1"

struct Random(u64);
impl Random {
    fn next(&mut self) -> u64 {
        self.0 ^= self.0 << 13;
        self.0 ^= self.0 >> 7;
        self.0 ^= self.0 << 17;
        self.0.wrapping_mul(0x2545_f491_4f6c_dd1d)
    }
    // from 0 to 1
    fn unit(&mut self) -> f64 {
        (self.next() >> 11) as f64 / (1u64 << 53) as f64
    }
    // a finite f32, its exponent from low to high
    fn value(&mut self, low: i32, high: i32) -> f32 {
        let e = low + (self.next() % (high - low + 1) as u64) as i32;
        let m = 1.0 + self.unit();
        let sign = if self.next() % 2 == 0 { 1.0 } else { -1.0 };
        (sign * m * 2f64.powi(e)) as f32
    }
}

// How far b lies from a, as a part of the limit. What is no number on one side alone is as far as can be.
fn part(a: f32, b: f32, limit: f64) -> f64 {
    if a.to_bits() == b.to_bits() {
        return 0.0;
    }
    let apart = (a as f64 - b as f64).abs() / limit;
    if apart.is_nan() { f64::INFINITY } else { apart }
}

fn limits() {
    const RUNS: usize = 10_000;
    let mut random = Random(88172645463325252);
    let mut out = [0f32; COUNT];
    let mut rust = [0f32; COUNT];
    let mut worst = [0f64; 2];
    let mut seen = [0usize; 2];
    while seen[0] < RUNS * COUNT {
        let (low, high) = if random.next() % 8 == 0 { (-149, 126) } else { (-20, 20) };
        let (from, to) = (random.value(low, high), if random.next() % 4 == 0 { 0.0 } else { random.value(low, high) });
        if !(from - to).is_finite() {
            continue;
        }
        let constant = 2f64.powf(random.unit() * 20.0 - 14.0);
        let start = random.unit() * 100.0;
        let far = if random.next() % 8 == 0 { 130.0 } else { 30.0 };
        let r = Ramp { start, length: constant, from, to, time: start + random.unit() * constant * far };
        Target.rust(&r, &mut rust);
        Target.port(&r, &mut out);
        let limit = 2f64.powi(-20) * (from.abs() as f64 + to.abs() as f64) + 2f64.powi(-148);
        for (a, b) in rust.iter().zip(&out) {
            worst[0] = worst[0].max(part(*a, *b, limit));
        }
        seen[0] += COUNT;
    }
    while seen[1] < RUNS * COUNT {
        let from = random.value(-100, 100);
        let ratio = 2f64.powf(random.unit() * 40.0 - 20.0);
        let to = (from as f64 * ratio) as f32;
        let start = random.unit() * 100.0;
        let length = 2f64.powf(random.unit() * 16.0 - 8.0);
        let r = Ramp { start, length, from, to, time: start + random.unit() * length };
        Exponential.rust(&r, &mut rust);
        Exponential.port(&r, &mut out);
        let quotient = (to / from) as f64;
        let mut time = r.time;
        for (a, b) in rust.iter().zip(&out) {
            let phase = (time - start) / length;
            if phase <= 1.0 && a.is_normal() && (2f64.powi(-20)..=2f64.powi(20)).contains(&quotient) {
                worst[1] = worst[1].max(part(*a, *b, a.abs() as f64 * 2f64.powi(-18)));
                seen[1] += 1;
            }
            time += DT;
        }
    }
    println!("target:      {} samples, worst {:.3} of the limit 2^-20 * (|start| + |target|) + 2^-148", seen[0], worst[0]);
    println!("exponential: {} samples, worst {:.3} of the limit, a relative 2^-18", seen[1], worst[1]);
    if worst.iter().any(|w| *w > 1.0) {
        std::process::exit(1);
    }
}

fn main() {
    match std::env::args().nth(1).as_deref() {
        Some("limits") => limits(),
        _ => speed(),
    }
}
