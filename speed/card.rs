// A schedule file written and read by the library's calls: a full card (63 targets and a curve of 4,096 numbers) and a small one (4 events).
// Best and middle of some rounds; before a time counts, what is read must be what was written.

use std::time::Instant;

extern "C" {
    fn crackledray_make(state: *mut u64, n: usize, min: f32, default: f32, max: f32, k_rate: bool) -> u32;
    fn crackledray_linear(state: *mut u64, n: usize, value: f32, time: f64) -> u32;
    fn crackledray_target(state: *mut u64, n: usize, value: f32, time: f64, constant: f64) -> u32;
    fn crackledray_curve(state: *mut u64, n: usize, values: *const f32, k: usize, time: f64, duration: f64, store: *mut f32, m: usize) -> u32;
    fn crackledray_card_write(state: *const u64, n: usize, store: *const f32, m: usize, out: *mut u8, k: usize, at: *mut usize) -> u32;
    fn crackledray_card_open(card: *mut u64, n: usize, numbers: *mut f32, m: usize, k_rate: bool, edition: u64) -> u32;
    fn crackledray_card_part(card: *mut u64, n: usize, window: *mut u8, w: usize, numbers: *mut f32, m: usize, part: *const u8, k: usize) -> u32;
    fn crackledray_card_end(card: *const u64, n: usize, window: *const u8, w: usize, numbers: *mut f32, m: usize, state: *mut u64, s: usize, store: *mut f32, t: usize, at: *mut usize) -> u32;
}

const STATE: usize = 399;
const CARD: usize = 408;
const STORE: usize = 4096;
const WINDOW: usize = 65538;

struct Schedule {
    state: [u64; STATE],
    store: Vec<f32>,
}

struct Reader {
    card: [u64; CARD],
    window: Vec<u8>,
    numbers: Vec<f32>,
}

fn answered(number: u32) {
    assert_eq!(number, 0, "a call is refused");
}

fn made() -> Schedule {
    let mut s = Schedule { state: [0; STATE], store: vec![0.0; STORE] };
    answered(unsafe { crackledray_make(s.state.as_mut_ptr(), STATE, -10.0, 0.0, 10.0, false) });
    s
}

fn full() -> Schedule {
    let mut s = made();
    for i in 0..63 {
        answered(unsafe { crackledray_target(s.state.as_mut_ptr(), STATE, i as f32 * 0.1, i as f64, 0.3) });
    }
    let values: Vec<f32> = (0..STORE).map(|i| (i as f32 * 0.01).sin()).collect();
    answered(unsafe { crackledray_curve(s.state.as_mut_ptr(), STATE, values.as_ptr(), STORE, 100.0, 1.0, s.store.as_mut_ptr(), STORE) });
    s
}

fn small() -> Schedule {
    let mut s = made();
    for i in 0..4 {
        answered(unsafe { crackledray_linear(s.state.as_mut_ptr(), STATE, i as f32, i as f64) });
    }
    s
}

fn write(s: &Schedule, out: &mut [u8]) -> usize {
    let mut at = 0;
    answered(unsafe { crackledray_card_write(s.state.as_ptr(), STATE, s.store.as_ptr(), STORE, out.as_mut_ptr(), out.len(), &mut at) });
    at
}

fn read(file: &[u8], part: usize, r: &mut Reader, s: &mut Schedule) {
    let mut at = 0;
    answered(unsafe { crackledray_card_open(r.card.as_mut_ptr(), CARD, r.numbers.as_mut_ptr(), STORE, false, 1) });
    for p in file.chunks(part) {
        answered(unsafe {
            crackledray_card_part(r.card.as_mut_ptr(), CARD, r.window.as_mut_ptr(), WINDOW, r.numbers.as_mut_ptr(), STORE, p.as_ptr(), p.len())
        });
    }
    answered(unsafe {
        crackledray_card_end(r.card.as_ptr(), CARD, r.window.as_ptr(), WINDOW, r.numbers.as_mut_ptr(), STORE, s.state.as_mut_ptr(), STATE, s.store.as_mut_ptr(), STORE, &mut at)
    });
    assert_eq!(at, file.len());
}

fn timed(name: &str, bytes: usize, rounds: usize, mut turn: impl FnMut()) {
    let mut times: Vec<f64> = (0..rounds)
        .map(|_| {
            let start = Instant::now();
            turn();
            start.elapsed().as_secs_f64() * 1e6
        })
        .collect();
    times.sort_by(f64::total_cmp);
    let (best, middle) = (times[0], times[rounds / 2]);
    println!("{name:<34} {bytes:>6} bytes  best {best:>7.2} us  middle {middle:>7.2} us  {:>7.1} MB/s", bytes as f64 / middle);
}

fn main() {
    let rounds = std::env::args().nth(1).and_then(|w| w.parse().ok()).unwrap_or(2000);
    let mut out = vec![0u8; 20000];
    for (name, s) in [("full", full()), ("small", small())] {
        let n = write(&s, &mut out);
        let file = out[..n].to_vec();
        let mut r = Reader { card: [0; CARD], window: vec![0; WINDOW], numbers: vec![0.0; STORE] };
        let mut back = made();
        read(&file, 7, &mut r, &mut back);
        let again = write(&back, &mut out);
        assert!(out[..again] == file[..] && back.store == s.store, "what is read is not what was written");
        timed(&format!("{name} card, written"), n, rounds, || {
            write(&s, &mut out);
        });
        for part in [65536, 512] {
            timed(&format!("{name} card, read in parts of {part}"), n, rounds, || read(&file, part, &mut r, &mut back));
        }
    }
}
