//! Document 01's arithmetic, in its order: end place, the two kernels, the
//! four samples, the mix. Fused results are the standard library's `mul_add`.

/// The kernels count in 2^-24ths.
const N: i64 = 1 << 24;

/// The end place of a time: the smallest n below `count` with q < n + 0.5.
pub fn end_place(time: f64, block_time: f64, period: f64, count: usize) -> usize {
    let since = time - block_time;
    let q = if since > 0. { since / period } else { 0. };
    (0..count).find(|n| q < *n as f64 + 0.5).unwrap_or(count)
}

/// Falling power: 2^32 times 2^(-a/N), from below, for 0 <= a < N.
pub fn falling_power(a: u32) -> u64 {
    let mut c: u64 = 1 << 31;
    let mut r: u64 = 1 << 32;
    for j in 1..=24 {
        c = (u128::from(c) << 32).isqrt() as u64;
        if a >> (24 - j) & 1 == 1 {
            r = ((u128::from(r) * u128::from(c)) >> 32) as u64;
        }
    }
    r
}

/// Log: the first 24 binary digits of log2(m / 2^31), m from 2^31 to 2^32 - 1.
pub fn log(m: u32) -> u32 {
    let (mut m, mut digits) = (u64::from(m), 0);
    for _ in 0..24 {
        m = (m * m) >> 31;
        digits *= 2;
        if m >= 1 << 32 {
            m >>= 1;
            digits += 1;
        }
    }
    digits
}

/// 2^e as an f64, for exponents of normal numbers.
fn two_to(e: i64) -> f64 {
    f64::from_bits(((e + 1023) as u64) << 52)
}

pub fn linear_sample(start: f64, duration: f64, from: f32, diff: f32, time: f64) -> f32 {
    let phase = (time - start) / duration;
    diff.mul_add(phase as f32, from)
}

/// Whole part and 24 digits of a ratio's logarithm, in N-ths.
fn log_of_ratio(ratio: f32) -> i64 {
    let wide = f64::from(ratio).to_bits(); // normal, also where the f32 is not
    let exponent = (wide >> 52) as i64 - 1023;
    let m = ((wide & ((1 << 52) - 1)) | 1 << 52) >> 21;
    exponent * N + i64::from(log(m as u32))
}

fn rising_factor(p: f64) -> f64 {
    if p >= (256 * N) as f64 {
        return f64::INFINITY;
    }
    if p <= (-300 * N) as f64 {
        return 0.;
    }
    let (q, f) = ((p as i64).div_euclid(N), (p as i64).rem_euclid(N));
    if f == 0 {
        return two_to(q);
    }
    two_to(q + 1) * falling_power((N - f) as u32) as f64 / two_to(32)
}

pub fn exponential_sample(start: f64, duration: f64, from: f32, ratio: f32, time: f64) -> f32 {
    let phase = (time - start) / duration;
    let product = log_of_ratio(ratio) as f64 * phase;
    if product.is_nan() {
        return f32::NAN;
    }
    (f64::from(from) * rising_factor(product.floor())) as f32
}

/// What is left of start - target after x time constants, narrowed.
pub fn target_factor(start: f64, constant: f64, time: f64) -> f32 {
    let x = (time - start) / constant;
    let y = x * std::f64::consts::LOG2_E;
    if y >= 160. {
        return 0.;
    }
    let p = (y * N as f64).floor() as i64;
    let (w, a) = (p.div_euclid(N), p.rem_euclid(N));
    (falling_power(a as u32) as f64 * two_to(-32 - w)) as f32
}

pub fn target_sample(start: f64, constant: f64, target: f32, diff: f32, time: f64) -> f32 {
    diff.mul_add(target_factor(start, constant, time), target)
}

/// A curve's sample, and whether rounding carried it past the end.
pub fn curve_sample(start: f64, duration: f64, values: &[f32], time: f64) -> (f32, bool) {
    let last = values.len() - 1;
    if time - start >= duration {
        return (values[last], false);
    }
    let position = last as f64 * (time - start) / duration;
    let k = position.floor();
    if k >= last as f64 {
        return (values[last], true);
    }
    let (k, phase) = (k as usize, (position - k) as f32);
    ((values[k + 1] - values[k]).mul_add(phase, values[k]), false)
}

/// One sample of the mix; NaN gives the default, a sample equal to a bound stays.
pub fn mixed(sum: f32, min: f32, default: f32, max: f32) -> f32 {
    if sum.is_nan() {
        default
    } else if sum < min {
        min
    } else if sum > max {
        max
    } else {
        sum
    }
}
