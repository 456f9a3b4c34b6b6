// narrow, fused32 and fused64 against Rust's `as f32` and `mul_add`, on random operands of every kind. NaNs count as equal.

extern "C" {
    fn rounding_narrow(x: f64) -> f32;
    fn rounding_fused32(a: f32, b: f32, c: f32) -> f32;
    fn rounding_fused64(n: u64, p: f64, t: f64) -> f64;
}

struct Random(u64);

impl Random {
    fn next(&mut self) -> u64 {
        self.0 ^= self.0 << 13;
        self.0 ^= self.0 >> 7;
        self.0 ^= self.0 << 17;
        self.0.wrapping_mul(0x2545_f491_4f6c_dd1d)
    }

    // Any pattern, a subnormal number, one of middling size with many or few digits, a large or a tiny one.
    fn f32(&mut self) -> f32 {
        let (kind, bits) = (self.next() >> 8, self.next() as u32);
        let digits = bits & 0x807f_ffff;
        let field = |low: u64, n: u64| ((low + kind / 8 % n) as u32) << 23;
        f32::from_bits(match kind % 8 {
            0 => bits,
            1 => digits,
            2 => digits | field(97, 60),
            3 => bits & 0x8000_0007 | field(97, 60),
            4 => bits & 0x8070_0000 | field(1, 60),
            5 => digits | field(0, 255),
            6 => bits & 0x8000_0003,
            _ => digits | 0x3f80_0000,
        })
    }

    fn f64(&mut self) -> f64 {
        let (kind, bits) = (self.next() >> 8, self.next());
        let digits = bits & 0x800f_ffff_ffff_ffff;
        let field = |low: u64, n: u64| (low + kind / 8 % n) << 52;
        f64::from_bits(match kind % 8 {
            0 => bits,
            1 => digits,
            2 => digits | field(1000, 20),
            3 => digits | field(980, 100),
            4 => digits & 0xffff_ffff_f000_0000 | field(863, 300),
            5 => digits | field(873, 40),
            6 => digits | field(1140, 30),
            _ => digits | field(0, 2047),
        })
    }
}

fn same32(a: f32, b: f32) -> bool {
    a.is_nan() && b.is_nan() || a.to_bits() == b.to_bits()
}

fn same64(a: f64, b: f64) -> bool {
    a.is_nan() && b.is_nan() || a.to_bits() == b.to_bits()
}

fn main() {
    let rounds: u64 = std::env::args().nth(1).map_or(4_000_000, |n| n.parse().expect("a number of rounds"));
    let mut r = Random(std::env::args().nth(2).map_or(88172645463325252, |n| n.parse().expect("a seed above 0")));
    let (mut compared, mut differ) = (0u64, 0u64);
    let mut report = |same: bool, what: &dyn Fn() -> String| {
        compared += 1;
        if !same {
            differ += 1;
            if differ <= 20 {
                println!("{}", what());
            }
        }
    };
    for i in 0..rounds {
        let x = r.f64();
        let y = unsafe { rounding_narrow(x) };
        report(same32(y, x as f32), &|| format!("narrow {:016x}: {:08x}", x.to_bits(), y.to_bits()));

        let (a, b) = (r.f32(), r.f32());
        // every fifth sum cancels, every fifth nearly
        let c = match i % 5 {
            0 => -(a * b),
            1 => f32::from_bits((-(a * b)).to_bits() ^ (r.next() % 3) as u32),
            _ => r.f32(),
        };
        let y = unsafe { rounding_fused32(a, b, c) };
        report(same32(y, a.mul_add(b, c)), &|| format!("fused32 {:08x} {:08x} {:08x}: {:08x}", a.to_bits(), b.to_bits(), c.to_bits(), y.to_bits()));

        let (n, p) = (r.next() % 1025, r.f64());
        let t = match i % 5 {
            0 => -(n as f64 * p),
            1 => f64::from_bits((-(n as f64 * p)).to_bits() ^ r.next() % 3),
            _ => r.f64(),
        };
        let y = unsafe { rounding_fused64(n, p, t) };
        report(same64(y, (n as f64).mul_add(p, t)), &|| format!("fused64 {} {:016x} {:016x}: {:016x}", n, p.to_bits(), t.to_bits(), y.to_bits()));
    }
    println!("{compared} compared, {differ} differ");
}
