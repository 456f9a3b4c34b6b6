// Makes the list of outside vectors that crates/vectors runs: rounding as Rust has it (`as f32`, `mul_add`).
// A line is a letter, three operands and Rust's result, each as 16 hexadecimal digits: n narrows, f is fused in f32, d in f64.
// mkdir -p target && rustc -O speed/vectors.rs -o target/make_vectors && target/make_vectors > crates/vectors/stdin

struct Random(u64);

impl Random {
    fn next(&mut self) -> u64 {
        self.0 ^= self.0 << 13;
        self.0 ^= self.0 >> 7;
        self.0 ^= self.0 << 17;
        self.0.wrapping_mul(0x2545_f491_4f6c_dd1d)
    }

    fn below(&mut self, n: u64) -> u64 {
        self.next() % n
    }

    // A float with the exponent's field in a range, and some of its digits.
    fn f32(&mut self, low: u64, high: u64, digits: u32) -> f32 {
        let field = (low + self.below(high - low)) as u32;
        let bits = self.next() as u32;
        f32::from_bits((bits & 0x8000_0000) | field << 23 | (bits & 0x7f_ffff) >> (23 - digits) << (23 - digits))
    }

    fn f64(&mut self, low: u64, high: u64, digits: u32) -> f64 {
        let field = low + self.below(high - low);
        let bits = self.next();
        f64::from_bits((bits & 1 << 63) | field << 52 | (bits & ((1 << 52) - 1)) >> (52 - digits) << (52 - digits))
    }
}

// One NaN stands for all: Rust does not settle which pattern a result has.
fn bits32(x: f32) -> u64 {
    if x.is_nan() { 0x7fc0_0000 } else { x.to_bits() as u64 }
}

fn bits64(x: f64) -> u64 {
    if x.is_nan() { 0x7ff8 << 48 } else { x.to_bits() }
}

fn narrow(x: f64) {
    println!("n {:016x} {:016x} {:016x} {:016x}", x.to_bits(), 0, 0, bits32(x as f32));
}

fn fused32(a: f32, b: f32, c: f32) {
    println!("f {:016x} {:016x} {:016x} {:016x}", a.to_bits(), b.to_bits(), c.to_bits(), bits32(a.mul_add(b, c)));
}

fn fused64(n: u64, p: f64, t: f64) {
    println!("d {:016x} {:016x} {:016x} {:016x}", n, p.to_bits(), t.to_bits(), bits64((n as f64).mul_add(p, t)));
}

fn narrowing(r: &mut Random) {
    let special = [0.0, 1.0, f64::MAX, f64::MIN_POSITIVE, f64::INFINITY, f64::from_bits(1), f32::MAX as f64, f32::MIN_POSITIVE as f64];
    for x in special {
        narrow(x);
        narrow(-x);
    }
    narrow(f64::NAN);
    narrow(f64::from_bits(0xfff0_0000_0000_0001));
    // the last half gap, and its neighbours
    for b in 0x47ef_ffff_efff_fffeu64..=0x47ef_ffff_f000_0002 {
        narrow(f64::from_bits(b));
    }
    // half of the smallest value, and its neighbours; ties among the subnormal numbers
    for b in 0x368f_ffff_ffff_fffeu64..=0x3690_0000_0000_0002 {
        narrow(f64::from_bits(b));
        narrow(-f64::from_bits(b));
    }
    for _ in 0..20 {
        let odd = 2 * r.below(1 << 23) + 1;
        narrow(odd as f64 * 2f64.powi(-150));
    }
    // ties of normal numbers, and their neighbours
    for _ in 0..20 {
        let b = r.f64(880, 1160, 23).to_bits() | 1 << 28;
        narrow(f64::from_bits(b));
        narrow(f64::from_bits(b + 1));
        narrow(f64::from_bits(b - 1));
    }
    for _ in 0..40 {
        narrow(r.f64(860, 910, 52));
        narrow(r.f64(890, 1155, 52));
    }
}

fn fusing32(r: &mut Random) {
    let special = [0.0, -0.0, 1.0, -1.0, f32::MAX, -f32::MAX, f32::from_bits(1), -f32::from_bits(1), f32::INFINITY, f32::NEG_INFINITY, f32::NAN];
    for a in [0.0, -0.0, 1.0, -1.0, f32::INFINITY, f32::NAN] {
        for b in special {
            for c in [0.0, -0.0, 1.0, f32::NEG_INFINITY, f32::NAN] {
                if r.below(2) == 0 {
                    fused32(a, b, c);
                }
            }
        }
    }
    // cancellation: of all, and of all but a little
    for _ in 0..30 {
        let (a, b) = (r.f32(90, 160, 23), r.f32(90, 160, 23));
        let near = -(a * b);
        fused32(a, b, near);
        fused32(a, b, f32::from_bits(near.to_bits() ^ 1));
        let (a, b) = (r.f32(100, 150, 11), r.f32(100, 150, 11));
        fused32(a, b, -(a * b));
    }
    // ties, and sums just off a tie by what is far below
    for _ in 0..30 {
        let a = r.f32(120, 130, 23);
        fused32(a, 1.0, f32::from_bits((a.to_bits() >> 23 & 255).saturating_sub(24) << 23));
        let b = f32::from_bits(a.to_bits() & 0xff80_0000);
        fused32(b, f32::from_bits(0x3380_0000), b);
        fused32(b, f32::from_bits(0x3380_0001), b);
        fused32(b, f32::from_bits(0x337f_ffff), b);
    }
    // subnormal results and operands
    for _ in 0..30 {
        fused32(r.f32(0, 1, 23), r.f32(100, 150, 23), r.f32(0, 2, 23));
        fused32(r.f32(40, 70, 12), r.f32(40, 70, 12), r.f32(0, 2, 23));
    }
    // overflow, and just not
    for _ in 0..30 {
        fused32(r.f32(185, 192, 23), r.f32(185, 192, 23), r.f32(240, 255, 23));
        fused32(f32::MAX, r.f32(127, 128, 23).abs(), -r.f32(240, 254, 23).abs());
    }
    for _ in 0..60 {
        fused32(r.f32(0, 255, 23), r.f32(0, 255, 23), r.f32(0, 255, 23));
        fused32(r.f32(110, 140, 23), r.f32(110, 140, 23), r.f32(100, 150, 23));
    }
}

fn fusing64(r: &mut Random) {
    let special = [0.0, -0.0, 1.0, -f64::MAX, f64::from_bits(1), f64::INFINITY, f64::NEG_INFINITY, f64::NAN];
    for n in [0, 1, 1024] {
        for p in special {
            for t in special {
                if r.below(2) == 0 {
                    fused64(n, p, t);
                }
            }
        }
    }
    // a block's times, up to the longest count
    for _ in 0..40 {
        fused64(r.below(1025), 1.0 / (8000.0 + r.below(184001) as f64), r.f64(1000, 1040, 52).abs());
        fused64(1024 - r.below(16), r.f64(1000, 1030, 52), r.f64(1000, 1050, 52));
    }
    // cancellation, with every digit of the product
    for _ in 0..40 {
        let (n, p) = (1024 - r.below(512), r.f64(900, 1100, 52));
        let near = -(n as f64 * p);
        fused64(n, p, near);
        fused64(n, p, f64::from_bits(near.to_bits() ^ 1));
    }
    // ties and subnormal numbers
    for _ in 0..30 {
        let t = f64::from_bits(r.f64(1000, 1040, 52).to_bits() & 0xfff0_0000_0000_0000);
        fused64(3, t * 2f64.powi(-54), t);
        fused64(1, t * 2f64.powi(-53), t);
        fused64(r.below(1025), f64::from_bits(r.next() & 0x801f_ffff_ffff_ffff), f64::from_bits(r.next() & 0x801f_ffff_ffff_ffff));
    }
    for _ in 0..20 {
        fused64(r.below(1025), r.f64(2030, 2047, 52), r.f64(2030, 2047, 52));
        fused64(r.below(1025), r.f64(0, 2047, 52), r.f64(0, 2047, 52));
    }
}

fn main() {
    let mut r = Random(88172645463325252);
    narrowing(&mut r);
    fusing32(&mut r);
    fusing64(&mut r);
}
