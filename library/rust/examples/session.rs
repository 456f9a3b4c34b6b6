//! The session language over the library: what `oracle/compare` can put in the port's place. Its lines are read by the oracle's own reader.
use crackledray::raw;

#[allow(dead_code)]
#[path = "../../../oracle/src/oracle/session.rs"]
mod session;
use session::{curve_numbers, hex32, hex64, hex_file, list32, Block, Call, Line, Load};

const LENT: usize = 8192;

struct Desk {
    state: [u64; raw::STATE],
    store: Vec<f32>,
    lent: usize,
}

fn single(word: u64) -> f32 {
    f32::from_bits(word as u32)
}

fn said(number: u32) -> String {
    match number {
        0 => "ok".to_string(),
        n => format!("refused {n}"),
    }
}

impl Desk {
    fn new() -> Self {
        let mut desk = Desk { state: [0; raw::STATE], store: vec![0.0; LENT], lent: raw::STORE };
        desk.make([0.0; 3], false, None);
        desk
    }

    fn make(&mut self, bounds: [f32; 3], k_rate: bool, edition: Option<u8>) -> u32 {
        self.store.fill(0.0);
        self.lent = raw::STORE;
        let (s, n, [min, default, max]) = (self.state.as_mut_ptr(), raw::STATE, bounds);
        unsafe {
            match edition {
                None => raw::crackledray_make(s, n, min, default, max, k_rate),
                Some(e) => raw::crackledray_make_under(s, n, min, default, max, k_rate, e.into()),
            }
        }
    }

    fn answer(&mut self, call: &Call) -> String {
        let (s, n) = (self.state.as_mut_ptr(), raw::STATE);
        let (store, lent) = (self.store.as_mut_ptr(), self.lent);
        said(unsafe {
            match call {
                Call::Make { min, default, max, a_rate, edition } => {
                    self.make([*min, *default, *max], !*a_rate, *edition)
                }
                Call::Set(v) => raw::crackledray_set(s, n, *v),
                Call::Step(v, t) => raw::crackledray_step(s, n, *v, *t),
                Call::Linear(v, t) => raw::crackledray_linear(s, n, *v, *t),
                Call::Exponential(v, t) => raw::crackledray_exponential(s, n, *v, *t),
                Call::Target(v, t, c) => raw::crackledray_target(s, n, *v, *t, *c),
                Call::Curve(t, d, vs) => {
                    raw::crackledray_curve(s, n, vs.as_ptr(), vs.len(), *t, *d, store, lent)
                }
                Call::Cancel(t) => raw::crackledray_cancel(s, n, *t, store, lent),
                Call::Hold(t) => raw::crackledray_hold(s, n, *t, store, lent),
                Call::Block(block) => return self.block(block),
                Call::State => return self.state(),
                Call::Save => return self.save(),
                Call::Load(load) => return self.load(load),
                Call::Lend(length) => {
                    self.lent = *length;
                    0
                }
                Call::Poke(i, v) => {
                    self.store[*i] = *v;
                    0
                }
            }
        })
    }

    fn block(&mut self, b: &Block) -> String {
        let mark = f32::from_bits(0x4b00_0000);
        let mut output = vec![mark; b.out];
        let (mut steps, mut current, mut one) = (0, 0.0, false);
        let number = unsafe {
            raw::crackledray_block(
                self.state.as_mut_ptr(),
                raw::STATE,
                b.time,
                b.period,
                b.count as usize,
                b.input.as_ptr(),
                b.input.len(),
                output.as_mut_ptr(),
                output.len(),
                self.store.as_mut_ptr(),
                self.lent,
                &mut steps,
                &mut current,
                &mut one,
            )
        };
        let count = if number == 0 { b.count as usize } else { 0 };
        let clean = output[count..].iter().all(|v| v.to_bits() == mark.to_bits());
        let rest = if clean { "clean" } else { "dirty" };
        match number {
            0 => format!(
                "block {steps} {} {}{} {rest}",
                hex32(current),
                u8::from(one),
                list32(&output[..count], " ")
            ),
            n => format!("refused {n} {rest}"),
        }
    }

    fn save(&self) -> String {
        let (mut file, mut at) = (vec![0; raw::FILE_LENGTH], 0);
        let number = unsafe {
            raw::crackledray_card_write(
                self.state.as_ptr(),
                raw::STATE,
                self.store.as_ptr(),
                raw::STORE,
                file.as_mut_ptr(),
                file.len(),
                &mut at,
            )
        };
        match number {
            0 => format!("saved {}", hex_file(&file[..at])),
            n => format!("refused {n} {at}"),
        }
    }

    /// In the parts that the line says; the store is the caller's until the end.
    fn load(&mut self, load: &Load) -> String {
        let (mut card, mut window) = ([0; raw::CARD_LENGTH], vec![0; raw::WINDOW_LENGTH]);
        let (mut numbers, mut at) = (vec![0.0; raw::STORE], 0);
        let edition = load.edition.unwrap_or(1).into();
        let (c, w, n) = (card.as_mut_ptr(), window.as_mut_ptr(), numbers.as_mut_ptr());
        let (many, wide, long) = (raw::CARD_LENGTH, raw::WINDOW_LENGTH, raw::STORE);
        let number = unsafe {
            let opened = raw::crackledray_card_open(c, many, n, long, !load.a_rate, edition);
            assert_eq!(opened, 0);
            for part in load.file.chunks(load.part) {
                let (bytes, length) = (part.as_ptr(), part.len());
                let heard = raw::crackledray_card_part(c, many, w, wide, n, long, bytes, length);
                assert_eq!(heard, 0);
            }
            let (state, store) = (self.state.as_mut_ptr(), self.store.as_mut_ptr());
            raw::crackledray_card_end(
                c,
                many,
                w,
                wide,
                n,
                long,
                state,
                raw::STATE,
                store,
                long,
                &mut at,
            )
        };
        if number != 0 {
            return format!("refused {number} {at}");
        }
        self.store[raw::STORE..].fill(0.0);
        self.lent = raw::STORE;
        "ok".to_string()
    }

    fn state(&self) -> String {
        let w = &self.state;
        let rate = if w[4] == 0 { "a" } else { "k" };
        let edition = if w[5] == 1 { "" } else { "2" };
        let bounds = list32(&[single(w[1]), single(w[2]), single(w[3])], " ");
        let time = |flag: u64, bits: u64| {
            if flag == 0 {
                "-".to_string()
            } else {
                hex64(f64::from_bits(bits))
            }
        };
        let block = if w[7] == 0 {
            "-".to_string()
        } else {
            format!("{}:{}", time(1, w[8]), time(w[9], w[10]))
        };
        let last = if w[11] == 0 {
            "-".to_string()
        } else {
            format!("{}:{}", time(1, w[12]), hex32(single(w[13])))
        };
        let mut from = 0;
        let mut events = String::new();
        for e in w[15..].chunks(6).take(w[14] as usize) {
            let (value, at, other) = (hex32(single(e[1])), time(1, e[2]), time(1, e[3]));
            let hold = time(e[4], e[5]);
            events += &match e[0] {
                0 => format!(" step:{value}:{at}"),
                1 => format!(" linear:{value}:{at}:{hold}"),
                2 => format!(" exponential:{value}:{at}:{hold}"),
                3 => format!(" target:{value}:{at}:{other}:{hold}"),
                _ => {
                    let to = from + e[1] as usize;
                    let numbers = curve_numbers(&self.store[from..to]);
                    from = to;
                    format!(" curve:{at}:{other}:{hold}:{numbers}")
                }
            };
        }
        let zeros = self.store[from..raw::STORE].iter().all(|v| v.to_bits() == 0);
        let behind = if zeros { "zeros" } else { "dirty" };
        format!(
            "state {rate}{edition}{bounds} {} {block} {last} {}{events} {behind}",
            hex32(single(w[6])),
            w[14]
        )
    }
}

fn main() {
    let mut desk = Desk::new();
    session::serve(|line| match line {
        Line::Blank => String::new(),
        Line::Unread => "unread".to_string(),
        Line::Call(call) => desk.answer(call),
    });
}
