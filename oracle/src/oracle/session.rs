//! The session language: reading a line as a call, and writing numbers.
//! Shared by every program in this folder; the pages are session-language.md and, for
//! the fifth word of `make` and the words `plain`, `save` and `load`,
//! session-language-02.md.

/// One call, as a line of a session says it.
#[derive(Clone, Debug, PartialEq)]
pub enum Call {
    /// The edition is the fifth word, which may be missing.
    Make {
        min: f32,
        default: f32,
        max: f32,
        a_rate: bool,
        edition: Option<u8>,
    },
    Set(f32),
    Step(f32, f64),
    Linear(f32, f64),
    Exponential(f32, f64),
    Target(f32, f64, f64),
    Curve(f64, f64, Vec<f32>),
    Cancel(f64),
    Hold(f64),
    Block(Block),
    Lend(usize),
    Poke(usize, f32),
    State,
    Save,
    Load(Load),
}

/// The numbers of a block call: `out` is the length of the output lent. `plain` is one
/// by the plain renderer (02, C-16), with the same words.
#[derive(Clone, Debug, PartialEq)]
pub struct Block {
    pub plain: bool,
    pub time: f64,
    pub period: f64,
    pub count: u64,
    pub out: usize,
    pub input: Vec<f32>,
}

/// A schedule file that comes in parts of so many bytes (02, C-11), and the parameter that
/// it is read into.
#[derive(Clone, Debug, PartialEq)]
pub struct Load {
    pub part: usize,
    pub file: Vec<u8>,
    pub a_rate: bool,
    pub edition: Option<u8>,
}

/// What a line is: nothing to answer, a call, or unread.
pub enum Line {
    Blank,
    Call(Call),
    Unread,
}

pub fn read_line(line: &str) -> Line {
    if line.is_empty() || line.starts_with('#') {
        return Line::Blank;
    }
    let words: Vec<&str> = line.split(' ').collect();
    read_call(&words).map_or(Line::Unread, Line::Call)
}

fn read_call(words: &[&str]) -> Option<Call> {
    let (verb, rest) = words.split_first()?;
    Some(match (*verb, rest) {
        ("make", [min, default, max, rate @ ("a" | "k"), edition @ ..]) => {
            let (min, default, max) = (f32_of(min)?, f32_of(default)?, f32_of(max)?);
            Call::Make { min, default, max, a_rate: *rate == "a", edition: edition_of(edition)? }
        }
        ("set", [v]) => Call::Set(f32_of(v)?),
        ("step", [v, t]) => Call::Step(f32_of(v)?, f64_of(t)?),
        ("linear", [v, t]) => Call::Linear(f32_of(v)?, f64_of(t)?),
        ("exponential", [v, t]) => Call::Exponential(f32_of(v)?, f64_of(t)?),
        ("target", [v, t, tc]) => Call::Target(f32_of(v)?, f64_of(t)?, f64_of(tc)?),
        ("curve", [t, d, n, values @ ..]) => {
            Call::Curve(f64_of(t)?, f64_of(d)?, numbers(n, 5000, values)?)
        }
        ("cancel", [t]) => Call::Cancel(f64_of(t)?),
        ("hold", [t]) => Call::Hold(f64_of(t)?),
        ("block" | "plain", [t, p, count, out, n, input @ ..]) => Call::Block(Block {
            plain: *verb == "plain",
            time: f64_of(t)?,
            period: f64_of(p)?,
            count: count_of(count)?,
            out: within(out, 4096)?,
            input: numbers(n, 4096, input)?,
        }),
        ("lend", [n]) => Call::Lend(within(n, 8192)?),
        ("poke", [i, v]) => Call::Poke(within(i, 8191)?, f32_of(v)?),
        ("state", []) => Call::State,
        ("save", []) => Call::Save,
        ("load", words) => Call::Load(load_of(words)?),
        _ => return None,
    })
}

fn load_of(words: &[&str]) -> Option<Load> {
    let [part, file, rate @ ("a" | "k"), edition @ ..] = words else { return None };
    Some(Load {
        part: within(part, 65536).filter(|n| *n > 0)?,
        file: file_of(file)?,
        a_rate: *rate == "a",
        edition: edition_of(edition)?,
    })
}

/// Two digits for each byte, of at most 30,000; `-` for none.
fn file_of(word: &str) -> Option<Vec<u8>> {
    match word.len() {
        _ if word == "-" => Some(Vec::new()),
        2..=60_000 => word.as_bytes().chunks(2).map(byte_of).collect(),
        _ => None,
    }
}

fn byte_of(pair: &[u8]) -> Option<u8> {
    let [high, low] = pair else { return None };
    Some(digit(*high)? << 4 | digit(*low)?)
}

/// A lower-case hexadecimal digit.
fn digit(byte: u8) -> Option<u8> {
    match byte {
        b'0'..=b'9' => Some(byte - b'0'),
        b'a'..=b'f' => Some(byte - b'a' + 10),
        _ => None,
    }
}

/// One word, a decimal from 0 to 255, or none.
fn edition_of(words: &[&str]) -> Option<Option<u8>> {
    match words {
        [] => Some(None),
        [word] => within(word, 255).map(|n| Some(n as u8)),
        _ => None,
    }
}

/// As many f32 as `n` says, and no word more.
fn numbers(n: &str, most: usize, words: &[&str]) -> Option<Vec<f32>> {
    if within(n, most)? != words.len() {
        return None;
    }
    words.iter().map(|w| f32_of(w)).collect()
}

/// Exactly `digits` lower-case hexadecimal digits.
fn bits(word: &str, digits: usize) -> Option<u64> {
    if word.len() != digits || !word.bytes().all(|b| digit(b).is_some()) {
        return None;
    }
    u64::from_str_radix(word, 16).ok()
}

fn f32_of(word: &str) -> Option<f32> {
    bits(word, 8).map(|b| f32::from_bits(b as u32))
}

fn f64_of(word: &str) -> Option<f64> {
    bits(word, 16).map(f64::from_bits)
}

/// Decimal digits alone (no sign), at most 2^64 - 1; leading zeros are read.
fn count_of(word: &str) -> Option<u64> {
    if word.is_empty() || !word.bytes().all(|b| b.is_ascii_digit()) {
        return None;
    }
    word.parse().ok()
}

fn within(word: &str, most: usize) -> Option<usize> {
    count_of(word).filter(|n| *n <= most as u64).map(|n| n as usize)
}

/// An f32 as 8 digits; every NaN is the one.
pub fn hex32(v: f32) -> String {
    let b = if v.is_nan() { 0x7fc0_0000 } else { v.to_bits() };
    format!("{b:08x}")
}

/// An f64 as 16 digits; every NaN is the one.
pub fn hex64(v: f64) -> String {
    let b = if v.is_nan() { 0x7ff8_0000_0000_0000 } else { v.to_bits() };
    format!("{b:016x}")
}

/// Several f32, each with `before` in front.
pub fn list32(values: &[f32], before: &str) -> String {
    values.iter().map(|v| format!("{before}{}", hex32(*v))).collect()
}

/// A file's bytes as `save` prints them.
pub fn hex_file(file: &[u8]) -> String {
    let digit = |n: u8| char::from(b"0123456789abcdef"[usize::from(n)]);
    match file {
        [] => "-".to_string(),
        _ => file.iter().flat_map(|b| [digit(b >> 4), digit(b & 15)]).collect(),
    }
}

/// A curve's numbers as `state` prints them: N:V1,V2,..,VN
pub fn curve_numbers(values: &[f32]) -> String {
    let words: Vec<String> = values.iter().map(|v| hex32(*v)).collect();
    format!("{}:{}", words.len(), words.join(","))
}

/// The line that makes this call.
pub fn write_call(call: &Call) -> String {
    match call {
        Call::Make { min, default, max, a_rate, edition } => {
            let range = list32(&[*min, *default, *max], " ");
            format!("make{range} {}", under(*a_rate, *edition))
        }
        Call::Set(v) => format!("set {}", hex32(*v)),
        Call::Step(v, t) => format!("step {} {}", hex32(*v), hex64(*t)),
        Call::Linear(v, t) => format!("linear {} {}", hex32(*v), hex64(*t)),
        Call::Exponential(v, t) => format!("exponential {} {}", hex32(*v), hex64(*t)),
        Call::Target(v, t, tc) => format!("target {} {} {}", hex32(*v), hex64(*t), hex64(*tc)),
        Call::Curve(t, d, values) => {
            let (n, numbers) = (values.len(), list32(values, " "));
            format!("curve {} {} {n}{numbers}", hex64(*t), hex64(*d))
        }
        Call::Cancel(t) => format!("cancel {}", hex64(*t)),
        Call::Hold(t) => format!("hold {}", hex64(*t)),
        Call::Block(b) => {
            let (n, input) = (b.input.len(), list32(&b.input, " "));
            let verb = if b.plain { "plain" } else { "block" };
            let times = format!("{} {}", hex64(b.time), hex64(b.period));
            format!("{verb} {times} {} {} {n}{input}", b.count, b.out)
        }
        Call::Lend(n) => format!("lend {n}"),
        Call::Poke(i, v) => format!("poke {i} {}", hex32(*v)),
        Call::State => "state".to_string(),
        Call::Save => "save".to_string(),
        Call::Load(Load { part, file, a_rate, edition }) => {
            format!("load {part} {} {}", hex_file(file), under(*a_rate, *edition))
        }
    }
}

/// The last words of a `make` or `load`: its rate and, where it has one, its edition.
fn under(a_rate: bool, edition: Option<u8>) -> String {
    let rate = if a_rate { "a" } else { "k" };
    edition.map_or(rate.to_string(), |n| format!("{rate} {n}"))
}

/// Answers every line of standard input by `answer`, in order.
pub fn serve(mut answer: impl FnMut(&Line) -> String) {
    serve_text(|text| answer(&read_line(text)));
}

/// The same of lines as they stand, for words that are none of the language.
pub fn serve_text(mut answer: impl FnMut(&str) -> String) {
    use std::io::{Read, Write};
    let mut bytes = Vec::new();
    std::io::stdin().read_to_end(&mut bytes).expect("standard input");
    let mut out = std::io::BufWriter::new(std::io::stdout().lock());
    for line in lines(&bytes) {
        let text = answer(&String::from_utf8_lossy(line));
        if writeln!(out, "{text}").is_err() {
            return; // the reader is gone
        }
    }
    let _ = out.flush();
}

/// The lines of a text; a last one without its newline counts, an empty rest does not.
fn lines(bytes: &[u8]) -> impl Iterator<Item = &[u8]> {
    let body = bytes.strip_suffix(b"\n").unwrap_or(bytes);
    let empty = bytes.is_empty();
    body.split(|b| *b == b'\n').filter(move |_| !empty)
}
