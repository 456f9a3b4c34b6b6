//! Sessions and answers in plain numbers, as docs/DIFFERENCES.md shows them.

use reference::session::{write_call, Block, Call};

/// More equal samples, numbers or calls in a row than this are shortened.
const SHOWN: usize = 8;

/// A float as short as it can be read back from.
fn short(debug: String) -> String {
    debug.strip_suffix(".0").unwrap_or(&debug).to_string()
}

/// An f32 of 8 hexadecimal digits or an f64 of 16; any other word as it is.
fn plain(word: &str) -> String {
    match (word.len(), u64::from_str_radix(word, 16)) {
        (8, Ok(bits)) => short(format!("{:?}", f32::from_bits(bits as u32))),
        (16, Ok(bits)) => short(format!("{:?}", f64::from_bits(bits))),
        _ => word.to_string(),
    }
}

/// The words, with runs of one word as `WORD ×N`.
fn row(words: &[String]) -> String {
    let mut parts = Vec::new();
    for group in words.chunk_by(|a, b| a == b) {
        if group.len() > SHOWN {
            parts.push(format!("{} ×{}", group[0], group.len()));
        } else {
            parts.extend(group.iter().cloned());
        }
    }
    parts.join(" ")
}

fn plains(words: &[&str]) -> Vec<String> {
    words.iter().map(|w| plain(w)).collect()
}

/// A call; a block's output length only where it is not its count, or before an input; a
/// file by its bytes.
pub fn call(call: &Call) -> String {
    let line = write_call(call);
    if matches!(call, Call::Load(_)) {
        return line;
    }
    let words: Vec<&str> = line.split(' ').collect();
    let mut shown = plains(&words);
    let numbers = match call {
        Call::Curve(..) => {
            shown.remove(3);
            shown.split_off(3)
        }
        Call::Block(Block { count, out, input, .. }) => {
            shown.remove(5);
            let numbers = shown.split_off(5);
            if input.is_empty() && *count == *out as u64 {
                shown.pop();
            }
            numbers
        }
        _ => Vec::new(),
    };
    if !numbers.is_empty() {
        shown.push(row(&numbers));
    }
    shown.join(" ")
}

/// `intrinsic 5, last event 5 at 4, 1 waiting: step:5:0`
fn state(words: &[&str]) -> String {
    let last = match words[7].split_once(':') {
        Some((time, value)) => format!("{} at {}", plain(value), plain(time)),
        None => "none".to_string(),
    };
    let parts = |event: &str, by: char| plains(&event.split(by).collect::<Vec<_>>());
    let event = |e: &&str| {
        let fields = parts(e, ':').join(":");
        e.rsplit_once(':').filter(|(_, numbers)| numbers.contains(',')).map_or(
            fields.clone(),
            |n| {
                let before = fields.rsplit_once(':').map_or("", |(before, _)| before);
                format!("{before}:{}", parts(n.1, ',').join(","))
            },
        )
    };
    let mut events: Vec<String> = words[9..words.len() - 1].iter().map(event).collect();
    if events.len() > SHOWN {
        let until = events.len() - 1;
        events.splice(2..until, ["..".to_string()]);
    }
    let colon = if events.is_empty() { "" } else { ": " };
    let (intrinsic, count) = (plain(words[5]), words[8]);
    format!("intrinsic {intrinsic}, last event {last}, {count} waiting{colon}{}", events.join(" "))
}

/// `0 1 2 3   (current 0, one-valued)`
fn block(words: &[&str]) -> String {
    let one = if words[3] == "1" { ", one-valued" } else { "" };
    let samples = row(&plains(&words[4..words.len() - 1]));
    format!("{samples}   (current {}{one})", plain(words[2]))
}

pub fn answer(text: &str) -> String {
    let words: Vec<&str> = text.split(' ').collect();
    match words[0] {
        "block" if words.len() > 5 => block(&words),
        "state" if words.len() > 9 => state(&words),
        _ => text.to_string(),
    }
}

/// A call with both answers, where they say something.
fn entry(one: &Call, name: &str, ours: &str, rust: &str) -> Vec<String> {
    let (a, b) = (answer(ours), answer(rust));
    let mut lines = vec![call(one)];
    if a != b {
        lines.push(format!("    the Rust: {b}"));
        lines.push(format!("    {:9} {a}", format!("{name}:")));
    } else if a != "ok" {
        lines.push(format!("    both:     {a}"));
    }
    lines
}

/// The calls with both answers; of many in a row that say nothing the first two
/// and the last. `name` is our side's.
pub fn session(calls: &[Call], name: &str, ours: &[String], rust: &[String]) -> String {
    let entries: Vec<Vec<String>> =
        calls.iter().enumerate().map(|(i, one)| entry(one, name, &ours[i], &rust[i])).collect();
    let mut text = String::new();
    for group in entries.chunk_by(|a, b| a.len() == 1 && b.len() == 1) {
        let mut lines = group.concat();
        if group.len() > SHOWN {
            lines.splice(2..group.len() - 1, ["..".to_string()]);
        }
        lines.iter().for_each(|line| text += &format!("{line}\n"));
    }
    text
}
