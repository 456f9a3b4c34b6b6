//! Which sessions are drawn: the mixture that is compared, those of both editions,
//! and the stored list's grid. Each session has its own seed, so that it is the same
//! wherever it stands.

use crate::draw::Draw;
use crate::plan::{calls, Family, Wish, THEMES};
use crate::session::Session;
use reference::session::Call;

/// In ten sessions: six without any difference that the page names, two
/// without one that ends a comparison, two that take everything.
const MIXTURE: [Family; 10] = {
    use Family::{Clean, Plain, Wild};
    [Clean, Plain, Clean, Wild, Clean, Clean, Plain, Clean, Wild, Clean]
};

/// The draws of the session of this number.
pub fn seeded(seed: u64, number: usize) -> Draw {
    Draw::new(seed.wrapping_mul(0x1000_0000_01b3) ^ number as u64)
}

/// A session can run dry early; then the next one is drawn.
fn drawn(draw: &mut Draw, wish: Wish) -> Vec<Call> {
    let blocks = |s: &[Call]| s.iter().filter(|c| matches!(c, Call::Block(_))).count();
    let mut one = calls(draw, wish);
    while wish.family != Family::Wild && blocks(&one) < wish.blocks {
        one = calls(draw, wish);
    }
    one
}

/// The session of this number; of the mixture where no family is asked for.
pub fn random(seed: u64, number: usize, asked: Option<Family>) -> Session {
    let mut draw = seeded(seed, number);
    let family = asked.unwrap_or(MIXTURE[number % MIXTURE.len()]);
    let (theme, name) = draw.pick(family.themes());
    let a_rate = draw.percent(70);
    let wish = Wish { family, theme, a_rate, edition: None, count: None, inputs: 20, blocks: 3 };
    Session::new(&format!("{number} {} {name}", family.name()), drawn(&mut draw, wish))
}

/// The editions that a session of both is made under, drawn from these; an unknown one
/// is refused.
const EDITIONS: [u8; 14] = [2, 2, 2, 2, 2, 2, 2, 2, 2, 1, 1, 0, 3, 255];

/// Draws of their own, so that the other sessions of a seed stay what they are.
const APART: u64 = 19 << 32;

/// The session of both editions of this number: made and played once to three times, at
/// least once under the second. The Rust has none of it.
pub fn editions(seed: u64, number: usize) -> Session {
    let mut draw = seeded(seed ^ APART, number);
    let mut numbers: Vec<u8> = (0..=draw.below(3)).map(|_| draw.pick(&EDITIONS)).collect();
    if !numbers.contains(&2) {
        numbers[0] = 2;
    }
    let (mut title, mut all) = (format!("{number} editions"), Vec::new());
    for edition in numbers {
        let ((theme, name), a_rate) = (draw.pick(&THEMES), draw.percent(70));
        let (family, edition) = (Family::Wild, Some(edition));
        let wish = Wish { family, theme, a_rate, edition, count: None, inputs: 30, blocks: 1 };
        let mut part = calls(&mut draw, wish);
        part[0] = without_first(&mut draw, &part[0]);
        title += &format!(", {} {name}", edition.unwrap_or(1));
        all.extend(part);
    }
    Session::new(&title, all)
}

/// The same `make`, of the first edition half of the time without the word.
fn without_first(draw: &mut Draw, make: &Call) -> Call {
    match *make {
        Call::Make { min, default, max, a_rate, edition: Some(1) } if draw.percent(50) => {
            Call::Make { min, default, max, a_rate, edition: None }
        }
        _ => make.clone(),
    }
}

/// How many sessions a run has: N, and one of both editions for every four of them.
pub fn run_length(n: usize) -> usize {
    n + n.div_ceil(4)
}

const COUNTS: [usize; 5] = [1, 63, 64, 127, 128];

/// How many sessions the list's grid has with REPEAT of each.
pub fn list_length(repeat: usize) -> usize {
    THEMES.len() * 2 * COUNTS.len() * repeat
}

/// The list's session of this number: plain, by kind, then rate, then count.
pub fn listed(seed: u64, number: usize, repeat: usize) -> Session {
    let cell = number / repeat;
    let (theme, name) = THEMES[cell / (2 * COUNTS.len())];
    let a_rate = (cell / COUNTS.len()).is_multiple_of(2);
    let count = COUNTS[cell % COUNTS.len()];
    let family = Family::Plain;
    let (edition, asked) = (None, Some(count));
    let wish = Wish { family, theme, a_rate, edition, count: asked, inputs: 8, blocks: 2 };
    let rate = if a_rate { "a" } else { "k" };
    let title = format!("{number} {name} {rate} {count}");
    Session::new(&title, drawn(&mut seeded(seed, number), wish))
}
