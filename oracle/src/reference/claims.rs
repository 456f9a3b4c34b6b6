//! Where the given Rust goes another way than 01, claimed from the calls alone:
//! the reference follows 01 and, wherever param.rs has another rule, notes the
//! difference's name (docs/DIFFERENCES.md). No answer of either side is looked
//! at. A claim holds as long as none that ends the comparison came before it.

use crate::near::Near;

/// How far a difference reaches.
#[derive(Clone, Copy, Debug, PartialEq)]
pub enum Reach {
    /// A part of this one answer; what follows is equal again.
    Part,
    /// Samples of targets and exponentials: equal within 01's measured limits.
    Close,
    /// From this line on the two sides hold different parameters.
    Ends,
}

#[derive(Clone, Copy, Debug, PartialEq)]
pub struct Claim {
    pub reach: Reach,
    pub name: &'static str,
}

/// One head in one block that filled at least one place, or was consumed. A
/// ramp of no length is none: 02's C-18 leaves it out.
#[derive(Clone, Debug)]
pub struct Run {
    pub kind: &'static str,
    pub places: std::ops::Range<usize>,
}

/// What one line claims, and how near its numbers must be.
#[derive(Clone, Debug, Default)]
pub struct Claims {
    pub list: Vec<Claim>,
    /// Of a block: the current value, the places, the heads.
    pub current: Near,
    pub places: Vec<Near>,
    pub runs: Vec<Run>,
    /// The places that a snap turned to 0, with the subnormal values that stood there;
    /// at K-rate place 0 alone, for all of them.
    pub flushed: Vec<(usize, f32)>,
    /// Of a parameter's print.
    pub intrinsic: Near,
    pub last: Near,
}

impl Claims {
    pub fn note(&mut self, reach: Reach, name: &'static str, holds: bool) {
        let claim = Claim { reach, name };
        if holds && !self.list.contains(&claim) {
            self.list.push(claim);
        }
    }

    /// The name under which a number need not have the same bits.
    pub fn note_near(&mut self, near: Near) {
        match near {
            Near::Same => (),
            Near::Target(_) => self.note(Reach::Close, "target-sample", true),
            Near::Exponential(_) => self.note(Reach::Close, "exponential-sample", true),
            Near::Open(name) => self.note(Reach::Part, name, true),
        }
    }

    pub fn has(&self, name: &str) -> bool {
        self.list.iter().any(|c| c.name == name)
    }

    /// The claim that ends the comparison here, if there is one.
    pub fn end(&self) -> Option<&'static str> {
        self.list.iter().find(|c| c.reach == Reach::Ends).map(|c| c.name)
    }

    /// As the command prints them: `part:NAME`, `close:NAME`, `ends:NAME`, or `-`.
    pub fn print(&self) -> String {
        let words: Vec<String> =
            self.list.iter().map(|c| format!("{}:{}", reach(c), c.name)).collect();
        if words.is_empty() {
            "-".to_string()
        } else {
            words.join(" ")
        }
    }
}

fn reach(claim: &Claim) -> &'static str {
    match claim.reach {
        Reach::Part => "part",
        Reach::Close => "close",
        Reach::Ends => "ends",
    }
}
