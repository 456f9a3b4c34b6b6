//! Files that are given to a process in one go, with what must be answered.

use crate::drawn::Case;
use comparing::side::Side;
use reference::param::Reference;
use reference::session::{hex_file, write_call, Call};

/// The lines of one file: `load`; then, where it is read, `state` and `save`; where not, now
/// and then a `state`, which must be what it was.
pub struct Asked {
    pub case: Case,
    pub lines: Vec<String>,
    /// The reference's.
    pub answers: Vec<String>,
}

impl Asked {
    fn new(case: Case, reference: &mut Reference, looks: bool) -> Self {
        let mut lines = vec![write_call(&Call::Load(case.load.clone()))];
        let mut answers = vec![reference.answer_line(&lines[0])];
        let behind: &[Call] = match answers[0].as_str() {
            "ok" => &[Call::State, Call::Save],
            _ if looks => &[Call::State],
            _ => &[],
        };
        lines.extend(behind.iter().map(write_call));
        answers.extend(behind.iter().map(|call| reference.answer(call)));
        if let [_, _, saved] = answers.as_slice() {
            let same = format!("saved {}", hex_file(&case.load.file));
            assert_eq!(*saved, same, "the interpreter writes another file than it read");
        }
        Self { case, lines, answers }
    }

    pub fn is_read(&self) -> bool {
        self.answers[0] == "ok"
    }

    /// The first line that is answered otherwise.
    pub fn differs(&self, answers: &[String]) -> Option<usize> {
        (0..self.lines.len()).find(|i| answers[*i] != self.answers[*i])
    }
}

/// The calls before the first file.
pub fn before() -> Vec<Call> {
    let (min, default, max, a_rate, edition) = (-10., 0., 10., true, None);
    vec![
        Call::Make { min, default, max, a_rate, edition },
        Call::Step(5., 2.),
        Call::Curve(3., 1., vec![0., 1.]),
        Call::Poke(2000, 1.),
    ]
}

/// The parameter goes on from one file to the next.
pub struct Batch {
    pub asked: Vec<Asked>,
    text: String,
}

impl Batch {
    /// As many of the files as make a text of about this size.
    pub fn of(cases: &mut impl Iterator<Item = Case>, size: usize) -> Self {
        let mut reference = Reference::empty();
        before().iter().for_each(|call| _ = reference.answer(call));
        let mut text: String = before().iter().map(|call| write_call(call) + "\n").collect();
        let mut asked = Vec::new();
        while text.len() < size {
            let Some(case) = cases.next() else { break };
            let one = Asked::new(case, &mut reference, asked.len() % 16 == 0);
            text += &(one.lines.join("\n") + "\n");
            asked.push(one);
        }
        Self { asked, text }
    }

    /// The answers to each file's lines.
    pub fn play(&self, port: &Side) -> Vec<Vec<String>> {
        let answers = port.answers_to(&[self.text.clone()]).concat();
        let mut answers = answers.into_iter().skip(before().len());
        let own = |asked: &Asked| answers.by_ref().take(asked.lines.len()).collect();
        self.asked.iter().map(own).collect()
    }
}
