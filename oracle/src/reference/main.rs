//! `reference < session` prints the answers that 01 and the landed requests of
//! 02 give; `reference --claims < session` prints, line by line, where param.rs
//! is known to do otherwise; `reference --costs < session` prints the answers, and
//! reads one word more, `cost`, which it answers with the totals of C-20.

use reference::param::Reference;
use reference::session::{read_line, serve_text, Line};

fn main() {
    let word = std::env::args().nth(1);
    let asked = |flag: &str| word.as_deref() == Some(flag);
    let (claims, costs) = (asked("--claims"), asked("--costs"));
    let mut reference = Reference::empty();
    serve_text(|text| match read_line(text) {
        Line::Blank => String::new(),
        Line::Unread if costs && text == "cost" => reference.costs().to_string(),
        Line::Unread => if claims { "-" } else { "unread" }.to_string(),
        Line::Call(call) => {
            let answer = reference.answer(&call);
            if claims {
                reference.claims.print()
            } else {
                answer
            }
        }
    });
}
