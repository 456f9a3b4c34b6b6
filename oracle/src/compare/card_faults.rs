//! Of the self-test: faults of cards (02, C-11), planted as the others are.

use comparing::carded::refused;
use comparing::files::fields;
use comparing::session::Session;
use reference::card::{read, written, Fault, Field};
use reference::param::Reference;
use reference::session::{hex_file, read_line, Call, Line, Load};

/// The parameter before a call.
fn before(session: &Session, i: usize) -> Reference {
    let mut reference = Reference::empty();
    session.calls[..i].iter().for_each(|call| _ = reference.answer(call));
    reference
}

/// A call whose file the reference refuses, and that refusal.
fn refused_load(session: &Session, i: usize) -> Option<(&Load, Fault)> {
    let Call::Load(load) = &session.calls[i] else { return None };
    refused(&session.answers[i]).map(|(number, at)| (load, Fault { number, at }))
}

/// What `load` would read of it, if it is a saved file.
fn saved(answer: &str) -> Option<Vec<u8>> {
    let line = format!("load 1 {} a", answer.strip_prefix("saved ")?);
    match read_line(&line) {
        Line::Call(Call::Load(load)) => Some(load.file),
        _ => None,
    }
}

pub fn high_byte_first(_: &Session, _: usize, answer: &str) -> Option<String> {
    let mut fields = fields(&saved(answer)?);
    fields.iter_mut().for_each(|field| field.swap(1, 2));
    Some(format!("saved {}", hex_file(&fields.concat())))
}

pub fn hold_saved(session: &Session, i: usize, _: &str) -> Option<String> {
    let place = refused(&session.answers[i]).filter(|_| session.calls[i] == Call::Save);
    let reference = before(session, i);
    reference.waiting().get(place?.1)?.hold?;
    let file = written(reference.range(), reference.waiting());
    Some(format!("saved {}", hex_file(&file)))
}

pub fn later(session: &Session, i: usize, _: &str) -> Option<String> {
    let (_, Fault { number, at }) = refused_load(session, i)?;
    Some(Fault { number, at: at + 1 }.to_string())
}

/// Where a field is cut and its length is wrong.
pub fn cut_first(session: &Session, i: usize, _: &str) -> Option<String> {
    let (load, Fault { number, at }) = refused_load(session, i)?;
    let both = number == 21 && Field::at(&load.file, at).is_cut();
    both.then(|| Fault { number: 23, at }.to_string())
}

/// Where the parameter refuses the event, too.
pub fn own_first(session: &Session, i: usize, _: &str) -> Option<String> {
    let (load, Fault { number, at }) = refused_load(session, i)?;
    let call = (number == 28).then(|| Field::at(&load.file, at).call(load))?;
    let ahead = Load { file: load.file[..at].to_vec(), ..load.clone() };
    let own = read(&ahead).ok()?.command(&call);
    own.map(|number| Fault { number, at }.to_string())
}

/// What is printed or saved right behind a refused file if the fields ahead of its fault
/// were stored.
pub fn kept_fields(session: &Session, i: usize, answer: &str) -> Option<String> {
    let last = i.checked_sub(1)?;
    let (load, Fault { at, .. }) = refused_load(session, last)?;
    let mut reference = before(session, last);
    reference.answer(&Call::Load(Load { file: load.file[..at].to_vec(), ..load.clone() }));
    Some(reference.answer(&session.calls[i])).filter(|other| other != answer)
}
