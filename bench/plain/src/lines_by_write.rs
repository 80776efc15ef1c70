//! Lines, by `writeln!`.
use std::fmt::Write;

use crate::listing::Outcome;
use crate::recorder::{Event, Refusal, Stamp, Version};

pub type Text = String;

pub fn add_outcome(text: &mut Text, number: u64, outcome: &Outcome) {
    match outcome {
        Outcome::SetUp => writeln!(text, "{number} setup"),
        Outcome::Event { word, node, event } => {
            let Event { stamp: Stamp { time, counter }, drift } = event;
            writeln!(text, "{number} {word} {node} {time}.{counter} drift {drift}")
        }
        Outcome::Loss { message } => writeln!(text, "{number} loss {message}"),
        Outcome::Read { newest: Some(version) } => {
            let Version { value, stamp: Stamp { time, counter }, node } = version;
            writeln!(text, "{number} read {value} {time}.{counter} {node}")
        }
        Outcome::Read { newest: None } => writeln!(text, "{number} read none"),
    }
    .unwrap();
}

pub fn add_refused(text: &mut Text, number: u64, refusal: Refusal) {
    writeln!(text, "{number} refused {}", refusal as u8).unwrap();
}

pub fn add_bad(text: &mut Text, refusal: Refusal, offset: usize) {
    writeln!(text, "bad {} at {offset}", refusal as u8).unwrap();
}

pub fn add_end(text: &mut Text, accepted: u64, refused: u64) {
    writeln!(text, "end {accepted} {refused}").unwrap();
}
