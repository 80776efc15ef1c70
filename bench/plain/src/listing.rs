//! The lines of a listing.
use crate::lines::{self, Text};
use crate::recorder::{Event, KeyKind, Recorder, Refusal, Settings, Version};
use crate::trace::{Record, Records};

/// What an accepted record's line says.
pub enum Outcome {
    SetUp,
    Event { word: &'static str, node: u8, event: Event },
    Loss { message: u32 },
    Read { newest: Option<Version> },
}

/// How many records were accepted, and how many refused.
#[derive(Default)]
struct Counts {
    accepted: u64,
    refused: u64,
}

pub fn listing_of(trace: &[u8]) -> Text {
    let mut text = Text::new();
    let mut records = Records::new(trace);
    let mut counts = Counts::default();
    if let Err((refusal, offset)) = add_lines(&mut text, &mut records, &mut counts) {
        lines::add_bad(&mut text, refusal, offset);
    }
    lines::add_end(&mut text, counts.accepted, counts.refused);
    text
}

fn add_lines(text: &mut Text, records: &mut Records, counts: &mut Counts) -> Result<(), (Refusal, usize)> {
    let Some(first) = records.next() else {
        return Ok(());
    };
    let (settings, key_kind) = first.and_then(set_up).map_err(|refusal| (refusal, 0))?;
    add_outcome(text, counts, Ok(Outcome::SetUp));
    match key_kind {
        KeyKindByte::Points => add_run::<u32>(text, records, counts, settings),
        KeyKindByte::Tags => add_run::<[u8; 16]>(text, records, counts, settings),
    }
    .map_err(|refusal| (refusal, records.offset))
}

enum KeyKindByte {
    Points,
    Tags,
}

fn set_up(first: Record) -> Result<(Settings, KeyKindByte), Refusal> {
    let Record::SetUp { nodes, key_kind, lead, backstep } = first else {
        return Err(Refusal::MisplacedSetUp);
    };
    let settings = Settings::new(nodes, lead, backstep)?;
    match key_kind {
        0 => Ok((settings, KeyKindByte::Points)),
        1 => Ok((settings, KeyKindByte::Tags)),
        _ => Err(Refusal::SettingOutOfRange),
    }
}

fn add_run<K: KeyKind>(text: &mut Text, records: &mut Records, counts: &mut Counts, settings: Settings) -> Result<(), Refusal> {
    let mut recorder = Recorder::<K>::new(settings);
    for record in records {
        let outcome = outcome_of(&mut recorder, record?);
        add_outcome(text, counts, outcome);
    }
    Ok(())
}

fn add_outcome(text: &mut Text, counts: &mut Counts, outcome: Result<Outcome, Refusal>) {
    let number = counts.accepted + counts.refused + 1;
    match outcome {
        Ok(outcome) => {
            counts.accepted += 1;
            lines::add_outcome(text, number, &outcome);
        }
        Err(refusal) => {
            counts.refused += 1;
            lines::add_refused(text, number, refusal);
        }
    }
}

fn outcome_of<K: KeyKind>(recorder: &mut Recorder<K>, record: Record) -> Result<Outcome, Refusal> {
    let (word, node, event) = match record {
        Record::SetUp { .. } => return Err(Refusal::MisplacedSetUp),
        Record::Note { node, raw } => ("note", node, recorder.note(node, raw)?),
        Record::Send { node, raw, to, message } => ("send", node, recorder.send(node, raw, to, message)?),
        Record::Receipt { node, raw, message } => ("receipt", node, recorder.receipt(node, raw, message)?),
        Record::Loss { message } => {
            recorder.loss(message)?;
            return Ok(Outcome::Loss { message });
        }
        Record::Put { node, raw, key, value } => ("put", node, recorder.put(node, raw, K::of(key)?, value)?),
        Record::Read { stamp, key } => {
            let newest = recorder.read(K::of(key)?, stamp)?;
            return Ok(Outcome::Read { newest });
        }
    };
    Ok(Outcome::Event { word, node, event })
}
