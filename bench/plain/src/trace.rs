//! The records of a trace.
use crate::recorder::Refusal;

/// A put's or a read's key, as the trace has it.
#[derive(Clone, Copy)]
pub enum Key {
    Point(u32),
    Tag([u8; 16]),
}

#[derive(Clone, Copy)]
pub enum Record {
    SetUp { nodes: u8, key_kind: u8, lead: u32, backstep: u32 },
    Note { node: u8, raw: u64 },
    Send { node: u8, raw: u64, to: u8, message: u32 },
    Receipt { node: u8, raw: u64, message: u32 },
    Loss { message: u32 },
    Put { node: u8, raw: u64, key: Key, value: i32 },
    Read { stamp: u64, key: Key },
}

/// Goes through the fields of a record's body.
struct Fields<'a>(&'a [u8]);

impl<'a> Fields<'a> {
    fn bytes<const N: usize>(&mut self) -> Result<[u8; N], Refusal> {
        let (bytes, rest) = self.0.split_first_chunk().ok_or(Refusal::CutShort)?;
        self.0 = rest;
        Ok(*bytes)
    }

    fn u8(&mut self) -> Result<u8, Refusal> {
        Ok(u8::from_be_bytes(self.bytes()?))
    }

    fn u32(&mut self) -> Result<u32, Refusal> {
        Ok(u32::from_be_bytes(self.bytes()?))
    }

    fn u64(&mut self) -> Result<u64, Refusal> {
        Ok(u64::from_be_bytes(self.bytes()?))
    }

    fn i32(&mut self) -> Result<i32, Refusal> {
        Ok(i32::from_be_bytes(self.bytes()?))
    }

    fn point(&mut self) -> Result<Key, Refusal> {
        Ok(Key::Point(self.u32()?))
    }

    fn tag(&mut self) -> Result<Key, Refusal> {
        Ok(Key::Tag(self.bytes()?))
    }
}

/// A record, and where the next one stands.
fn record_at(trace: &[u8], offset: usize) -> Result<(Record, usize), Refusal> {
    let mut fields = Fields(&trace[offset..]);
    // Fields are read in the order in which they are written here.
    let record = match fields.u8()? {
        0 => Record::SetUp { nodes: fields.u8()?, key_kind: fields.u8()?, lead: fields.u32()?, backstep: fields.u32()? },
        1 => Record::Note { node: fields.u8()?, raw: fields.u64()? },
        2 => Record::Send { node: fields.u8()?, raw: fields.u64()?, to: fields.u8()?, message: fields.u32()? },
        3 => Record::Receipt { node: fields.u8()?, raw: fields.u64()?, message: fields.u32()? },
        4 => Record::Loss { message: fields.u32()? },
        5 => Record::Put { node: fields.u8()?, raw: fields.u64()?, key: fields.point()?, value: fields.i32()? },
        6 => Record::Put { node: fields.u8()?, raw: fields.u64()?, key: fields.tag()?, value: fields.i32()? },
        7 => Record::Read { stamp: fields.u64()?, key: fields.point()? },
        8 => Record::Read { stamp: fields.u64()?, key: fields.tag()? },
        _ => return Err(Refusal::UnknownKind),
    };
    Ok((record, trace.len() - fields.0.len()))
}

/// The records of a trace, one after another; the last is a refusal where the trace is not read to its end.
pub struct Records<'a> {
    trace: &'a [u8],
    pub offset: usize,
}

impl<'a> Records<'a> {
    pub fn new(trace: &'a [u8]) -> Self {
        Records { trace, offset: 0 }
    }
}

impl Iterator for Records<'_> {
    type Item = Result<Record, Refusal>;

    fn next(&mut self) -> Option<Self::Item> {
        if self.offset == self.trace.len() {
            return None;
        }
        Some(record_at(self.trace, self.offset).map(|(record, next)| {
            self.offset = next;
            record
        }))
    }
}
