//! Lines as bytes, with numbers written digit by digit, two at a time.
use crate::listing::Outcome;
use crate::recorder::{Refusal, Stamp};

pub type Text = Vec<u8>;

const PAIRS: &[u8; 200] = b"\
    0001020304050607080910111213141516171819\
    2021222324252627282930313233343536373839\
    4041424344454647484950515253545556575859\
    6061626364656667686970717273747576777879\
    8081828384858687888990919293949596979899";

fn add_number(text: &mut Text, mut number: u64) {
    let mut digits = [0; 20];
    let mut start = digits.len();
    while number >= 100 {
        let pair = (number % 100) as usize * 2;
        number /= 100;
        start -= 2;
        digits[start..start + 2].copy_from_slice(&PAIRS[pair..pair + 2]);
    }
    if number >= 10 {
        let pair = number as usize * 2;
        start -= 2;
        digits[start..start + 2].copy_from_slice(&PAIRS[pair..pair + 2]);
    } else {
        start -= 1;
        digits[start] = b'0' + number as u8;
    }
    text.extend_from_slice(&digits[start..]);
}

fn add_signed(text: &mut Text, number: i32) {
    if number < 0 {
        text.push(b'-');
    }
    add_number(text, number.unsigned_abs().into());
}

fn add_stamp(text: &mut Text, stamp: Stamp) {
    add_number(text, stamp.time);
    text.push(b'.');
    add_number(text, stamp.counter.into());
}

pub fn add_outcome(text: &mut Text, number: u64, outcome: &Outcome) {
    add_number(text, number);
    match outcome {
        Outcome::SetUp => text.extend_from_slice(b" setup"),
        Outcome::Event { word, node, event } => {
            text.push(b' ');
            text.extend_from_slice(word.as_bytes());
            text.push(b' ');
            add_number(text, u64::from(*node));
            text.push(b' ');
            add_stamp(text, event.stamp);
            text.extend_from_slice(b" drift ");
            add_number(text, event.drift);
        }
        Outcome::Loss { message } => {
            text.extend_from_slice(b" loss ");
            add_number(text, u64::from(*message));
        }
        Outcome::Read { newest: Some(version) } => {
            text.extend_from_slice(b" read ");
            add_signed(text, version.value);
            text.push(b' ');
            add_stamp(text, version.stamp);
            text.push(b' ');
            add_number(text, u64::from(version.node));
        }
        Outcome::Read { newest: None } => text.extend_from_slice(b" read none"),
    }
    text.push(b'\n');
}

pub fn add_refused(text: &mut Text, number: u64, refusal: Refusal) {
    add_number(text, number);
    text.extend_from_slice(b" refused ");
    add_number(text, refusal as u64);
    text.push(b'\n');
}

pub fn add_bad(text: &mut Text, refusal: Refusal, offset: usize) {
    text.extend_from_slice(b"bad ");
    add_number(text, refusal as u64);
    text.extend_from_slice(b" at ");
    add_number(text, offset as u64);
    text.push(b'\n');
}

pub fn add_end(text: &mut Text, accepted: u64, refused: u64) {
    text.extend_from_slice(b"end ");
    add_number(text, accepted);
    text.push(b' ');
    add_number(text, refused);
    text.push(b'\n');
}
