//! The listing of docs/RULES.md in plain Rust, to measure the proved program against.
use std::io::{self, Read, Write};

#[cfg_attr(feature = "digits", path = "lines_by_digits.rs")]
#[cfg_attr(not(feature = "digits"), path = "lines_by_write.rs")]
mod lines;
mod listing;
mod recorder;
mod trace;

/// The longest trace that is listed, in bytes.
const LONGEST: usize = 65_536;

fn main() -> io::Result<()> {
    let mut trace = Vec::new();
    io::stdin().lock().take(LONGEST as u64 + 1).read_to_end(&mut trace)?;
    let text = if trace.len() > LONGEST { "too long\n".into() } else { listing::listing_of(&trace) };
    io::stdout().write_all(text.as_ref())
}
