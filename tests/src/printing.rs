//! The printing program's lines: "for each message: reference tick, N, U or C,
//! warning, quality, event; then, at the input's end, 'T ticks M messages'". Also the
//! records that the program `records` writes, and the line of the program `planner`.

use crate::reference::{BLOCK_BYTES, BLOCK_OUTPUT, MESSAGE_BYTES};
use crate::unit::Unit;
use std::io::{self, Read, Write};

/// The line for one message record, without its end.
pub fn line(record: &[u8]) -> String {
    let word = |at: usize| u32::from_le_bytes([0, 1, 2, 3].map(|n| record[at + n]));
    let kind = [b'N', b'U', b'C'][usize::from(record[0]) - 1] as char;
    format!("{} {} {} {} {}", word(16), kind, record[1], record[4], word(8))
}

pub fn refused(number: i64) -> String {
    format!("refused {number}")
}

/// The planner's line for an answer about the busiest stretch (CR 7), without its end.
pub fn busiest(answer: i64, first: u32) -> String {
    match answer {
        ..0 => refused(-answer),
        0 => "0 messages".to_string(),
        _ => format!("{answer} messages from tick {first}"),
    }
}

/// Reads blocks from `input` to its end or the first refused one and prints
/// the lines of `unit`'s messages.
pub fn print(
    unit: &mut impl Unit,
    input: &mut impl Read,
    lines: &mut impl Write,
) -> io::Result<()> {
    let (mut ticks, mut messages) = (0, 0);
    let refusal = run(unit, input, |block, records| {
        for record in records.chunks(MESSAGE_BYTES) {
            writeln!(lines, "{}", line(record))?;
            messages += 1;
        }
        ticks += u32::from(block[4]);
        Ok(())
    })?;
    match refusal {
        None => writeln!(lines, "{ticks} ticks {messages} messages"),
        Some(number) => writeln!(lines, "{}", refused(number)),
    }
}

/// Reads blocks from `input` to its end or the first refused one and writes
/// the records of `unit`'s messages; the refusal's number, if there is one.
pub fn records(
    unit: &mut impl Unit,
    input: &mut impl Read,
    out: &mut impl Write,
) -> io::Result<Option<i64>> {
    run(unit, input, |_, records| out.write_all(records))
}

/// Pieces read at a time.
const PIECES: usize = 128;

/// Runs the blocks of `input` to its end or the first refused one; `take` gets
/// each block and the records of its messages. The refusal's number, if there is one.
fn run(
    unit: &mut impl Unit,
    input: &mut impl Read,
    mut take: impl FnMut(&[u8], &[u8]) -> io::Result<()>,
) -> io::Result<Option<i64>> {
    let mut bytes = vec![0; PIECES * BLOCK_BYTES];
    let mut out = [0; BLOCK_OUTPUT];
    loop {
        let length = fill(input, &mut bytes)?;
        if length == 0 {
            return Ok(None);
        }
        for piece in bytes[..length].chunks(BLOCK_BYTES) {
            let answer = unit.block(piece, &mut out);
            if answer < 0 {
                return Ok(Some(-i64::from(answer)));
            }
            take(piece, &out[..answer as usize * MESSAGE_BYTES])?;
        }
    }
}

/// Fills `bytes` as far as the input goes; the number of bytes read.
fn fill(input: &mut impl Read, bytes: &mut [u8]) -> io::Result<usize> {
    let mut length = 0;
    while length < bytes.len() {
        match input.read(&mut bytes[length..])? {
            0 => break,
            more => length += more,
        }
    }
    Ok(length)
}
