//! The busiest stretch (CR 7) in one pass. A window of as many messages as the busiest
//! stretch has so far moves along the list: it never shrinks, and grows by one where that
//! one more lies within the width.

use super::{is_good_message, MessageBytes, MESSAGE_BYTES};

const WIDEST: u32 = 10_000_000;

pub fn busiest_stretch(records: &[u8], width: u32, first: &mut u32) -> i64 {
    let (records, rest) = records.as_chunks::<MESSAGE_BYTES>();
    if !rest.is_empty() {
        return -13;
    }
    let (most, tick) = match pass(records, width) {
        Ok(found) => found,
        Err(refusal) => return -refusal,
    };
    if !(1..=WIDEST).contains(&width) {
        return -36;
    }
    if most > 0 {
        *first = tick;
    }
    most as i64
}

#[inline(always)]
fn reference(record: &MessageBytes) -> u32 {
    u32::from_le_bytes([record[16], record[17], record[18], record[19]])
}

/// The number of messages in the busiest stretch and its first tick, 0 and 0 for no
/// records; or the first of 14 and 35 that refuses the list. By a refused width the two
/// mean nothing.
fn pass(records: &[MessageBytes], width: u32) -> Result<(usize, u32), i64> {
    let (mut most, mut first) = (0, 0);
    let (mut before, mut falls) = (0, false);
    for (place, record) in records.iter().enumerate() {
        if !is_good_message(record) {
            return Err(14);
        }
        let now = reference(record);
        falls |= now < before;
        before = now;
        // `most` grows by one at each record at most, so it is no more than `place`.
        let start = reference(&records[place - most]);
        if now.wrapping_sub(start) < width {
            most += 1;
            first = start;
        }
    }
    if falls {
        return Err(35);
    }
    Ok((most, first))
}
