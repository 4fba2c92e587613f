//! The second implementation of the busiest stretch (CR 7), as its definition says: from
//! each tick apart, all messages are looked at. Sentences in quotation marks are CR 7's.

use super::{refuse_if, Message, Refusal, MESSAGE_BYTES};
use std::collections::BTreeSet;

#[cfg(test)]
mod tests;

/// "a width of 0 or over 10,000,000" is refused.
pub const WIDEST: u32 = 10_000_000;

/// The busiest stretch of a list that isn't empty.
#[derive(Clone, Copy, Debug, PartialEq, Eq)]
pub struct Stretch {
    pub messages: usize,
    pub first: u32,
}

/// "It refuses first with 13 a list that isn't whole records and with 14 a record, then
/// with 35 a reference tick below the one before, and last with 36 a width of 0 or over
/// 10,000,000." Each of them is a check on the whole list. "An empty list with an allowed
/// w gives zero and no tick": `None`.
pub fn busiest_stretch(records: &[u8], width: u32) -> Result<Option<Stretch>, Refusal> {
    let references = references(records)?;
    refuse_if(references.windows(2).any(|pair| pair[1] < pair[0]), 35)?;
    refuse_if(!(1..=WIDEST).contains(&width), 36)?;
    Ok(busiest_of(&references, width))
}

/// The reference ticks of a list of records, by 13 and 14.
pub fn references(records: &[u8]) -> Result<Vec<u32>, Refusal> {
    refuse_if(!records.len().is_multiple_of(MESSAGE_BYTES), 13)?;
    let read = |record| Message::from_record(record).map(|message| message.reference);
    records.chunks(MESSAGE_BYTES).map(read).collect()
}

/// The number of messages whose reference ticks lie in the `width` ticks from `first` on.
/// Neither is much over 10,000,000, so that the sum fits.
pub fn messages_from(first: u32, width: u32, references: &[u32]) -> usize {
    let stretch = first..first + width;
    references.iter().filter(|reference| stretch.contains(reference)).count()
}

/// For each tick that is some message's reference tick: how many messages lie in the
/// stretch from it on.
pub fn counts(references: &[u32], width: u32) -> Vec<Stretch> {
    let ticks: BTreeSet<u32> = references.iter().copied().collect();
    let stretch = |first| Stretch { messages: messages_from(first, width, references), first };
    ticks.into_iter().map(stretch).collect()
}

/// "the largest number of messages whose reference ticks lie in w ticks on end, and the
/// earliest first tick of such a stretch that is some message's reference tick".
fn busiest_of(references: &[u32], width: u32) -> Option<Stretch> {
    let counts = counts(references, width);
    let most = counts.iter().map(|stretch| stretch.messages).max()?;
    counts.into_iter().filter(|stretch| stretch.messages == most).min_by_key(|s| s.first)
}

/// "Every other stretch of w ticks holds at most as many": the largest number over the
/// ticks from 0 on, whether or not a message is there. As the first tick moves up by one,
/// the number grows only where the new last tick is a message's, and falls only where the
/// tick left behind is. These first ticks are tried, and those beside them.
pub fn most_from_any_tick(references: &[u32], width: u32) -> usize {
    let around = |&r: &u32| {
        let last_is_it = (r + 1).saturating_sub(width);
        [0, last_is_it.saturating_sub(1), last_is_it, last_is_it + 1, r, r + 1, r + 2]
    };
    let firsts: BTreeSet<u32> = references.iter().flat_map(around).collect();
    firsts.into_iter().map(|t| messages_from(t, width, references)).max().unwrap_or(0)
}
