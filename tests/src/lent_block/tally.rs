//! How often each check of the two calls that alter a lent block (CR 6) refused it,
//! alone and before others, and how often each count was answered.

use crate::reference::{
    block_check, u32_at, Sample, BLOCK_BYTES, BLOCK_HEADER, BLOCK_SAMPLES, MOST_SAMPLES,
    SAMPLE_BYTES,
};
use crate::tally::{Call, Tally};

const CALLS: [Call; 2] = [Call::BlockAppend, Call::BlockStrikeOut];

/// The checks in the order in which CR 6 has them.
const ORDER: [Check; 9] = [
    Check::Lengths,
    Check::Count,
    Check::Zeros,
    Check::Sum,
    Check::FirstTick,
    Check::Samples,
    Check::Sample,
    Check::TwentySixth,
    Check::OnlyOne,
];

/// What a check looks at.
#[derive(Clone, Copy, Debug, PartialEq, Eq)]
enum Check {
    Lengths,
    Count,
    Zeros,
    Sum,
    FirstTick,
    Samples,
    Sample,
    TwentySixth,
    OnlyOne,
}

impl Check {
    fn name(self) -> &'static str {
        match self {
            Check::Lengths => "1",
            Check::Count => "9 by the header's count",
            Check::Zeros => "10",
            Check::Sum => "11",
            Check::FirstTick => "12",
            Check::Samples => "3-8 by the block's samples",
            Check::Sample => "3-8 by the sample to append",
            Check::TwentySixth => "9 for a twenty-sixth",
            Check::OnlyOne => "34",
        }
    }

    fn belongs_to(self, call: Call) -> bool {
        match self {
            Check::Sample | Check::TwentySixth => call == Call::BlockAppend,
            Check::OnlyOne => call == Call::BlockStrikeOut,
            _ => true,
        }
    }

    /// Whether both checks can fail at once. A block of another length has no places
    /// to check, and a count outside 1 to 25 is neither 25 nor 1.
    fn fails_beside(self, other: Check, call: Call) -> bool {
        match (self, other) {
            (Check::Lengths, _) => call == Call::BlockAppend,
            (Check::Count, Check::TwentySixth | Check::OnlyOne) => false,
            _ => true,
        }
    }

    /// Whether the check alone fails, whatever the others say.
    fn fails(self, lent: &Lent) -> bool {
        match self {
            Check::Lengths => lent.block.len() != BLOCK_BYTES || lent.sample_length_fails(),
            Check::Sample => lent.sample_numbers().next().is_some(),
            _ => lent.block.len() == BLOCK_BYTES && self.fails_in_whole_block(lent.block),
        }
    }

    fn fails_in_whole_block(self, block: &[u8]) -> bool {
        let count = usize::from(block[4]);
        let unused = BLOCK_HEADER + count.min(BLOCK_SAMPLES) * SAMPLE_BYTES;
        match self {
            Check::Count => !(1..=BLOCK_SAMPLES).contains(&count),
            Check::Zeros => block[5..8].iter().chain(&block[unused..]).any(|&byte| byte != 0),
            Check::Sum => u32_at(block, 8) != block_check(block),
            Check::FirstTick => block[..4] != block[BLOCK_HEADER..BLOCK_HEADER + 4],
            Check::Samples => numbers_of(&block[BLOCK_HEADER..unused]).next().is_some(),
            Check::TwentySixth => count == BLOCK_SAMPLES,
            Check::OnlyOne => count == 1,
            Check::Lengths | Check::Sample => false,
        }
    }
}

/// What a call is lent; striking out has no sample.
struct Lent<'a> {
    block: &'a [u8],
    sample: Option<&'a [u8]>,
}

impl Lent<'_> {
    fn sample_length_fails(&self) -> bool {
        self.sample.is_some_and(|sample| sample.len() != SAMPLE_BYTES)
    }

    fn sample_numbers(&self) -> impl Iterator<Item = i32> + '_ {
        let sample = self.sample.filter(|sample| sample.len() == SAMPLE_BYTES);
        sample.into_iter().flat_map(numbers_of)
    }
}

/// The refusals of those of the samples that are refused alone.
fn numbers_of(samples: &[u8]) -> impl Iterator<Item = i32> + '_ {
    let whole = samples.chunks_exact(SAMPLE_BYTES);
    whole.filter_map(|bytes| Sample::from_bytes(bytes).err()).map(|refusal| refusal.0)
}

// ------------------------------------------------------------------- the rows

pub const APPEND_THEN_STRIKE_OUT: &str = "block_append, then block_strike_out: the first bytes";
pub const STRIKE_OUT_THEN_APPEND: &str = "block_strike_out, then block_append: the first bytes";

/// Where the check begins to need another byte.
pub const SUMS: [(u32, &str); 2] = [(1 << 16, "65,536"), (1 << 24, "16,777,216")];

/// What is so of the ticks of an appended sample.
const TICKS: [&str; 3] = ["the next tick", "another tick", "a tick over 9,999,999"];

fn refused(call: Call, number: i32, cause: &str) -> String {
    format!("{} refused {number} by {cause}", call.name())
}

fn before(call: Call, first: Check, later: Check) -> String {
    format!("{}: {} before {}", call.name(), first.name(), later.name())
}

fn in_turn(call: Call) -> String {
    format!("{}: an earlier sample before a later one with a smaller number", call.name())
}

fn answered_count(call: Call, count: i32) -> String {
    format!("{} answered {count}", call.name())
}

pub fn passed(call: Call, sum: &str) -> String {
    let side = if call == Call::BlockAppend { "reaches" } else { "falls below" };
    format!("{}: the check {side} {sum}", call.name())
}

pub fn declare(tally: &mut Tally) {
    for call in CALLS {
        declare_refusals(tally, call);
        let checks: Vec<Check> = ORDER.into_iter().filter(|c| c.belongs_to(call)).collect();
        for (place, first) in checks.iter().enumerate() {
            for later in &checks[place + 1..] {
                if first.fails_beside(*later, call) {
                    tally.declare(before(call, *first, *later));
                }
            }
        }
        for (_, sum) in SUMS {
            tally.declare(passed(call, sum));
        }
    }
    for count in 2..=BLOCK_SAMPLES as i32 {
        tally.declare(answered_count(Call::BlockAppend, count));
        tally.declare(answered_count(Call::BlockStrikeOut, count - 1));
    }
    for tick in TICKS {
        tally.declare(format!("block_append accepted with {tick}"));
    }
    tally.declare("block_append accepted behind a sample of zeros");
    tally.declare(APPEND_THEN_STRIKE_OUT);
    tally.declare(STRIKE_OUT_THEN_APPEND);
}

fn declare_refusals(tally: &mut Tally, call: Call) {
    tally.declare(refused(call, 1, "the block's length"));
    tally.declare(refused(call, 9, "the header's count"));
    for number in 3..=8 {
        tally.declare(refused(call, number, "a sample of the block"));
    }
    tally.declare(in_turn(call));
    if call == Call::BlockAppend {
        tally.declare(refused(call, 1, "the sample's length"));
        tally.declare(refused(call, 1, "both lengths"));
        tally.declare(refused(call, 9, "a twenty-sixth"));
        for number in 3..=8 {
            tally.declare(refused(call, number, "the sample to append"));
        }
    }
}

/// Counts the answer to one of the two calls, which was lent `block` and, for
/// appending, `sample`.
pub fn answered(tally: &mut Tally, call: Call, sample: &[u8], block: &[u8], answer: i32) {
    let lent = Lent { block, sample: (call == Call::BlockAppend).then_some(sample) };
    if answer < 0 {
        count_refused(tally, call, &lent, -answer);
        return;
    }
    tally.count(&answered_count(call, answer));
    if call == Call::BlockAppend {
        count_appended(tally, sample, block);
    }
}

fn count_refused(tally: &mut Tally, call: Call, lent: &Lent, number: i32) {
    let mut failing = ORDER.into_iter().filter(|c| c.belongs_to(call) && c.fails(lent));
    let first = failing.next().expect("a refused call fails a check");
    for later in failing.filter(|later| first.fails_beside(*later, call)) {
        tally.count(&before(call, first, later));
    }
    let cause = match first {
        Check::Lengths => match (lent.block.len() != BLOCK_BYTES, lent.sample_length_fails()) {
            (true, true) => "both lengths",
            (true, false) => "the block's length",
            _ => "the sample's length",
        },
        Check::Count => "the header's count",
        Check::Samples => "a sample of the block",
        Check::Sample => "the sample to append",
        Check::TwentySixth => "a twenty-sixth",
        _ => return,
    };
    tally.count(&refused(call, number, cause));
    if first == Check::Samples {
        let samples = &lent.block[BLOCK_HEADER..][..usize::from(lent.block[4]) * SAMPLE_BYTES];
        let smaller = numbers_of(samples).any(|other| other < number);
        tally.count_if(smaller, &in_turn(call));
    }
}

/// Counts what an accepted sample is behind.
fn count_appended(tally: &mut Tally, sample: &[u8], block: &[u8]) {
    let end = BLOCK_HEADER + usize::from(block[4]) * SAMPLE_BYTES;
    let last = &block[end - SAMPLE_BYTES..end];
    let (before, tick) = (u32_at(last, 0), u32_at(sample, 0));
    let next = before.checked_add(1) == Some(tick);
    let occurred = [next, !next, tick as usize >= MOST_SAMPLES];
    for (occurred, what) in occurred.into_iter().zip(TICKS) {
        tally.count_if(occurred, &format!("block_append accepted with {what}"));
    }
    let zeros = last == [0; SAMPLE_BYTES];
    tally.count_if(zeros, "block_append accepted behind a sample of zeros");
}
