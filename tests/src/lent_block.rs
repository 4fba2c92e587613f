//! Trials of the two calls that alter a lent block (CR 6): one appends a sample, the
//! other strikes the last one out. Sentences in quotation marks are CR 6's.

use crate::comparison::Comparison;
use crate::faults::{self, Change, Trial};
use crate::random::Random;
use crate::reference::{
    block_of, gear, happening, u32_at, Sample, BLOCK_BYTES, BLOCK_HEADER, BLOCK_SAMPLES, FARTHEST,
    NO_READING, READER_OUTPUT, SAMPLE_BYTES, UNKNOWN_HEADING,
};
use crate::tally::Call;

pub mod tally;

/// Chains of each kind, and the steps of one: enough to fill a block and to leave it
/// with one sample again, some times over.
const CHAINS: u64 = 10;
const STEPS: usize = 300;

pub fn check(comparison: &mut Comparison) {
    block_and_sample_faults(comparison);
    flipped_bits(comparison);
    lengths(comparison);
    for kind in [Kind::Any, Kind::Greatest, Kind::Zeros] {
        for seed in 0..CHAINS {
            chain(comparison, kind, seed);
        }
    }
}

// ------------------------------------------------------------------ the calls

/// Appends on both sides; a block that is left is held to the writer.
fn append(comparison: &mut Comparison, block: &mut [u8], sample: &[u8]) -> i32 {
    let lent = block.to_vec();
    let answer = comparison.alter(Call::BlockAppend, sample, block);
    if answer >= 0 {
        let samples = [samples_of(&lent), sample].concat();
        hold_to_writer(comparison, block, &samples, answer);
        count_sums(comparison, Call::BlockAppend, &lent, block);
    }
    answer
}

/// Strikes out on both sides; a block that is left is held to the writer.
fn strike_out(comparison: &mut Comparison, block: &mut [u8]) -> i32 {
    let lent = block.to_vec();
    let answer = comparison.alter(Call::BlockStrikeOut, &[], block);
    if answer >= 0 {
        let samples = samples_of(&lent);
        let samples = &samples[..samples.len() - SAMPLE_BYTES];
        hold_to_writer(comparison, block, samples, answer);
        count_sums(comparison, Call::BlockStrikeOut, block, &lent);
    }
    answer
}

/// The bytes of the samples of a block that is not refused.
fn samples_of(block: &[u8]) -> &[u8] {
    &block[BLOCK_HEADER..][..usize::from(block[4]) * SAMPLE_BYTES]
}

/// The bytes of the last of them.
fn last_of(block: &[u8]) -> &[u8] {
    samples_of(block).rchunks(SAMPLE_BYTES).next().expect("it has a sample")
}

/// "Each answers with the new count and leaves what the block writer makes of the
/// samples": the unit's own writer, and its reader gives the samples back.
fn hold_to_writer(comparison: &mut Comparison, block: &[u8], samples: &[u8], answer: i32) {
    let written = comparison.call_for_output(Call::BlockWrite, samples, BLOCK_BYTES);
    if written != (answer, block.to_vec()) {
        comparison.fail("the block is not what the writer makes of the samples");
    }
    let (count, read) = comparison.call_for_output(Call::BlockRead, block, READER_OUTPUT);
    if count != answer || read[..samples.len()] != *samples {
        comparison.fail("the reader does not give the samples back");
    }
}

/// Counts where the checks of a block with fewer and with more samples lie on two
/// sides of a sum that needs another byte.
fn count_sums(comparison: &mut Comparison, call: Call, fewer: &[u8], more: &[u8]) {
    for (sum, name) in tally::SUMS {
        let passed = u32_at(fewer, 8) < sum && u32_at(more, 8) >= sum;
        comparison.tally.count_if(passed, &tally::passed(call, name));
    }
}

/// "Where neither is refused, appending and striking out gives the first bytes again;
/// striking out and appending the struck sample does too." On copies of any block. The
/// second call is never refused: the block it is lent is the writer's, of a count that
/// leaves it room.
fn round_trips(comparison: &mut Comparison, block: &[u8], sample: &[u8]) {
    let mut copy = block.to_vec();
    let count = append(comparison, &mut copy, sample);
    if count >= 0 {
        let back = strike_out(comparison, &mut copy);
        if back != count - 1 || copy != block {
            comparison.fail("appending and striking out does not give the first bytes");
        }
        comparison.tally.count(tally::APPEND_THEN_STRIKE_OUT);
    }
    let mut copy = block.to_vec();
    let count = strike_out(comparison, &mut copy);
    if count >= 0 {
        let back = append(comparison, &mut copy, last_of(block));
        if back != count + 1 || copy != block {
            comparison.fail("striking out and appending does not give the first bytes");
        }
        comparison.tally.count(tally::STRIKE_OUT_THEN_APPEND);
    }
}

// ---------------------------------------------------------- faults and order

/// Which of the two that are lent a change is made to.
#[derive(Clone, Copy, PartialEq, Eq)]
enum Place {
    Block,
    Sample,
}

/// Makes each change alone, then each pair of them, to a good block and to a good
/// sample to append.
fn block_and_sample_faults(comparison: &mut Comparison) {
    for count in [1, 7, 24, 25] {
        let part = format!("append and strike out, faults, count {count}");
        comparison.restart(&part, count as u64);
        let block = any_block(count, &mut comparison.random);
        let sample = any_sample(&mut comparison.random).to_bytes();
        let good = [Trial::new(&block, 0), Trial::new(&sample, 0)];
        let changes = changes(count, u32_at(&block, 0) as usize);
        for (place, first) in changes.iter().enumerate() {
            changed(comparison, &good, &[*first]);
            for second in &changes[place + 1..] {
                changed(comparison, &good, &[*first, *second]);
            }
        }
    }
}

/// Changes to a block of `count` samples, its first tick `tick`, and to a sample.
/// There is no output to lend.
fn changes(count: usize, tick: usize) -> Vec<(Place, Change)> {
    let block = faults::of_block(count, tick).into_iter().map(|change| (Place::Block, change));
    let sample = faults::of_sample(tick).into_iter().map(|change| (Place::Sample, change));
    let has_effect = |(_, change): &(Place, Change)| !matches!(change, Change::Lent(_));
    block.chain(sample).filter(has_effect).collect()
}

/// Both calls on the block with its changes; striking out where it alone has some.
fn changed(comparison: &mut Comparison, good: &[Trial; 2], made: &[(Place, Change)]) {
    let of = |wanted| {
        let here = made.iter().filter(|(place, _)| *place == wanted);
        here.map(|(_, change)| *change).collect::<Vec<Change>>()
    };
    let block = good[0].changed(&of(Place::Block), true).input;
    let sample = good[1].changed(&of(Place::Sample), false).input;
    comparison.alter(Call::BlockAppend, &sample, &mut block.clone());
    if made.iter().all(|(place, _)| *place == Place::Block) {
        comparison.alter(Call::BlockStrikeOut, &[], &mut block.clone());
    }
}

// ----------------------------------------------------------- damaged and junk

/// Every single bit of some blocks, and of a sample to append, flipped. A block's
/// check is once left as it is and once made good, so that the samples are reached.
fn flipped_bits(comparison: &mut Comparison) {
    for count in [1, 9, 25] {
        comparison.restart("append and strike out, flipped bits", count as u64);
        let block = any_block(count, &mut comparison.random);
        let sample = any_sample(&mut comparison.random).to_bytes();
        for bit in 0..BLOCK_BYTES * 8 {
            let mut damaged = faults::flipped(&block, bit);
            round_trips(comparison, &damaged, &sample);
            faults::seal(&mut damaged);
            round_trips(comparison, &damaged, &sample);
        }
        for bit in 0..SAMPLE_BYTES * 8 {
            append(comparison, &mut block.to_vec(), &faults::flipped(&sample, bit));
        }
    }
}

/// Blocks and samples of many lengths: the start of good ones, with zeros or anything
/// behind, and junk.
fn lengths(comparison: &mut Comparison) {
    const LENGTHS: [usize; 11] = [0, 1, 19, 20, 21, 40, 500, 511, 512, 513, 532];
    comparison.restart("append and strike out, lengths", 0);
    for block_length in LENGTHS {
        for sample_length in LENGTHS {
            let count = 1 + comparison.random.place(BLOCK_SAMPLES);
            let good_block = any_block(count, &mut comparison.random);
            let good_sample = any_sample(&mut comparison.random).to_bytes();
            for good in [2, 1, 0] {
                let mut block = vec![0; block_length];
                let mut sample = vec![0; sample_length];
                if good < 2 {
                    comparison.random.fill(&mut block);
                    comparison.random.fill(&mut sample);
                }
                if good > 0 {
                    put_start(&mut block, &good_block);
                    put_start(&mut sample, &good_sample);
                }
                round_trips(comparison, &block, &sample);
            }
        }
    }
}

fn put_start(bytes: &mut [u8], start: &[u8]) {
    let both = bytes.len().min(start.len());
    bytes[..both].copy_from_slice(&start[..both]);
}

// --------------------------------------------------------------------- chains

/// What samples a chain appends.
#[derive(Clone, Copy, Debug, PartialEq, Eq)]
enum Kind {
    Any,
    /// Mostly the one by which a check grows most.
    Greatest,
    /// Half of them of zeros, so that only the count tells them from unused bytes.
    Zeros,
}

/// A block edited at random: it grows to 25 samples and falls to one, again and again.
/// After each step both round trips are made on copies.
fn chain(comparison: &mut Comparison, kind: Kind, seed: u64) {
    comparison.restart(&format!("append and strike out, chain, {kind:?}"), seed);
    let mut block = any_block(1, &mut comparison.random);
    let mut grows = true;
    for _ in 0..STEPS {
        let sample = sample_to_append(kind, &block, &mut comparison.random);
        let against = comparison.random.one_in(4);
        let answer = if grows != against {
            append(comparison, &mut block, &sample)
        } else {
            strike_out(comparison, &mut block)
        };
        if answer == -9 || answer == -34 {
            grows = answer == -34;
        }
        round_trips(comparison, &block, &sample);
        if comparison.random.one_in(6) {
            damage(comparison, &mut block, &sample);
        }
    }
}

/// Some bytes of the block changed, its check made good or not. The chain goes on with
/// such a block where it is none that is refused.
fn damage(comparison: &mut Comparison, block: &mut [u8], sample: &[u8]) {
    let mut damaged = block.to_vec();
    for _ in 0..1 + comparison.random.place(3) {
        let place = comparison.random.place(BLOCK_BYTES);
        damaged[place] = comparison.random.draw() as u8;
    }
    if comparison.random.one_in(2) {
        faults::seal(&mut damaged);
    }
    round_trips(comparison, &damaged, sample);
    if comparison.call(Call::BlockRead, &damaged, READER_OUTPUT) >= 0 {
        block.copy_from_slice(&damaged);
    }
}

/// A sample of the kind for this block, often with the tick that is next, and now and
/// then with a change that mostly gets it refused.
fn sample_to_append(kind: Kind, block: &[u8], random: &mut Random) -> Vec<u8> {
    let mut sample = match kind {
        Kind::Greatest if !random.one_in(8) => GREATEST.to_bytes(),
        Kind::Zeros if random.one_in(2) => [0; SAMPLE_BYTES],
        _ => any_sample(random).to_bytes(),
    };
    if kind == Kind::Any && random.one_in(2) {
        let next = u32_at(last_of(block), 0).wrapping_add(1);
        sample[..4].copy_from_slice(&next.to_le_bytes());
    }
    if random.one_in(6) {
        let change = random.pick(&faults::of_sample(0));
        return Trial::new(&sample, 0).changed(&[change], false).input;
    }
    sample.to_vec()
}

/// A number from `low` to `high`, now and then one of the two.
fn within(random: &mut Random, low: i64, high: i64) -> i64 {
    let between = random.between(low, high);
    random.pick(&[low, between, between, high])
}

/// A sample that is not refused, with any tick.
fn any_sample(random: &mut Random) -> Sample {
    let mut number = |low: i64, high: i64| within(random, low, high);
    Sample {
        tick: number(0, u32::MAX.into()) as u32,
        speed: number(0, NO_READING.into()) as u16,
        gear: number(0, gear::REVERSE.into()) as u8,
        switches: number(0, u8::MAX.into()) as u8,
        happenings: number(0, happening::ALL.into()) as u8,
        road: number(0, 6) as u8,
        heading: number(0, UNKNOWN_HEADING.into()) as u16,
        east: number(-i64::from(FARTHEST), FARTHEST.into()) as i32,
        north: number(-i64::from(FARTHEST), FARTHEST.into()) as i32,
    }
}

fn any_block(count: usize, random: &mut Random) -> [u8; BLOCK_BYTES] {
    let samples: Vec<u8> = (0..count).flat_map(|_| any_sample(random).to_bytes()).collect();
    block_of(&samples)
}

/// The sample by which a check grows most.
const GREATEST: Sample = Sample {
    tick: u32::MAX,
    speed: NO_READING,
    gear: gear::REVERSE,
    switches: u8::MAX,
    happenings: happening::ALL,
    road: 6,
    heading: 0x0DFF,
    east: -1,
    north: -1,
};
