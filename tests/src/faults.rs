//! Changes to good input that put one field, one length or the lent memory at
//! or past a boundary. Made alone and in pairs they reach each refusal and
//! their order.

use crate::reference::{
    block_check, has_cancel, kind, rules, Message, BLOCK_BYTES, BLOCK_HEADER, BLOCK_OUTPUT,
    BROKEN_DOWN, FARTHEST, MESSAGE_BYTES, MOST_SAMPLES, POST_CRASH, READER_OUTPUT, ROAD_OMITTED,
    SAMPLE_BYTES, SAMPLE_OUTPUT, STOPPED, UNRESPONSIVE_DRIVER,
};

/// One change to a call's input or to the memory lent.
#[derive(Clone, Copy, Debug)]
pub enum Change {
    /// The low `width` bytes of `value` at place `at`, if the input has it.
    Put { at: usize, width: usize, value: i64 },
    /// The input cut or filled up to this length.
    Length(usize),
    /// So many bytes of output lent.
    Lent(usize),
    /// A block's check off by this much, whatever else is changed.
    Check(u32),
}

use Change::{Check, Length, Lent, Put};

/// A call's input and the length of the memory lent for its output.
#[derive(Clone)]
pub struct Trial {
    pub input: Vec<u8>,
    pub lent: usize,
}

impl Trial {
    pub fn new(input: &[u8], lent: usize) -> Trial {
        Trial { input: input.to_vec(), lent }
    }

    /// The trial with these changes; a block's check is made good again before
    /// `Check` spoils it and `Length` cuts the block.
    pub fn changed(&self, changes: &[Change], is_block: bool) -> Trial {
        let mut trial = self.clone();
        for change in changes {
            trial.put(change);
        }
        if is_block {
            seal(&mut trial.input);
        }
        for change in changes {
            trial.spoil(change);
        }
        trial
    }

    fn put(&mut self, change: &Change) {
        if let Put { at, width, value } = *change {
            if at + width <= self.input.len() {
                self.input[at..at + width].copy_from_slice(&value.to_le_bytes()[..width]);
            }
        }
    }

    fn spoil(&mut self, change: &Change) {
        match *change {
            Put { .. } => (),
            Length(length) => self.input.resize(length, 0),
            Lent(length) => self.lent = length,
            Check(off) if self.input.len() >= BLOCK_HEADER => {
                let check = [8, 9, 10, 11].map(|place| self.input[place]);
                let wrong = u32::from_le_bytes(check).wrapping_add(off);
                self.input[8..12].copy_from_slice(&wrong.to_le_bytes());
            }
            Check(_) => (),
        }
    }
}

/// Puts a block's check right.
pub fn seal(block: &mut [u8]) {
    let check = block_check(block);
    block[8..12].copy_from_slice(&check.to_le_bytes());
}

/// The bytes with one bit flipped.
pub fn flipped(bytes: &[u8], bit: usize) -> Vec<u8> {
    let mut bytes = bytes.to_vec();
    bytes[bit / 8] ^= 1 << (bit % 8);
    bytes
}

fn puts(at: usize, width: usize, values: &[i64]) -> Vec<Change> {
    values.iter().map(|&value| Put { at, width, value }).collect()
}

const COORDINATES: [i64; 9] = [
    0,
    FARTHEST as i64,
    FARTHEST as i64 + 1,
    -(FARTHEST as i64),
    -(FARTHEST as i64) - 1,
    i32::MAX as i64,
    i32::MIN as i64,
    1 << 24,
    -1,
];

/// The fields of a sample at place `at`, at and past their boundaries.
fn sample_fields(at: usize) -> Vec<Change> {
    [
        puts(at + 4, 2, &[8, 9, 16_382, 16_383, 16_384, 32_767, 32_768, 65_535]),
        puts(at + 6, 1, &[0, 4, 5, 128, 255]),
        puts(at + 7, 1, &[0, 255]),
        puts(at + 8, 1, &[15, 16, 31, 32, 64, 128, 255]),
        puts(at + 9, 1, &[0, 6, 7, 128, 255]),
        puts(at + 10, 2, &[3_600, 3_601, 3_602, 32_768, 65_535]),
        puts(at + 12, 4, &COORDINATES),
        puts(at + 16, 4, &COORDINATES),
    ]
    .concat()
}

/// Ticks at place `at` that are not `tick`.
fn other_ticks(at: usize, tick: usize) -> Vec<Change> {
    let tick = tick as i64;
    let high = tick ^ 1 << 31;
    puts(at, 4, &[tick - 1, tick + 1, tick + 256, tick ^ 1 << 16, high, u32::MAX as i64])
}

fn lengths(lengths: &[usize]) -> Vec<Change> {
    lengths.iter().map(|&length| Length(length)).collect()
}

/// Output just enough, just too short, and none.
fn outputs(need: usize) -> Vec<Change> {
    [0, need - 1, need, need + 1].map(Lent).to_vec()
}

/// Changes to a sample call whose turn is `tick`.
pub fn of_sample(tick: usize) -> Vec<Change> {
    [
        lengths(&[0, 1, 19, 20, 21, 40, BLOCK_BYTES]),
        outputs(SAMPLE_OUTPUT),
        sample_fields(0),
        other_ticks(0, tick),
    ]
    .concat()
}

/// Changes to a block with `count` samples, the first of which is due at
/// `tick`: to its frame, and to its first, second and last sample.
pub fn of_block(count: usize, tick: usize) -> Vec<Change> {
    let mut changes = [
        lengths(&[0, 1, 12, 20, 511, 513, 1_024]),
        [READER_OUTPUT, BLOCK_OUTPUT].map(outputs).concat(),
        other_ticks(0, tick),
        puts(4, 1, &[0, 1, count as i64 + 1, 25, 26, 255]),
        puts(5, 1, &[1]),
        puts(6, 1, &[128]),
        puts(7, 1, &[255]),
        vec![Check(1), Check(u32::MAX), Check(1 << 31)],
        puts(BLOCK_BYTES - 1, 1, &[1]),
        puts(BLOCK_HEADER + count * SAMPLE_BYTES, 1, &[128]),
    ]
    .concat();
    for place in [0, count / 2, count - 1] {
        let at = BLOCK_HEADER + place * SAMPLE_BYTES;
        changes.extend(other_ticks(at, tick + place).into_iter().step_by(2));
        changes.extend(sample_fields(at));
    }
    changes
}

/// Changes to the block writer's input of `count` samples.
pub fn of_samples(count: usize) -> Vec<Change> {
    let mut changes = lengths(&[0, 1, 19, 20, 21, 40, 480, 499, 500, 501, 512, 520]);
    changes.extend(outputs(BLOCK_BYTES));
    for place in [0, count - 1] {
        let at = place * SAMPLE_BYTES;
        changes.extend(puts(at, 4, &[0, 9_999_999, 10_000_000, u32::MAX as i64]));
        changes.extend(sample_fields(at));
    }
    changes
}

/// Changes to a message record.
pub fn of_message() -> Vec<Change> {
    let most = MOST_SAMPLES as i64;
    let ticks = [0, 1, 299, 300, 301, most - 1, most, 1 << 31, u32::MAX as i64];
    [
        lengths(&[0, 1, 31, 32, 33, 2 * MESSAGE_BYTES]),
        puts(0, 1, &[0, 1, 2, 3, 4, 255]),
        puts(1, 1, &[0, 1, 2, 3, 4, 5, 255]),
        puts(2, 1, &[0, 1, 2, 3, 4, 7, 8, 9, 255]),
        puts(3, 1, &[0, 93, 94, 95, 98, 99, 100, 255]),
        puts(4, 1, &[0, 1, 2, 3, 4, 255]),
        puts(5, 1, &[0, 1, 2, 3, 4, 254, 255]),
        puts(6, 1, &[0, 1, 2, 255]),
        puts(7, 1, &[0, 1, 2, 3, 4, 255]),
        puts(8, 4, &[0, 1, 2, most, most + 1, u32::MAX as i64]),
        puts(12, 4, &ticks),
        puts(16, 4, &ticks),
        puts(20, 4, &COORDINATES),
        puts(24, 4, &COORDINATES),
        puts(28, 2, &[0, 3_600, 3_601, 3_602, 65_535]),
        puts(30, 2, &[0, 1, 2, 3, 29, 30, 31, 179, 180, 181, 2 + 256, 30 + 256, 65_535]),
    ]
    .concat()
}

/// A good message of each kind and warning, but no Cancel of warning 4; the
/// Cancel's detection is earlier than its reference.
pub fn good_messages() -> Vec<Message> {
    // Warning, quality, roadType, direction, stationarySince and validity.
    let warnings = [
        (STOPPED, 1, 0, 0, 2, 30),
        (BROKEN_DOWN, 2, 3, 1, 1, 30),
        (POST_CRASH, 3, ROAD_OMITTED, 0, 0, 180),
        (UNRESPONSIVE_DRIVER, 1, 1, 1, 3, 2),
    ];
    let mut messages = Vec::new();
    for kind in [kind::NEW, kind::UPDATE, kind::CANCEL] {
        for (warning, quality, road_type, direction, stationary_since, validity) in warnings {
            if kind == kind::CANCEL && !has_cancel(warning) {
                continue;
            }
            messages.push(Message {
                kind,
                warning,
                sub_cause: rules(warning).sub_cause,
                cause: rules(warning).cause,
                quality,
                road_type,
                direction,
                stationary_since,
                event: 17,
                detection: 300,
                reference: if kind == kind::CANCEL { 9_999_999 } else { 300 },
                east: -1_000_000,
                north: 1_000_000,
                heading: 3_601,
                validity,
            });
        }
    }
    messages
}
