//! Trials of the busiest stretch (CR 7) on lists and widths that are refused: each check
//! alone, in each place, and all of them together in each choice.

use super::{ask, lists, tally, WIDTHS};
use crate::comparison::Comparison;
use crate::faults::{self, Change, Trial};
use crate::random::Random;
use crate::reference::busiest::WIDEST;
use crate::reference::MESSAGE_BYTES;

pub fn check(comparison: &mut Comparison) {
    torn_lists(comparison);
    flipped_bits(comparison);
    damaged_fields(comparison);
    falls(comparison);
    together(comparison);
    junk(comparison);
}

/// Ticks that rise by a few each, some of them equal.
fn rising(length: usize, random: &mut Random) -> Vec<u32> {
    let mut tick = random.pick(&[0, 70_000, 5_000_000]);
    let mut next = || {
        tick += random.pick(&[0, 1, 5, 300]);
        tick
    };
    (0..length).map(|_| next()).collect()
}

/// "a list that isn't whole records": each length from 0 to 100, and those at and beside
/// whole records further on, of good records, zeros and anything.
fn torn_lists(comparison: &mut Comparison) {
    comparison.restart("busiest stretch, torn lists", 1);
    let ticks = rising(1_001, &mut comparison.random);
    let good = lists::records(&ticks, &mut comparison.random);
    let mut anything = good.clone();
    comparison.random.fill(&mut anything);
    let whole = [4, 5, 8, 16, 100, 1_000].map(|records| records * MESSAGE_BYTES);
    let beside = whole.into_iter().flat_map(|length| length - 2..=length + 2);
    for length in (0..=100).chain(beside) {
        for width in [0, 1, 600, WIDEST + 1] {
            ask(comparison, &good[..length], width);
            ask(comparison, &anything[..length], width);
            ask(comparison, &vec![0; length], width);
        }
    }
}

/// The first, a middle and the last place of a list.
fn places(length: usize) -> [usize; 3] {
    [0, length / 2, length - 1]
}

fn put_record(records: &[u8], place: usize, record: &[u8]) -> Vec<u8> {
    let (at, end) = (place * MESSAGE_BYTES, (place + 1) * MESSAGE_BYTES);
    [&records[..at], record, &records[end..]].concat()
}

fn record_at(records: &[u8], place: usize) -> &[u8] {
    &records[place * MESSAGE_BYTES..][..MESSAGE_BYTES]
}

/// Each bit of a record, flipped.
fn flipped_bits(comparison: &mut Comparison) {
    for length in [1, 2, 5, 64] {
        comparison.restart("busiest stretch, flipped bits", length as u64);
        for place in places(length) {
            let ticks = rising(length, &mut comparison.random);
            let records = lists::records(&ticks, &mut comparison.random);
            for bit in 0..MESSAGE_BYTES * 8 {
                let flipped = faults::flipped(&records, place * MESSAGE_BYTES * 8 + bit);
                ask(comparison, &flipped, 600);
                ask(comparison, &flipped, 0);
            }
        }
    }
}

/// Each field of a record at and past its boundaries, for each kind and warning.
fn damaged_fields(comparison: &mut Comparison) {
    for (seed, message) in (0..).zip(faults::good_messages()) {
        comparison.restart("busiest stretch, damaged fields", seed);
        let mut ticks = rising(5, &mut comparison.random);
        for place in places(ticks.len()) {
            ticks[place] = message.reference;
            let records = lists::records(&ticks, &mut comparison.random);
            for change in faults::of_message() {
                let good = Trial::new(&message.record(), 0);
                let damaged = good.changed(&[change], false).input;
                let answer = ask(comparison, &put_record(&records, place, &damaged), 600);
                if let (-14, Change::Put { at, .. }) = (answer, change) {
                    comparison.tally.count(&tally::damaged(at));
                }
            }
        }
    }
}

/// "a reference tick below the one before": by 1 and by much, at each pair, the ticks
/// after it going on from there or from where they were.
fn falls(comparison: &mut Comparison) {
    for length in [2, 3, 4, 9] {
        for pair in 0..length - 1 {
            comparison.restart("busiest stretch, falls", (length * 100 + pair) as u64);
            for (by, goes_on) in [(1, true), (1, false), (70_000, true), (70_000, false)] {
                let ticks = fallen(length, pair, by, goes_on);
                let records = lists::records(&ticks, &mut comparison.random);
                for width in WIDTHS {
                    ask(comparison, &records, width);
                }
            }
        }
    }
    comparison.restart("busiest stretch, from the last tick to the first", 1);
    let records = lists::records(&[lists::LAST_TICK, 0], &mut comparison.random);
    ask(comparison, &records, 600);
}

/// Ticks that rise by 10 but for the fall at the pair. Where they go on from the fallen
/// tick all later ones are as much lower.
fn fallen(length: usize, pair: usize, by: u32, goes_on: bool) -> Vec<u32> {
    let mut ticks: Vec<u32> = (0..length as u32).map(|place| 80_000 + 10 * place).collect();
    let lower = if goes_on { length } else { pair + 2 };
    for tick in &mut ticks[pair + 1..lower] {
        *tick -= by + 10;
    }
    ticks
}

/// Each choice of the four checks failing together, the damaged record and the fall in
/// different places.
fn together(comparison: &mut Comparison) {
    comparison.restart("busiest stretch, refusals together", 1);
    for length in [2, 3, 8, 100] {
        for place in places(length) {
            for pair in [0, (length - 1) / 2, length - 2] {
                for choice in 0..16 {
                    fail_by(comparison, length, place, pair, choice);
                }
            }
        }
    }
}

/// A list torn by bit 0 of the choice, with a damaged record by bit 1 and a fall by bit
/// 2; a refused width by bit 3.
fn fail_by(comparison: &mut Comparison, length: usize, place: usize, pair: usize, choice: u8) {
    let chosen = |bit: u8| choice >> bit & 1 != 0;
    let random = &mut comparison.random;
    let ticks = if chosen(2) {
        fallen(length, pair, random.pick(&[1, 500, 70_000]), random.one_in(2))
    } else {
        fallen(length, length - 1, 0, true)
    };
    let mut records = lists::records(&ticks, random);
    if chosen(1) {
        // Damage that leaves the tick as it is: kind 0, quality 9, heading over 3,601.
        let (at, byte) = random.pick(&[(0, 0), (4, 9), (29, 0xFF)]);
        records[place * MESSAGE_BYTES + at] = byte;
    }
    if chosen(0) {
        let torn = random.pick(&[1, 16, 31]);
        records.extend_from_within(..torn);
    }
    let widths = if chosen(3) { [0, WIDEST + 1, u32::MAX] } else { [1, 600, WIDEST] };
    for width in widths {
        ask(comparison, &records, width);
    }
}

/// Good records with some in any order, some damaged, and bytes that are anything.
fn junk(comparison: &mut Comparison) {
    comparison.restart("busiest stretch, junk", 1);
    for _ in 0..4_000 {
        let length = 1 + comparison.random.place(6);
        let ticks = rising(length, &mut comparison.random);
        let mut records = lists::records(&ticks, &mut comparison.random);
        let changes = comparison.random.place(3);
        for _ in 0..changes {
            let (from, to) = (comparison.random.place(length), comparison.random.place(length));
            let record = record_at(&records, from).to_vec();
            records = put_record(&records, to, &record);
        }
        if comparison.random.one_in(3) {
            let at = comparison.random.place(records.len());
            records[at] = comparison.random.draw() as u8;
        }
        let any_width = comparison.random.draw() as u32;
        let width = comparison.random.pick(&[1, 5, 600, WIDEST, 0, any_width]);
        ask(comparison, &records, width);
    }
}
