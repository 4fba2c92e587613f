//! Trials of the busiest stretch (CR 7). Sentences in quotation marks are CR 7's.

use crate::comparison::Comparison;
use crate::days;
use crate::reference::busiest::{most_from_any_tick, references, WIDEST};
use crate::reference::MESSAGE_BYTES;
use lists::{Shape, LAST_TICK};

pub mod lists;
mod refused;
pub mod tally;

/// Widths asked of each random list beside its own and those next to it: the ends of what
/// is allowed, some within it, and some whose low 16, 24 or 31 bits alone are.
const WIDTHS: [u32; 19] = [
    0,
    1,
    2,
    3,
    31,
    599,
    600,
    601,
    1 << 16,
    (1 << 16) + 1,
    WIDEST - 1,
    WIDEST,
    WIDEST + 1,
    (1 << 24) + 600,
    1 << 31,
    (1 << 31) + 600,
    u32::MAX - 599,
    u32::MAX - 1,
    u32::MAX,
];

/// Widths that random lists are made for.
const MADE_FOR: [u32; 10] = [1, 2, 3, 4, 7, 30, 600, 100_000, WIDEST - 1, WIDEST];

pub fn check(comparison: &mut Comparison) {
    by_hand(comparison);
    for shape in Shape::ALL {
        short_lists(comparison, shape);
        long_lists(comparison, shape);
    }
    many_in_few_ticks(comparison);
    lists_of_days(comparison);
    refused::check(comparison);
}

/// Asks both sides; "Every other stretch of w ticks holds at most as many."
fn ask(comparison: &mut Comparison, records: &[u8], width: u32) -> i64 {
    let (answer, _) = comparison.busiest_stretch(records, width);
    if answer >= 0 {
        let references = references(records).expect("an accepted list is read");
        if most_from_any_tick(&references, width) as i64 != answer {
            comparison.fail("another stretch holds more messages");
        }
    }
    answer
}

/// Asks by the width, those beside it and one more.
fn ask_around(comparison: &mut Comparison, records: &[u8], width: u32) {
    let another = comparison.random.pick(&WIDTHS);
    for width in [width - 1, width, width + 1, another] {
        ask(comparison, records, width);
    }
}

/// Lists with the answer that CR 7 gives them by hand: ticks, width, number and tick.
const BY_HAND: [(&[u32], u32, i64, u32); 16] = [
    (&[100, 699], 600, 2, 100),
    (&[100, 700], 600, 1, 100),
    (&[5, 5, 5], 1, 3, 5),
    (&[0], WIDEST, 1, 0),
    (&[LAST_TICK], WIDEST, 1, LAST_TICK),
    (&[0, LAST_TICK], WIDEST - 1, 1, 0),
    (&[0, LAST_TICK], WIDEST, 2, 0),
    // Ties: far apart, end to end, overlapping, a tick apart.
    (&[10, 50, 51, 90, 91], 10, 2, 50),
    (&[10, 20, 30], 10, 1, 10),
    (&[10, 15, 20, 25], 10, 2, 10),
    (&[10, 11, 12, 13], 3, 3, 10),
    // The earlier of two equal ones begins at equal ticks, or the later one does.
    (&[7, 7, 8, 30, 31, 32], 3, 3, 7),
    (&[7, 8, 9, 30, 30, 31], 3, 3, 7),
    // Most messages at one tick, but more in a stretch elsewhere.
    (&[4, 4, 4, 50, 52, 54, 56], 7, 4, 50),
    // A stretch from 3 on would hold as many, but no message is there.
    (&[0, 5, 6], 4, 2, 5),
    // Laid end to end from the first message or from tick 0, stretches miss it.
    (&[1, 9, 11, 12, 21], 10, 3, 9),
];

fn by_hand(comparison: &mut Comparison) {
    comparison.restart("busiest stretch, by hand", 1);
    for (ticks, width, number, first) in BY_HAND {
        let records = lists::records(ticks, &mut comparison.random);
        if comparison.busiest_stretch(&records, width) != (number, first) {
            comparison.fail(&format!("{ticks:?} by {width} isn't {number} from {first}"));
        }
    }
    for width in WIDTHS {
        ask(comparison, &[], width);
        let records = lists::records(&[LAST_TICK], &mut comparison.random);
        ask(comparison, &records, width);
    }
}

fn short_lists(comparison: &mut Comparison, shape: Shape) {
    for width in MADE_FOR {
        comparison.restart(&format!("busiest stretch, short lists, {shape:?}"), width.into());
        for _ in 0..300 {
            let length = comparison.random.place(14);
            let ticks = lists::ticks(shape, width, length, &mut comparison.random);
            let records = lists::records(&ticks, &mut comparison.random);
            ask_around(comparison, &records, width);
        }
    }
}

fn long_lists(comparison: &mut Comparison, shape: Shape) {
    for width in MADE_FOR {
        comparison.restart(&format!("busiest stretch, long lists, {shape:?}"), width.into());
        for length in [40, 260, 1_500] {
            let ticks = lists::ticks(shape, width, length, &mut comparison.random);
            let records = lists::records(&ticks, &mut comparison.random);
            ask_around(comparison, &records, width);
        }
    }
    comparison.restart(&format!("busiest stretch, thousands, {shape:?}"), 5);
    let ticks = lists::ticks(shape, 5, 4_000, &mut comparison.random);
    let records = lists::records(&ticks, &mut comparison.random);
    ask(comparison, &records, 5);
}

/// More messages in a tick than 8 or 16 bits count.
fn many_in_few_ticks(comparison: &mut Comparison) {
    comparison.restart("busiest stretch, many in few ticks", 1);
    for many in [256, 65_536] {
        let ticks: Vec<u32> = [(3, 2), (17, many), (18, 1), (900, many - 1)]
            .into_iter()
            .flat_map(|(tick, times)| std::iter::repeat_n(tick, times))
            .collect();
        let records = lists::records(&ticks, &mut comparison.random);
        for width in [1, 2, 900] {
            ask(comparison, &records, width);
        }
    }
}

/// What the engine gives for random days, Cancels and all, as one list and as what is
/// left of it from some message on.
fn lists_of_days(comparison: &mut Comparison) {
    let styles = [days::TRAINING, days::QUIET, days::LONG_STANDS, days::TRAFFIC, days::FLATBED];
    for (seed, style) in (1..).zip(styles) {
        comparison.restart("busiest stretch, messages of a day", seed);
        let records = lists::of_day(seed, style, 9_000);
        for width in WIDTHS {
            let messages = records.len() / MESSAGE_BYTES;
            let from = comparison.random.place(messages + 1);
            ask(comparison, &records[from * MESSAGE_BYTES..], width);
            if ask(comparison, &records, width) > 0 {
                comparison.tally.count(tally::DAY);
            }
        }
    }
}
