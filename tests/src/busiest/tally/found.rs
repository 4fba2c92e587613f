//! What was so of the lists that were accepted and of their busiest stretch.

use crate::reference::busiest::{messages_from, Stretch, WIDEST};
use crate::reference::{kind, u32_at};
use crate::tally::Tally;

/// What is so of a list, whatever the stretch.
const LISTS: [&str; 6] = [
    "an empty list",
    "one message",
    "two messages",
    "over 1,000 messages",
    "equal ticks next to each other",
    "all in one tick",
];

const WIDTHS: [u32; 7] = [1, 2, 599, 600, 601, WIDEST - 1, WIDEST];

/// Where the busiest stretch lies.
const LIES: [&str; 9] = [
    "at the list's start",
    "in its middle",
    "at its end",
    "over all of several messages",
    "from tick 0",
    "from tick 9,999,999",
    "past the last tick",
    "with a message at its last tick",
    "with a message one tick after it",
];

/// What is so of the number of messages in it.
const NUMBERS: [&str; 8] = [
    "several at its first tick",
    "all of several at its first tick, others elsewhere",
    "several at its last tick",
    "more at another tick than at any of it",
    "more than from any multiple of the width",
    "more than in stretches end to end from the first message",
    "over 255 messages",
    "over 65,535 messages",
];

/// What is so of a message from whose tick as many lie in a stretch.
const TIES: [&str; 7] = [
    "begins one tick later",
    "overlaps",
    "begins where the busiest ends",
    "is far apart",
    "is behind one with several at its first tick",
    "has several at its first tick",
    "has more at its first tick",
];

const TIES_OF_THREE: &str = "busiest_stretch: three stretches or more with as many";
const EARLIER: &str = "busiest_stretch: as many from an earlier tick that is no message's";
const CANCEL: &str = "busiest_stretch: a Cancel in it";
const BY_DETECTION: &str = "busiest_stretch: another one by detection ticks";

fn list(what: &str) -> String {
    format!("busiest_stretch accepted: {what}")
}

fn by_width(width: u32) -> String {
    format!("busiest_stretch accepted: width {width}")
}

fn lies(what: &str) -> String {
    format!("busiest_stretch: lies {what}")
}

fn number(what: &str) -> String {
    format!("busiest_stretch: {what}")
}

fn tie(what: &str) -> String {
    format!("busiest_stretch: a later stretch with as many {what}")
}

pub fn declare(tally: &mut Tally) {
    let mut all = |rows: &[&str], named: fn(&str) -> String| {
        rows.iter().for_each(|row| tally.declare(named(row)));
    };
    all(&LISTS, list);
    all(&LIES, lies);
    all(&NUMBERS, number);
    all(&TIES, tie);
    for width in WIDTHS {
        tally.declare(by_width(width));
    }
    for row in [TIES_OF_THREE, EARLIER, CANCEL, BY_DETECTION] {
        tally.declare(row);
    }
}

/// Counts each of the rows that occurred.
fn count_all<const N: usize>(
    tally: &mut Tally,
    occurred: [bool; N],
    rows: [&str; N],
    named: fn(&str) -> String,
) {
    for (occurred, row) in occurred.into_iter().zip(rows) {
        if occurred {
            tally.count(&named(row));
        }
    }
}

/// `counts` are the messages in the stretch from each message's tick on.
pub fn answered(
    tally: &mut Tally,
    records: &[&[u8]],
    ticks: &[u32],
    counts: &[Stretch],
    width: u32,
    found: Stretch,
) {
    let n = ticks.len();
    let equal = ticks.windows(2).any(|pair| pair[0] == pair[1]);
    let one_tick = n > 1 && ticks[0] == ticks[n - 1];
    count_all(tally, [n == 0, n == 1, n == 2, n > 1_000, equal, one_tick], LISTS, list);
    if WIDTHS.contains(&width) {
        tally.count(&by_width(width));
    }
    if n > 0 {
        let busiest = Busiest { records, ticks, counts, width, found };
        busiest.count_place(tally);
        busiest.count_number(tally);
        busiest.count_ties(tally);
        busiest.count_cancels(tally);
    }
}

/// An accepted list that isn't empty, and what was found.
struct Busiest<'a> {
    records: &'a [&'a [u8]],
    ticks: &'a [u32],
    counts: &'a [Stretch],
    width: u32,
    found: Stretch,
}

impl Busiest<'_> {
    /// How many messages have this tick.
    fn at(&self, tick: u32) -> usize {
        messages_from(tick, 1, self.ticks)
    }

    /// The tick right after the stretch.
    fn end(&self) -> u32 {
        self.found.first + self.width
    }

    /// The ticks of the messages in it.
    fn inside(&self) -> &[u32] {
        let from = self.ticks.iter().position(|&tick| tick == self.found.first);
        &self.ticks[from.expect("the first tick is a message's")..][..self.found.messages]
    }

    fn count_place(&self, tally: &mut Tally) {
        let (Stretch { messages, first }, inside) = (self.found, self.inside());
        let last = inside[messages - 1];
        let all = messages == self.ticks.len();
        let (starts, ends) = (first == self.ticks[0], last == self.ticks[self.ticks.len() - 1]);
        let occurred = [
            starts && !all,
            !starts && !ends,
            ends && !all,
            all && messages > 1,
            first == 0,
            first == WIDEST - 1,
            self.end() > WIDEST,
            self.width > 1 && last == self.end() - 1,
            self.at(self.end()) > 0,
        ];
        count_all(tally, occurred, LIES, lies);
    }

    fn count_number(&self, tally: &mut Tally) {
        let (Stretch { messages, first }, inside) = (self.found, self.inside());
        let last = inside[messages - 1];
        let most_at_one = |ticks: &[u32]| {
            let same = ticks.chunk_by(|a, b| a == b);
            same.map(<[u32]>::len).max().unwrap_or(0)
        };
        let at_first = self.at(first);
        let occurred = [
            at_first > 1,
            messages > 1 && at_first == messages && messages < self.ticks.len(),
            last > first && self.at(last) > 1,
            most_at_one(self.ticks) > most_at_one(inside),
            self.most_on_a_grid() < messages,
            self.most_end_to_end() < messages,
            messages > 255,
            messages > 65_535,
        ];
        count_all(tally, occurred, NUMBERS, number);
    }

    /// The largest number in a stretch that begins at a multiple of the width.
    fn most_on_a_grid(&self) -> usize {
        let same = self.ticks.chunk_by(|a, b| a / self.width == b / self.width);
        same.map(<[u32]>::len).max().unwrap_or(0)
    }

    /// The largest number where each stretch begins at the first message after the one
    /// before.
    fn most_end_to_end(&self) -> usize {
        let (mut rest, mut most) = (self.ticks, 0);
        while let [first, ..] = rest {
            let inside = rest.iter().take_while(|&&tick| tick - first < self.width).count();
            most = most.max(inside);
            rest = &rest[inside..];
        }
        most
    }

    fn count_ties(&self, tally: &mut Tally) {
        let Stretch { messages, first } = self.found;
        let tied = |stretch: &&Stretch| stretch.messages == messages && stretch.first != first;
        let later: Vec<u32> = self.counts.iter().filter(tied).map(|s| s.first).collect();
        let at_first = self.at(first);
        let any = |holds: &dyn Fn(u32) -> bool| later.iter().any(|&tick| holds(tick));
        let occurred = [
            any(&|tick| tick == first + 1),
            any(&|tick| tick < self.end()),
            any(&|tick| tick == self.end()),
            any(&|tick| tick > self.end()),
            any(&|_| at_first > 1),
            any(&|tick| self.at(tick) > 1),
            any(&|tick| self.at(tick) > at_first),
        ];
        count_all(tally, occurred, TIES, tie);
        tally.count_if(later.len() > 1, TIES_OF_THREE);
        let last = self.inside()[messages - 1];
        let earlier = first > 0 && self.at(first - 1) == 0 && last < self.end() - 1;
        tally.count_if(earlier, EARLIER);
    }

    fn count_cancels(&self, tally: &mut Tally) {
        let from = self.ticks.iter().position(|&tick| tick == self.found.first).unwrap_or(0);
        let inside = &self.records[from..from + self.found.messages];
        tally.count_if(inside.iter().any(|record| record[0] == kind::CANCEL), CANCEL);
        if self.records.len() > 300 {
            return;
        }
        // By detection ticks, in whatever order they come.
        let ticks: Vec<u32> = self.records.iter().map(|record| u32_at(record, 12)).collect();
        let counts = crate::reference::busiest::counts(&ticks, self.width);
        let most = counts.iter().map(|stretch| stretch.messages).max();
        let first = counts.iter().find(|stretch| Some(stretch.messages) == most);
        tally.count_if(first != Some(&self.found), BY_DETECTION);
    }
}
