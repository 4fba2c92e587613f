//! How often each check of the busiest stretch (CR 7) refused a list, alone and before
//! others, and what was so of the stretches that were found.

use crate::reference::busiest::{counts, Stretch, WIDEST};
use crate::reference::{u32_at, Message, MESSAGE_BYTES};
use crate::tally::Tally;

mod found;

/// The refusals in CR 7's order.
const ORDER: [i32; 4] = [13, 14, 35, 36];

/// The fields of a record: their first place and their name.
const FIELDS: [(usize, &str); 15] = [
    (0, "kind"),
    (1, "warning"),
    (2, "sub cause"),
    (3, "cause"),
    (4, "quality"),
    (5, "roadType"),
    (6, "direction"),
    (7, "stationarySince"),
    (8, "event"),
    (12, "detection tick"),
    (16, "reference tick"),
    (20, "east"),
    (24, "north"),
    (28, "heading"),
    (30, "validity"),
];

/// Where the one damaged record stands, or the one fall.
const PLACES: [&str; 4] = ["the first", "one between", "the last", "the only"];

/// What is so of a list whose length is no multiple of 32.
const TORN: [&str; 3] = ["a byte", "a byte too few", "a byte too many"];

/// What is so of the one fall of a list.
const FALLS: [&str; 6] = [
    "by 1",
    "by over 65,536",
    "to above the first tick",
    "to below the first tick",
    "after which the list goes on above it",
    "from 9,999,999 to 0",
];

const WRONG_WIDTHS: [&str; 4] = ["0", "10,000,001", "over 10,000,001", "4,294,967,295"];

pub const DAY: &str = "busiest_stretch: the messages of an engine's day";
const LAST_RECORD_FIRST: &str =
    "busiest_stretch: 14 by the last record before 35 by the first pair";

fn alone(number: i32, what: &str) -> String {
    format!("busiest_stretch refused {number} alone: {what}")
}

/// The row of a record damaged in the field at this place.
pub fn damaged(at: usize) -> String {
    let (_, name) = FIELDS.into_iter().find(|(place, _)| *place == at).expect("a field's place");
    format!("busiest_stretch refused 14: {name}")
}

fn empty_list(width: &str) -> String {
    format!("busiest_stretch refused 36: {width}, an empty list")
}

/// The row of the refusals whose checks fail, the first of which is the answer.
fn refused(failing: &[i32]) -> String {
    let words: Vec<String> = failing.iter().map(i32::to_string).collect();
    match &words[..] {
        [number] => format!("busiest_stretch refused {number} alone"),
        _ => format!("busiest_stretch: {} before {}", words[0], words[1..].join(" and ")),
    }
}

pub fn declare(tally: &mut Tally) {
    for choice in 1..1 << ORDER.len() {
        let failing = (0..ORDER.len()).filter(|place| choice >> place & 1 != 0);
        tally.declare(refused(&failing.map(|place| ORDER[place]).collect::<Vec<_>>()));
    }
    let groups: [(i32, &[&str]); 5] =
        [(13, &TORN), (14, &PLACES), (35, &PLACES), (35, &FALLS), (36, &WRONG_WIDTHS)];
    for (number, rows) in groups {
        for row in rows {
            tally.declare(alone(number, row));
        }
    }
    for (at, _) in FIELDS {
        tally.declare(damaged(at));
    }
    for width in WRONG_WIDTHS {
        tally.declare(empty_list(width));
    }
    tally.declare(LAST_RECORD_FIRST);
    tally.declare(DAY);
    found::declare(tally);
}

/// The list's whole records, looked at by each check apart.
struct List<'a> {
    torn: usize,
    records: Vec<&'a [u8]>,
    references: Vec<u32>,
    /// The places of the records that 14 refuses, and of those below the one before.
    damaged: Vec<usize>,
    falls: Vec<usize>,
}

impl List<'_> {
    fn new(bytes: &[u8]) -> List<'_> {
        let records: Vec<&[u8]> = bytes.chunks_exact(MESSAGE_BYTES).collect();
        let references: Vec<u32> = records.iter().map(|record| u32_at(record, 16)).collect();
        let places = 0..records.len();
        let is_damaged = |&place: &usize| Message::from_record(records[place]).is_err();
        let is_below = |&place: &usize| place > 0 && references[place] < references[place - 1];
        List {
            torn: bytes.len() % MESSAGE_BYTES,
            damaged: places.clone().filter(is_damaged).collect(),
            falls: places.filter(is_below).collect(),
            records,
            references,
        }
    }

    fn failing(&self, width: u32) -> Vec<i32> {
        let fails = [
            self.torn != 0,
            !self.damaged.is_empty(),
            !self.falls.is_empty(),
            !(1..=WIDEST).contains(&width),
        ];
        ORDER.into_iter().zip(fails).filter(|(_, fails)| *fails).map(|(number, _)| number).collect()
    }
}

/// Counts the answer to a call with these records and this width; `first` is what then
/// stands where the tick goes.
pub fn answered(tally: &mut Tally, bytes: &[u8], width: u32, answer: i64, first: u32) {
    let list = List::new(bytes);
    let failing = list.failing(width);
    if failing.is_empty() {
        let found = Stretch { messages: answer as usize, first };
        let counts = counts(&list.references, width);
        found::answered(tally, &list.records, &list.references, &counts, width, found);
        return;
    }
    tally.count(&refused(&failing));
    match failing[..] {
        [13] => count_torn(tally, bytes.len()),
        [14] => count_places(tally, 14, &list.damaged, list.records.len()),
        [35] => count_fall(tally, &list),
        [36] => count_width(tally, width, bytes.is_empty()),
        _ => (),
    }
    let last = list.records.len().saturating_sub(1);
    let apart = list.torn == 0 && list.damaged == [last] && list.falls == [1] && last > 1;
    tally.count_if(apart, LAST_RECORD_FIRST);
}

fn count_torn(tally: &mut Tally, length: usize) {
    let torn = length % MESSAGE_BYTES;
    let occurred = [length == 1, torn == MESSAGE_BYTES - 1, torn == 1 && length > 1];
    for (occurred, what) in occurred.into_iter().zip(TORN) {
        tally.count_if(occurred, &alone(13, what));
    }
}

/// Counts where the one of these places lies, of so many.
fn count_places(tally: &mut Tally, number: i32, places: &[usize], of: usize) {
    let [place] = places else {
        return;
    };
    let what = match (*place, of - 1 - place) {
        (0, 0) => "the only",
        (0, _) => "the first",
        (_, 0) => "the last",
        _ => "one between",
    };
    tally.count(&alone(number, what));
}

fn count_fall(tally: &mut Tally, list: &List) {
    let [place] = list.falls[..] else {
        return;
    };
    count_places(tally, 35, &[place - 1], list.references.len() - 1);
    let ticks = &list.references;
    let (before, now) = (ticks[place - 1], ticks[place]);
    let occurred = [
        before - now == 1,
        before - now > 65_536,
        now > ticks[0],
        now < ticks[0],
        ticks.get(place + 1).is_some_and(|&next| next > before),
        (before, now) == (WIDEST - 1, 0),
    ];
    for (occurred, what) in occurred.into_iter().zip(FALLS) {
        tally.count_if(occurred, &alone(35, what));
    }
}

fn count_width(tally: &mut Tally, width: u32, is_empty: bool) {
    let occurred = [width == 0, width == WIDEST + 1, width > WIDEST + 1, width == u32::MAX];
    for (occurred, what) in occurred.into_iter().zip(WRONG_WIDTHS) {
        tally.count_if(occurred, &alone(36, what));
        tally.count_if(occurred && is_empty, &empty_list(what));
    }
}
