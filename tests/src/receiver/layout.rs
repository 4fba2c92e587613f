//! The header's table of a receiver's bytes and its numbers, held to the library.

use super::comparison::ReceiverComparison;
use super::lists::Call;
use super::scenes::{cancel, new, of_3, of_4, update};
use super::{
    memory, MOST_SENDERS, PLACE_BYTES, RECEIVER_BYTES, RECEIVER_LAYOUT, SHOWN_BYTES, SHOW_OUTPUT,
};
use crate::layout::{defined, header, Table};
use crate::reference::Message;
use crate::tally::Tally;

const SIZE_NAME: &str = "YOLDRIM_RECEIVER_BYTES";
const LAYOUT_NAME: &str = "YOLDRIM_RECEIVER_LAYOUT";
const AS_THE_TABLE: &str = "receiver with each byte where the header's table says";

/// The header's numbers for the receiver and the lamp.
const NUMBERS: [(&str, usize); 7] = [
    (SIZE_NAME, RECEIVER_BYTES),
    (LAYOUT_NAME, RECEIVER_LAYOUT as usize),
    ("YOLDRIM_SHOWN_BYTES", SHOWN_BYTES),
    ("YOLDRIM_SHOW_OUT_BYTES", SHOW_OUTPUT),
    ("YOLDRIM_LAMP_UNKNOWN", 0),
    ("YOLDRIM_LAMP_STANDING", 1),
    ("YOLDRIM_LAMP_SECONDS", 2),
];

pub fn declare(tally: &mut Tally) {
    tally.declare(AS_THE_TABLE);
}

pub fn check(comparison: &mut ReceiverComparison) {
    comparison.restart("the header's table of a receiver", 1);
    let table = match read() {
        Ok(table) => table,
        Err(what) => comparison.fail(&what),
    };
    as_the_table(comparison, &table, 0, &[]);
    calls_by_hand(comparison, &table);
    other_layouts(comparison);
}

/// The header's table, if its numbers are those that the second implementation has.
fn read() -> Result<Table, String> {
    let header = header()?;
    for (name, number) in NUMBERS {
        let found = defined(&header, name)?;
        if found != number {
            return Err(format!("{name} is {found} in the header, not {number}"));
        }
    }
    Table::read(SIZE_NAME, LAYOUT_NAME)
}

/// One place of a receiver: a sender, an arrival and a message.
type Place = (u32, u32, Message);

/// Holds the library's receiver to the table: the last accepted tick, and what is
/// in the first places.
fn as_the_table(comparison: &mut ReceiverComparison, table: &Table, tick: u32, taken: &[Place]) {
    let bytes = |(sender, arrival, message): &Place| {
        let numbers = [sender.to_le_bytes(), arrival.to_le_bytes()].concat();
        [&numbers[..], &message.record()].concat()
    };
    let mut places: Vec<u8> = taken.iter().flat_map(bytes).collect();
    places.resize(MOST_SENDERS * PLACE_BYTES, 0);
    let kept = [
        (LAYOUT_NAME, vec![table.layout]),
        ("zeros", vec![0; 3]),
        ("last accepted tick", tick.to_le_bytes().to_vec()),
        ("eight places of 40 bytes", places),
    ];
    for (words, bytes) in &kept {
        if let Err(what) = table.holds(&comparison.image(), words, bytes) {
            comparison.fail(&what);
        }
    }
    if table.rows() != kept.len() {
        comparison.fail(&format!("{} rows, {} of them known", table.rows(), kept.len()));
    }
    comparison.tally.count(AS_THE_TABLE);
}

/// Calls whose places are written by hand: in the order of senders, without what has
/// lapsed, with the Cancels; a refused call changes none.
fn calls_by_hand(c: &mut ReceiverComparison, table: &Table) {
    c.receive(0x0102_0304, 9, &of_4(new(7, 60)).record());
    as_the_table(c, table, 0x0102_0304, &[(9, 0x0102_0304, of_4(new(7, 60)))]);
    c.receive(0x0102_0310, 0xFFEE_DDCC, &new(5, 40).record());
    c.receive(0x0102_0311, 0, &of_3(cancel(6, 50)).record());
    let cancelled = (0, 0x0102_0311, of_3(cancel(6, 50)));
    let high = (0xFFEE_DDCC, 0x0102_0310, new(5, 40));
    let all = [cancelled, (9, 0x0102_0304, of_4(new(7, 60))), high];
    as_the_table(c, table, 0x0102_0311, &all);
    c.receive(0x0102_0318, 0, &of_3(cancel(6, 50)).record());
    as_the_table(c, table, 0x0102_0311, &all);
    c.receive(0x0102_0318, 0, &update(6, 51).record());
    as_the_table(c, table, 0x0102_0318, &[(0, 0x0102_0318, update(6, 51)), high]);
    c.receive(u32::MAX, 0x8000_0000, &new(1, 1).record());
    as_the_table(c, table, u32::MAX, &[(0x8000_0000, u32::MAX, new(1, 1))]);
}

/// "a receiver of another layout is refused with 21": the present one, with every
/// other first byte, and memory of zeros.
fn other_layouts(c: &mut ReceiverComparison) {
    let message = new(1, 2).record().to_vec();
    let receive = Call::Receive { tick: u32::MAX, sender: 1, message };
    for first in (0..=u8::MAX).filter(|&first| first != RECEIVER_LAYOUT) {
        let mut bytes = c.image();
        bytes[0] = first;
        memory::called(c, &bytes, &receive);
        memory::called(c, &bytes, &Call::Show(SHOW_OUTPUT));
    }
    memory::called(c, &[0; RECEIVER_BYTES], &receive);
    memory::called(c, &[0; RECEIVER_BYTES], &Call::Show(SHOW_OUTPUT));
}
