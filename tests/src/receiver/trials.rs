//! All that is tried on the library's receiver and lamp.

use super::comparison::ReceiverComparison;
use super::lists::{self, Call, List, Style};
use super::scenes;
use super::{lamp, layout, memory, tally, MOST_SENDERS, RECEIVER_BYTES, SHOW_OUTPUT};
use crate::faults::{self, Trial};
use crate::reference::{Message, MESSAGE_BYTES};
use crate::tally::Tally;

const SEED: u64 = 0x04;

/// Lists of each style in a run, and how many more with each round.
const LISTS: u64 = 150;
const LISTS_A_ROUND: u64 = 1;

/// Compares the receiver and the lamp; ends the run at a difference.
pub fn compare(rounds: u64) -> ReceiverComparison {
    let mut tally = Tally::default();
    tally::declare(&mut tally);
    memory::declare(&mut tally);
    layout::declare(&mut tally);
    lamp::declare(&mut tally);
    let mut comparison = ReceiverComparison::new(tally);
    let c = &mut comparison;
    scenes_by_hand(c);
    layout::check(c);
    message_faults(c);
    other_lengths(c);
    flipped_bits(c);
    for (place, style) in lists::ALL.into_iter().enumerate() {
        random_lists(c, place as u64, style, LISTS + LISTS_A_ROUND * rounds);
    }
    lamp::check(c);
    comparison
}

/// The answers of both sides are those written by hand.
fn scenes_by_hand(comparison: &mut ReceiverComparison) {
    for scene in scenes::all() {
        comparison.restart(scene.name, SEED);
        if let Err(what) = scene.run(comparison) {
            comparison.fail(&what);
        }
    }
}

// --------------------------------------------------------------- bad messages

/// What else is due when a damaged message comes.
#[derive(Clone, Copy, Debug)]
enum Due {
    Nothing,
    Refusal31,
    Refusal32,
    Refusal33,
}

/// Puts a receiver in place at which a call with this message, from the tick and
/// sender given back, has that due.
fn put_in_place(c: &mut ReceiverComparison, due: Due, message: &Message) -> (u32, u32) {
    const TICK: u32 = 1_000;
    c.empty();
    match due {
        Due::Nothing => (TICK, 0),
        Due::Refusal31 => {
            c.receive(TICK, 1, &message.record());
            (TICK - 1, 0)
        }
        Due::Refusal32 => {
            c.receive(TICK, 0, &message.record());
            (TICK, 0)
        }
        Due::Refusal33 => {
            for sender in 1..=MOST_SENDERS as u32 {
                c.receive(TICK, sender, &message.record());
            }
            (TICK, 0)
        }
    }
}

/// A New, an Update and a Cancel of different warnings with each change alone and
/// each pair of changes, whatever else is due.
fn message_faults(c: &mut ReceiverComparison) {
    for message in faults::good_messages().into_iter().step_by(5) {
        for due in [Due::Nothing, Due::Refusal31, Due::Refusal32, Due::Refusal33] {
            c.restart(&format!("message faults, due: {due:?}"), SEED);
            faults_alone_and_in_pairs(c, due, &message);
        }
    }
}

fn faults_alone_and_in_pairs(c: &mut ReceiverComparison, due: Due, message: &Message) {
    let changes = faults::of_message();
    let good = Trial::new(&message.record(), 0);
    let pair = |first| (first..changes.len()).map(move |second| [first, second]);
    let (mut tick, mut sender) = put_in_place(c, due, message);
    for places in (0..changes.len()).flat_map(pair) {
        let trial = good.changed(&places.map(|place| changes[place]), false);
        if c.receive(tick, sender, &trial.input) > 0 {
            (tick, sender) = put_in_place(c, due, message);
        }
    }
}

// -------------------------------------------------------------- other memory

/// A receiver with all that a place may hold: each kind of each warning, as many
/// as there is room for, from low and high senders.
fn put_eight_in_place(c: &mut ReceiverComparison, first: usize) {
    c.empty();
    let messages = faults::good_messages();
    for place in 0..MOST_SENDERS {
        let message = messages[(first + place) % messages.len()];
        let sender = (place as u32).wrapping_sub(3) << 13;
        c.receive(1_000 + place as u32 / 3, sender, &message.record());
    }
}

/// Calls that are made on memory which is not the list's: good ones, and ones with
/// a message or an output that is refused by itself.
fn calls_on_memory() -> Vec<Call> {
    let good = faults::good_messages()[1];
    let newer = Message { event: 18, ..good };
    let bad = Message { cause: 95, ..good };
    let receive = |tick, sender, message: &[u8]| {
        let message = message.to_vec();
        Call::Receive { tick, sender, message }
    };
    vec![
        receive(1_003, 5, &newer.record()),
        receive(1_301, 5, &newer.record()),
        receive(1_003, 0, &newer.record()),
        receive(1_003, 5, &newer.record()[..MESSAGE_BYTES - 1]),
        receive(1_003, 5, &bad.record()),
        Call::Show(SHOW_OUTPUT),
        Call::Show(SHOW_OUTPUT - 1),
        Call::Show(400),
    ]
}

/// Memory of another length, of which the receiver's bytes are a part or which is a
/// part of them.
fn other_lengths(c: &mut ReceiverComparison) {
    c.restart("receivers of another length", SEED);
    let lengths = [0, 1, 4, 8, 36, 48, 288, RECEIVER_BYTES - 1, RECEIVER_BYTES + 1, 656];
    for length in lengths {
        memory::emptied(c, length);
        for first in 0..faults::good_messages().len() {
            put_eight_in_place(c, first);
            let mut bytes = c.image().to_vec();
            bytes.resize(length, 0);
            for call in calls_on_memory() {
                memory::called(c, &bytes, &call);
            }
        }
    }
}

/// Every single bit flipped of an empty receiver, of one with three places taken,
/// and of full ones.
fn flipped_bits(c: &mut ReceiverComparison) {
    c.restart("flipped bits of a receiver", SEED);
    let mut images = vec![c.image()];
    for message in &faults::good_messages()[4..7] {
        c.receive(1_000, message.warning.into(), &message.record());
    }
    images.push(c.image());
    for first in [0, 5] {
        put_eight_in_place(c, first);
        images.push(c.image());
    }
    let calls = calls_on_memory();
    for (image, bit) in images.iter().flat_map(|i| (0..RECEIVER_BYTES * 8).map(move |b| (i, b))) {
        let mut bytes = image.to_vec();
        bytes[bit / 8] ^= 1 << (bit % 8);
        for call in &calls {
            memory::called(c, &bytes, call);
        }
    }
}

// --------------------------------------------------------------- random lists

fn random_lists(c: &mut ReceiverComparison, style_number: u64, style: Style, lists: u64) {
    for list in 0..lists {
        let seed = SEED + 1_000_000 * style_number + list;
        c.restart(&format!("random list of style {style_number}"), seed);
        random_list(c, &mut List::new(seed, style));
    }
}

/// A list on both sides, with calls on damaged copies of its receiver between. Now
/// and then a copy takes the receiver's place, as it holds no pointer.
fn random_list(c: &mut ReceiverComparison, list: &mut List) {
    for _ in 0..c.random.between(50, 400) {
        if c.random.one_in(16) {
            let call = list.next_call(&c.reference);
            let bytes = list.damage(&c.image());
            memory::called(c, &bytes, &call);
        }
        if c.random.one_in(50) {
            c.lend_a_copy();
        }
        match list.next_call(&c.reference) {
            Call::Receive { tick, sender, message } => {
                c.receive(tick, sender, &message);
            }
            Call::Show(length) => {
                c.show(length);
            }
        }
    }
}
