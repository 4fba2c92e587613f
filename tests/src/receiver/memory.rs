//! Memory that a receiver's calls did not leave so: of another length or layout,
//! or damaged. "Memory that is no receiver's is refused with 21"; where a list of
//! calls reaches it all the same, the answers are that list's; "a receiver that no
//! such list reaches is left free".

use super::comparison::{Lent, ReceiverComparison};
use super::lists::Call;
use super::{no_receiver, Receiver, MOST_SENDERS, RECEIVER_BYTES, SHOWN_BYTES, SHOW_OUTPUT};
use crate::ffi;
use crate::reference::{Message, Refusal};
use crate::tally::Tally;

/// Why memory is no receiver's, as `no_receiver` has it.
const WHY: [&str; 6] =
    ["another length", "another layout", "bytes 1 to 3", "a sub cause", "a cause", "a direction"];

pub fn declare(tally: &mut Tally) {
    tally.declare("receiver_empty refused 21");
    for call in ["receive", "show"] {
        for why in WHY {
            tally.declare(format!("{call} refused 21, {why}"));
        }
        tally.declare(format!("{call} on damaged memory that a list of calls reaches"));
        tally.declare(format!("{call} on damaged memory that no list of calls reaches"));
    }
    tally.declare("receive refused 21, 13 due too");
    tally.declare("receive refused 21, 14 due too");
    tally.declare("show refused 21, 2 due too");
}

/// What memory holds.
enum Holds {
    NoReceiver(&'static str),
    Reached(Receiver),
    Free,
}

fn holds(memory: &[u8]) -> Holds {
    if let Some(why) = no_receiver(memory) {
        return Holds::NoReceiver(why);
    }
    let image = memory.try_into().expect("as long as a receiver");
    Receiver::of_image(image).map_or(Holds::Free, Holds::Reached)
}

/// `yoldrim_receiver_empty` on memory of another length, longer or shorter.
pub fn emptied(comparison: &mut ReceiverComparison, length: usize) {
    let mut memory = Lent::any(length, &mut comparison.random);
    let answer = ffi::receiver_empty(memory.bytes_mut());
    if answer != -21 || !memory.as_lent() {
        comparison.fail(&format!("receiver_empty with {length} bytes: {answer}"));
    }
    comparison.calls += 1;
    comparison.tally.count("receiver_empty refused 21");
}

/// One call on memory of this content.
pub fn called(comparison: &mut ReceiverComparison, bytes: &[u8], call: &Call) {
    match call {
        Call::Receive { tick, sender, message } => {
            receive(comparison, bytes, *tick, *sender, message);
        }
        Call::Show(length) => show(comparison, bytes, *length),
    }
    comparison.calls += 1;
}

fn receive(c: &mut ReceiverComparison, bytes: &[u8], tick: u32, sender: u32, message: &[u8]) {
    let mut memory = Lent::new(bytes, &mut c.random);
    let answer = ffi::receive(memory.bytes_mut(), tick, sender, message);
    let bad = Message::from_record(message).err();
    let as_it_should = match holds(bytes) {
        Holds::NoReceiver(why) => {
            c.tally.count(&format!("receive refused 21, {why}"));
            if let Some(Refusal(number)) = bad {
                c.tally.count(&format!("receive refused 21, {number} due too"));
            }
            answer == -21 && memory.as_lent()
        }
        Holds::Reached(mut receiver) => {
            c.tally.count("receive on damaged memory that a list of calls reaches");
            let wanted = receiver.receive(tick, sender, message);
            let as_lent = memory.as_lent_beyond(RECEIVER_BYTES);
            answer == wanted && memory.bytes() == receiver.image() && as_lent
        }
        Holds::Free => {
            c.tally.count("receive on damaged memory that no list of calls reaches");
            let of_message = bad.map_or(vec![1, -31, -32, -33], |Refusal(n)| vec![-n]);
            let as_lent = memory.as_lent_beyond(if answer < 0 { 0 } else { RECEIVER_BYTES });
            as_lent && (answer == -21 || of_message.contains(&answer))
        }
    };
    if !as_it_should {
        c.fail(&format!(
            "receive on memory {bytes:?}, tick {tick}, sender {sender}, message {message:?}: \
             {answer}, then {:?}",
            memory.bytes()
        ));
    }
}

fn show(c: &mut ReceiverComparison, bytes: &[u8], length: usize) {
    let memory = Lent::new(bytes, &mut c.random);
    let mut out = Lent::any(length, &mut c.random);
    let mut expected = out.bytes().to_vec();
    let answer = ffi::show(memory.bytes(), out.bytes_mut());
    let short = length < SHOW_OUTPUT;
    let as_it_should = match holds(bytes) {
        Holds::NoReceiver(why) => {
            c.tally.count(&format!("show refused 21, {why}"));
            c.tally.count_if(short, "show refused 21, 2 due too");
            answer == -21 && out.as_lent()
        }
        Holds::Reached(receiver) => {
            c.tally.count("show on damaged memory that a list of calls reaches");
            let wanted = receiver.show(&mut expected);
            answer == wanted && out.bytes() == expected && out.as_lent_beyond(length)
        }
        Holds::Free => {
            c.tally.count("show on damaged memory that no list of calls reaches");
            let most = if short { -1 } else { MOST_SENDERS as i32 };
            let refused = answer == -21 || (short && answer == -2);
            let written = answer.max(0) as usize * SHOWN_BYTES;
            (refused || (0..=most).contains(&answer)) && out.as_lent_beyond(written)
        }
    };
    if !as_it_should || !memory.as_lent() {
        c.fail(&format!(
            "show on memory {bytes:?} with {length} bytes: {answer}, {:?}",
            out.bytes()
        ));
    }
}
