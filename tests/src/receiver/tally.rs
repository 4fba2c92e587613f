//! How often each answer, each way to lapse and each way to be held occurred in
//! the receiver's calls. As in the engine's tally no row may be 0.

use super::{held_at, last_of, newer, Accepted, Receiver, MOST_SENDERS, SHOWN_BYTES};
use crate::reference::{kind, u32_at, Message, BY_RANK, UNRESPONSIVE_DRIVER};
use crate::tally::{Tally, KINDS};
use std::cmp::Ordering;

/// One call that brought a tick, a sender and a message, and its answer.
pub struct Received {
    pub tick: u32,
    pub sender: u32,
    pub message: Vec<u8>,
    pub answer: i32,
}

/// What the tally looks at: the calls before one on a receiver that was empty,
/// and which of them were accepted.
pub struct Before<'a> {
    pub received: &'a [Received],
    pub accepted: &'a [Accepted],
}

/// Numbers of senders at the bounds, by the names that their rows have.
const BOUNDS: [(u32, &str); 4] =
    [(0, "0"), (0x7FFF_FFFF, "2^31 - 1"), (0x8000_0000, "2^31"), (u32::MAX, "2^32 - 1")];

const VALIDITIES: [u16; 3] = [2, 30, 180];

/// The refusals of a message but 31, at which the tick is too low.
const NOT_31: [i32; 4] = [13, 14, 32, 33];

const COMPARED: [&str; 3] = ["lower", "equal", "higher"];

fn compared<T: Ord>(one: T, other: T) -> &'static str {
    match one.cmp(&other) {
        Ordering::Less => COMPARED[0],
        Ordering::Equal => COMPARED[1],
        Ordering::Greater => COMPARED[2],
    }
}

const WHEN: [&str; 3] = ["at the very tick", "a tick later", "later"];

/// When a lapsed message is first found so.
fn when(call: &Accepted, tick: u32) -> &'static str {
    WHEN[(u64::from(tick) - call.lapse()).min(2) as usize]
}

// ------------------------------------------------------------------- the rows

pub fn declare(tally: &mut Tally) {
    declare_refusals(tally);
    declare_accepted(tally);
    declare_lapses(tally);
    declare_shows(tally);
}

fn declare_refusals(tally: &mut Tally) {
    for number in [13, 14] {
        tally.declare(format!("receive refused {number}"));
        for later in [31, 32, 33] {
            tally.declare(format!("receive refused {number}, {later} due too"));
        }
    }
    for row in ["", ", a tick below", ", more than 2^31 below", ", 32 due too", ", 33 due too"] {
        tally.declare(format!("receive refused 31{row}"));
    }
    tally.declare("receive refused 32");
    for reference in COMPARED {
        tally.declare(format!("receive refused 32, event lower, reference {reference}"));
    }
    for reference in &COMPARED[..2] {
        tally.declare(format!("receive refused 32, event equal, reference {reference}"));
    }
    for row in [
        ", the same record",
        ", a Cancel at its New's reference tick",
        ", a Cancel held",
        ", past the last accepted tick",
        ", a tick before the message held lapses",
        ", held past the clock's end",
        ", eight held",
    ] {
        tally.declare(format!("receive refused 32{row}"));
    }
    for row in [
        "",
        ", past the last accepted tick",
        ", a tick before one of the eight lapses",
        ", Cancels among the eight",
        ", eight Cancels",
        ", its own message lapsed",
        ", held past the clock's end",
    ] {
        tally.declare(format!("receive refused 33{row}"));
    }
}

fn declare_accepted(tally: &mut Tally) {
    tally.declare("receive accepted");
    tally.declare("receive accepted, first, at tick 0");
    tally.declare("receive accepted, first, at a later tick");
    tally.declare("receive accepted, at the last accepted tick");
    tally.declare("receive accepted, at tick 2^32 - 1");
    for (_, name) in BOUNDS {
        tally.declare(format!("receive accepted, sender {name}"));
    }
    for (place, name) in KINDS.iter().enumerate() {
        tally.declare(format!("receive accepted, {name} first of its sender"));
        for warning in BY_RANK {
            let exists = warning != UNRESPONSIVE_DRIVER || place + 1 != usize::from(kind::CANCEL);
            if exists {
                tally.declare(format!("receive accepted, {name} of {warning}"));
            }
        }
    }
    for number in NOT_31 {
        tally.declare(format!("receive accepted, at a tick below that of a refusal {number}"));
    }
    for reference in COMPARED {
        tally.declare(format!("receive accepted, newer: event higher, reference {reference}"));
    }
    tally.declare("receive accepted, newer: event equal, reference higher");
    for validity in COMPARED {
        tally.declare(format!("receive accepted, newer: validity {validity}"));
    }
    tally.declare("receive accepted, newer: a Cancel for another kind");
    tally.declare("receive accepted, newer: another kind for a Cancel");
    for place in ["alone", "below all others", "between others", "above all others"] {
        tally.declare(format!("receive accepted, not held before: {place}"));
    }
    for held in 1..=MOST_SENDERS {
        tally.declare(format!("held after an accepted call: {held}"));
    }
}

fn declare_lapses(tally: &mut Tally) {
    for kind in ["a Cancel", "another kind"] {
        for then in ["found", "then a ninth sender,"] {
            for when in WHEN {
                tally.declare(format!("lapse, {kind}: {then} {when}"));
            }
        }
    }
    for when in WHEN {
        tally.declare(format!("lapse: then the same sender, {when}"));
    }
    for validity in VALIDITIES {
        tally.declare(format!("lapse: validity {validity}"));
        tally.declare(format!("no lapse: validity {validity}, an accepted call a tick before it"));
    }
    for row in [
        "then the same sender's older event",
        "then the same sender's event, reference lower",
        "then the same record",
        "then the same sender's newer message",
        "a Cancel, then a late New of its event",
        "a repeat was refused meanwhile",
        "what the message replaced would not have lapsed yet",
        "several at one call",
        "all that is held but the new message",
    ] {
        tally.declare(format!("lapse: {row}"));
    }
}

fn declare_shows(tally: &mut Tally) {
    tally.declare("show refused 2");
    tally.declare("show refused 2, nothing held");
    tally.declare("show refused 2, room for all that is held");
    for messages in 0..=MOST_SENDERS {
        tally.declare(format!("show gave {messages} messages"));
    }
    for row in [
        "with 288 bytes of output",
        "with more output",
        "before the first accepted call",
        "a Cancel held",
        "Cancels alone held",
        "eight Cancels held",
        "senders on both sides of 2^31",
        "by rising sender, not by arrival",
        "one lapsed at the last accepted tick itself",
        "one lapses at the next tick",
        "one had lapsed by a refused call's tick",
        "one is held past the clock's end",
    ] {
        tally.declare(format!("show: {row}"));
    }
}

// --------------------------------------------------------------- what occurred

/// Counts what occurred at a call that brought a tick, a sender and a message.
pub fn received(tally: &mut Tally, before: &Before, call: &Received) {
    if call.answer < 0 {
        tally.count(&format!("receive refused {}", -call.answer));
    }
    match -call.answer {
        number @ (13 | 14) => bad_message(tally, before, call, number),
        31 => below_the_clock(tally, before, call),
        32 => no_newer(tally, before, call),
        33 => ninth_sender(tally, before, call),
        _ => accepted(tally, before, call),
    }
}

/// The tick of the last accepted call.
fn last_tick(before: &Before) -> Option<u32> {
    before.accepted.last().map(|last| last.tick)
}

/// What is held at a tick of the call's own sender and of the others.
fn own_and_others<'a>(
    before: &Before<'a>,
    call: &Received,
    tick: u32,
) -> (Option<&'a Accepted>, Vec<&'a Accepted>) {
    let held = held_at(before.accepted, tick);
    let own = held.iter().find(|h| h.sender == call.sender).copied();
    (own, held.into_iter().filter(|h| h.sender != call.sender).collect())
}

/// By the bytes in their places, as the message is not a good one.
fn bad_message(tally: &mut Tally, before: &Before, call: &Received, number: i32) {
    let (own, others) = own_and_others(before, call, call.tick);
    let word = |at| call.message.get(at..at + 4).map(|bytes| u32_at(bytes, 0));
    let no_newer = |own: &Accepted| {
        let held = (Some(own.message.event), Some(own.message.reference));
        call.message.len() >= 20 && (word(8), word(16)) <= held
    };
    let low = last_tick(before).is_some_and(|last| call.tick < last);
    let row = |later: i32| format!("receive refused {number}, {later} due too");
    tally.count_if(low, &row(31));
    tally.count_if(!low && own.is_some_and(no_newer), &row(32));
    tally.count_if(!low && others.len() >= MOST_SENDERS, &row(33));
}

/// The message of a call that was not refused with 13 or 14.
fn message_of(call: &Received) -> Message {
    Message::from_record(&call.message).expect("a good message")
}

fn below_the_clock(tally: &mut Tally, before: &Before, call: &Received) {
    let last = last_tick(before).expect("31 needs an accepted call");
    let below = last - call.tick;
    tally.count_if(below == 1, "receive refused 31, a tick below");
    tally.count_if(below > 1 << 31, "receive refused 31, more than 2^31 below");
    let (own, others) = own_and_others(before, call, last);
    let message = message_of(call);
    let repeats = own.is_some_and(|own| !newer(&message, &own.message));
    tally.count_if(repeats, "receive refused 31, 32 due too");
    tally.count_if(others.len() == MOST_SENDERS, "receive refused 31, 33 due too");
}

fn no_newer(tally: &mut Tally, before: &Before, call: &Received) {
    let row = |what: &str| format!("receive refused 32, {what}");
    let own = last_of(before.accepted, call.sender).expect("32 needs a message held");
    let message = message_of(call);
    let event = compared(message.event, own.message.event);
    let reference = compared(message.reference, own.message.reference);
    let cancel = message.kind == kind::CANCEL;
    let equal = (event, reference) == (COMPARED[1], COMPARED[1]);
    tally.count(&row(&format!("event {event}, reference {reference}")));
    tally.count_if(call.message == own.record, &row("the same record"));
    let cancelled = equal && cancel && !own.is_cancel();
    tally.count_if(cancelled, &row("a Cancel at its New's reference tick"));
    tally.count_if(own.is_cancel(), &row("a Cancel held"));
    let later = last_tick(before).is_some_and(|last| call.tick > last);
    tally.count_if(later, &row("past the last accepted tick"));
    let almost = own.lapse() == u64::from(call.tick) + 1;
    tally.count_if(almost, &row("a tick before the message held lapses"));
    tally.count_if(past_the_end(own), &row("held past the clock's end"));
    let eight = held_at(before.accepted, call.tick).len() == MOST_SENDERS;
    tally.count_if(eight, &row("eight held"));
}

fn past_the_end(held: &Accepted) -> bool {
    held.lapse() > u64::from(u32::MAX)
}

fn ninth_sender(tally: &mut Tally, before: &Before, call: &Received) {
    let row = |what: &str| format!("receive refused 33, {what}");
    let eight = held_at(before.accepted, call.tick);
    let later = last_tick(before).is_some_and(|last| call.tick > last);
    tally.count_if(later, &row("past the last accepted tick"));
    let almost = eight.iter().any(|h| h.lapse() == u64::from(call.tick) + 1);
    tally.count_if(almost, &row("a tick before one of the eight lapses"));
    let cancels = eight.iter().filter(|h| h.is_cancel()).count();
    tally.count_if(cancels > 0, &row("Cancels among the eight"));
    tally.count_if(cancels == MOST_SENDERS, &row("eight Cancels"));
    let own = last_of(before.accepted, call.sender).is_some();
    tally.count_if(own, &row("its own message lapsed"));
    tally.count_if(eight.iter().any(|h| past_the_end(h)), &row("held past the clock's end"));
}

fn accepted(tally: &mut Tally, before: &Before, call: &Received) {
    let message = message_of(call);
    let kind = KINDS[usize::from(message.kind) - 1];
    tally.count("receive accepted");
    tally.count(&format!("receive accepted, {kind} of {}", message.warning));
    for (_, name) in BOUNDS.iter().filter(|(sender, _)| *sender == call.sender) {
        tally.count(&format!("receive accepted, sender {name}"));
    }
    tally.count_if(call.tick == u32::MAX, "receive accepted, at tick 2^32 - 1");
    let (own, others) = own_and_others(before, call, call.tick);
    tally.count(&format!("held after an accepted call: {}", others.len() + 1));
    match own {
        Some(own) => replaced(tally, &message, own),
        None => not_held(tally, call, &others),
    }
    match last_of(before.accepted, call.sender) {
        None => tally.count(&format!("receive accepted, {kind} first of its sender")),
        Some(last) if own.is_none() => same_sender(tally, before, call, &message, last),
        Some(_) => (),
    }
    clock(tally, before, call);
    others_lapsed(tally, before, call);
}

/// An accepted message in the place of an unlapsed one.
fn replaced(tally: &mut Tally, message: &Message, own: &Accepted) {
    let row = |what: &str| format!("receive accepted, newer: {what}");
    let event = compared(message.event, own.message.event);
    let reference = compared(message.reference, own.message.reference);
    tally.count(&row(&format!("event {event}, reference {reference}")));
    let validity = compared(message.validity, own.message.validity);
    tally.count(&row(&format!("validity {validity}")));
    let cancel = message.kind == kind::CANCEL;
    tally.count_if(cancel && !own.is_cancel(), &row("a Cancel for another kind"));
    tally.count_if(!cancel && own.is_cancel(), &row("another kind for a Cancel"));
}

/// An accepted message beside those of the other senders.
fn not_held(tally: &mut Tally, call: &Received, others: &[&Accepted]) {
    let below = others.iter().filter(|h| h.sender < call.sender).count();
    let place = match (below, others.len()) {
        (0, 0) => "alone",
        (0, _) => "below all others",
        (all, some) if all == some => "above all others",
        _ => "between others",
    };
    tally.count(&format!("receive accepted, not held before: {place}"));
}

/// An accepted call's tick beside the last accepted one and those refused since.
fn clock(tally: &mut Tally, before: &Before, call: &Received) {
    match last_tick(before) {
        None if call.tick == 0 => tally.count("receive accepted, first, at tick 0"),
        None => tally.count("receive accepted, first, at a later tick"),
        Some(last) => {
            tally.count_if(call.tick == last, "receive accepted, at the last accepted tick");
        }
    }
    let refused: Vec<&Received> = refused_since(before).filter(|r| r.tick > call.tick).collect();
    for number in NOT_31 {
        let higher = refused.iter().any(|r| r.answer == -number);
        let row = format!("receive accepted, at a tick below that of a refusal {number}");
        tally.count_if(higher, &row);
    }
}

/// The calls refused since the last accepted one, the latest first.
fn refused_since<'a>(before: &Before<'a>) -> impl Iterator<Item = &'a Received> {
    before.received.iter().rev().take_while(|call| call.answer < 0)
}

/// An accepted message of a sender whose last one has lapsed.
fn same_sender(
    tally: &mut Tally,
    before: &Before,
    call: &Received,
    message: &Message,
    last: &Accepted,
) {
    tally.count(&format!("lapse: then the same sender, {}", when(last, call.tick)));
    let same_event = message.event == last.message.event;
    let earlier = message.reference < last.message.reference;
    let older = message.event < last.message.event;
    tally.count_if(older, "lapse: then the same sender's older event");
    tally.count_if(same_event && earlier, "lapse: then the same sender's event, reference lower");
    tally.count_if(call.message == last.record, "lapse: then the same record");
    let is_newer = newer(message, &last.message);
    tally.count_if(is_newer, "lapse: then the same sender's newer message");
    let late = last.is_cancel() && message.kind == kind::NEW && same_event && earlier;
    tally.count_if(late, "lapse: a Cancel, then a late New of its event");
    let mut own = before.received.iter().rev().filter(|r| r.sender == call.sender);
    let repeated = own.by_ref().take_while(|r| r.answer < 0).any(|r| r.answer == -32);
    tally.count_if(repeated, "lapse: a repeat was refused meanwhile");
    let mut accepted = before.accepted.iter().rev().filter(|a| a.sender == call.sender);
    let outlasted = accepted.nth(1).is_some_and(|replaced| !replaced.lapsed_by(call.tick));
    tally.count_if(outlasted, "lapse: what the message replaced would not have lapsed yet");
}

/// What has lapsed since the last accepted call, and what is about to.
fn others_lapsed(tally: &mut Tally, before: &Before, call: &Received) {
    let last = last_tick(before).unwrap_or(call.tick);
    let (_, held) = own_and_others(before, call, last);
    let lapsed: Vec<&&Accepted> = held.iter().filter(|h| h.lapsed_by(call.tick)).collect();
    let name = |h: &Accepted| if h.is_cancel() { "a Cancel" } else { "another kind" };
    for h in &lapsed {
        let (kind, when) = (name(h), when(h, call.tick));
        tally.count(&format!("lapse: validity {}", h.message.validity));
        tally.count(&format!("lapse, {kind}: found {when}"));
        let ninth = held.len() == MOST_SENDERS && lapsed.len() == 1;
        tally.count_if(ninth, &format!("lapse, {kind}: then a ninth sender, {when}"));
    }
    tally.count_if(lapsed.len() > 1, "lapse: several at one call");
    let all = lapsed.len() == held.len() && !held.is_empty();
    tally.count_if(all, "lapse: all that is held but the new message");
    for h in held.iter().filter(|h| h.lapse() == u64::from(call.tick) + 1) {
        let validity = h.message.validity;
        tally.count(&format!("no lapse: validity {validity}, an accepted call a tick before it"));
    }
}

/// Counts what occurred at the call without a tick, with so many bytes of output.
pub fn shown(tally: &mut Tally, before: &Before, receiver: &Receiver, lent: usize, answer: i32) {
    let held = receiver.held();
    if answer < 0 {
        let room = (1..).take_while(|n| n * SHOWN_BYTES <= lent).count();
        tally.count("show refused 2");
        tally.count_if(held.is_empty(), "show refused 2, nothing held");
        let enough = !held.is_empty() && room >= held.len();
        tally.count_if(enough, "show refused 2, room for all that is held");
        return;
    }
    tally.count(&format!("show gave {answer} messages"));
    let row = |what: &str| format!("show: {what}");
    tally.count_if(lent == super::SHOW_OUTPUT, &row("with 288 bytes of output"));
    tally.count_if(lent > super::SHOW_OUTPUT, &row("with more output"));
    tally.count_if(before.accepted.is_empty(), &row("before the first accepted call"));
    let cancels = held.iter().filter(|h| h.is_cancel()).count();
    tally.count_if(cancels > 0, &row("a Cancel held"));
    tally.count_if(cancels > 0 && answer == 0, &row("Cancels alone held"));
    tally.count_if(cancels == MOST_SENDERS, &row("eight Cancels held"));
    let shown: Vec<&&Accepted> = held.iter().filter(|h| !h.is_cancel()).collect();
    let high = shown.iter().filter(|h| h.sender >= 1 << 31).count();
    let both = high > 0 && high < shown.len();
    tally.count_if(both, &row("senders on both sides of 2^31"));
    tally.count_if(!shown.is_sorted_by_key(|h| h.tick), &row("by rising sender, not by arrival"));
    shown_at(tally, before, &shown);
}

/// What is shown by the last accepted tick.
fn shown_at(tally: &mut Tally, before: &Before, shown: &[&&Accepted]) {
    let Some(last) = last_tick(before) else {
        return;
    };
    let row = |what: &str| format!("show: {what}");
    let at = |tick: u64, call: &Accepted| !call.is_cancel() && call.lapse() == tick;
    let itself = before
        .accepted
        .iter()
        .any(|call| at(last.into(), call) && last_of(before.accepted, call.sender) == Some(call));
    tally.count_if(itself, &row("one lapsed at the last accepted tick itself"));
    let next = shown.iter().any(|h| at(u64::from(last) + 1, h));
    tally.count_if(next, &row("one lapses at the next tick"));
    let refused = refused_since(before).map(|call| call.tick).max().unwrap_or(0);
    let lapsed = shown.iter().any(|h| h.lapsed_by(refused));
    tally.count_if(lapsed, &row("one had lapsed by a refused call's tick"));
    tally.count_if(shown.iter().any(|h| past_the_end(h)), &row("one is held past the clock's end"));
}
