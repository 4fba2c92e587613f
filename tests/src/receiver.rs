//! The second implementation of the receiver (CR 4), written from documents 01
//! and 02 alone: a list of all accepted calls. There are no places for senders
//! here; each answer is found by looking back over the list. The driver's lamp
//! is at the end.
//!
//! Sentences in quotation marks are CR 4's; those on memory are the header's,
//! `include/yoldrim.h`.

use crate::reference::{
    answer, direction, kind, refuse_if, rules, u32_at, Message, Refusal, BY_RANK, MESSAGE_BYTES,
};

#[cfg(library)]
pub mod comparison;
#[cfg(library)]
pub mod lamp;
#[cfg(library)]
pub mod layout;
pub mod lists;
#[cfg(library)]
mod memory;
pub mod scenes;
pub mod tally;
#[cfg(test)]
mod tests;
#[cfg(library)]
pub mod trials;

pub const RECEIVER_BYTES: usize = 328;
pub const RECEIVER_LAYOUT: u8 = 1;
/// "one message for each of up to eight senders".
pub const MOST_SENDERS: usize = 8;
/// Where a receiver's image has its places, and what a place takes: sender,
/// arrival and record.
pub const PLACES_AT: usize = 8;
pub const PLACE_BYTES: usize = 8 + MESSAGE_BYTES;
/// "each as sender (4 bytes, little-endian) and record".
pub const SHOWN_BYTES: usize = 4 + MESSAGE_BYTES;
/// "it needs 288 bytes of output".
pub const SHOW_OUTPUT: usize = 288;

/// The ticks in a second of validity.
const TICKS_A_SECOND: u64 = 10;

/// One accepted call: "the present tick of the receiver's own clock (32 bits
/// too), a sender and a message".
#[derive(Clone, Copy, Debug, PartialEq, Eq)]
pub struct Accepted {
    pub tick: u32,
    pub sender: u32,
    pub message: Message,
    /// The message's bytes, as they were lent.
    pub record: [u8; MESSAGE_BYTES],
}

impl Accepted {
    /// The first tick by which "10 times its validity in ticks have passed since
    /// arrival"; it may lie past the clock's last tick.
    pub fn lapse(&self) -> u64 {
        u64::from(self.tick) + TICKS_A_SECOND * u64::from(self.message.validity)
    }

    pub fn lapsed_by(&self, tick: u32) -> bool {
        u64::from(tick) >= self.lapse()
    }

    pub fn is_cancel(&self) -> bool {
        self.message.kind == kind::CANCEL
    }
}

/// "A message is newer if its event is higher, or the event is equal and its
/// reference tick higher."
pub fn newer(message: &Message, than: &Message) -> bool {
    let higher = message.event > than.event;
    higher || (message.event == than.event && message.reference > than.reference)
}

/// The last accepted call of a sender.
pub fn last_of(accepted: &[Accepted], sender: u32) -> Option<&Accepted> {
    accepted.iter().rev().find(|call| call.sender == sender)
}

/// "the last accepted message of each sender, unless that has lapsed by" this
/// tick; by rising sender.
pub fn held_at(accepted: &[Accepted], tick: u32) -> Vec<&Accepted> {
    let mut senders: Vec<u32> = accepted.iter().map(|call| call.sender).collect();
    senders.sort_unstable();
    senders.dedup();
    let last = senders.iter().filter_map(|&sender| last_of(accepted, sender));
    last.filter(|call| !call.lapsed_by(tick)).collect()
}

/// A receiver: the calls that it accepted, the earliest first. A refused call
/// changes nothing in it.
#[derive(Clone, Debug, Default)]
pub struct Receiver {
    accepted: Vec<Accepted>,
}

impl Receiver {
    pub fn accepted(&self) -> &[Accepted] {
        &self.accepted
    }

    /// The last accepted tick; none before the first accepted call.
    pub fn last_tick(&self) -> Option<u32> {
        self.accepted.last().map(|call| call.tick)
    }

    /// "what is held": by the last accepted tick, as no later one is known.
    pub fn held(&self) -> Vec<&Accepted> {
        held_at(&self.accepted, self.last_tick().unwrap_or(0))
    }

    /// "The first call refuses, after 13 and 14, with 31 a tick below the last
    /// accepted one, with 32 a message that is no newer than the unlapsed one held
    /// of that sender, and with 33 a ninth sender while eight others are unlapsed":
    /// unlapsed at the present tick, which the call brings.
    fn receive_call(&mut self, tick: u32, sender: u32, bytes: &[u8]) -> Result<usize, Refusal> {
        let message = Message::from_record(bytes)?;
        refuse_if(self.last_tick().is_some_and(|last| tick < last), 31)?;
        let unlapsed = held_at(&self.accepted, tick);
        let own = unlapsed.iter().find(|held| held.sender == sender);
        let others = unlapsed.iter().filter(|held| held.sender != sender).count();
        refuse_if(own.is_some_and(|held| !newer(&message, &held.message)), 32)?;
        refuse_if(others >= MOST_SENDERS, 33)?;
        let record = bytes.try_into().expect("13 lets no other length through");
        self.accepted.push(Accepted { tick, sender, message, record });
        Ok(1)
    }

    /// "a second call, without a tick, writes all other messages held, by rising
    /// sender, each as sender (4 bytes, little-endian) and record, and gives their
    /// number": all but the Cancels.
    fn show_call(&self, out: &mut [u8]) -> Result<usize, Refusal> {
        refuse_if(out.len() < SHOW_OUTPUT, 2)?;
        let shown: Vec<&Accepted> = self.held().into_iter().filter(|h| !h.is_cancel()).collect();
        for (place, held) in shown.iter().enumerate() {
            let written = [&held.sender.to_le_bytes()[..], &held.record].concat();
            out[place * SHOWN_BYTES..][..SHOWN_BYTES].copy_from_slice(&written);
        }
        Ok(shown.len())
    }

    /// The first call, in the manner of the C interface.
    pub fn receive(&mut self, tick: u32, sender: u32, message: &[u8]) -> i32 {
        answer(self.receive_call(tick, sender, message))
    }

    /// The second call, in the manner of the C interface.
    pub fn show(&self, out: &mut [u8]) -> i32 {
        answer(self.show_call(out))
    }

    /// The receiver as memory: layout, zeros, last accepted tick, then "eight
    /// places of 40 bytes". What is held stands "in the first places, by rising
    /// sender; the other places are zeros".
    pub fn image(&self) -> [u8; RECEIVER_BYTES] {
        let mut image = [0; RECEIVER_BYTES];
        image[0] = RECEIVER_LAYOUT;
        image[4..PLACES_AT].copy_from_slice(&self.last_tick().unwrap_or(0).to_le_bytes());
        for (place, held) in self.held().iter().enumerate() {
            let numbers = [held.sender.to_le_bytes(), held.tick.to_le_bytes()].concat();
            let written = [&numbers[..], &held.record].concat();
            image[PLACES_AT + place * PLACE_BYTES..][..PLACE_BYTES].copy_from_slice(&written);
        }
        image
    }

    /// The receiver that these bytes are the image of, where a list of calls
    /// reaches one: then a call for each message that they hold, by arrival, is
    /// such a list.
    pub fn of_image(image: &[u8; RECEIVER_BYTES]) -> Option<Receiver> {
        let places = image[PLACES_AT..].chunks(PLACE_BYTES);
        let mut taken: Vec<&[u8]> = places.filter(|place| place.iter().any(|&b| b != 0)).collect();
        taken.sort_by_key(|place| u32_at(place, 4));
        let mut receiver = Receiver::default();
        for place in taken {
            receiver.receive(u32_at(place, 4), u32_at(place, 0), &place[8..]);
        }
        (receiver.image() == *image).then_some(receiver)
    }
}

/// Why memory is no receiver's, if it is none: it is "of another length or layout,
/// or with a byte that saving a receiver never makes in its place".
pub fn no_receiver(memory: &[u8]) -> Option<&'static str> {
    if memory.len() != RECEIVER_BYTES {
        Some("another length")
    } else if memory[0] != RECEIVER_LAYOUT {
        Some("another layout")
    } else if memory[1..4] != [0; 3] {
        Some("bytes 1 to 3")
    } else {
        memory[PLACES_AT..].chunks(PLACE_BYTES).find_map(unlike_its_warning)
    }
}

/// The first of a place's sub cause, cause and direction that is not that of its
/// warning or roadType; a number that is no warning has zeros.
fn unlike_its_warning(place: &[u8]) -> Option<&'static str> {
    let record = &place[8..];
    let known = BY_RANK.contains(&record[1]).then(|| rules(record[1]));
    if record[2] != known.map_or(0, |rules| rules.sub_cause) {
        Some("a sub cause")
    } else if record[3] != known.map_or(0, |rules| rules.cause) {
        Some("a cause")
    } else {
        (record[6] != direction(record[5])).then_some("a direction")
    }
}

// ------------------------------------------------------------------- the lamp

/// The answers for the driver's lamp.
#[derive(Clone, Copy, Debug, PartialEq)]
pub enum Lamp {
    Unknown,
    Standing,
    Seconds(f32),
}

/// The bounds of gap (cm) and speed (cm/s).
pub const WIDEST_GAP: f32 = 200_000.0;
pub const HIGHEST_SPEED: f32 = 16_383.0;

/// "The answer is 'unknown' unless the gap is 0 to 200,000 and F 0 to 16,383;
/// else 'standing' for F below 1"; else "gap in cm divided by the speed F,
/// rounded once". A NaN lies in neither range.
pub fn lamp(gap: f32, speed: f32) -> Lamp {
    if !(0.0..=WIDEST_GAP).contains(&gap) || !(0.0..=HIGHEST_SPEED).contains(&speed) {
        Lamp::Unknown
    } else if speed < 1.0 {
        Lamp::Standing
    } else {
        Lamp::Seconds(gap / speed)
    }
}

/// The lamp in the manner of the C interface: "The other answers leave `seconds` as
/// it was."
pub fn lamp_answer(gap: f32, speed: f32, seconds: &mut f32) -> i32 {
    match lamp(gap, speed) {
        Lamp::Unknown => 0,
        Lamp::Standing => 1,
        Lamp::Seconds(quotient) => {
            *seconds = quotient;
            2
        }
    }
}
