//! Lists of calls on a receiver made from a seed. A list is an endless source of
//! calls, each made from what the receiver holds: ticks at which a message lapses,
//! messages that are just newer or just not, senders at the bounds of their
//! numbers, damaged messages, output too short.

use super::{held_at, last_of, Accepted, Receiver, RECEIVER_BYTES};
use crate::faults::{self, Change, Trial};
use crate::random::Random;
use crate::reference::{
    direction, kind, rules, validity, Message, FARTHEST, MOST_SAMPLES, ROAD_OMITTED,
    UNKNOWN_HEADING, UNRESPONSIVE_DRIVER,
};
use crate::tally::WITH_CANCEL;

/// What kind of list it is; each number n but the first three means "about once
/// in n".
#[derive(Clone, Copy)]
pub struct Style {
    /// At least and at most so many senders.
    senders: (i64, i64),
    /// The tick rises by so much at most, where it is not chosen by a lapse.
    step: i64,
    /// The first tick is at most so many before the clock's last one.
    before_end: Option<i64>,
    /// The tick is that of a lapse or next to it.
    lapse: u64,
    /// A message is of warning 4, of which there is no Cancel.
    short: u64,
    /// A message is a Cancel, if its warning has one.
    cancel: u64,
    /// A message is damaged.
    damaged: u64,
}

/// Few senders: their messages replace one another and lapse.
pub const FEW: Style = Style {
    senders: (1, 3),
    step: 40,
    before_end: None,
    lapse: 3,
    short: 3,
    cancel: 4,
    damaged: 10,
};
/// About as many senders as a receiver holds, whose messages stay for long.
pub const EIGHT: Style =
    Style { senders: (7, 9), step: 12, lapse: 6, short: 10, damaged: 20, ..FEW };
/// More senders than a receiver holds.
pub const CROWD: Style = Style { senders: (10, 12), lapse: 4, ..EIGHT };
/// Mostly Cancels.
pub const CANCELS: Style = Style { cancel: 1, short: 30, ..EIGHT };
/// The clock begins shortly before its last tick.
pub const LAST_TICKS: Style = Style { before_end: Some(2_500), ..EIGHT };

pub const ALL: [Style; 5] = [FEW, EIGHT, CROWD, CANCELS, LAST_TICKS];

/// Numbers of senders, and ticks to begin at: they and their neighbours.
const EDGES: [u32; 8] = [0, 1, 256, 65_536, 0x7FFF_FFFF, 0x8000_0000, 0xFFFF_FF00, u32::MAX];

/// Output lent: none, room for less than is held, just enough, and more.
const LENT: [usize; 12] = [0, 35, 36, 72, 287, 288, 288, 288, 288, 289, 300, 400];

/// One call of a list.
pub enum Call {
    Receive {
        tick: u32,
        sender: u32,
        message: Vec<u8>,
    },
    /// With so many bytes of output.
    Show(usize),
}

pub struct List {
    random: Random,
    style: Style,
    senders: Vec<u32>,
    /// The tick that the first call is made near to.
    start: u32,
    /// Changes to a message.
    faults: Vec<Change>,
}

impl List {
    pub fn new(seed: u64, style: Style) -> List {
        let mut random = Random::new(seed);
        let count = random.between(style.senders.0, style.senders.1) as usize;
        let senders = distinct_numbers(&mut random, count);
        let start = match style.before_end {
            Some(ticks) => u32::MAX - random.between(0, ticks) as u32,
            None if random.one_in(3) => 0,
            None => number(&mut random),
        };
        List { random, style, senders, start, faults: faults::of_message() }
    }

    /// The next call on a receiver that took the calls before it.
    pub fn next_call(&mut self, receiver: &Receiver) -> Call {
        if self.random.one_in(4) {
            return Call::Show(self.random.pick(&LENT));
        }
        let (tick, sender) = self.tick_and_sender(receiver);
        let message = self.message(last_of(receiver.accepted(), sender));
        Call::Receive { tick, sender, message }
    }

    fn tick_and_sender(&mut self, receiver: &Receiver) -> (u32, u32) {
        let sender = self.random.pick(&self.senders);
        let last = receiver.last_tick().unwrap_or(self.start);
        let held = held_at(receiver.accepted(), last);
        if !held.is_empty() && self.random.one_in(self.style.lapse) {
            let lapsing = self.lapsing(&held);
            let tick = lapsing.lapse() as i64 + self.random.between(-1, 1);
            let own = self.random.one_in(2);
            return (on_the_clock(tick), if own { lapsing.sender } else { sender });
        }
        let step = match self.random.place(10) {
            0..=2 => 0,
            3 => -1,
            4 => -self.random.between(2, u32::MAX.into()),
            5 if self.random.one_in(100) => self.random.between(0, u32::MAX.into()),
            _ => self.random.between(0, self.style.step),
        };
        (on_the_clock(i64::from(last) + step), sender)
    }

    /// One of the messages held, mostly the next to lapse.
    fn lapsing(&mut self, held: &[&Accepted]) -> Accepted {
        let next = held.iter().min_by_key(|call| call.lapse());
        let any = self.random.one_in(8).then(|| self.random.pick(held));
        *any.or(next.copied()).expect("a message is held")
    }

    /// A message's bytes from a sender whose last accepted message is `last`.
    fn message(&mut self, last: Option<&Accepted>) -> Vec<u8> {
        let repeated = last.filter(|_| self.random.one_in(10));
        let (event, reference) = self.event_and_reference(last.map(|call| &call.message));
        let record = match repeated {
            Some(call) => call.record,
            None => self.fields(event, reference).record(),
        };
        if !self.random.one_in(self.style.damaged) {
            return record.to_vec();
        }
        let made = [self.random.pick(&self.faults), self.random.pick(&self.faults)];
        let count = 1 + self.random.place(2);
        Trial::new(&record, 0).changed(&made[..count], false).input
    }

    /// An event and a reference tick just after those of the last message, equal
    /// to them, just before them, or at a bound.
    fn event_and_reference(&mut self, last: Option<&Message>) -> (u32, u32) {
        let most = MOST_SAMPLES as i64;
        let (event, reference) = match last {
            None => (self.random.between(1, 5), self.random.between(0, 60)),
            Some(last) => (i64::from(last.event), i64::from(last.reference)),
        };
        let (event, reference) = match self.random.place(16) {
            0..=5 => (event, reference + self.random.between(1, 20)),
            6..=8 => (event + self.random.between(1, 2), reference + self.random.between(-20, 20)),
            9 => (event + 1, reference),
            10 => (event, reference),
            11 => (event, reference - self.random.between(1, 20)),
            12 => (event - 1, reference + self.random.between(-20, 20)),
            13 => (event - 1, reference),
            14 => (event + self.random.between(-1, 1), reference + self.random.between(-1, 1)),
            _ if self.random.one_in(4) => {
                (self.random.pick(&[1, most]), self.random.between(0, most))
            }
            _ => (event + self.random.pick(&[255, 256, -256]), reference + 256),
        };
        (event.clamp(1, most) as u32, reference.clamp(0, most - 1) as u32)
    }

    /// A good message with any other fields.
    fn fields(&mut self, event: u32, reference: u32) -> Message {
        let random = &mut self.random;
        let short = random.one_in(self.style.short);
        let warning = if short { UNRESPONSIVE_DRIVER } else { random.pick(&WITH_CANCEL) };
        let cancel = !short && random.one_in(self.style.cancel);
        let since_new = random.between(0, 60).min(reference.into()) as u32;
        let rules = rules(warning);
        let road_type = random.pick(&[0, 1, 2, 3, ROAD_OMITTED]);
        let farthest = i64::from(FARTHEST);
        Message {
            kind: if cancel { kind::CANCEL } else { random.pick(&[kind::NEW, kind::UPDATE]) },
            warning,
            sub_cause: rules.sub_cause,
            cause: rules.cause,
            quality: random.between(1, rules.highest_quality.into()) as u8,
            road_type,
            direction: direction(road_type),
            stationary_since: random.between(0, 3) as u8,
            event,
            detection: if cancel { reference - since_new } else { reference },
            reference,
            east: random.between(-farthest, farthest) as i32,
            north: random.between(-farthest, farthest) as i32,
            heading: random.between(0, UNKNOWN_HEADING.into()) as u16,
            validity: validity(warning, random.one_in(2)),
        }
    }

    /// A receiver's image with some bytes changed, or of another length.
    pub fn damage(&mut self, image: &[u8; RECEIVER_BYTES]) -> Vec<u8> {
        let mut memory = image.to_vec();
        if self.random.one_in(6) {
            memory.resize(self.random.pick(&[0, 1, 8, 48, 288, 327, 329, 400]), 0);
            return memory;
        }
        for _ in 0..self.random.between(1, 3) {
            let place = self.random.place(memory.len());
            memory[place] = match self.random.place(3) {
                0 => memory[place] ^ 1 << self.random.place(8),
                1 => 0,
                _ => self.random.draw() as u8,
            };
        }
        memory
    }
}

/// A 32-bit number, often one at a bound or next to it.
fn number(random: &mut Random) -> u32 {
    let edge = random.pick(&EDGES).wrapping_add_signed(random.between(-1, 1) as i32);
    if random.one_in(4) {
        random.draw() as u32
    } else {
        edge
    }
}

fn distinct_numbers(random: &mut Random, count: usize) -> Vec<u32> {
    let mut numbers = Vec::new();
    while numbers.len() < count {
        let next = number(random);
        if !numbers.contains(&next) {
            numbers.push(next);
        }
    }
    numbers
}

fn on_the_clock(tick: i64) -> u32 {
    tick.clamp(0, u32::MAX.into()) as u32
}
