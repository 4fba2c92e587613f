//! Lists of message records with reference ticks of many shapes.

use crate::days::{Day, Style};
use crate::faults;
use crate::random::Random;
use crate::reference::{kind, Message, Reference, MESSAGE_BYTES, MOST_SAMPLES};

pub const LAST_TICK: u32 = MOST_SAMPLES as u32 - 1;

/// How the ticks of a list follow one another.
#[derive(Clone, Copy, Debug, PartialEq, Eq)]
pub enum Shape {
    /// Gaps at and beside the width, and none.
    AtTheWidth,
    /// Groups of like sizes, each within the width, so that stretches tie.
    Groups,
    /// Many equal ticks.
    Equal,
    /// Each tick one more than that before.
    ByOne,
    /// All in one tick.
    OneTick,
    /// Gaps of any size.
    Any,
}

impl Shape {
    pub const ALL: [Shape; 6] =
        [Shape::AtTheWidth, Shape::Groups, Shape::Equal, Shape::ByOne, Shape::OneTick, Shape::Any];

    /// The gap between the tick at `place` and that before.
    fn gap(self, place: usize, width: u32, random: &mut Random) -> u32 {
        let w = width;
        match self {
            Shape::AtTheWidth => {
                random.pick(&[0, 0, 1, 2, w / 2, w - w / 2, w - 1, w - 1, w, w, w + 1, 2 * w])
            }
            Shape::Groups if place.is_multiple_of(3) => {
                random.pick(&[w / 2, w - 1, w, w + 1, 3 * w])
            }
            Shape::Groups => random.pick(&[0, 1, w / 3]),
            Shape::Equal => random.pick(&[0, 0, 0, 0, 1, w]),
            Shape::ByOne => 1,
            Shape::OneTick => 0,
            Shape::Any => random.between(0, i64::from(w) * 3 / 2) as u32,
        }
    }
}

/// At most `length` ticks of the shape for this width. The list begins at tick 0 or a
/// little later, ends at the last tick, or lies anywhere.
pub fn ticks(shape: Shape, width: u32, length: usize, random: &mut Random) -> Vec<u32> {
    let mut ticks = Vec::with_capacity(length);
    let mut tick = random.pick(&[0, 0, 0, 1, width - 1, width]);
    for place in 0..length {
        if place > 0 {
            tick += shape.gap(place, width, random);
        }
        if tick > LAST_TICK {
            break;
        }
        ticks.push(tick);
    }
    let room = LAST_TICK - ticks.last().copied().unwrap_or(0);
    let anywhere = random.between(0, room.into()) as u32;
    let shift = random.pick(&[0, room, anywhere]);
    ticks.iter().map(|tick| tick + shift).collect()
}

/// A good record of any kind and warning with these reference ticks, one for each.
pub fn records(ticks: &[u32], random: &mut Random) -> Vec<u8> {
    let good = faults::good_messages();
    let record = |&tick| message_at(tick, random.pick(&good), random).record();
    ticks.iter().flat_map(record).collect()
}

/// The message with this reference tick. The detection tick of a Cancel is any that is no
/// later.
fn message_at(reference: u32, message: Message, random: &mut Random) -> Message {
    let detection = match message.kind {
        kind::CANCEL => random.pick(&[0, reference / 2, reference]),
        _ => reference,
    };
    let event = random.between(1, MOST_SAMPLES as i64) as u32;
    Message { reference, detection, event, ..message }
}

/// The records that the engine gives for a day of so many samples.
pub fn of_day(seed: u64, style: Style, samples: usize) -> Vec<u8> {
    let mut day = Day::new(seed, style);
    let mut engine = Reference::default();
    for _ in 0..samples {
        engine.history.take(day.next_sample());
    }
    engine.history.messages().iter().flat_map(Message::record).collect()
}

/// A long list like that of many days: runs of messages of one kind and warning, several
/// messages at some ticks, now and then a pause.
pub fn long_days(length: usize, random: &mut Random) -> Vec<u8> {
    let good = faults::good_messages();
    let mut records = Vec::with_capacity(length * MESSAGE_BYTES);
    let (mut tick, mut event, mut left) = (0, 0, 0);
    let mut message = good[0];
    while records.len() < length * MESSAGE_BYTES {
        if left == 0 {
            message = random.pick(&good);
            left = random.place(20);
            event += 1;
        } else {
            left -= 1;
        }
        let made = Message { event, ..message_at(tick, message, random) };
        records.extend(made.record());
        tick += long_gap(random);
    }
    records
}

/// Mostly none or 5 ticks, as between Updates of warning 4; about 4 in the mean.
fn long_gap(random: &mut Random) -> u32 {
    match random.place(10_000) {
        0 => random.between(600, 9_000) as u32,
        1..100 => random.between(30, 150) as u32,
        100..4_000 => 0,
        4_000..6_000 => random.between(1, 4) as u32,
        _ => 5,
    }
}
