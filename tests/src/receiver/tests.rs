//! CR 4's examples and sentences, on the second implementation alone.

use super::lists::{self, Call, List};
use super::scenes::{self, cancel, new, of_3, of_4, update, Calls};
use super::*;
use crate::random::Random;
use std::collections::BTreeMap;

impl Calls for Receiver {
    fn receive(&mut self, tick: u32, sender: u32, message: &[u8]) -> i32 {
        Receiver::receive(self, tick, sender, message)
    }

    fn shown(&mut self) -> Vec<u8> {
        let mut out = [0; SHOW_OUTPUT];
        let messages = self.show(&mut out);
        out[..messages as usize * SHOWN_BYTES].to_vec()
    }
}

/// A receiver that has accepted these messages.
fn accepted(calls: &[(u32, u32, Message)]) -> Receiver {
    let mut receiver = Receiver::default();
    for (tick, sender, message) in calls {
        assert_eq!(receiver.receive(*tick, *sender, &message.record()), 1);
    }
    receiver
}

#[test]
fn every_scene_gives_its_answers() {
    for scene in scenes::all() {
        assert_eq!(scene.run(&mut Receiver::default()), Ok(()));
    }
}

#[test]
fn newer_by_event_then_by_reference_tick() {
    let held = new(5, 100);
    for (event, reference) in [(6, 0), (6, 100), (6, 101), (5, 101)] {
        assert!(newer(&new(event, reference), &held));
        assert!(newer(&cancel(event, reference), &held));
    }
    for (event, reference) in [(5, 100), (5, 99), (4, 101), (4, 100), (4, 9_999_999)] {
        assert!(!newer(&new(event, reference), &held));
        assert!(!newer(&cancel(event, reference), &held));
    }
}

#[test]
fn lapsed_once_10_times_its_validity_in_ticks_have_passed() {
    for (message, ticks) in [(of_4(new(1, 1)), 20), (new(1, 1), 300), (of_3(new(1, 1)), 1_800)] {
        for arrival in [0, 7, 0x7FFF_FFFF, u32::MAX - ticks] {
            let receiver = accepted(&[(arrival, 3, message)]);
            let lapsed = |tick| receiver.accepted()[0].lapsed_by(tick);
            let found = [0, 1, ticks - 1, ticks].map(|passed| lapsed(arrival + passed));
            assert_eq!(found, [false, false, false, true]);
            assert!(lapsed(u32::MAX));
        }
        let receiver = accepted(&[(u32::MAX - ticks + 1, 3, message)]);
        assert!(!receiver.accepted()[0].lapsed_by(u32::MAX));
    }
}

/// The record of `update(0x0605, 0x0807)` by hand.
#[rustfmt::skip]
const UPDATE: [u8; MESSAGE_BYTES] = [
    2, 1, 0, 94, 1, 1, 1, 1,
    5, 6, 0, 0, 7, 8, 0, 0, 7, 8, 0, 0,
    136, 255, 255, 255, 148, 17, 0, 0, 132, 3, 30, 0,
];

#[test]
fn the_image_by_hand() {
    let mut empty = [0; RECEIVER_BYTES];
    empty[0] = 1;
    assert_eq!(Receiver::default().image(), empty);
    let stop = update(0x0605, 0x0807);
    let receiver = accepted(&[(0x0A0B_0C0D, 0x8000_0001, stop), (0x0A0B_0C0E, 2, cancel(1, 1))]);
    let mut image = empty;
    image[4..8].copy_from_slice(&[0x0E, 0x0C, 0x0B, 0x0A]);
    image[8..16].copy_from_slice(&[2, 0, 0, 0, 0x0E, 0x0C, 0x0B, 0x0A]);
    image[16..48].copy_from_slice(&cancel(1, 1).record());
    image[48..56].copy_from_slice(&[1, 0, 0, 0x80, 0x0D, 0x0C, 0x0B, 0x0A]);
    image[56..88].copy_from_slice(&UPDATE);
    assert_eq!(receiver.image(), image);
}

#[test]
fn the_output_by_hand() {
    let stop = update(0x0605, 0x0807);
    let receiver = accepted(&[(9, 0x0403_0201, stop), (9, 7, cancel(1, 1)), (9, 5, new(1, 1))]);
    let mut out = [0xEE; SHOW_OUTPUT + 1];
    assert_eq!(receiver.show(&mut out), 2);
    assert_eq!(out[..4], [5, 0, 0, 0]);
    assert_eq!(out[4..36], new(1, 1).record());
    assert_eq!(out[36..40], [1, 2, 3, 4]);
    assert_eq!(out[40..72], UPDATE);
    assert!(out[72..].iter().all(|&byte| byte == 0xEE));
}

#[test]
fn showing_needs_288_bytes_whatever_is_held() {
    for receiver in [Receiver::default(), accepted(&[(0, 7, new(1, 1))])] {
        let mut out = [0xEE; SHOW_OUTPUT];
        assert_eq!(receiver.show(&mut out[1..]), -2);
        assert_eq!(receiver.show(&mut []), -2);
        assert_eq!(out, [0xEE; SHOW_OUTPUT]);
        assert_eq!(receiver.show(&mut out), receiver.held().len() as i32);
    }
}

#[test]
fn an_image_gives_back_the_receiver() {
    let calls = [(4, 9, of_3(new(1, 1))), (5, 2, cancel(1, 1)), (5, 7, of_4(new(1, 1)))];
    let mut receiver = accepted(&calls);
    for (tick, sender) in [(6, 2), (24, 3), (25, 7), (320, 1)] {
        let read = Receiver::of_image(&receiver.image()).map(|read| read.image());
        assert_eq!(read, Some(receiver.image()));
        assert_eq!(receiver.receive(tick, sender, &new(2, 2).record()), 1);
    }
    assert_eq!(Receiver::of_image(&Receiver::default().image()).map(|r| r.accepted.len()), Some(0));
}

#[test]
fn an_image_that_no_calls_reach_gives_back_none() {
    let image = accepted(&[(4, 2, new(1, 1)), (5, 9, of_4(new(1, 1)))]).image();
    let with = |at: usize, value: u8| {
        let mut other = image;
        other[at] = value;
        Receiver::of_image(&other).is_some()
    };
    assert!(with(8, 3) && with(12, 5) && with(4, 5));
    // Places out of order, twice the same sender, a tick that is no arrival, an
    // arrival past the tick, a message that had lapsed, one that 14 refuses.
    assert!(!with(8, 10) && !with(8, 9) && !with(4, 6) && !with(12, 6));
    assert!(!with(13, 1) && !with(16 + 3, 95));
    let mut apart = image;
    apart[88..128].copy_from_slice(&image[48..88]);
    apart[48..88].fill(0);
    assert!(Receiver::of_image(&apart).is_none());
}

#[test]
fn memory_that_is_no_receivers() {
    let image = accepted(&[(4, 2, new(1, 1)), (5, 9, of_4(new(1, 1)))]).image();
    assert_eq!(no_receiver(&image), None);
    assert_eq!(no_receiver(&image[..327]), Some("another length"));
    assert_eq!(no_receiver(&[&image[..], &[0]].concat()), Some("another length"));
    assert_eq!(no_receiver(&[0; RECEIVER_BYTES]), Some("another layout"));
    let with = |at: usize, value: u8| {
        let mut other = image;
        other[at] = value;
        no_receiver(&other)
    };
    assert_eq!(with(0, 2), Some("another layout"));
    assert_eq!([1, 2, 3].map(|at| with(at, 1)), [Some("bytes 1 to 3"); 3]);
    for (place, sub_cause, cause) in [(0, 0, 94), (1, 8, 99), (2, 0, 0), (7, 0, 0)] {
        let record = PLACES_AT + PLACE_BYTES * place + 8;
        assert_eq!(with(record + 2, sub_cause), None);
        assert_eq!(with(record + 2, 2), Some("a sub cause"));
        assert_eq!(with(record + 3, cause), None);
        assert_eq!(with(record + 3, 95), Some("a cause"));
        assert_eq!(with(record + 6, 2), Some("a direction"));
    }
    // A road type of the other direction; a warning of another cause.
    assert_eq!(with(PLACES_AT + 8 + 5, 2), Some("a direction"));
    assert_eq!(with(PLACES_AT + 8 + 5, 3), None);
    assert_eq!(with(PLACES_AT + 8 + 1, 0), Some("a cause"));
}

/// "For every list of these calls on an empty receiver, refused ones included, what
/// is held equals the last accepted message of each sender, unless that has lapsed
/// by the last accepted tick": the list of accepted calls written down going
/// forward, as another look at the same sentence; and held are eight at most.
#[test]
fn what_is_held_in_random_lists() {
    let styles = lists::ALL.into_iter().flat_map(|style| (0..20).map(move |seed| (seed, style)));
    for (seed, style) in styles {
        let mut list = List::new(seed, style);
        let mut receiver = Receiver::default();
        let (mut last, mut tick) = (BTreeMap::new(), 0);
        for _ in 0..200 {
            let image = receiver.image();
            let Call::Receive { tick: present, sender, message } = list.next_call(&receiver) else {
                continue;
            };
            if receiver.receive(present, sender, &message) < 0 {
                assert_eq!(receiver.image(), image);
                continue;
            }
            tick = present;
            last.insert(sender, (present, Message::from_record(&message).unwrap()));
            let passed = |(arrival, _): &(u32, Message)| tick - arrival;
            last.retain(|_, held| passed(held) < 10 * u32::from(held.1.validity));
            let held = receiver.held().iter().map(|h| (h.sender, (h.tick, h.message))).collect();
            assert_eq!(last, held);
            assert!(last.len() <= MOST_SENDERS);
        }
        assert_eq!(receiver.last_tick().unwrap_or(0), tick);
    }
}

#[test]
fn the_lamp_by_hand() {
    use Lamp::*;
    let tiny = f32::from_bits(1);
    for (gap, speed, answer) in [
        (15_000.0, 2_000.0, Seconds(7.5)),
        (200_000.0, 1.0, Seconds(200_000.0)),
        (200_000.0, 16_383.0, Seconds(200_000.0 / 16_383.0)),
        (0.0, 1.0, Seconds(0.0)),
        (0.0, 0.0, Standing),
        (-0.0, -0.0, Standing),
        (200_000.0, 1.0_f32.next_down(), Standing),
        (200_000.0_f32.next_up(), 0.0, Unknown),
        (200_000.0, 16_383.0_f32.next_up(), Unknown),
        (-tiny, 0.5, Unknown),
        (10.0, -tiny, Unknown),
        (f32::NAN, 0.5, Unknown),
        (10.0, f32::NAN, Unknown),
        (f32::INFINITY, 10.0, Unknown),
        (10.0, f32::INFINITY, Unknown),
    ] {
        assert_eq!(lamp(gap, speed), answer, "gap {gap}, speed {speed}");
    }
}

#[test]
fn the_lamp_leaves_the_seconds_unless_it_gives_them() {
    for (gap, speed, answer, after) in [
        (-1.0, 5.0, 0, f32::from_bits(0x7FA0_0001)),
        (1.0, 0.5, 1, f32::from_bits(0x7FA0_0001)),
        (1.0, 4.0, 2, 0.25),
    ] {
        let mut seconds = f32::from_bits(0x7FA0_0001);
        assert_eq!(lamp_answer(gap, speed, &mut seconds), answer);
        assert_eq!(seconds.to_bits(), after.to_bits());
    }
}

/// A quotient of 53 bits is exact enough that rounding it to 24 is rounding once.
#[test]
fn the_lamp_rounds_once() {
    let mut random = Random::new(1);
    for _ in 0..200_000 {
        let gap = f32::from_bits(random.between(0, WIDEST_GAP.to_bits().into()) as u32);
        let [low, high] = [1.0, HIGHEST_SPEED].map(|bound: f32| i64::from(bound.to_bits()));
        let speed = f32::from_bits(random.between(low, high) as u32);
        let once = (f64::from(gap) / f64::from(speed)) as f32;
        assert_eq!(lamp(gap, speed), Lamp::Seconds(once), "gap {gap}, speed {speed}");
    }
}
