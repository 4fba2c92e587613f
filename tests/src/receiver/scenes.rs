//! Lists of calls on an empty receiver with the answers that CR 4 gives them,
//! written by hand.

use super::SHOWN_BYTES;
use crate::reference::{kind, Message, POST_CRASH, STOPPED, UNRESPONSIVE_DRIVER};

pub struct Scene {
    pub name: &'static str,
    pub steps: Vec<Step>,
}

pub enum Step {
    /// A call that brings a tick, a sender and a message, and its answer.
    Receive { tick: u32, sender: u32, message: Vec<u8>, answer: i32 },
    /// The senders and messages that the call without a tick writes.
    Show(Vec<(u32, Message)>),
}

/// What a scene runs on.
pub trait Calls {
    fn receive(&mut self, tick: u32, sender: u32, message: &[u8]) -> i32;

    /// What the call without a tick writes.
    fn shown(&mut self) -> Vec<u8>;
}

impl Scene {
    /// Makes the calls in turn; an error at the first that is answered otherwise.
    pub fn run(&self, calls: &mut impl Calls) -> Result<(), String> {
        for (place, step) in self.steps.iter().enumerate() {
            step.run(calls).map_err(|what| format!("{}, step {place}: {what}", self.name))?;
        }
        Ok(())
    }
}

impl Step {
    fn run(&self, calls: &mut impl Calls) -> Result<(), String> {
        match self {
            Step::Receive { tick, sender, message, answer } => {
                let found = calls.receive(*tick, *sender, message);
                (found == *answer).then_some(()).ok_or(format!("answer {found}, not {answer}"))
            }
            Step::Show(held) => {
                let bytes = |(sender, message): &(u32, Message)| {
                    [&sender.to_le_bytes()[..], &message.record()].concat()
                };
                let wanted: Vec<u8> = held.iter().flat_map(bytes).collect();
                let found = calls.shown();
                let messages = found.len() / SHOWN_BYTES;
                let what = format!("{messages} messages shown: {found:?}, not {wanted:?}");
                (found == wanted).then_some(()).ok_or(what)
            }
        }
    }
}

// --------------------------------------------------------------- the messages

/// A New of warning 1: validity 30, so it lapses 300 ticks after its arrival.
pub fn new(event: u32, reference: u32) -> Message {
    Message {
        kind: kind::NEW,
        warning: STOPPED,
        sub_cause: 0,
        cause: 94,
        quality: 1,
        road_type: 1,
        direction: 1,
        stationary_since: 0,
        event,
        detection: reference,
        reference,
        east: -120,
        north: 4_500,
        heading: 900,
        validity: 30,
    }
}

pub fn update(event: u32, reference: u32) -> Message {
    Message { kind: kind::UPDATE, stationary_since: 1, ..new(event, reference) }
}

/// The Cancel of a New at tick 0.
pub fn cancel(event: u32, reference: u32) -> Message {
    Message { kind: kind::CANCEL, detection: 0, ..new(event, reference) }
}

/// The message as one of warning 3: validity 180, so 1,800 ticks.
pub fn of_3(message: Message) -> Message {
    Message { warning: POST_CRASH, sub_cause: 3, validity: 180, ..message }
}

/// The message as one of warning 4: validity 2, so 20 ticks.
pub fn of_4(message: Message) -> Message {
    Message { warning: UNRESPONSIVE_DRIVER, sub_cause: 8, cause: 99, validity: 2, ..message }
}

// ------------------------------------------------------------------- the steps

fn call(tick: u32, sender: u32, message: &[u8], answer: i32) -> Step {
    Step::Receive { tick, sender, message: message.to_vec(), answer }
}

/// The call is accepted.
pub fn accepts(tick: u32, sender: u32, message: Message) -> Step {
    call(tick, sender, &message.record(), 1)
}

/// The call is refused with this number.
fn refuses(number: i32, tick: u32, sender: u32, message: Message) -> Step {
    call(tick, sender, &message.record(), -number)
}

fn shows(held: &[(u32, Message)]) -> Step {
    Step::Show(held.to_vec())
}

fn scene(name: &'static str, steps: Vec<Step>) -> Scene {
    Scene { name, steps }
}

/// Senders 11 to 18 with the same message, one at each tick from this on.
fn eight(tick: u32, message: Message) -> Vec<Step> {
    (0..8).map(|place| accepts(tick + place, 11 + place, message)).collect()
}

/// A scene that goes on from there.
fn eight_then(name: &'static str, tick: u32, message: Message, then: Vec<Step>) -> Scene {
    let mut steps = eight(tick, message);
    steps.extend(then);
    scene(name, steps)
}

/// The eight as shown, but for the senders given, with these beside them.
fn shows_eight_but(left_out: &[u32], message: Message, others: &[(u32, Message)]) -> Step {
    let kept = (11..=18).filter(|sender| !left_out.contains(sender));
    let mut held: Vec<(u32, Message)> = kept.map(|sender| (sender, message)).collect();
    held.extend(others);
    held.sort_by_key(|(sender, _)| *sender);
    Step::Show(held)
}

pub fn all() -> Vec<Scene> {
    let mut scenes = newer_messages();
    scenes.extend(cancels());
    scenes.extend(lapses());
    scenes.extend(ticks());
    scenes.extend(refused_calls());
    scenes.extend(senders());
    scenes.extend(nine_senders());
    scenes.extend(nine_senders_and_lapses());
    scenes.extend(order_of_refusals());
    scenes
}

/// "A message is newer if its event is higher, or the event is equal and its
/// reference tick higher."
fn newer_messages() -> Vec<Scene> {
    vec![
        scene("an empty receiver shows nothing", vec![shows(&[])]),
        scene(
            "an Update may come first, and a New of its event after it",
            vec![
                accepts(50, 7, update(3, 450)),
                shows(&[(7, update(3, 450))]),
                refuses(32, 50, 7, new(3, 300)),
                accepts(50, 7, new(3, 451)),
                shows(&[(7, new(3, 451))]),
            ],
        ),
        scene(
            "the event is looked at first, the reference tick where it is equal",
            vec![
                accepts(0, 7, new(5, 1_000)),
                refuses(32, 1, 7, new(4, 9_999_999)),
                refuses(32, 1, 7, new(4, 1_000)),
                refuses(32, 1, 7, new(5, 999)),
                refuses(32, 1, 7, new(5, 1_000)),
                refuses(32, 1, 7, update(5, 1_000)),
                accepts(1, 7, new(5, 1_001)),
                accepts(1, 7, new(6, 0)),
                accepts(1, 7, new(10_000_000, 0)),
                accepts(1, 7, new(10_000_000, 9_999_999)),
                refuses(32, 1, 7, new(10_000_000, 9_999_999)),
                shows(&[(7, new(10_000_000, 9_999_999))]),
            ],
        ),
        scene(
            "high bytes weigh more than low ones",
            vec![
                accepts(0, 7, new(255, 65_535)),
                accepts(0, 7, new(255, 65_536)),
                accepts(0, 7, new(256, 0)),
                refuses(32, 0, 7, new(255, 65_537)),
                accepts(0, 7, new(65_536, 255)),
                refuses(32, 0, 7, new(65_535, 256)),
                shows(&[(7, new(65_536, 255))]),
            ],
        ),
        scene(
            "what another sender sent decides nothing",
            vec![
                accepts(0, 7, new(5, 500)),
                accepts(0, 8, new(1, 100)),
                refuses(32, 0, 7, new(1, 101)),
                accepts(0, 8, new(1, 101)),
                shows(&[(7, new(5, 500)), (8, new(1, 101))]),
            ],
        ),
    ]
}

/// "A Cancel is held, unshown, until it lapses".
fn cancels() -> Vec<Scene> {
    vec![
        scene(
            "a stop: New, Update, Cancel",
            vec![
                accepts(8_300, 7, new(1, 300)),
                shows(&[(7, new(1, 300))]),
                accepts(8_450, 7, update(1, 450)),
                shows(&[(7, update(1, 450))]),
                accepts(8_510, 7, cancel(1, 510)),
                shows(&[]),
            ],
        ),
        scene(
            "a Cancel and the next event's New of the same tick, in turn",
            vec![
                accepts(100, 7, new(1, 300)),
                accepts(110, 7, cancel(1, 310)),
                shows(&[]),
                accepts(110, 7, of_3(new(2, 310))),
                shows(&[(7, of_3(new(2, 310)))]),
            ],
        ),
        scene(
            "a Cancel and the next event's New of the same tick, swapped",
            vec![
                accepts(100, 7, new(1, 300)),
                accepts(110, 7, of_3(new(2, 310))),
                refuses(32, 110, 7, cancel(1, 310)),
                shows(&[(7, of_3(new(2, 310)))]),
            ],
        ),
        scene(
            "a Cancel at its New's reference tick is no newer",
            vec![
                accepts(0, 7, new(1, 300)),
                refuses(32, 0, 7, cancel(1, 300)),
                shows(&[(7, new(1, 300))]),
                accepts(0, 7, cancel(1, 301)),
                refuses(32, 0, 7, update(1, 301)),
                shows(&[]),
                accepts(0, 7, update(1, 302)),
                shows(&[(7, update(1, 302))]),
            ],
        ),
        scene(
            "a Cancel may come first; its New is refused while it is held",
            vec![
                accepts(1_000, 7, cancel(1, 360)),
                shows(&[]),
                refuses(32, 1_299, 7, new(1, 300)),
                accepts(1_299, 8, new(1, 5)),
                shows(&[(8, new(1, 5))]),
            ],
        ),
        scene(
            "a late New is accepted and shown again once its Cancel has lapsed",
            vec![
                accepts(700, 7, new(1, 300)),
                accepts(1_000, 7, cancel(1, 360)),
                refuses(32, 1_299, 7, new(1, 300)),
                shows(&[]),
                accepts(1_300, 7, new(1, 300)),
                shows(&[(7, new(1, 300))]),
            ],
        ),
        scene(
            "a Cancel's arrival counts, and not that of what it cancels",
            vec![
                accepts(0, 7, new(1, 300)),
                accepts(299, 7, cancel(1, 599)),
                refuses(32, 300, 7, new(1, 300)),
                refuses(32, 598, 7, new(1, 300)),
                accepts(599, 7, new(1, 300)),
            ],
        ),
    ]
}

/// "It has lapsed once 10 times its validity in ticks have passed since arrival."
fn lapses() -> Vec<Scene> {
    vec![
        scene(
            "validity 2: held for 20 ticks, and shown by the last accepted tick",
            vec![
                accepts(40, 7, of_4(new(1, 9))),
                accepts(59, 8, new(1, 5)),
                shows(&[(7, of_4(new(1, 9))), (8, new(1, 5))]),
                accepts(60, 8, new(1, 6)),
                shows(&[(8, new(1, 6))]),
            ],
        ),
        scene(
            "validity 180: held for 1,800 ticks",
            vec![
                accepts(40, 7, of_3(new(1, 9))),
                accepts(1_839, 8, new(1, 5)),
                shows(&[(7, of_3(new(1, 9))), (8, new(1, 5))]),
                refuses(32, 1_839, 7, of_3(new(1, 9))),
                accepts(1_840, 8, new(1, 6)),
                shows(&[(8, new(1, 6))]),
            ],
        ),
        scene(
            "a message of short validity replaces one of long validity, which does not come back",
            vec![
                accepts(0, 7, of_3(new(1, 100))),
                accepts(10, 7, of_4(new(2, 200))),
                accepts(29, 8, new(1, 5)),
                shows(&[(7, of_4(new(2, 200))), (8, new(1, 5))]),
                refuses(32, 29, 7, of_3(new(1, 101))),
                accepts(30, 8, new(1, 6)),
                shows(&[(8, new(1, 6))]),
                accepts(31, 7, of_3(new(1, 100))),
                shows(&[(7, of_3(new(1, 100))), (8, new(1, 6))]),
            ],
        ),
        scene(
            "a message of long validity replaces one of short validity and outlasts it",
            vec![
                accepts(0, 7, of_4(new(1, 100))),
                accepts(19, 7, of_3(new(2, 110))),
                refuses(32, 1_818, 7, new(2, 110)),
                accepts(1_819, 7, new(2, 110)),
            ],
        ),
        scene(
            "a sender whose message has lapsed may bring an older event",
            vec![
                accepts(0, 7, new(9, 900)),
                refuses(32, 299, 7, new(8, 901)),
                accepts(300, 7, new(1, 1)),
                shows(&[(7, new(1, 1))]),
                refuses(32, 599, 7, new(1, 1)),
            ],
        ),
        scene(
            "a sender whose message has lapsed may bring the same record, again and again",
            vec![
                accepts(0, 7, new(9, 900)),
                accepts(300, 7, new(9, 900)),
                shows(&[(7, new(9, 900))]),
                refuses(32, 599, 7, new(9, 900)),
                accepts(600, 7, new(9, 900)),
                accepts(5_000, 7, new(9, 900)),
                shows(&[(7, new(9, 900))]),
            ],
        ),
        scene(
            "it has lapsed however far the clock has moved",
            vec![
                accepts(5, 7, new(9, 900)),
                accepts(0x8000_0200, 8, of_4(new(1, 1))),
                shows(&[(8, of_4(new(1, 1)))]),
                accepts(0x8000_0200, 7, new(9, 900)),
                accepts(0xFFFF_FFFF, 9, new(1, 1)),
                shows(&[(9, new(1, 1))]),
            ],
        ),
        scene(
            "a newer message begins its own time",
            vec![
                accepts(0, 7, new(1, 300)),
                accepts(299, 7, update(1, 301)),
                accepts(598, 8, new(1, 1)),
                shows(&[(7, update(1, 301)), (8, new(1, 1))]),
                accepts(599, 8, new(1, 2)),
                shows(&[(8, new(1, 2))]),
            ],
        ),
    ]
}

/// "with 31 a tick below the last accepted one"; the clock has 32 bits and does not
/// begin again.
fn ticks() -> Vec<Scene> {
    const LAST: u32 = u32::MAX;
    vec![
        scene(
            "an equal tick passes, a lower one is refused, of any sender",
            vec![
                accepts(1_000, 7, new(1, 1)),
                accepts(1_000, 8, new(1, 1)),
                accepts(1_000, 7, new(1, 2)),
                refuses(31, 999, 9, new(1, 1)),
                refuses(31, 999, 7, new(1, 3)),
                refuses(31, 0, 9, new(1, 1)),
                accepts(1_001, 9, new(1, 1)),
                refuses(31, 1_000, 7, new(1, 3)),
                shows(&[(7, new(1, 2)), (8, new(1, 1)), (9, new(1, 1))]),
            ],
        ),
        scene(
            "the first call may bring any tick, the highest too",
            vec![
                accepts(LAST, 7, new(1, 1)),
                refuses(31, LAST - 1, 8, new(1, 1)),
                refuses(31, 0, 8, new(1, 1)),
                accepts(LAST, 8, new(1, 1)),
                shows(&[(7, new(1, 1)), (8, new(1, 1))]),
            ],
        ),
        scene(
            "tick 0 comes first and again",
            vec![
                accepts(0, 7, new(1, 1)),
                accepts(0, 8, new(1, 1)),
                shows(&[(7, new(1, 1)), (8, new(1, 1))]),
            ],
        ),
        scene(
            "a message lapses at the clock's last tick",
            vec![
                accepts(LAST - 300, 7, new(1, 1)),
                refuses(32, LAST - 1, 7, new(1, 1)),
                accepts(LAST, 7, new(1, 1)),
                refuses(32, LAST, 7, new(1, 1)),
                shows(&[(7, new(1, 1))]),
            ],
        ),
        scene(
            "a message that the clock's last tick finds unlapsed stays",
            vec![
                accepts(LAST - 299, 7, new(1, 1)),
                accepts(LAST - 20, 8, of_4(new(1, 1))),
                accepts(LAST - 19, 9, of_4(new(1, 1))),
                refuses(32, LAST, 7, new(1, 1)),
                refuses(32, LAST, 9, of_4(new(1, 1))),
                accepts(LAST, 6, new(1, 1)),
                shows(&[(6, new(1, 1)), (7, new(1, 1)), (9, of_4(new(1, 1)))]),
                accepts(LAST, 8, of_4(new(1, 1))),
            ],
        ),
        scene(
            "ticks on both sides of 2^31",
            vec![
                accepts(0x7FFF_FFFF, 7, new(1, 1)),
                accepts(0x8000_0000, 8, new(1, 1)),
                refuses(31, 0x7FFF_FFFF, 9, new(1, 1)),
                refuses(32, 0x8000_012A, 7, new(1, 1)),
                accepts(0x8000_012B, 7, new(1, 1)),
                shows(&[(7, new(1, 1)), (8, new(1, 1))]),
            ],
        ),
    ]
}

/// A refused call moves no clock, renews no arrival, and lets nothing lapse.
fn refused_calls() -> Vec<Scene> {
    let bad = Message { cause: 95, ..new(1, 1) };
    vec![
        scene(
            "a call refused with 32 moves no clock",
            vec![
                accepts(100, 7, new(1, 1)),
                refuses(32, 399, 7, new(1, 1)),
                accepts(101, 8, new(1, 1)),
                shows(&[(7, new(1, 1)), (8, new(1, 1))]),
            ],
        ),
        eight_then(
            "a call refused with 33 moves no clock",
            100,
            new(1, 1),
            vec![
                refuses(33, 399, 7, new(1, 1)),
                accepts(107, 11, new(1, 2)),
                shows_eight_but(&[11], new(1, 1), &[(11, new(1, 2))]),
            ],
        ),
        scene(
            "a call refused with 13 or 14 moves no clock, not even the first",
            vec![
                call(5_000, 7, &new(1, 1).record()[..31], -13),
                refuses(14, 4_000, 7, bad),
                accepts(3, 7, new(1, 1)),
                call(5_000, 7, &[], -13),
                refuses(14, 4_000, 7, bad),
                accepts(4, 8, new(1, 1)),
                shows(&[(7, new(1, 1)), (8, new(1, 1))]),
            ],
        ),
        scene(
            "a repeat that is refused renews no arrival",
            vec![
                accepts(100, 7, new(1, 1)),
                refuses(32, 250, 7, new(1, 1)),
                refuses(32, 399, 7, new(1, 1)),
                accepts(400, 7, new(1, 1)),
            ],
        ),
        scene(
            "what is shown goes by the last accepted tick",
            vec![
                accepts(0, 7, of_4(new(1, 1))),
                accepts(10, 8, new(1, 1)),
                refuses(32, 250, 8, new(1, 1)),
                refuses(14, 9_000, 9, bad),
                shows(&[(7, of_4(new(1, 1))), (8, new(1, 1))]),
                accepts(19, 7, of_4(new(1, 2))),
                accepts(39, 8, new(1, 2)),
                shows(&[(8, new(1, 2))]),
            ],
        ),
    ]
}

/// "senders, named by a 32-bit number": all numbers alike, and unsigned.
fn senders() -> Vec<Scene> {
    vec![
        scene(
            "sender 0 is an ordinary one",
            vec![
                accepts(0, 0, new(1, 1)),
                shows(&[(0, new(1, 1))]),
                accepts(5, 3, new(1, 1)),
                refuses(32, 299, 0, new(1, 1)),
                accepts(299, 0, update(1, 2)),
                shows(&[(0, update(1, 2)), (3, new(1, 1))]),
                accepts(599, 0, cancel(1, 2)),
                shows(&[]),
            ],
        ),
        scene(
            "senders rise as unsigned numbers, in whatever order they came",
            vec![
                accepts(0, 0x8000_0000, new(1, 1)),
                accepts(0, 1, new(1, 2)),
                accepts(0, 0xFFFF_FFFF, new(1, 3)),
                accepts(0, 0x7FFF_FFFF, new(1, 4)),
                accepts(0, 0, new(1, 5)),
                accepts(0, 256, new(1, 6)),
                accepts(0, 255, new(1, 7)),
                shows(&[
                    (0, new(1, 5)),
                    (1, new(1, 2)),
                    (255, new(1, 7)),
                    (256, new(1, 6)),
                    (0x7FFF_FFFF, new(1, 4)),
                    (0x8000_0000, new(1, 1)),
                    (0xFFFF_FFFF, new(1, 3)),
                ]),
                accepts(0, 0x7FFF_FFFF, cancel(1, 5)),
                accepts(0, 0, cancel(1, 6)),
                shows(&[
                    (1, new(1, 2)),
                    (255, new(1, 7)),
                    (256, new(1, 6)),
                    (0x8000_0000, new(1, 1)),
                    (0xFFFF_FFFF, new(1, 3)),
                ]),
            ],
        ),
    ]
}

/// "with 33 a ninth sender while eight others are unlapsed".
fn nine_senders() -> Vec<Scene> {
    vec![
        eight_then(
            "a ninth sender is refused; each of the eight goes on",
            0,
            new(1, 300),
            vec![
                refuses(33, 7, 7, new(1, 300)),
                refuses(33, 7, 0, new(10_000_000, 9_999_999)),
                accepts(7, 13, update(1, 301)),
                refuses(33, 7, 19, cancel(1, 300)),
                shows_eight_but(&[13], new(1, 300), &[(13, update(1, 301))]),
            ],
        ),
        eight_then(
            "a Cancel counts among the eight",
            0,
            new(1, 300),
            vec![
                accepts(8, 13, cancel(1, 310)),
                refuses(33, 8, 7, new(1, 300)),
                shows_eight_but(&[13], new(1, 300), &[]),
                refuses(33, 299, 7, new(1, 300)),
                accepts(300, 7, new(1, 300)),
                shows_eight_but(&[11, 13], new(1, 300), &[(7, new(1, 300))]),
            ],
        ),
        eight_then(
            "eight Cancels: nothing is shown, and a ninth sender is refused until one has lapsed",
            0,
            cancel(1, 300),
            vec![
                shows(&[]),
                refuses(33, 299, 7, new(1, 300)),
                accepts(300, 7, new(1, 300)),
                shows(&[(7, new(1, 300))]),
            ],
        ),
    ]
}

/// Eight senders' messages lapse at the ticks 300 to 307.
fn nine_senders_and_lapses() -> Vec<Scene> {
    vec![
        eight_then(
            "a ninth sender is accepted at the very tick at which one of the eight has lapsed",
            0,
            new(1, 300),
            vec![
                refuses(33, 299, 9, new(1, 1)),
                shows_eight_but(&[], new(1, 300), &[]),
                accepts(300, 9, new(1, 1)),
                shows_eight_but(&[11], new(1, 300), &[(9, new(1, 1))]),
                refuses(33, 300, 11, new(1, 400)),
                refuses(33, 300, 19, new(1, 1)),
                accepts(301, 11, new(1, 300)),
                shows_eight_but(&[12], new(1, 300), &[(9, new(1, 1))]),
            ],
        ),
        eight_then(
            "a sender whose message has lapsed keeps no place",
            0,
            new(1, 300),
            vec![
                accepts(10, 11, of_4(new(2, 310))),
                refuses(33, 29, 9, new(1, 1)),
                accepts(30, 9, new(1, 1)),
                refuses(33, 30, 11, of_4(new(2, 311))),
                refuses(33, 300, 11, of_4(new(2, 311))),
                accepts(301, 11, of_4(new(1, 1))),
            ],
        ),
        eight_then(
            "several lapse at once, and as many senders may come",
            0,
            new(1, 300),
            vec![
                accepts(305, 1, new(1, 1)),
                shows_eight_but(&[11, 12, 13, 14, 15, 16], new(1, 300), &[(1, new(1, 1))]),
                accepts(305, 2, cancel(1, 1)),
                accepts(305, 3, cancel(1, 1)),
                accepts(305, 4, new(1, 1)),
                accepts(305, 5, new(1, 1)),
                accepts(305, 6, new(1, 1)),
                refuses(33, 305, 7, new(1, 1)),
                shows(&[
                    (1, new(1, 1)),
                    (4, new(1, 1)),
                    (5, new(1, 1)),
                    (6, new(1, 1)),
                    (17, new(1, 300)),
                    (18, new(1, 300)),
                ]),
            ],
        ),
    ]
}

/// "after 13 and 14, with 31 .., with 32 .., and with 33". 32 and 33 cannot be
/// due together: a sender with an unlapsed message has seven others at most.
fn order_of_refusals() -> Vec<Scene> {
    let bad = Message { cause: 95, ..new(1, 1) };
    vec![
        scene(
            "31 before 32, 14 before both, 13 before all",
            vec![
                accepts(100, 7, new(1, 1)),
                refuses(32, 100, 7, new(1, 1)),
                refuses(31, 99, 7, new(1, 1)),
                refuses(14, 99, 7, bad),
                refuses(14, 100, 7, bad),
                call(99, 7, &[&bad.record()[..], &[0]].concat(), -13),
            ],
        ),
        eight_then(
            "31 before 33, 14 before both, 13 before all; a repeat of the eight is 32",
            100,
            new(1, 1),
            vec![
                refuses(33, 107, 7, new(1, 1)),
                refuses(31, 106, 7, new(1, 1)),
                refuses(14, 106, 7, bad),
                refuses(14, 107, 7, bad),
                call(106, 7, &bad.record()[..31], -13),
                refuses(32, 107, 11, new(1, 1)),
                refuses(32, 399, 11, new(1, 1)),
                refuses(31, 106, 11, new(1, 1)),
            ],
        ),
    ]
}
