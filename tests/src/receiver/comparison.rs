//! The library's receiver beside the second implementation: each call goes to
//! both, and answer, output, all bytes lent and the receiver's image must agree.

use super::scenes::Calls;
use super::tally::{self, Before, Received};
use super::{Receiver, RECEIVER_BYTES, SHOWN_BYTES, SHOW_OUTPUT};
use crate::ffi;
use crate::random::Random;
use crate::tally::Tally;
use std::process::exit;

/// Bytes on either side of lent memory that nobody may touch: an odd number, so
/// that what is lent begins at no even address.
const GUARD: usize = 61;

/// Calls that are printed at a difference, the last of the list.
const PRINTED: usize = 20;

/// Memory lent to a call, with its guards and as it was before.
pub struct Lent {
    whole: Vec<u8>,
    before: Vec<u8>,
}

impl Lent {
    pub fn new(bytes: &[u8], random: &mut Random) -> Lent {
        let mut whole = vec![0; bytes.len() + 2 * GUARD];
        random.fill(&mut whole);
        whole[GUARD..GUARD + bytes.len()].copy_from_slice(bytes);
        Lent { before: whole.clone(), whole }
    }

    /// So many bytes of any content.
    pub fn any(length: usize, random: &mut Random) -> Lent {
        let mut bytes = vec![0; length];
        random.fill(&mut bytes);
        Lent::new(&bytes, random)
    }

    pub fn bytes(&self) -> &[u8] {
        &self.whole[GUARD..self.whole.len() - GUARD]
    }

    pub fn bytes_mut(&mut self) -> &mut [u8] {
        let end = self.whole.len() - GUARD;
        &mut self.whole[GUARD..end]
    }

    pub fn as_lent(&self) -> bool {
        self.whole == self.before
    }

    /// Whether everything but the first `written` bytes is as lent.
    pub fn as_lent_beyond(&self, written: usize) -> bool {
        let after = GUARD + written;
        self.whole[..GUARD] == self.before[..GUARD] && self.whole[after..] == self.before[after..]
    }

    /// What is there now counts as lent from here on.
    fn lend_again(&mut self) {
        self.before.copy_from_slice(&self.whole);
    }
}

pub struct ReceiverComparison {
    memory: Lent,
    pub reference: Receiver,
    pub random: Random,
    pub tally: Tally,
    /// What is being tried, for the dump of a difference.
    part: String,
    seed: u64,
    /// The calls with a message since the receiver was empty.
    received: Vec<Received>,
    pub calls: u64,
}

impl ReceiverComparison {
    pub fn new(tally: Tally) -> ReceiverComparison {
        let mut random = Random::new(0);
        ReceiverComparison {
            memory: Lent::any(RECEIVER_BYTES, &mut random),
            reference: Receiver::default(),
            random,
            tally,
            part: String::new(),
            seed: 0,
            received: Vec::new(),
            calls: 0,
        }
    }

    /// An empty receiver on both sides, made in memory of any content, and a fresh
    /// source of random numbers.
    pub fn restart(&mut self, part: &str, seed: u64) {
        self.part = part.to_string();
        self.seed = seed;
        self.random = Random::new(seed);
        self.empty();
    }

    pub fn empty(&mut self) {
        self.received.clear();
        self.reference = Receiver::default();
        self.memory = Lent::any(RECEIVER_BYTES, &mut self.random);
        let answer = ffi::receiver_empty(self.memory.bytes_mut());
        if answer != 0 {
            self.fail(&format!("yoldrim_receiver_empty answers {answer}"));
        }
        self.calls += 1;
        self.same_image();
    }

    /// The library's receiver, the bytes that both sides agree on.
    pub fn image(&self) -> [u8; RECEIVER_BYTES] {
        self.memory.bytes().try_into().expect("as long as a receiver")
    }

    /// From here on the library's receiver is a copy of it in other memory.
    pub fn lend_a_copy(&mut self) {
        let image = self.image();
        self.memory = Lent::new(&image, &mut self.random);
    }

    /// Ends the run if the library's receiver is not the expected image, byte for
    /// byte, or its guards are not as they were.
    fn same_image(&mut self) {
        let expected = self.reference.image();
        if self.memory.bytes() != expected || !self.memory.as_lent_beyond(RECEIVER_BYTES) {
            println!("expected image:\n{}", rows(&expected));
            println!("image found:\n{}", rows(self.memory.bytes()));
            self.fail("the receiver's bytes or those around them differ");
        }
        self.memory.lend_again();
    }

    /// One call with a message on both sides; ends the run at a difference. The
    /// answer both gave.
    pub fn receive(&mut self, tick: u32, sender: u32, message: &[u8]) -> i32 {
        let accepted = self.reference.accepted().len();
        let lent = Lent::new(message, &mut self.random);
        let wanted = self.reference.receive(tick, sender, message);
        let answer = ffi::receive(self.memory.bytes_mut(), tick, sender, lent.bytes());
        let call = Received { tick, sender, message: message.to_vec(), answer: wanted };
        let before =
            Before { received: &self.received, accepted: &self.reference.accepted()[..accepted] };
        tally::received(&mut self.tally, &before, &call);
        self.received.push(call);
        self.calls += 1;
        if answer != wanted {
            self.fail(&format!("the library answers {answer}"));
        }
        if !lent.as_lent() {
            self.fail("the library wrote into the message");
        }
        self.same_image();
        answer
    }

    /// The call without a tick on both sides, with so many bytes of output, which
    /// hold anything; ends the run at a difference. The answer both gave, and what
    /// the output holds.
    pub fn show(&mut self, length: usize) -> (i32, Vec<u8>) {
        let mut lent = Lent::any(length, &mut self.random);
        let mut expected = lent.bytes().to_vec();
        let wanted = self.reference.show(&mut expected);
        let answer = ffi::show(self.memory.bytes(), lent.bytes_mut());
        let accepted = self.reference.accepted();
        let before = Before { received: &self.received, accepted };
        tally::shown(&mut self.tally, &before, &self.reference, length, wanted);
        self.calls += 1;
        if answer != wanted {
            self.fail(&format!("show with {length} bytes: {answer}, not {wanted}"));
        }
        if lent.bytes() != expected || !lent.as_lent_beyond(length) {
            println!("expected output:\n{}", rows(&expected));
            println!("output found:\n{}", rows(lent.bytes()));
            self.fail("the output or the bytes around it differ");
        }
        self.same_image();
        (answer, expected)
    }

    /// Ends the run over a difference.
    pub fn fail(&self, what: &str) -> ! {
        println!("DIFFERENCE: {what}");
        println!("part: {}", self.part);
        println!("seed: {}", self.seed);
        println!("calls with a message since the receiver was empty: {}", self.received.len());
        let first = self.received.len().saturating_sub(PRINTED);
        for call in &self.received[first..] {
            println!("tick {}, sender {}: reference {}", call.tick, call.sender, call.answer);
            println!("    {}", hex(&call.message));
        }
        exit(1)
    }
}

impl Calls for ReceiverComparison {
    fn receive(&mut self, tick: u32, sender: u32, message: &[u8]) -> i32 {
        ReceiverComparison::receive(self, tick, sender, message)
    }

    fn shown(&mut self) -> Vec<u8> {
        let (messages, mut out) = self.show(SHOW_OUTPUT);
        out.truncate(messages as usize * SHOWN_BYTES);
        out
    }
}

fn hex(bytes: &[u8]) -> String {
    bytes.iter().map(|byte| format!("{byte:02x}")).collect()
}

/// Hexadecimal rows of eight bytes.
fn rows(bytes: &[u8]) -> String {
    bytes.chunks(8).map(hex).collect::<Vec<_>>().join("\n")
}
