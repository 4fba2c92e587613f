//! Two units side by side: each call goes to both, and answer, lent memory, input
//! memory and, where the call may not change it, the engine's bytes must agree.

use crate::random::Random;
use crate::reference::{Message, Reference, MESSAGE_BYTES};
use crate::tally::{Call, Tally};
use crate::unit::Unit;
use std::process::exit;

mod busiest;

/// Bytes on either side of the lent memory that nobody may touch.
const GUARD: usize = 64;

pub struct Comparison<'a> {
    unit: &'a mut dyn Unit,
    pub reference: Reference,
    pub random: Random,
    pub tally: Tally,
    /// What is being tried, for the dump of a difference.
    part: String,
    seed: u64,
    /// Calls since the engine was fresh.
    call_number: u64,
    pub calls: u64,
    pub samples: u64,
    pub messages: u64,
}

/// One call as both sides saw it; `lent` and `memory` are the lent memory with its
/// guards, before and after.
struct Outcome<'a> {
    call: Call,
    input: &'a [u8],
    lent: &'a [u8],
    answers: [i32; 2],
    memory: [&'a [u8]; 2],
}

impl<'a> Comparison<'a> {
    pub fn new(unit: &'a mut dyn Unit, tally: Tally) -> Comparison<'a> {
        Comparison {
            unit,
            reference: Reference::default(),
            random: Random::new(0),
            tally,
            part: String::new(),
            seed: 0,
            call_number: 0,
            calls: 0,
            samples: 0,
            messages: 0,
        }
    }

    /// Fresh engines on both sides, and a fresh source of random numbers.
    pub fn restart(&mut self, part: &str, seed: u64) {
        self.part = part.to_string();
        self.seed = seed;
        self.random = Random::new(seed);
        self.call_number = 0;
        self.fresh();
    }

    pub fn fresh(&mut self) {
        self.unit.fresh();
        self.reference.fresh();
    }

    /// The unit's engine as bytes, where it shows them.
    pub fn image(&self) -> &[u8] {
        self.unit.image()
    }

    /// T, as the reference has it.
    pub fn taken(&self) -> usize {
        self.reference.taken()
    }

    /// Makes one call on both sides with `lent` bytes of output; ends the run
    /// at a difference. The answer both gave.
    pub fn call(&mut self, call: Call, input: &[u8], lent: usize) -> i32 {
        self.call_for_output(call, input, lent).0
    }

    /// `call`, with what the output holds after it.
    pub fn call_for_output(&mut self, call: Call, input: &[u8], lent: usize) -> (i32, Vec<u8>) {
        let before = self.memory(lent);
        self.on_both_sides(call, input, before)
    }

    /// Makes one call that alters a lent block (CR 6), here `block`, on both sides;
    /// ends the run at a difference. The answer both gave.
    pub fn alter(&mut self, call: Call, sample: &[u8], block: &mut [u8]) -> i32 {
        let mut before = self.memory(block.len());
        before[GUARD..GUARD + block.len()].copy_from_slice(block);
        let (answer, after) = self.on_both_sides(call, sample, before);
        block.copy_from_slice(&after);
        answer
    }

    /// Memory of any content, so many bytes between two guards.
    fn memory(&mut self, lent: usize) -> Vec<u8> {
        let mut memory = vec![0; lent + 2 * GUARD];
        self.random.fill(&mut memory);
        memory
    }

    /// Makes one call on both sides, each with its own copy of `before`, the lent memory
    /// with its guards. The answer both gave, and what the lent memory holds after it.
    fn on_both_sides(&mut self, call: Call, input: &[u8], before: Vec<u8>) -> (i32, Vec<u8>) {
        self.call_number += 1;
        self.calls += 1;
        let lent = GUARD..before.len() - GUARD;
        let (mut expected, mut found) = (before.clone(), before.clone());
        let image = self.unit.image().to_vec();
        let tick = self.taken();
        let given = self.reference.history.messages().len();
        // Each side has its own copy: a unit that wrote into its input would
        // otherwise mislead the other.
        let unit_input = input.to_vec();

        let wanted = ask(&mut self.reference, call, input, &mut expected[lent.clone()]);
        let answer = ask(self.unit, call, &unit_input, &mut found[lent.clone()]);

        let outcome = Outcome {
            call,
            input,
            lent: &before,
            answers: [wanted, answer],
            memory: [&expected, &found],
        };
        self.agree(&outcome);
        if unit_input != input {
            self.differ("the unit wrote into its input", &outcome);
        }
        if (wanted < 0 || !call.is_given_the_engine()) && self.unit.image() != image {
            self.differ("the engine's bytes changed", &outcome);
        }
        self.tally.answered(call, input, &before[lent.clone()], answer);
        self.tally_ticks(tick, given);
        (answer, expected[lent].to_vec())
    }

    fn agree(&self, outcome: &Outcome) {
        let ([wanted, answer], [expected, found]) = (outcome.answers, outcome.memory);
        if answer != wanted {
            self.differ("the answers differ", outcome);
        }
        if found != expected {
            self.differ("the lent memory differs", outcome);
        }
        if wanted < 0 && expected != outcome.lent {
            self.differ("the reference wrote though it refused", outcome);
        }
    }

    /// Counts what occurred at the ticks from `tick` on, whose messages begin
    /// at place `given`, and has each message checked on both sides.
    fn tally_ticks(&mut self, tick: usize, given: usize) {
        let history = &self.reference.history;
        let messages: Vec<Message> = history.messages()[given..].to_vec();
        let mut rest = &messages[..];
        for i in tick..history.samples().len() {
            let here = rest.iter().take_while(|m| m.reference as usize == i).count();
            self.tally.ticked(history, i, &rest[..here]);
            rest = &rest[here..];
            self.samples += 1;
        }
        self.messages += messages.len() as u64;
        for message in &messages {
            self.call(Call::MessageCheck, &message.record(), 0);
        }
    }

    /// Ends the run over a difference outside a call's outcome.
    pub fn fail(&self, what: &str) -> ! {
        println!("DIFFERENCE: {what}");
        println!("part: {}", self.part);
        println!("seed: {}", self.seed);
        println!("call number since fresh: {}", self.call_number);
        println!("samples taken: {}", self.taken());
        exit(1)
    }

    fn differ(&self, what: &str, outcome: &Outcome) -> ! {
        println!("call: {}, {} bytes of input", outcome.call.name(), outcome.input.len());
        println!("input: {}", hex(outcome.input));
        println!("memory lent: {} bytes", outcome.lent.len() - 2 * GUARD);
        println!("lent memory with its guards, as lent:\n{}", rows(outcome.lent));
        for (side, name) in ["reference", "unit"].iter().enumerate() {
            println!("{name}'s answer: {}", outcome.answers[side]);
            println!("{name}'s lent memory with its guards:\n{}", rows(outcome.memory[side]));
        }
        self.fail(what)
    }
}

/// `lent` is the output, or the block that the call alters.
fn ask(unit: &mut dyn Unit, call: Call, input: &[u8], lent: &mut [u8]) -> i32 {
    match call {
        Call::Sample => unit.sample(input, lent),
        Call::Block => unit.block(input, lent),
        Call::BlockRead => unit.block_read(input, lent),
        Call::BlockWrite => unit.block_write(input, lent),
        Call::BlockAppend => unit.block_append(lent, input),
        Call::BlockStrikeOut => unit.block_strike_out(lent),
        Call::MessageCheck => unit.message_check(input),
    }
}

fn hex(bytes: &[u8]) -> String {
    bytes.iter().map(|byte| format!("{byte:02x}")).collect()
}

/// Hexadecimal rows of a message's length.
fn rows(bytes: &[u8]) -> String {
    bytes.chunks(MESSAGE_BYTES).map(hex).collect::<Vec<_>>().join("\n")
}
