//! Compares a unit with the second implementation, byte for byte.
//!
//!     compare [library|receiver|plain] [count]
//!
//! `library`, the default, is the proved static library; `receiver` is its
//! receiver and lamp alone (CR 4); `plain` is the benchmark's engine. `count` is
//! the number of rounds of random days, and of lists of a receiver's calls beyond
//! those of every run; all else is the same in a short and a long run, ten million
//! samples for refusal 22 included. Exit status 1 at the first difference, or if a
//! rule never occurred.

use std::process::ExitCode;
use yoldrim_tests::comparison::Comparison;
use yoldrim_tests::days::{self, Day, Style};
use yoldrim_tests::faults::{self, flipped, Change, Trial};
use yoldrim_tests::random::Random;
use yoldrim_tests::reference::*;
use yoldrim_tests::scenes::{self, stopped, Scene};
use yoldrim_tests::tally::{self, Call, Tally};
use yoldrim_tests::{busiest, lent_block, plain, printing};
#[cfg(library)]
use yoldrim_tests::{ffi, layout, receiver};

const DEFAULT_ROUNDS: u64 = 250;
const SEED: u64 = 0x01;

fn main() -> ExitCode {
    let mut arguments = std::env::args().skip(1).peekable();
    let backend = arguments.next_if(|word| word.parse::<u64>().is_err());
    let backend = backend.unwrap_or_else(|| "library".to_string());
    let rounds = match arguments.next().map(|word| word.parse()) {
        None => DEFAULT_ROUNDS,
        Some(Ok(rounds)) => rounds,
        Some(Err(_)) => return usage(),
    };
    match backend.as_str() {
        "plain" => {
            compare(&mut Comparison::new(&mut plain::Engine::default(), Tally::new()), rounds)
        }
        "receiver" => compare_receiver(rounds),
        "library" => compare_library(rounds),
        _ => usage(),
    }
}

fn usage() -> ExitCode {
    eprintln!("usage: compare [library|receiver|plain] [count]");
    ExitCode::FAILURE
}

#[cfg(not(library))]
fn compare_library(_rounds: u64) -> ExitCode {
    eprintln!("compare: built without the library (../target/libyoldrim.a)");
    ExitCode::FAILURE
}

#[cfg(not(library))]
fn compare_receiver(rounds: u64) -> ExitCode {
    compare_library(rounds)
}

#[cfg(library)]
fn compare_receiver(rounds: u64) -> ExitCode {
    let comparison = receiver::trials::compare(rounds);
    if !all_occurred(&comparison.tally) {
        return ExitCode::FAILURE;
    }
    println!("compare: {} calls of receiver and lamp, 0 differences", comparison.calls);
    ExitCode::SUCCESS
}

#[cfg(library)]
fn compare_library(rounds: u64) -> ExitCode {
    if compare_receiver(rounds) != ExitCode::SUCCESS {
        return ExitCode::FAILURE;
    }
    let mut tally = Tally::new();
    images::declare(&mut tally);
    layout::declare(&mut tally);
    let mut library = ffi::Library::default();
    let mut comparison = Comparison::new(&mut library, tally);
    images::wrong_lengths(&mut comparison);
    layout::check(&mut comparison);
    compare(&mut comparison, rounds)
}

fn compare(comparison: &mut Comparison, rounds: u64) -> ExitCode {
    scenes_in_all_ways(comparison);
    edges_of_still(comparison);
    sample_faults(comparison);
    block_faults(comparison);
    writer_faults(comparison);
    message_faults(comparison);
    flipped_bits(comparison);
    junk(comparison);
    lent_block::check(comparison);
    busiest::check(comparison);
    ten_million(comparison);
    random_days(comparison, rounds);
    report(comparison)
}

/// Prints a tally; whether each of its rows occurred.
fn all_occurred(tally: &Tally) -> bool {
    tally.print();
    let never = tally.never_occurred();
    for row in &never {
        println!("NEVER OCCURRED: {row}");
    }
    never.is_empty()
}

fn report(comparison: &Comparison) -> ExitCode {
    if !all_occurred(&comparison.tally) {
        return ExitCode::FAILURE;
    }
    println!(
        "compare: {} calls, {} samples, {} messages, 0 differences",
        comparison.calls, comparison.samples, comparison.messages
    );
    ExitCode::SUCCESS
}

fn bytes_of(samples: &[Sample]) -> Vec<u8> {
    samples.iter().flat_map(Sample::to_bytes).collect()
}

// ------------------------------------------------------------- known examples

/// Each scene sample by sample, in full blocks and mixed, its lines as
/// the documents have them.
fn scenes_in_all_ways(comparison: &mut Comparison) {
    for scene in scenes::all() {
        play(comparison, &scene, |_| 0);
        play(comparison, &scene, |_| BLOCK_SAMPLES);
        play(comparison, &scene, |random| random.place(BLOCK_SAMPLES + 1));
    }
    block_check_example(comparison);
}

/// Plays a scene; `size` says how many samples the next block has, 0 for a
/// sample call.
fn play(comparison: &mut Comparison, scene: &Scene, size: impl Fn(&mut Random) -> usize) {
    comparison.restart(scene.name, SEED);
    let mut rest = &scene.samples[..];
    while !rest.is_empty() {
        let count = size(&mut comparison.random).min(rest.len());
        let answer = if count == 0 {
            comparison.call(Call::Sample, &rest[0].to_bytes(), SAMPLE_OUTPUT)
        } else {
            comparison.call(Call::Block, &block_of(&bytes_of(&rest[..count])), BLOCK_OUTPUT)
        };
        if answer < 0 {
            comparison.fail("a sample of a scene was refused");
        }
        rest = &rest[count.max(1)..];
    }
    let messages = comparison.reference.history.messages();
    let lines: Vec<String> = messages.iter().map(|m| printing::line(&m.record())).collect();
    if lines != scene.lines {
        comparison.fail(&format!("lines {lines:?} where the documents have {:?}", scene.lines));
    }
}

/// A block of one sample, its check added up by hand: tick 0, count 1, gear 3
/// at place 18 and switches 3 at place 19 of a bench stop's sample.
fn block_check_example(comparison: &mut Comparison) {
    comparison.restart("block check by hand", SEED);
    let block = block_of(&stopped(0).to_bytes());
    let by_hand: u32 = 5 + 19 * 3 + 20 * 3;
    if block[8..12] != by_hand.to_le_bytes() {
        comparison.fail("the check of the block added up by hand");
    }
    comparison.call(Call::BlockRead, &block, READER_OUTPUT);
    comparison.call(Call::BlockWrite, &stopped(0).to_bytes(), BLOCK_BYTES);
}

/// Speeds after which F is at, just above or just below its limit for still,
/// where a filter rounded in any other way goes wrong. The eCall button at the
/// last of them shows whether that tick is still.
fn edges_of_still(comparison: &mut Comparison) {
    for (_, edge) in tally::edges_of_still() {
        for seed in 0..60 {
            comparison.restart("edges of still", seed);
            let speeds = speeds_to(edge, &mut comparison.random);
            for (tick, &speed) in speeds.iter().enumerate() {
                let happenings = if tick + 1 == speeds.len() { happening::ECALL } else { 0 };
                let sample = Sample { speed, happenings, ..stopped(tick as u32) };
                comparison.call(Call::Sample, &sample.to_bytes(), SAMPLE_OUTPUT);
            }
        }
    }
}

/// Speeds that leave F at `edge`: random ones, and at each step the one that
/// would bring F nearest to 8 is tried as the last.
fn speeds_to(edge: f32, random: &mut Random) -> Vec<u16> {
    loop {
        let mut speeds = Vec::new();
        let mut filter = None;
        for _ in 0..40 {
            let fastest = random.pick(&[8, 12, 12, 60]);
            let speed = random.between(0, fastest) as u16;
            filter = filter_step(filter, Some(speed));
            speeds.push(speed);
            let last = (32.0 - 3.0 * filter.unwrap_or(0.0)).round();
            if last >= 0.0 && filter_step(filter, Some(last as u16)) == Some(edge) {
                speeds.push(last as u16);
                return speeds;
            }
        }
    }
}

// ---------------------------------------------------------- faults and order

/// Makes each change alone, then each pair of them, to the trial that `good`
/// gives for the present engine.
fn alone_and_in_pairs(
    comparison: &mut Comparison,
    call: Call,
    good: impl Fn(&Comparison) -> Trial,
    changes: impl Fn(&Comparison) -> Vec<Change>,
) {
    let is_block = matches!(call, Call::Block | Call::BlockRead);
    let total = changes(comparison).len();
    for first in 0..total {
        for second in first..total {
            let now = changes(comparison);
            let both = [now[first], now[second]];
            let made = if first == second { &both[..1] } else { &both[..] };
            let trial = good(comparison).changed(made, is_block);
            comparison.call(call, &trial.input, trial.lent);
        }
    }
}

/// A sample that is due now.
fn due_sample(comparison: &Comparison) -> Sample {
    Sample { east: -7, north: 11, heading: 900, ..stopped(comparison.taken() as u32) }
}

/// `count` samples that are due now.
fn due_samples(comparison: &Comparison, count: usize) -> Vec<u8> {
    let first = due_sample(comparison);
    let due = |place| Sample { tick: first.tick + place, ..first };
    bytes_of(&(0..count as u32).map(due).collect::<Vec<_>>())
}

fn due_block(comparison: &Comparison, count: usize) -> Trial {
    Trial::new(&block_of(&due_samples(comparison, count)), BLOCK_OUTPUT)
}

fn sample_faults(comparison: &mut Comparison) {
    comparison.restart("sample call, faults", SEED);
    sample_faults_now(comparison);
}

fn sample_faults_now(comparison: &mut Comparison) {
    let good = |c: &Comparison| Trial::new(&due_sample(c).to_bytes(), SAMPLE_OUTPUT);
    let changes = |c: &Comparison| faults::of_sample(c.taken());
    alone_and_in_pairs(comparison, Call::Sample, good, changes);
}

fn block_faults(comparison: &mut Comparison) {
    for count in [1, 7, 24, 25] {
        for call in [Call::Block, Call::BlockRead] {
            comparison.restart(&format!("{}, faults, count {count}", call.name()), SEED);
            block_faults_now(comparison, call, count);
        }
    }
}

fn block_faults_now(comparison: &mut Comparison, call: Call, count: usize) {
    let good = |c: &Comparison| due_block(c, count);
    let changes = |c: &Comparison| faults::of_block(count, c.taken());
    alone_and_in_pairs(comparison, call, good, changes);
}

fn writer_faults(comparison: &mut Comparison) {
    for count in [1, 2, 24, 25] {
        comparison.restart(&format!("block_write, faults, count {count}"), SEED);
        let good = |c: &Comparison| Trial::new(&due_samples(c, count), BLOCK_BYTES);
        alone_and_in_pairs(comparison, Call::BlockWrite, good, |_| faults::of_samples(count));
    }
}

fn message_faults(comparison: &mut Comparison) {
    for message in faults::good_messages() {
        comparison.restart("message_check, faults", SEED);
        let good = |_: &Comparison| Trial::new(&message.record(), 0);
        alone_and_in_pairs(comparison, Call::MessageCheck, good, |_| faults::of_message());
    }
}

// ----------------------------------------------------------- damaged and junk

/// Every single bit of some blocks and records, flipped. A block's check is
/// once left as it is and once made good, so that the samples are reached.
fn flipped_bits(comparison: &mut Comparison) {
    for (seed, count) in [(1, 1), (2, 9), (3, 25)] {
        comparison.restart("flipped bits of a block", seed);
        let mut day = Day::new(seed, days::TRAINING);
        let samples: Vec<Sample> = (0..count).map(|_| day.next_sample()).collect();
        let block = block_of(&bytes_of(&samples));
        for bit in 0..block.len() * 8 {
            let damaged = flipped(&block, bit);
            let mut sealed = damaged.clone();
            faults::seal(&mut sealed);
            for bytes in [damaged, sealed] {
                comparison.fresh();
                comparison.call(Call::Block, &bytes, BLOCK_OUTPUT);
                comparison.call(Call::BlockRead, &bytes, READER_OUTPUT);
            }
        }
        for bit in 0..samples.len() * SAMPLE_BYTES * 8 {
            comparison.call(Call::BlockWrite, &flipped(&bytes_of(&samples), bit), BLOCK_BYTES);
        }
    }
    comparison.restart("flipped bits of a record", SEED);
    for message in faults::good_messages() {
        for bit in 0..MESSAGE_BYTES * 8 {
            comparison.call(Call::MessageCheck, &flipped(&message.record(), bit), 0);
        }
    }
}

/// Bytes, lengths and lent memory at random, and records of random fields.
fn junk(comparison: &mut Comparison) {
    comparison.restart("junk", SEED);
    for _ in 0..28_000 {
        let call = comparison.random.pick(&Call::ALL);
        let length = comparison.random.pick(&[0, 20, 32, 100, 500, 512, 600]);
        let mut input = vec![0; length];
        if comparison.random.one_in(2) {
            comparison.random.fill(&mut input);
        }
        let lent =
            comparison.random.pick(&[0, 31, 63, 64, 499, 500, 511, 512, 1_599, 1_600, 1_700]);
        comparison.call(call, &input, lent);
    }
    let changes = faults::of_message();
    for _ in 0..100_000 {
        let message = comparison.random.pick(&faults::good_messages());
        let some: Vec<Change> = (0..3).map(|_| comparison.random.pick(&changes)).collect();
        let trial = Trial::new(&message.record(), 0).changed(&some, false);
        comparison.call(Call::MessageCheck, &trial.input, 0);
    }
}

// ------------------------------------------------------------------ long days

/// Random days: each round has many short ones, where the start matters, some
/// of a few hours, one with stands past 15 minutes and one on a flatbed.
fn random_days(comparison: &mut Comparison, rounds: u64) {
    for round in 0..rounds {
        let seed = SEED + round * 1_000;
        for short in 0..20 {
            one_day(comparison, "short day", seed + short, days::TRAINING, 400);
            one_day(comparison, "short day", seed + 100 + short, days::QUIET, 1_200);
        }
        one_day(comparison, "training day", seed + 200, days::TRAINING, 15_000);
        one_day(comparison, "quiet day", seed + 300, days::QUIET, 15_000);
        one_day(comparison, "day of long stands", seed + 400, days::LONG_STANDS, 30_000);
        one_day(comparison, "day in traffic", seed + 500, days::TRAFFIC, 30_000);
        day_on_a_flatbed(comparison, seed + 600, 12_000);
    }
}

/// A day given to both sides in sample and block calls, with calls between that
/// are refused, or would be but for chance.
fn one_day(comparison: &mut Comparison, part: &str, seed: u64, style: Style, ticks: usize) {
    comparison.restart(part, seed);
    let mut day = Day::new(seed, style);
    while comparison.taken() < ticks {
        if comparison.random.one_in(6) {
            disturb(comparison, day.next_sample());
        }
        take_some(comparison, &mut day);
    }
}

/// A day on a flatbed, given as any day but with no calls between: its ways are laid
/// out by ticks, so that no sample of it may be left out.
fn day_on_a_flatbed(comparison: &mut Comparison, seed: u64, ticks: usize) {
    comparison.restart("day on a flatbed", seed);
    let mut day = Day::new(seed, days::FLATBED);
    while comparison.taken() < ticks {
        take_some(comparison, &mut day);
    }
}

/// Takes some of the day's samples by a sample call or as a block.
fn take_some(comparison: &mut Comparison, day: &mut Day) {
    let count = match comparison.random.place(8) {
        0..=2 => 0,
        3..=4 => BLOCK_SAMPLES,
        _ => 1 + comparison.random.place(BLOCK_SAMPLES),
    };
    if take(comparison, day, count) < 0 {
        comparison.fail("a sample of the day was refused");
    }
}

/// Takes the day's next sample by a sample call, or `count` of them as a block.
fn take(comparison: &mut Comparison, day: &mut Day, count: usize) -> i32 {
    let first = comparison.taken() as u32;
    let in_turn = |place: usize| Sample { tick: first + place as u32, ..day.next_sample() };
    let samples: Vec<Sample> = (0..count.max(1)).map(in_turn).collect();
    let spare = comparison.random.place(3) * comparison.random.place(80);
    if count == 0 {
        comparison.call(Call::Sample, &samples[0].to_bytes(), SAMPLE_OUTPUT + spare)
    } else {
        comparison.call(Call::Block, &block_of(&bytes_of(&samples)), BLOCK_OUTPUT + spare)
    }
}

/// One call with a change or two that mostly get it refused.
fn disturb(comparison: &mut Comparison, sample: Sample) {
    let tick = comparison.taken();
    let sample = Sample { tick: tick as u32, ..sample };
    let is_block = comparison.random.one_in(2);
    let (call, trial, changes) = if is_block {
        let count = 1 + comparison.random.place(BLOCK_SAMPLES);
        let later = |place| Sample { tick: sample.tick + place, ..sample };
        let samples: Vec<Sample> = (0..count as u32).map(later).collect();
        let trial = Trial::new(&block_of(&bytes_of(&samples)), BLOCK_OUTPUT);
        (Call::Block, trial, faults::of_block(count, tick))
    } else {
        (Call::Sample, Trial::new(&sample.to_bytes(), SAMPLE_OUTPUT), faults::of_sample(tick))
    };
    let some = [comparison.random.pick(&changes), comparison.random.pick(&changes)];
    let made = &some[..1 + comparison.random.place(2)];
    let trial = trial.changed(made, is_block);
    comparison.call(call, &trial.input, trial.lent);
}

/// Ten million samples, to reach 22: driving in full blocks, at last a training
/// day, so that high ticks come to messages; then faults at the end. Ignition
/// and belt stay on, as the reference walks back over the ticks they are off.
fn ten_million(comparison: &mut Comparison) {
    comparison.restart("ten million samples", SEED);
    while comparison.taken() < MOST_SAMPLES - 2_000 {
        let first = comparison.taken() as u32;
        let switches = switch::IGNITION | switch::BELT;
        let drive = |place| Sample { speed: 1_400, switches, ..stopped(first + place) };
        let samples: Vec<Sample> = (0..BLOCK_SAMPLES as u32).map(drive).collect();
        comparison.call(Call::Block, &block_of(&bytes_of(&samples)), BLOCK_OUTPUT);
    }
    let mut day = Day::new(SEED, days::TRAINING);
    while comparison.taken() < MOST_SAMPLES - 10 {
        take(comparison, &mut day, 0);
    }
    for count in [11, 25] {
        last_blocks(comparison, count);
    }
    while comparison.taken() < MOST_SAMPLES {
        take(comparison, &mut day, 0);
    }
    sample_faults_now(comparison);
    block_faults_now(comparison, Call::Block, 3);
}

/// Blocks that go past the last tick: refused by 22 unless an earlier sample
/// is refused first.
fn last_blocks(comparison: &mut Comparison, count: usize) {
    for change in faults::of_block(count, comparison.taken()) {
        let trial = due_block(comparison, count).changed(&[change], true);
        comparison.call(Call::Block, &trial.input, trial.lent);
        if comparison.taken() > MOST_SAMPLES - 10 {
            return;
        }
    }
}

/// Engines lent as bytes: what only the library can get wrong.
#[cfg(library)]
mod images {
    use super::*;

    pub fn declare(tally: &mut Tally) {
        tally.declare("image of another length refused 21");
        tally.declare("image of another length, input or output refused first");
    }

    /// "An image ... of another length, is refused with 21 in its place in the
    /// order": after 1 and 2, before all others; nothing is touched.
    pub fn wrong_lengths(comparison: &mut Comparison) {
        comparison.restart("images of another length", SEED);
        fresh_images(comparison);
        let lengths = [0, 1, ffi::ENGINE_BYTES - 1, ffi::ENGINE_BYTES + 1, 2 * ffi::ENGINE_BYTES];
        for length in lengths {
            let good = Trial::new(&due_sample(comparison).to_bytes(), SAMPLE_OUTPUT);
            for change in faults::of_sample(0) {
                let trial = good.changed(&[change], false);
                refused(comparison, Call::Sample, &trial, length);
            }
            let good = due_block(comparison, 5);
            for change in faults::of_block(5, 0) {
                let trial = good.changed(&[change], true);
                refused(comparison, Call::Block, &trial, length);
            }
        }
    }

    /// A fresh engine has the same bytes whatever the memory held before.
    fn fresh_images(comparison: &mut Comparison) {
        let mut zero = [0; ffi::ENGINE_BYTES];
        let mut junk = [0; ffi::ENGINE_BYTES];
        comparison.random.fill(&mut junk);
        if ffi::fresh(&mut zero) != 0 || ffi::fresh(&mut junk) != 0 || zero != junk {
            comparison.fail("yoldrim_fresh over memory of any content");
        }
        let mut longer = [7; ffi::ENGINE_BYTES + 1];
        if ffi::fresh(&mut longer) != -21 || longer != [7; ffi::ENGINE_BYTES + 1] {
            comparison.fail("yoldrim_fresh on an image of another length");
        }
    }

    fn refused(comparison: &mut Comparison, call: Call, trial: &Trial, length: usize) {
        let mut image = vec![0; length];
        comparison.random.fill(&mut image);
        let mut out = vec![0; trial.lent];
        comparison.random.fill(&mut out);
        let (image_before, out_before) = (image.clone(), out.clone());
        let (answer, whole, need) = match call {
            Call::Sample => {
                (ffi::sample(&mut image, &trial.input, &mut out), SAMPLE_BYTES, SAMPLE_OUTPUT)
            }
            _ => (ffi::block(&mut image, &trial.input, &mut out), BLOCK_BYTES, BLOCK_OUTPUT),
        };
        let expected = if trial.input.len() != whole {
            1
        } else if trial.lent < need {
            2
        } else {
            21
        };
        if answer != -expected || image != image_before || out != out_before {
            comparison.fail(&format!(
                "{} on an image of {length} bytes, input of {}, output of {}: {answer}",
                call.name(),
                trial.input.len(),
                trial.lent
            ));
        }
        comparison.calls += 1;
        comparison.tally.count(match expected {
            21 => "image of another length refused 21",
            _ => "image of another length, input or output refused first",
        });
    }
}
