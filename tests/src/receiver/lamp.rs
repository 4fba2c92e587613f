//! The lamp of the library beside the second implementation: its answer and every
//! bit of the seconds, which must be as lent where the answer is not seconds.

use super::comparison::ReceiverComparison;
use super::{lamp, lamp_answer, Lamp, HIGHEST_SPEED, WIDEST_GAP};
use crate::ffi;
use crate::tally::Tally;

/// Pairs of any bits, and pairs in range.
const ANY_PAIRS: u32 = 1_000_000;
const PAIRS_IN_RANGE: u32 = 3_000_000;

pub fn declare(tally: &mut Tally) {
    for one in ["gap", "speed"] {
        for what in ["below 0", "past its bound", "a NaN", "infinite"] {
            tally.declare(format!("lamp unknown: {one} alone {what}"));
        }
    }
    for what in ["", ", speed below 1", ", speed -0"] {
        tally.declare(format!("lamp unknown by the gap{what}"));
    }
    for what in ["", ", speed -0", ", speed just below 1", ", gap at its bound", ", gap -0"] {
        tally.declare(format!("lamp standing{what}"));
    }
    for what in [
        "",
        ", speed 1",
        ", speed at its bound",
        ", gap 0",
        ", gap -0",
        ", gap at its bound",
        ", subnormal",
        ", rounded to 0",
        ", not exact",
        ", by the reciprocal another number",
        ", by metres another number",
    ] {
        tally.declare(format!("lamp seconds{what}"));
    }
}

pub fn check(c: &mut ReceiverComparison) {
    c.restart("the lamp at its bounds", 1);
    let values = bounds();
    for (gap, speed) in values.iter().flat_map(|&gap| values.iter().map(move |&s| (gap, s))) {
        compare(c, gap, speed);
    }
    c.restart("the lamp on any bits", 1);
    for _ in 0..ANY_PAIRS {
        let bits = c.random.draw();
        compare(c, f32::from_bits(bits as u32), f32::from_bits((bits >> 32) as u32));
    }
    c.restart("the lamp in its ranges", 1);
    for _ in 0..PAIRS_IN_RANGE {
        let (gap, speed) = in_range(c);
        compare(c, gap, speed);
    }
}

/// Numbers at which something turns, with their neighbours and opposites, and
/// numbers that are none.
fn bounds() -> Vec<f32> {
    let smallest = f32::from_bits(1);
    let turns = [0.0, smallest, f32::MIN_POSITIVE, 0.5, 1.0, 2.0, 3.0, 8.0, 100.0];
    let ends = [HIGHEST_SPEED, 16_384.0, WIDEST_GAP, 16_777_216.0, f32::MAX];
    let nans = [0x7FC0_0000, 0xFFC0_0000, 0x7F80_0001, 0xFF80_0001, 0x7FFF_FFFF, u32::MAX];
    let mut values: Vec<f32> = nans.into_iter().map(f32::from_bits).collect();
    values.extend([f32::INFINITY, f32::NEG_INFINITY]);
    for turn in turns.into_iter().chain(ends) {
        values.extend([turn, -turn, turn.next_up(), turn.next_down(), (-turn).next_down()]);
    }
    values
}

/// A pair in range: of any size by its bits, in hundredths, or whole.
fn in_range(c: &mut ReceiverComparison) -> (f32, f32) {
    let bits = |c: &mut ReceiverComparison, low: f32, high: f32| {
        f32::from_bits(c.random.between(low.to_bits().into(), high.to_bits().into()) as u32)
    };
    let gap = match c.random.place(8) {
        0..=2 => bits(c, 0.0, WIDEST_GAP),
        3..=6 => c.random.between(0, 20_000_000) as f32 / 100.0,
        _ => c.random.between(0, 200_000) as f32,
    };
    let speed = match c.random.place(8) {
        0 => bits(c, 0.0, 1.0),
        1..=4 => bits(c, 1.0, HIGHEST_SPEED),
        5..=6 => c.random.between(0, 1_638_300) as f32 / 100.0,
        _ => c.random.between(0, 16_383) as f32,
    };
    (gap, speed)
}

fn compare(c: &mut ReceiverComparison, gap: f32, speed: f32) {
    let bits = c.random.draw();
    let lent = [bits as u32, (bits >> 16) as u32, (bits >> 32) as u32].map(f32::from_bits);
    let (mut expected, mut found) = (lent, lent);
    let wanted = lamp_answer(gap, speed, &mut expected[1]);
    let answer = ffi::lamp(gap, speed, &mut found[1]);
    c.calls += 1;
    occurred(&mut c.tally, gap, speed);
    if answer != wanted || found.map(f32::to_bits) != expected.map(f32::to_bits) {
        c.fail(&format!(
            "lamp of gap {gap:e} ({:08x}), speed {speed:e} ({:08x}): {answer}, not {wanted}; \
             seconds and those around them {:08x?}, not {:08x?}",
            gap.to_bits(),
            speed.to_bits(),
            found.map(f32::to_bits),
            expected.map(f32::to_bits)
        ));
    }
}

fn occurred(tally: &mut Tally, gap: f32, speed: f32) {
    match lamp(gap, speed) {
        Lamp::Unknown => unknown(tally, gap, speed),
        Lamp::Standing => {
            let negative = |x: f32| x.to_bits() == 1 << 31;
            tally.count("lamp standing");
            tally.count_if(negative(speed), "lamp standing, speed -0");
            tally.count_if(speed == 1.0_f32.next_down(), "lamp standing, speed just below 1");
            tally.count_if(gap == WIDEST_GAP, "lamp standing, gap at its bound");
            tally.count_if(negative(gap), "lamp standing, gap -0");
        }
        Lamp::Seconds(seconds) => quotient(tally, gap, speed, seconds),
    }
}

fn unknown(tally: &mut Tally, gap: f32, speed: f32) {
    let why = |x: f32, bound: f32| {
        let past = if x > bound { Some("past its bound") } else { None };
        let below = if x < 0.0 { Some("below 0") } else { past };
        let infinite = if x.is_infinite() { Some("infinite") } else { below };
        if x.is_nan() {
            Some("a NaN")
        } else {
            infinite
        }
    };
    match (why(gap, WIDEST_GAP), why(speed, HIGHEST_SPEED)) {
        (Some(what), None) => {
            tally.count(&format!("lamp unknown: gap alone {what}"));
            tally.count("lamp unknown by the gap");
            tally.count_if(speed < 1.0, "lamp unknown by the gap, speed below 1");
            let zero = speed.to_bits() == 1 << 31;
            tally.count_if(zero, "lamp unknown by the gap, speed -0");
        }
        (None, Some(what)) => tally.count(&format!("lamp unknown: speed alone {what}")),
        _ => (),
    }
}

fn quotient(tally: &mut Tally, gap: f32, speed: f32, seconds: f32) {
    let exact = f64::from(gap) / f64::from(speed);
    let row = |what: &str| format!("lamp seconds, {what}");
    tally.count("lamp seconds");
    tally.count_if(speed == 1.0, &row("speed 1"));
    tally.count_if(speed == HIGHEST_SPEED, &row("speed at its bound"));
    tally.count_if(gap.to_bits() == 0, &row("gap 0"));
    tally.count_if(gap.to_bits() == 1 << 31, &row("gap -0"));
    tally.count_if(gap == WIDEST_GAP, &row("gap at its bound"));
    tally.count_if(seconds.is_subnormal(), &row("subnormal"));
    tally.count_if(seconds == 0.0 && gap > 0.0, &row("rounded to 0"));
    tally.count_if(f64::from(seconds) != exact, &row("not exact"));
    let reciprocal = gap * (1.0 / speed);
    tally.count_if(seconds != reciprocal, &row("by the reciprocal another number"));
    let metres = (gap / 100.0) / (speed / 100.0);
    tally.count_if(seconds != metres, &row("by metres another number"));
}
