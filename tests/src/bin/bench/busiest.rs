//! Nanoseconds a record of the busiest stretch (CR 7), and how they grow.

use super::{nanoseconds, spread, Units, RUNS};
use std::hint::black_box;
use std::io;
use yoldrim_tests::busiest::lists;
use yoldrim_tests::random::Random;
use yoldrim_tests::reference::MESSAGE_BYTES;
use yoldrim_tests::unit::Unit;

/// Lengths of the list timed, in records; time must grow straight with them.
const LENGTHS: [usize; 3] = [10_000, 100_000, 1_000_000];
const WIDTHS: [u32; 3] = [1, 600, 10_000_000];
/// Records each length is timed over, by asking for shorter lists again.
const TIMED: usize = 4_000_000;

/// Times all units on lists of each length by each width, in turns. The ratio is that to
/// the first unit, the plain one.
pub fn time_calls(units: &Units) -> io::Result<()> {
    println!("nanoseconds of user time a record of the busiest stretch: likewise");
    println!("{:>10}  {:>10}  {:<28}ratio to plain", "records", "width", "busiest stretch");
    let longest = lists::long_days(LENGTHS[LENGTHS.len() - 1], &mut Random::new(1));
    for length in LENGTHS {
        for width in WIDTHS {
            print_times(units, &longest[..length * MESSAGE_BYTES], width)?;
        }
    }
    Ok(())
}

fn print_times(units: &Units, records: &[u8], width: u32) -> io::Result<()> {
    let length = records.len() / MESSAGE_BYTES;
    let mut times = vec![Vec::new(); units.len()];
    let mut ratios = times.clone();
    let mut answers = vec![None; units.len()];
    for _ in 0..RUNS {
        for (place, (_, unit)) in units.iter().enumerate() {
            let again = (TIMED / length).max(1);
            let ask = || answers[place] = Some(answer(&**unit, records, width));
            times[place].push(nanoseconds(again, length, ask));
            ratios[place].push(times[place][times[place].len() - 1] / times[0][times[0].len() - 1]);
        }
    }
    if answers.iter().any(|answer| *answer != answers[0]) {
        return Err(io::Error::other("the units' busiest stretches differ"));
    }
    for (((name, _), times), mut ratios) in units.iter().zip(times).zip(ratios) {
        ratios.sort_by(f64::total_cmp);
        let ratio = ratios[ratios.len() / 2];
        println!("{length:>10}  {width:>10}  {:<28}{ratio:.2}  {name}", spread(times));
    }
    Ok(())
}

fn answer(unit: &dyn Unit, records: &[u8], width: u32) -> (i64, u32) {
    let mut first = 0;
    let number = unit.busiest_stretch(black_box(records), black_box(width), &mut first);
    assert!(number > 0);
    (number, first)
}
