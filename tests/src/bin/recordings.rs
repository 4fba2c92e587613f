//! Writes the example recordings, and what the second implementation prints of
//! each, into a folder: `recordings FOLDER`. The tests hold `examples/` to it.

use std::fs;
use std::io;
use std::path::Path;
use yoldrim_tests::printing;
use yoldrim_tests::reference::{
    block_of, gear, happening, switch, Reference, Sample, BLOCK_SAMPLES,
};
use yoldrim_tests::scenes::{lose, stopped};

fn main() -> io::Result<()> {
    let Some(folder) = std::env::args().nth(1) else {
        return Err(io::Error::other("usage: recordings FOLDER"));
    };
    for (name, bytes) in all() {
        let mut text = Vec::new();
        printing::print(&mut Reference::default(), &mut &bytes[..], &mut text)?;
        fs::write(Path::new(&folder).join(format!("{name}.bin")), bytes)?;
        fs::write(Path::new(&folder).join(format!("{name}.txt")), text)?;
    }
    Ok(())
}

fn all() -> Vec<(&'static str, Vec<u8>)> {
    let stop = blocks(0..150, parked);
    let mut damaged = blocks(125..150, parked);
    damaged[40] ^= 1;
    let after = blocks(125..300, parked);
    vec![
        ("empty", Vec::new()),
        ("one-block", blocks(0..25, ecall)),
        ("short-piece", blocks(0..25, ecall)[..511].to_vec()),
        ("blocks-short-piece", [&stop[..], &stop[..1]].concat()),
        ("refused-then-good", [&stop[..512 * 5], &damaged, &after].concat()),
        ("long-text", blocks(0..5000, flickering)),
        ("unresponsive-driver", blocks(0..100, unresponsive)),
        ("lost-readings", blocks(0..325, car_wash)),
    ]
}

/// The blocks of these ticks, full but for the last.
fn blocks(ticks: std::ops::Range<u32>, change: fn(&mut Sample)) -> Vec<u8> {
    let samples: Vec<[u8; 20]> = ticks
        .map(|tick| {
            let mut sample = stopped(tick);
            change(&mut sample);
            sample.to_bytes()
        })
        .collect();
    samples.chunks(BLOCK_SAMPLES).flat_map(|block| block_of(&block.concat())).collect()
}

/// Document 01's one block: hazard off, eCall at 10.
fn ecall(sample: &mut Sample) {
    sample.switches &= !switch::HAZARD;
    sample.happenings = u8::from(sample.tick == 10);
}

/// A New of warning 1 at 100.
fn parked(sample: &mut Sample) {
    sample.gear = gear::PARK;
    sample.switches |= switch::BRAKE;
}

/// Hazard lights that go on and off at each tick, with a door open: from 30 on
/// a New and a Cancel in turns, so that the text is longer than 64 KiB.
fn flickering(sample: &mut Sample) {
    sample.switches |= switch::DOOR;
    if sample.tick % 2 == 1 {
        sample.switches &= !switch::HAZARD;
    }
}

/// The risk mitigation function stops the vehicle, still first at 9 and with a
/// door open: warning 4 from 0, ended at 9, and warning 1 at 30. From 60 on it
/// moves again with the function active, until a crash at 72.
fn unresponsive(sample: &mut Sample) {
    sample.speed = match sample.tick {
        0 => 100,
        1..60 => 0,
        _ => 1_000,
    };
    sample.switches |= switch::DOOR;
    sample.happenings = happening::MITIGATION;
    if sample.tick == 72 {
        sample.happenings |= happening::HIGH_SEVERITY;
    }
}

/// A stop in a car wash, in park with the brake on, where the sensor drops out.
/// Five readings lost in the countdown leave the New of warning 1 at 100, which
/// hazard lights off at 105 cancel. Six lost from 150 on wipe the countdown from
/// 110: the next begins at 156, New at 256. Readings lost for good from 260 on:
/// not still from 265, Cancel at 315.
fn car_wash(sample: &mut Sample) {
    parked(sample);
    if (105..110).contains(&sample.tick) {
        sample.switches &= !switch::HAZARD;
    }
    for lost in [60..65, 150..156, 260..325] {
        lose(sample, lost);
    }
}
