//! The bench stops of document 01, its other examples and warnings and those of
//! document 02, each as samples from tick 0 and the lines the printing program
//! gives for them.

use crate::reference::{gear, happening, switch, Sample, NO_READING};
use std::ops::Range;

mod flatbed;

pub struct Scene {
    pub name: &'static str,
    pub samples: Vec<Sample>,
    pub lines: &'static [&'static str],
}

/// "Unless said: speed 0, hazard and ignition on, forward gear, every other
/// field and bit zero but the tick".
pub fn stopped(tick: u32) -> Sample {
    Sample {
        tick,
        speed: 0,
        gear: gear::FORWARD,
        switches: switch::HAZARD | switch::IGNITION,
        happenings: 0,
        road: 0,
        heading: 0,
        east: 0,
        north: 0,
    }
}

/// A scene of the ticks 0 to `last`, each a bench stop's sample as changed.
fn scene(
    name: &'static str,
    last: u32,
    change: impl Fn(&mut Sample),
    lines: &'static [&'static str],
) -> Scene {
    let sample = |tick| {
        let mut sample = stopped(tick);
        change(&mut sample);
        sample
    };
    Scene { name, samples: (0..=last).map(sample).collect(), lines }
}

fn set(sample: &mut Sample, switches: u8, on: bool) {
    if on {
        sample.switches |= switches;
    } else {
        sample.switches &= !switches;
    }
}

/// The sample has no reading if its tick is one of these.
pub fn lose(sample: &mut Sample, ticks: Range<u32>) {
    if ticks.contains(&sample.tick) {
        sample.speed = NO_READING;
    }
}

pub fn all() -> Vec<Scene> {
    let mut scenes = bench_stops();
    scenes.extend(filter_facts());
    scenes.extend(slips());
    scenes.extend(countdowns());
    scenes.extend(crashes());
    scenes.extend(turns());
    scenes.extend(long_stands());
    scenes.extend(losses_in_countdowns());
    scenes.extend(losses_behind_readings());
    scenes.extend(losses_and_messages());
    scenes.extend(losses_and_crashes());
    scenes.extend(unresponsive_driver());
    scenes.extend(losses_and_unresponsive_driver());
    scenes.extend(overruled_by_unresponsive_driver());
    scenes.extend(unresponsive_driver_and_crashes());
    scenes.extend(flatbed::all());
    scenes
}

/// Bench stops (i) to (x).
pub fn bench_stops() -> Vec<Scene> {
    use switch::*;
    let mut stops = vec![
        scene("stop (i)", 600, |_| (), &["300 N 1 1 1", "450 U 1 1 1", "600 U 1 1 1"]),
        scene("stop (ii), park", 349, |s| s.gear = gear::PARK, &["200 N 1 2 1"]),
        scene(
            "stop (iii), park and brake",
            249,
            |s| {
                s.gear = gear::PARK;
                set(s, BRAKE, true);
            },
            &["100 N 1 2 1"],
        ),
        scene("stop (iv), door", 179, |s| set(s, DOOR, true), &["30 N 1 3 1"]),
        scene(
            "stop (v), park, hazard off at 299 alone",
            649,
            |s| {
                s.gear = gear::PARK;
                set(s, HAZARD, s.tick != 299);
            },
            &["200 N 1 2 1", "299 C 1 2 1", "500 N 1 2 2"],
        ),
        scene(
            "stop (vi), speed 100 from 310",
            600,
            |s| s.speed = if s.tick >= 310 { 100 } else { 0 },
            &["300 N 1 1 1", "360 C 1 1 1"],
        ),
        scene(
            "stop (viii), ignition off from 320",
            619,
            |s| set(s, IGNITION, s.tick < 320),
            &["300 N 1 1 1", "320 U 1 1 1", "470 U 1 3 1"],
        ),
        scene(
            "stop (ix), high severity at 310",
            909,
            |s| s.happenings = if s.tick == 310 { happening::HIGH_SEVERITY } else { 0 },
            &["300 N 1 1 1", "310 C 1 1 1", "310 N 3 3 2"],
        ),
        scene("stop (x), still first at 160", 400, |s| ecall_at_10(s, 151), &["160 N 3 1 1"]),
        scene("stop (x), still first at 161", 460, |s| ecall_at_10(s, 152), &[]),
    ];
    stops.extend(bench_stop_vii());
    stops
}

/// Bench stop (vii), which by CR 5 "gains a case: 3,000 dm further at each of two
/// updates cancels at the second".
fn bench_stop_vii() -> Vec<Scene> {
    vec![
        scene(
            "stop (vii), 5,000 dm east from 301",
            449,
            |s| s.east = if s.tick >= 301 { 5_000 } else { 0 },
            &["300 N 1 1 1"],
        ),
        scene(
            "stop (vii), 5,001 dm east from 301",
            449,
            |s| s.east = if s.tick >= 301 { 5_001 } else { 0 },
            &["300 N 1 1 1", "301 C 1 1 1"],
        ),
        scene(
            "stop (vii), a decimetre north of 5,000 dm west",
            449,
            |s| (s.east, s.north) = if s.tick >= 301 { (-5_000, 1) } else { (0, 0) },
            &["300 N 1 1 1", "301 C 1 1 1"],
        ),
        carried(
            "stop (vii), 3,000 dm further at each of two Updates",
            749,
            unchanged,
            [(450, 3_000, 0), (600, 6_000, 0)],
            &["300 N 1 1 1", "450 U 1 1 1", "600 C 1 1 1"],
        ),
        carried(
            "stop (vii), 3,000 dm further from 301, and at the second Update",
            749,
            unchanged,
            [(301, 3_000, 0), (600, 6_000, 0)],
            &["300 N 1 1 1", "450 U 1 1 1", "600 C 1 1 1"],
        ),
    ]
}

/// "eCall at 10, speed 100 up to" a tick, "then 0".
fn ecall_at_10(sample: &mut Sample, moving_up_to: u32) {
    sample.happenings = if sample.tick == 10 { happening::ECALL } else { 0 };
    sample.speed = if sample.tick <= moving_up_to { 100 } else { 0 };
}

/// The speed filter's examples, made visible by the eCall button: warning 3 has
/// its New at the first still tick.
fn filter_facts() -> Vec<Scene> {
    fn pressed(sample: &mut Sample, first: u16, later: u16) {
        sample.happenings = happening::ECALL;
        sample.speed = if sample.tick == 0 { first } else { later };
        set(sample, switch::HAZARD, false);
    }
    vec![
        scene("100, then 0: still first at 9", 20, |s| pressed(s, 100, 0), &["9 N 3 1 1"]),
        scene("9, then 8: never still", 5_000, |s| pressed(s, 9, 8), &[]),
        scene("8 from the start: still at once", 20, |s| pressed(s, 8, 8), &["0 N 3 1 1"]),
        scene("9 from the start: never still", 5_000, |s| pressed(s, 9, 9), &[]),
        scene("no reading, then 8", 20, |s| pressed(s, NO_READING, 8), &["1 N 3 1 1"]),
        scene(
            "no reading yet is not still",
            20,
            |s| {
                pressed(s, 0, 0);
                lose(s, 0..3);
            },
            &["3 N 3 1 1"],
        ),
        scene(
            "100, five readings lost, then 0: still first at 14",
            30,
            |s| {
                pressed(s, 100, 0);
                lose(s, 1..6);
            },
            &["14 N 3 1 1"],
        ),
        scene(
            "the printing program's one block",
            24,
            |s| {
                set(s, switch::HAZARD, false);
                s.happenings = if s.tick == 10 { happening::ECALL } else { 0 };
            },
            &["10 N 3 1 1"],
        ),
    ]
}

/// "Slips from the training room".
fn slips() -> Vec<Scene> {
    use switch::*;
    vec![
        scene(
            "graded by what is so now, not by what shortened the countdown",
            349,
            |s| s.gear = if s.tick <= 40 { gear::PARK } else { gear::FORWARD },
            &["200 N 1 1 1"],
        ),
        scene(
            "the same of warning 2",
            349,
            |s| {
                s.gear = if s.tick <= 40 { gear::PARK } else { gear::FORWARD };
                set(s, MESSAGE, true);
            },
            &["200 N 2 1 1"],
        ),
        scene(
            "park counts once though the lever moved twice",
            349,
            |s| s.gear = if (41..60).contains(&s.tick) { gear::FORWARD } else { gear::PARK },
            &["200 N 1 2 1"],
        ),
        scene(
            "the same of warning 2, with idle",
            349,
            |s| {
                s.gear = if (41..60).contains(&s.tick) { gear::FORWARD } else { gear::IDLE };
                set(s, MESSAGE, true);
            },
            &["200 N 2 2 1"],
        ),
        scene(
            "a door open for 30 samples is not held",
            299,
            |s| set(s, DOOR, (100..130).contains(&s.tick)),
            &[],
        ),
        scene(
            "a door open for 31 samples is",
            279,
            |s| set(s, DOOR, (100..131).contains(&s.tick)),
            &["130 N 1 3 1"],
        ),
        scene(
            "no Update while the rank above triggers",
            700,
            |s| {
                set(s, MESSAGE, s.tick >= 400);
                s.gear = if s.tick >= 370 { gear::PARK } else { gear::FORWARD };
            },
            &["300 N 1 1 1", "450 U 1 2 1", "600 C 1 2 1", "600 N 2 2 2"],
        ),
        scene(
            "a new countdown starts from nothing",
            600,
            |s| {
                s.gear = if s.tick <= 100 { gear::PARK } else { gear::FORWARD };
                set(s, HAZARD, s.tick != 150);
            },
            &["451 N 1 1 1"],
        ),
    ]
}

/// Countdowns shortened by more than one condition, and switches that were off
/// from the start.
fn countdowns() -> Vec<Scene> {
    use switch::*;
    /// Park up to 30; idle, brake and belt all from 31, so fulfilled at 61.
    fn four(sample: &mut Sample) {
        let later = sample.tick > 30;
        sample.gear = if later { gear::IDLE } else { gear::PARK };
        set(sample, BRAKE, later);
        set(sample, BELT, !later);
    }
    /// Three conditions long fulfilled when the hazard lights go on at 50.
    fn three(sample: &mut Sample) {
        sample.gear = gear::IDLE;
        set(sample, BRAKE, true);
        set(sample, BELT, sample.tick == 0);
        set(sample, HAZARD, sample.tick >= 50);
    }
    vec![
        scene("four conditions, warning 1", 150, four, &["61 N 1 2 1"]),
        scene(
            "four conditions, warning 2",
            150,
            |s| {
                four(s);
                set(s, MESSAGE, true);
            },
            &["61 N 2 2 1"],
        ),
        scene("three conditions, warning 1", 150, three, &["50 N 1 2 1"]),
        scene(
            "three conditions, warning 2",
            150,
            |s| {
                three(s);
                set(s, MESSAGE, true);
            },
            &["50 N 2 2 1"],
        ),
        scene("belt unbuckled from tick 0", 299, |s| set(s, BELT, false), &[]),
        scene("ignition off from tick 0", 299, |s| set(s, IGNITION, false), &[]),
        scene("belt unbuckled at 1", 349, |s| set(s, BELT, s.tick < 1), &["200 N 1 2 1"]),
        scene("ignition off at 1", 179, |s| set(s, IGNITION, s.tick < 1), &["31 N 1 3 1"]),
        scene(
            "park lasting 30 ticks and a sample less",
            299,
            |s| {
                s.gear = if s.tick < 30 { gear::PARK } else { gear::FORWARD };
            },
            &[],
        ),
    ]
}

/// Crashes while moving, and at and around the Cancel's tick.
fn crashes() -> Vec<Scene> {
    fn moving(sample: &mut Sample, crashes: &[u32]) {
        sample.speed = 1_000;
        set(sample, switch::HAZARD, false);
        let now = crashes.contains(&sample.tick);
        sample.happenings = if now { happening::HIGH_SEVERITY } else { 0 };
    }
    vec![
        scene(
            "a crash at the Cancel's tick counts",
            300,
            |s| moving(s, &[5, 155]),
            &["5 N 3 3 1", "155 C 3 3 1", "156 N 3 3 2"],
        ),
        scene(
            "a crash before the Cancel's tick is over",
            300,
            |s| moving(s, &[5, 154]),
            &["5 N 3 3 1", "155 C 3 3 1"],
        ),
        scene(
            "a crash after the Cancel's tick",
            300,
            |s| moving(s, &[5, 157]),
            &["5 N 3 3 1", "155 C 3 3 1", "157 N 3 3 2"],
        ),
        scene(
            "no still tick before the New counts for its Cancel",
            400,
            |s| moving(s, &[200]),
            &["200 N 3 3 1", "350 C 3 3 1"],
        ),
        scene(
            "towed away after a crash, and hit again while towed",
            200,
            |s| {
                set(s, switch::HAZARD, false);
                s.north = -100 * (s.tick as i32 - 10).clamp(0, 60);
                s.happenings = match s.tick {
                    0 => happening::HIGH_SEVERITY,
                    61 => happening::PEDESTRIAN,
                    _ => 0,
                };
            },
            &["0 N 3 3 1", "61 C 3 3 1", "62 N 3 2 2"],
        ),
    ]
}

/// Turns of rules 1 to 3 that fall on one tick.
fn turns() -> Vec<Scene> {
    use switch::*;
    vec![
        scene(
            "1 overruled by 2 by 3",
            800,
            |s| {
                set(s, MESSAGE, s.tick >= 310);
                s.happenings = if s.tick == 700 { happening::HIGH_SEVERITY } else { 0 };
            },
            &[
                "300 N 1 1 1",
                "450 U 1 1 1",
                "600 U 1 1 1",
                "610 C 1 1 1",
                "610 N 2 1 2",
                "700 C 2 1 2",
                "700 N 3 3 3",
            ],
        ),
        scene(
            "a crash when 1 triggers: 3 is taken",
            500,
            |s| s.happenings = if s.tick == 300 { happening::LOW_SEVERITY } else { 0 },
            &["300 N 3 2 1"],
        ),
        scene(
            "a crash when 2 triggers: 3 is taken",
            500,
            |s| {
                set(s, MESSAGE, true);
                s.happenings = if s.tick == 300 { happening::PEDESTRIAN } else { 0 };
            },
            &["300 N 3 2 1"],
        ),
        scene(
            "a crash when the Cancel is due: overruled",
            330,
            |s| {
                set(s, HAZARD, s.tick != 320);
                s.happenings = if s.tick == 320 { happening::ECALL } else { 0 };
            },
            &["300 N 1 1 1", "320 C 1 1 1", "320 N 3 1 2"],
        ),
        scene(
            "2 triggers when 1 has moved: overruled",
            700,
            |s| {
                set(s, MESSAGE, s.tick >= 310);
                s.east = if s.tick >= 610 { 5_001 } else { 0 };
            },
            &["300 N 1 1 1", "450 U 1 1 1", "600 U 1 1 1", "610 C 1 1 1", "610 N 2 1 2"],
        ),
        scene(
            "a crash when 1's Update is due: overruled",
            500,
            |s| s.happenings = if s.tick == 450 { happening::ECALL } else { 0 },
            &["300 N 1 1 1", "450 C 1 1 1", "450 N 3 1 2"],
        ),
        scene(
            "a crash when 2's Update is due: overruled",
            500,
            |s| {
                set(s, MESSAGE, true);
                s.happenings = if s.tick == 450 { happening::LOW_SEVERITY } else { 0 };
            },
            &["300 N 2 1 1", "450 C 2 1 1", "450 N 3 2 2"],
        ),
        scene(
            "a crash when 2's Cancel is due: overruled",
            500,
            |s| {
                set(s, MESSAGE, true);
                set(s, HAZARD, s.tick != 400);
                s.happenings = if s.tick == 400 { happening::PEDESTRIAN } else { 0 };
            },
            &["300 N 2 1 1", "400 C 2 1 1", "400 N 3 2 2"],
        ),
        scene(
            "ignition off when 3's Cancel is due: no Update",
            300,
            |s| {
                s.speed = 2_000;
                s.happenings = if s.tick == 5 { happening::HIGH_SEVERITY } else { 0 };
                set(s, IGNITION, s.tick < 155);
            },
            &["5 N 3 3 1", "155 C 3 3 1"],
        ),
        scene(
            "an Update is due when the hazard lights go off",
            700,
            |s| set(s, HAZARD, s.tick != 450),
            &["300 N 1 1 1", "450 C 1 1 1"],
        ),
        scene(
            "ignition off when the Update is due: one Update",
            590,
            |s| set(s, IGNITION, s.tick < 450),
            &["300 N 1 1 1", "450 U 1 1 1"],
        ),
        scene(
            "the same of warning 2",
            590,
            |s| {
                set(s, MESSAGE, true);
                set(s, IGNITION, s.tick < 450);
            },
            &["300 N 2 1 1", "450 U 2 1 1"],
        ),
        scene(
            "the same of warning 3",
            1_190,
            |s| {
                s.happenings = if s.tick == 0 { happening::ECALL } else { 0 };
                set(s, IGNITION, s.tick < 600);
            },
            &["0 N 3 1 1", "600 U 3 1 1"],
        ),
        scene(
            "ignition off at the New: no Update",
            449,
            |s| set(s, IGNITION, s.tick < 300),
            &["300 N 1 1 1"],
        ),
        scene(
            "warning 2 moved by exactly 5,000 dm stays",
            449,
            |s| {
                set(s, MESSAGE, true);
                (s.east, s.north) = if s.tick >= 301 { (3_000, -4_000) } else { (0, 0) };
            },
            &["300 N 2 1 1"],
        ),
        scene(
            "still at the last tick before its Cancel",
            420,
            |s| lose(s, 310..365),
            &["300 N 1 1 1"],
        ),
        scene(
            "not still for the whole of 51 ticks",
            420,
            |s| lose(s, 310..366),
            &["300 N 1 1 1", "365 C 1 1 1"],
        ),
    ]
}

/// Each warning after a stand of more than 15 minutes: New, Update and Cancel
/// with stationarySince 3.
fn long_stands() -> Vec<Scene> {
    use switch::*;
    fn lit_and_open(sample: &mut Sample) {
        set(sample, BELT, true);
        set(sample, DOOR, sample.tick >= 8_900);
        set(sample, HAZARD, (9_010..9_170).contains(&sample.tick));
    }
    vec![
        scene(
            "warning 1 after a long stand",
            9_200,
            lit_and_open,
            &["9010 N 1 3 1", "9160 U 1 3 1", "9170 C 1 3 1"],
        ),
        scene(
            "warning 2 after a long stand",
            9_200,
            |s| {
                lit_and_open(s);
                set(s, MESSAGE, true);
            },
            &["9010 N 2 3 1", "9160 U 2 3 1", "9170 C 2 3 1"],
        ),
        ecall_after(599, 0..0, &["599 N 3 1 1"]),
        ecall_after(600, 0..0, &["600 N 3 1 1"]),
        ecall_after(1_199, 0..0, &["1199 N 3 1 1"]),
        ecall_after(1_200, 0..0, &["1200 N 3 1 1"]),
        ecall_after(8_999, 0..0, &["8999 N 3 1 1"]),
        ecall_after(9_000, 0..0, &["9000 N 3 1 1"]),
        ecall_after(599, 595..600, &["599 N 3 1 1"]),
        ecall_after(600, 598..601, &["600 N 3 1 1"]),
        ecall_after(1_199, 1_195..1_200, &["1199 N 3 1 1"]),
        ecall_after(1_200, 300..305, &["1200 N 3 1 1"]),
        ecall_after(8_999, 8_990..8_995, &["8999 N 3 1 1"]),
        ecall_after(9_000, 8_996..9_001, &["9000 N 3 1 1"]),
        ecall_after(9_305, 300..306, &["9305 N 3 1 1"]),
        scene(
            "warning 3 after a long stand",
            9_700,
            |s| {
                set(s, BELT, true);
                set(s, HAZARD, false);
                s.happenings = if s.tick == 9_010 { happening::PEDESTRIAN } else { 0 };
                s.north = if s.tick >= 9_620 { 5_001 } else { 0 };
            },
            &["9010 N 3 2 1", "9610 U 3 2 1", "9620 C 3 2 1"],
        ),
    ]
}

/// The eCall button where stationarySince turns, or just before, in a stand
/// without readings at the ticks `lost`.
fn ecall_after(ticks: u32, lost: Range<u32>, lines: &'static [&'static str]) -> Scene {
    let change = |s: &mut Sample| {
        s.switches = switch::IGNITION | switch::BELT;
        s.happenings = if s.tick == ticks { happening::ECALL } else { 0 };
        lose(s, lost.clone());
    };
    scene("eCall where stationarySince turns", ticks, change, lines)
}

/// A stop, otherwise changed so, without readings at the ticks `lost`.
fn losing<const N: usize>(
    name: &'static str,
    last: u32,
    change: impl Fn(&mut Sample),
    lost: [Range<u32>; N],
    lines: &'static [&'static str],
) -> Scene {
    let change = |s: &mut Sample| {
        change(s);
        lost.iter().for_each(|ticks| lose(s, ticks.clone()));
    };
    scene(name, last, change, lines)
}

/// A stop, otherwise changed so, at each of these places from its tick on: the
/// tick, east and north.
fn carried<const N: usize>(
    name: &'static str,
    last: u32,
    change: impl Fn(&mut Sample),
    places: [(u32, i32, i32); N],
    lines: &'static [&'static str],
) -> Scene {
    let change = |s: &mut Sample| {
        change(s);
        for (_, east, north) in places.iter().filter(|(tick, ..)| *tick <= s.tick) {
            (s.east, s.north) = (*east, *north);
        }
    };
    scene(name, last, change, lines)
}

/// As every stop: New of warning 1 at 300.
fn unchanged(_: &mut Sample) {}

/// New of warning 2 at 200, quality 2.
fn broken_down(sample: &mut Sample) {
    set(sample, switch::MESSAGE, true);
    sample.gear = gear::PARK;
}

/// New of warning 3 at 14.
fn ecall_at_14(sample: &mut Sample) {
    sample.happenings = if sample.tick == 14 { happening::ECALL } else { 0 };
    set(sample, switch::HAZARD, false);
}

/// The risk mitigation function is active.
fn active(sample: &mut Sample) {
    sample.happenings = happening::MITIGATION;
}

/// Readings lost (CR 2) in countdowns: five in a row leave the vehicle still, with
/// the sixth it is not.
fn losses_in_countdowns() -> Vec<Scene> {
    let i = &["300 N 1 1 1", "450 U 1 1 1", "600 U 1 1 1"];
    vec![
        losing("five readings lost in a countdown: stop (i)", 600, unchanged, [200..205], i),
        losing("five, a reading, five lost: stop (i)", 600, unchanged, [200..205, 206..211], i),
        losing("six lost: the countdown from 206", 655, unchanged, [200..206], &["506 N 1 1 1"]),
        losing("five, a reading, six lost", 661, unchanged, [200..205, 206..212], &["512 N 1 1 1"]),
        losing("the sixth where the New was due", 750, unchanged, [295..301], &["601 N 1 1 1"]),
        losing("no reading at the first five ticks", 454, unchanged, [0..5], &["305 N 1 1 1"]),
        losing("2: five lost before its New", 349, broken_down, [195..200], &["200 N 2 2 1"]),
        losing("2: six lost before its New", 549, broken_down, [194..200], &["400 N 2 2 1"]),
        losing(
            "the hazard lights go on at a tick without a reading",
            551,
            |s| set(s, switch::HAZARD, s.tick >= 102),
            [100..105],
            &["402 N 1 1 1"],
        ),
        losing(
            "the breakdown message comes on at a tick without a reading",
            551,
            |s| set(s, switch::MESSAGE, s.tick >= 102),
            [100..105],
            &["402 N 2 1 1"],
        ),
    ]
}

/// Five readings lost (CR 2) behind a reading above 8: what counts is F.
fn losses_behind_readings() -> Vec<Scene> {
    let reading_at_110 =
        |speed| move |s: &mut Sample| s.speed = if s.tick == 110 { speed } else { 0 };
    vec![
        losing("F 10, then five lost", 565, reading_at_110(40), [111..116], &["416 N 1 1 1"]),
        losing("F 8, then five lost", 449, reading_at_110(32), [111..116], &["300 N 1 1 1"]),
    ]
}

/// Readings lost (CR 2) at and around a New, an Update and a Cancel.
fn losses_and_messages() -> Vec<Scene> {
    let given = &["300 N 1 1 1", "450 U 1 1 1"];
    let at_365 = &["300 N 1 1 1", "365 C 1 1 1"];
    let at_371 = &["300 N 1 1 1", "371 C 1 1 1"];
    vec![
        losing("New and Update in a loss", 599, unchanged, [296..301, 450..455], given),
        losing("Update while the vehicle is not still", 599, unchanged, [440..490], given),
        losing("51 readings lost: 46 ticks not still", 599, unchanged, [310..361], given),
        losing("lost for good from 310", 600, unchanged, [310..601], at_365),
        losing("five lost, and for good from 316", 600, unchanged, [310..315, 316..601], at_371),
        losing("2: New without a reading", 349, broken_down, [198..203], &["200 N 2 2 1"]),
        losing(
            "2: Update without a reading",
            499,
            broken_down,
            [346..351],
            &["200 N 2 2 1", "350 U 2 2 1"],
        ),
        losing("2: for good", 500, broken_down, [210..501], &["200 N 2 2 1", "265 C 2 2 1"]),
        losing("2: still before its Cancel", 320, broken_down, [210..265], &["200 N 2 2 1"]),
        losing(
            "hazard lights off at a tick without a reading alone",
            703,
            |s| set(s, switch::HAZARD, s.tick != 402),
            [400..405],
            &["300 N 1 1 1", "402 C 1 1 1", "703 N 1 1 2"],
        ),
    ]
}

/// Readings lost (CR 2) and warning 3: its "if still", and its Cancel.
fn losses_and_crashes() -> Vec<Scene> {
    let update = &["14 N 3 1 1", "614 U 3 1 1"];
    let cancel = &["14 N 3 1 1", "465 C 3 1 1"];
    vec![
        losing("eCall at the fifth missing reading", 613, ecall_at_14, [10..15], &["14 N 3 1 1"]),
        losing(
            "eCall at the sixth: New with a reading",
            613,
            ecall_at_14,
            [9..16],
            &["16 N 3 1 1"],
        ),
        losing("3 updated at a tick without a reading", 620, ecall_at_14, [612..617], update),
        losing("3 is still before its Cancel", 600, ecall_at_14, [310..465], &["14 N 3 1 1"]),
        losing("3 cancelled: not still at 151 ticks", 600, ecall_at_14, [310..466], cancel),
    ]
}

/// The risk mitigation function is active and no reading comes.
fn active_without_reading(sample: &mut Sample) {
    sample.speed = NO_READING;
    sample.happenings = happening::MITIGATION;
}

/// The risk mitigation function is active while the vehicle comes to a stop:
/// "speeds 100, then 0: still first at tick 9".
fn active_and_stopping(sample: &mut Sample) {
    sample.speed = if sample.tick == 0 { 100 } else { 0 };
    sample.happenings = happening::MITIGATION;
}

/// Warning 4 (CR 1) alone, and what comes after it.
fn unresponsive_driver() -> Vec<Scene> {
    use switch::*;
    const STANDS_ON: &[&str] = &["0 N 4 1 1", "5 U 4 1 1", "10 U 4 1 1"];
    vec![
        scene("4 without a reading yet", 14, active_without_reading, STANDS_ON),
        scene(
            "4 with ignition off at 7: no Update from it",
            14,
            |s| {
                active_without_reading(s);
                set(s, IGNITION, s.tick < 7);
            },
            STANDS_ON,
        ),
        scene(
            "4 with hazard lights off from 3",
            14,
            |s| {
                active_without_reading(s);
                set(s, HAZARD, s.tick < 3);
            },
            STANDS_ON,
        ),
        scene(
            "4 towed 6,000 dm at 3",
            14,
            |s| {
                active_without_reading(s);
                s.east = if s.tick >= 3 { 6_000 } else { 0 };
            },
            STANDS_ON,
        ),
        scene(
            "4 stays while the vehicle is not still for 51 ticks",
            54,
            active_without_reading,
            &[
                "0 N 4 1 1",
                "5 U 4 1 1",
                "10 U 4 1 1",
                "15 U 4 1 1",
                "20 U 4 1 1",
                "25 U 4 1 1",
                "30 U 4 1 1",
                "35 U 4 1 1",
                "40 U 4 1 1",
                "45 U 4 1 1",
                "50 U 4 1 1",
            ],
        ),
        scene(
            "4 has quality 1 with a door open for 31 samples",
            40,
            |s| {
                s.speed = 1_000;
                set(s, DOOR, true);
                s.happenings = if s.tick >= 35 { happening::MITIGATION } else { 0 };
            },
            &["35 N 4 1 1", "40 U 4 1 1"],
        ),
        scene(
            "4 ends at 9 as the vehicle is still, 1 begins its countdown at 10",
            459,
            active_and_stopping,
            &["0 N 4 1 1", "5 U 4 1 1", "310 N 1 1 2"],
        ),
        scene(
            "the same of warning 2",
            459,
            |s| {
                active_and_stopping(s);
                set(s, MESSAGE, true);
            },
            &["0 N 4 1 1", "5 U 4 1 1", "310 N 2 1 2"],
        ),
        scene(
            "the bit clears at 9 too: the same",
            459,
            |s| {
                active_and_stopping(s);
                s.happenings = if s.tick < 9 { happening::MITIGATION } else { 0 };
            },
            &["0 N 4 1 1", "5 U 4 1 1", "310 N 1 1 2"],
        ),
        scene(
            "the bit clears at 8: 1 begins its countdown at 9",
            458,
            |s| {
                active_and_stopping(s);
                s.happenings = if s.tick < 8 { happening::MITIGATION } else { 0 };
            },
            &["0 N 4 1 1", "5 U 4 1 1", "309 N 1 1 2"],
        ),
        scene(
            "4 ends when its Update is due: no Update",
            460,
            |s| {
                active_and_stopping(s);
                s.speed = if s.tick <= 1 { 100 } else { 0 };
            },
            &["0 N 4 1 1", "5 U 4 1 1", "311 N 1 1 2"],
        ),
        scene(
            "the bit off for one tick: two events and no Cancel",
            17,
            |s| {
                active_without_reading(s);
                s.happenings = if s.tick != 7 { happening::MITIGATION } else { 0 };
            },
            &["0 N 4 1 1", "5 U 4 1 1", "8 N 4 1 2", "13 U 4 1 2"],
        ),
        scene(
            "the function is active in a stop: stop (i)",
            600,
            |s| s.happenings = happening::MITIGATION,
            &["300 N 1 1 1", "450 U 1 1 1", "600 U 1 1 1"],
        ),
    ]
}

/// Readings lost (CR 2) while the risk mitigation function is active.
fn losses_and_unresponsive_driver() -> Vec<Scene> {
    let at_105 = &["105 N 4 1 1", "407 N 1 1 2"];
    let to_112 = &["105 N 4 1 1", "110 U 4 1 1", "413 N 1 1 2"];
    vec![
        losing("five readings lost from 100: no 4", 407, active, [100..105], &["300 N 1 1 1"]),
        losing("six: 4 at 105, a countdown from 107", 407, active, [100..106], at_105),
        losing("twelve: 4 up to the first reading", 413, active, [100..112], to_112),
        losing("five after the New of 1: it stays", 449, active, [310..315], &["300 N 1 1 1"]),
        losing(
            "six lost, then driving: 4 stays",
            119,
            |s| {
                active(s);
                s.speed = if s.tick >= 106 { 1_000 } else { 0 };
            },
            [100..106],
            &["105 N 4 1 1", "110 U 4 1 1", "115 U 4 1 1"],
        ),
        losing(
            "five lost behind 100: 4 stays until still",
            464,
            active_and_stopping,
            [1..6],
            &["0 N 4 1 1", "5 U 4 1 1", "10 U 4 1 1", "315 N 1 1 2"],
        ),
    ]
}

/// Warning 4 over 1 and 2, which have their Cancel, also where that or an
/// Update is due.
fn overruled_by_unresponsive_driver() -> Vec<Scene> {
    use switch::*;
    /// Active from this tick on, and no reading: not still from 5 ticks later on.
    fn active_from(sample: &mut Sample, tick: u32) {
        if sample.tick >= tick {
            active_without_reading(sample);
        }
    }
    vec![
        scene(
            "1 overruled by 4 at the sixth missing reading",
            322,
            |s| {
                s.happenings = happening::MITIGATION;
                lose(s, 310..323);
            },
            &["300 N 1 1 1", "315 C 1 1 1", "315 N 4 1 2", "320 U 4 1 2"],
        ),
        scene(
            "2 overruled by 4 ten ticks after it drives off",
            329,
            |s| {
                set(s, MESSAGE, true);
                s.speed = if s.tick >= 310 { 100 } else { 0 };
                s.happenings = if s.tick >= 320 { happening::MITIGATION } else { 0 };
            },
            &["300 N 2 1 1", "320 C 2 1 1", "320 N 4 1 2", "325 U 4 1 2"],
        ),
        scene(
            "1 overruled by 4 when its Update is due",
            454,
            |s| active_from(s, 445),
            &["300 N 1 1 1", "450 C 1 1 1", "450 N 4 1 2"],
        ),
        scene(
            "2 overruled by 4 when its Update is due",
            454,
            |s| {
                set(s, MESSAGE, true);
                active_from(s, 445);
            },
            &["300 N 2 1 1", "450 C 2 1 1", "450 N 4 1 2"],
        ),
        scene(
            "1 overruled by 4 when its Cancel is due: not still for 51 ticks",
            364,
            |s| {
                s.speed = if s.tick >= 310 { 100 } else { 0 };
                s.happenings = if s.tick >= 360 { happening::MITIGATION } else { 0 };
            },
            &["300 N 1 1 1", "360 C 1 1 1", "360 N 4 1 2"],
        ),
        scene(
            "2 overruled by 4 when its Cancel is due: hazard lights off",
            404,
            |s| {
                set(s, MESSAGE, true);
                set(s, HAZARD, s.tick < 400);
                active_from(s, 395);
            },
            &["300 N 2 1 1", "400 C 2 1 1", "400 N 4 1 2"],
        ),
    ]
}

/// Warnings 3 and 4, and bit 4 beside the happenings that 3 counts.
fn unresponsive_driver_and_crashes() -> Vec<Scene> {
    use happening::*;
    /// The function is active in a moving vehicle but at the tick `off`; a crash
    /// at 7.
    fn crash_at_7(sample: &mut Sample, off: u32) {
        sample.speed = 1_000;
        sample.happenings = if sample.tick == 7 { HIGH_SEVERITY } else { 0 };
        sample.happenings |= if sample.tick == off { 0 } else { MITIGATION };
    }
    /// The eCall button at 3 in a vehicle that is still first at 9.
    fn ecall_at_3(sample: &mut Sample, cleared: u32) {
        active_and_stopping(sample);
        sample.happenings = if sample.tick < cleared { MITIGATION } else { 0 };
        sample.happenings |= if sample.tick == 3 { ECALL } else { 0 };
    }
    const OVERRULED_AT_9: &[&str] = &["0 N 4 1 1", "5 U 4 1 1", "9 N 3 1 2"];
    vec![
        scene(
            "4 overruled by 3 without a Cancel, and again a tick after that of 3",
            167,
            |s| crash_at_7(s, 9),
            &["0 N 4 1 1", "5 U 4 1 1", "7 N 3 3 2", "157 C 3 3 2", "158 N 4 1 3", "163 U 4 1 3"],
        ),
        scene(
            "4 overruled by 3 when the bit clears",
            100,
            |s| crash_at_7(s, 7),
            &["0 N 4 1 1", "5 U 4 1 1", "7 N 3 3 2"],
        ),
        scene(
            "4 overruled by 3 when its Update is due",
            100,
            |s| {
                s.speed = 1_000;
                s.happenings = if s.tick == 5 { HIGH_SEVERITY | MITIGATION } else { MITIGATION };
            },
            &["0 N 4 1 1", "5 N 3 3 2"],
        ),
        scene("4 overruled by 3 when still", 400, |s| ecall_at_3(s, 500), OVERRULED_AT_9),
        scene(
            "4 overruled by 3 when still and the bit clears",
            400,
            |s| ecall_at_3(s, 9),
            OVERRULED_AT_9,
        ),
        scene(
            "a crash and bit 4 at one tick: 3 alone",
            100,
            |s| {
                s.speed = 1_000;
                s.happenings = match s.tick {
                    0..=3 => 0,
                    4 => HIGH_SEVERITY | MITIGATION,
                    _ => MITIGATION,
                };
            },
            &["4 N 3 3 1"],
        ),
        scene(
            "1 overruled by 3 while 4 triggers too",
            320,
            |s| {
                if s.tick >= 305 {
                    active_without_reading(s);
                }
                s.happenings |= if s.tick == 310 { HIGH_SEVERITY } else { 0 };
            },
            &["300 N 1 1 1", "310 C 1 1 1", "310 N 3 3 2"],
        ),
        scene(
            "bit 4 alone is no crash",
            700,
            |s| {
                set(s, switch::HAZARD, false);
                s.happenings = MITIGATION;
            },
            &[],
        ),
        scene(
            "the eCall button with bit 4 has quality 1",
            700,
            |s| {
                set(s, switch::HAZARD, false);
                s.happenings = if s.tick == 10 { ECALL | MITIGATION } else { MITIGATION };
            },
            &["10 N 3 1 1", "610 U 3 1 1"],
        ),
    ]
}
