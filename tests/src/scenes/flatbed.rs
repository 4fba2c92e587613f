//! Carried on a flatbed (CR 5): "From now on the 5,000 dm count from the position in
//! the event's New."

use super::{
    active_without_reading, broken_down, carried, ecall_at_14, lose, scene, set, unchanged, Scene,
};
use crate::reference::{happening, switch, Sample, FARTHEST};

pub fn all() -> Vec<Scene> {
    let mut scenes = over_updates();
    scenes.extend(to_all_sides());
    scenes.extend(there_and_back());
    scenes.extend(on_and_on());
    scenes.extend(after_a_breakdown());
    scenes.extend(after_a_crash());
    scenes.extend(in_later_events());
    scenes.extend(overruled_by_3());
    scenes.extend(overruled_by_2());
    scenes.extend(with_unresponsive_driver());
    scenes.extend(from_end_to_end());
    scenes.extend(at_the_ends());
    scenes.extend(without_ignition());
    scenes.extend(broken_down_without_ignition());
    scenes
}

/// Half before an Update and half after it: north and east together come to
/// exactly 5,000 dm from the New, or to a decimetre more.
fn over_updates() -> Vec<Scene> {
    let stays: &[&str] = &["300 N 1 1 1", "450 U 1 1 1", "600 U 1 1 1"];
    let at_449: &[&str] = &["300 N 1 1 1", "449 C 1 1 1"];
    let at_450: &[&str] = &["300 N 1 1 1", "450 C 1 1 1"];
    let at_451: &[&str] = &["300 N 1 1 1", "450 U 1 1 1", "451 C 1 1 1"];
    let at_600: &[&str] = &["300 N 1 1 1", "450 U 1 1 1", "600 C 1 1 1"];
    let to = |name, places: [(u32, i32, i32); 2], lines| {
        let [first, then] = places;
        carried(name, 749, unchanged, [(301, 1_500, 2_000), first, then], lines)
    };
    let edge = |tick| (tick, 3_000, 4_000);
    let north = |tick| (tick, 3_000, 4_001);
    let east = |tick| (tick, 3_001, 4_000);
    vec![
        to("exactly 5,000 dm over an Update", [edge(451), edge(601)], stays),
        to("5,000 dm over an Update and a decimetre north", [north(451), edge(452)], at_451),
        to("5,000 dm over an Update and a decimetre east", [east(451), edge(452)], at_451),
        to("5,000 dm at the Update, a decimetre a tick later", [edge(450), north(451)], at_451),
        to("5,000 dm over an Update, a decimetre at the next", [edge(451), east(600)], at_600),
        to("5,000 dm and a decimetre at the first Update", [edge(449), north(450)], at_450),
        to("5,000 dm and a decimetre a tick before it", [edge(448), east(449)], at_449),
    ]
}

/// Over an Update to each side, the other coordinate as it was or with a
/// part of its own: where the vehicle is from 301 on, and from 451 on.
fn to_all_sides() -> Vec<Scene> {
    const STAYS: &[&str] = &["300 N 1 1 1", "450 U 1 1 1"];
    const AT_451: &[&str] = &["300 N 1 1 1", "450 U 1 1 1", "451 C 1 1 1"];
    let ways = [
        ("5,001 dm east over an Update", (2_500, 0), (5_001, 0), AT_451),
        ("5,001 dm west over an Update", (-2_500, 0), (-5_001, 0), AT_451),
        ("5,001 dm north over an Update", (0, 2_500), (0, 5_001), AT_451),
        ("5,001 dm south over an Update", (0, -2_500), (0, -5_001), AT_451),
        ("5,000 dm east over an Update", (2_500, 0), (5_000, 0), STAYS),
        ("5,000 dm west over an Update", (-2_500, 0), (-5_000, 0), STAYS),
        ("5,000 dm north over an Update", (0, 2_500), (0, 5_000), STAYS),
        ("5,000 dm south over an Update", (0, -2_500), (0, -5_000), STAYS),
        ("too far to the south-west over an Update", (-4_000, 0), (-4_000, -3_001), AT_451),
        ("too far to the south-east over an Update", (0, -4_000), (3_001, -4_000), AT_451),
        ("too far to the north-east over an Update", (3_000, 0), (3_000, 4_001), AT_451),
        ("too far to the north-west over an Update", (0, 3_000), (-4_001, 3_000), AT_451),
    ];
    let scene = |(name, (east, north), (farther_east, farther_north), lines)| {
        let places = [(301, east, north), (451, farther_east, farther_north)];
        carried(name, 599, unchanged, places, lines)
    };
    ways.map(scene).into()
}

/// Far from the last Update and near the New, or the other way round.
fn there_and_back() -> Vec<Scene> {
    vec![
        carried(
            "there and back: east 5,000, Update, east -1",
            749,
            unchanged,
            [(301, 5_000, 0), (451, -1, 0)],
            &["300 N 1 1 1", "450 U 1 1 1", "600 U 1 1 1"],
        ),
        carried(
            "5,000 dm to either side stays, with 10,000 between two Updates",
            899,
            unchanged,
            [(301, 0, 5_000), (451, 0, -5_000), (601, 0, 5_000)],
            &["300 N 1 1 1", "450 U 1 1 1", "600 U 1 1 1", "750 U 1 1 1"],
        ),
        carried(
            "5,000 dm back, and a decimetre on",
            749,
            unchanged,
            [(301, 5_000, 0), (451, -5_000, 0), (601, -5_001, 0)],
            &["300 N 1 1 1", "450 U 1 1 1", "600 U 1 1 1", "601 C 1 1 1"],
        ),
        carried(
            "back for one tick, between Updates",
            749,
            unchanged,
            [(301, 4_000, 3_000), (500, -4_000, -3_000), (501, 4_000, 3_000)],
            &["300 N 1 1 1", "450 U 1 1 1", "600 U 1 1 1"],
        ),
        carried(
            "too far for one tick alone, between Updates",
            749,
            unchanged,
            [(301, 4_000, 3_000), (500, 4_001, 3_000), (501, 4_000, 3_000)],
            &["300 N 1 1 1", "450 U 1 1 1", "500 C 1 1 1"],
        ),
    ]
}

/// Carried at one speed from the New on: 20 dm a tick are 20 m/s, "300 m"
/// between two Updates, and 10 dm a tick come to exactly 5,000 dm.
fn on_and_on() -> Vec<Scene> {
    vec![
        scene(
            "at 20 m/s: each event ends 5,000 dm from its New",
            1_110,
            |s| s.east = 20 * s.tick as i32,
            &[
                "300 N 1 1 1",
                "450 U 1 1 1",
                "551 C 1 1 1",
                "852 N 1 1 2",
                "1002 U 1 1 2",
                "1103 C 1 1 2",
            ],
        ),
        scene(
            "at 10 m/s to the south-west",
            1_100,
            |s| (s.east, s.north) = (-6 * s.tick as i32, -8 * s.tick as i32),
            &["300 N 1 1 1", "450 U 1 1 1", "600 U 1 1 1", "750 U 1 1 1", "801 C 1 1 1"],
        ),
        scene(
            "1,000 dm further at each Update, and at the sixth 100 dm",
            1_349,
            |s| {
                s.north = -1_000 * (s.tick.clamp(300, 1_050) as i32 / 150 - 2);
                s.east = if s.tick >= 1_200 { -100 } else { 0 };
            },
            &[
                "300 N 1 1 1",
                "450 U 1 1 1",
                "600 U 1 1 1",
                "750 U 1 1 1",
                "900 U 1 1 1",
                "1050 U 1 1 1",
                "1200 C 1 1 1",
            ],
        ),
    ]
}

/// Warning 2 over its Updates: New at 200.
fn after_a_breakdown() -> Vec<Scene> {
    vec![
        carried(
            "2: 3,000 dm further at each of two Updates",
            599,
            broken_down,
            [(350, 0, 3_000), (500, 0, 6_000)],
            &["200 N 2 2 1", "350 U 2 2 1", "500 C 2 2 1"],
        ),
        carried(
            "2: exactly 5,000 dm over an Update, a decimetre more over the next",
            699,
            broken_down,
            [(201, 2_500, 0), (351, 5_000, 0), (501, 5_000, 1)],
            &["200 N 2 2 1", "350 U 2 2 1", "500 U 2 2 1", "501 C 2 2 1"],
        ),
        carried(
            "2: there and back",
            649,
            broken_down,
            [(201, -5_000, 0), (351, 1, 0)],
            &["200 N 2 2 1", "350 U 2 2 1", "500 U 2 2 1"],
        ),
        carried(
            "2: to the west over an Update",
            499,
            broken_down,
            [(201, -2_500, 0), (351, -5_001, 0)],
            &["200 N 2 2 1", "350 U 2 2 1", "351 C 2 2 1"],
        ),
        carried(
            "2: too far before its first Update",
            349,
            broken_down,
            [(201, -3_000, 4_000), (349, -3_000, 4_001)],
            &["200 N 2 2 1", "349 C 2 2 1"],
        ),
    ]
}

/// Warning 3 over its Updates: New at 14, Updates 614, 1214.
fn after_a_crash() -> Vec<Scene> {
    vec![
        carried(
            "3: 3,000 dm further at each of two Updates",
            1_500,
            ecall_at_14,
            [(614, -3_000, 0), (1_214, -6_000, 0)],
            &["14 N 3 1 1", "614 U 3 1 1", "1214 C 3 1 1"],
        ),
        carried(
            "3: exactly 5,000 dm over an Update, a decimetre more over the next",
            1_500,
            ecall_at_14,
            [(15, 0, -2_500), (615, 0, -5_000), (1_215, -100, -5_000)],
            &["14 N 3 1 1", "614 U 3 1 1", "1214 U 3 1 1", "1215 C 3 1 1"],
        ),
        carried(
            "3: there and back",
            1_800,
            ecall_at_14,
            [(15, 0, 5_000), (615, 0, -1)],
            &["14 N 3 1 1", "614 U 3 1 1", "1214 U 3 1 1"],
        ),
        carried(
            "3: too far before its first Update",
            613,
            ecall_at_14,
            [(15, 5_000, 0), (613, 5_000, -1)],
            &["14 N 3 1 1", "613 C 3 1 1"],
        ),
    ]
}

/// A second event of warning 1 counts from its own New: hazard lights off
/// at 310 alone, so News at 300 and 611.
fn in_later_events() -> Vec<Scene> {
    fn two_events(sample: &mut Sample) {
        set(sample, switch::HAZARD, sample.tick != 310);
    }
    const TO_613: &[&str] = &["300 N 1 1 1", "310 C 1 1 1", "611 N 1 1 2", "613 C 1 1 2"];
    vec![
        carried(
            "a second event counts from its own New",
            700,
            two_events,
            [(400, 4_000, 0), (612, 9_000, 0), (613, 9_001, 0)],
            TO_613,
        ),
        carried(
            "and not from the first of the day",
            700,
            two_events,
            [(400, 4_000, 0), (612, -1_000, 0), (613, -1_001, 0)],
            TO_613,
        ),
        carried(
            "nor from the Cancel or what came between",
            700,
            two_events,
            [(309, 5_000, 0), (310, 90_000, 0), (611, 0, 70_000), (613, -5_000, 70_001)],
            TO_613,
        ),
        carried(
            "over an Update of the second event",
            900,
            two_events,
            [(450, -9_000, 0), (761, -12_000, -4_000), (762, -12_000, -4_001)],
            &["300 N 1 1 1", "310 C 1 1 1", "611 N 1 1 2", "761 U 1 1 2", "762 C 1 1 2"],
        ),
    ]
}

/// A crash at 310, ten ticks after the New of warning 1.
fn crash_at_310(sample: &mut Sample) {
    sample.happenings = if sample.tick == 310 { happening::HIGH_SEVERITY } else { 0 };
}

/// Warning 3 counts from its own New, at a place that the vehicle was carried to, and
/// not from that of the warning which it overruled.
fn overruled_by_3() -> Vec<Scene> {
    const TO_312: &[&str] = &["300 N 1 1 1", "310 C 1 1 1", "310 N 3 3 2", "312 C 3 3 2"];
    vec![
        carried(
            "1 overruled by 3 at 4,000 dm",
            600,
            crash_at_310,
            [(310, 4_000, 0), (311, 9_000, 0), (312, 9_001, 0)],
            TO_312,
        ),
        carried(
            "1 overruled by 3 at 4,000 dm, and back past the first New",
            600,
            crash_at_310,
            [(310, 4_000, 0), (311, -1_000, 0), (312, -1_001, 0)],
            TO_312,
        ),
        carried(
            "1 overruled by 3 where it is too far itself",
            600,
            crash_at_310,
            [(310, 0, 5_001), (311, 0, 10_001), (312, 0, 10_002)],
            TO_312,
        ),
        carried(
            "1 overruled by 3 at 4,000 dm, over an Update of 3",
            1_200,
            crash_at_310,
            [(310, 4_000, 0), (900, 0, 3_000), (911, 0, -3_000), (912, -1, -3_000)],
            &["300 N 1 1 1", "310 C 1 1 1", "310 N 3 3 2", "910 U 3 3 2", "912 C 3 3 2"],
        ),
    ]
}

/// The breakdown message from 310 on: warning 2 has its New at 610, and counts from
/// there.
fn overruled_by_2() -> Vec<Scene> {
    vec![carried(
        "1 overruled by 2 at 3,000 dm, over an Update of 2",
        900,
        |s| set(s, switch::MESSAGE, s.tick >= 310),
        [(400, 3_000, 0), (700, 0, 0), (761, 8_000, 0), (762, 8_001, 0)],
        &[
            "300 N 1 1 1",
            "450 U 1 1 1",
            "600 U 1 1 1",
            "610 C 1 1 1",
            "610 N 2 1 2",
            "760 U 2 1 2",
            "762 C 2 1 2",
        ],
    )]
}

/// The function is active at 1,000 dm a tick to the east, up to a crash at 7.
fn active_up_to_a_crash(sample: &mut Sample) {
    sample.speed = 1_000;
    sample.east = 1_000 * sample.tick as i32;
    sample.happenings = match sample.tick {
        0..=6 => happening::MITIGATION,
        7 => happening::HIGH_SEVERITY,
        _ => 0,
    };
}

/// The function is active while readings are lost: 4 at 310, up to 321.
fn active_in_a_loss(sample: &mut Sample) {
    lose(sample, 305..321);
    sample.happenings = if sample.tick >= 305 { happening::MITIGATION } else { 0 };
}

/// Warning 4 has no rule of position (CR 1), and what stands after it counts from
/// its own New.
fn with_unresponsive_driver() -> Vec<Scene> {
    vec![
        scene(
            "4 drives on for 14,000 dm",
            14,
            |s| {
                active_without_reading(s);
                s.north = -1_000 * s.tick as i32;
            },
            &["0 N 4 1 1", "5 U 4 1 1", "10 U 4 1 1"],
        ),
        carried(
            "3 counts from its own New, not from that of the 4 that it overruled",
            160,
            active_up_to_a_crash,
            [(8, 12_000, 0), (10, 12_001, 0)],
            &["0 N 4 1 1", "5 U 4 1 1", "7 N 3 3 2", "10 C 3 3 2"],
        ),
        carried(
            "1 after 4 counts from its own New",
            700,
            active_in_a_loss,
            [(312, 0, 9_000), (623, 0, 14_000), (624, 0, 14_001)],
            &[
                "300 N 1 1 1",
                "310 C 1 1 1",
                "310 N 4 1 2",
                "315 U 4 1 2",
                "320 U 4 1 2",
                "622 N 1 1 3",
                "624 C 1 1 3",
            ],
        ),
    ]
}

/// Both ends of the coordinates, where the sum of the squares has 43 bits, and
/// distances whose squares are 0 or negative as 32-bit numbers.
fn from_end_to_end() -> Vec<Scene> {
    const END: i32 = FARTHEST;
    let at_301 = &["300 N 1 1 1", "301 C 1 1 1"];
    let at_451 = &["300 N 1 1 1", "450 U 1 1 1", "451 C 1 1 1"];
    let u = unchanged;
    vec![
        carried("south-west to north-east", 449, u, [(0, -END, -END), (301, END, END)], at_301),
        carried("north-east to south-west", 449, u, [(0, END, END), (301, -END, -END)], at_301),
        carried("north-west to south-east", 599, u, [(0, -END, END), (451, END, -END)], at_451),
        carried("south-east to north-west", 599, u, [(0, END, -END), (451, -END, END)], at_451),
        carried("65,536 dm over an Update", 599, u, [(301, 5_000, 0), (451, 65_536, 0)], at_451),
        carried("46,341 dm both ways", 599, u, [(301, 0, 0), (451, -46_341, 46_341)], at_451),
    ]
}

/// Exactly 5,000 dm and then a decimetre more, at the ends of the coordinates and
/// around zero, over an Update.
fn at_the_ends() -> Vec<Scene> {
    const END: i32 = FARTHEST;
    let at_452 = &["300 N 1 1 1", "450 U 1 1 1", "452 C 1 1 1"];
    let east_end = |tick, west| (tick, END - west, -END);
    let north_end = |tick, south| (tick, -END, END - south);
    let from_the_east_end =
        [east_end(0, 0), east_end(301, 2_500), east_end(451, 5_000), east_end(452, 5_001)];
    let from_the_north_end =
        [north_end(0, 0), north_end(301, 2_500), north_end(451, 5_000), north_end(452, 5_001)];
    let past_zero = [(0, -2_500, 0), (301, 0, 0), (451, 2_500, 0), (452, 2_501, 0)];
    vec![
        carried("from the east end over an Update", 599, unchanged, from_the_east_end, at_452),
        carried("from the north end over an Update", 599, unchanged, from_the_north_end, at_452),
        carried("past zero over an Update", 599, unchanged, past_zero, at_452),
    ]
}

/// Ignition off at 320: an Update at that tick.
fn off_from_320(sample: &mut Sample) {
    set(sample, switch::IGNITION, sample.tick < 320);
}

/// An Update by ignition off moves nothing that the 5,000 dm count from.
fn without_ignition() -> Vec<Scene> {
    vec![
        carried(
            "3,000 dm further at an Update by ignition off, and after it",
            420,
            off_from_320,
            [(320, 3_000, 0), (400, 6_000, 0)],
            &["300 N 1 1 1", "320 U 1 1 1", "400 C 1 1 1", "401 N 1 3 2"],
        ),
        carried(
            "there and back over an Update by ignition off",
            479,
            off_from_320,
            [(301, 5_000, 0), (321, -1, 0)],
            &["300 N 1 1 1", "320 U 1 1 1", "470 U 1 3 1"],
        ),
        carried(
            "too far as ignition goes off: no Update",
            335,
            off_from_320,
            [(301, 3_000, 4_000), (320, 3_000, 4_001)],
            &["300 N 1 1 1", "320 C 1 1 1"],
        ),
    ]
}

/// The same of warning 2: New at 200.
fn broken_down_without_ignition() -> Vec<Scene> {
    /// Ignition off at 250 and 260 alone.
    fn off_twice(sample: &mut Sample) {
        broken_down(sample);
        set(sample, switch::IGNITION, sample.tick != 250 && sample.tick != 260);
    }
    vec![
        carried(
            "2: too far as ignition goes off, after Updates",
            349,
            off_twice,
            [(230, 0, -2_500), (255, 0, -5_000), (260, 0, -5_001)],
            &["200 N 2 2 1", "250 U 2 2 1", "260 C 2 2 1"],
        ),
        carried(
            "2: exactly 5,000 dm after two Updates by ignition off",
            409,
            off_twice,
            [(240, 1_500, -2_000), (251, 3_000, -4_000), (261, -3_000, 4_000)],
            &["200 N 2 2 1", "250 U 2 2 1", "260 U 2 2 1"],
        ),
    ]
}
