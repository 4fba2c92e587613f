//! The header's table of an engine's bytes, held to the library: its rows follow
//! one another without a gap, each number of an engine stands where its row
//! says, and an image of another layout is refused. Each table stands in the
//! comment right above the line that defines its size.

use crate::comparison::Comparison;
use crate::days::{self, Day};
use crate::ffi::{self, ENGINE_BYTES};
use crate::reference::*;
use crate::scenes::stopped;
use crate::tally::{Call, Tally};
use std::fs;

const HEADER: &str = concat!(env!("CARGO_MANIFEST_DIR"), "/../include/yoldrim.h");
const SIZE_NAME: &str = "YOLDRIM_ENGINE_BYTES";
const LAYOUT_NAME: &str = "YOLDRIM_ENGINE_LAYOUT";
const AS_THE_TABLE: &str = "image with each number where the header's table says";
const UNRESPONSIVE: &str = "image with warning 4 standing, as the header's table says";
const CARRIED: &str = "image with an Update elsewhere than its New, as the header's table says";
const OTHER_LAYOUT: &str = "image of another layout refused 21";
const AT_THE_END: &str = "image with a coordinate of the last New at 1,000,000 dm taken";
const BEYOND: &str = "image with a coordinate of the last New beyond 1,000,000 dm refused 21";

/// The rows of the position that the 5,000 dm count from (CR 5).
const EAST: &str = "east in the last New";
const NORTH: &str = "north in the last New";

pub fn declare(tally: &mut Tally) {
    for row in [AS_THE_TABLE, UNRESPONSIVE, CARRIED, OTHER_LAYOUT, AT_THE_END, BEYOND] {
        tally.declare(row);
    }
}

pub fn check(comparison: &mut Comparison) {
    comparison.restart("the header's table of an image", 1);
    let table = match Table::read(SIZE_NAME, LAYOUT_NAME) {
        Ok(table) if table.bytes() == ENGINE_BYTES => table,
        Ok(table) => comparison.fail(&format!("a table of {} bytes", table.bytes())),
        Err(what) => comparison.fail(&what),
    };
    fresh_image(comparison, &table);
    coordinates_at_the_ends(comparison, &table);
    let mut seen = Vec::new();
    stop_by_hand(comparison, &table, &mut seen);
    coordinates_at_the_ends(comparison, &table);
    other_layouts(comparison, &table);
    carriage_by_hand(comparison, &table, &mut seen);
    days_in_the_table(comparison, &table, &mut seen);
    rows_told_apart(comparison, &table, &seen);
}

// ------------------------------------------------------------------ the table

struct Row {
    first: usize,
    last: usize,
    text: String,
}

/// A table of the header, one row behind the other.
pub struct Table {
    rows: Vec<Row>,
    pub layout: u8,
}

pub fn header() -> Result<String, String> {
    fs::read_to_string(HEADER).map_err(|error| format!("{HEADER}: {error}"))
}

impl Table {
    /// The header's table of so many bytes as the first name says, and the layout's
    /// number by the second.
    pub fn read(size_name: &str, layout_name: &str) -> Result<Table, String> {
        let header = header()?;
        let rows: Vec<Row> = comment_above(&header, size_name)?.lines().filter_map(row).collect();
        let mut next = 0;
        for row in &rows {
            if row.first != next || row.last < row.first {
                return Err(format!("the row of \"{}\" does not begin at byte {next}", row.text));
            }
            next = row.last + 1;
        }
        let bytes = defined(&header, size_name)?;
        if next != bytes {
            return Err(format!("the table ends before byte {next}, {size_name} is {bytes}"));
        }
        let layout = defined(&header, layout_name)?;
        let layout = u8::try_from(layout).map_err(|_| format!("{layout_name} is no byte"))?;
        Ok(Table { rows, layout })
    }

    /// How many bytes its rows take.
    pub fn bytes(&self) -> usize {
        self.rows.last().map_or(0, |row| row.last + 1)
    }

    /// How many rows it has.
    pub fn rows(&self) -> usize {
        self.rows.len()
    }

    /// The row that begins with these words.
    fn row(&self, words: &str) -> Result<&Row, String> {
        let found: Vec<&Row> = self.rows.iter().filter(|r| r.text.starts_with(words)).collect();
        match found[..] {
            [row] => Ok(row),
            _ => Err(format!("{} rows begin \"{words}\"", found.len())),
        }
    }

    /// Whether the image holds these bytes in the row of these words.
    pub fn holds(&self, image: &[u8], words: &str, bytes: &[u8]) -> Result<(), String> {
        let row = self.row(words)?;
        let found = &image[row.first..=row.last];
        if found == bytes {
            Ok(())
        } else {
            Err(format!("\"{words}\", bytes {}-{}: {found:?}, not {bytes:?}", row.first, row.last))
        }
    }
}

/// A line ` *   3-7      text` of the header, or ` *   2        text`.
fn row(line: &str) -> Option<Row> {
    let (places, text) = line.strip_prefix(" *   ")?.split_once(' ')?;
    let (first, last) = places.split_once('-').unwrap_or((places, places));
    Some(Row {
        first: first.parse().ok()?,
        last: last.parse().ok()?,
        text: text.trim().to_string(),
    })
}

/// The comment right above the header's line `#define NAME`.
fn comment_above<'a>(header: &'a str, name: &str) -> Result<&'a str, String> {
    let above = header.split_once(&format!("\n#define {name} ")).map(|(above, _)| above);
    let comment = above.and_then(|above| above.strip_suffix("*/")?.rsplit_once("/*"));
    comment.map(|(_, text)| text).ok_or(format!("no comment above {name} in {HEADER}"))
}

/// The number in the header's line `#define NAME n`.
pub fn defined(header: &str, name: &str) -> Result<usize, String> {
    let number =
        |line: &str| line.strip_prefix("#define ")?.strip_prefix(name)?.trim().parse().ok();
    header.lines().find_map(number).ok_or(format!("no {name} in {HEADER}"))
}

// ------------------------------------------------------- what an image holds

/// The bytes that an engine with this history keeps, by the first words of
/// their rows. The history has a sample at least.
fn kept(history: &History, layout: u8) -> Vec<(&'static str, Vec<u8>)> {
    let i = history.samples().len() - 1;
    let now = &history.samples()[i];
    let cycles = [history.cycle(STOPPED, i), history.cycle(BROKEN_DOWN, i)];
    let cancel_of_3 = |m: &&Message| m.kind == kind::CANCEL && m.warning == POST_CRASH;
    let cancel_of_3 = history.messages().iter().rev().find(cancel_of_3);
    let new = last_new(history);
    let news = history.messages().iter().filter(|m| m.kind == kind::NEW).count() as u32;
    let counted = new.map_or(0, |m| history.first_counted(m.reference as usize) as u32);
    let standing = standing(history);
    let mut kept = vec![
        (LAYOUT_NAME, vec![layout]),
        ("1 once the filter has a reading", vec![history.filter(i).is_some().into()]),
        ("1 if ignition was on", vec![now.on(switch::IGNITION).into()]),
        ("1 or 0, for the cycle of warning 1", marks(cycles[0])),
        ("1 or 0, for the cycle of warning 2", marks(cycles[1])),
        ("1 while a warning stands", vec![standing.is_some().into()]),
        ("zeros, so that every number", vec![0; 2]),
        ("the standing warning's", standing.map_or([0; MESSAGE_BYTES], Message::record).to_vec()),
    ];
    let numbers = [
        ("samples taken", history.samples().len() as u32),
        ("the bits of the filter's value", history.filter(i).map_or(0, f32::to_bits)),
        ("ticks of the detection cycle of warning 1", ticks(cycles[0], i)),
        ("ticks of the detection cycle of warning 2", ticks(cycles[1], i)),
        (EAST, new.map_or(0, |m| m.east as u32)),
        (NORTH, new.map_or(0, |m| m.north as u32)),
        ("tick of the last New", new.map_or(0, |m| m.reference)),
        ("first tick that the last New counted", counted),
        ("tick of the last Cancel of warning 3", cancel_of_3.map_or(0, |m| m.reference)),
        ("number of News", news),
    ];
    kept.extend(numbers.iter().chain(&runs(history)).map(|(words, n)| (*words, number(*n))));
    kept
}

fn number(n: u32) -> Vec<u8> {
    n.to_le_bytes().to_vec()
}

fn last_new(history: &History) -> Option<&Message> {
    history.messages().iter().rev().find(|m| m.kind == kind::NEW)
}

/// The last New or Update while a warning stands.
fn standing(history: &History) -> Option<&Message> {
    let stands = history.stood_before(history.samples().len()) != NONE;
    history.messages().iter().rev().find(|m| stands && m.kind != kind::CANCEL)
}

fn marks(cycle: Option<Cycle>) -> Vec<u8> {
    use condition::*;
    let fulfilled = cycle.map_or(0, |cycle| cycle.conditions);
    let marks = [A_PARK, B_IDLE, C_BRAKE, D_BELT, E_TO_H];
    marks.iter().map(|conditions| u8::from(fulfilled & conditions != 0)).collect()
}

fn ticks(cycle: Option<Cycle>, i: usize) -> u32 {
    cycle.map_or(0, |cycle| (i - cycle.first + 1) as u32)
}

/// The unbroken runs of ticks up to now.
fn runs(history: &History) -> Vec<(&'static str, u32)> {
    use happening::*;
    let all = || (0..history.samples().len()).rev();
    let still = |wanted| all().take_while(|&t| history.still(t) == wanted).count() as u32;
    let run = |fact: &dyn Fn(&Sample) -> bool| {
        history.samples().iter().rev().take_while(|s| fact(s)).count() as u32
    };
    let without = |happenings| run(&|s| s.happenings & happenings == 0);
    vec![
        ("ticks stationary", still(true)),
        ("ticks moving", still(false)),
        ("ticks in park", run(&|s| s.gear == gear::PARK)),
        ("ticks in idle", run(&|s| s.gear == gear::IDLE)),
        ("ticks with the parking brake on", run(&|s| s.on(switch::BRAKE))),
        ("ticks with the belt off", run(&|s| !s.on(switch::BELT))),
        ("ticks with ignition off", run(&|s| !s.on(switch::IGNITION))),
        ("ticks with a door open", run(&|s| s.on(switch::DOOR))),
        ("ticks with the boot open", run(&|s| s.on(switch::BOOT))),
        ("ticks with the bonnet open", run(&|s| s.on(switch::BONNET))),
        ("ticks without eCall", without(ECALL)),
        ("ticks without a low severity", without(LOW_SEVERITY | PEDESTRIAN)),
        ("ticks without a high severity", without(HIGH_SEVERITY)),
        ("ticks without a reading", run(&|s| s.reading().is_none())),
    ]
}

// ------------------------------------------------------------------- the trial

/// The images held to the table so far.
type Seen = Vec<Vec<u8>>;

/// Holds the present engine's image to the table, every row of it.
fn as_the_table(comparison: &mut Comparison, table: &Table, seen: &mut Seen) {
    let image = comparison.image().to_vec();
    let kept = kept(&comparison.reference.history, table.layout);
    for (words, bytes) in &kept {
        if let Err(what) = table.holds(&image, words, bytes) {
            comparison.fail(&what);
        }
    }
    if kept.len() != table.rows.len() {
        comparison.fail(&format!("{} rows, {} of them known", table.rows.len(), kept.len()));
    }
    seen.push(image);
    comparison.tally.count(AS_THE_TABLE);
    let Some(&last) = standing(&comparison.reference.history) else {
        return;
    };
    let new = last_new(&comparison.reference.history).expect("it stands by a New");
    let elsewhere = (last.east, last.north) != (new.east, new.north);
    comparison.tally.count_if(last.warning == UNRESPONSIVE_DRIVER, UNRESPONSIVE);
    comparison.tally.count_if(elsewhere, CARRIED);
}

/// "A fresh image has 0 in every byte but the first."
fn fresh_image(comparison: &Comparison, table: &Table) {
    let mut fresh = [0; ENGINE_BYTES];
    fresh[0] = table.layout;
    if comparison.image() != fresh {
        comparison.fail(&format!("the fresh image is {:?}", comparison.image()));
    }
}

/// A stop in park, the first sample and the last 4 without a reading: still from
/// tick 1, so warning 1 has its New at tick 201 and stands. At each tick it is 7 dm
/// farther west and 2 farther north. The numbers are by hand.
fn stop_by_hand(comparison: &mut Comparison, table: &Table, seen: &mut Seen) {
    for tick in 0..=260 {
        let speed = if (1..257).contains(&tick) { 0 } else { NO_READING };
        let (east, north) = (-7 * tick as i32, 2 * tick as i32);
        let sample = Sample { speed, gear: gear::PARK, east, north, ..stopped(tick) };
        comparison.call(Call::Sample, &sample.to_bytes(), SAMPLE_OUTPUT);
        if tick == 0 {
            as_the_table(comparison, table, seen);
        }
    }
    let image = comparison.image();
    let numbers = [
        ("samples taken", 261),
        (EAST, -1_407),
        (NORTH, 402),
        ("tick of the last New", 201),
        ("first tick that the last New counted", 51),
        ("number of News", 1),
        ("ticks stationary", 260),
        ("ticks in park", 261),
        ("ticks with ignition off", 0),
        ("ticks without a reading", 4),
    ];
    for (words, n) in numbers {
        if let Err(what) = table.holds(image, words, &number(n as u32)) {
            comparison.fail(&what);
        }
    }
    let given = comparison.reference.history.messages();
    let last = given.last().map_or([0; MESSAGE_BYTES], Message::record);
    if let Err(what) = table.holds(image, "the standing warning's", &last) {
        comparison.fail(&what);
    }
    as_the_table(comparison, table, seen);
}

/// "An image of another layout is refused with 21 and left as it was": the
/// present engine's, with every other first byte.
fn other_layouts(comparison: &mut Comparison, table: &Table) {
    for first in (0..=u8::MAX).filter(|&first| first != table.layout) {
        let mut image = comparison.image().to_vec();
        image[0] = first;
        refused_21(comparison, &image, &format!("an image of layout {first}"));
        comparison.tally.count(OTHER_LAYOUT);
    }
    let mut zeros = [0; ENGINE_BYTES];
    let mut out = [0; SAMPLE_OUTPUT];
    if ffi::sample(&mut zeros, &stopped(0).to_bytes(), &mut out) != -21 {
        comparison.fail("memory of zeros was taken for an image");
    }
}

/// A coordinate of the last New beyond 1,000,000 dm is outside the ranges of refusal
/// 21; one of exactly as much is not. The rest of the image is the present engine's.
fn coordinates_at_the_ends(comparison: &mut Comparison, table: &Table) {
    const BEYOND_THE_ENDS: [i32; 4] = [FARTHEST + 1, -FARTHEST - 1, i32::MAX, i32::MIN];
    for words in [EAST, NORTH] {
        let row = match table.row(words) {
            Ok(row) => row.first..=row.last,
            Err(what) => comparison.fail(&what),
        };
        let with = |comparison: &Comparison, coordinate: i32| {
            let mut image = comparison.image().to_vec();
            image[row.clone()].copy_from_slice(&coordinate.to_le_bytes());
            (image, format!("an image with {coordinate} in the row \"{words}\""))
        };
        for coordinate in [FARTHEST, -FARTHEST] {
            let (image, name) = with(comparison, coordinate);
            accepted(comparison, &image, &name);
            comparison.tally.count(AT_THE_END);
        }
        for coordinate in BEYOND_THE_ENDS {
            let (image, name) = with(comparison, coordinate);
            refused_21(comparison, &image, &name);
            comparison.tally.count(BEYOND);
        }
    }
}

/// Answers of both calls on this image with a sample that is due, and whether image
/// and output are as they were.
fn answers(comparison: &mut Comparison, image: &[u8]) -> ([i32; 2], bool) {
    let sample = stopped(comparison.taken() as u32).to_bytes();
    let mut out = [0; BLOCK_OUTPUT];
    comparison.random.fill(&mut out);
    let mut images = [image.to_vec(), image.to_vec()];
    let mut outs = [out; 2];
    let answers = [
        ffi::sample(&mut images[0], &sample, &mut outs[0]),
        ffi::block(&mut images[1], &block_of(&sample), &mut outs[1]),
    ];
    comparison.calls += 2;
    (answers, images.iter().all(|after| after == image) && outs == [out; 2])
}

fn refused_21(comparison: &mut Comparison, image: &[u8], name: &str) {
    let (answers, untouched) = answers(comparison, image);
    if answers != [-21; 2] || !untouched {
        comparison.fail(&format!("{name}: answers {answers:?}, untouched: {untouched}"));
    }
}

fn accepted(comparison: &mut Comparison, image: &[u8], name: &str) {
    let (answers, _) = answers(comparison, image);
    if !answers.iter().all(|answer| (0..=2).contains(answer)) {
        comparison.fail(&format!("{name}: answers {answers:?}"));
    }
}

/// A stop in park that is carried (CR 5): a New at 200, an Update at 350 exactly 5,000
/// dm away, a Cancel at 361 a decimetre farther, and the next New at 562. At each tick
/// the image has the position in the last New, by hand.
fn carriage_by_hand(comparison: &mut Comparison, table: &Table, seen: &mut Seen) {
    comparison.restart("the header's table on a flatbed", 1);
    for tick in 0..=562 {
        let (east, north) = match tick {
            0..=200 => (-70, 300),
            201..=360 => (-3_070, 4_300),
            _ => (-3_071, 4_300),
        };
        let sample = Sample { gear: gear::PARK, east, north, ..stopped(tick) };
        comparison.call(Call::Sample, &sample.to_bytes(), SAMPLE_OUTPUT);
        let (east, north) = match tick {
            0..=199 => (0, 0),
            200..=561 => (-70, 300),
            _ => (-3_071, 4_300),
        };
        for (words, n) in [(EAST, east), (NORTH, north)] {
            if let Err(what) = table.holds(comparison.image(), words, &number(n as u32)) {
                comparison.fail(&format!("tick {tick}: {what}"));
            }
        }
        if [199, 200, 350, 361, 562].contains(&tick) {
            as_the_table(comparison, table, seen);
        }
    }
}

/// Random days, their images held to the table now and then.
fn days_in_the_table(comparison: &mut Comparison, table: &Table, seen: &mut Seen) {
    for (style, seeds) in [(days::TRAINING, 1..=10), (days::FLATBED, 11..=14)] {
        for seed in seeds {
            comparison.restart("the header's table on a random day", seed);
            let mut day = Day::new(seed, style);
            for tick in 0..4_000 {
                let sample = Sample { tick, ..day.next_sample() };
                comparison.call(Call::Sample, &sample.to_bytes(), SAMPLE_OUTPUT);
                if tick % 50 == 0 {
                    as_the_table(comparison, table, seen);
                }
            }
        }
    }
}

/// Two rows that held the same in every image could change places unseen.
fn rows_told_apart(comparison: &Comparison, table: &Table, seen: &Seen) {
    for (place, one) in table.rows.iter().enumerate() {
        for other in &table.rows[..place] {
            let same =
                |image: &Vec<u8>| image[one.first..=one.last] == image[other.first..=other.last];
            if seen.iter().all(same) {
                comparison.fail(&format!("\"{}\" and \"{}\" never differ", one.text, other.text));
            }
        }
    }
}
