//! The documents' examples, on the second implementation alone.

use super::*;
use crate::printing;
use crate::scenes::{self, lose, stopped};
use std::ops::Range;

fn played(samples: &[Sample]) -> History {
    let mut history = History::default();
    for &sample in samples {
        history.take(sample);
    }
    history
}

fn lines(history: &History) -> Vec<String> {
    history.messages().iter().map(|m| printing::line(&m.record())).collect()
}

/// Whether each tick of these speeds is still.
fn still(speeds: impl Iterator<Item = u16>) -> Vec<bool> {
    let sample = |(tick, speed)| Sample { speed, ..stopped(tick as u32) };
    played(&speeds.enumerate().map(sample).collect::<Vec<_>>()).still
}

/// The first still tick of these speeds, if any is.
fn first_still(speeds: impl Iterator<Item = u16>) -> Option<usize> {
    still(speeds).iter().position(|&still| still)
}

#[test]
fn every_scene_gives_its_lines() {
    for scene in scenes::all() {
        assert_eq!(lines(&played(&scene.samples)), scene.lines, "{}", scene.name);
    }
}

#[test]
fn bench_stop_i_in_every_field() {
    let stop = &scenes::bench_stops()[0];
    let history = played(&stop.samples);
    let new = Message {
        kind: kind::NEW,
        warning: 1,
        sub_cause: 0,
        cause: 94,
        quality: 1,
        road_type: 255,
        direction: 0,
        stationary_since: 0,
        event: 1,
        detection: 300,
        reference: 300,
        east: 0,
        north: 0,
        heading: 0,
        validity: 30,
    };
    let update = |tick, stationary_since| Message {
        kind: kind::UPDATE,
        detection: tick,
        reference: tick,
        stationary_since,
        ..new
    };
    assert_eq!(history.messages(), [new, update(450, 0), update(600, 1)]);
}

#[test]
fn a_cancel_repeats_the_last_new_or_update() {
    let stop = scenes::bench_stops().into_iter().find(|s| s.name.contains("(vi)")).unwrap();
    let moved = |s: &Sample| Sample { east: s.tick as i32, heading: 90, road: 5, ..*s };
    let samples: Vec<Sample> = stop.samples.iter().map(moved).collect();
    let history = played(&samples);
    let [new, cancel] = history.messages() else {
        panic!("a New and a Cancel");
    };
    assert_eq!((new.road_type, new.direction, new.east, new.heading), (3, 1, 300, 90));
    assert_eq!(*cancel, Message { kind: kind::CANCEL, reference: 360, ..*new });
}

/// Carried 6 dm east and 8 dm south at each tick, 10 dm in all, with the hazard lights
/// off at 310 alone: two events, the second with Updates.
fn carried() -> History {
    let sample = |tick| {
        let (east, north) = (6 * tick as i32 - 900, -8 * tick as i32);
        let mut sample = Sample { east, north, ..stopped(tick) };
        if tick == 310 {
            sample.switches &= !switch::HAZARD;
        }
        sample
    };
    played(&(0..=1_112).map(sample).collect::<Vec<_>>())
}

#[test]
fn the_distance_counts_from_the_new_of_the_event() {
    let history = carried();
    let second = ["611 N 1 1 2", "761 U 1 1 2", "911 U 1 1 2", "1061 U 1 1 2", "1112 C 1 1 2"];
    assert_eq!(lines(&history), [&["300 N 1 1 1", "310 C 1 1 1"][..], &second].concat());
    let squares = [301, 310, 612, 761, 762, 1_061, 1_062, 1_111, 1_112];
    let distances = [10, 100, 10, 1_500, 1_510, 4_500, 4_510, 5_000, 5_010];
    assert_eq!(squares.map(|i| history.square_moved(i)), distances.map(|dm| dm * dm));
    assert_eq!(history.square_moved(1_111), SQUARE_TOO_FAR);
}

#[test]
fn the_new_that_the_distance_counts_from_is_that_of_what_stands() {
    let history = carried();
    let news = [301, 310, 612, 761, 762, 1_112].map(|i| history.standing_new(i).reference);
    assert_eq!(news, [300, 300, 611, 611, 611, 611]);
    let last = [301, 310, 612, 761, 762, 1_112].map(|i| history.last_new_or_update(i).reference);
    assert_eq!(last, [300, 300, 611, 611, 761, 1_061]);
}

#[test]
fn an_update_has_its_own_position_and_a_cancel_that_of_the_last() {
    let places = carried().messages().iter().map(|m| (m.east, m.north)).collect::<Vec<_>>();
    let at = |tick| (6 * tick - 900, -8 * tick);
    assert_eq!(places, [300, 300, 611, 761, 911, 1_061, 1_061].map(at));
}

#[test]
fn a_square_from_end_to_end() {
    let scenes = scenes::all();
    let stop = scenes.iter().find(|s| s.name == "south-west to north-east").unwrap();
    assert_eq!(played(&stop.samples).square_moved(301), 8_000_000_000_000);
}

/// Moving on road 2 with a door open for more than 31 samples, the function
/// active from tick 40 on.
fn unresponsive() -> History {
    let sample = |tick| Sample {
        speed: 1_400,
        switches: switch::IGNITION | switch::DOOR,
        happenings: if tick >= 40 { happening::MITIGATION } else { 0 },
        road: 2,
        heading: 2_711,
        east: 1_000 - 3 * tick as i32,
        north: 5 * tick as i32,
        ..stopped(tick)
    };
    played(&(0..48).map(sample).collect::<Vec<_>>())
}

#[test]
fn warning_4_in_every_field() {
    let new = Message {
        kind: kind::NEW,
        warning: 4,
        sub_cause: 8,
        cause: 99,
        quality: 1,
        road_type: 1,
        direction: 1,
        stationary_since: 0,
        event: 1,
        detection: 40,
        reference: 40,
        east: 880,
        north: 200,
        heading: 2_711,
        validity: 2,
    };
    let update =
        Message { kind: kind::UPDATE, detection: 45, reference: 45, east: 865, north: 225, ..new };
    assert_eq!(unresponsive().messages(), [new, update]);
}

#[test]
fn the_record_of_warning_4_by_hand() {
    #[rustfmt::skip]
    let new = [
        1, 4, 8, 99, 1, 1, 1, 0,
        1, 0, 0, 0, 40, 0, 0, 0, 40, 0, 0, 0,
        0x70, 3, 0, 0, 200, 0, 0, 0, 0x97, 10, 2, 0,
    ];
    assert_eq!(unresponsive().messages()[0].record(), new);
    assert_eq!(Message::from_record(&new), Ok(unresponsive().messages()[0]));
}

#[test]
fn refusal_14_admits_warning_4_with_its_values_only() {
    let new = unresponsive().messages()[0];
    let admitted = |message: Message| Message::from_record(&message.record()).is_ok();
    assert!(admitted(Message { kind: kind::UPDATE, stationary_since: 3, ..new }));
    assert!(!admitted(Message { stationary_since: 4, ..new }));
    assert!(!admitted(Message { kind: kind::CANCEL, ..new }));
    assert!(!admitted(Message { kind: kind::CANCEL, reference: 41, ..new }));
    assert!(!admitted(Message { quality: 0, ..new }));
    assert!(!admitted(Message { quality: 2, ..new }));
    assert!(!admitted(Message { quality: 3, ..new }));
    assert!(!admitted(Message { cause: 94, ..new }));
    assert!(!admitted(Message { sub_cause: 3, ..new }));
    assert!(!admitted(Message { validity: 30, ..new }));
    assert!(!admitted(Message { validity: 180, ..new }));
    for warning in [STOPPED, BROKEN_DOWN, POST_CRASH, 5] {
        assert!(!admitted(Message { warning, ..new }));
    }
    let stopped = played(&scenes::bench_stops()[0].samples).messages()[0];
    assert!(admitted(stopped));
    assert!(!admitted(Message { cause: 99, ..stopped }));
    assert!(!admitted(Message { validity: 2, ..stopped }));
    assert!(!admitted(Message { warning: UNRESPONSIVE_DRIVER, ..stopped }));
}

#[test]
fn refusal_5_covers_bits_5_to_7() {
    let read = |happenings| Sample::from_bytes(&Sample { happenings, ..stopped(0) }.to_bytes());
    assert_eq!(read(0x1F).map(|sample| sample.happenings), Ok(0x1F));
    for bit in 5..=7 {
        assert_eq!(read(1 << bit), Err(Refusal(5)));
    }
}

#[test]
fn warning_4_stands_from_its_new_to_the_tick_that_ends_it() {
    let scenes = scenes::all();
    let stop = scenes.iter().find(|s| s.name.starts_with("4 ends at 9")).unwrap();
    let history = played(&stop.samples);
    assert_eq!((0..=8).map(|i| history.stood_before(i + 1)).collect::<Vec<_>>(), [4; 9]);
    assert_eq!([9, 309, 310].map(|i| history.stood_before(i + 1)), [NONE, NONE, STOPPED]);
}

#[test]
fn ranks_are_1_2_4_3() {
    assert_eq!([NONE, 1, 2, 4, 3].map(rank), [0, 1, 2, 3, 4]);
}

#[test]
fn filter_facts() {
    assert_eq!(first_still([100].into_iter().chain([0; 20])), Some(9));
    assert_eq!(first_still([9].into_iter().chain([8; 2_000])), None);
    assert_eq!(first_still([8].into_iter()), Some(0));
    assert_eq!(first_still([NO_READING, NO_READING, 8].into_iter()), Some(2));
}

/// The ticks that are not still when these speeds are followed by so many missing
/// readings, and then by standing still.
fn not_still(speeds: &[u16], missing: usize) -> Vec<usize> {
    let lost = [NO_READING; 10].into_iter().take(missing);
    let still = still(speeds.iter().copied().chain(lost).chain([0]));
    (0..still.len()).filter(|&i| !still[i]).collect()
}

#[test]
fn five_missing_readings_leave_still_as_it_was_and_the_sixth_makes_it_false() {
    for missing in 0..=5 {
        assert_eq!(not_still(&[0], missing), []);
    }
    assert_eq!(not_still(&[0], 6), [6]);
    assert_eq!(not_still(&[0], 8), [6, 7, 8]);
    // What counts is F, here 30 / 4, and not the last reading.
    assert_eq!(not_still(&[0, 30], 6), [7]);
    // F is 9, and at last 9 - 9 / 4.
    assert_eq!(not_still(&[9], 5), [0, 1, 2, 3, 4, 5]);
    assert_eq!(not_still(&[9], 6), [0, 1, 2, 3, 4, 5, 6]);
}

#[test]
fn a_reading_begins_the_count_of_missing_ones_anew() {
    const M: u16 = NO_READING;
    assert_eq!(not_still(&[0, M, M, M, M, M, 0], 5), []);
    assert_eq!(not_still(&[0, M, M, M, M, M, M, 0], 6), [6, 13]);
    assert_eq!(not_still(&[0, M, M, M, M, M, 100], 2), [6, 7, 8, 9]);
}

#[test]
fn with_no_reading_yet_it_is_not_still() {
    assert_eq!(not_still(&[], 3), [0, 1, 2]);
    assert_eq!(not_still(&[], 8), [0, 1, 2, 3, 4, 5, 6, 7]);
}

/// stationarySince at these ticks of a stand without readings at the ticks `lost`.
fn stationary_since<const N: usize>(lost: Range<u32>, ticks: [usize; N]) -> [u8; N] {
    let sample = |tick| {
        let mut sample = stopped(tick);
        lose(&mut sample, lost.clone());
        sample
    };
    let history = played(&(0..=9_306).map(sample).collect::<Vec<_>>());
    ticks.map(|i| history.stationary_since(i))
}

#[test]
fn stationary_since_turns_at_1_2_and_15_minutes() {
    let turns = [599, 600, 1_199, 1_200, 8_999, 9_000];
    assert_eq!(stationary_since(0..0, turns), [0, 1, 1, 2, 2, 3]);
    assert_eq!(stationary_since(300..305, turns), [0, 1, 1, 2, 2, 3]);
    assert_eq!(stationary_since(8_996..9_001, turns), [0, 1, 1, 2, 2, 3]);
}

#[test]
fn stationary_since_begins_anew_after_six_missing_readings() {
    let turns = [905, 906, 1_505, 1_506, 9_305, 9_306];
    assert_eq!(stationary_since(300..306, turns), [0, 1, 1, 2, 2, 3]);
    assert_eq!(stationary_since(700..720, [704, 705, 719, 720]), [1, 0, 0, 0]);
}

#[test]
fn block_check_by_hand() {
    let block = block_of(&stopped(0).to_bytes());
    // Count 1 at place 4; the sample's gear 3 and switches 3 at 18 and 19.
    assert_eq!(u32_at(&block, 8), 5 + 19 * 3 + 20 * 3);
}

#[test]
fn block_reader_and_writer_undo_each_other() {
    let samples: Vec<u8> = (70..77).flat_map(|tick| stopped(tick).to_bytes()).collect();
    let mut block = [9; BLOCK_BYTES + 1];
    assert_eq!(write_block(&samples, &mut block), Ok(7));
    assert_eq!(block[BLOCK_BYTES], 9);
    let mut out = [9; READER_OUTPUT];
    assert_eq!(read_block(&block[..BLOCK_BYTES], &mut out), Ok(7));
    assert_eq!(out[..samples.len()], samples);
    assert!(out[samples.len()..].iter().all(|&byte| byte == 9));
}

/// A block of so many stopped samples, their ticks from `first` on.
fn block_from(first: u32, count: u32) -> [u8; BLOCK_BYTES] {
    let samples: Vec<u8> = (first..first + count).flat_map(|t| stopped(t).to_bytes()).collect();
    block_of(&samples)
}

/// A block of 512 bytes that begins with these.
fn block_with(start: &[u8]) -> [u8; BLOCK_BYTES] {
    let mut block = [0; BLOCK_BYTES];
    block[..start.len()].copy_from_slice(start);
    block
}

#[test]
fn a_sample_appended_and_struck_out_by_hand() {
    // Count 1 at place 4, gear and switches 3 at 18 and 19: 5 + 57 + 60 = 0x7A. With the
    // second sample the count adds 5 more, its tick 1 at place 32 adds 33, its gear and
    // switches 3 at 38 and 39 add 117 and 120: 122 + 5 + 33 + 117 + 120 = 397 = 0x018D.
    #[rustfmt::skip]
    let one = block_with(&[
        0, 0, 0, 0, 1, 0, 0, 0, 0x7A, 0, 0, 0,
        0, 0, 0, 0, 0, 0, 3, 3, 0, 0, 0, 0, 0, 0, 0, 0, 0, 0, 0, 0,
    ]);
    #[rustfmt::skip]
    let two = block_with(&[
        0, 0, 0, 0, 2, 0, 0, 0, 0x8D, 1, 0, 0,
        0, 0, 0, 0, 0, 0, 3, 3, 0, 0, 0, 0, 0, 0, 0, 0, 0, 0, 0, 0,
        1, 0, 0, 0, 0, 0, 3, 3, 0, 0, 0, 0, 0, 0, 0, 0, 0, 0, 0, 0,
    ]);
    let mut block = one;
    assert_eq!(append_sample(&mut block, &two[32..52]), Ok(2));
    assert_eq!(block, two);
    assert_eq!(strike_out_sample(&mut block), Ok(1));
    assert_eq!(block, one);
    assert_eq!(strike_out_sample(&mut block), Err(Refusal(34)));
    assert_eq!(block, one);
}

#[test]
fn a_sample_of_zeros_appended_by_hand() {
    // Of zeros but for the count: 1 at place 4 is 5, 2 there is 10.
    let one = block_with(&[0, 0, 0, 0, 1, 0, 0, 0, 5]);
    let two = block_with(&[0, 0, 0, 0, 2, 0, 0, 0, 10]);
    let mut block = one;
    assert_eq!(append_sample(&mut block, &[0; SAMPLE_BYTES]), Ok(2));
    assert_eq!(block, two);
    assert_eq!(strike_out_sample(&mut block), Ok(1));
    assert_eq!(block, one);
}

#[test]
fn the_twenty_fifth_sample_by_hand() {
    // Its bytes lie at the places 492 to 511, the last of the block. Gear and switches 3
    // at 498 and 499 weigh 3 * 499 and 3 * 500, the tick 0x5D at 492 weighs 93 * 493, the
    // count 5: 1,497 + 1,500 + 45,849 + 5.
    let mut block = block_from(69, 24);
    let before = block;
    let sample = stopped(93).to_bytes();
    assert_eq!(append_sample(&mut block, &sample), Ok(25));
    assert_eq!(u32_at(&block, 8), u32_at(&before, 8) + 48_851);
    assert_eq!((block[4], &block[..4], &block[492..]), (25, &[69, 0, 0, 0][..], &sample[..]));
    assert_eq!(append_sample(&mut block, &stopped(94).to_bytes()), Err(Refusal(9)));
    assert_eq!(block, block_from(69, 25));
    assert_eq!(strike_out_sample(&mut block), Ok(24));
    assert_eq!(block, before);
    assert_eq!(block[492..], [0; SAMPLE_BYTES]);
}

#[test]
fn what_is_appended_may_have_any_tick() {
    let mut block = block_from(70, 1);
    for (tick, count) in [(70, 2), (0, 3), (71, 4), (9_999_999, 5), (u32::MAX, 6)] {
        assert_eq!(append_sample(&mut block, &stopped(tick).to_bytes()), Ok(count));
        assert_eq!(u32_at(&block, 0), 70);
    }
    for count in [5, 4, 3, 2, 1] {
        assert_eq!(strike_out_sample(&mut block), Ok(count));
    }
    assert_eq!(block, block_from(70, 1));
}

/// The refusals of appending and striking out; both leave the block as it was lent.
fn refusals(block: &[u8], sample: &[u8]) -> [i32; 2] {
    let mut copies = [block.to_vec(), block.to_vec()];
    let [one, other] = &mut copies;
    let answers = [append_sample(one, sample), strike_out_sample(other)];
    let numbers = answers.map(|answer| answer.err().map_or(0, |refusal| refusal.0));
    for (copy, number) in copies.iter().zip(numbers) {
        assert!(number == 0 || copy == block);
    }
    numbers
}

#[test]
fn appending_and_striking_out_refuse_in_their_order() {
    let mut block = block_from(70, 25);
    let good = stopped(95).to_bytes();
    let bad = Sample { speed: 16_384, ..stopped(95) }.to_bytes();
    assert_eq!(refusals(&block, &good), [9, 0]);
    assert_eq!(refusals(&block, &bad), [3, 0]);
    // Heading 3,602 in the second sample, gear 5 in the last.
    block[BLOCK_HEADER + 20 + 10..][..2].copy_from_slice(&3_602_u16.to_le_bytes());
    block[BLOCK_HEADER + 24 * 20 + 6] = 5;
    let seal = |block: &mut [u8]| {
        let check = block_check(block).to_le_bytes();
        block[8..12].copy_from_slice(&check);
    };
    seal(&mut block);
    assert_eq!(refusals(&block, &bad), [7, 7]);
    block[0] += 1;
    seal(&mut block);
    assert_eq!(refusals(&block, &bad), [12, 12]);
    block[8] ^= 1;
    assert_eq!(refusals(&block, &bad), [11, 11]);
    block[5] = 1;
    assert_eq!(refusals(&block, &bad), [10, 10]);
    block[4] = 26;
    assert_eq!(refusals(&block, &bad), [9, 9]);
    assert_eq!(refusals(&block, &bad[..19]), [1, 9]);
    assert_eq!(refusals(&block[..511], &bad), [1, 1]);
}

#[test]
fn striking_out_the_only_sample_is_refused_last() {
    let mut block = block_from(70, 1);
    assert_eq!(refusals(&block, &stopped(71).to_bytes()), [0, 34]);
    block[8] ^= 1;
    assert_eq!(refusals(&block, &stopped(71).to_bytes()), [11, 11]);
    let bad = block_of(&Sample { road: 7, ..stopped(70) }.to_bytes());
    assert_eq!(refusals(&bad, &stopped(71).to_bytes()), [6, 6]);
    assert_eq!(refusals(&bad, &[]), [1, 6]);
}

#[test]
fn message_reader_and_writer_undo_each_other() {
    let history = played(&scenes::bench_stops()[0].samples);
    let message = history.messages()[0];
    let mut out = [9; MESSAGE_BYTES + 1];
    assert_eq!(message.write(&mut out), Ok(()));
    assert_eq!(out[MESSAGE_BYTES], 9);
    assert_eq!(Message::from_record(&out[..MESSAGE_BYTES]), Ok(message));
}

#[test]
fn message_reader_refuses_by_13_then_14_and_writer_by_2_then_14() {
    let bad = Message { cause: 95, ..played(&scenes::bench_stops()[0].samples).messages()[0] };
    assert_eq!(Message::from_record(&bad.record()[..31]), Err(Refusal(13)));
    assert_eq!(Message::from_record(&bad.record()), Err(Refusal(14)));
    assert_eq!(bad.write(&mut [0; 31]), Err(Refusal(2)));
    assert_eq!(bad.write(&mut [0; 32]), Err(Refusal(14)));
}

#[test]
fn a_refused_call_takes_and_writes_nothing() {
    let mut unit = Reference::default();
    let mut out = [9; BLOCK_OUTPUT];
    let good: Vec<u8> = (0..3).flat_map(|tick| stopped(tick).to_bytes()).collect();
    let mut bad = good.clone();
    bad[2 * SAMPLE_BYTES + 6] = 5;
    assert_eq!(unit.block_call(&block_of(&bad), &mut out), Err(Refusal(4)));
    assert_eq!(unit.sample_call(&stopped(1).to_bytes(), &mut out), Err(Refusal(23)));
    assert_eq!((unit.taken(), out), (0, [9; BLOCK_OUTPUT]));
    assert_eq!(unit.block_call(&block_of(&good), &mut out), Ok(0));
    assert_eq!(unit.taken(), 3);
}

/// What the printing program gives for these bytes.
fn printed(bytes: &[u8]) -> String {
    let mut lines = Vec::new();
    printing::print(&mut Reference::default(), &mut &bytes[..], &mut lines).unwrap();
    String::from_utf8(lines).unwrap()
}

#[test]
fn the_printing_program() {
    let scenes = scenes::all();
    let one = scenes.iter().find(|s| s.name.contains("one block")).unwrap();
    let bytes: Vec<u8> = one.samples.iter().flat_map(Sample::to_bytes).collect();
    let block = block_of(&bytes);
    assert_eq!(printed(&block), "10 N 3 1 1\n25 ticks 1 messages\n");
    assert_eq!(printed(&[]), "0 ticks 0 messages\n");
    assert_eq!(printed(&block[..511]), "refused 1\n");
    assert_eq!(printed(&[block, block].concat()), "10 N 3 1 1\nrefused 23\n");
    assert_eq!(printed(&[&block[..], &[0]].concat()), "10 N 3 1 1\nrefused 1\n");
}
