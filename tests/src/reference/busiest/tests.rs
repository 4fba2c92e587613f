//! Lists worked by hand from CR 7, on the second implementation alone.

use super::*;
use crate::faults;
use crate::reference::{kind, Reference};
use crate::unit::Unit;

/// The first good message, a New of warning 1, at this tick.
fn new_at(reference: u32) -> Message {
    Message { detection: reference, reference, ..faults::good_messages()[0] }
}

fn list(ticks: &[u32]) -> Vec<u8> {
    ticks.iter().flat_map(|&tick| new_at(tick).record()).collect()
}

/// The answer in the manner of the C interface, and what is left where the tick goes.
fn asked(records: &[u8], width: u32) -> (i64, u32) {
    let mut first = 4_242;
    let answer = Reference::default().busiest_stretch(records, width, &mut first);
    (answer, first)
}

fn found(ticks: &[u32], width: u32) -> (i64, u32) {
    asked(&list(ticks), width)
}

/// What the number alone is, where no tick may be written.
fn alone(records: &[u8], width: u32) -> i64 {
    let (answer, first) = asked(records, width);
    assert_eq!(first, 4_242, "a tick was written");
    answer
}

#[test]
fn a_stretch_is_w_ticks_on_end() {
    assert_eq!(found(&[100, 699], 600), (2, 100));
    assert_eq!(found(&[100, 700], 600), (1, 100));
    assert_eq!(found(&[100, 700], 601), (2, 100));
    assert_eq!(found(&[7, 8, 9], 1), (1, 7));
    assert_eq!(found(&[7, 8, 9], 2), (2, 7));
}

#[test]
fn equal_ticks_count_each() {
    assert_eq!(found(&[5, 5, 5], 1), (3, 5));
    assert_eq!(found(&[5, 6, 6, 7], 1), (2, 6));
    assert_eq!(found(&[5, 5, 6, 8, 8, 9], 2), (3, 5));
}

#[test]
fn the_earliest_of_equal_stretches() {
    assert_eq!(found(&[10, 20, 30], 5), (1, 10));
    assert_eq!(found(&[10, 11, 12, 13], 3), (3, 10));
    assert_eq!(found(&[10, 50, 51, 90, 91], 10), (2, 50));
    assert_eq!(found(&[10, 50, 51, 60, 61], 10), (2, 50));
}

#[test]
fn the_busiest_at_the_start_in_the_middle_and_at_the_end() {
    assert_eq!(found(&[0, 1, 2, 20, 40], 10), (3, 0));
    assert_eq!(found(&[0, 20, 25, 29, 40], 10), (3, 20));
    assert_eq!(found(&[0, 20, 40, 44, 49], 10), (3, 40));
}

#[test]
fn the_first_and_the_last_tick() {
    assert_eq!(found(&[0], 1), (1, 0));
    assert_eq!(found(&[9_999_999], 1), (1, 9_999_999));
    assert_eq!(found(&[9_999_999], 10_000_000), (1, 9_999_999));
    assert_eq!(found(&[0, 9_999_999], 9_999_999), (1, 0));
    assert_eq!(found(&[0, 9_999_999], 10_000_000), (2, 0));
}

#[test]
fn an_empty_list_gives_zero_and_no_tick() {
    for width in [1, 600, 10_000_000] {
        assert_eq!(alone(&[], width), 0);
    }
    for width in [0, 10_000_001, u32::MAX] {
        assert_eq!(alone(&[], width), -36);
    }
}

#[test]
fn a_cancel_lies_at_its_own_tick() {
    let cancel = Message { kind: kind::CANCEL, detection: 300, ..new_at(2_000) };
    let records = [list(&[300, 1_990]), cancel.record().to_vec()].concat();
    assert_eq!(asked(&records, 600), (2, 1_990));
}

#[test]
fn refusals_in_their_order() {
    let falling = list(&[700, 800, 799]);
    let mut damaged = falling.clone();
    damaged[2 * MESSAGE_BYTES + 3] = 95;
    for width in [0, 600] {
        assert_eq!(alone(&damaged[..3 * MESSAGE_BYTES - 1], width), -13);
        assert_eq!(alone(&damaged, width), -14);
        assert_eq!(alone(&falling, width), -35);
    }
    let rising = list(&[700, 800, 800]);
    assert_eq!(alone(&rising, 0), -36);
    assert_eq!(alone(&rising, 10_000_001), -36);
    assert_eq!(asked(&rising, 10_000_000), (3, 700));
    assert_eq!(alone(&rising[..31], 600), -13);
}

/// All lists of up to four ticks below 6, against every first tick there can be.
#[test]
fn all_short_lists_against_every_tick() {
    let mut lists: Vec<Vec<u32>> = vec![vec![]];
    for _ in 0..4 {
        let longer = |list: &Vec<u32>| {
            let from = list.last().copied().unwrap_or(0);
            (from..6).map(|tick| [&list[..], &[tick]].concat()).collect::<Vec<_>>()
        };
        lists = lists.iter().flat_map(longer).collect();
        for ticks in &lists {
            for width in 1..=8 {
                let every = (0..20).map(|t| messages_from(t, width, ticks));
                let most = every.max().unwrap_or(0);
                assert_eq!(most_from_any_tick(ticks, width), most, "{ticks:?}, {width}");
                let earliest = ticks.iter().find(|&&t| messages_from(t, width, ticks) == most);
                let (number, first) = found(ticks, width);
                assert_eq!((number, Some(&first)), (most as i64, earliest), "{ticks:?}, {width}");
            }
        }
    }
}
