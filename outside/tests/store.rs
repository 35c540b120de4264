//! The track store: layout, appends, damage and refusals.

use std::collections::HashSet;

use outside::point::Point;
use outside::refusal::Refusal;
use outside::rng::Rng;
use outside::store::{
    append_lost, append_point, append_points, make, read, read_into, Event, Track,
};

fn made(records: usize, mode: u8, role: u8) -> Vec<u8> {
    let mut store = vec![0xee; 32 * records];
    make(&mut store, mode, role).unwrap();
    store
}

fn point(re: i16, im: i16) -> Event {
    Event::Point(Point { re, im })
}

fn number(result: Result<(), Refusal>) -> u8 {
    result.map_or_else(|refusal| refusal.0, |()| 0)
}

fn u16_at(store: &[u8], at: usize) -> usize {
    usize::from(store[at]) + 256 * usize::from(store[at + 1])
}

fn u32_at(store: &[u8], at: usize) -> usize {
    u16_at(store, at) + 65536 * u16_at(store, at + 2)
}

/// Numbers 11 to 15 of a store, one after another and each in its own pass.
fn number_by_text(store: &[u8]) -> u8 {
    let records = store.len() / 32;
    if store.len() != 32 * records || !(2..=2048).contains(&records) {
        return 11;
    }
    let role_known = match store[4] {
        1 | 2 | 5 | 6 => store[5] == 0,
        3 | 4 => store[5] <= 1,
        _ => false,
    };
    if &store[..4] != b"VSYM" || !role_known || store[12..32] != [0; 20] {
        return 12;
    }
    let (mut chain, mut met, mut index) = (Vec::new(), HashSet::new(), u16_at(store, 6));
    while index != 0 {
        if index >= records || !met.insert(index) {
            return 13;
        }
        chain.push(&store[32 * index..][..32]);
        index = u16_at(store, 32 * index);
    }
    let intervals: Option<Vec<usize>> = chain.into_iter().map(intervals_by_text).collect();
    match intervals {
        None => 14,
        Some(counts) if counts.iter().sum::<usize>() != u32_at(store, 8) => 15,
        Some(_) => 0,
    }
}

/// The intervals of a chain record, unless number 14 applies.
fn intervals_by_text(record: &[u8]) -> Option<usize> {
    let count = usize::from(record[3]);
    let lost = u32_at(record, 4);
    let (used, intervals) = match record[2] {
        1 if (1..=7).contains(&count) => (4 + 4 * count, count),
        2 if count == 0 && lost > 0 => (8, lost),
        _ => return None,
    };
    let in_range = |two: &[u8]| i16::from_le_bytes([two[0], two[1]]).unsigned_abs() <= 16384;
    let points_fit = record[2] == 2 || record[4..used].chunks(2).all(in_range);
    let unused_zero = record[used..].iter().all(|&byte| byte == 0);
    (points_fit && unused_zero).then_some(intervals)
}

#[test]
fn a_made_store_is_zero_but_for_record_0() {
    let store = made(3, 3, 1);
    assert_eq!(store[..6], *b"VSYM\x03\x01");
    assert!(store[6..].iter().all(|&byte| byte == 0));
    assert_eq!(read(&store), Ok(vec![]));
}

#[test]
fn make_refuses_by_1_2_and_11() {
    let mut store = vec![7; 33];
    assert_eq!(number(make(&mut store, 7, 9)), 1);
    assert_eq!(number(make(&mut store, 0, 9)), 1);
    assert_eq!(number(make(&mut store, 6, 1)), 2);
    assert_eq!(number(make(&mut store, 6, 0)), 11);
    assert_eq!(number(make(&mut store, 2, 1)), 2);
    assert_eq!(number(make(&mut store, 2, 0)), 11);
    assert_eq!(store, [7; 33]);
    for (size, expected) in [
        (0, 11),
        (32, 11),
        (64, 0),
        (65, 11),
        (65536, 0),
        (65568, 11),
    ] {
        assert_eq!(number(make(&mut vec![7; size], 2, 0)), expected, "{size}");
    }
}

#[test]
fn records_stand_as_document_01_lays_them_out() {
    let mut store = made(4, 4, 0);
    store[32..].fill(0xee);
    append_point(&mut store, -2, 258).unwrap();
    append_point(&mut store, 16384, -16384).unwrap();
    append_lost(&mut store, 0x0102_0304).unwrap();
    append_point(&mut store, 0, 0).unwrap();
    let mut expected = vec![0; 128];
    expected[..12].copy_from_slice(b"VSYM\x04\x00\x01\x00\x07\x03\x02\x01");
    expected[32..44].copy_from_slice(&[2, 0, 1, 2, 0xfe, 0xff, 2, 1, 0, 0x40, 0, 0xc0]);
    expected[64..72].copy_from_slice(&[3, 0, 2, 0, 4, 3, 2, 1]);
    expected[96..100].copy_from_slice(&[0, 0, 1, 1]);
    assert_eq!(store, expected);
    let events = [
        point(-2, 258),
        point(16384, -16384),
        Event::Lost(0x0102_0304),
        point(0, 0),
    ];
    assert_eq!(read(&store).unwrap(), events);
}

#[test]
fn seven_points_fill_a_record() {
    let mut store = made(3, 1, 0);
    for k in 0..14 {
        append_point(&mut store, k, -k).unwrap();
    }
    assert_eq!((store[35], store[67]), (7, 7));
    let before = store.clone();
    assert_eq!(number(append_point(&mut store, 14, -14)), 17);
    assert_eq!(number(append_lost(&mut store, 1)), 17);
    assert_eq!(store, before);
    assert_eq!(read(&store).unwrap().len(), 14);
}

#[test]
fn a_new_record_takes_the_greatest_index_plus_one() {
    // The chain runs 3, 1; records 2 and 4 may hold anything.
    let mut store = made(5, 1, 0);
    store[32..].fill(0xee);
    store[6] = 3;
    store[8] = 5;
    store[96..128].fill(0);
    store[96..105].copy_from_slice(&[1, 0, 1, 1, 0, 0, 0, 0, 0]);
    store[32..64].fill(0);
    store[32..37].copy_from_slice(&[0, 0, 2, 0, 4]);
    assert_eq!(read(&store).unwrap(), [point(0, 0), Event::Lost(4)]);
    append_point(&mut store, 1, 1).unwrap();
    assert_eq!((store[6], store[96], store[32], store[128]), (3, 1, 4, 0));
    assert_eq!(store[128..136], [0, 0, 1, 1, 1, 0, 1, 0]);
    assert_eq!(store[136..], [0; 24]);
    assert_eq!(store[64..96], [0xee; 32]);
    assert_eq!(store[8], 6);
    // Record 2 is free, yet the greatest index is N − 1.
    assert_eq!(number(append_lost(&mut store, 1)), 17);
}

#[test]
fn an_append_gives_the_lowest_number() {
    let mut store = made(2, 1, 0);
    append_lost(&mut store, u32::MAX).unwrap();
    let numbers = |store: &mut [u8]| {
        let before = store.to_vec();
        let found = [
            number(append_point(store, 1, 16384)),
            number(append_lost(store, 1)),
            number(append_point(store, 16385, 0)),
            number(append_lost(store, 0)),
        ];
        assert_eq!(store, before);
        found
    };
    assert_eq!(numbers(&mut store), [16, 16, 8, 9]);
    store[36] = 0xfe;
    assert_eq!(numbers(&mut store), [15, 15, 8, 9]);
    store[8] = 0xfe;
    assert_eq!(number(append_point(&mut store, 1, 16384)), 17);
    store[63] = 1;
    assert_eq!(numbers(&mut store), [14, 14, 8, 9]);
    store[32] = 1;
    assert_eq!(numbers(&mut store), [13, 13, 8, 9]);
    store[31] = 1;
    assert_eq!(numbers(&mut store), [12, 12, 8, 9]);
    assert_eq!(numbers(&mut store[..63]), [11, 11, 8, 9]);
    assert_eq!(numbers(&mut store[..32]), [11, 11, 8, 9]);
}

/// A byte of the store in the test below, another value, the number it meets.
const DAMAGES: [(usize, u8, u8); 36] = [
    (0, b'W', 12),
    (3, b'2', 12),
    (4, 0, 12),
    (4, 7, 12),
    (4, 6, 0),
    (5, 1, 12),
    (12, 1, 12),
    (31, 1, 12),
    (6, 6, 13),
    (7, 1, 13),
    (6, 0, 15),
    (6, 2, 15),
    (8, 0, 15),
    (11, 1, 15),
    (32, 1, 13),
    (64, 1, 13),
    (96, 2, 13),
    (96, 6, 13),
    (64, 0, 15),
    (34, 0, 14),
    (34, 2, 14),
    (34, 3, 14),
    (35, 0, 14),
    (35, 6, 14),
    (35, 8, 14),
    (37, 0x41, 14),
    (67, 2, 15),
    (72, 1, 14),
    (95, 1, 14),
    (99, 1, 14),
    (102, 0, 15),
    (104, 1, 14),
    (127, 1, 14),
    (96, 4, 14),
    (128, 1, 0),
    (191, 255, 0),
];

#[test]
fn each_damage_has_its_number() {
    // Records 1 to 3 hold seven points, one point, and a lost count.
    let mut store = made(6, 2, 0);
    for k in 0..8 {
        append_point(&mut store, 100 * k, -k).unwrap();
    }
    append_lost(&mut store, 70000).unwrap();
    assert_eq!(number_by_text(&store), 0);
    for (at, value, expected) in DAMAGES {
        let mut damaged = store.clone();
        assert_ne!(damaged[at], value);
        damaged[at] = value;
        assert_eq!(number(read(&damaged).map(|_| ())), expected, "byte {at}");
    }
}

#[test]
fn damaged_stores_are_refused_as_the_text_says() {
    let mut rng = Rng::new(10);
    let mut seen = HashSet::new();
    for _ in 0..60_000 {
        let records = rng.between(2, 9) as usize;
        let mut store = made(records, rng.mode_and_role().0.number, 0);
        for _ in 0..rng.below(20) {
            let lost = rng.below(5) as u32;
            let _ = match lost {
                0..=2 => append_point(&mut store, 16384, 5),
                _ => append_lost(&mut store, lost),
            };
        }
        for _ in 0..rng.below(4) {
            let at = rng.below(store.len() as u64) as usize;
            // Bytes 0 to 3 of a record are damaged more often than others.
            let at = if rng.below(2) == 0 {
                at
            } else {
                at / 32 * 32 + at % 4
            };
            store[at] = [0, 1, 2, 3, 7, 8, 255, at as u8][rng.below(8) as usize];
        }
        let cut = rng.below(30).saturating_sub(28) as usize;
        let store = &store[..store.len() - cut];
        let expected = number_by_text(store);
        seen.insert(expected);
        assert_eq!(number(Track::of(store).map(|_| ())), expected, "{store:?}");
    }
    assert_eq!(seen.len(), 6);
}

/// Chains over all of a store, in any order, and such that end in a loop.
#[test]
fn chains_in_any_order_are_walked() {
    let mut rng = Rng::new(11);
    for _ in 0..2_000 {
        let records = rng.between(2, 40) as usize;
        let mut store = made(records, 1, 0);
        let mut order: Vec<usize> = (1..records).collect();
        for k in (1..order.len()).rev() {
            order.swap(k, rng.below(k as u64 + 1) as usize);
        }
        let (mut link, mut expected) = (6, Vec::new());
        for &index in &order {
            store[link] = index as u8;
            link = 32 * index;
            store[link..link + 32].fill(0);
            (store[link + 2], store[link + 4]) = (2, index as u8);
            expected.push(Event::Lost(index as u32));
        }
        let total: usize = order.iter().sum();
        store[8..10].copy_from_slice(&(total as u16).to_le_bytes());
        assert_eq!(read(&store).unwrap(), expected);
        assert_eq!(number(append_lost(&mut store, 1)), 17);
        store[link] = order[rng.below(order.len() as u64) as usize] as u8;
        assert_eq!(read(&store), Err(Refusal(13)));
    }
}

#[test]
fn the_greatest_store_is_filled() {
    let mut store = made(2048, 4, 1);
    let points: Vec<i16> = (0..7 * 2047).flat_map(|k| [k, 1]).collect();
    append_points(&mut store, &points[..10]).unwrap();
    append_points(&mut store, &points[10..]).unwrap();
    let events: Vec<Event> = points
        .chunks(2)
        .map(|pair| point(pair[0], pair[1]))
        .collect();
    assert_eq!(read(&store).unwrap(), events);
    assert_eq!(number(append_point(&mut store, 0, 0)), 17);
}

#[test]
fn appended_events_are_read_in_order() {
    let mut rng = Rng::new(12);
    for _ in 0..300 {
        let mut store = made(rng.between(2, 30) as usize, 3, 1);
        let mut expected = Vec::new();
        for _ in 0..rng.below(120) {
            let (result, event) = if rng.below(5) == 0 {
                let lost = rng.between(1, 1 << 31) as u32;
                (append_lost(&mut store, lost), Event::Lost(lost))
            } else {
                let re = rng.between(-16384, 16384) as i16;
                (append_point(&mut store, re, -re), point(re, -re))
            };
            assert!(matches!(number(result), 0 | 16 | 17));
            if result.is_ok() {
                expected.push(event);
            }
            assert_eq!(number_by_text(&store), 0);
        }
        assert_eq!(read(&store).unwrap(), expected);
    }
}

/// Free places for points: those left in the last record, if it is of kind 1, and
/// 7 in each record after the greatest index.
fn places_by_text(store: &[u8]) -> usize {
    let (mut last, mut greatest, mut index) = (0, 0, u16_at(store, 6));
    while index != 0 {
        (last, greatest) = (index, greatest.max(index));
        index = u16_at(store, 32 * index);
    }
    let left = match store[32 * last + 2] {
        1 if last > 0 => 7 - usize::from(store[32 * last + 3]),
        _ => 0,
    };
    left + 7 * (store.len() / 32 - 1 - greatest)
}

/// All numbers that apply to an append of points, each found on its own; 16 and
/// 17 are of accepted stores only.
fn numbers_by_text(store: &[u8], numbers: &[i16]) -> Vec<u8> {
    let (points, of_store) = (numbers.len() / 2, number_by_text(store));
    let beyond = numbers.iter().any(|x| x.unsigned_abs() > 16384);
    let long = || u32_at(store, 8) + points > 4294967295;
    let full = || points > places_by_text(store);
    let conditions = [
        (numbers.len() % 2 == 1, 7),
        (beyond, 8),
        (of_store > 0, of_store),
        (of_store == 0 && long(), 16),
        (of_store == 0 && full(), 17),
    ];
    let applies = conditions.into_iter().filter(|(met, _)| *met);
    applies.map(|(_, number)| number).collect()
}

/// A store with few places left or few intervals, sound or damaged.
fn nearly_full(rng: &mut Rng) -> Vec<u8> {
    let mut store = made(rng.between(2, 6) as usize, 1, 0);
    let lost = rng.pick(&[1, u32::MAX - 12, u32::MAX - 3]);
    append_lost(&mut store, lost).unwrap();
    for _ in 0..rng.below(9) {
        let _ = append_point(&mut store, 1, 2);
    }
    match rng.below(12) {
        0 => store.truncate(store.len() - 1),
        1 => store[31] = 1,
        2 => store[32] = 77,
        3 => store[34] = 3,
        4 => store[8] ^= 1,
        _ => {}
    }
    store
}

/// Points at once give the lowest number that applies, and are refused exactly
/// when a single append would be; else they leave what the single appends leave.
#[test]
fn points_at_once_equal_single_appends() {
    let mut rng = Rng::new(13);
    let mut seen = HashSet::new();
    for _ in 0..30_000 {
        let before = nearly_full(&mut rng);
        let count = [0, 1, rng.below(30), rng.below(60)][rng.below(4) as usize];
        let mut numbers: Vec<i16> = (0..2 * count as i16).collect();
        if rng.below(4) == 0 && count > 0 {
            let at = rng.below(numbers.len() as u64) as usize;
            numbers[at] = rng.pick(&[-16385, 16385, i16::MIN]);
        }
        if rng.below(20) == 0 {
            numbers.push(rng.pick(&[0, 16385]));
        }
        let mut store = before.clone();
        let found = number(append_points(&mut store, &numbers));
        let applying = numbers_by_text(&before, &numbers);
        assert_eq!(found, applying.first().copied().unwrap_or(0));
        let mut single = before.clone();
        let mut pairs = numbers.chunks(2);
        let taken = numbers.len().is_multiple_of(2)
            && read(&before).is_ok()
            && pairs.all(|pair| append_point(&mut single, pair[0], pair[1]).is_ok());
        assert_eq!(found == 0, taken);
        assert!(store == if taken { single } else { before });
        seen.insert((applying, numbers.is_empty()));
    }
    let mut alone: Vec<Vec<u8>> = [7, 8, 16, 17].map(|number| vec![number]).to_vec();
    alone.extend((11..=15).map(|number| vec![number]));
    let pairs = [7, 8].map(|low| [8, 11, 12, 13, 14, 15, 16, 17].map(|high| vec![low, high]));
    let pairs = pairs.concat().into_iter().filter(|pair| pair[0] < pair[1]);
    let both = alone.into_iter().chain(pairs).chain([vec![], vec![16, 17]]);
    for applying in both {
        assert!(seen.contains(&(applying.clone(), false)), "{applying:?}");
    }
    // Without points the store's own number is still given.
    for applying in (11..=15).map(|number| vec![number]).chain([vec![]]) {
        assert!(seen.contains(&(applying.clone(), true)), "{applying:?}");
    }
}

#[test]
fn a_later_point_out_of_range_goes_before_the_store() {
    let mut store = made(2, 1, 0);
    let refused = |store: &mut [u8], numbers: &[i16]| {
        let before = store.to_vec();
        let found = number(append_points(store, numbers));
        assert_eq!(store, before);
        found
    };
    assert_eq!(refused(&mut store[..63], &[0, 0, 0, 16385]), 8);
    assert_eq!(refused(&mut store[..63], &[0, 0, 0, 16384]), 11);
    assert_eq!(refused(&mut store[..63], &[]), 11);
    assert_eq!(refused(&mut store[..63], &[0, 0, 16385]), 7);
    append_points(&mut store, &[1; 12]).unwrap();
    assert_eq!(refused(&mut store, &[0, 0, 0, 0, -16385, 0]), 8);
    assert_eq!(refused(&mut store, &[0, 0, 0, 0, -16384, 0]), 17);
    assert_eq!(number(append_points(&mut store, &[])), 0);
    assert_eq!(number(append_points(&mut store, &[0, 0])), 0);
}

#[test]
fn events_are_read_into_lent_numbers() {
    let mut store = made(3, 1, 0);
    append_point(&mut store, -5, 6).unwrap();
    append_lost(&mut store, u32::MAX - 1).unwrap();
    let mut out = [7; 9];
    assert_eq!(read_into(&store, &mut out, 2), Ok(2));
    assert_eq!(out, [7, 7, 1, -5, 6, 2, 4294967294, 0, 7]);
    let mut out = [7; 9];
    assert_eq!(read_into(&store, &mut out, 4), Err(Refusal(7)));
    assert_eq!(read_into(&store, &mut out, 10), Err(Refusal(7)));
    // An offset past the end goes before the store; too few numbers do not.
    assert_eq!(read_into(&store[1..], &mut out, 10), Err(Refusal(7)));
    assert_eq!(read_into(&store[1..], &mut out, 9), Err(Refusal(11)));
    store[31] = 1;
    assert_eq!(read_into(&store, &mut out, 8), Err(Refusal(12)));
    assert_eq!(out, [7; 9]);
    assert_eq!(read_into(&made(2, 1, 0), &mut out, 9), Ok(0));
}
