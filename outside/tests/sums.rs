//! The sums of a track, and the listing's last line.

use outside::limits;
use outside::listing::list;
use outside::mode::MODES;
use outside::refusal::Refusal;
use outside::rng::Rng;
use outside::store::{append_lost, append_point, append_points, make, Track};
use outside::sums::{sums, sums_into, Sums};

fn made(records: usize, mode: u8) -> Vec<u8> {
    let mut store = vec![0xee; 32 * records];
    make(&mut store, mode, 0).unwrap();
    store
}

fn text(store: &[u8]) -> String {
    String::from_utf8(list(store)).unwrap()
}

fn of(points: u64, lost: u64, gaps: u64) -> Result<Sums, Refusal> {
    Ok(Sums { points, lost, gaps })
}

/// The sums that a listing's lines of events come to.
fn sums_of_lines(text: &str) -> Sums {
    let mut sums = Sums::default();
    let lines: Vec<&str> = text.lines().collect();
    for line in &lines[1..lines.len() - 1] {
        match line.split(' ').collect::<Vec<_>>()[1..] {
            ["lost", count] => {
                sums.lost += count.parse::<u64>().unwrap();
                sums.gaps += 1;
            }
            ["ref"] | ["bits", _, _] => sums.points += 1,
            _ => panic!("{line}"),
        }
    }
    sums
}

/// Checks an accepted store's sums against its lines, its last line and its
/// total; gives them.
fn checked(store: &[u8]) -> Sums {
    let (text, sums) = (text(store), sums(store).unwrap());
    assert_eq!(sums, sums_of_lines(&text));
    let last = format!(
        "sum points {} lost {} gaps {}",
        sums.points, sums.lost, sums.gaps
    );
    assert_eq!(text.lines().last(), Some(last.as_str()));
    assert!(text.ends_with('\n'));
    assert_eq!(text.matches("sum").count(), 1);
    let total = Track::of(store).unwrap().total();
    assert_eq!(sums.points + sums.lost, u64::from(total));
    sums
}

/// Checks that a refused store has one line, and no sums.
fn check_refused(store: &[u8], number: u8) {
    assert_eq!(text(store), format!("refused {number}\n"));
    assert_eq!(sums(store), Err(Refusal(number)));
    let mut out = [9; 4];
    assert_eq!(sums_into(store, &mut out), Err(Refusal(number)));
    assert_eq!(out, [9; 4]);
}

#[test]
fn the_example_of_document_02() {
    let mut store = made(4, 1);
    append_points(&mut store, &[4096, 0, 0, 4096]).unwrap();
    append_lost(&mut store, 3).unwrap();
    append_point(&mut store, -4096, 0).unwrap();
    assert_eq!(Ok(checked(&store)), of(3, 3, 1));
    assert!(text(&store).ends_with("5 ref\nsum points 3 lost 3 gaps 1\n"));
}

#[test]
fn an_empty_track_has_nothing() {
    for mode in &MODES {
        assert_eq!(checked(&made(2, mode.number)), Sums::default());
    }
}

#[test]
fn neighbouring_lost_records_are_gaps_of_their_own() {
    let mut store = made(6, 3);
    for lost in [1, 5, 4_000_000_000] {
        append_lost(&mut store, lost).unwrap();
    }
    assert_eq!(Ok(checked(&store)), of(0, 4_000_000_006, 3));
    append_point(&mut store, 1, 1).unwrap();
    append_lost(&mut store, 1).unwrap();
    assert_eq!(Ok(checked(&store)), of(1, 4_000_000_007, 4));
}

#[test]
fn origin_points_are_gaps_of_one_in_all_modes() {
    for mode in &MODES {
        let mut store = made(4, mode.number);
        append_point(&mut store, 0, 0).unwrap();
        assert_eq!(Ok(checked(&store)), of(0, 1, 1));
        // Beside the origin, on either axis, a point is decided.
        append_points(&mut store, &[1, 0, 0, -1, 0, 0, 0, 0, 0, 1]).unwrap();
        append_lost(&mut store, 2).unwrap();
        assert_eq!(Ok(checked(&store)), of(3, 5, 4));
    }
}

#[test]
fn origin_points_anywhere_in_a_record() {
    for count in 1..=7 {
        for origins in 0..1 << count {
            let mut store = made(4, 2);
            append_point(&mut store, 5, 5).unwrap();
            append_lost(&mut store, 9).unwrap();
            for k in 0..count {
                let size = if origins >> k & 1 == 1 { 0 } else { 4096 };
                append_point(&mut store, size, size).unwrap();
            }
            let gaps = u64::from(u32::count_ones(origins));
            assert_eq!(
                Ok(checked(&store)),
                of(1 + count - gaps, 9 + gaps, 1 + gaps)
            );
        }
    }
}

#[test]
fn random_tracks() {
    let mut rng = Rng::new(12);
    for _ in 0..3000 {
        let (mode, _) = rng.mode_and_role();
        let mut store = made(rng.between(2, 30) as usize, mode.number);
        for _ in 0..rng.below(60) {
            let size = rng.pick(&[0, 1, 4096]);
            let (re, im) = (rng.between(-size, size), rng.between(-size, size));
            // An append that is refused leaves the store as it was.
            let _ = match rng.below(4) {
                0 => append_lost(&mut store, 1 + rng.below(1 << 30) as u32),
                _ => append_point(&mut store, re as i16, im as i16),
            };
        }
        checked(&store);
    }
}

#[test]
fn stores_at_the_limits() {
    let most = u64::from(u32::MAX);
    for (name, store) in limits::stores() {
        let expected = match name {
            "full" => of(14_322, most - 14_322, 1),
            "points" => of(14_329, 0, 0),
            "origins" => of(0, 14_329, 14_329),
            "losses" => of(0, most, 2047),
            "longest" => of(0, most, 1),
            _ => Err(Refusal(15)),
        };
        assert_eq!(sums(&store), expected, "{name}");
        match expected {
            Ok(_) => assert_eq!(Ok(checked(&store)), expected),
            Err(Refusal(number)) => check_refused(&store, number),
        }
    }
}

#[test]
fn sums_that_would_wrap_are_refused() {
    let mut store = made(3, 1);
    append_lost(&mut store, 1).unwrap();
    append_lost(&mut store, 2).unwrap();
    store[36..40].fill(0xff);
    store[8] = 1;
    check_refused(&store, 15);
    let wrapped = limits::stores()
        .into_iter()
        .find(|(name, _)| *name == "wrapped");
    assert_eq!(wrapped, Some(("wrapped", store)));
}

#[test]
fn a_refused_store_has_one_line_and_no_sums() {
    check_refused(&[], 11);
    check_refused(&[0; 65], 11);
    check_refused(&[0; 64], 12);
    let mut store = made(2, 3);
    append_point(&mut store, 0, 0).unwrap();
    store[8] = 2;
    check_refused(&store, 15);
    store[35] = 9;
    check_refused(&store, 14);
    store[6] = 2;
    check_refused(&store, 13);
    store[31] = 1;
    check_refused(&store, 12);
}

#[test]
fn three_lent_numbers_are_needed_and_no_more_are_written() {
    let mut store = made(2, 4);
    append_points(&mut store, &[7, 7, 0, 0, 7, 7]).unwrap();
    for lent in 0..6 {
        let mut out = vec![9; lent];
        let told = sums_into(&store, &mut out);
        if lent < 3 {
            assert_eq!(told, Err(Refusal(7)));
            assert!(out.iter().all(|&number| number == 9));
            // Number 7 goes before those of a store.
            assert_eq!(sums_into(&store[1..], &mut out), Err(Refusal(7)));
        } else {
            assert_eq!(told, Ok(()));
            assert_eq!(out[..3], [2, 1, 1]);
            assert!(out[3..].iter().all(|&number| number == 9));
        }
    }
}
