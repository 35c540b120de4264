//! Listings.

use outside::listing::list;
use outside::mode::MODES;
use outside::rng::Rng;
use outside::store::{append_lost, append_point, make};

fn text(store: &[u8]) -> String {
    String::from_utf8(list(store)).unwrap()
}

#[test]
fn the_example_of_document_01_with_its_sums() {
    let mut store = [0xee; 4 * 32];
    make(&mut store, 1, 0).unwrap();
    append_point(&mut store, 4096, 0).unwrap();
    append_point(&mut store, 0, 4096).unwrap();
    append_lost(&mut store, 3).unwrap();
    append_point(&mut store, -4096, 0).unwrap();
    let expected = "track mode 1 role 0 total 6\n\
                    0 ref\n\
                    1 bits 01 --\n\
                    2 lost 3\n\
                    5 ref\n\
                    sum points 3 lost 3 gaps 1\n";
    assert_eq!(text(&store), expected);
}

#[test]
fn marks_stand_beside_settled_bits() {
    let mut store = [0; 3 * 32];
    make(&mut store, 2, 0).unwrap();
    // The line bits are 001 at no change, so 000 at 45°.
    for (re, im) in [(1, 0), (1, 0), (1, 1), (0, 1), (0, 1), (0, 0), (-1, 0)] {
        append_point(&mut store, re, im).unwrap();
    }
    let expected = "track mode 2 role 0 total 7\n\
                    0 ref\n\
                    1 bits 001 ---\n\
                    2 bits 000 ---\n\
                    3 bits 000 -01\n\
                    4 bits 001 101\n\
                    5 lost 1\n\
                    6 ref\n\
                    sum points 6 lost 1 gaps 1\n";
    assert_eq!(text(&store), expected);
}

#[test]
fn an_empty_track_has_its_first_and_its_last_line() {
    let mut store = [0; 2 * 32];
    make(&mut store, 4, 1).unwrap();
    let expected = "track mode 4 role 1 total 0\n\
                    sum points 0 lost 0 gaps 0\n";
    assert_eq!(text(&store), expected);
}

#[test]
fn a_refused_store_has_one_line() {
    assert_eq!(text(&[]), "refused 11\n");
    assert_eq!(text(&[0; 32]), "refused 11\n");
    assert_eq!(text(&[0; 64]), "refused 12\n");
    let mut store = [0; 64];
    make(&mut store, 3, 1).unwrap();
    append_point(&mut store, 5, 5).unwrap();
    store[8] = 2;
    assert_eq!(text(&store), "refused 15\n");
    store[35] = 9;
    assert_eq!(text(&store), "refused 14\n");
    store[6] = 2;
    assert_eq!(text(&store), "refused 13\n");
}

#[test]
fn a_listing_has_a_line_for_each_event_and_two() {
    let mut rng = Rng::new(9);
    for mode in &MODES {
        let mut store = vec![0xee; 100 * 32];
        make(&mut store, mode.number, 0).unwrap();
        let (mut events, mut total) = (0, 0);
        for _ in 0..90 {
            if rng.below(4) == 0 {
                let lost = rng.between(1, 1000);
                append_lost(&mut store, lost as u32).unwrap();
                total += lost;
            } else {
                let (re, im) = (rng.between(-4000, 4000), rng.between(-4000, 4000));
                append_point(&mut store, re as i16, im as i16).unwrap();
                total += 1;
            }
            events += 1;
        }
        let listing = text(&store);
        assert_eq!(listing.lines().count(), events + 2);
        let first = format!("track mode {} role 0 total {total}", mode.number);
        assert_eq!(listing.lines().next(), Some(first.as_str()));
    }
}
