//! Table 1 of V.32 is found in bytes, in every form that is looked for.

use outside::image::{forms, search, tables};
use outside::rng::Rng;

const SEED: u64 = 31;

fn random_bytes(rng: &mut Rng, count: usize) -> Vec<u8> {
    (0..count).map(|_| rng.below(256) as u8).collect()
}

#[test]
fn random_bytes_have_no_table() {
    let file = random_bytes(&mut Rng::new(SEED), 50_000);
    assert_eq!(search(&file), []);
}

#[test]
fn each_form_is_found_where_it_stands() {
    let mut rng = Rng::new(SEED);
    for rows in tables() {
        for (what, bytes) in forms(&rows) {
            let mut file = random_bytes(&mut rng, 100);
            let at = rng.below((100 - bytes.len()) as u64) as usize;
            file[at..at + bytes.len()].copy_from_slice(&bytes);
            let found = search(&file);
            assert!(
                found.iter().any(|found| found.at == at),
                "{what}: {found:?}"
            );
        }
    }
}

/// What stood in compiled libraries: the table as it is printed, and eight of the
/// receiver's sixteen rows, or four of mode 4's, beside the others in instructions.
#[test]
fn the_bytes_of_a_library_with_the_table_are_found() {
    let printed = [1, 3, 0, 2, 0, 1, 2, 3, 3, 2, 1, 0, 2, 0, 3, 1];
    let part = [0, 3, 2, 3, 1, 2, 0, 0];
    let of_mode_4 = [4, 8, 0, 0];
    let as_words: Vec<u8> = printed.iter().flat_map(|&row| [row, 0]).collect();
    let in_bits = [0x8d, 0xe4, 0x1b, 0x72];
    for bytes in [&printed[..], &part, &of_mode_4, &as_words, &in_bits] {
        let file = [&[7; 5], bytes, &[7; 5]].concat();
        assert!(!search(&file).is_empty(), "{bytes:?}");
    }
}
