//! V.41 blocks: made, checked, altered.

use outside::mode::modes_and_roles;
use outside::refusal::{Refusal, ORDER};
use outside::rng::Rng;
use outside::tuned;
use outside::v41::{
    check, check_bits, check_by_register, check_into, make, make_by_register, remainder,
    remainder_by_register, CHECK_BITS, GENERATOR, SIZES,
};

const NOTHING: [u8; CHECK_BITS] = [0; CHECK_BITS];

/// Bits that are written as a text, with spaces between them.
fn bits(text: &str) -> Vec<u8> {
    let digits = text.bytes().filter(|&byte| byte != b' ');
    digits.map(|digit| digit - b'0').collect()
}

/// The bits of characters, eight to each, the highest first.
fn bits_of_characters(text: &str) -> Vec<u8> {
    let of_byte = |byte: u8| (0..8).rev().map(move |k| byte >> k & 1);
    text.bytes().flat_map(of_byte).collect()
}

/// Bits as a number, the first highest.
fn number(bits: &[u8]) -> u16 {
    bits.iter()
        .fold(0, |number, &bit| number << 1 | u16::from(bit))
}

fn made(bits: &[u8]) -> Vec<u8> {
    let mut out = vec![9; bits.len() + CHECK_BITS];
    assert_eq!(make(bits, &mut out), Ok(out.len()));
    out
}

fn random_block(rng: &mut Rng, size: usize) -> Vec<u8> {
    made(&rng.bits(size - CHECK_BITS))
}

/// The block with the ones of a pattern altered from a place on.
fn altered(block: &[u8], place: usize, pattern: &[u8]) -> Vec<u8> {
    let mut bits = block.to_vec();
    for (bit, change) in bits[place..].iter_mut().zip(pattern) {
        *bit ^= change;
    }
    bits
}

/// The verdict of all three ways, which have to agree.
fn verdict(bits: &[u8]) -> Result<bool, Refusal> {
    let told = check(bits);
    assert_eq!(check_by_register(bits), told);
    assert_eq!(tuned::v41_check(bits), told);
    told
}

#[test]
fn the_generator() {
    let powers: Vec<usize> = (0..17).filter(|&k| GENERATOR[16 - k] == 1).collect();
    assert_eq!(powers, [0, 5, 12, 16]);
    assert_eq!(remainder(&GENERATOR), NOTHING);
    assert_eq!(remainder_by_register(&GENERATOR), 0);
}

/// The pattern of V.41's synchronizing sequence (5.1) is the check bits of 0101.
#[test]
fn check_bits_of_the_prefix() {
    assert_eq!(check_bits(&bits("0101")), *bits("0101 0000 1010 0101"));
}

#[test]
fn check_bits_of_nine_digits() {
    let digits = bits_of_characters("123456789");
    assert_eq!(number(&check_bits(&digits)), 0x31c3);
    let with_zeros = [&digits[..], &NOTHING].concat();
    assert_eq!(remainder_by_register(&with_zeros), 0x31c3);
}

#[test]
fn fewer_bits_than_the_generator_are_what_is_left() {
    assert_eq!(remainder(&[]), NOTHING);
    assert_eq!(remainder(&[1]), *bits("0000 0000 0000 0001"));
    assert_eq!(remainder(&bits("1101")), *bits("0000 0000 0000 1101"));
    let sixteen = bits("1010 1100 0011 0101");
    assert_eq!(remainder(&sixteen), *sixteen);
    // x^16 leaves the generator's other powers.
    let seventeen = [&[1][..], &NOTHING].concat();
    assert_eq!(remainder(&seventeen), GENERATOR[1..]);
}

#[test]
fn the_division_and_the_register_agree_at_any_count() {
    let mut rng = Rng::new(41);
    for count in 0..600 {
        let bits = rng.bits(count);
        assert_eq!(number(&remainder(&bits)), remainder_by_register(&bits));
    }
}

#[test]
fn made_blocks_begin_with_the_bits_and_are_accepted() {
    let mut rng = Rng::new(42);
    for size in SIZES {
        let count = size - CHECK_BITS;
        let mut given = vec![vec![0; count], vec![1; count]];
        given.extend((0..20).map(|_| rng.bits(count)));
        for bits in given {
            let block = made(&bits);
            assert_eq!(block[..count], bits);
            assert_eq!(verdict(&block), Ok(true));
            for make in [make_by_register, tuned::v41_make] {
                let mut out = vec![9; size + 3];
                assert_eq!(make(&bits, &mut out), Ok(size));
                assert_eq!(out[..size], block);
                assert_eq!(out[size..], [9; 3]);
            }
        }
    }
}

#[test]
fn blocks_of_zeros_have_zeros_for_check_bits() {
    for size in SIZES {
        assert_eq!(made(&vec![0; size - CHECK_BITS]), vec![0; size]);
    }
}

#[test]
fn a_single_bit_and_a_run_at_every_place() {
    let mut rng = Rng::new(43);
    let block = random_block(&mut rng, 260);
    for place in 0..260 {
        assert_eq!(verdict(&altered(&block, place, &[1])), Ok(false));
    }
    for length in 2..=CHECK_BITS {
        for place in 0..=260 - length {
            let mut pattern = rng.bits(length);
            (pattern[0], pattern[length - 1]) = (1, 1);
            assert_eq!(verdict(&altered(&block, place, &pattern)), Ok(false));
        }
    }
}

#[test]
fn a_run_of_17_that_is_the_generator_is_accepted() {
    let mut rng = Rng::new(44);
    for size in SIZES {
        let block = random_block(&mut rng, size);
        for place in [0, 1, size / 2, size - 17] {
            let whole = altered(&block, place, &GENERATOR);
            assert_ne!(whole, block);
            assert_eq!(verdict(&whole), Ok(true));
        }
        for k in 1..16 {
            let mut other = GENERATOR;
            other[k] ^= 1;
            assert_eq!(verdict(&altered(&block, size / 2, &other)), Ok(false));
        }
    }
}

/// Every alteration within 16 bits leaves something, and each another remainder.
#[test]
fn every_pattern_of_16_bits_at_one_place() {
    let zeros = [0; 260];
    let mut met = vec![false; 1 << CHECK_BITS];
    for pattern in 1..=u16::MAX {
        let ones: Vec<u8> = (0..16).rev().map(|k| (pattern >> k & 1) as u8).collect();
        let left = number(&remainder(&altered(&zeros, 100, &ones)));
        assert_ne!(left, 0, "{pattern}");
        assert!(!met[usize::from(left)], "{pattern}");
        met[usize::from(left)] = true;
    }
}

/// V.41, section 1 a.
#[test]
fn an_odd_number_of_altered_bits_is_seen() {
    let mut rng = Rng::new(45);
    for size in SIZES {
        let block = random_block(&mut rng, size);
        for _ in 0..300 {
            let mut changes = rng.bits(size);
            let ones: usize = changes.iter().map(|&bit| usize::from(bit)).sum();
            changes[0] ^= u8::from(ones.is_multiple_of(2));
            assert_eq!(verdict(&altered(&block, 0, &changes)), Ok(false));
        }
    }
}

#[test]
fn other_sizes_meet_19() {
    let refused = Err(Refusal(19));
    for count in 0..4000 {
        let bits = vec![0; count];
        if !SIZES.contains(&count) {
            assert_eq!(verdict(&bits), Err(Refusal(19)), "{count}");
        }
        if !SIZES.contains(&(count + CHECK_BITS)) {
            let mut out = vec![9; 4100];
            for make in [make, make_by_register, tuned::v41_make] {
                assert_eq!(make(&bits, &mut out), refused, "{count}");
            }
            assert_eq!(out, vec![9; 4100]);
        }
    }
}

/// Number 19 goes before 5, and 5 before 7.
#[test]
fn the_order_of_numbers() {
    assert_eq!(ORDER[4..8], [19, 5, 6, 7]);
    for size in SIZES {
        let (sound, mut broken) = (vec![0; size], vec![1; size]);
        broken[size - 17] = 2;
        assert_eq!(verdict(&broken), Err(Refusal(5)));
        assert_eq!(verdict(&broken[1..]), Err(Refusal(19)));
        assert_eq!(check_into(&sound, &mut []), Err(Refusal(7)));
        assert_eq!(check_into(&broken, &mut []), Err(Refusal(5)));
        assert_eq!(check_into(&sound[1..], &mut []), Err(Refusal(19)));
        assert_eq!(check_into(&broken[1..], &mut []), Err(Refusal(19)));
        let message = size - CHECK_BITS;
        for make in [make, make_by_register, tuned::v41_make] {
            let mut out = vec![9; size];
            let mut refused = |bits: &[u8], lent: usize, number: u8| {
                assert_eq!(make(bits, &mut out[..lent]), Err(Refusal(number)));
                assert!(out.iter().all(|&byte| byte == 9));
            };
            refused(&sound[..message], size - 1, 7);
            refused(&sound[..message], 0, 7);
            refused(&broken[..message], size, 5);
            refused(&broken[..message], size - 1, 5);
            refused(&sound, size, 19);
            refused(&sound, 0, 19);
            refused(&broken, size, 19);
            refused(&broken, 0, 19);
        }
    }
}

#[test]
fn any_byte_above_1_meets_5() {
    for place in 0..260 {
        for byte in [2, 3, 128, 255] {
            let mut bits = vec![1; 260];
            bits[place] = byte;
            assert_eq!(verdict(&bits), Err(Refusal(5)));
        }
    }
}

#[test]
fn a_verdict_is_one_byte() {
    let mut rng = Rng::new(46);
    let block = random_block(&mut rng, 500);
    let mut whole = [9; 3];
    assert_eq!(check_into(&block, &mut whole), Ok(()));
    assert_eq!(whole, [1, 9, 9]);
    assert_eq!(check_into(&altered(&block, 499, &[1]), &mut whole), Ok(()));
    assert_eq!(whole, [0, 9, 9]);
    assert_eq!(check_into(&block[1..], &mut whole), Err(Refusal(19)));
    assert_eq!(whole, [0, 9, 9]);
}

/// What is left of a polynomial when divided by another, power k as bit k.
fn left(mut of: u32, by: u32) -> u32 {
    while of.leading_zeros() <= by.leading_zeros() {
        of ^= by << (by.leading_zeros() - of.leading_zeros());
    }
    of
}

/// V.41, 2: a descrambler multiplies what is altered on the line by its own
/// polynomial, and that must not bring in a factor of the generator.
#[test]
fn no_scrambler_has_a_factor_in_common_with_the_generator() {
    let generator = GENERATOR.iter().fold(0, |of, &bit| 2 * of + u32::from(bit));
    for (mode, role) in modes_and_roles() {
        let near = mode.near_taps[usize::from(role)];
        let (mut one, mut other) = (
            generator,
            1 << mode.far_tap | 1 << (mode.far_tap - near) | 1,
        );
        while other != 0 {
            (one, other) = (other, left(one, other));
        }
        assert_eq!(one, 1, "mode {} role {role}", mode.number);
    }
}
