//! The tuned append, listing and sums give what the plain ones give.

use outside::limits;
use outside::listing;
use outside::refusal::Refusal;
use outside::rng::Rng;
use outside::store::{self, RECORD};
use outside::sums;
use outside::tuned::{self, LISTING_ROOM};

/// The numbers of random points.
fn random_points(rng: &mut Rng, count: usize) -> Vec<i16> {
    let mut one = |_| {
        let size = rng.pick(&[0, 2, 3000, 16384]);
        [(); 2].map(|()| rng.between(-size, size) as i16)
    };
    (0..count).flat_map(&mut one).collect()
}

/// Appends on both sides; gives what both gave.
fn append(bytes: &mut [u8], numbers: &[i16]) -> Result<(), Refusal> {
    let before = bytes.to_vec();
    let mut right = before.clone();
    let told = tuned::append_points(bytes, numbers);
    assert_eq!(told, store::append_points(&mut right, numbers));
    assert!(bytes == right);
    assert!(told.is_ok() || *bytes == before[..]);
    told
}

/// Lists and sums on both sides.
fn compare_listings(bytes: &[u8], out: &mut [u8]) {
    let length = tuned::list(bytes, out).unwrap();
    assert!(out[..length] == listing::list(bytes)[..]);
    assert_eq!(tuned::sums(bytes), sums::sums(bytes));
}

/// A sound store with points and lost counts, at times near a total of
/// 4294967295, its records in random order or in that of the chain.
fn random_store(rng: &mut Rng) -> Vec<u8> {
    let records = rng.between(2, 12) as usize;
    let mut bytes = vec![0; RECORD * records];
    let (mode, role) = rng.mode_and_role();
    store::make(&mut bytes, mode.number, role).unwrap();
    for _ in 0..rng.below(2 * records as u64) {
        let count = rng.below(20) as usize;
        let lost = match rng.below(6) {
            0 => u32::MAX - rng.below(100) as u32,
            _ => 1 + rng.below(1000) as u32,
        };
        let _ = match rng.below(3) {
            0 => store::append_lost(&mut bytes, lost),
            _ => store::append_points(&mut bytes, &random_points(rng, count)),
        };
    }
    if rng.below(2) == 0 {
        shuffle(rng, &mut bytes);
    }
    bytes
}

/// Exchanges records of a store in pairs, and the indexes that name them.
fn shuffle(rng: &mut Rng, bytes: &mut [u8]) {
    let records = bytes.len() / RECORD;
    for one in 1..records {
        let other = 1 + rng.below(records as u64 - 1) as usize;
        for at in 0..RECORD {
            bytes.swap(RECORD * one + at, RECORD * other + at);
        }
        for link in (0..records).map(|k| if k == 0 { 6 } else { RECORD * k }) {
            // Indexes are below 256 here.
            bytes[link] = match usize::from(bytes[link]) {
                next if next == one => other as u8,
                next if next == other => one as u8,
                next => next as u8,
            };
        }
    }
}

#[test]
fn sound_stores() {
    let mut rng = Rng::new(1);
    let mut out = vec![0; LISTING_ROOM];
    let mut met = [0; 18];
    for _ in 0..20_000 {
        let mut bytes = random_store(&mut rng);
        compare_listings(&bytes, &mut out);
        for _ in 0..3 {
            let count = rng.below(30) as usize;
            let mut points = random_points(&mut rng, count);
            if rng.below(4) == 0 && count > 0 {
                points[rng.below(2 * count as u64) as usize] = -16385;
            }
            if rng.below(30) == 0 {
                points.push(16385);
            }
            let told = append(&mut bytes, &points);
            met[usize::from(told.err().map_or(0, |refusal| refusal.0))] += 1;
        }
        compare_listings(&bytes, &mut out);
    }
    assert!(
        [0, 7, 8, 16, 17].iter().all(|&number| met[number] > 100),
        "{met:?}"
    );
}

#[test]
fn damaged_stores() {
    let mut rng = Rng::new(2);
    let mut out = vec![0; LISTING_ROOM];
    let mut met = [0; 18];
    for _ in 0..60_000 {
        let mut bytes = random_store(&mut rng);
        for _ in 0..1 + rng.below(2) {
            let at = rng.below(bytes.len() as u64) as usize;
            bytes[at] = match rng.below(3) {
                0 => bytes[at].wrapping_add(1),
                1 => 0,
                _ => rng.next_u64() as u8,
            };
        }
        if rng.below(50) == 0 {
            bytes.truncate(rng.below(bytes.len() as u64) as usize);
        }
        compare_listings(&bytes, &mut out);
        let count = 3 * rng.below(2) as usize;
        let points = random_points(&mut rng, count);
        let told = append(&mut bytes, &points);
        met[usize::from(told.err().map_or(0, |refusal| refusal.0))] += 1;
    }
    assert!((11..=15).all(|number| met[number] > 100), "{met:?}");
}

#[test]
fn stores_of_every_size() {
    let mut rng = Rng::new(3);
    let mut out = vec![0; LISTING_ROOM];
    for records in [2, 3, 100, 2047, 2048, 2049, 0, 1] {
        let mut bytes = vec![0; RECORD * records];
        let made = store::make(&mut bytes, 4, 1);
        assert_eq!(made.is_ok(), (2..=2048).contains(&records));
        while append(&mut bytes, &random_points(&mut rng, 501)).is_ok() {}
        while append(&mut bytes, &random_points(&mut rng, 1)).is_ok() {}
        compare_listings(&bytes, &mut out);
    }
}

#[test]
fn stores_at_the_limits() {
    let mut out = vec![0; LISTING_ROOM];
    for (_, bytes) in limits::stores() {
        compare_listings(&bytes, &mut out);
    }
}

#[test]
fn places_with_more_and_more_digits() {
    let mut out = vec![0; LISTING_ROOM];
    for power in 0..10 {
        let mut bytes = vec![0; RECORD * 20];
        store::make(&mut bytes, 3, 0).unwrap();
        store::append_lost(&mut bytes, 10u32.pow(power).saturating_sub(50).max(1)).unwrap();
        append(&mut bytes, &[1; 200]).unwrap();
        compare_listings(&bytes, &mut out);
    }
}

#[test]
fn numbers_and_bytes_too_few() {
    let mut bytes = vec![0; 2 * RECORD];
    let mut out = vec![9; LISTING_ROOM - 1];
    assert_eq!(tuned::list(&bytes, &mut out), Err(Refusal(7)));
    assert!(out.iter().all(|&byte| byte == 9));
    assert_eq!(append(&mut bytes, &[4]), Err(Refusal(7)));
    assert_eq!(append(&mut bytes, &[0, 0, 16385]), Err(Refusal(7)));
    assert_eq!(append(&mut bytes, &[]), Err(Refusal(12)));
    assert_eq!(bytes, vec![0; 2 * RECORD]);
}
