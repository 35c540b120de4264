//! What users do: open, send, lose, store, receive; and what is refused.

use kerambiu::{
    list, settled_bits, v41, Answer, Event, Mode, Receiver, Refusal, Role, Sender, Store, Sums,
};

/// A mode's shortest training.
fn shortest(mode: Mode) -> u32 {
    match mode {
        Mode::V32At4800 | Mode::V32At9600 => 1280,
        _ => 0,
    }
}

/// Bits that are not the same for long.
fn some_bits(count: usize) -> Vec<u8> {
    let next = |word: &u32| Some(word.wrapping_mul(1_664_525).wrapping_add(1_013_904_223));
    let words = std::iter::successors(Some(1u32), next);
    words.map(|word| (word >> 31) as u8).take(count).collect()
}

#[test]
fn data_bits_after_a_hole_are_the_senders_from_the_assured_point_on() {
    for mode in Mode::ALL {
        let (mut sender, training) = Sender::open(mode, Role::Calling, shortest(mode)).unwrap();
        let bits = some_bits(mode.bits_in_point() * 100);
        let points = sender.send(&bits).unwrap();
        let mut receiver = Receiver::new(mode, Role::Calling).unwrap();
        receiver.points(&training).unwrap();
        receiver.points(&points[..80]).unwrap();
        assert_eq!(receiver.hole(10).unwrap(), Answer::Gap { intervals: 10 });
        let block = receiver.points(&points[100..]).unwrap();
        assert_eq!(block.place as usize, training.len() / 2 + 50);
        let Some(first) = mode.assured_from() else {
            continue;
        };
        let width = mode.bits_in_point();
        let wanted = &bits[width * (50 + first - 1)..];
        let [run] = <[_; 1]>::try_from(block.runs().collect::<Vec<_>>()).unwrap();
        assert_eq!(run.point + 1, first - 1);
        assert!(run.bits.ends_with(wanted));
        assert_eq!(run.bits.len(), wanted.len() + width - run.unsettled(mode));
    }
}

#[test]
fn single_answers_are_those_of_a_block() {
    let points = [4096, 0, 100, 4000, 0, 0, -4096, 0, 0, 4096];
    let mut receiver = Receiver::new(Mode::V27Ter2400, Role::Calling).unwrap();
    let block = receiver.clone().points(&points).unwrap();
    let single = points
        .chunks(2)
        .map(|p| receiver.point(p[0], p[1]).unwrap());
    assert!(single.eq(block.answers()));
    assert_eq!(receiver.place(), 5);
}

#[test]
fn levels_and_squelched_intervals() {
    let mut receiver = Receiver::new(Mode::V27Ter2400, Role::Calling).unwrap();
    let mut other = receiver.clone();
    assert_eq!(receiver.levels(4.0, 0.0), other.point(4096, 0));
    assert_eq!(receiver.squelch(0.002), other.gap(1));
    let block = receiver.level_points(&[0.0, 4.0, 4.0, 0.0]).unwrap();
    assert_eq!(block, other.points(&[0, 4096, 4096, 0]).unwrap());
    assert_eq!(receiver, other);
    assert_eq!(receiver.squelch(f32::NAN), Err(Refusal::NOT_FINITE));
    assert_eq!(receiver, other);
}

#[test]
fn a_place_can_be_written_and_ends() {
    let (mode, role) = (Mode::V32At9600, Role::Answering);
    assert_eq!(Receiver::at_place(mode, role, 0), Receiver::new(mode, role));
    let mut receiver = Receiver::at_place(mode, role, u32::MAX - 1).unwrap();
    assert_eq!(Receiver::from_bytes(receiver.bytes()), Ok(receiver.clone()));
    assert_eq!(receiver.hole(2), Err(Refusal::INTERVALS));
    receiver.point(1024, 1024).unwrap();
    assert_eq!(receiver.place(), u32::MAX);
    assert_eq!(Receiver::from_bytes(receiver.bytes()), Ok(receiver.clone()));
    assert_eq!(receiver.point(1024, 1024), Err(Refusal::INTERVALS));
    assert_eq!((receiver.mode(), receiver.role()), (mode, role));
}

#[test]
fn training_has_as_many_points_as_the_mode_says() {
    for mode in Mode::ALL {
        for length in [0, 1, 2, 1279, 1280, 1281, 8191, 8192, 8193] {
            let opened = Sender::open(mode, Role::Calling, length);
            match mode.training_points(length) {
                Some(points) => {
                    let (sender, training) = opened.unwrap();
                    assert_eq!(training.len(), 2 * points);
                    assert!(training.chunks(2).all(|point| point != [0, 0]));
                    assert_eq!(Sender::from_bytes(sender.bytes()), Ok(sender));
                }
                None => assert_eq!(opened.unwrap_err(), Refusal::TRAINING_LENGTH),
            }
        }
    }
}

#[test]
fn bytes_that_are_no_state_are_refused() {
    let sound = Receiver::new(Mode::V27Ter2400, Role::Calling).unwrap();
    let with = |at: usize, byte| {
        let mut bytes = sound.bytes();
        bytes[at] = byte;
        Receiver::from_bytes(bytes)
    };
    assert_eq!(with(0, 7), Err(Refusal::MODE));
    assert_eq!(with(1, 1), Err(Refusal::ROLE));
    assert_eq!(with(10, 1), Err(Refusal::STATE));
    assert_eq!(Sender::from_bytes(sound.bytes()), Err(Refusal::STATE));
    assert_eq!(Mode::try_from(0), Err(Refusal::MODE));
    assert_eq!(Role::try_from(2), Err(Refusal::ROLE));
    let answering = Receiver::new(Mode::V27Ter2400, Role::Answering);
    assert_eq!(answering, Err(Refusal::ROLE));
}

#[test]
fn a_refused_send_leaves_the_sender() {
    let (mut sender, _) = Sender::open(Mode::V32At9600, Role::Calling, 1280).unwrap();
    let before = sender.clone();
    assert_eq!(sender.send(&[0, 1, 2, 0]), Err(Refusal::BIT));
    assert_eq!(sender.send(&[0, 1, 1]), Err(Refusal::BIT_COUNT));
    assert_eq!(sender.send(&[]), Ok(Vec::new()));
    assert_eq!(sender, before);
}

#[test]
fn a_store_keeps_points_and_losses() {
    let mut store = Store::make(3, Mode::V27Ter2400, Role::Calling).unwrap();
    store.append_points(&[4096, 0, 0, 4096]).unwrap();
    store.append_lost(3).unwrap();
    let full = store.clone();
    assert_eq!(store.append_point(-4096, 0), Err(Refusal::STORE_FULL));
    assert_eq!(store.append_lost(0), Err(Refusal::NO_INTERVALS));
    assert_eq!(store.append_points(&[1]), Err(Refusal::LENT));
    assert_eq!(store, full);
    let point = |re, im| Event::Point { re, im };
    let lost = Event::Lost { intervals: 3 };
    assert_eq!(store.read(), [point(4096, 0), point(0, 4096), lost]);
    let sums = Sums {
        points: 2,
        lost: 3,
        gaps: 1,
    };
    assert_eq!(store.sums(), sums);
    assert!(store.list().ends_with("sum points 2 lost 3 gaps 1\n"));
    assert_eq!(Store::from_bytes(store.bytes().to_vec()), Ok(store));
}

#[test]
fn bytes_that_are_no_store_are_refused() {
    let made = |records| Store::make(records, Mode::V32At4800, Role::Answering);
    for records in [0, 1, 2049, usize::MAX] {
        assert_eq!(made(records), Err(Refusal::STORE_SIZE));
    }
    let store = made(2048).unwrap();
    assert_eq!(store.mode(), Mode::V32At4800);
    assert_eq!(store.role(), Role::Answering);
    let mut bytes = store.bytes().to_vec();
    bytes[8] = 1;
    assert_eq!(list(&bytes), "refused 15\n");
    assert_eq!(Store::from_bytes(bytes), Err(Refusal::STORE_TOTAL));
}

#[test]
fn a_full_store_is_read_whole() {
    let mut store = Store::make(2048, Mode::V27Ter2400, Role::Calling).unwrap();
    let points = [4096, 0].repeat(14_329);
    store.append_points(&points).unwrap();
    assert_eq!(store.append_point(4096, 0), Err(Refusal::STORE_FULL));
    assert_eq!(store.read().len(), 14_329);
}

#[test]
fn v41_blocks() {
    let message = some_bits(244);
    let mut block = v41::make(&message).unwrap();
    assert_eq!(block.len(), 260);
    assert_eq!(v41::check(&block), Ok(true));
    block[100] ^= 1;
    assert_eq!(v41::check(&block), Ok(false));
    assert_eq!(v41::check(&message), Err(Refusal::BLOCK_SIZE));
    block[100] = 2;
    assert_eq!(v41::check(&block), Err(Refusal::BIT));
}

#[test]
fn no_settled_bits_is_no_run() {
    let mode = Mode::V27Ter2400;
    assert_eq!(settled_bits(mode, &[], &[]), Ok(None));
    assert_eq!(settled_bits(mode, &[16], &[0]), Ok(None));
    assert_eq!(settled_bits(mode, &[16], &[]), Err(Refusal::LENT));
}
