//! The commands of the front.

use outside::front::events::{events, push_event};
use outside::front::{run, Said};
use outside::listing;
use outside::mode::modes_and_roles;
use outside::point::Point;
use outside::refusal::Refusal;
use outside::rng::Rng;
use outside::store::{append_lost, append_point, make, Event};
use outside::v41;

/// The example of document 01: (4096, 0), (0, 4096), lost 3, (−4096, 0).
const EXAMPLE: [u8; 20] = [
    0x00, 0x10, 0, 0, // (4096, 0)
    0, 0, 0x00, 0x10, // (0, 4096)
    0x00, 0x80, 0x00, 0x80, 3, 0, 0, 0, // lost 3
    0x00, 0xf0, 0, 0, // (−4096, 0)
];

fn at(re: i16, im: i16) -> Event {
    Event::Point(Point { re, im })
}

fn said(words: &str, input: &[u8]) -> Said {
    let split: Vec<&str> = words.split(' ').collect();
    run(split[0], &split[1..], input).expect("a command")
}

/// Standard output as text, and standard error.
fn text(words: &str, input: &[u8]) -> (String, String) {
    let Said { out, err, .. } = said(words, input);
    (String::from_utf8(out).unwrap(), err)
}

fn nothing(err: &str) -> (String, String) {
    (String::new(), err.to_string())
}

fn lines(out: &str, err: &str) -> (String, String) {
    (out.to_string(), err.to_string())
}

/// The store of the example, with a record more than it needs.
fn example_store() -> Vec<u8> {
    let mut store = vec![0; 5 * 32];
    make(&mut store, 1, 0).unwrap();
    append_point(&mut store, 4096, 0).unwrap();
    append_point(&mut store, 0, 4096).unwrap();
    append_lost(&mut store, 3).unwrap();
    append_point(&mut store, -4096, 0).unwrap();
    store
}

fn file(events: &[Event]) -> Vec<u8> {
    let mut bytes = Vec::new();
    events
        .iter()
        .for_each(|&event| push_event(&mut bytes, event));
    bytes
}

#[test]
fn bytes_of_points_and_losses() {
    let mut bytes = Vec::new();
    push_event(&mut bytes, at(0x0102, -2));
    push_event(&mut bytes, Event::Lost(0x0403_0201));
    let expected = [2, 1, 0xfe, 0xff, 0, 0x80, 0, 0x80, 1, 2, 3, 4];
    assert_eq!(bytes, expected);
    let read: Vec<_> = events(&expected).collect();
    assert_eq!(read, [Ok(at(0x0102, -2)), Ok(Event::Lost(0x0403_0201))]);
}

#[test]
fn half_of_the_pair_before_a_count_is_a_point() {
    let bytes = [0, 0x80, 1, 0x80, 1, 0x80, 0, 0x80];
    let read: Vec<_> = events(&bytes).collect();
    assert_eq!(read, [Ok(at(-32768, -32767)), Ok(at(-32767, -32768))]);
}

#[test]
fn a_count_may_look_like_the_pair_before_it() {
    let bytes = [0, 0x80, 0, 0x80, 0, 0x80, 0, 0x80];
    let read: Vec<_> = events(&bytes).collect();
    assert_eq!(read, [Ok(Event::Lost(0x8000_8000))]);
}

#[test]
fn bytes_that_end_inside_an_event() {
    let point = [1, 2, 3];
    let lost = [0, 0x80, 0, 0x80, 9, 0, 0];
    let inside = [Err(Refusal::LENT_NUMBERS)];
    for count in 1..4 {
        assert!(events(&point[..count]).eq(inside), "{count}");
    }
    for count in 1..8 {
        assert!(events(&lost[..count]).eq(inside), "{count}");
    }
    assert_eq!(events(&[]).count(), 0);
}

#[test]
fn the_example_as_points_store_and_lines() {
    let store = example_store();
    assert_eq!(said("points", &store).out, EXAMPLE);
    let made = said("store 1 0 0", &EXAMPLE);
    // Records 0 to 3 are all that is needed.
    assert_eq!(made.out, store[..4 * 32]);
    assert_eq!(made.err, "");
    let expected = "0 ref\n\
                    1 bits 01 --\n\
                    2 lost 3\n\
                    5 ref\n\
                    sum points 3 lost 3 gaps 1\n";
    assert_eq!(text("receive 1 0", &EXAMPLE), lines(expected, ""));
    let sums = lines("sum points 3 lost 3 gaps 1\n", "");
    assert_eq!(text("sums", &store), sums);
    assert_eq!(said("list", &store).out, listing::list(&store));
}

#[test]
fn programs_are_the_commands() {
    let pairs = [
        ("list", "list_track"),
        ("sums", "sum_track"),
        ("points", "read_points"),
        ("store 1 0 1", "store_points 1 0 1"),
        ("send 1 0 0", "send_bits 1 0 0"),
        ("receive 1 0", "receive_points 1 0"),
        ("check 260 0", "check_blocks 260 0"),
    ];
    for (command, program) in pairs {
        for input in [&EXAMPLE[..], &example_store(), b"0110"] {
            assert_eq!(said(command, input), said(program, input));
        }
    }
    for wrong in [
        &["list", "1"][..],
        &["store", "1", "0"],
        &["send", "1", "0", "-1"],
        &[""],
    ] {
        assert_eq!(run(wrong[0], &wrong[1..], &[]), None);
    }
}

#[test]
fn a_refused_store() {
    let refused = lines("refused 11\n", "refused 11 after 0\n");
    assert_eq!(text("list", &[]), refused);
    assert_eq!(text("sums", &[]), refused);
    assert_eq!(text("points", &[]), nothing("refused 11 after 0\n"));
    let mut store = example_store();
    store[8] += 1;
    assert_eq!(text("points", &store), nothing("refused 15 after 0\n"));
}

/// Points and losses in range.
fn random_events(rng: &mut Rng, count: usize) -> Vec<Event> {
    let mut event = || match rng.below(5) {
        0 => Event::Lost(1 + rng.below(1000) as u32),
        _ => at(rng.between(-16384, 16384) as i16, rng.between(-3, 3) as i16),
    };
    (0..count).map(|_| event()).collect()
}

#[test]
fn a_store_and_back_with_each_mode_and_role() {
    let mut rng = Rng::new(1);
    for (mode, role) in modes_and_roles() {
        let mode = mode.number;
        for count in [0, 1, 7, 8, 90] {
            let bytes = file(&random_events(&mut rng, count));
            let store = said(&format!("store {mode} {role} 0"), &bytes).out;
            assert_eq!(said("points", &store).out, bytes);
            // What is heard is the listing without its first line.
            let list = text("list", &store).0;
            let heard = text(&format!("receive {mode} {role}"), &bytes).0;
            assert_eq!(list.split_once('\n').unwrap().1, heard);
        }
    }
}

#[test]
fn a_store_has_as_many_records_as_are_needed() {
    let points = |count: usize| file(&vec![at(1, 1); count]);
    for (count, records) in [(0, 2), (1, 2), (7, 2), (8, 3), (14, 3), (15, 4)] {
        let store = said("store 2 0 0", &points(count)).out;
        assert_eq!(store.len(), 32 * records, "{count}");
    }
}

#[test]
fn a_full_store_is_written_and_the_next_goes_on() {
    let bytes = file(&vec![Event::Lost(2); 2050]);
    let first = said("store 1 0 0", &bytes);
    assert_eq!(first.err, "refused 17 after 2047\n");
    assert_eq!(first.out.len(), 65536);
    assert_eq!(said("points", &first.out).out, bytes[..8 * 2047]);
    let second = said("store 1 0 2047", &bytes);
    assert_eq!(second.err, "");
    assert_eq!(said("points", &second.out).out, bytes[8 * 2047..]);
    let past = said("store 1 0 2051", &bytes);
    assert_eq!((past.out.len(), past.err.as_str()), (64, ""));
}

#[test]
fn refused_events() {
    let long = [Event::Lost(u32::MAX), at(4096, 0)];
    let stored = said("store 1 0 0", &file(&long));
    assert_eq!(stored.err, "refused 16 after 1\n");
    assert_eq!(said("points", &stored.out).out, file(&long[..1]));
    let heard = lines("0 lost 4294967295\nrefused 16\n", "refused 16 after 1\n");
    assert_eq!(text("receive 1 0", &file(&long)), heard);
    for (event, number) in [(at(16385, 0), 8), (at(-32768, 0), 8), (Event::Lost(0), 9)] {
        let bytes = file(&[at(0, 0), event]);
        let err = format!("refused {number} after 1\n");
        assert_eq!(text("store 1 0 0", &bytes), nothing(&err));
        let out = format!("0 lost 1\nrefused {number}\n");
        assert_eq!(text("receive 1 0", &bytes), (out, err));
    }
    let inside = &EXAMPLE[..19];
    assert_eq!(text("store 1 0 0", inside), nothing("refused 7 after 3\n"));
    assert_eq!(text("store 1 0 9", inside), nothing("refused 7 after 3\n"));
    let heard = lines(
        "0 ref\n1 bits 01 --\n2 lost 3\nrefused 7\n",
        "refused 7 after 3\n",
    );
    assert_eq!(text("receive 1 0", inside), heard);
}

#[test]
fn modes_roles_and_lengths_go_before_the_input() {
    for (words, number) in [
        ("0 0", 1),
        ("257 0", 1),
        ("7 1", 1),
        ("1 1", 2),
        ("4 256", 2),
    ] {
        let err = format!("refused {number} after 0\n");
        assert_eq!(text(&format!("store {words} 0"), &[1]), nothing(&err));
        assert_eq!(text(&format!("send {words} 9"), b"x"), nothing(&err));
        let heard = lines(&format!("refused {number}\n"), &err);
        assert_eq!(text(&format!("receive {words}"), &[1]), heard);
    }
    for words in ["1 0 2", "6 0 4294967296", "3 1 1279", "4 0 8193"] {
        let refused = nothing("refused 3 after 0\n");
        assert_eq!(text(&format!("send {words}"), b"x"), refused);
    }
}

#[test]
fn bits_are_sent_in_whole_groups() {
    let all = said("send 2 0 0", b"011 010\t1\r\n10\n");
    assert_eq!(all.err, "");
    let none = said("send 2 0 0", b"").out;
    assert_eq!(all.out.len(), none.len() + 3 * 4);
    assert_eq!(all.out[..none.len()], none);
    let two = &all.out[..none.len() + 2 * 4];
    for (input, err) in [
        ("0110101", "refused 6 after 7\n"),
        ("01101011", "refused 6 after 8\n"),
        ("011010x110", "refused 5 after 6\n"),
        ("0110101 x10", "refused 5 after 7\n"),
    ] {
        let said = said("send 2 0 0", input.as_bytes());
        assert_eq!((said.out.as_slice(), said.err.as_str()), (two, err));
    }
    let bad = said("send 2 0 0", b"x");
    assert_eq!((bad.out, bad.err.as_str()), (none, "refused 5 after 0\n"));
}

#[test]
fn blocks_are_whole_broken_or_short() {
    let mut rng = Rng::new(2);
    for size in v41::SIZES {
        let mut block = vec![0; size];
        v41::make(&rng.bits(size - 16), &mut block).unwrap();
        let mut broken = block.clone();
        broken[size - 1] ^= 1;
        let bits = [&[1, 0, 1], &block[..], &broken, &block[..5]].concat();
        let mut input: Vec<u8> = bits.iter().map(|bit| b'0' + bit).collect();
        let (second, third) = (3 + size, 3 + 2 * size);
        let blocks = format!("3 whole\n{second} broken\n");
        let words = format!("check {size} 3");
        let short = format!("{blocks}{third} short 5\n");
        assert_eq!(text(&words, &input), (short, String::new()));
        input.push(b'2');
        let err = format!("refused 5 after {}\n", bits.len());
        assert_eq!(text(&words, &input), (format!("{blocks}refused 5\n"), err));
        let past = text(
            &format!("check {size} {}", bits.len()),
            &input[..bits.len()],
        );
        assert_eq!(past, nothing(""));
    }
}

#[test]
fn bits_that_are_skipped_must_be_bits() {
    let refused = lines("refused 5\n", "refused 5 after 2\n");
    assert_eq!(text("check 260 9", b"01x"), refused);
    let size = lines("refused 19\n", "refused 19 after 0\n");
    for words in ["0 0", "259 0", "4294967556 0"] {
        assert_eq!(text(&format!("check {words}"), b"x"), size);
    }
    assert_eq!(text("check 260 0", b"0 1\n"), lines("0 short 2\n", ""));
    assert_eq!(text("check 260 0", b""), nothing(""));
}
