//! Writes cases for the programs of the front into a folder: NNN.args (a program's
//! name and its numbers), NNN.in, and what it then writes on standard output,
//! NNN.out, and on standard error, NNN.err. The bytes are the same on every run. It
//! prints how many cases each program has by refusal number, and fails where a
//! number that a program can give is not among them.

use std::collections::BTreeMap;
use std::env;
use std::fs;
use std::io;
use std::path::Path;
use std::process::ExitCode;

use outside::front::events::{push_event, LOST_MARK};
use outside::front::{self, Said};
use outside::limits;
use outside::mode::{modes_and_roles, Line, Mode};
use outside::point::{self, Point};
use outside::rng::Rng;
use outside::store::{Event, MOST_RECORDS, RECORD, RECORD_POINTS};
use outside::v41;
use Event::Lost;

/// The sample stores of the repository.
const SAMPLES: &str = concat!(env!("CARGO_MANIFEST_DIR"), "/../samples");

/// The most records and points of a chain.
const MOST_CHAIN: usize = MOST_RECORDS - 1;
const MOST_POINTS: usize = RECORD_POINTS * MOST_CHAIN;

/// How much a program may read at once.
const READS: [usize; 2] = [4096, 65536];

/// The numbers that each program can give, 0 for no refusal.
const REACHED: [(&str, &[u8]); 7] = [
    ("list_track", &[0, 11, 12, 13, 14, 15]),
    ("sum_track", &[0, 11, 12, 13, 14, 15]),
    ("read_points", &[0, 11, 12, 13, 14, 15]),
    ("store_points", &[0, 1, 2, 7, 8, 9, 16, 17]),
    ("send_bits", &[0, 1, 2, 3, 5, 6]),
    ("receive_points", &[0, 1, 2, 7, 8, 9, 16]),
    ("check_blocks", &[0, 5, 19]),
];

struct Case {
    words: String,
    input: Vec<u8>,
    said: Said,
}

/// All cases so far.
#[derive(Default)]
struct Cases(Vec<Case>);

impl Cases {
    /// Adds a case, and gives what the program writes.
    fn add(&mut self, words: &str, input: &[u8]) -> Vec<u8> {
        let split: Vec<&str> = words.split(' ').collect();
        let said = front::run(split[0], &split[1..], input).expect("a program's words");
        let out = said.out.clone();
        self.0.push(Case {
            words: words.to_string(),
            input: input.to_vec(),
            said,
        });
        out
    }
}

fn main() -> ExitCode {
    let arguments: Vec<String> = env::args().skip(1).collect();
    let [folder] = arguments.as_slice() else {
        eprintln!("usage: front_cases FOLDER");
        return ExitCode::from(2);
    };
    match write_cases(Path::new(folder)) {
        Ok(true) => ExitCode::SUCCESS,
        Ok(false) => ExitCode::FAILURE,
        Err(error) => {
            eprintln!("front_cases: {error}");
            ExitCode::FAILURE
        }
    }
}

/// Writes all cases: whether every number was reached.
fn write_cases(folder: &Path) -> io::Result<bool> {
    let mut cases = Cases::default();
    sample_cases(&mut cases)?;
    store_cases(&mut cases);
    event_cases(&mut cases);
    filling_cases(&mut cases);
    skipping_cases(&mut cases);
    border_cases(&mut cases);
    receive_cases(&mut cases);
    send_cases(&mut cases);
    check_cases(&mut cases);
    for (number, case) in cases.0.iter().enumerate() {
        let write =
            |end: &str, bytes: &[u8]| fs::write(folder.join(format!("{number:03}.{end}")), bytes);
        write("args", format!("{}\n", case.words).as_bytes())?;
        write("in", &case.input)?;
        write("out", &case.said.out)?;
        write("err", case.said.err.as_bytes())?;
    }
    Ok(print_counts(&cases))
}

/// Prints the cases by program and number: whether every number was reached.
fn print_counts(cases: &Cases) -> bool {
    println!("{} cases", cases.0.len());
    let mut all = true;
    for (program, numbers) in REACHED {
        let mut counts: BTreeMap<u8, usize> = BTreeMap::new();
        for case in &cases.0 {
            if case.words.split(' ').next() == Some(program) {
                *counts.entry(case.said.number).or_default() += 1;
            }
        }
        let total: usize = counts.values().sum();
        let told: Vec<String> = counts.iter().map(|(n, k)| format!("{n}: {k}")).collect();
        println!("{program} {total} ({})", told.join(", "));
        for missing in numbers.iter().filter(|n| !counts.contains_key(n)) {
            println!("{program}: no case is refused by {missing}");
            all = false;
        }
    }
    all
}

// ---- inputs

fn file(events: &[Event]) -> Vec<u8> {
    let mut bytes = Vec::new();
    events
        .iter()
        .for_each(|&event| push_event(&mut bytes, event));
    bytes
}

fn at(re: i16, im: i16) -> Event {
    Event::Point(Point { re, im })
}

/// The example of document 01, for mode 1.
fn example() -> Vec<Event> {
    vec![at(4096, 0), at(0, 4096), Lost(3), at(-4096, 0)]
}

/// A point near a sent one, anywhere, or at the origin.
fn random_point(rng: &mut Rng, mode: &Mode) -> Event {
    match rng.below(24) {
        0 => at(0, 0),
        1..=4 => {
            let mut any = || rng.between(-16384, 16384) as i16;
            at(any(), any())
        }
        _ => {
            let sent = point::sent(mode, rng.pick(mode.states));
            let mut near = |x: i16| x + rng.between(-300, 300) as i16;
            at(near(sent.re), near(sent.im))
        }
    }
}

fn random_points(rng: &mut Rng, mode: u8, count: usize) -> Vec<Event> {
    let mode = Mode::find(mode).expect("a mode");
    (0..count).map(|_| random_point(rng, mode)).collect()
}

/// Points with a loss among them now and then.
fn random_events(rng: &mut Rng, mode: u8, count: usize) -> Vec<Event> {
    let mut events = random_points(rng, mode, count);
    for event in &mut events {
        if rng.below(12) == 0 {
            *event = Lost(1 + rng.below(300) as u32);
        }
    }
    events
}

/// Points and losses in turn, a record for each.
fn alternating(records: usize) -> Vec<Event> {
    let event = |k| {
        if k % 2 == 0 {
            at(4096, 0)
        } else {
            Lost(k as u32)
        }
    };
    (0..records).map(event).collect()
}

fn characters(bits: &[u8]) -> Vec<u8> {
    bits.iter().map(|bit| b'0' + bit).collect()
}

/// Random bits as characters, with blanks and line ends of all kinds among them.
fn spaced_bits(rng: &mut Rng, count: usize) -> Vec<u8> {
    let mut text = Vec::new();
    for bit in rng.bits(count) {
        match rng.below(40) {
            0 => text.extend(b" "),
            1 => text.extend(b"\t"),
            2 => text.extend(b"\n"),
            3 => text.extend(b"\r\n"),
            4 => text.extend(b" \t \r\n\n"),
            _ => {}
        }
        text.push(b'0' + bit);
    }
    text
}

/// Bits of a V.41 block; a broken one has a bit altered.
fn block(rng: &mut Rng, size: usize, whole: bool) -> Vec<u8> {
    let mut block = vec![0; size];
    let message = rng.bits(size - v41::CHECK_BITS);
    v41::make(&message, &mut block).expect("a block's size");
    if !whole {
        block[rng.below(size as u64) as usize] ^= 1;
    }
    block
}

// ---- cases

/// Every sample store: listed, summed, its points, and these stored and heard.
fn sample_cases(cases: &mut Cases) -> io::Result<()> {
    let entries: io::Result<Vec<_>> = fs::read_dir(SAMPLES)?.collect();
    let mut paths: Vec<_> = entries?.iter().map(|entry| entry.path()).collect();
    paths.retain(|path| path.extension().is_some_and(|end| end == "vsym"));
    paths.sort();
    for path in paths {
        let store = fs::read(path)?;
        cases.add("sum_track", &store);
        let points = cases.add("read_points", &store);
        let (mode, role) = (store[4], store[5]);
        cases.add(&format!("store_points {mode} {role} 0"), &points);
        cases.add(&format!("receive_points {mode} {role}"), &points);
        cases.add("list_track", &store);
    }
    Ok(())
}

/// Stores that are refused, by each number alone and beside another, and stores at
/// the limits.
fn store_cases(cases: &mut Cases) {
    for stores in refused_stores() {
        cases.add("list_track", &stores[0]);
        cases.add("sum_track", &stores[0]);
        for store in stores {
            cases.add("read_points", &store);
        }
    }
    for (name, store) in limits::stores() {
        cases.add("read_points", &store);
        if name == "full" || name == "wrapped" {
            cases.add("list_track", &store);
            cases.add("sum_track", &store);
        }
    }
}

fn example_store() -> Vec<u8> {
    front::stores::store(1, 0, 0, &file(&example())).out
}

/// The store of the example with some bytes altered.
fn altered(places: &[(usize, u8)]) -> Vec<u8> {
    let mut store = example_store();
    places.iter().for_each(|&(place, byte)| store[place] = byte);
    store
}

/// Stores for each number from 11 to 15.
fn refused_stores() -> [Vec<Vec<u8>>; 5] {
    let example = example_store();
    let (mark, mode, first, total, unused) = (0, 4, 6, 8, 12);
    let (next, kind) = (RECORD, RECORD + 2);
    // Half a record, one record, a byte too many, 2049 records.
    let sizes = vec![
        Vec::new(),
        example[..16].to_vec(),
        example[..RECORD].to_vec(),
        [example.as_slice(), &[0]].concat(),
        vec![0; RECORD * (MOST_RECORDS + 1)],
    ];
    // The last one has numbers 13 and 15 too.
    let record_0 = vec![
        altered(&[(mark, b'v')]),
        altered(&[(mode, 7)]),
        altered(&[(unused, 1)]),
        altered(&[(mode, 0), (first, 200), (total, 9)]),
    ];
    // Past the end, met twice, and beside 14 and 15.
    let index = vec![
        altered(&[(first, 4)]),
        altered(&[(next, 1)]),
        altered(&[(next, 200), (kind, 3), (total, 9)]),
    ];
    let record = vec![altered(&[(kind, 3)]), altered(&[(kind, 0), (total, 7)])];
    [sizes, record_0, index, record, vec![altered(&[(total, 7)])]]
}

/// Both programs that take events, with the same ones.
fn take_events(cases: &mut Cases, mode: u8, role: u8, input: &[u8]) {
    cases.add(&format!("store_points {mode} {role} 0"), input);
    cases.add(&format!("receive_points {mode} {role}"), input);
}

/// Every mode and role; refusals of modes, roles and events; inputs that end inside
/// an event.
fn event_cases(cases: &mut Cases) {
    let mut rng = Rng::new(1);
    for (mode, role) in modes_and_roles() {
        let events = random_events(&mut rng, mode.number, 400);
        take_events(cases, mode.number, role, &file(&events));
    }
    // Numbers that would be a mode or a role if they were cut off count as others.
    let input = file(&[at(-32768, 0), Lost(0)]);
    for words in ["0 0", "7 0", "257 0", "1 1", "3 2", "4 256"] {
        cases.add(&format!("store_points {words} 0"), &input);
    }
    let cut_off = ["18446744073709551617 0", "2 4294967296"];
    for words in cut_off.into_iter().chain(["7 1", "9 9", "6 1", "4 2"]) {
        cases.add(&format!("receive_points {words}"), &input);
    }
    take_events(cases, 1, 0, &[]);
    for events in refused_events() {
        take_events(cases, 4, 1, &file(&events));
    }
    for count in 1..8 {
        take_events(cases, 2, 0, &ending_inside(&example(), count));
    }
    // A refused event before one that is not whole, and such a one after it.
    take_events(cases, 1, 0, &ending_inside(&[Lost(0)], 5));
    take_events(cases, 1, 0, &ending_inside(&[Lost(u32::MAX)], 3));
}

/// Some events, and then so many bytes of another.
fn ending_inside(events: &[Event], count: usize) -> Vec<u8> {
    let last = if count < 4 {
        at(1024, 1024)
    } else {
        Lost(70000)
    };
    let mut bytes = file(events);
    bytes.extend(&file(&[last])[..count]);
    bytes
}

/// Events refused by 8, 9 and 16, alone and beside one another.
fn refused_events() -> Vec<Vec<Event>> {
    let ends = [at(-16384, 16384), at(16384, -16384)];
    let after = |events: &[Event]| [ends.as_slice(), events].concat();
    let at_end = |event| after(&[Lost(u32::MAX - 2), event, at(0, 0)]);
    vec![
        after(&[at(16385, 0), at(0, 0)]),
        after(&[at(0, -16385)]),
        // Half of the pair that stands before a count, and all but a bit of it.
        after(&[at(-32768, 1024)]),
        after(&[at(1024, -32768), Lost(0)]),
        after(&[at(-32768, -32767)]),
        after(&[Lost(0), at(16385, 0)]),
        vec![Lost(u32::MAX), at(4096, 0)],
        vec![Lost(u32::MAX)],
        at_end(at(4096, 0)),
        at_end(at(0, 0)),
        at_end(Lost(1)),
        at_end(Lost(u32::MAX)),
        at_end(at(-32768, 32767)),
        at_end(Lost(0)),
        // Just as many as fit, by a loss and by points.
        after(&[Lost(u32::MAX - 3), at(3072, 1024)]),
        after(&[at(1024, 0), Lost(u32::MAX - 3)]),
    ]
}

/// Stores that are full, and further events of each kind.
fn filling_cases(cases: &mut Cases) {
    let mut rng = Rng::new(2);
    let points = random_points(&mut rng, 4, MOST_POINTS + 1);
    cases.add("store_points 4 0 0", &file(&points[..MOST_POINTS]));
    cases.add("store_points 4 0 0", &file(&points));
    for records in [MOST_CHAIN, MOST_CHAIN + 1, MOST_CHAIN + 2] {
        let events = alternating(records);
        cases.add("store_points 3 1 0", &file(&events));
    }
    // The last record, of a point, has room: six points more, then a loss.
    let mut events = alternating(MOST_CHAIN);
    events.extend(random_points(&mut rng, 1, RECORD_POINTS - 1));
    events.push(Lost(7));
    cases.add("store_points 1 0 0", &file(&events));
    // Numbers 7, 8, 9 and 16 go before 17.
    let full: Vec<Event> = vec![Lost(1); MOST_CHAIN];
    cases.add("store_points 5 0 0", &ending_inside(&full, 6));
    for last in [at(16385, 0), Lost(0), Lost(u32::MAX), at(1, 1)] {
        cases.add(
            "store_points 5 0 0",
            &file(&[full.as_slice(), &[last]].concat()),
        );
    }
}

/// Stores of events from one on: the first, some within, the end and past it.
fn skipping_cases(cases: &mut Cases) {
    let mut rng = Rng::new(3);
    let events = random_events(&mut rng, 6, 100);
    for from in ["0", "1", "50", "99", "100", "101", "18446744073709551616"] {
        cases.add(&format!("store_points 6 0 {from}"), &file(&events));
    }
    cases.add("store_points 1 0 2", &file(&example()));
    cases.add("store_points 1 0 5", &[]);
    // Events that are skipped are not judged; one that is not whole is told.
    let skipped = [
        at(16385, 0),
        Lost(0),
        Lost(u32::MAX),
        Lost(u32::MAX),
        at(1, 0),
    ];
    for from in 1..5 {
        cases.add(&format!("store_points 2 0 {from}"), &file(&skipped));
    }
    for from in [2, 3, 6] {
        let input = ending_inside(&skipped, 7);
        cases.add(&format!("store_points 2 0 {from}"), &input);
    }
    // A capture in three stores, each from where the one before ended.
    let points = file(&random_points(&mut rng, 2, 2 * MOST_POINTS + 1342));
    for stores in 0..4 {
        cases.add(
            &format!("store_points 2 0 {}", stores * MOST_POINTS),
            &points,
        );
    }
    cases.add("store_points 2 0 16384", &points);
}

/// Events of which one meets the border of a read, or lies across it.
fn border_cases(cases: &mut Cases) {
    for read in READS {
        // A loss before the border, across it and behind it.
        for first in [read - 8, read - 4, read] {
            take_cut(cases, &with_loss_at(first, 5), usize::MAX);
        }
        // Ends inside the loss that lies across the border, at the border too.
        for end in [read, read + 1, read + 3] {
            take_cut(cases, &with_loss_at(read - 4, 0), end);
        }
        // Ends inside the event behind the border.
        cases.add(
            "receive_points 3 0",
            &with_loss_at(64, read / 4)[..read + 2],
        );
        cases.add("receive_points 3 0", &with_loss_at(read, 0)[..read + 7]);
    }
}

/// The cases of a file that is cut. A store takes but the events about the end, so
/// that it does not get full.
fn take_cut(cases: &mut Cases, bytes: &[u8], end: usize) {
    let bytes = &bytes[..end.min(bytes.len())];
    let from = bytes.len().saturating_sub(400) / 4;
    cases.add("receive_points 3 0", bytes);
    cases.add(&format!("store_points 3 0 {from}"), bytes);
}

/// Points, a loss from a byte on, and some points after it.
fn with_loss_at(byte: usize, points: usize) -> Vec<u8> {
    let mut rng = Rng::new(byte as u64);
    let mut events = random_points(&mut rng, 3, byte / 4);
    events.push(Lost(0x0403_0201));
    events.extend(random_points(&mut rng, 3, points));
    file(&events)
}

/// More events than a store holds, and the longest track.
fn receive_cases(cases: &mut Cases) {
    let mut rng = Rng::new(4);
    cases.add(
        "receive_points 4 1",
        &file(&random_events(&mut rng, 4, 30000)),
    );
    cases.add(
        "receive_points 5 0",
        &file(&random_points(&mut rng, 5, 17000)),
    );
    cases.add("receive_points 3 1", &file(&alternating(2 * MOST_RECORDS)));
    // The pair alone, where nothing follows it.
    let mark = file(&[Event::Point(LOST_MARK)]);
    cases.add("receive_points 1 0", &mark);
    let mut long = vec![Lost(u32::MAX - 20000)];
    long.extend(random_points(&mut rng, 2, 20001));
    cases.add("receive_points 2 0", &file(&long));
}

fn send_cases(cases: &mut Cases) {
    let mut rng = Rng::new(5);
    for (mode, role) in modes_and_roles() {
        let [short, long] = lengths(mode);
        let words = format!("send_bits {} {role}", mode.number);
        let groups = 600 * mode.width as usize;
        cases.add(&format!("{words} {short}"), &spaced_bits(&mut rng, groups));
        cases.add(
            &format!("{words} {long}"),
            &spaced_bits(&mut rng, groups + 1),
        );
    }
    // Numbers 1, 2 and 3, each before those that follow and before any character.
    let refused = [
        "0 0 0", "7 9 9", "258 0 0", "1 1 0", "3 2 1280", "4 9 9", "5 256 1",
    ];
    let lengths = [
        "1 0 2",
        "2 0 1280",
        "6 0 4294967297",
        "3 0 1279",
        "4 1 8193",
        "3 1 0",
    ];
    for words in refused.iter().chain(&lengths) {
        cases.add(&format!("send_bits {words}"), b"01x");
    }
    for text in bit_texts() {
        cases.add("send_bits 2 0 0", text);
    }
    for text in &bit_texts()[5..9] {
        cases.add("send_bits 4 0 1280", text);
    }
    send_border_cases(cases, &mut rng);
}

/// A mode's shortest and longest training.
fn lengths(mode: &Mode) -> [u32; 2] {
    match mode.line {
        Line::V27ter => [0, 1],
        Line::V32 => [1280, 8192],
    }
}

/// Texts with and without characters that are no bits: at the front, within a
/// group, after one, beside bits left over, and at the end.
fn bit_texts() -> [&'static [u8]; 16] {
    [
        b"",
        b" \t\r\n",
        b"\n\n0 1\t1\r\n0 0 1 1 0 1\r\n1\r0 1\n",
        b"x011010",
        b"2",
        b"0110x10",
        b"011011x",
        b"011010011010x011010",
        b"011010011010  \r\n 0/1",
        b"0110100110101:",
        b"0\x0b1",
        b"011\x0c",
        b"\x00",
        b"010011010110\xff",
        b"0",
        b"011010011010 1 0\n",
    ]
}

/// Bits over the borders of reads, with groups across them, and bad characters and
/// ends about them.
fn send_border_cases(cases: &mut Cases, rng: &mut Rng) {
    for read in READS {
        let text = characters(&rng.bits(2 * read + 2));
        for count in [read - 1, read, read + 1] {
            cases.add("send_bits 2 0 0", &text[..count]);
        }
        let shifted = [b"  ", &text[..read + 4]].concat();
        cases.add("send_bits 4 1 1280", &shifted);
        for place in [read - 1, read, read + 1] {
            let mut bad = text[..read + 8].to_vec();
            bad[place] = b'?';
            cases.add("send_bits 6 0 0", &bad);
        }
        cases.add("send_bits 1 0 1", &text[..2 * read + 2]);
        let blank = [&text[..5], &vec![b' '; read], &text[..4]].concat();
        cases.add("send_bits 2 0 0", &blank);
    }
}

fn check_cases(cases: &mut Cases) {
    let mut rng = Rng::new(6);
    for words in [
        "0 0",
        "261 0",
        "244 0",
        "4294967556 0",
        "18446744073709551876 7",
        "3861 3",
    ] {
        cases.add(&format!("check_blocks {words}"), b"01x");
    }
    cases.add("check_blocks 259 0", &[]);
    // Offsets past the end, of which one would be 0 if it were cut off.
    cases.add("check_blocks 260 9", &[b'0'; 9]);
    cases.add("check_blocks 260 18446744073709551616", &vec![b'0'; 261]);
    cases.add("check_blocks 260 0", &[]);
    for size in v41::SIZES {
        check_size_cases(cases, &mut rng, size);
    }
    for text in &bit_texts()[..8] {
        cases.add("check_blocks 260 3", text);
    }
    for read in READS {
        check_border_cases(cases, &mut rng, read);
    }
}

/// Whole, broken and short blocks of a size from several offsets, and with a bad
/// character.
fn check_size_cases(cases: &mut Cases, rng: &mut Rng, size: usize) {
    let before = rng.bits(37);
    let kinds = [true, false, true, true, false];
    let blocks = kinds.map(|whole| block(rng, size, whole)).concat();
    let short = rng.bits(size - 1);
    let all = characters(&[before, blocks.clone(), short].concat());
    for from in [0, 37, 38, 37 + size, all.len()] {
        cases.add(&format!("check_blocks {size} {from}"), &all);
    }
    let text = characters(&blocks);
    let lines: Vec<&[u8]> = text.chunks(61).collect();
    cases.add(
        &format!("check_blocks {size} 0"),
        &lines.join(&b" \r\n"[..]),
    );
    for place in [36, 37 + size - 1, 37 + size] {
        let mut bad = all.clone();
        bad[place] = b'!';
        cases.add(&format!("check_blocks {size} 37"), &bad);
    }
}

/// Blocks across the borders of reads, and ends about them.
fn check_border_cases(cases: &mut Cases, rng: &mut Rng, read: usize) {
    for size in v41::SIZES {
        let count = read / size + 2;
        let blocks: Vec<u8> = (0..count)
            .flat_map(|k| block(rng, size, k % 3 != 1))
            .collect();
        let text = characters(&blocks);
        cases.add(&format!("check_blocks {size} 0"), &text);
        let after = [&b"\r\n 0110"[..], &text].concat();
        cases.add(&format!("check_blocks {size} 4"), &after);
    }
    let bits = characters(&block(rng, 260, true));
    let blank = [&bits[..100], &vec![b'\n'; read], &bits[100..], b"1"].concat();
    cases.add("check_blocks 260 0", &blank);
    let mut bad = characters(&rng.bits(read + 300));
    bad[read] = b'o';
    cases.add("check_blocks 500 11", &bad);
    cases.add("check_blocks 980 3", &bad[..read]);
    cases.add(
        &format!("check_blocks 260 {read}"),
        &[&vec![b'1'; read], &bits[..]].concat(),
    );
}
