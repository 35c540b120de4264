//! A capture from end to end. A V.32 sender trains and sends 200 data bits; some of
//! its points are lost on the way, and the recorder knows how many. Points and loss go
//! into a track store. Then the store is read back, a receiver takes its events, and
//! what is assured of the data bits is printed beside what was sent.
//!
//!     cargo run --release --offline --example capture
//!
//! `capture.out` is what it prints.

use kerambiu::{Event, Mode, Receiver, Refusal, Role, Run, Sender, Store};

const MODE: Mode = Mode::V32At4800;
const ROLE: Role = Role::Calling;
/// Intervals of the training's third segment.
const THIRD: u32 = 1280;
/// Data points, and those of them that are lost.
const POINTS: usize = 100;
const LOST: std::ops::Range<usize> = 40..52;

/// Data bits that are not the same for long.
fn data() -> Vec<u8> {
    let bit = |k: usize| (k * k / 7 + k) as u8 & 1;
    (0..POINTS * MODE.bits_in_point()).map(bit).collect()
}

/// The store: training, the data points before the loss, the loss, those after it.
fn record(training: &[i16], points: &[i16]) -> Result<Store, Refusal> {
    let mut store = Store::make(512, MODE, ROLE)?;
    store.append_points(training)?;
    store.append_points(&points[..2 * LOST.start])?;
    store.append_lost(LOST.len() as u32)?;
    store.append_points(&points[2 * LOST.end..])?;
    Ok(store)
}

/// The events as stretches of points with the lost intervals before each.
fn stretches(events: &[Event]) -> Vec<(u32, Vec<i16>)> {
    let mut stretches = vec![(0, Vec::new())];
    for event in events {
        match *event {
            Event::Lost { intervals } => stretches.push((intervals, Vec::new())),
            Event::Point { re, im } => {
                let last = stretches.last_mut().expect("there is a stretch");
                last.1.extend([re, im]);
            }
        }
    }
    stretches
}

fn text(bits: &[u8]) -> String {
    bits.iter().map(|&bit| char::from(b'0' + bit)).collect()
}

/// Prints the assured bits of a run that begins at this place, those from the place
/// `from` on, and the sent ones beside them.
fn print_assured(run: &Run, place: usize, first_data: usize, from: usize, sent: &[u8]) {
    let width = MODE.bits_in_point();
    let skipped = width * (from - place) - run.unsettled(MODE);
    let received = &run.bits[skipped..];
    let at = width * (from - first_data);
    let sent = &sent[at..at + received.len()];
    println!("place {from}: {} bits assured", received.len());
    println!("  received {}", text(received));
    println!("  sent     {}", text(sent));
    assert_eq!(received, sent);
}

fn main() -> Result<(), Refusal> {
    let sent = data();
    let (mut sender, training) = Sender::open(MODE, ROLE, THIRD)?;
    let points = sender.send(&sent)?;
    let store = record(&training, &points)?;
    let sums = store.sums();
    println!("stored: points {}, lost {}", sums.points, sums.lost);

    let first_data = training.len() / 2;
    let assured = MODE.assured_from().expect("a mode without a guard") - 1;
    let mut receiver = Receiver::new(MODE, ROLE)?;
    for (lost, points) in stretches(&store.read()) {
        if lost > 0 {
            println!("place {}: {lost} intervals lost", receiver.place());
            receiver.gap(lost)?;
        }
        let block = receiver.points(&points)?;
        for run in block.runs() {
            let begin = first_data.max(block.place as usize);
            let place = block.place as usize + run.point;
            print_assured(&run, place, first_data, begin + assured, &sent);
        }
    }
    println!("place {}: the end", receiver.place());

    // A point out of range is refused, and the receiver is as it was.
    let before = receiver.clone();
    if let Err(refusal) = receiver.point(20_000, 0) {
        println!("{refusal}");
    }
    assert_eq!(receiver, before);
    Ok(())
}
