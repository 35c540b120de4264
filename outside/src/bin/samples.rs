//! Writes sample stores (NAME.vsym), their listings (NAME.txt) and, of the accepted
//! ones, their points (NAME.points) into a folder: a few to read, or many random ones
//! to compare listings over; beside the few, V.41 blocks as characters (blocks.bits)
//! and their lines (blocks.txt). The bytes are the same on every run.

use std::env;
use std::fs;
use std::io;
use std::path::Path;
use std::process::ExitCode;

use outside::front;
use outside::limits;
use outside::listing;
use outside::mode::{Line, Mode, MODES};
use outside::patterns::data_without_guard;
use outside::rng::Rng;
use outside::sender::{self, Sender};
use outside::store::{append_lost, append_point, append_points, make, MOST_RECORDS, RECORD};
use outside::training::Training;
use outside::v41;

/// The random stores of `--many`.
const MANY: u64 = 240;

fn main() -> ExitCode {
    let arguments: Vec<String> = env::args().skip(1).collect();
    let written = match arguments.as_slice() {
        [folder] => write_samples(Path::new(folder)),
        [many, folder] if many == "--many" => write_many(Path::new(folder)),
        _ => {
            eprintln!("usage: samples FOLDER | samples --many FOLDER");
            return ExitCode::from(2);
        }
    };
    match written {
        Ok(()) => ExitCode::SUCCESS,
        Err(error) => {
            eprintln!("samples: {error}");
            ExitCode::FAILURE
        }
    }
}

fn write_samples(folder: &Path) -> io::Result<()> {
    write_store(folder, "example", &example())?;
    write_store(folder, "mode1", &spliced(1, 0))?;
    write_store(folder, "mode2", &trained())?;
    write_store(folder, "mode3", &spliced(3, 1))?;
    write_store(folder, "mode4", &spliced(4, 0))?;
    write_store(folder, "guard", &guarded())?;
    write_store(folder, "losses", &losses())?;
    write_store(folder, "empty", &made(2, 4, 1))?;
    write_store(folder, "damaged", &damaged())?;
    let blocks = blocks();
    fs::write(folder.join("blocks.bits"), &blocks)?;
    fs::write(folder.join("blocks.txt"), said("check", &["260", "0"], &blocks))
}

/// What a command of the front prints.
fn said(command: &str, words: &[&str], input: &[u8]) -> Vec<u8> {
    front::run(command, words, input).unwrap().out
}

/// Three V.41 blocks of 260 random bits, the second with one bit altered, and ten
/// bits more; 52 characters to a line.
fn blocks() -> Vec<u8> {
    let mut rng = Rng::new(41);
    let mut bits = Vec::new();
    for block in 0..3 {
        let given = rng.bits(244);
        bits.extend_from_slice(&given);
        bits.extend(v41::check_bits(&given));
        if block == 1 {
            bits[260 + 100] ^= 1;
        }
    }
    bits.extend(rng.bits(10));
    let mut text = Vec::new();
    for line in bits.chunks(52) {
        text.extend(line.iter().map(|bit| b'0' + bit));
        text.push(b'\n');
    }
    text
}

fn write_store(folder: &Path, name: &str, store: &[u8]) -> io::Result<()> {
    fs::write(folder.join(format!("{name}.vsym")), store)?;
    fs::write(folder.join(format!("{name}.txt")), listing::list(store))?;
    let points = front::run("points", &[], store).unwrap();
    if points.number == 0 {
        fs::write(folder.join(format!("{name}.points")), points.out)?;
    }
    Ok(())
}

fn made(records: usize, mode: u8, role: u8) -> Vec<u8> {
    let mut store = vec![0; records * RECORD];
    make(&mut store, mode, role).unwrap();
    store
}

/// The example of document 01.
fn example() -> Vec<u8> {
    let mut store = made(4, 1, 0);
    append_point(&mut store, 4096, 0).unwrap();
    append_point(&mut store, 0, 4096).unwrap();
    append_lost(&mut store, 3).unwrap();
    append_point(&mut store, -4096, 0).unwrap();
    store
}

/// A sender after its shortest training, and the numbers of the training's points.
fn opened(mode: u8, role: u8) -> (Sender, Vec<i16>) {
    let parameters = Mode::find(mode).unwrap();
    let length = match parameters.line {
        Line::V27ter => 0,
        Line::V32 => 1280,
    };
    let training = Training::of(parameters, length).unwrap();
    let mut out = vec![0; 2 * training.intervals()];
    let state = sender::open(mode, role, length, &mut out, 0).unwrap();
    (state, out)
}

/// Data points of random bits, re and im in turn, and the sender after them.
fn sent(state: Sender, rng: &mut Rng, points: usize) -> (Sender, Vec<i16>) {
    let width = Mode::find(state.mode).unwrap().width as usize;
    sent_data(state, &rng.bits(points * width))
}

fn sent_data(state: Sender, data: &[u8]) -> (Sender, Vec<i16>) {
    let width = Mode::find(state.mode).unwrap().width as usize;
    let mut out = vec![0; 2 * data.len() / width];
    let next = sender::send(state, data, &mut out, 0).unwrap();
    (next, out)
}

/// Data points with a loss, an origin point and a loss that takes the place far on.
fn spliced(mode: u8, role: u8) -> Vec<u8> {
    let mut rng = Rng::new(u64::from(mode));
    let mut store = made(24, mode, role);
    let (state, _) = opened(mode, role);
    let (state, points) = sent(state, &mut rng, 17);
    append_points(&mut store, &points).unwrap();
    append_lost(&mut store, 250).unwrap();
    let (state, points) = sent(state, &mut rng, 18);
    append_points(&mut store, &points).unwrap();
    append_point(&mut store, 0, 0).unwrap();
    let (state, points) = sent(state, &mut rng, 9);
    append_points(&mut store, &points).unwrap();
    append_lost(&mut store, 4_000_000_000).unwrap();
    let (_, points) = sent(state, &mut rng, 16);
    append_points(&mut store, &points).unwrap();
    store
}

/// V.27 ter's short training at 4800 bit/s, a loss inside it, and data after it.
fn trained() -> Vec<u8> {
    let mut rng = Rng::new(2);
    let mut store = made(20, 2, 0);
    let (state, training) = opened(2, 0);
    append_points(&mut store, &training[..2 * 30]).unwrap();
    append_lost(&mut store, 12).unwrap();
    append_points(&mut store, &training[2 * 42..]).unwrap();
    append_point(&mut store, 0, 0).unwrap();
    let (_, points) = sent(state, &mut rng, 12);
    append_points(&mut store, &points).unwrap();
    store
}

/// Mode 6 with data for which the line would repeat eight bits, again and again,
/// if there were no guard. They stand between other data, and a loss among them.
fn guarded() -> Vec<u8> {
    const PATTERN: [u8; 8] = [1, 0, 0, 1, 1, 1, 0, 0];
    let mut rng = Rng::new(6);
    let mut store = made(24, 6, 0);
    let (state, _) = opened(6, 0);
    let (mut state, points) = sent(state, &mut rng, 14);
    append_points(&mut store, &points).unwrap();
    for repeat in 0..6 {
        if repeat == 3 {
            append_lost(&mut store, 9).unwrap();
        }
        let line = PATTERN.repeat(6);
        let data = data_without_guard(&state, &line);
        let (next, points) = sent_data(state, &data);
        append_points(&mut store, &points).unwrap();
        state = next;
    }
    let (_, points) = sent(state, &mut rng, 14);
    append_points(&mut store, &points).unwrap();
    store
}

/// Losses of each kind beside one another: records of lost intervals, and origin
/// points, also as the first and the last of a record.
fn losses() -> Vec<u8> {
    let mut store = made(8, 2, 0);
    append_points(&mut store, &[4096, 0, 2896, 2896, 0, 0]).unwrap();
    append_lost(&mut store, 5).unwrap();
    append_lost(&mut store, 7).unwrap();
    append_points(&mut store, &[0, 0, 0, 4096, 0, 0, 0, 0, -4096, 0]).unwrap();
    append_lost(&mut store, 1).unwrap();
    append_lost(&mut store, 1).unwrap();
    append_point(&mut store, 0, 0).unwrap();
    store
}

/// A chain that leads past the end of its store.
fn damaged() -> Vec<u8> {
    let mut store = spliced(4, 0);
    store[2 * RECORD] = 24;
    store
}

/// Random stores of all modes and sizes, some damaged, stores at the limits, and
/// one that is too long.
fn write_many(folder: &Path) -> io::Result<()> {
    for seed in 0..MANY {
        let mut rng = Rng::new(1000 + seed);
        write_store(folder, &format!("random{seed}"), &random(&mut rng, seed))?;
    }
    for (name, store) in limits::stores() {
        write_store(folder, name, &store)?;
    }
    write_store(folder, "none", &[])?;
    write_store(folder, "long", &vec![0; 3 * MOST_RECORDS * RECORD])
}

fn random(rng: &mut Rng, seed: u64) -> Vec<u8> {
    let mode = &MODES[seed as usize % MODES.len()];
    let role = rng.below(mode.near_taps.len() as u64) as u8;
    let records = if seed.is_multiple_of(8) {
        MOST_RECORDS
    } else {
        2 + rng.below(60) as usize
    };
    let mut store = made(records, mode.number, role);
    while append_some(&mut store, rng) {}
    if seed % 5 == 4 {
        let at = rng.below(store.len().min(8 * RECORD) as u64) as usize;
        store[at] ^= 1 << rng.below(8);
    }
    store
}

/// Appends points, among them the origin and edges, or a loss: whether there was room.
fn append_some(store: &mut [u8], rng: &mut Rng) -> bool {
    if rng.below(6) == 0 {
        let n = if rng.below(40) == 0 {
            100_000_000
        } else {
            rng.below(300) as u32
        };
        return append_lost(store, 1 + n).is_ok();
    }
    let most = if rng.below(3) == 0 { 2 } else { 16384 };
    let numbers: Vec<i16> = (0..2 * (1 + rng.below(30)))
        .map(|_| rng.between(-most, most) as i16)
        .collect();
    append_points(store, &numbers).is_ok()
}
