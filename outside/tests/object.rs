//! Table 1 of V.32 is looked for in what is loaded of an object in an archive, and in
//! constants that may be put in any order in each by itself.

use outside::image::search;
use outside::object::pieces;

const TABLE: [u8; 16] = [1, 3, 0, 2, 0, 1, 2, 3, 3, 2, 1, 0, 2, 0, 3, 1];
const HEADER: usize = 64;
/// Where the object begins in the archive: after the mark and two members' headers,
/// the first with an index of 6 bytes.
const OBJECT_AT: usize = 8 + 60 + 6 + 60;

const BITS: u32 = 1;
const RELOCATIONS: u32 = 4;
const NO_BITS: u32 = 8;
const TEXT: u64 = 0x2 | 0x4;
const CONSTANTS: u64 = 0x2 | 0x10;
const STRINGS: u64 = 0x2 | 0x10 | 0x20;

struct Section<'a> {
    kind: u32,
    flags: u64,
    entry: u64,
    bytes: &'a [u8],
}

fn section(kind: u32, flags: u64, entry: u64, bytes: &[u8]) -> Section<'_> {
    Section {
        kind,
        flags,
        entry,
        bytes,
    }
}

fn section_header(section: &Section, at: usize) -> Vec<u8> {
    let mut header = vec![0; HEADER];
    header[4..8].copy_from_slice(&section.kind.to_le_bytes());
    header[8..16].copy_from_slice(&section.flags.to_le_bytes());
    header[24..32].copy_from_slice(&(at as u64).to_le_bytes());
    header[32..40].copy_from_slice(&(section.bytes.len() as u64).to_le_bytes());
    header[56..64].copy_from_slice(&section.entry.to_le_bytes());
    header
}

/// An object: its header, the sections' bytes one after the other, their headers.
fn object(sections: &[Section]) -> Vec<u8> {
    let mut object = vec![0; HEADER];
    object[..6].copy_from_slice(b"\x7fELF\x02\x01");
    object[58] = HEADER as u8;
    object[60] = sections.len() as u8;
    let mut headers = Vec::new();
    for section in sections {
        headers.extend(section_header(section, object.len()));
        object.extend(section.bytes);
    }
    let at = object.len() as u64;
    object[40..48].copy_from_slice(&at.to_le_bytes());
    object.extend(headers);
    object
}

fn member(name: &str, bytes: &[u8]) -> Vec<u8> {
    let size = bytes.len();
    let mut member = format!("{name:<16}{:<32}{size:<10}`\n", 0).into_bytes();
    member.extend(bytes);
    member.resize(member.len() + size % 2, b'\n');
    member
}

/// An archive of an index, which has a part of the table, and an object.
fn archive(sections: &[Section]) -> Vec<u8> {
    let index = member("/", &TABLE[..6]);
    let object = member("a.o/", &object(sections));
    [&b"!<arch>\n"[..], &index, &object].concat()
}

fn finds(sections: &[Section]) -> bool {
    !search(&archive(sections)).is_empty()
}

#[test]
fn the_table_is_found_in_the_code() {
    let code = [&[7; 5], &TABLE[..], &[7; 5]].concat();
    let other = section(BITS, 0, 0, &[7; 3]);
    let file = archive(&[other, section(BITS, TEXT, 0, &code)]);
    let at = OBJECT_AT + HEADER + 3 + 5;
    assert_eq!(file[at..at + 16], TABLE);
    assert!(search(&file).iter().any(|found| found.at == at));
}

#[test]
fn an_object_without_an_archive_has_the_same_pieces() {
    let sections = || [section(BITS, TEXT, 0, &TABLE), section(BITS, 0, 0, &[7])];
    let (alone, archived) = (object(&sections()), archive(&sections()));
    let [alone, archived] = [pieces(&alone), pieces(&archived)].map(|pieces| {
        let bytes = pieces.iter().map(|piece| piece.bytes.to_vec());
        bytes.collect::<Vec<_>>()
    });
    assert_eq!(alone, [TABLE]);
    assert_eq!(archived, alone);
}

#[test]
fn the_table_is_not_found_in_what_is_not_loaded() {
    let code = || section(BITS, TEXT, 0, &[7; 20]);
    for bytes in [&TABLE[..], &[0, 0, 8, 4]] {
        assert!(finds(&[code(), section(BITS, TEXT, 0, bytes)]));
        assert!(!finds(&[code(), section(BITS, 0, 0, bytes)]));
        assert!(!finds(&[code(), section(RELOCATIONS, 0x40, 24, bytes)]));
        assert!(!finds(&[code(), section(NO_BITS, 0x3, 0, bytes)]));
    }
}

#[test]
fn the_table_is_found_in_one_constant_but_not_across_two() {
    let across = [&[7; 12], &TABLE[..5], &[7; 15]].concat();
    let within = [&[7; 27], &TABLE[..5]].concat();
    assert!(!finds(&[section(BITS, CONSTANTS, 16, &across)]));
    assert!(finds(&[section(BITS, CONSTANTS, 16, &within)]));
    assert!(finds(&[section(BITS, CONSTANTS, 32, &across)]));
    let whole = [[7; 16], TABLE].concat();
    let file = archive(&[section(BITS, CONSTANTS, 16, &whole)]);
    let at = OBJECT_AT + HEADER + 16;
    assert!(search(&file).iter().any(|found| found.at == at));
}

/// Only constants that are merged may be put in any order, and of strings none is cut.
#[test]
fn other_sections_are_not_cut() {
    let across = [&[7; 12], &TABLE[..5], &[7; 15]].concat();
    assert!(finds(&[section(BITS, 0x2, 16, &across)]));
    assert!(finds(&[section(BITS, CONSTANTS, 0, &across)]));
    assert!(finds(&[section(BITS, STRINGS, 1, &across)]));
}

#[test]
fn the_table_is_not_found_across_two_sections() {
    let (first, second) = TABLE.split_at(4);
    let rest = &second[..4];
    assert!(!finds(&[
        section(BITS, TEXT, 0, first),
        section(BITS, TEXT, 0, rest),
    ]));
}

/// Whatever of the file cannot be read, nothing of it is left out.
#[test]
fn a_malformed_file_is_one_piece() {
    let file = archive(&[section(BITS, TEXT, 0, &TABLE), section(BITS, 0, 0, &[7])]);
    let whole = |file: &[u8]| {
        let pieces = pieces(file);
        pieces.len() == 1 && pieces[0].bytes == file && pieces[0].at == 0
    };
    assert!(!whole(&file));
    // The last byte is padding.
    for size in (0..file.len() - 1).filter(|&size| !ends_with_a_member(size)) {
        assert!(whole(&file[..size]), "{size} bytes");
    }
    let headers = file.len() - 1 - 2 * HEADER;
    for (at, byte) in [
        (8 + 58, 0),
        (8 + 48, b'x'),
        (OBJECT_AT + 4, 1),
        (OBJECT_AT + 5, 2),
        (OBJECT_AT + 47, 0xff),
        (OBJECT_AT + 58, 40),
        (OBJECT_AT + 60, 0),
        (OBJECT_AT + 60, 3),
        (headers + 31, 0xff),
        (headers + 39, 0xff),
    ] {
        let mut file = file.clone();
        file[at] = byte;
        assert!(whole(&file), "byte {at}");
    }
}

/// Whether an archive that is cut off there is a shorter archive.
fn ends_with_a_member(size: usize) -> bool {
    [8, OBJECT_AT - 60].contains(&size)
}

/// Five values of four or eight bytes are longer than a constant: they are looked for
/// over several.
#[test]
fn wide_values_are_found_across_constants() {
    for width in [4, 8] {
        let mut bytes = Vec::new();
        for value in TABLE {
            bytes.push(value);
            bytes.resize(bytes.len() + width - 1, 0);
        }
        assert!(finds(&[section(BITS, CONSTANTS, 16, &bytes)]), "{width}");
    }
}
