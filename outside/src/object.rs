//! The pieces of a compiled file: bytes that stay side by side when it is linked and
//! loaded.
//!
//! In an archive or an ELF object these are its loaded sections, and of a section of
//! constants that the linker may put in any order each constant by itself. Any other
//! file is one piece, and so is one that cannot be read to its end: more is looked at
//! then, not less.

const ARCHIVE: &[u8] = b"!<arch>\n";
const MEMBER_HEADER: usize = 60;
const MEMBER_HEADER_END: &[u8] = b"`\n";
/// Members that the archive has for itself: symbols and long names.
const INDEXES: [&[u8]; 3] = [b"/ ", b"// ", b"/SYM64/ "];

const ELF: &[u8] = b"\x7fELF";
/// 64 bits, the lowest byte first.
const ELF_CLASS: &[u8] = &[2, 1];
const SECTION_HEADER: usize = 64;
const NO_BITS: usize = 8;
const LOADED: usize = 0x2;
const MERGED: usize = 0x10;
const STRINGS: usize = 0x20;

/// Bytes of a file, and where in it they begin.
#[derive(Clone, Copy, Debug, PartialEq)]
pub struct Piece<'a> {
    pub at: usize,
    pub bytes: &'a [u8],
}

impl<'a> Piece<'a> {
    fn part(&self, from: usize, size: usize) -> Option<Self> {
        let bytes = self.bytes.get(from..from.checked_add(size)?)?;
        let at = self.at + from;
        Some(Self { at, bytes })
    }

    /// A number of up to eight bytes, the lowest first.
    fn number(&self, from: usize, size: usize) -> Option<usize> {
        let bytes = self.part(from, size)?.bytes;
        let number = bytes.iter().rfold(0, |n, &byte| n << 8 | u64::from(byte));
        usize::try_from(number).ok()
    }

    fn cut(self, size: usize) -> impl Iterator<Item = Self> {
        let entries = self.bytes.chunks(size).enumerate();
        entries.map(move |(k, bytes)| Self {
            at: self.at + k * size,
            bytes,
        })
    }
}

/// The members of an archive, without its indexes.
fn members<'a>(archive: &Piece<'a>) -> Option<Vec<Piece<'a>>> {
    let mut members = Vec::new();
    let mut at = ARCHIVE.len();
    while at < archive.bytes.len() {
        let header = archive.part(at, MEMBER_HEADER)?.bytes;
        if !header.ends_with(MEMBER_HEADER_END) {
            return None;
        }
        let size = std::str::from_utf8(&header[48..58]).ok()?;
        let size = size.trim_end().parse().ok()?;
        at += MEMBER_HEADER;
        let member = archive.part(at, size)?;
        if !INDEXES.iter().any(|name| header.starts_with(name)) {
            members.push(member);
        }
        // A member begins at an even byte.
        at += size + size % 2;
    }
    Some(members)
}

/// The pieces of a section, given its header.
fn of_section<'a>(object: &Piece<'a>, header: &Piece<'a>, cut: bool) -> Option<Vec<Piece<'a>>> {
    let kind = header.number(4, 4)?;
    let flags = header.number(8, 8)?;
    if flags & LOADED == 0 || kind == NO_BITS {
        return Some(Vec::new());
    }
    let section = object.part(header.number(24, 8)?, header.number(32, 8)?)?;
    let entry = header.number(56, 8)?;
    // What is merged of strings is not a letter, which is what an entry is there.
    if cut && flags & (MERGED | STRINGS) == MERGED && entry != 0 {
        return Some(section.cut(entry).collect());
    }
    Some(vec![section])
}

/// The pieces of an ELF object; what is none is one piece.
fn of_object<'a>(object: &Piece<'a>, cut: bool) -> Option<Vec<Piece<'a>>> {
    let Some(rest) = object.bytes.strip_prefix(ELF) else {
        return Some(vec![*object]);
    };
    let count = object.number(60, 2)?;
    // A count of 0 stands for more than fit, or for none to go by.
    if !rest.starts_with(ELF_CLASS) || object.number(58, 2)? != SECTION_HEADER || count == 0 {
        return None;
    }
    let headers = object.part(object.number(40, 8)?, count * SECTION_HEADER)?;
    let mut pieces = Vec::new();
    for header in headers.cut(SECTION_HEADER) {
        pieces.extend(of_section(object, &header, cut)?);
    }
    Some(pieces)
}

fn of_archive<'a>(archive: &Piece<'a>, cut: bool) -> Option<Vec<Piece<'a>>> {
    let mut pieces = Vec::new();
    for member in members(archive)? {
        pieces.extend(of_object(&member, cut)?);
    }
    Some(pieces)
}

fn read(file: &[u8], cut: bool) -> Vec<Piece<'_>> {
    let whole = Piece { at: 0, bytes: file };
    let pieces = if file.starts_with(ARCHIVE) {
        of_archive(&whole, cut)
    } else {
        of_object(&whole, cut)
    };
    pieces.unwrap_or_else(|| vec![whole])
}

/// The pieces of a file.
pub fn pieces(file: &[u8]) -> Vec<Piece<'_>> {
    read(file, true)
}

/// The same with its sections of constants whole.
pub fn sections(file: &[u8]) -> Vec<Piece<'_>> {
    read(file, false)
}
