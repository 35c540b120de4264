//! The listing program: reads a store from standard input and writes its
//! listing to standard output.

use std::io::{self, Read, Write};

use outside::listing;
use outside::store::{MOST_RECORDS, RECORD};

fn main() -> io::Result<()> {
    let mut store = Vec::new();
    // One byte more than the greatest store shows that the input is too long.
    let limit = RECORD * MOST_RECORDS + 1;
    io::stdin().take(limit as u64).read_to_end(&mut store)?;
    io::stdout().write_all(&listing::list(&store))
}
