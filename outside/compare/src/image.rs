//! The compiled library has no row of V.32's table 1 among the bytes that are loaded
//!

use outside::{image, object};

const LIBRARY: &str = concat!(
    env!("CARGO_MANIFEST_DIR"),
    "/../../crates/kerambiu/out/libkerambiu.a"
);

/// Looks for the table in the library; whether it is not there.
pub fn compare() -> bool {
    let library = match std::fs::read(LIBRARY) {
        Ok(bytes) => bytes,
        Err(error) => {
            println!("image: the library cannot be read: {error}");
            return false;
        }
    };
    let found = image::search(&library);
    for found in &found {
        println!("image: {} at byte {}", found.what, found.at);
    }
    let pieces = object::pieces(&library);
    let bytes: usize = pieces.iter().map(|piece| piece.bytes.len()).sum();
    println!(
        "image: table 1 of V.32 looked for in {bytes} bytes, {} times found",
        found.len()
    );
    // Where nothing was looked at, nothing was shown.
    bytes != 0 && found.is_empty()
}
