//! Links the proved static library: the one in KERAMBIU_LIB_DIR where that is set
//! (PREFIX/lib after `./install PREFIX`), else the one that `rt lib` writes in
//! crates/kerambiu; anew whenever it has changed.

fn main() {
    let root = std::env::var("KERAMBIU_LIB_DIR").unwrap_or_else(|_| {
        concat!(env!("CARGO_MANIFEST_DIR"), "/../../crates/kerambiu/out").to_string()
    });
    println!("cargo:rerun-if-env-changed=KERAMBIU_LIB_DIR");
    println!("cargo:rustc-link-search=native={root}");
    println!("cargo:rerun-if-changed={root}/libkerambiu.a");
}
