//! Gives the shown `qr.rs` a child module, so that its private fields can be read without editing it: what is compiled
//! is the file byte for byte, and after its last line the declaration of `doors.rs`.

use std::{env, fs, path::Path};

fn main() {
    let root = env::var("CARGO_MANIFEST_DIR").expect("set by cargo");
    let out = env::var("OUT_DIR").expect("set by cargo");
    let (root, out) = (Path::new(&root), Path::new(&out));
    let shown = fs::read_to_string(root.join("src/qr.rs")).expect("src/qr.rs");
    let doors = root.join("src/doors.rs");
    let with_doors = format!("{shown}\n#[path = {doors:?}]\npub mod doors;\n");
    let qr = out.join("qr.rs");
    fs::write(&qr, with_doors).expect("writable");
    let module = format!("#[allow(dead_code)]\n#[path = {qr:?}]\nmod qr;\n");
    fs::write(out.join("module.rs"), module).expect("writable");
    println!("cargo::rerun-if-changed=src/qr.rs");
    println!("cargo::rerun-if-changed=build.rs");
}
