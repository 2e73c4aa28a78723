//! Copies the sources of the ported crate into the repository's `target/`, with our stand-in for the file that the
//! copy lacks. They are looked for in CRATE_SRC, by default `../shared/docs/src` seen from the repository's root.

use std::path::{Path, PathBuf};
use std::{env, fs};

fn main() {
    let here = PathBuf::from(env::var_os("CARGO_MANIFEST_DIR").expect("cargo sets it"));
    let root = here.join("../..");
    let sources = match env::var_os("CRATE_SRC") {
        Some(given) => root.join(given),
        None => root.join("../shared/docs/src"),
    };
    let sources = if sources.join("src").is_dir() { sources.join("src") } else { sources };
    let place = root.join("target/compare/crate");
    fs::create_dir_all(&place).expect("target/ can be written");
    for file in fs::read_dir(&sources).unwrap_or_else(|e| panic!("no sources in {}: {e}", sources.display())) {
        bring(&file.expect("a readable folder").path(), &place);
    }
    bring(&here.join("unsafe_ref.rs"), &place);
    println!("cargo:rerun-if-env-changed=CRATE_SRC");
}

fn bring(file: &Path, place: &Path) {
    if file.extension().is_some_and(|e| e == "rs") {
        println!("cargo:rerun-if-changed={}", file.display());
        let text = fs::read(file).unwrap_or_else(|e| panic!("{}: {e}", file.display()));
        fs::write(place.join(file.file_name().expect("a file")), text).expect("target/ can be written");
    }
}
