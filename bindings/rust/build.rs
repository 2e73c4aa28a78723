//! Links the proved library: libexports.a from the folder LICHENBROOCH_LIB, or where `scripts/archive` writes it.
use std::env;
use std::path::PathBuf;
use std::process::exit;

fn stop(message: String) -> ! {
    eprintln!("{message}");
    exit(1)
}

fn main() {
    println!("cargo:rerun-if-env-changed=LICHENBROOCH_LIB");
    let target = env::var("TARGET").unwrap_or_default();
    if !target.starts_with("x86_64-") || !target.contains("-linux-") {
        stop(format!(
            "the library is built for x86-64 Linux, not for {target}: see docs/LINKING.md on building for it"
        ));
    }
    let here = PathBuf::from(env::var_os("CARGO_MANIFEST_DIR").unwrap_or_default());
    let folder = env::var_os("LICHENBROOCH_LIB").map_or_else(|| here.join("../../target/staticlib"), PathBuf::from);
    let archive = folder.join("libexports.a");
    println!("cargo:rerun-if-changed={}", archive.display());
    if !archive.is_file() {
        let place = archive.display();
        stop(format!("there is no {place}: run 'scripts/archive', or set LICHENBROOCH_LIB to its folder"));
    }
    println!("cargo:rustc-link-search=native={}", folder.display());
    println!("cargo:rustc-link-lib=static=exports");
}
