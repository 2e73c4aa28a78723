//! With the feature `linked`, links the library's archive into this program. It is looked for in LICHENBROOCH_LIB, by
//! default where `scripts/archive` writes it.

use std::env;
use std::path::PathBuf;

fn main() {
    println!("cargo:rerun-if-env-changed=LICHENBROOCH_LIB");
    if env::var_os("CARGO_FEATURE_LINKED").is_none() {
        return;
    }
    let root = PathBuf::from(env::var_os("CARGO_MANIFEST_DIR").expect("cargo sets it")).join("..");
    let folder = root.join(env::var_os("LICHENBROOCH_LIB").unwrap_or("target/staticlib".into()));
    println!("cargo:rerun-if-changed={}", folder.join("libexports.a").display());
    println!("cargo:rustc-link-search=native={}", folder.display());
    println!("cargo:rustc-link-lib=static=exports");
}
