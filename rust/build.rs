//! Links libradio.a, the proved library. `YAXOPETZO_LIB` names its folder; without it, `tools/native-archive` has put it into
//! the repository's target/native.

use std::env;
use std::path::PathBuf;

fn main() {
    let here = PathBuf::from(env::var_os("CARGO_MANIFEST_DIR").unwrap_or_default());
    let folder = match env::var_os("YAXOPETZO_LIB") {
        Some(folder) => PathBuf::from(folder),
        None => here.join("../target/native"),
    };
    println!("cargo:rustc-link-search=native={}", folder.display());
    println!("cargo:rustc-link-lib=static=radio");
    // A new archive is linked again, and so is one in another folder.
    println!("cargo:rerun-if-env-changed=YAXOPETZO_LIB");
    println!("cargo:rerun-if-changed={}", folder.join("libradio.a").display());
    println!("cargo:rerun-if-changed=build.rs");
}
