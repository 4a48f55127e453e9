//! Finds the archive libklsm.a: in the folder that KLSM_LIB_DIR names, else in the first of these that has
//! it. The repository has it in `out` beside this crate's folder, and what is installed in its own `lib`.

use std::env;
use std::path::PathBuf;
use std::process;

const ARCHIVE: &str = "libklsm.a";

/// From this crate's folder.
const PLACES: [&str; 2] = ["../out", "../../../lib"];

/// The folders where the archive is looked for.
fn folders() -> Vec<PathBuf> {
    match env::var_os("KLSM_LIB_DIR") {
        Some(named) if !named.is_empty() => vec![PathBuf::from(named)],
        _ => {
            let here = PathBuf::from(env::var_os("CARGO_MANIFEST_DIR").unwrap_or_default());
            PLACES.iter().map(|place| here.join(place)).collect()
        }
    }
}

fn main() {
    println!("cargo:rerun-if-env-changed=KLSM_LIB_DIR");
    let folders = folders();
    let Some(folder) = folders.iter().find(|folder| folder.join(ARCHIVE).is_file()) else {
        for folder in &folders {
            eprintln!("there is no {}", folder.join(ARCHIVE).display());
        }
        eprintln!(
            "Build it with the command bindings/build of the klsm repository, or set KLSM_LIB_DIR \
             to the absolute path of the folder that has {ARCHIVE}."
        );
        process::exit(1);
    };
    // A file that is missing would have the crate compiled each time, so it names the one that is there.
    println!("cargo:rerun-if-changed={}", folder.join(ARCHIVE).display());
    println!("cargo:rustc-link-search=native={}", folder.display());
    println!("cargo:rustc-link-lib=static=klsm");
}
