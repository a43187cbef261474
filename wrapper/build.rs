//! Finds the static library: in the folder that `ZONE_LIB_DIR` names, or else in the repository that this crate is a part of.
use std::env;
use std::path::{Path, PathBuf};

/// The folder of the library, and what to do if the library is not there.
fn source() -> (PathBuf, String) {
    if let Some(folder) = env::var_os("ZONE_LIB_DIR") {
        let help = "ZONE_LIB_DIR has to be the full path of the folder with libzone.a in it";
        return (PathBuf::from(folder), help.to_string());
    }
    let target = Path::new(env!("CARGO_MANIFEST_DIR")).join("../target");
    // The archive that is shipped, or one for tests and measuring.
    let (folder, command) = match env::var_os("CARGO_FEATURE_NATIVE") {
        None => ("staticlib", "tools/staticlib"),
        Some(_) => ("native", "bench/native"),
    };
    let help = format!(
        "`{command}` at the top of the repository makes it; or set ZONE_LIB_DIR to the full path of the folder that has it"
    );
    (target.join(folder), help)
}

fn main() {
    println!("cargo:rerun-if-env-changed=ZONE_LIB_DIR");
    let (folder, help) = source();
    let library = folder.join("libzone.a");
    println!("cargo:rerun-if-changed={}", library.display());
    if !folder.is_absolute() || !library.is_file() {
        eprintln!("there is no library {}: {help}", library.display());
        std::process::exit(1);
    }
    println!("cargo:rustc-link-search=native={}", folder.display());
    println!("cargo:rustc-link-lib=static=zone");
}
