// Links libfinder.a, the archive that `rt lib --cpu=x86-64` writes in crates/finder, or says how to make it.
use std::path::PathBuf;

fn main() {
    println!("cargo:rerun-if-env-changed=FINDER_LIB_DIR");
    let manifest = PathBuf::from(env!("CARGO_MANIFEST_DIR"));
    let folder = match std::env::var_os("FINDER_LIB_DIR") {
        Some(named) => PathBuf::from(named),
        None => manifest.join("../../crates/finder/out"),
    };
    let archive = folder.join("libfinder.a");
    if !archive.is_file() {
        eprintln!("{} is not there. It is made with the Rattle kit, in the top folder of the picture finder:", archive.display());
        eprintln!();
        eprintln!("    (cd crates/finder && rt lib --cpu=x86-64)        # writes crates/finder/out/libfinder.a");
        eprintln!();
        eprintln!("Where the archive lies elsewhere, name its folder in FINDER_LIB_DIR.");
        std::process::exit(1);
    }
    println!("cargo:rerun-if-changed={}", archive.display());
    println!("cargo:rustc-link-search=native={}", folder.display());
    println!("cargo:rustc-link-lib=static=finder");
    // For build scripts of crates that depend on this one: DEP_FINDER_INCLUDE is the folder of finder.h.
    println!("cargo:include={}", manifest.join("../../include").display());
}
