// The archive's folder is given in LIBRARY.
fn main() {
    println!("cargo::rerun-if-env-changed=LIBRARY");
    let folder = std::env::var("LIBRARY").expect("LIBRARY names the folder of libfinder.a");
    println!("cargo::rerun-if-changed={folder}/libfinder.a");
    println!("cargo::rustc-link-search=native={folder}");
    println!("cargo::rustc-link-lib=static=finder");
}
