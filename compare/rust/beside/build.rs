// The folders of libexports.a and libfinder.a are given in LIBRARIES, with a colon between them.
fn main() {
    println!("cargo::rerun-if-env-changed=LIBRARIES");
    for folder in std::env::var("LIBRARIES").expect("LIBRARIES names the folders of libexports.a and libfinder.a").split(':') {
        println!("cargo::rustc-link-search=native={folder}");
    }
    println!("cargo::rustc-link-lib=static=exports");
    println!("cargo::rustc-link-lib=static=finder");
}
