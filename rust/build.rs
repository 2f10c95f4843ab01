// Where the library is: the folder that YOLKTROWEL_LIBRARY names, or the one that tools/library builds in this repository.
fn main() {
    let beside = concat!(env!("CARGO_MANIFEST_DIR"), "/../c/out");
    let folder = std::env::var("YOLKTROWEL_LIBRARY").unwrap_or_else(|_| beside.to_string());
    println!("cargo:rerun-if-env-changed=YOLKTROWEL_LIBRARY");
    println!("cargo:rustc-link-search=native={folder}");
}
