// Says where the static library of the tracker is.
fn main() {
    let bench = std::env::var("CARGO_MANIFEST_DIR").expect("cargo names the folder");
    let folder = format!("{bench}/../target/staticlib");
    println!("cargo:rustc-link-search=native={folder}");
    println!("cargo:rerun-if-changed={folder}/libtracker.a");
}
