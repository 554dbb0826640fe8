// Links the proved engine, target/bindings/libhukolearu.a at the top of the repository (`bindings/archive` makes it);
// or the libhukolearu.a of the folder that HUKOLEARU_LIBRARY names.
const CRATE: &str = "hukolearu";

fn main() {
    let made = concat!(env!("CARGO_MANIFEST_DIR"), "/../../target/bindings");
    let folder = std::env::var("HUKOLEARU_LIBRARY").unwrap_or(made.to_owned());
    println!("cargo:rustc-link-search=native={folder}");
    println!("cargo:rustc-link-lib=static={CRATE}");
    println!("cargo:rerun-if-changed={folder}/lib{CRATE}.a");
    println!("cargo:rerun-if-env-changed=HUKOLEARU_LIBRARY");
}
