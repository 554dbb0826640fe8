// Links the base's engine, where `rust/measure before` has made it.
fn main() {
    println!("cargo:rerun-if-env-changed=HUKOLEARU_BEFORE");
    if std::env::var_os("CARGO_FEATURE_BEFORE").is_none() {
        return;
    }
    let folder = std::env::var("HUKOLEARU_BEFORE").expect("the folder of libbefore.a");
    println!("cargo:rustc-link-search=native={folder}");
    println!("cargo:rustc-link-lib=static=before");
    println!("cargo:rerun-if-changed={folder}/libbefore.a");
}
