//! With the feature `linked`: where the static libraries lie that `long-comparison` made, each in its crate's folder `out`.

fn main() {
    println!("cargo:rerun-if-env-changed=LINKED_CRATES");
    if std::env::var_os("CARGO_FEATURE_LINKED").is_some() {
        let crates = std::env::var("LINKED_CRATES").expect("LINKED_CRATES names the folder of the proved crates");
        for name in ["comparison", "tegzhumbi_c"] {
            println!("cargo:rustc-link-search=native={crates}/{name}/out");
            println!("cargo:rerun-if-changed={crates}/{name}/out/lib{name}.a");
        }
    }
}
