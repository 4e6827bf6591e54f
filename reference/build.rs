//! Where the product's C library stands, for the feature `library`: see linked.sh. When it changes, it is linked anew.

fn main() {
    println!("cargo::rerun-if-changed=build.rs");
    println!("cargo::rerun-if-env-changed=LIBRARY");
    if std::env::var_os("CARGO_FEATURE_LIBRARY").is_none() {
        return;
    }
    let Ok(folder) = std::env::var("LIBRARY") else {
        eprintln!("LIBRARY has to name the folder of libcuzzambra.a: see linked.sh");
        std::process::exit(1);
    };
    println!("cargo::rerun-if-changed={folder}/libcuzzambra.a");
    println!("cargo::rustc-link-search=native={folder}");
}
