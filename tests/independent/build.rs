//! With the feature `library`, links libnolkisei.a from the folder that NOLKISEI_LIBRARY names.

fn main() {
    println!("cargo:rerun-if-env-changed=NOLKISEI_LIBRARY");
    if std::env::var_os("CARGO_FEATURE_LIBRARY").is_some() {
        let folder = std::env::var("NOLKISEI_LIBRARY").expect("NOLKISEI_LIBRARY is not set");
        println!("cargo:rerun-if-changed={folder}/libnolkisei.a");
        println!("cargo:rustc-link-search=native={folder}");
        println!("cargo:rustc-link-lib=static=nolkisei");
    }
}
