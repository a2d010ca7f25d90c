//! Links the proved library where it is compared; `MOVER_LIBRARY` is the folder of its archive.

fn main() {
    println!("cargo:rerun-if-env-changed=MOVER_LIBRARY");
    if std::env::var_os("CARGO_FEATURE_LIBRARY").is_some() {
        let folder =
            std::env::var("MOVER_LIBRARY").expect("MOVER_LIBRARY names the folder of libc_api.a");
        println!("cargo:rustc-link-search=native={folder}");
        println!("cargo:rustc-link-lib=static=c_api");
        println!("cargo:rerun-if-changed={folder}/libc_api.a");
    }
}
