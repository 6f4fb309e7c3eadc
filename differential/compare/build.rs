//! Links the archive of the proved code: libexports.a in the folder that the
//! variable RATTLE_ARCHIVE names.

fn main() {
    println!("cargo:rerun-if-changed=build.rs");
    println!("cargo:rerun-if-env-changed=RATTLE_ARCHIVE");
    if std::env::var_os("CARGO_FEATURE_RATTLE").is_none() {
        return;
    }
    let folder = std::env::var("RATTLE_ARCHIVE")
        .expect("set RATTLE_ARCHIVE to the folder that holds libexports.a");
    println!("cargo:rerun-if-changed={folder}/libexports.a");
    println!("cargo:rustc-link-search=native={folder}");
    println!("cargo:rustc-link-lib=static=exports");
}
