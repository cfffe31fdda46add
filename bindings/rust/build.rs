//! Links libnjerumoy.a. NJERUMOY_LIB names its folder; without it, it is the one that
//! tools/build-library fills for the processor that is built for.
use std::env;
use std::path::PathBuf;

fn main() {
    println!("cargo:rerun-if-env-changed=NJERUMOY_LIB");
    let folder = match env::var_os("NJERUMOY_LIB") {
        Some(folder) => PathBuf::from(folder),
        None => {
            let here = env::var_os("CARGO_MANIFEST_DIR").expect("cargo names the crate's folder");
            let processor = env::var("CARGO_CFG_TARGET_ARCH").expect("cargo names the processor");
            PathBuf::from(here)
                .join("../../target/library")
                .join(processor)
        }
    };
    let archive = folder.join("libnjerumoy.a");
    if !archive.exists() {
        println!(
            "cargo:warning=there is no {}: run tools/build-library",
            archive.display()
        );
    }
    println!("cargo:rerun-if-changed={}", archive.display());
    println!("cargo:rustc-link-search=native={}", folder.display());
    println!("cargo:rustc-link-lib=static=njerumoy");
}
