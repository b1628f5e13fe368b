//! Links libnxdn.a from the folder that NXDN_LIB_DIR names, or else from the repository's own
//! target/staticlib.
use std::env;
use std::path::Path;

fn main() {
    println!("cargo:rerun-if-env-changed=NXDN_LIB_DIR");
    // A relative path counts from this crate.
    let folder = env::var_os("NXDN_LIB_DIR").unwrap_or_else(|| "../../target/staticlib".into());
    let folder = Path::new(&env::var_os("CARGO_MANIFEST_DIR").unwrap_or_default()).join(folder);
    let archive = folder.join("libnxdn.a");
    println!("cargo:rerun-if-changed={}", archive.display());
    println!("cargo:rustc-link-search=native={}", folder.display());
    println!("cargo:rustc-link-lib=static=nxdn");
    // Warnings, not failures: cargo check and cargo doc need no archive.
    if !archive.is_file() {
        println!(
            "cargo:warning={} is not there, and linking needs it: make it with \
             `./staticlib nxdn`, or name its folder in NXDN_LIB_DIR",
            archive.display()
        );
    }
    if env::var("CARGO_CFG_TARGET_ARCH").as_deref() != Ok("x86_64") {
        println!("cargo:warning=libnxdn.a is for x86-64 and links into no program for this target");
    }
}
