//! Links `libsozgarru.a`, the archive of the proved library: from the folder SOZGARRU_LIB_DIR if that is set and not
//! empty, else the one that is shipped in `native/`.
use std::env;
use std::path::PathBuf;

const ARCHIVE: &str = "libsozgarru.a";

fn main() {
    println!("cargo:rerun-if-env-changed=SOZGARRU_LIB_DIR");
    if let Err(message) = link() {
        eprintln!("sozgarru: {message}");
        std::process::exit(1);
    }
}

fn link() -> Result<(), String> {
    let (system, processor) = (given("CARGO_CFG_TARGET_OS")?, given("CARGO_CFG_TARGET_ARCH")?);
    // x32 is x86_64 too, with pointers of 32 bits
    let width = given("CARGO_CFG_TARGET_POINTER_WIDTH")?;
    if (system.as_str(), processor.as_str(), width.as_str()) != ("linux", "x86_64", "64") {
        return Err(format!(
            "the archive is for x86-64 Linux, and this build is for {processor} {system} with pointers of {width} bits; \
             use a linux/amd64 machine or container"
        ));
    }
    let folder = match env::var_os("SOZGARRU_LIB_DIR").filter(|folder| !folder.is_empty()) {
        Some(folder) => PathBuf::from(folder),
        None => PathBuf::from(given("CARGO_MANIFEST_DIR")?).join("native"),
    };
    let archive = folder.join(ARCHIVE);
    if !archive.is_file() {
        return Err(format!(
            "there is no {}; SOZGARRU_LIB_DIR names the folder that has it, and where it is not set, it is native/ of the crate",
            archive.display()
        ));
    }
    println!("cargo:rerun-if-changed={}", archive.display());
    println!("cargo:rustc-link-search=native={}", folder.display());
    println!("cargo:rustc-link-lib=static=sozgarru");
    Ok(())
}

/// A variable that cargo sets for a build script.
fn given(name: &str) -> Result<String, String> {
    env::var(name).map_err(|error| format!("{name}: {error}"))
}
