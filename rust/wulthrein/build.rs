//! Finds the archive of the proved calls and has it linked, or says what is missing.
//! It looks in the folder that `WULTHREIN_LIB_DIR` names, or else where `make lib` leaves the archive.
use std::path::{Path, PathBuf};
use std::process::{exit, Command};

const ARCHIVE: &str = "libwulthrein.a";

fn main() {
    println!("cargo:rerun-if-env-changed=WULTHREIN_LIB_DIR");
    println!("cargo:rerun-if-changed=build.rs");
    let minor = minor_version().unwrap_or(0);
    if minor >= 80 {
        println!("cargo:rustc-check-cfg=cfg(core_error)"); // earlier ones warn of this line
    }
    if minor >= 81 {
        println!("cargo:rustc-cfg=core_error");
    }
    let folder = folder();
    println!("cargo:rerun-if-changed={}", folder.join(ARCHIVE).display());
    println!("cargo:rustc-link-search=native={}", folder.display());
    println!("cargo:rustc-link-lib=static=wulthrein");
}

/// The folder with the archive; without one the build ends here.
fn folder() -> PathBuf {
    let named = std::env::var_os("WULTHREIN_LIB_DIR").filter(|name| !name.is_empty());
    let home = std::env::var_os("CARGO_MANIFEST_DIR").expect("cargo names the package's folder");
    let (folder, found_by) = match named {
        Some(name) => (PathBuf::from(name), "the folder that WULTHREIN_LIB_DIR names"),
        None => (
            Path::new(&home).join("../../target/staticlib"),
            "where `make lib` leaves it (WULTHREIN_LIB_DIR is not set)",
        ),
    };
    // relative to the package's folder, in which cargo runs this
    match folder.join(ARCHIVE).metadata() {
        Ok(file) if file.is_file() => folder.canonicalize().unwrap_or(folder),
        _ => {
            eprintln!("wulthrein: there is no {ARCHIVE} in {},\n{found_by}.", folder.display());
            eprintln!("Either run `make lib` at the top of the Wulthrein repository, which needs the Rattle kit (`rt`) on the path,");
            eprintln!("or set WULTHREIN_LIB_DIR to the folder of an archive that is there, as PREFIX/lib after `make install-lib PREFIX=..`.");
            exit(1)
        }
    }
}

/// Of `rustc 1.81.0 (..)` the 81, with which `core::error::Error` came.
fn minor_version() -> Option<u32> {
    let told = Command::new(std::env::var_os("RUSTC")?).arg("--version").output().ok()?;
    let told = String::from_utf8(told.stdout).ok()?;
    told.strip_prefix("rustc 1.")?.split('.').next()?.parse().ok()
}
