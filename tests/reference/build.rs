//! Links the archive of the calls over bytes, where WULTHREIN_ARCHIVE names it, and beside it that of the calls on words, which
//! `bench/measure` makes, where WULTHREIN_WORDS does; without them `byte-calls`, or `time-bytes` and `make-calls`, are left out.
use std::path::Path;

fn main() {
    println!("cargo:rustc-check-cfg=cfg(archive, timing)");
    if linked("WULTHREIN_ARCHIVE") {
        println!("cargo:rustc-cfg=archive");
        if linked("WULTHREIN_WORDS") {
            println!("cargo:rustc-cfg=timing");
        }
    }
}

/// Links the archive that a variable of the environment names, and tells whether it names one.
fn linked(variable: &str) -> bool {
    println!("cargo:rerun-if-env-changed={variable}");
    let Ok(archive) = std::env::var(variable) else {
        return false;
    };
    let folder = Path::new(&archive).parent().expect("a path of an archive");
    let name = Path::new(&archive).file_stem().and_then(|stem| stem.to_str());
    let name = name.and_then(|stem| stem.strip_prefix("lib")).expect("an archive lib*.a");
    println!("cargo:rerun-if-changed={archive}");
    println!("cargo:rustc-link-search=native={}", folder.display());
    println!("cargo:rustc-link-lib=static={name}");
    true
}
