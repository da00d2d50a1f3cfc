//! Links liblent.a, for whoever builds this crate: `bindings/archive` makes it in the repository's target/staticlib. Set
//! WATCH_LIB_DIR to the folder that has it where it is elsewhere.
use std::env;
use std::path::PathBuf;

fn main() {
    println!("cargo:rerun-if-env-changed=WATCH_LIB_DIR");
    let manifest = PathBuf::from(env::var("CARGO_MANIFEST_DIR").expect("cargo sets CARGO_MANIFEST_DIR"));
    // joined to the manifest's folder, since rustc may be run in another one; an absolute path stays as it is
    let folder = manifest.join(env::var("WATCH_LIB_DIR").unwrap_or_else(|_| "../../target/staticlib".to_string()));
    let archive = folder.join("liblent.a");
    println!("cargo:rerun-if-changed={}", archive.display());
    if !archive.exists() {
        eprintln!("there is no {}: make it by `bindings/archive`, or set WATCH_LIB_DIR", archive.display());
        std::process::exit(1);
    }
    println!("cargo:rustc-link-search=native={}", folder.display());
    println!("cargo:rustc-link-lib=static=lent");
}
