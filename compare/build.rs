//! With the feature `library`: links the proved static library, and the few C functions of the kit that it calls.

use std::env;

fn main() {
    println!("cargo:rerun-if-env-changed=WIRTHEDOL_LIBRARY");
    println!("cargo:rerun-if-env-changed=RATTLE_KIT");
    if env::var_os("CARGO_FEATURE_LIBRARY").is_none() {
        return;
    }
    let library = env::var("WIRTHEDOL_LIBRARY").expect("WIRTHEDOL_LIBRARY names libclib.a; compare/run sets it");
    let kit = env::var("RATTLE_KIT").expect("RATTLE_KIT names the kit's folder; compare/run sets it");
    let folder = library.rsplit_once('/').map_or(".", |(folder, _)| folder);
    println!("cargo:rerun-if-changed={library}");
    println!("cargo:rustc-link-search=native={folder}");
    println!("cargo:rustc-link-search=native={kit}/c");
    println!("cargo:rustc-link-lib=static=clib");
    println!("cargo:rustc-link-lib=static=libc_c");
}
