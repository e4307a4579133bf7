// Links the proved static library, and the few C functions of the kit that it calls.
use std::env;

fn main() {
    let kit = env::var("RATTLE_KIT").expect("RATTLE_KIT names the kit's folder; bench/run sets it");
    let here = env::var("CARGO_MANIFEST_DIR").unwrap();
    println!("cargo:rerun-if-env-changed=RATTLE_KIT");
    println!("cargo:rerun-if-changed={here}/../crates/clib/out/libclib.a");
    println!("cargo:rustc-link-search=native={here}/../crates/clib/out");
    println!("cargo:rustc-link-search=native={kit}/c");
    println!("cargo:rustc-link-lib=static=clib");
    println!("cargo:rustc-link-lib=static=libc_c");
}
