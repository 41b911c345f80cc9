//! Links `libfuzsbanel.a`, which `make -C bindings/c build/libfuzsbanel.a` builds; `FUZSBANEL_LIB_DIR` names another
//! folder that has it.

use std::path::Path;
use std::{env, process};

fn main() {
    let folder = env::var("FUZSBANEL_LIB_DIR")
        .unwrap_or_else(|_| format!("{}/../c/build", env::var("CARGO_MANIFEST_DIR").unwrap()));
    println!("cargo:rerun-if-env-changed=FUZSBANEL_LIB_DIR");
    println!("cargo:rerun-if-changed={folder}/libfuzsbanel.a");
    if !Path::new(&folder).join("libfuzsbanel.a").exists() {
        eprintln!(
            "no libfuzsbanel.a in {folder}: run `rt lib` in crates/capi and then \
             `make -C bindings/c build/libfuzsbanel.a`, or name its folder by FUZSBANEL_LIB_DIR"
        );
        process::exit(1);
    }
    println!("cargo:rustc-link-search=native={folder}");
    println!("cargo:rustc-link-lib=static=fuzsbanel");
}
