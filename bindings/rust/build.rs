//! Links the proved library, `libselfcheck.a`. `SELFCHECK_LIB` is the folder that has it; without it that is
//! `lib` in a release of this crate, and `bindings/lib` in a clone, where `bindings/try` puts it.
#![forbid(unsafe_code)]

use std::env;
use std::path::Path;
use std::process::exit;

fn main() {
    println!("cargo::rerun-if-env-changed=SELFCHECK_LIB");
    let own = [
        concat!(env!("CARGO_MANIFEST_DIR"), "/lib"),
        concat!(env!("CARGO_MANIFEST_DIR"), "/../lib"),
    ];
    let given = env::var("SELFCHECK_LIB").ok();
    let folders = given.as_deref().map_or(own.to_vec(), |folder| vec![folder]);
    let has = |folder: &&&str| Path::new(folder).join("libselfcheck.a").exists();
    let Some(folder) = folders.iter().find(has) else {
        println!("cargo::error=no libselfcheck.a in {}", folders.join(" or "));
        println!(
            "cargo::error=three ways to it: the crate of a release; bindings/try in a clone, with the Rattle kit; \
             or SELFCHECK_LIB, the folder that has it"
        );
        exit(1);
    };
    println!("cargo::rerun-if-changed={folder}/libselfcheck.a");
    println!("cargo::rustc-link-search=native={folder}");
    println!("cargo::rustc-link-lib=static=selfcheck");
}
