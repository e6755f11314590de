//! Links the library, and the toolchain's heap over `malloc`. CEDARGATE and RATTLE name other folders of theirs.
use std::env::var;

fn main() {
    let repository = format!("{}/../..", var("CARGO_MANIFEST_DIR").unwrap());
    let library = var("CEDARGATE").unwrap_or(format!("{repository}/crates/cedargate_c/out"));
    let heap = var("RATTLE").unwrap_or("/opt/rattle".to_owned()) + "/c";
    for (folder, name) in [(library, "cedargate_c"), (heap, "libc_c")] {
        println!("cargo:rustc-link-search=native={folder}");
        println!("cargo:rustc-link-lib=static={name}");
        println!("cargo:rerun-if-changed={folder}/lib{name}.a");
    }
    println!("cargo:rerun-if-env-changed=CEDARGATE");
    println!("cargo:rerun-if-env-changed=RATTLE");
}
