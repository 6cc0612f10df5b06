//! Finds libbursztok.a: in the folder that BURSZTOK_LIB_DIR names, else where `make lib` puts it.
//! On a machine that is not x86-64, the program `bridge` there, which has the library linked.

use std::path::PathBuf;
use std::process::exit;

fn main() {
    println!("cargo:rerun-if-env-changed=BURSZTOK_LIB_DIR");
    let crate_folder = std::env::var_os("CARGO_MANIFEST_DIR").expect("cargo sets it");
    let project = PathBuf::from(crate_folder).join("../..");
    let folder = match std::env::var_os("BURSZTOK_LIB_DIR") {
        Some(folder) => std::path::absolute(folder).expect("a folder has a name"),
        None => project.join("target/staticlib"),
    };
    let linked = std::env::var("CARGO_CFG_TARGET_ARCH").is_ok_and(|name| name == "x86_64");
    let needed = if linked { "libbursztok.a" } else { "bridge" };
    let file = folder.join(needed);
    println!("cargo:rerun-if-changed={}", file.display());
    if !file.is_file() {
        eprintln!("{needed} is not in {}.", folder.display());
        eprintln!(
            "Build it with 'make lib', or put the full path of its folder into BURSZTOK_LIB_DIR."
        );
        exit(1);
    }
    if linked {
        println!("cargo:rustc-link-search=native={}", folder.display());
        println!("cargo:rustc-link-lib=static=bursztok");
    } else {
        println!("cargo:rustc-env=BURSZTOK_BRIDGE={}", file.display());
        println!(
            "cargo:rustc-env=BURSZTOK_RUNNER={}",
            project.join("tools/x86-64").display()
        );
    }
}
