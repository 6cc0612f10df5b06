//! The program `bursztok-planted` puts itself between the bindings and the library: every call of
//! the C library goes to its `__wrap_` function, which reaches the call itself as `__real_`.

/// The calls of `include/bursztok.h`.
const CALLS: [&str; 20] = [
    "key_test",
    "commitment",
    "respond",
    "rebuild",
    "compare",
    "write",
    "read",
    "z1_section",
    "z2_section",
    "list_section",
    "commitment_with_rests",
    "rebuild_default_one",
    "compare_default_one",
    "write_packed",
    "read_packed",
    "pack",
    "unpack",
    "kappa",
    "record_bytes",
    "packed_bytes",
];

fn main() {
    println!("cargo:rerun-if-changed=build.rs");
    // Elsewhere the library is not linked.
    if std::env::var("CARGO_CFG_TARGET_ARCH").is_ok_and(|name| name == "x86_64") {
        for call in CALLS {
            println!("cargo:rustc-link-arg-bin=bursztok-planted=-Wl,--wrap=bursztok_{call}");
        }
    }
}
