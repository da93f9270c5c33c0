//! Links the static library and the allocator that it needs: those of the folder `NALGEBRA_SPARSE_LIB_DIR`, or else,
//! inside a clone of the repository, those that `bindings/link-flags` names.

use std::env;
use std::path::Path;
use std::process::Command;

fn main() {
    println!("cargo:rerun-if-env-changed=NALGEBRA_SPARSE_LIB_DIR");
    for flag in flags().split_whitespace() {
        if let Some(folder) = flag.strip_prefix("-L") {
            println!("cargo:rustc-link-search=native={folder}");
            println!("cargo:rerun-if-changed={folder}/libsparse_c.a");
        } else if let Some(library) = flag.strip_prefix("-l") {
            println!("cargo:rustc-link-lib=static={library}");
        }
    }
}

fn flags() -> String {
    if let Ok(folder) = env::var("NALGEBRA_SPARSE_LIB_DIR") {
        return format!("-L{folder} -lsparse_c -llibc_c");
    }
    let script = concat!(env!("CARGO_MANIFEST_DIR"), "/../link-flags");
    assert!(Path::new(script).exists(), "set NALGEBRA_SPARSE_LIB_DIR to PREFIX/lib, which tools/install PREFIX of the repository fills");
    let output = Command::new(script).output().expect("bindings/link-flags must run");
    assert!(output.status.success(), "{}", String::from_utf8_lossy(&output.stderr));
    String::from_utf8(output.stdout).expect("flags are text")
}
