//! Links the proved archive into the program, where SAMULSTO_ARCHIVE names one. Without it, and on a machine whose code
//! the archive is not, the program is built all the same and says what it can't do.

use std::env;

fn main() {
    println!("cargo:rustc-check-cfg=cfg(archive)");
    println!("cargo:rerun-if-env-changed=SAMULSTO_ARCHIVE");
    let machine = env::var("CARGO_CFG_TARGET_ARCH").unwrap_or_default();
    if let (Ok(path), "x86_64") = (env::var("SAMULSTO_ARCHIVE"), machine.as_str()) {
        println!("cargo:rerun-if-changed={path}");
        println!("cargo:rustc-link-arg-bins={path}");
        println!("cargo:rustc-cfg=archive");
    }
}
