//! Has `rt` prove and build the archive, and links it.

use std::path::{Path, PathBuf};
use std::process::{exit, Command};
use std::{env, fs};

const NO_RT: &str = "\
the command `rt` was not found. It proves the code and builds the archive that this crate links.
Install the Rattle toolchain and put its bin/ folder into PATH; or build the archive where it is
(`rt lib` in crates/elab of the repository writes out/libelab.a there) and name the file in the
environment variable SAMULSTO_ARCHIVE.";

const NOT_X86_64: &str = "\
the archive is x86-64 code for Linux and links into nothing else. Build for it, as with
`cargo build --target x86_64-unknown-linux-gnu`; on another processor that takes a cross compiler
as its linker (Debian: gcc-x86-64-linux-gnu with libc6-dev-amd64-cross), and qemu-x86_64 runs it.";

fn main() {
    println!("cargo:rerun-if-changed=build.rs");
    println!("cargo:rerun-if-env-changed=SAMULSTO_ARCHIVE");
    println!("cargo:rerun-if-env-changed=PATH");
    let target = |part: &str| env::var(format!("CARGO_CFG_TARGET_{part}")).unwrap_or_default();
    if target("ARCH") != "x86_64" || target("OS") != "linux" {
        stop(NOT_X86_64);
    }
    let archive = match env::var_os("SAMULSTO_ARCHIVE") {
        Some(path) => given(path.into()),
        None => built(),
    };
    let here = PathBuf::from(env::var_os("OUT_DIR").unwrap_or_default());
    if let Err(error) = fs::copy(&archive, here.join("libelab.a")) {
        stop(&format!("{} can't be copied: {error}", archive.display()));
    }
    println!("cargo:rustc-link-search=native={}", here.display());
    println!("cargo:rustc-link-lib=static=elab");
}

fn given(archive: PathBuf) -> PathBuf {
    println!("cargo:rerun-if-changed={}", archive.display());
    archive
}

/// The archive as `rt` builds it from the repository around this crate.
fn built() -> PathBuf {
    let own = PathBuf::from(env::var_os("CARGO_MANIFEST_DIR").unwrap_or_default());
    let root = own.ancestors().nth(2).unwrap_or(Path::new("/"));
    println!("cargo:rerun-if-changed={}", root.join("crates.txt").display());
    for crates in fs::read_dir(root.join("crates")).into_iter().flatten().flatten() {
        for part in ["src", "specs", "proofs"].map(|part| crates.path().join(part)) {
            if part.exists() {
                println!("cargo:rerun-if-changed={}", part.display());
            }
        }
    }
    let elab = root.join("crates/elab");
    match Command::new("rt")
        .arg("lib")
        .current_dir(&elab)
        .output()
    {
        Ok(output) if output.status.success() => elab.join("out/libelab.a"),
        Ok(output) => stop(&format!(
            "`rt lib` in crates/elab failed:\n{}{}",
            String::from_utf8_lossy(&output.stdout),
            String::from_utf8_lossy(&output.stderr)
        )),
        Err(_) => stop(NO_RT),
    }
}

fn stop(message: &str) -> ! {
    eprintln!("samulsto: {message}");
    exit(1)
}
