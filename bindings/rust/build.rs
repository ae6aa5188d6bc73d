//! Links libthurafeqa.a. It is the one in the folder that THURAFEQA_LIB_DIR names, from here if the name is relative; else that of the
//! bundle or installation that this crate came in; else that of target/lib in the repository, which `./library` proves and builds if
//! it is missing or not built from the crates as they are.

use std::env;
use std::path::{absolute, Path, PathBuf};
use std::process::{exit, Command, Stdio};

const ARCHIVE: &str = "libthurafeqa.a";

/// The library's name for a target of rustc.
fn target(triple: &str) -> Option<&'static str> {
    Some(match triple {
        "x86_64-unknown-linux-gnu" | "x86_64-unknown-linux-musl" => "x86_64-linux-gnu",
        "aarch64-unknown-linux-gnu" | "aarch64-unknown-linux-musl" => "aarch64-linux-gnu",
        "riscv64gc-unknown-linux-gnu" | "riscv64gc-unknown-linux-musl" => "riscv64-linux-gnu",
        "x86_64-pc-windows-gnu" | "x86_64-pc-windows-gnullvm" => "x86_64-windows-gnu",
        "aarch64-apple-darwin" => "aarch64-apple-darwin",
        _ => return None,
    })
}

fn fail(text: &str) -> ! {
    eprintln!("thurafeqa: {text}");
    exit(1)
}

/// A command of the repository ends well. What it prints is shown where the build fails, or by `cargo build -vv`.
fn succeeds(root: &Path, words: &[&str]) -> bool {
    let status = Command::new(root.join("library")).args(words).current_dir(root).stdin(Stdio::null()).status();
    status.is_ok_and(|status| status.success())
}

/// The folder of this package.
fn package() -> PathBuf {
    PathBuf::from(env::var_os("CARGO_MANIFEST_DIR").unwrap_or_default())
}

/// The folder of the archive that came with this crate, which is in share/thurafeqa/rust there, in a bundle or an installation.
fn bundled() -> Option<PathBuf> {
    let package = package();
    let prefix = package.ancestors().nth(3).filter(|_| package.ends_with("share/thurafeqa/rust"))?;
    Some(prefix.join("lib"))
}

/// The folder of the archive that `./library` builds for a target.
fn built(triple: &str) -> PathBuf {
    let name = target(triple).unwrap_or_else(|| {
        fail(&format!("./library builds nothing for {triple}; THURAFEQA_LIB_DIR can name a folder with a {ARCHIVE} for it"))
    });
    let package = package();
    let root = package.ancestors().nth(2).unwrap_or(&package);
    let folder = root.join("target/lib").join(name);
    for source in ["crates", "crates.txt", "library"] {
        println!("cargo::rerun-if-changed={}", root.join(source).display());
    }
    if !succeeds(root, &["--current", name]) && !succeeds(root, &[name]) {
        fail(&format!(
            "there is no {} built from the crates as they are, and ./library {name} does not build it; \
             THURAFEQA_LIB_DIR can name a folder with one",
            folder.join(ARCHIVE).display()
        ));
    }
    folder
}

fn main() {
    println!("cargo::rerun-if-env-changed=THURAFEQA_LIB_DIR");
    let folder = match env::var_os("THURAFEQA_LIB_DIR") {
        Some(named) if !named.is_empty() => absolute(&named).unwrap_or_else(|_| fail("THURAFEQA_LIB_DIR names no folder")),
        _ => bundled().unwrap_or_else(|| built(&env::var("TARGET").unwrap_or_default())),
    };
    let archive = folder.join(ARCHIVE);
    if !archive.is_file() {
        fail(&format!("there is no {}", archive.display()));
    }
    println!("cargo::rerun-if-changed={}", archive.display());
    println!("cargo::rustc-link-search=native={}", folder.display());
    println!("cargo::rustc-link-lib=static=thurafeqa");
}
