//! Finds or makes the proved static library and links it.

use std::env;
use std::fs::{self, File};
use std::io::{self, Read};
use std::path::{Path, PathBuf};
use std::process::{Command, Stdio, exit};

const ARCHIVE: &str = "libcagvost.a";

/// What every archive begins with.
const MAGIC: [u8; 8] = *b"!<arch>\n";

fn main() {
    println!("cargo::rerun-if-env-changed=CAGVOST_LIB");
    let folder = match env::var_os("CAGVOST_LIB") {
        Some(named) => ready_made(Path::new(&named)),
        None => prove_and_build(),
    };
    println!("cargo::rustc-link-search=native={}", folder.display());
    println!("cargo::rustc-link-lib=static=cagvost");
}

/// The folder that CAGVOST_LIB names. If it has no archive, nothing else is linked in its place.
fn ready_made(named: &Path) -> PathBuf {
    let archive = named.join(ARCHIVE);
    println!("cargo::rerun-if-changed={}", archive.display());
    if !is_archive(&archive) {
        fail(&format!(
            "CAGVOST_LIB is '{}', where there is no archive {ARCHIVE}: let it name the folder that has the \
             built library, or unset it to have the library proved and built here",
            named.display()
        ));
    }
    fs::canonicalize(named).unwrap_or_else(|e| fail(&format!("{}: {e}", named.display())))
}

fn is_archive(path: &Path) -> bool {
    let mut start = [0; MAGIC.len()];
    let read = File::open(path).and_then(|mut file| file.read_exact(&mut start));
    read.is_ok() && start == MAGIC
}

/// Has the toolchain prove the crates and build the archive, and takes a copy of it, while no other
/// build of this clone runs. Cargo reads this script's standard output, so what `rt` says goes to
/// standard error.
fn prove_and_build() -> PathBuf {
    let root = folder("CARGO_MANIFEST_DIR").join("..");
    for source in sources(&root) {
        println!("cargo::rerun-if-changed={}", source.display());
    }
    let out = folder("OUT_DIR");
    let status = Command::new("sh")
        .arg(root.join("commands/staticlib.sh"))
        .arg(&out)
        .stdout(Stdio::from(io::stderr()))
        .status();
    match status {
        Ok(status) if status.success() => out,
        Ok(status) => fail(&format!(
            "the library was not proved and built ({status}): the end of the output above says why"
        )),
        Err(e) => fail(&format!("cannot start `sh`: {e}")),
    }
}

/// What the archive is made of, without what `rt` makes beside it, which changes with each build.
fn sources(root: &Path) -> Vec<PathBuf> {
    let mut sources = vec![root.join("crates.txt")];
    let crates =
        fs::read_dir(root.join("crates")).unwrap_or_else(|e| fail(&format!("crates/: {e}")));
    for entry in crates.flatten() {
        let parts = ["src", "specs", "proofs"].map(|part| entry.path().join(part));
        sources.extend(parts.into_iter().filter(|part| part.exists()));
    }
    sources
}

fn folder(variable: &str) -> PathBuf {
    PathBuf::from(env::var_os(variable).expect("cargo sets this variable"))
}

fn fail(message: &str) -> ! {
    println!("cargo::error={message}");
    exit(1)
}
