// Finds the static library of the proved calls: where GALDOVAR_LIB_DIR says, or by `tools/static_lib`.
use std::env;
use std::fs;
use std::path::{Path, PathBuf};
use std::process::{exit, Command};
use std::time::Instant;

const LIBRARY: &str = "libgateway.a";

fn main() {
    println!("cargo:rerun-if-env-changed=GALDOVAR_LIB_DIR");
    let dir = match env::var_os("GALDOVAR_LIB_DIR") {
        Some(dir) if !dir.is_empty() => given(Path::new(&dir)),
        _ => proved(),
    };
    println!("cargo:rustc-link-search=native={}", dir.display());
    println!("cargo:rustc-link-lib=static=gateway");
}

/// The directory that the host names, used as it stands.
fn given(dir: &Path) -> PathBuf {
    let library = dir.join(LIBRARY);
    println!("cargo:rerun-if-changed={}", library.display());
    if !library.is_file() {
        fail(format!("GALDOVAR_LIB_DIR is set, but there is no file {}", library.display()));
    }
    fs::canonicalize(dir).expect("the directory of GALDOVAR_LIB_DIR can be read")
}

/// The library proved and built by the kit, written to where cargo keeps what this script makes.
fn proved() -> PathBuf {
    warn_of_other_targets();
    let root = Path::new(&env::var_os("CARGO_MANIFEST_DIR").expect("cargo sets it")).join("..");
    println!("cargo:rerun-if-changed={}", root.join("crates.txt").display());
    for part in sources(&root.join("crates")) {
        println!("cargo:rerun-if-changed={}", part.display());
    }
    let out = PathBuf::from(env::var_os("OUT_DIR").expect("cargo sets it"));
    let start = Instant::now();
    let run = Command::new(root.join("tools").join("static_lib")).arg("--to").arg(&out).output();
    let run = run.unwrap_or_else(|e| {
        fail(format!(
            "GALDOVAR_LIB_DIR is not set, so `tools/static_lib` has to build {}, and it does not start ({}).\n\
             It needs Python 3 and the Rattle kit on the PATH. Or set GALDOVAR_LIB_DIR to the directory of a {} built elsewhere.",
            LIBRARY, e, LIBRARY
        ))
    });
    if !run.status.success() {
        let (out, err) =
            (String::from_utf8_lossy(&run.stdout), String::from_utf8_lossy(&run.stderr));
        fail(format!("{}{}`tools/static_lib` failed ({})", out, err, run.status));
    }
    println!(
        "cargo:warning={} was proved and built by `tools/static_lib`, in {} s, since GALDOVAR_LIB_DIR is not set. \
         From nothing that takes several minutes. It is done again when the source of a crate changes",
        LIBRARY,
        start.elapsed().as_secs()
    );
    out
}

/// The folders of the crates' source and proofs. What the kit keeps beside them is not looked at.
fn sources(crates: &Path) -> Vec<PathBuf> {
    let entries = fs::read_dir(crates).expect("the folder of the crates can be read");
    let folders = entries.map(|e| e.expect("an entry of that folder can be read").path());
    let parts = folders.flat_map(|f| ["src", "specs", "proofs"].map(|part| f.join(part)));
    let mut found: Vec<PathBuf> = parts.filter(|part| part.is_dir()).collect();
    found.sort();
    found
}

/// Ends the build with a message alone.
fn fail(message: String) -> ! {
    eprintln!("{}", message);
    exit(1);
}

/// The kit's library holds machine code for x86-64 Linux; a linker's own message about that is hard to read.
fn warn_of_other_targets() {
    let arch = env::var("CARGO_CFG_TARGET_ARCH").unwrap_or_default();
    let os = env::var("CARGO_CFG_TARGET_OS").unwrap_or_default();
    if arch != "x86_64" || os != "linux" {
        println!(
            "cargo:warning={} is for x86-64 Linux and does not link into a program for {} {}: see \
             \"On another processor\" in host/README.md",
            LIBRARY, arch, os
        );
    }
}
