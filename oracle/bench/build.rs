//! Links the libgateway.a of the folder GALDOVAR_LIB_DIR, and asks whether the compiler has `std::hint::black_box` (1.66).

use std::process::Command;

fn main() {
    println!("cargo:rerun-if-env-changed=GALDOVAR_LIB_DIR");
    println!("cargo:rustc-check-cfg=cfg(has_black_box)");
    let dir = std::env::var("GALDOVAR_LIB_DIR").expect("GALDOVAR_LIB_DIR names the folder of libgateway.a");
    println!("cargo:rerun-if-changed={dir}/libgateway.a");
    println!("cargo:rustc-link-search=native={dir}");
    println!("cargo:rustc-link-lib=static=gateway");
    let compiler = std::env::var("RUSTC").unwrap();
    let said = String::from_utf8(Command::new(compiler).arg("--version").output().unwrap().stdout).unwrap();
    println!("cargo:rustc-env=BENCH_COMPILER={}", said.trim());
    let minor = said.split('.').nth(1).and_then(|m| m.parse::<u32>().ok()).unwrap_or(0);
    if minor >= 66 {
        println!("cargo:rustc-cfg=has_black_box");
    }
}
