//! Where GALDOVAR_LIB_DIR names the folder of libgateway.a, the port is linked in, and the program can compare.

fn main() {
    println!("cargo:rerun-if-env-changed=GALDOVAR_LIB_DIR");
    println!("cargo:rustc-check-cfg=cfg(port)");
    if let Ok(dir) = std::env::var("GALDOVAR_LIB_DIR") {
        println!("cargo:rerun-if-changed={}/libgateway.a", dir);
        println!("cargo:rustc-link-search=native={}", dir);
        println!("cargo:rustc-link-lib=static=gateway");
        println!("cargo:rustc-cfg=port");
    }
}
