//! Tells the linker where the planner library is: in the folder that YOLKGORGE_LIB_DIR names.

use std::process::Command;

fn main() {
    println!("cargo:rerun-if-env-changed=YOLKGORGE_LIB_DIR");
    println!("cargo:rerun-if-changed=build.rs");
    if let Ok(folder) = std::env::var("YOLKGORGE_LIB_DIR") {
        println!("cargo:rerun-if-changed={folder}/libyolkgorge.a");
        println!("cargo:rustc-link-search=native={folder}");
    }
    println!("cargo:rustc-link-lib=static=yolkgorge");
    println!("cargo:rustc-env=BENCH_RUSTC={}", version());
}

/// The compiler's own line about itself.
fn version() -> String {
    let compiler = std::env::var("RUSTC").unwrap_or_else(|_| "rustc".to_string());
    let line = Command::new(compiler).arg("--version").output();
    line.map(|line| String::from_utf8_lossy(&line.stdout).trim().to_string()).unwrap_or_default()
}
