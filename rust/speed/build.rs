//! Notes which compiler the programs are built with, for the head of the report.
use std::env;
use std::process::Command;

fn main() {
    let rustc = env::var("RUSTC").expect("cargo names the compiler");
    let said = Command::new(rustc).arg("--version").output().expect("the compiler starts").stdout;
    println!("cargo:rustc-env=SPEED_RUSTC={}", String::from_utf8_lossy(&said).trim());
    println!("cargo:rerun-if-changed=build.rs");
}
