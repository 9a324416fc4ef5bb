//! Finds libkr.a: in the folder that KR_LIB_DIR names, or where pkg-config says.
use std::process::Command;

fn main() {
    println!("cargo:rerun-if-env-changed=KR_LIB_DIR");
    let of_pkg_config = || {
        let out = Command::new("pkg-config").args(["--variable=libdir", "kr"]).output().ok()?;
        out.status.success().then(|| String::from_utf8_lossy(&out.stdout).trim().to_owned())
    };
    let dir = std::env::var("KR_LIB_DIR").ok().or_else(of_pkg_config);
    let dir = dir.expect("KR_LIB_DIR names the folder of libkr.a, where pkg-config doesn't know kr");
    println!("cargo:rerun-if-changed={dir}/libkr.a");
    println!("cargo:rustc-link-search=native={dir}");
    println!("cargo:rustc-link-lib=static=kr");
}
