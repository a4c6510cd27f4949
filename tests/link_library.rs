//! The build script of the comparison and of the benchmark: tells the linker
//! where the library lies.

use std::path::Path;

fn main() {
    println!("cargo:rerun-if-env-changed=HOURLOG_LIB");
    let folder = std::env::var("HOURLOG_LIB")
        .expect("set HOURLOG_LIB to the folder that holds libhourlog_c.a");
    let archive = Path::new(&folder).join("libhourlog_c.a");
    assert!(
        archive.is_file(),
        "HOURLOG_LIB: there is no {}",
        archive.display()
    );
    println!("cargo:rerun-if-changed={}", archive.display());
    println!("cargo:rustc-link-search=native={folder}");
    println!("cargo:rustc-link-lib=static=hourlog_c");
}
