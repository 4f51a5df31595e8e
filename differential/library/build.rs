//! Finds the proved library: `libuxt.a` in the folder named by the environment variable `UXT_LIBRARY`.

use std::{env, fs, process::exit};

fn main() {
    println!("cargo:rerun-if-env-changed=UXT_LIBRARY");
    let Ok(folder) = env::var("UXT_LIBRARY") else {
        fail("UXT_LIBRARY is not set: name target/staticlib, where `./uxt lib` puts the proved libuxt.a");
    };
    let Ok(folder) = fs::canonicalize(&folder) else {
        fail(&format!("UXT_LIBRARY names no folder: {folder}"));
    };
    let archive = folder.join("libuxt.a");
    if !archive.is_file() {
        fail(&format!("{} is not there", archive.display()));
    }
    println!("cargo:rerun-if-changed={}", archive.display());
    println!("cargo:rustc-link-search=native={}", folder.display());
    println!("cargo:rustc-link-lib=static=uxt");
}

fn fail(why: &str) -> ! {
    eprintln!("{why}");
    exit(1)
}
