//! Finds the published Rust: the folder named by the environment variable `UXT_RUST`.

use std::{env, fs, process::exit};

const PUBLISHED: [&str; 3] =
    ["remove_unused_expression.rs", "minimize_sequences.rs", "minimize_not_expression.rs"];

fn main() {
    println!("cargo:rerun-if-env-changed=UXT_RUST");
    let Ok(folder) = env::var("UXT_RUST") else {
        fail("UXT_RUST is not set: name the folder src/peephole of oxc_minifier 0.157.0");
    };
    let Ok(folder) = fs::canonicalize(&folder) else {
        fail(&format!("UXT_RUST names no folder: {folder}"));
    };
    for name in PUBLISHED {
        let path = folder.join(name);
        if !path.is_file() {
            fail(&format!("{} is not there", path.display()));
        }
        println!("cargo:rerun-if-changed={}", path.display());
    }
    println!("cargo:rustc-env=UXT_RUST={}", folder.display());
}

fn fail(why: &str) -> ! {
    eprintln!("{why}");
    exit(1)
}
