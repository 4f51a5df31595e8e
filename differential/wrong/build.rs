//! Makes the wrong ports: for each file in `edits`, a copy of the port's source with that edit.
//!
//! An edit has a line `# why` that says what is wrong, a line `against:` that names what must find
//! it, and groups of `file:`, `old:` and `new:`; `old` is part of one line and occurs once in the
//! file. The port must find each; the oracle those that answer an accepted tree or the Derived
//! question wrongly; the fixed list, which has no such question, those of accepted trees.

use std::path::{Path, PathBuf};
use std::{env, fs};

fn main() {
    let root = PathBuf::from(env::var("CARGO_MANIFEST_DIR").expect("set by cargo"));
    let out = PathBuf::from(env::var("OUT_DIR").expect("set by cargo"));
    let (edits, port) = (root.join("edits"), root.join("../port/src"));
    println!("cargo:rerun-if-changed={}", edits.display());
    println!("cargo:rerun-if-changed={}", port.display());
    let (mut modules, mut items) = (String::new(), String::new());
    let paths = sorted(&edits);
    assert!(!paths.is_empty(), "{} has no edits", edits.display());
    for path in paths {
        let name = stem(&path);
        let edit = Edit::read(&path);
        edit.apply(&port, &out.join(&name));
        let lib = out.join(&name).join("lib.rs");
        modules += &format!("#[allow(warnings, clippy::all)]\n#[path = {lib:?}]\nmod {name};\n");
        let Edit { why, oracle, list, .. } = edit;
        items += &format!("    wrong!({name}, {why:?}, {oracle}, {list}),\n");
    }
    let all = format!("{modules}\npub fn all() -> Vec<Wrong> {{\n    vec![\n{items}    ]\n}}\n");
    fs::write(out.join("all.rs"), all).expect("written");
}

fn sorted(folder: &Path) -> Vec<PathBuf> {
    let entries = fs::read_dir(folder).expect("a folder");
    let mut paths: Vec<PathBuf> = entries.map(|entry| entry.expect("an entry").path()).collect();
    paths.sort();
    paths
}

fn stem(path: &Path) -> String {
    path.file_stem().expect("a name").to_string_lossy().replace('-', "_")
}

struct Edit {
    why: String,
    oracle: bool,
    list: bool,
    /// File, old and new.
    changes: Vec<[String; 3]>,
}

impl Edit {
    fn read(path: &Path) -> Edit {
        let (why, changes) = (String::new(), Vec::new());
        let mut edit = Edit { why, oracle: false, list: false, changes };
        for line in fs::read_to_string(path).expect("a text").lines() {
            let (word, rest) = line.split_once(' ').unwrap_or((line, ""));
            let last = edit.changes.last_mut();
            match (word, last) {
                ("#", _) => edit.why = rest.to_string(),
                ("against:", _) => edit.against(rest),
                ("file:", _) => edit.changes.push([rest.to_string(), String::new(), String::new()]),
                ("old:", Some(change)) => change[1] = rest.to_string(),
                ("new:", Some(change)) => change[2] = rest.to_string(),
                _ => panic!("{}: {line}", path.display()),
            }
        }
        edit
    }

    fn against(&mut self, names: &str) {
        (self.oracle, self.list) = match names {
            "port" => (false, false),
            "port, oracle" => (true, false),
            "port, oracle, list" => (true, true),
            _ => panic!("{}: against {names}", self.why),
        };
    }

    fn apply(&self, port: &Path, into: &Path) {
        fs::create_dir_all(into).expect("a folder");
        for path in sorted(port) {
            let name = path.file_name().expect("a name").to_string_lossy();
            let mut source = fs::read_to_string(&path).expect("a text");
            for [file, old, new] in &self.changes {
                if format!("src/{name}") == *file {
                    assert_eq!(source.matches(old).count(), 1, "{file} has not once: {old}");
                    source = source.replace(old, new);
                }
            }
            fs::write(into.join(&*name), source).expect("written");
        }
    }
}
