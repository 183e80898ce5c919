//! Takes the four published files, byte for byte, from the folder that RUNE_SRC names (docs/src beside the repository where it is not set), for the library to
//! compile them from where they are written to.
//!
//! The feature `popping` makes one edit, and JUDGE_FAULT=N the fault of that number in faults.txt. Each replaces a text that stands exactly once.
use std::path::{Path, PathBuf};
use std::{env, fs};

const FILES: [(&str, &str); 4] = [
    ("src--src--compile--ir.rs.txt", "ir.rs"),
    ("src--src--compile--ir--eval.rs.txt", "eval.rs"),
    ("src--src--compile--ir--interpreter.rs.txt", "interpreter.rs"),
    ("src--src--compile--ir--scopes.rs.txt", "scopes.rs"),
];

struct Edit {
    file: String,
    old: String,
    new: String,
}

/// Document 01: a loop that catches a break drops every scope opened since its own.
fn popping() -> Edit {
    let old = "        if self.scopes.pop().is_none() {";
    Edit { file: "scopes.rs".into(), old: old.into(), new: format!("        self.scopes.truncate(guard.length + 1);\n{old}") }
}

/// Entry N of faults.txt: lines of the form `N FILE: OLD ==> NEW`.
fn fault(number: &str) -> Edit {
    let listed = fs::read_to_string("faults.txt").expect("faults.txt");
    let line = listed.lines().find(|line| line.split(' ').next() == Some(number)).unwrap_or_else(|| panic!("faults.txt has no {number}"));
    let (file, edit) = line.split_once(": ").expect("a file, a colon and an edit");
    let (old, new) = edit.split_once(" ==> ").expect("an old and a new text");
    Edit { file: file.split(' ').nth(1).expect("a file").into(), old: old.into(), new: new.into() }
}

fn edits() -> Vec<Edit> {
    let popping = env::var_os("CARGO_FEATURE_POPPING").map(|_| popping());
    let fault = env::var("JUDGE_FAULT").ok().filter(|number| !number.is_empty()).map(|number| fault(&number));
    popping.into_iter().chain(fault).collect()
}

fn main() {
    println!("cargo:rerun-if-env-changed=RUNE_SRC");
    println!("cargo:rerun-if-env-changed=JUDGE_FAULT");
    println!("cargo:rerun-if-changed=faults.txt");
    println!("cargo:rerun-if-changed=src/standins/compiler.rs");
    let root = PathBuf::from(env::var_os("CARGO_MANIFEST_DIR").expect("cargo")).join("../..");
    let source = env::var_os("RUNE_SRC").map_or_else(|| root.join("../shared/docs/src"), PathBuf::from);
    let out = PathBuf::from(env::var_os("OUT_DIR").expect("cargo"));
    let edits = edits();
    for (from, to) in FILES {
        let from = source.join(from);
        println!("cargo:rerun-if-changed={}", from.display());
        let text =
            fs::read_to_string(&from).unwrap_or_else(|error| panic!("{}: {error}. RUNE_SRC names the folder of the published files", from.display()));
        write(&out.join(to), &edited(text, to, &edits));
    }
    write(&out.join("compiler.rs"), &fs::read_to_string("src/standins/compiler.rs").expect("the stand-in"));
    write(&out.join("published.rs"), "#[path = \"ir.rs\"]\npub(crate) mod ir;\n");
}

fn edited(text: String, file: &str, edits: &[Edit]) -> String {
    edits.iter().filter(|edit| edit.file == file).fold(text, |text, edit| {
        assert_eq!(text.matches(&edit.old).count(), 1, "{file}: '{}' does not stand exactly once", edit.old);
        text.replacen(&edit.old, &edit.new, 1)
    })
}

fn write(path: &Path, text: &str) {
    fs::write(path, text).unwrap_or_else(|error| panic!("{}: {error}", path.display()));
}
