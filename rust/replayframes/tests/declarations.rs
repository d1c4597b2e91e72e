//! The functions that the crate declares are exported by the proved crates, with the same parameters in the same order.
use std::collections::BTreeMap;
use std::fs;
use std::path::{Path, PathBuf};

/// The text of a file.
fn text(path: &Path) -> String {
    fs::read_to_string(path).unwrap_or_else(|error| panic!("{}: {error}", path.display()))
}

/// The files of the exported functions.
fn exporting() -> Vec<PathBuf> {
    let crates = Path::new(env!("CARGO_MANIFEST_DIR")).join("../../crates");
    let entries = fs::read_dir(crates).expect("the folder of the proved crates");
    let folders = entries.map(|entry| entry.expect("a folder").path());
    let exporting = |folder: &PathBuf| {
        folder.file_name().map_or(false, |name| name.to_string_lossy().starts_with("replayframes"))
    };
    folders.filter(exporting).map(|folder| folder.join("src/lib.rt")).collect()
}

/// The parameters of every function that has this before its name, without what is only layout.
fn functions(text: &str, before: &str) -> BTreeMap<String, String> {
    let mut found = BTreeMap::new();
    for part in text.split(before).skip(1) {
        let (name, rest) = part.split_once('(').expect("a name and parameters");
        let (parameters, _) = rest.split_once(')').expect("the end of the parameters");
        let words: Vec<&str> = parameters.split_whitespace().collect();
        found.insert(name.to_string(), words.join(" ").trim_end_matches(',').to_string());
    }
    found
}

#[test]
fn every_declaration_is_that_of_an_exported_function() {
    let exported: BTreeMap<String, String> =
        exporting().iter().flat_map(|file| functions(&text(file), "pub extern \"C\" fn ")).collect();
    let declared = text(&Path::new(env!("CARGO_MANIFEST_DIR")).join("src/ffi.rs"));
    let (_, declared) = declared.split_once("\nexported! {").expect("the list of declarations");
    let declared = functions(declared, "    fn ");
    assert!(declared.contains_key("rf_start") && declared.contains_key("rf_run"), "{declared:?}");
    for (name, parameters) in declared {
        assert_eq!(exported.get(&name), Some(&parameters), "{name}");
    }
}
