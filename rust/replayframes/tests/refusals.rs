//! Every code of the exported functions has a name and a text here, and no name has a code that there is not.
use replayframes::Refusal;
use std::collections::BTreeSet;
use std::fs;

/// The text of a file of the repository.
fn source(file: &str) -> String {
    let path = format!("{}/../../{file}", env!("CARGO_MANIFEST_DIR"));
    fs::read_to_string(&path).unwrap_or_else(|error| panic!("{path}: {error}"))
}

/// The number at the end of a line such as `name: u32 = 7;` or `name => 7,`.
fn last_number(line: &str) -> Option<u32> {
    line.trim_end_matches([';', ',']).rsplit(' ').next()?.parse().ok()
}

/// The codes that the sources of the exported functions have, but for 0, which is no refusal.
fn codes() -> BTreeSet<u32> {
    let named = source("crates/codes/src/lib.rt");
    let named = named.lines().filter(|line| line.starts_with("pub const RF_")).map(last_number);
    let config = source("crates/config_codes/src/lib.rt");
    let config = config.lines().filter(|line| line.contains("Reason::")).filter_map(last_number).map(Some);
    named.chain(config).map(|code| code.expect("a number")).filter(|&code| code != 0).collect()
}

#[test]
fn every_code_has_a_name() {
    let names: BTreeSet<u32> = Refusal::ALL.iter().map(|refusal| refusal.code()).collect();
    assert_eq!(names, codes());
    assert_eq!(names.len(), Refusal::ALL.len());
}

#[test]
fn codes_go_there_and_back() {
    for &refusal in Refusal::ALL {
        assert_eq!(Refusal::from_code(refusal.code()), refusal);
    }
    for code in (0..200).chain([u32::MAX]) {
        let refusal = Refusal::from_code(code);
        assert_eq!(refusal.code(), code);
        assert_eq!(refusal == Refusal::Unknown(code), !Refusal::ALL.contains(&refusal));
    }
}

#[test]
fn every_text_says_what_was_wrong_and_what_to_do() {
    let texts: BTreeSet<String> = Refusal::ALL.iter().map(Refusal::to_string).collect();
    assert_eq!(texts.len(), Refusal::ALL.len(), "two refusals have one text");
    for text in texts.into_iter().chain([Refusal::Unknown(1000).to_string()]) {
        let sentences: Vec<&str> = text.split(". ").collect();
        assert_eq!(sentences.len(), 2, "{text}");
        assert!(sentences.iter().all(|sentence| sentence.starts_with(char::is_uppercase)), "{text}");
        assert!(text.ends_with('.'), "{text}");
    }
}
