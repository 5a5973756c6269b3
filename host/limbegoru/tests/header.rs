//! The numbers and texts of `include/limbegoru.h` are those of this crate. The structs and functions of the two are
//! compared by `tests/header.py`.

use limbegoru::{calls, Mode, Refusal, ALIGN_MAX, ALIGN_MIN, LIMIT_MAX, NODE_WORDS_MAX, VERSION};

/// The header, with single spaces.
fn header() -> String {
    let path = format!("{}/../../include/limbegoru.h", env!("CARGO_MANIFEST_DIR"));
    let text = std::fs::read_to_string(&path).unwrap_or_else(|error| panic!("{path}: {error}"));
    text.split_whitespace().collect::<Vec<_>>().join(" ")
}

/// What stands in the header behind the one text, up to the other.
fn behind<'h>(header: &'h str, text: &str, end: char) -> &'h str {
    let mut found = header.split(text).skip(1);
    let rest = found.next().unwrap_or_else(|| panic!("the header has no {text}"));
    assert!(found.next().is_none(), "the header has {text} twice");
    rest.split(end).next().unwrap_or("")
}

/// The number that the header gives to a name.
fn number(header: &str, name: &str) -> Option<u64> {
    behind(header, &format!(" {name} = "), ' ').trim_end_matches(',').parse().ok()
}

/// The number that the header defines a constant as.
fn constant(header: &str, name: &str) -> Option<u64> {
    behind(header, &format!("#define {name} UINT64_C("), ')').parse().ok()
}

#[test]
fn answers() {
    let header = header();
    let names = ["OVERLAP", "NONE", "FULL", "REQUEST", "SET_UP", "DAMAGED", "IN_BOTH"];
    assert_eq!((names.len(), header.matches("case LG_ANSWER_").count()), (Refusal::ALL.len(), Refusal::ALL.len() + 1));
    assert_eq!(number(&header, "LG_ANSWER_OK"), Some(0));
    for (name, refusal) in names.into_iter().zip(Refusal::ALL) {
        assert_eq!(number(&header, &format!("LG_ANSWER_{name}")), Some(refusal.number()));
        assert_eq!(behind(&header, &format!("case LG_ANSWER_{name}: return \""), '"'), refusal.to_string());
    }
}

#[test]
fn modes() {
    let header = header();
    let modes = [("NONE", Mode::None), ("LOW", Mode::Low), ("HIGH", Mode::High), ("ENTIRE", Mode::Entire)];
    for (name, mode) in modes {
        assert_eq!(number(&header, &format!("LG_MODE_{name}")), Some(mode.number()));
    }
}

#[test]
fn constants() {
    let header = header();
    assert_eq!(constant(&header, "LG_LIMIT_MAX"), Some(LIMIT_MAX));
    assert_eq!(constant(&header, "LG_ALIGN_MIN"), Some(ALIGN_MIN));
    assert_eq!(constant(&header, "LG_ALIGN_MAX"), Some(ALIGN_MAX));
    assert_eq!(constant(&header, "LG_NODE_WORDS_MAX"), Some(NODE_WORDS_MAX as u64));
    assert_eq!((constant(&header, "LG_VERSION"), calls::version()), (Some(VERSION), VERSION));
}
