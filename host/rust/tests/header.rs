//! This crate against `storage_unit.h`: numbers, texts and version are those of the header.

use std::collections::BTreeMap;

use storage_unit::boundary::*;
use storage_unit::{
    ACCESS_MAXIMUM, ChannelRefusal, Reason, Rule, STORAGE_MAXIMUM, STORAGE_MULTIPLE, Settings,
    VERSION, key, version,
};

const HEADER: &str = include_str!("../../include/storage_unit.h");
const NAME: &str = "STORAGE_UNIT_";

/// The numbers that the header defines, by their names without [`NAME`].
fn numbers() -> BTreeMap<&'static str, u64> {
    let lines = HEADER.lines();
    let defined = lines.filter_map(|line| line.strip_prefix("#define ")?.strip_prefix(NAME));
    defined.filter_map(number).collect()
}

/// The name and the number of a definition, if it is that of a number.
fn number(definition: &str) -> Option<(&str, u64)> {
    let mut words = definition.split_whitespace();
    let name = words.next()?;
    let digits = words.next()?.strip_suffix('u')?;
    let number = match digits.strip_prefix("0x") {
        Some(digits) => u64::from_str_radix(digits, 16),
        None => digits.parse(),
    };
    Some((name, number.ok()?))
}

/// The header's name of a reason.
fn name(reason: Reason) -> &'static str {
    match reason {
        Reason::Configuration => "CONFIGURATION",
        Reason::Record => "RECORD",
        Reason::Operand => "OPERAND",
        Reason::Operation => "OPERATION",
        Reason::Privileged => "PRIVILEGED",
        Reason::SpecialOperation => "SPECIAL_OPERATION",
        Reason::Specification => "SPECIFICATION",
        Reason::Addressing => "ADDRESSING",
        Reason::Protection => "PROTECTION",
    }
}

/// The header's name of a channel's refusal. The first is that of a reason too.
fn channel_name(refusal: ChannelRefusal) -> &'static str {
    match refusal {
        ChannelRefusal::Configuration => "CONFIGURATION",
        ChannelRefusal::Key => "CHANNEL_KEY",
        ChannelRefusal::Grant => "GRANT",
        ChannelRefusal::Program => "PROGRAM",
        ChannelRefusal::Protection => "FORBIDDEN",
        ChannelRefusal::Device => "DEVICE",
        ChannelRefusal::UsedUp => "GRANT_USED",
    }
}

/// Every number of the header is compared, and there are no others.
#[test]
fn numbers_are_those_of_the_header() {
    let [two_k, four_k] = [false, true].map(|four_k| Settings {
        four_k,
        extensions: false,
    });
    let mut expected: BTreeMap<&str, u64> = BTreeMap::from([
        ("VERSION_MAJOR", VERSION.major.into()),
        ("VERSION_MINOR", VERSION.minor.into()),
        ("VERSION_PATCH", VERSION.patch.into()),
        ("4K", FOUR_K.into()),
        ("EXTENSIONS", EXTENSIONS.into()),
        ("FETCH", FETCH.into()),
        ("STORE", STORE.into()),
        ("ISK", ISK.into()),
        ("SSK", SSK.into()),
        ("RRB", RRB.into()),
        ("ISKE", ISKE.into()),
        ("SSKE", SSKE.into()),
        ("RRBE", RRBE.into()),
        ("SET_PREFIX", SET_PREFIX.into()),
        ("STORE_PREFIX", STORE_PREFIX.into()),
        ("NUMBER_COMPLETED", 0),
        ("RULE_NONE", 0),
        ("RULE_ZERO", Rule::Zero.number().into()),
        ("RULE_PREFIX", Rule::Prefix.number().into()),
        ("RULE_UNCHANGED", Rule::Unchanged.number().into()),
        ("STORAGE_MULTIPLE", STORAGE_MULTIPLE as u64),
        ("STORAGE_MAXIMUM", STORAGE_MAXIMUM as u64),
        ("ACCESS_MAXIMUM", ACCESS_MAXIMUM as u64),
        ("KEY_UNIT_2K", two_k.key_unit() as u64),
        ("KEY_UNIT_4K", four_k.key_unit() as u64),
        ("KEY_ACCESS_CONTROL", key::ACCESS_CONTROL.into()),
        ("KEY_FETCH_PROTECTION", key::FETCH_PROTECTION.into()),
        ("KEY_REFERENCE", key::REFERENCE.into()),
        ("KEY_CHANGE", key::CHANGE.into()),
        ("RECORD_LENGTH", RECORD_LENGTH as u64),
        ("RECORDS_LENGTH", RECORDS_LENGTH as u64),
        ("PSW_KEY_AT", PSW_KEY_AT as u64),
        ("CONTROLS_AT", CONTROLS_AT as u64),
        ("CODE_AT", CODE_AT as u64),
        ("RESERVED_AT", RESERVED_AT as u64),
        ("PREFIX_AT", PREFIX_AT as u64),
        ("PROBLEM", PROBLEM.into()),
        ("LOW_PROTECTION", LOW_PROTECTION.into()),
        ("KEY_CONTROL", KEY_CONTROL.into()),
        ("PLAY_MORE", PLAY_MORE.into()),
        ("PLAY_ENDED", PLAY_ENDED.into()),
        ("PLAY_ROOM", PLAY_ROOM.into()),
        ("PLAY_LIMIT", PLAY_LIMIT.into()),
        ("PLAY_REFUSED", PLAY_REFUSED.into()),
        ("PLAY_RECORD_MAXIMUM", PLAY_RECORD_MAXIMUM as u64),
        ("PLAY_OUTPUT_MINIMUM", PLAY_OUTPUT_MINIMUM as u64),
        ("PLAYER_LENGTH", PLAYER_LENGTH as u64),
        ("NUMBER_UNDER_WAY", CHANNEL_UNDER_WAY.into()),
        ("CCW_LENGTH", CCW_LENGTH as u64),
        ("CCW_WRITE", CCW_WRITE.into()),
        ("CCW_READ", CCW_READ.into()),
        ("CCW_TRANSFER", CCW_TRANSFER.into()),
        ("CCW_CHAIN_COMMAND", CCW_CHAIN_COMMAND.into()),
        ("CCW_COUNT_MAXIMUM", CCW_COUNT_MAXIMUM.into()),
        ("CHANNEL_KEY_MAXIMUM", CHANNEL_KEY_MAXIMUM.into()),
        ("GRANT_MAXIMUM", GRANT_MAXIMUM.into()),
        ("PROGRESS_LENGTH", PROGRESS_LENGTH as u64),
        ("PROGRESS_NOT_BEGUN", PROGRESS_NOT_BEGUN.into()),
        ("PROGRESS_UNDER_WAY", PROGRESS_UNDER_WAY.into()),
        ("PROGRESS_ENDED", PROGRESS_ENDED.into()),
        ("CHAINING_FIRST", CHAINING_FIRST.into()),
        ("CHAINING_COMMAND", CHAINING_COMMAND.into()),
        ("CHAINING_TRANSFER", CHAINING_TRANSFER.into()),
        ("CHAINING_ENDED", CHAINING_ENDED.into()),
    ]);
    let mut found = numbers();
    for refusal in ChannelRefusal::ALL {
        let number = found.get(format!("NUMBER_{}", channel_name(refusal)).as_str());
        assert_eq!(number, Some(&refusal.number().into()), "{refusal:?}");
    }
    for refusal in &ChannelRefusal::ALL[1..] {
        found.remove(format!("NUMBER_{}", channel_name(*refusal)).as_str());
    }
    for reason in Reason::ALL {
        let number = found.remove(format!("NUMBER_{}", name(reason)).as_str());
        assert_eq!(number, Some(reason.number().into()), "{reason:?}");
    }
    for (name, number) in found {
        assert_eq!(expected.remove(name), Some(number), "{NAME}{name}");
    }
    assert!(expected.is_empty(), "not in the header: {expected:?}");
}

/// The texts of a function of the header, by the names of its cases without [`NAME`].
fn texts(function: &str) -> BTreeMap<&'static str, &'static str> {
    let start = format!("static inline const char *{function}(");
    let (_, after) = HEADER.split_once(&start).expect("a function of the header");
    let (body, _) = after.split_once("default:").expect("the last case");
    body.split("case ")
        .skip(1)
        .map(|case| {
            let (name, after) = case.split_once(':').expect("the name of a case");
            let name = name.strip_prefix(NAME).expect("a name of the header");
            (name, after.split('"').nth(1).expect("the text of a case"))
        })
        .collect()
}

/// `storage_unit_message` has the same text for each number, and there are no others.
#[test]
fn texts_are_those_of_the_header() {
    let mut found = texts("storage_unit_message");
    for reason in Reason::ALL {
        let text = found.remove(format!("NUMBER_{}", name(reason)).as_str());
        assert_eq!(text, Some(reason.to_string().as_str()));
    }
    assert_eq!(found, BTreeMap::from([("NUMBER_COMPLETED", "completed")]));
}

/// So has `storage_unit_channel_message`; the text of a refusal has its number too.
#[test]
fn texts_of_the_channel_are_those_of_the_header() {
    let mut found = texts("storage_unit_channel_message");
    for refusal in ChannelRefusal::ALL {
        let name = format!("NUMBER_{}", channel_name(refusal));
        let text = found.remove(name.as_str()).expect("the text of a refusal");
        let whole = format!("{text} (number {})", refusal.number());
        assert_eq!(refusal.to_string(), whole);
    }
    let others = [
        ("NUMBER_COMPLETED", "completed"),
        ("NUMBER_UNDER_WAY", "under way"),
    ];
    assert_eq!(found, BTreeMap::from(others));
}

/// The library and the header have the version of this crate.
#[test]
fn version_is_that_of_library_and_header() {
    assert_eq!(version(), VERSION);
    assert_eq!(VERSION.to_string(), env!("CARGO_PKG_VERSION"));
    let text = format!("{NAME}VERSION_TEXT  \"{VERSION}\"");
    assert!(HEADER.contains(&text), "the header has no {text}");
}
