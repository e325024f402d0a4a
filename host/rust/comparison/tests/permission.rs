//! The manual's summary of protection action against the table of permissions in the source
//! of `storage_key`, and against the answers of each implementation.

mod support;

use storage_unit::{Reason, Request};
use storage_unit_comparison::Unit;

use support::cases::*;
use support::{COMPLETED, outcome};

/// A line of "Summary of Protection Action", page 3-8 of the manual.
struct Line {
    fetch_protection_bit: u8,
    keys_match: bool,
    fetch_permitted: bool,
    store_permitted: bool,
}

const fn line(bit: u8, keys_match: bool, fetch: bool, store: bool) -> Line {
    Line {
        fetch_protection_bit: bit,
        keys_match,
        fetch_permitted: fetch,
        store_permitted: store,
    }
}

const SUMMARY: [Line; 4] = [
    line(0, true, true, true),
    line(0, false, true, false),
    line(1, true, true, true),
    line(1, false, false, false),
];

/// The line for an access key and a storage key.
fn line_for(access_key: u8, key: u8) -> &'static Line {
    let access_control = key >> 4;
    let keys_match = access_control == access_key || access_key == 0;
    let applies =
        |line: &&Line| line.fetch_protection_bit == (key >> 3 & 1) && line.keys_match == keys_match;
    SUMMARY.iter().find(applies).expect("a line of the summary")
}

/// The table as the source has it: a word for each access key for fetch, then one for each for
/// store, and in a word a bit for each value of the five leading key bits, from right to left.
fn printed() -> String {
    let permitted: [fn(&Line) -> bool; 2] =
        [|line| line.fetch_permitted, |line| line.store_permitted];
    let mut table = String::new();
    for (kind, permitted) in ["fetch", "store"].into_iter().zip(permitted) {
        table += &format!("    {kind}: [\n");
        for access_key in 0..16 {
            let word = (0..32).fold(0_u32, |word, leading_bits| {
                let line = line_for(access_key, leading_bits << 3);
                word | u32::from(permitted(line)) << leading_bits
            });
            table += &format!("        0x{word:08X},\n");
        }
        table += "    ],\n";
    }
    table
}

/// A text without blanks and line ends: how many words stand in a line is the formatter's.
fn without_layout(text: &str) -> String {
    text.split_whitespace().collect()
}

#[test]
fn table_in_the_source() {
    let source = include_str!("../../../../crates/storage_key/src/lib.rt");
    let begin = "const PERMISSIONS: PermissionWords = PermissionWords {\n";
    let (_, after) = source.split_once(begin).expect("the table");
    let (table, _) = after.split_once("\n};\n").expect("the end of the table");
    print!("{}", printed());
    assert_eq!(without_layout(table), without_layout(&printed()));
}

/// Every access key with every storage key: a fetch and a store complete where the summary
/// permits them, and are refused with 4 elsewhere.
fn each_pair_of_keys<U: Unit>() {
    for access_key in 0..16 {
        for key in 0..=255 {
            let mut before = usual();
            before.keys[0] = key;
            before.processors[0].psw_key = access_key;
            let line = line_for(access_key, key);
            for (request, permitted) in [
                (Request::fetch(0, 1), line.fetch_permitted),
                (Request::store(0, 1), line.store_permitted),
            ] {
                let expected = if permitted {
                    COMPLETED
                } else {
                    Err(Reason::Protection)
                };
                let given = answer::<U>(&before, 0, request, 1);
                assert_eq!(outcome(given), expected, "{access_key} {key} {request:?}");
            }
        }
    }
}

for_each_unit! {
    each_pair_of_keys
}
