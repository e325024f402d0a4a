//! The table of small facts of document 01 and the examples of document 02, for each
//! implementation.
//!
//! Unless a fact says otherwise: storage 65,536, 2K units, extensions present,
//! prefix 0, PSW key 0, zero keys, supervisor state, low-address protection off.
//! Each fact states the whole outcome: the answer, the buffer, and the state, which
//! is the state before except for what the fact changes. Most cases of W6 look at number and
//! rule only.

mod support;

use storage_unit::{Reason, Request, Rule};
use storage_unit_comparison::Unit;

use support::cases::*;
use support::{COMPLETED, Lent, Outcome, outcome};

/// A fetch of one byte gives the byte at this absolute address, and a store of one
/// byte writes it there. Both record it in the key of that unit, and carry this rule.
fn real_is_absolute<U: Unit>(before: &Lent, real: u32, absolute: usize, rule: Rule) {
    let answer = storage_unit_comparison::completed(0, Some(rule));
    let mut after = before.clone();
    after.keys[absolute / 2048] |= 0x04;
    let (fetch, store) = (Request::fetch(real, 1), Request::store(real, 1));
    let fetched = [content(absolute)];
    expect::<U>(before, fetch, &[0], answer, &fetched, &after);
    after.keys[absolute / 2048] |= 0x06;
    after.storage[absolute] = 0xFF;
    expect::<U>(before, store, &[0xFF], answer, &[0xFF], &after);
}

/// Prefix 8192, real 4: absolute 8196. W6: rule 1.
fn p1<U: Unit>() {
    real_is_absolute::<U>(&with_prefix(8192), 4, 8196, Rule::Zero);
}

/// Prefix 8192, real 8196: absolute 4. W6: rule 2.
fn p2<U: Unit>() {
    real_is_absolute::<U>(&with_prefix(8192), 8196, 4, Rule::Prefix);
}

/// Prefix 8192, real 5000: 5000. W6: rule 3.
fn p3<U: Unit>() {
    real_is_absolute::<U>(&with_prefix(8192), 5000, 5000, Rule::Unchanged);
}

/// The usual state with this key for the first unit and this PSW key.
fn with_keys(key: u8, psw_key: u8) -> Lent {
    let mut lent = usual();
    lent.keys[0] = key;
    lent.processors[0].psw_key = psw_key;
    lent
}

/// Key 88, PSW key 3, fetch: 4.
fn p4<U: Unit>() {
    refused::<U>(
        &with_keys(0x88, 3),
        Request::fetch(100, 4),
        &[0; 4],
        Reason::Protection,
        0,
    );
}

/// Key 80, PSW key 3, fetch: 0, key 84.
fn p5<U: Unit>() {
    let before = with_keys(0x80, 3);
    let mut after = before.clone();
    after.keys[0] = 0x84;
    fetches::<U>(
        &before,
        Request::fetch(100, 4),
        &[0; 4],
        &[100, 101, 102, 103],
        &after,
    );
}

/// Key 80, PSW key 3, store: 4, key 80.
fn p6<U: Unit>() {
    refused::<U>(
        &with_keys(0x80, 3),
        Request::store(100, 4),
        &new_bytes(4),
        Reason::Protection,
        0,
    );
}

/// Key 88, PSW key 8, store: 0, key 8E.
fn p7<U: Unit>() {
    let before = with_keys(0x88, 8);
    let mut after = before.clone();
    after.keys[0] = 0x8E;
    after.storage[100..104].copy_from_slice(&new_bytes(4));
    completes::<U>(&before, Request::store(100, 4), &new_bytes(4), 0, &after);
}

/// Keys 30 and 50, and this PSW key.
fn with_two_keys(psw_key: u8) -> Lent {
    let mut lent = with_keys(0x30, psw_key);
    lent.keys[1] = 0x50;
    lent
}

/// Store at 2047, length 2, keys 30 and 50, PSW key 3: 4, place 1, nothing changed.
fn p8<U: Unit>() {
    refused::<U>(
        &with_two_keys(3),
        Request::store(2047, 2),
        &new_bytes(2),
        Reason::Protection,
        1,
    );
}

/// The same, PSW key 0: keys 36 and 56.
fn p9<U: Unit>() {
    let before = with_two_keys(0);
    let mut after = before.clone();
    after.keys[0] = 0x36;
    after.keys[1] = 0x56;
    after.storage[2047..2049].copy_from_slice(&new_bytes(2));
    completes::<U>(&before, Request::store(2047, 2), &new_bytes(2), 0, &after);
}

/// RRB on 8E: code 3, key 8A.
fn p10<U: Unit>() {
    let before = with_keys(0x8E, 0);
    let mut after = before.clone();
    after.keys[0] = 0x8A;
    after.processors[0].code = 3;
    let request = Request::rrb(0);
    completes::<U>(&before, request, &[], 0, &after);
}

/// ISK, R1 hex 12345678, key 8E: hex 1234568E.
fn p11<U: Unit>() {
    let before = with_keys(0x8E, 0);
    let request = Request::isk(0x1234_5678, 0);
    completes::<U>(&before, request, &[], 0x1234_568E, &before);
}

/// ISKE, keys 84 and 52, R1 zero: hex 86.
fn p12<U: Unit>() {
    let mut before = with_keys(0x84, 0);
    before.keys[1] = 0x52;
    let request = Request::iske(0, 0);
    completes::<U>(&before, request, &[], 0x86, &before);
}

/// Bit 3 on, key 0, length 1: store at 511 gives 4, at 512 it gives 0.
fn fact_13<U: Unit>() {
    let mut before = usual();
    before.processors[0].low_protection = true;
    refused::<U>(
        &before,
        Request::store(511, 1),
        &[0xFF],
        Reason::Protection,
        0,
    );
    let mut after = before.clone();
    after.keys[0] = 0x06;
    after.storage[512] = 0xFF;
    completes::<U>(&before, Request::store(512, 1), &[0xFF], 0, &after);
}

/// Bit 3 on, prefix 8192, key 0: store at real 8192 gives 0 and writes absolute 0.
fn fact_14<U: Unit>() {
    let mut before = with_prefix(8192);
    before.processors[0].low_protection = true;
    let mut after = before.clone();
    after.keys[0] = 0x06;
    after.storage[0] = 0xFF;
    completes::<U>(&before, Request::store(8192, 1), &[0xFF], 0, &after);
}

/// Fetch at 65,535, length 1: 0. Length 2: 5, place 1.
fn fact_15<U: Unit>() {
    let before = usual();
    let mut after = before.clone();
    after.keys[31] = 0x04;
    fetches::<U>(
        &before,
        Request::fetch(65_535, 1),
        &[0],
        &[content(65_535)],
        &after,
    );
    refused::<U>(
        &before,
        Request::fetch(65_535, 2),
        &[0; 2],
        Reason::Addressing,
        1,
    );
}

/// Storage 16,777,216, bit 3 on, key 0, store at 16,777,215, length 2: 4, place 1.
fn fact_16<U: Unit>() {
    let mut before = with_storage(16_777_216);
    before.processors[0].low_protection = true;
    refused::<U>(
        &before,
        Request::store(16_777_215, 2),
        &new_bytes(2),
        Reason::Protection,
        1,
    );
}

/// Length 0; 256; 257, start 0, long buffer, key 0: 66; 0; 66.
fn fact_17<U: Unit>() {
    let before = usual();
    let buffer = new_bytes(1000);
    for count in [0, 257] {
        for request in [Request::fetch(0, count), Request::store(0, count)] {
            refused::<U>(&before, request, &buffer, Reason::Operand, 0);
        }
    }

    let mut after = before.clone();
    after.keys[0] = 0x04;
    let mut fetched = buffer.clone();
    fetched[..256].copy_from_slice(&before.storage[..256]);
    fetches::<U>(&before, Request::fetch(0, 256), &buffer, &fetched, &after);

    after.keys[0] = 0x06;
    after.storage[..256].copy_from_slice(&buffer[..256]);
    completes::<U>(&before, Request::store(0, 256), &buffer, 0, &after);
}

/// SSK, R1 hex FF, R2 hex 800: second key FE. R2 hex 801: 6.
fn fact_18<U: Unit>() {
    let before = usual();
    let mut after = before.clone();
    after.keys[1] = 0xFE;
    let request = |r2| Request::ssk(0xFF, r2);
    completes::<U>(&before, request(0x800), &[], 0, &after);
    refused::<U>(&before, request(0x801), &[], Reason::Specification, 0);
}

/// The state of facts 19 and 20: prefixes 0 and 4096.
fn with_two_prefixes() -> Lent {
    let mut lent = usual();
    lent.processors[1].prefix = 4096;
    lent
}

/// Prefixes 0 and 4096, both store at real 0, twice each: disjoint units, all six
/// orders agree.
fn fact_19<U: Unit>() {
    let orders = [
        [0, 0, 1, 1],
        [0, 1, 0, 1],
        [0, 1, 1, 0],
        [1, 0, 0, 1],
        [1, 0, 1, 0],
        [1, 1, 0, 0],
    ];
    let bytes = [[0xF0, 0xF1], [0xF2, 0xF3]];
    let mut after = with_two_prefixes();
    after.storage[0] = 0xF1;
    after.storage[4096] = 0xF3;
    after.keys[0] = 0x06;
    after.keys[2] = 0x06;
    for order in orders {
        let mut lent = with_two_prefixes();
        let mut turns = [0, 0];
        for processor in order {
            let mut buffer = [bytes[processor][turns[processor]]];
            turns[processor] += 1;
            let answer = lent.request::<U>(processor as u32, &Request::store(0, 1), &mut buffer);
            let expected = storage_unit_comparison::completed(0, Some(Rule::Zero));
            assert_eq!(answer, expected, "order {order:?}");
        }
        assert!(lent == after, "order {order:?}");
    }
}

/// Prefixes 0 and 4096, different bytes stored at real 0 by the first and real 4096
/// by the second: both absolute 0, order matters.
fn fact_20<U: Unit>() {
    for (order, last_byte) in [([0, 1], 0xF1), ([1, 0], 0xF0)] {
        let mut lent = with_two_prefixes();
        for processor in order {
            let address = [0, 4096][processor];
            let mut buffer = [[0xF0, 0xF1][processor]];
            let answer =
                lent.request::<U>(processor as u32, &Request::store(address, 1), &mut buffer);
            let expected =
                storage_unit_comparison::completed(0, Some([Rule::Zero, Rule::Prefix][processor]));
            assert_eq!(answer, expected, "order {order:?}");
        }
        let mut after = with_two_prefixes();
        after.storage[0] = last_byte;
        after.keys[0] = 0x06;
        assert!(lent == after, "order {order:?}");
    }
}

/// W2: RRBE, keys 84 and 52: code 3, keys 80 and 52.
fn w2<U: Unit>() {
    let mut before = with_keys(0x84, 0);
    before.keys[1] = 0x52;
    let mut after = before.clone();
    after.keys[0] = 0x80;
    after.processors[0].code = 3;
    let request = Request::rrbe(0);
    completes::<U>(&before, request, &[], 0, &after);
}

/// W6: with prefix zero, real 4 and 4095 go by rule 1 and real 4096 by rule 3.
fn w6_prefix_zero<U: Unit>() {
    real_is_absolute::<U>(&usual(), 4, 4, Rule::Zero);
    real_is_absolute::<U>(&usual(), 4095, 4095, Rule::Zero);
    real_is_absolute::<U>(&usual(), 4096, 4096, Rule::Unchanged);
}

/// W6: the rule of this answer, and whether it is completed or why it is refused.
fn carries<U: Unit>(before: &Lent, request: Request, expected: Outcome, rule: Option<Rule>) {
    let given = before.clone().request::<U>(0, &request, &mut [0; 2]);
    assert_eq!(outcome(given), expected, "{request:?}");
    assert_eq!(
        given.ok().and_then(|completed| completed.rule),
        rule,
        "{request:?}"
    );
}

/// W6: an access carries the rule of its first byte, also where it goes on under
/// another rule, or at 0.
fn w6_first_byte<U: Unit>() {
    for (address, rule) in [
        (4095, Rule::Zero),
        (8191, Rule::Unchanged),
        (12_287, Rule::Prefix),
    ] {
        for request in [Request::fetch(address, 2), Request::store(address, 2)] {
            carries::<U>(&with_prefix(8192), request, COMPLETED, Some(rule));
        }
    }
    let mut before = with_storage(16_777_216);
    let last = Request::fetch(16_777_215, 2);
    carries::<U>(&before, last, COMPLETED, Some(Rule::Unchanged));
    before.processors[0].prefix = 16_777_216 - 4096;
    carries::<U>(&before, last, COMPLETED, Some(Rule::Prefix));
}

/// W6: a key instruction carries the rule of its block, without the bits that it
/// ignores.
fn w6_block<U: Unit>() {
    let before = with_prefix(8192);
    let basic = |r2| [Request::isk(0, r2), Request::ssk(0, r2)];
    let extended = |r2| {
        [
            Request::iske(0, r2),
            Request::sske(0, r2),
            Request::rrbe(r2),
        ]
    };
    for (block, rule) in [
        (0, Rule::Zero),
        (8192, Rule::Prefix),
        (4096, Rule::Unchanged),
    ] {
        for request in basic(0xFF00_07F0 | block) {
            carries::<U>(&before, request, COMPLETED, Some(rule));
        }
        for request in extended(0x8000_0FFF | block) {
            carries::<U>(&before, request, COMPLETED, Some(rule));
        }
        let rrb = Request::rrb(block | 0xFFF);
        carries::<U>(&before, rrb, COMPLETED, Some(rule));
    }
}

/// W6: every other answer carries 0: refusals, also 4, which is found after prefixing; SET
/// PREFIX and STORE PREFIX.
fn w6_none<U: Unit>() {
    let mut before = with_prefix(8192);
    carries::<U>(
        &before,
        Request::fetch(65_535, 2),
        Err(Reason::Addressing),
        None,
    );
    for request in [Request::set_prefix(8192), Request::store_prefix()] {
        carries::<U>(&before, request, COMPLETED, None);
    }
    before.processors[0].psw_key = 3;
    for address in [0, 4096, 8192] {
        let request = Request::store(address, 1);
        carries::<U>(&before, request, Err(Reason::Protection), None);
    }
}

for_each_unit! {
    p1 p2 p3 p4 p5 p6 p7 p8 p9 p10 p11 p12
    fact_13 fact_14 fact_15 fact_16 fact_17 fact_18 fact_19 fact_20
    w2
    w6_prefix_zero w6_first_byte w6_block w6_none
}
