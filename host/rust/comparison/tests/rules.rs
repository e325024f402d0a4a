//! Written cases for the rules that the table of small facts leaves out, for each
//! implementation.

mod support;

use storage_unit::{KeyInstruction, PrefixInstruction, Reason, Request, Settings};
use storage_unit_comparison::{self as comparison, Unit};

use support::cases::*;
use support::{COMPLETED, Lent, Outcome, outcome};

/// One request of each operation that completes in the usual state with a buffer of
/// four bytes.
fn one_of_each() -> [Request; 10] {
    [
        Request::fetch(0, 4),
        Request::store(0, 4),
        Request::isk(0, 0),
        Request::ssk(0, 0),
        Request::rrb(0),
        Request::iske(0, 0),
        Request::sske(0, 0),
        Request::rrbe(0),
        Request::set_prefix(4096),
        Request::store_prefix(),
    ]
}

/// The usual state with one key for each 4K block.
fn with_4k_units() -> Lent {
    let mut lent = usual();
    lent.settings.four_k = true;
    lent.keys = vec![0; 16];
    lent
}

/// Expects this outcome, with place 0 where it is refused, for each step. A state with many
/// faults loses one fault in each step.
fn falls_through<U: Unit>(steps: &[(Lent, Request, usize, Outcome)]) {
    for (index, (before, request, buffer, expected)) in steps.iter().enumerate() {
        let given = answer::<U>(before, 0, *request, *buffer);
        assert_eq!(outcome(given), *expected, "step {index}: {request:?}");
        assert!(given.err().is_none_or(|refusal| refusal.place == 0));
    }
}

/// A state with every fault that a state can have, and the states that follow when
/// lengths, record, problem state and key control are put right one after another.
fn faulty_states(settings: Settings) -> [Lent; 5] {
    let mut right = usual();
    right.settings = settings;
    right.keys = vec![0x70; settings.key_count(65_536)];
    right.processors[0].psw_key = 3;
    right.processors[0].key_control = true;
    let mut without_control = right.clone();
    without_control.processors[0].key_control = false;
    let mut in_problem_state = without_control.clone();
    in_problem_state.processors[0].problem = true;
    let mut bad_record = in_problem_state.clone();
    bad_record.processors[0].psw_key = 16;
    let mut bad_lengths = bad_record.clone();
    bad_lengths.keys.push(0);
    [
        bad_lengths,
        bad_record,
        in_problem_state,
        without_control,
        right,
    ]
}

fn order_of_lines_for_accesses<U: Unit>() {
    let settings = Settings {
        four_k: true,
        extensions: false,
    };
    let [bad_lengths, bad_record, in_problem_state, _, right] = faulty_states(settings);
    let mut unlocked = right.clone();
    unlocked.processors[0].psw_key = 7;
    for kind in [Request::fetch, Request::store] {
        let mut locked = in_problem_state.clone();
        locked.keys.fill(0x78);
        falls_through::<U>(&[
            (
                bad_lengths.clone(),
                kind(16_777_216, 0),
                0,
                Err(Reason::Configuration),
            ),
            (
                bad_record.clone(),
                kind(16_777_216, 0),
                0,
                Err(Reason::Record),
            ),
            (locked.clone(), kind(16_777_216, 4), 4, Err(Reason::Operand)),
            (locked.clone(), kind(65_536, 0), 4, Err(Reason::Operand)),
            (locked.clone(), kind(65_536, 257), 300, Err(Reason::Operand)),
            (locked.clone(), kind(65_536, 4), 3, Err(Reason::Operand)),
            (locked.clone(), kind(65_536, 4), 4, Err(Reason::Addressing)),
            (locked.clone(), kind(600, 4), 4, Err(Reason::Protection)),
            (unlocked.clone(), kind(600, 4), 4, COMPLETED),
        ]);
    }
}

fn order_of_lines_for_isk_and_ssk<U: Unit>() {
    let settings = Settings {
        four_k: true,
        extensions: false,
    };
    let [
        bad_lengths,
        bad_record,
        in_problem_state,
        without_control,
        right,
    ] = faulty_states(settings);
    for instruction in [Request::isk, Request::ssk] {
        let outside_and_odd = instruction(0, 65_537);
        falls_through::<U>(&[
            (
                bad_lengths.clone(),
                outside_and_odd,
                0,
                Err(Reason::Configuration),
            ),
            (bad_record.clone(), outside_and_odd, 0, Err(Reason::Record)),
            (
                in_problem_state.clone(),
                outside_and_odd,
                0,
                Err(Reason::Privileged),
            ),
            (
                without_control.clone(),
                outside_and_odd,
                0,
                Err(Reason::SpecialOperation),
            ),
            (
                right.clone(),
                outside_and_odd,
                0,
                Err(Reason::Specification),
            ),
            (
                right.clone(),
                instruction(0, 65_536),
                0,
                Err(Reason::Addressing),
            ),
            (right.clone(), instruction(0, 0), 0, COMPLETED),
        ]);
    }
}

fn order_of_lines_for_rrb<U: Unit>() {
    let settings = Settings {
        four_k: true,
        extensions: false,
    };
    let [
        bad_lengths,
        bad_record,
        in_problem_state,
        without_control,
        right,
    ] = faulty_states(settings);
    falls_through::<U>(&[
        (
            bad_lengths,
            Request::rrb(16_777_216),
            0,
            Err(Reason::Configuration),
        ),
        (bad_record, Request::rrb(16_777_216), 0, Err(Reason::Record)),
        (
            in_problem_state.clone(),
            Request::rrb(16_777_216),
            0,
            Err(Reason::Operand),
        ),
        (
            in_problem_state,
            Request::rrb(65_551),
            0,
            Err(Reason::Privileged),
        ),
        (
            without_control,
            Request::rrb(65_551),
            0,
            Err(Reason::SpecialOperation),
        ),
        (
            right.clone(),
            Request::rrb(65_551),
            0,
            Err(Reason::Addressing),
        ),
        (right, Request::rrb(15), 0, COMPLETED),
    ]);
}

fn order_of_lines_for_extended_instructions<U: Unit>() {
    let settings = Settings {
        four_k: true,
        extensions: true,
    };
    let [
        bad_lengths,
        bad_record,
        in_problem_state,
        without_control,
        _,
    ] = faulty_states(settings);
    for (outside, inside) in [
        (Request::iske(0, 65_536), Request::iske(0, 15)),
        (Request::sske(0, 65_536), Request::sske(0, 15)),
        (Request::rrbe(65_536), Request::rrbe(15)),
    ] {
        let without_extensions = |lent: &Lent| {
            let mut lent = lent.clone();
            lent.settings.extensions = false;
            lent
        };
        falls_through::<U>(&[
            (
                without_extensions(&bad_lengths),
                outside,
                0,
                Err(Reason::Configuration),
            ),
            (
                without_extensions(&bad_record),
                outside,
                0,
                Err(Reason::Record),
            ),
            (
                without_extensions(&in_problem_state),
                outside,
                0,
                Err(Reason::Operation),
            ),
            (
                in_problem_state.clone(),
                outside,
                0,
                Err(Reason::Privileged),
            ),
            (without_control.clone(), outside, 0, Err(Reason::Addressing)),
            (without_control.clone(), inside, 0, COMPLETED),
        ]);
    }
}

fn order_of_lines_for_prefix_instructions<U: Unit>() {
    let settings = Settings {
        four_k: true,
        extensions: false,
    };
    let [
        bad_lengths,
        bad_record,
        in_problem_state,
        without_control,
        _,
    ] = faulty_states(settings);
    falls_through::<U>(&[
        (
            bad_lengths.clone(),
            Request::set_prefix(65_536),
            0,
            Err(Reason::Configuration),
        ),
        (
            bad_record.clone(),
            Request::set_prefix(65_536),
            0,
            Err(Reason::Record),
        ),
        (
            in_problem_state.clone(),
            Request::set_prefix(65_536),
            0,
            Err(Reason::Privileged),
        ),
        (
            without_control.clone(),
            Request::set_prefix(65_536),
            0,
            Err(Reason::Addressing),
        ),
        (
            without_control.clone(),
            Request::set_prefix(61_440),
            0,
            COMPLETED,
        ),
        (
            bad_lengths,
            Request::store_prefix(),
            0,
            Err(Reason::Configuration),
        ),
        (bad_record, Request::store_prefix(), 0, Err(Reason::Record)),
        (
            in_problem_state,
            Request::store_prefix(),
            0,
            Err(Reason::Privileged),
        ),
        (without_control, Request::store_prefix(), 0, COMPLETED),
    ]);
}

/// Line 64: every operation, storage lengths and key array lengths.
fn lengths_of_storage_and_keys<U: Unit>() {
    for request in one_of_each() {
        for (four_k, storage, keys, good) in [
            (false, 4096, 2, true),
            (false, 12_288, 6, true),
            (false, 16_777_216, 8192, true),
            (true, 4096, 1, true),
            (true, 16_777_216, 4096, true),
            (false, 0, 0, false),
            (true, 0, 0, false),
            (false, 2048, 1, false),
            (false, 4095, 1, false),
            (false, 4097, 2, false),
            (false, 6144, 3, false),
            (false, 16_781_312, 8194, false),
            (true, 16_781_312, 4097, false),
            (false, 4096, 0, false),
            (false, 4096, 1, false),
            (false, 4096, 3, false),
            (true, 4096, 0, false),
            (true, 4096, 2, false),
            (false, 65_536, 16, false),
            (true, 65_536, 32, false),
        ] {
            let mut lent = usual();
            lent.settings.four_k = four_k;
            lent.processors[0].key_control = true;
            lent.storage = vec![0; storage];
            lent.keys = vec![0; keys];
            // SET PREFIX to 4096 needs two blocks.
            let request = match request {
                Request::Prefix(PrefixInstruction::SetPrefix { .. }) => Request::set_prefix(0),
                other => other,
            };
            let expected = if good {
                COMPLETED
            } else {
                Err(Reason::Configuration)
            };
            assert_eq!(
                outcome(lent.request::<U>(0, &request, &mut [0; 4])),
                expected,
                "{request:?}, storage {storage}, keys {keys}, 4K {four_k}"
            );
        }
    }
}

/// Line 65: every operation, every field of the own record, not the other record.
fn processor_numbers_and_records<U: Unit>() {
    for request in one_of_each() {
        for processor in [2, 3, 256, 65_536, 1 << 31, u32::MAX] {
            let given = answer::<U>(&usual(), processor, request, 4);
            assert_eq!(given, comparison::refused(Reason::Record, 0));
        }
        for fault in 0..8 {
            for own in 0..2 {
                let mut lent = usual();
                let record = &mut lent.processors[own];
                match fault {
                    0 => record.psw_key = 16,
                    1 => record.psw_key = 255,
                    2 => record.code = 4,
                    3 => record.code = 255,
                    4 => record.prefix = 65_536,
                    5 => record.prefix = 1,
                    6 => record.prefix = 2048,
                    _ => record.prefix = 0x0100_0000,
                }
                let before = lent.clone();
                let mut buffer = [9; 4];
                let given = lent.request::<U>(own as u32, &request, &mut buffer);
                assert_eq!(given, comparison::refused(Reason::Record, 0));
                assert!(lent == before && buffer == [9; 4]);
                let given = answer::<U>(&before, 1 - own as u32, request, 4);
                assert_eq!(outcome(given), COMPLETED, "{request:?}");
            }
        }
    }
}

/// The limits of the fields are allowed.
fn largest_fields<U: Unit>() {
    let mut lent = usual();
    lent.processors[1].psw_key = 15;
    lent.processors[1].code = 3;
    lent.processors[1].prefix = 61_440;
    lent.keys = vec![0xF0; 32];
    for request in one_of_each() {
        let given = answer::<U>(&lent, 1, request, 4);
        assert_eq!(outcome(given), COMPLETED, "{request:?}");
    }
}

/// Byte 0 is forbidden and byte 1 lies outside storage: 5, place 1.
fn outside_before_forbidden<U: Unit>() {
    let mut before = usual();
    before.keys[31] = 0x88;
    before.processors[0].psw_key = 3;
    for request in [Request::fetch(65_535, 2), Request::store(65_535, 2)] {
        refused::<U>(&before, request, &[7; 2], Reason::Addressing, 1);
    }
    refused::<U>(
        &before,
        Request::fetch(65_535, 1),
        &[7; 2],
        Reason::Protection,
        0,
    );
}

/// An access that starts outside a small storage has place 0, also if it would go on
/// at address 0.
fn start_outside<U: Unit>() {
    for (address, count, place) in [
        (65_536, 1, 0),
        (65_536, 256, 0),
        (16_777_215, 256, 0),
        (65_281, 256, 255),
        (65_400, 256, 136),
    ] {
        refused::<U>(
            &usual(),
            Request::fetch(address, count),
            &[7; 256],
            Reason::Addressing,
            place,
        );
    }
}

/// A storage of the full size: accesses go on at address 0.
fn past_the_highest_address<U: Unit>() {
    let before = with_storage(16_777_216);
    let mut after = before.clone();
    after.keys[8191] = 0x04;
    after.keys[0] = 0x04;
    let mut fetched = before.storage[16_777_000..].to_vec();
    fetched.extend_from_slice(&before.storage[..40]);
    fetches::<U>(
        &before,
        Request::fetch(16_777_000, 256),
        &[0; 256],
        &fetched,
        &after,
    );

    // With a prefix, the bytes after the highest address go to the prefix area.
    let mut before = before;
    before.processors[0].prefix = 8192;
    let mut after = before.clone();
    let bytes = new_bytes(256);
    after.keys[8191] = 0x06;
    after.keys[4] = 0x06;
    after.storage[16_777_000..].copy_from_slice(&bytes[..216]);
    after.storage[8192..8232].copy_from_slice(&bytes[216..]);
    completes::<U>(&before, Request::store(16_777_000, 256), &bytes, 0, &after);

    // The prefix area at the end of storage: real addresses 0 and up follow it.
    before.processors[0].prefix = 16_773_120;
    let mut after = before.clone();
    after.keys[1] = 0x06;
    after.keys[8190] = 0x06;
    after.storage[4095] = 0xFF;
    after.storage[16_773_120] = 0xFE;
    completes::<U>(
        &before,
        Request::store(16_777_215, 2),
        &new_bytes(2),
        0,
        &after,
    );

    // The key of the unit after the highest address forbids.
    before.processors[0].psw_key = 3;
    before.keys[1] = 0x30;
    before.keys[8190] = 0x48;
    for request in [
        Request::fetch(16_777_200, 256),
        Request::store(16_777_200, 256),
    ] {
        refused::<U>(&before, request, &[7; 256], Reason::Protection, 16);
    }
}

/// An access between a block under one prefix rule and a block under another.
fn access_under_two_rules<U: Unit>() {
    // Real 4094-4097 with prefix 8192: absolute 12286, 12287, 4096, 4097.
    let before = with_prefix(8192);
    let mut after = before.clone();
    after.keys[5] = 0x04;
    after.keys[2] = 0x04;
    fetches::<U>(
        &before,
        Request::fetch(4094, 4),
        &[0; 4],
        &[
            content(12_286),
            content(12_287),
            content(4096),
            content(4097),
        ],
        &after,
    );
    // Prefix 4096: blocks 0 and 1 change places.
    let before = with_prefix(4096);
    let mut after = before.clone();
    after.keys[3] = 0x06;
    after.keys[0] = 0x06;
    after.storage[8191] = 0xFF;
    after.storage[0] = 0xFE;
    completes::<U>(&before, Request::store(4095, 2), &new_bytes(2), 0, &after);
}

/// Keys are tested by the absolute address.
fn protection_by_absolute_address<U: Unit>() {
    let mut before = with_prefix(8192);
    before.processors[0].psw_key = 3;
    before.keys[0] = 0x48;
    before.keys[4] = 0x30;
    let mut after = before.clone();
    after.keys[4] = 0x36;
    after.storage[8196] = 0xFF;
    completes::<U>(&before, Request::store(4, 1), &[0xFF], 0, &after);
    refused::<U>(
        &before,
        Request::store(8196, 1),
        &[0xFF],
        Reason::Protection,
        0,
    );
}

/// Under each prefix inside storage, each real block is a block of storage.
fn each_block_under_each_prefix<U: Unit>() {
    for four_k in [false, true] {
        for blocks in 1..5 {
            let mut before = with_storage(blocks * 4096);
            before.settings.four_k = four_k;
            before.keys = (0..before.settings.key_count(blocks * 4096) as u8)
                .map(|unit| unit << 4)
                .collect();
            before.processors[0].key_control = true;
            for prefix in 0..blocks {
                before.processors[0].prefix = prefix as u32 * 4096;
                for real in 0..blocks {
                    let block = match real {
                        0 => prefix,
                        _ if real == prefix => 0,
                        _ => real,
                    };
                    reaches_block::<U>(&before, real * 4096, block * 4096);
                }
            }
        }
    }
}

/// The real block at this address is the absolute block at that one: its last bytes are
/// fetched, and the keys of its halves and of the whole inserted.
fn reaches_block<U: Unit>(before: &Lent, real: usize, block: usize) {
    let mut bytes = [0; 256];
    let last = Request::fetch(real as u32 + 3840, 256);
    let given = before.clone().request::<U>(0, &last, &mut bytes);
    assert_eq!(given, completed(before, last, 0));
    for (index, byte) in bytes.into_iter().enumerate() {
        assert_eq!(byte, content(block + 3840 + index));
    }
    let key_at = |address| u32::from(before.keys[address / before.settings.key_unit()]);
    for half in [0, 2048] {
        let request = Request::isk(0, (real + half) as u32);
        let given = answer::<U>(before, 0, request, 0);
        assert_eq!(given, completed(before, request, key_at(block + half)));
    }
    let request = Request::iske(0, real as u32);
    let given = answer::<U>(before, 0, request, 0);
    assert_eq!(given, completed(before, request, key_at(block)));
}

/// A prefix at the end of storage is refused with 65 whatever is asked, and SET PREFIX
/// never leaves one: after it a record passes.
fn prefix_stays_inside<U: Unit>() {
    for blocks in 1..5 {
        let mut before = with_storage(blocks * 4096);
        let end = blocks as u32 * 4096;
        refused::<U>(
            &before,
            Request::set_prefix(end),
            &[],
            Reason::Addressing,
            0,
        );
        for block in 0..blocks as u32 {
            let mut lent = before.clone();
            let given = lent.request::<U>(0, &Request::set_prefix(block * 4096 + 4095), &mut []);
            assert_eq!(given, comparison::completed(0, None));
            for request in one_of_each() {
                let given = answer::<U>(&lent, 0, request, 4);
                let outside = request == Request::set_prefix(4096) && blocks == 1;
                let expected = if outside {
                    Err(Reason::Addressing)
                } else {
                    COMPLETED
                };
                assert_eq!(outcome(given), expected, "{request:?}");
            }
        }
        before.processors[0].prefix = end;
        for request in one_of_each() {
            refused::<U>(&before, request, &[1; 4], Reason::Record, 0);
        }
    }
}

/// An access that ends with its unit touches that unit only.
fn access_to_the_end_of_a_unit<U: Unit>() {
    for (mut before, unit) in [(usual(), 2048), (with_4k_units(), 4096)] {
        before.processors[0].psw_key = 3;
        before.keys[0] = 0x30;
        before.keys[1] = 0x48;
        let mut after = before.clone();
        after.keys[0] = 0x36;
        let bytes = new_bytes(256);
        after.storage[unit - 256..unit].copy_from_slice(&bytes);
        let start = unit as u32 - 256;
        completes::<U>(&before, Request::store(start, 256), &bytes, 0, &after);
        refused::<U>(
            &before,
            Request::store(start + 1, 256),
            &bytes,
            Reason::Protection,
            255,
        );
    }
}

/// With 4K units, addresses 2047 and 2048 share a key.
fn access_within_a_4k_unit<U: Unit>() {
    let mut before = with_4k_units();
    before.keys[0] = 0x91;
    before.keys[1] = 0xA1;
    before.processors[0].psw_key = 9;
    let mut after = before.clone();
    after.keys[0] = 0x96;
    after.storage[2047..2049].copy_from_slice(&new_bytes(2));
    completes::<U>(&before, Request::store(2047, 2), &new_bytes(2), 0, &after);
}

/// Completed accesses put bit 7 of each key to zero, refused ones leave it.
fn bit_7_and_accesses<U: Unit>() {
    let mut before = usual();
    before.keys[0] = 0x37;
    before.keys[1] = 0x31;
    let mut after = before.clone();
    after.keys[0] = 0x36;
    after.keys[1] = 0x34;
    let fetched = &before.storage[2040..2056].to_vec();
    fetches::<U>(&before, Request::fetch(2040, 16), &[0; 16], fetched, &after);
    after.keys[1] = 0x36;
    after.storage[2040..2056].copy_from_slice(&new_bytes(16));
    completes::<U>(&before, Request::store(2040, 16), &new_bytes(16), 0, &after);
    before.processors[0].psw_key = 3;
    before.keys[1] = 0x49;
    refused::<U>(
        &before,
        Request::fetch(2040, 16),
        &[0; 16],
        Reason::Protection,
        8,
    );
}

/// Low-address protection: stores only, real addresses 0-511, also for PSW key 0, and
/// before prefixing.
fn low_address_protection<U: Unit>() {
    let mut before = with_prefix(8192);
    before.processors[0].low_protection = true;
    for (address, count) in [(0, 1), (511, 256), (256, 256), (0, 256)] {
        refused::<U>(
            &before,
            Request::store(address, count),
            &[7; 256],
            Reason::Protection,
            0,
        );
    }
    let mut after = before.clone();
    after.keys[4] = 0x04;
    let fetched = before.storage[8192..8448].to_vec();
    fetches::<U>(&before, Request::fetch(0, 256), &[0; 256], &fetched, &after);
    // The bit of the other processor does not matter.
    let mut other = usual();
    other.processors[1].low_protection = true;
    let mut after = other.clone();
    after.keys[0] = 0x06;
    after.storage[0] = 0xFF;
    completes::<U>(&other, Request::store(0, 1), &[0xFF], 0, &after);
}

/// The problem state does not matter to accesses.
fn accesses_in_problem_state<U: Unit>() {
    let mut before = usual();
    before.processors[0].problem = true;
    for request in one_of_each() {
        let expected = match request {
            Request::Access { .. } => COMPLETED,
            _ => Err(Reason::Privileged),
        };
        assert_eq!(outcome(answer::<U>(&before, 0, request, 4)), expected);
    }
}

/// Buffers: too short, and longer than the access.
fn buffers<U: Unit>() {
    let before = usual();
    for request in [Request::fetch(0, 4), Request::store(0, 4)] {
        refused::<U>(&before, request, &[7; 3], Reason::Operand, 0);
        refused::<U>(&before, request, &[], Reason::Operand, 0);
    }
    let mut after = before.clone();
    after.keys[0] = 0x04;
    fetches::<U>(
        &before,
        Request::fetch(1, 4),
        &[9; 6],
        &[1, 2, 3, 4, 9, 9],
        &after,
    );
    after.keys[0] = 0x06;
    after.storage[1..5].copy_from_slice(&[9; 4]);
    completes::<U>(&before, Request::store(1, 4), &[9; 600], 0, &after);
}

/// Key instructions work on the key of the absolute address.
fn key_instructions_are_prefixed<U: Unit>() {
    let mut before = with_prefix(8192);
    for (index, key) in before.keys.iter_mut().enumerate() {
        *key = (index as u8) << 3;
    }
    // Blocks 0 and 2 change places; each has two keys.
    for (real, unit) in [
        (0, 4),
        (2048, 5),
        (4096, 2),
        (6144, 3),
        (8192, 0),
        (10_240, 1),
    ] {
        completes::<U>(
            &before,
            Request::isk(0, real),
            &[],
            (unit as u32) << 3,
            &before,
        );
        let mut after = before.clone();
        after.keys[unit] = 0xF0;
        completes::<U>(&before, Request::ssk(0xF0, real), &[], 0, &after);
    }
    for (real, unit) in [(0, 4), (4096, 2), (8192, 0)] {
        completes::<U>(
            &before,
            Request::iske(0, real),
            &[],
            before.iske_of(unit),
            &before,
        );
        let mut after = before.clone();
        after.keys[unit..unit + 2].fill(0xF0);
        completes::<U>(&before, Request::sske(0xF0, real), &[], 0, &after);
    }
}

impl Lent {
    /// The key of a unit with the reference and change bits of the next one.
    fn iske_of(&self, unit: usize) -> u32 {
        u32::from(self.keys[unit] & 0xFE | self.keys[unit + 1] & 0x06)
    }
}

/// Ignored bits of R2 and of the address of RRB.
fn ignored_bits<U: Unit>() {
    let mut before = usual();
    before.keys[3] = 0x8E;
    let second_block = 0x1800;
    completes::<U>(
        &before,
        Request::isk(0, 0xFF00_07F0 | second_block),
        &[],
        0x8E,
        &before,
    );
    let mut after = before.clone();
    after.keys[3] = 0x30;
    completes::<U>(
        &before,
        Request::ssk(0xFFFF_FF31, 0xFF00_07F0 | second_block),
        &[],
        0,
        &after,
    );
    for bit in 0..4 {
        for request in [Request::isk(0, 1 << bit), Request::ssk(0, 1 << bit)] {
            refused::<U>(&before, request, &[], Reason::Specification, 0);
        }
    }
    let mut after = before.clone();
    after.keys[3] = 0x8A;
    after.processors[0].code = 3;
    completes::<U>(&before, Request::rrb(0x7FF | second_block), &[], 0, &after);
    // Extended instructions: bits 0 and 20-31 of R2.
    completes::<U>(
        &before,
        Request::iske(0xFFFF_FFFF, 0x8000_1FFF),
        &[],
        0xFFFF_FF06,
        &before,
    );
    let mut after = before.clone();
    after.keys[2..4].fill(0x30);
    completes::<U>(&before, Request::sske(0x31, 0x8000_1FFF), &[], 0, &after);
    let mut after = before.clone();
    after.keys[3] = 0x8A;
    after.processors[0].code = 3;
    completes::<U>(&before, Request::rrbe(0x8000_1FFF), &[], 0, &after);
}

/// Extended instructions use 31 bits of R2, ISK and SSK 24, RRB needs 24.
fn address_sizes<U: Unit>() {
    let before = with_storage(16_777_216);
    for request in [
        Request::iske(0, 0x0100_0000),
        Request::sske(0xFF, 0x4000_0000),
        Request::rrbe(0x8100_0000),
    ] {
        refused::<U>(&before, request, &[], Reason::Addressing, 0);
    }
    for request in [Request::rrb(16_777_216), Request::rrb(u32::MAX)] {
        refused::<U>(&before, request, &[], Reason::Operand, 0);
    }
    for request in [
        Request::fetch(16_777_216, 1),
        Request::store(16_777_216, 1),
        Request::fetch(u32::MAX, 1),
        Request::store(u32::MAX, 256),
        Request::fetch(0, u32::MAX),
        Request::store(u32::MAX, u32::MAX),
    ] {
        refused::<U>(&before, request, &[7; 300], Reason::Operand, 0);
    }
    let mut after = before.clone();
    after.keys[8191] = 0x70;
    completes::<U>(&before, Request::ssk(0x70, 0xFFFF_FFF0), &[], 0, &after);
}

/// ISK and ISKE: bit 31 of the word is zero, and the keys stay, bit 7 as well.
fn insert<U: Unit>() {
    let mut before = usual();
    before.keys[0] = 0xF1;
    before.keys[1] = 0x0B;
    completes::<U>(
        &before,
        Request::isk(0xFFFF_FFFF, 0),
        &[],
        0xFFFF_FFF0,
        &before,
    );
    completes::<U>(&before, Request::isk(0, 0x800), &[], 0x0A, &before);
    // Of the high-order key, only reference and change are taken.
    completes::<U>(
        &before,
        Request::iske(0xFFFF_FFFF, 0),
        &[],
        0xFFFF_FFF2,
        &before,
    );
    // Every pair of reference and change bits.
    for low in 0..4_u8 {
        for high in 0..4_u8 {
            before.keys[0] = 0x81 | low << 1;
            before.keys[1] = 0x79 | high << 1;
            let word = 0x80 | u32::from(low | high) << 1;
            completes::<U>(&before, Request::iske(0, 0), &[], word, &before);
        }
    }
}

/// RRB, and RRBE on two keys: all values of the reference and change bits.
fn reset_reference<U: Unit>() {
    for low in 0..4_u8 {
        for high in 0..4_u8 {
            let mut before = usual();
            before.processors[0].code = 1;
            before.keys[6] = 0x99 | low << 1;
            before.keys[7] = 0xA1 | high << 1;
            let mut after = before.clone();
            after.keys[6] = 0x98 | (low & 1) << 1;
            after.processors[0].code = low;
            completes::<U>(&before, Request::rrb(0x3000), &[], 0, &after);
            after.keys[7] = 0xA0 | (high & 1) << 1;
            after.processors[0].code = low | high;
            completes::<U>(&before, Request::rrbe(0x3000), &[], 0, &after);
            let mut after = before.clone();
            after.keys[7] = 0xA0 | (high & 1) << 1;
            after.processors[0].code = high;
            completes::<U>(&before, Request::rrb(0x3800), &[], 0, &after);
        }
    }
}

/// With the 4K facility every key instruction works on the single key of the block.
fn key_instructions_with_4k_units<U: Unit>() {
    let mut before = with_4k_units();
    before.processors[0].key_control = true;
    before.keys[1] = 0x83;
    before.keys[2] = 0x55;
    for request in [
        Request::isk(0, 0x1000),
        Request::isk(0, 0x1800),
        Request::iske(0, 0x1800),
    ] {
        completes::<U>(&before, request, &[], 0x82, &before);
    }
    let mut after = before.clone();
    after.keys[1] = 0x32;
    for request in [
        Request::ssk(0x33, 0x1000),
        Request::ssk(0x33, 0x1800),
        Request::sske(0x33, 0x1800),
    ] {
        completes::<U>(&before, request, &[], 0, &after);
    }
    let mut after = before.clone();
    after.keys[1] = 0x82;
    after.processors[0].code = 1;
    for request in [
        Request::rrb(0x1000),
        Request::rrb(0x1FFF),
        Request::rrbe(0x1FFF),
    ] {
        completes::<U>(&before, request, &[], 0, &after);
    }
}

/// Bit 7 of control register 0 matters to ISK, SSK and RRB with the 4K facility only.
fn key_control<U: Unit>() {
    for four_k in [false, true] {
        for control in [false, true] {
            let mut before = if four_k { with_4k_units() } else { usual() };
            before.processors[0].key_control = control;
            before.processors[1].key_control = !control;
            for request in one_of_each() {
                let plain_key_instruction = matches!(
                    request,
                    Request::Key(
                        KeyInstruction::Isk { .. }
                            | KeyInstruction::Ssk { .. }
                            | KeyInstruction::Rrb { .. }
                    )
                );
                let expected = if plain_key_instruction && four_k && !control {
                    Err(Reason::SpecialOperation)
                } else {
                    COMPLETED
                };
                assert_eq!(outcome(answer::<U>(&before, 0, request, 4)), expected);
            }
        }
    }
}

/// The protection of a block does not matter to key instructions, and they record no
/// reference or change.
fn key_instructions_are_not_protected<U: Unit>() {
    let mut before = usual();
    before.processors[0].psw_key = 3;
    before.processors[0].low_protection = true;
    before.keys[0] = 0x88;
    before.keys[1] = 0x88;
    completes::<U>(&before, Request::isk(0, 0), &[], 0x88, &before);
    completes::<U>(&before, Request::iske(0, 0), &[], 0x88, &before);
    let mut after = before.clone();
    after.keys[0] = 0x40;
    completes::<U>(&before, Request::ssk(0x40, 0), &[], 0, &after);
    after.keys[1] = 0x40;
    completes::<U>(&before, Request::sske(0x40, 0), &[], 0, &after);
}

/// SET PREFIX takes bits 8-19 of its word; the block is not prefixed, and its keys and
/// the prefix of the other processor do not matter.
fn set_prefix_rules<U: Unit>() {
    let mut before = with_prefix(8192);
    before.processors[0].psw_key = 3;
    before.processors[0].low_protection = true;
    before.processors[0].code = 2;
    before.processors[1].prefix = 12_288;
    before.keys = vec![0x89; 32];
    for (word, prefix) in [
        (0, 0),
        (0xFFF, 0),
        (0xFF00_0FFF, 0),
        (8192, 8192),
        (12_288, 12_288),
        (0xFF00_FFFF, 61_440),
    ] {
        let mut after = before.clone();
        after.processors[0].prefix = prefix;
        completes::<U>(&before, Request::set_prefix(word), &[7; 3], 0, &after);
        completes::<U>(&after, Request::store_prefix(), &[7; 3], prefix, &after);
    }
    for word in [65_536, 0x00FF_F000, 0xFF01_0000] {
        refused::<U>(
            &before,
            Request::set_prefix(word),
            &[],
            Reason::Addressing,
            0,
        );
    }
}

/// A new prefix holds from the next request of that processor, and only for it.
fn new_prefix_holds<U: Unit>() {
    let mut lent = usual();
    let given = lent.request::<U>(1, &Request::set_prefix(4096), &mut []);
    assert_eq!(given, comparison::completed(0, None));
    let mut buffer = [0];
    let given = lent.request::<U>(1, &Request::fetch(10, 1), &mut buffer);
    assert_eq!(outcome(given), COMPLETED);
    assert_eq!(buffer, [content(4106)]);
    let given = lent.request::<U>(0, &Request::fetch(10, 1), &mut buffer);
    assert_eq!(outcome(given), COMPLETED);
    assert_eq!(buffer, [10]);
    assert_eq!(lent.processors[0].prefix, 0);
    assert_eq!(lent.processors[1].prefix, 4096);
    let given = lent.request::<U>(0, &Request::store_prefix(), &mut []);
    assert_eq!(given, comparison::completed(0, None));
}

/// SET PREFIX cannot mend a bad prefix.
fn bad_prefix_stays<U: Unit>() {
    refused::<U>(
        &with_prefix(65_536),
        Request::set_prefix(0),
        &[],
        Reason::Record,
        0,
    );
    refused::<U>(
        &with_prefix(4),
        Request::store_prefix(),
        &[],
        Reason::Record,
        0,
    );
}

/// Without the extensions, everything but the three extended instructions completes.
fn without_extensions<U: Unit>() {
    let mut before = usual();
    before.settings.extensions = false;
    for request in one_of_each() {
        let extended = matches!(
            request,
            Request::Key(
                KeyInstruction::Iske { .. }
                    | KeyInstruction::Sske { .. }
                    | KeyInstruction::Rrbe { .. }
            )
        );
        let expected = if extended {
            Err(Reason::Operation)
        } else {
            COMPLETED
        };
        assert_eq!(outcome(answer::<U>(&before, 0, request, 4)), expected);
    }
}

/// Only RRB and RRBE change the condition code, and only their processor's.
fn condition_code<U: Unit>() {
    let mut before = usual();
    before.processors[0].code = 1;
    before.processors[1].code = 2;
    before.keys[0] = 0x06;
    for request in one_of_each() {
        for processor in 0..2 {
            let mut lent = before.clone();
            let given = lent.request::<U>(processor, &request, &mut [0; 4]);
            assert_eq!(outcome(given), COMPLETED);
            let resets = matches!(
                request,
                Request::Key(KeyInstruction::Rrb { .. } | KeyInstruction::Rrbe { .. })
            );
            let mut codes = [1, 2];
            if resets {
                codes[processor as usize] = 3;
            }
            assert_eq!(lent.processors.map(|record| record.code), codes);
        }
    }
}

for_each_unit! {
    order_of_lines_for_accesses
    order_of_lines_for_isk_and_ssk
    order_of_lines_for_rrb
    order_of_lines_for_extended_instructions
    order_of_lines_for_prefix_instructions
    lengths_of_storage_and_keys
    processor_numbers_and_records
    largest_fields
    outside_before_forbidden
    start_outside
    past_the_highest_address
    access_under_two_rules
    protection_by_absolute_address
    each_block_under_each_prefix
    prefix_stays_inside
    access_to_the_end_of_a_unit
    access_within_a_4k_unit
    bit_7_and_accesses
    low_address_protection
    accesses_in_problem_state
    buffers
    key_instructions_are_prefixed
    ignored_bits
    address_sizes
    insert
    reset_reference
    key_instructions_with_4k_units
    key_control
    key_instructions_are_not_protected
    set_prefix_rules
    new_prefix_holds
    bad_prefix_stays
    without_extensions
    condition_code
}
