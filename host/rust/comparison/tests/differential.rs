//! Random requests: each implementation against the reference.
//!
//! Every request runs on two copies of the same machine, on one by the reference
//! and on the other by the implementation under test. After each request these
//! are compared: the answer, the whole buffer, both records in every field, and
//! every key. Of the storage, the neighbourhoods of the addresses that the request
//! names are compared after each request, with and without prefixing; the whole
//! storage is compared from time to time and at the end of each machine.
//!
//! `STORAGE_UNIT_REQUESTS` sets the number of requests for each implementation,
//! `STORAGE_UNIT_SEED` the seed of the first machine. Each further machine has the
//! seed of the one before it plus one. A failure prints the seed of its machine; to
//! repeat it, give that seed.

mod support;

use std::fmt::Write;
use std::thread;

use storage_unit::{
    AccessKind, Answer, KeyInstruction, PrefixInstruction, Processor, Reason, Request, Rule,
    Settings, boundary,
};
use storage_unit_comparison::numbers::number;
use storage_unit_comparison::units::{
    Plain, PlainBehindBoundary, PlainShortWay, Proved, ProvedMachine, ProvedShortWay, Reference,
};
use storage_unit_comparison::{Unit, reference};

use support::*;

const DEFAULT_REQUESTS: u64 = 1_000_000;
const DEFAULT_SEED: u64 = 3_700_000;

/// The counts below are asserted from this number of requests on.
const ENOUGH_TO_COUNT: u64 = 500_000;

/// Storage bytes compared on each side of an address.
const NEIGHBOURHOOD: usize = 320;

const OPERATIONS: [&str; 10] = [
    "fetch",
    "store",
    "ISK",
    "SSK",
    "RRB",
    "ISKE",
    "SSKE",
    "RRBE",
    "SET PREFIX",
    "STORE PREFIX",
];

/// The numbers of answers: 0 for completed, and that of every reason.
const NUMBERS: [u16; 10] = [0, 1, 2, 4, 5, 6, 19, 64, 65, 66];

/// The numbers each operation can give besides 0, 64 and 65.
fn possible_numbers(operation: usize) -> &'static [u16] {
    match operation as u32 {
        boundary::FETCH | boundary::STORE => &[4, 5, 66],
        boundary::ISK | boundary::SSK => &[2, 5, 6, 19],
        boundary::RRB => &[2, 5, 19, 66],
        boundary::ISKE | boundary::SSKE | boundary::RRBE => &[1, 2, 5],
        boundary::SET_PREFIX => &[2, 5],
        _ => &[2],
    }
}

/// Situations that the random requests must meet.
#[derive(Clone, Copy)]
enum Event {
    CompletedPastEnd,
    RefusedPastEndByLowAddress,
    CompletedOverTwoUnits,
    RefusedInSecondUnit,
    OutsideAfterFirstByte,
    PrefixRule1,
    PrefixRule2,
    TwoPrefixRules,
    PrefixRule1WithPrefixZero,
    BlockByRule1,
    BlockByRule2,
    IgnoredBitsUnderAnotherRule,
    PrefixAtLastBlock,
    PrefixAtEnd,
    LowAddressAgainstKeyZero,
    StoreAt512,
    LowAbsoluteByPrefixing,
    FetchWithoutMatch,
    FetchRefused,
    FetchClearedBit7,
    StoreClearedBit7,
    RefusedKeptBit7,
    BufferOneShort,
    LongFetchBuffer,
    LongStoreBuffer,
    IgnoredBitsIn2kRegister,
    SecondHalfOf4kUnit,
    ResetWithIgnoredBits,
    ExtendedWithBit0,
    ExtendedOutsideByBits1To7,
    InsertJoinedTwoKeys,
    ResetOfTwoKeys,
    ResetOfChangedHighKey,
    ResetOfOneKey,
    SetPrefixWithIgnoredBits,
    OtherRecordDamaged,
}

const EVENTS: [(Event, &str); 36] = [
    (Event::CompletedPastEnd, "access completed past 16,777,215"),
    (
        Event::RefusedPastEndByLowAddress,
        "access past 16,777,215 refused at address 0 by low-address protection",
    ),
    (
        Event::CompletedOverTwoUnits,
        "access completed over two units",
    ),
    (
        Event::RefusedInSecondUnit,
        "access refused in its second unit",
    ),
    (
        Event::OutsideAfterFirstByte,
        "access refused with 5 after its first byte",
    ),
    (
        Event::PrefixRule1,
        "access completed by prefix rule 1, prefix not zero",
    ),
    (Event::PrefixRule2, "access completed by prefix rule 2"),
    (
        Event::TwoPrefixRules,
        "access completed under two prefix rules",
    ),
    (
        Event::PrefixRule1WithPrefixZero,
        "access completed by prefix rule 1, prefix zero",
    ),
    (
        Event::BlockByRule1,
        "key instruction completed by prefix rule 1, prefix not zero",
    ),
    (
        Event::BlockByRule2,
        "key instruction completed by prefix rule 2",
    ),
    (
        Event::IgnoredBitsUnderAnotherRule,
        "key instruction completed, its ignored bits under another prefix rule",
    ),
    (
        Event::PrefixAtLastBlock,
        "access to block 0 completed, the prefix at the last block of storage",
    ),
    (
        Event::PrefixAtEnd,
        "refused with 65, an absolute address outside by a prefix at the end of storage",
    ),
    (
        Event::LowAddressAgainstKeyZero,
        "store by PSW key 0 refused by low-address protection",
    ),
    (
        Event::StoreAt512,
        "store at 512 completed under low-address protection",
    ),
    (
        Event::LowAbsoluteByPrefixing,
        "store under low-address protection completed at absolute 0-511 by prefixing",
    ),
    (Event::FetchWithoutMatch, "fetch completed without a match"),
    (Event::FetchRefused, "fetch refused by fetch protection"),
    (Event::FetchClearedBit7, "fetch cleared bit 7 of a key"),
    (Event::StoreClearedBit7, "store cleared bit 7 of a key"),
    (Event::RefusedKeptBit7, "refused access left bit 7 of a key"),
    (Event::BufferOneShort, "buffer one byte too short"),
    (
        Event::LongFetchBuffer,
        "buffer longer than a completed fetch",
    ),
    (
        Event::LongStoreBuffer,
        "buffer longer than a completed store",
    ),
    (
        Event::IgnoredBitsIn2kRegister,
        "ISK or SSK completed with ignored bits of R2 on",
    ),
    (
        Event::SecondHalfOf4kUnit,
        "ISK or SSK completed on the second half of a 4K unit",
    ),
    (
        Event::ResetWithIgnoredBits,
        "RRB completed with ignored bits on and with code 1 or 2",
    ),
    (
        Event::ExtendedWithBit0,
        "extended instruction completed with bit 0 of R2 on",
    ),
    (
        Event::ExtendedOutsideByBits1To7,
        "extended instruction outside by bits 1-7 of R2",
    ),
    (Event::InsertJoinedTwoKeys, "ISKE joined bits of two keys"),
    (
        Event::ResetOfTwoKeys,
        "RRBE on two keys, its code that of neither alone",
    ),
    (
        Event::ResetOfChangedHighKey,
        "RRBE on two keys, the change bit in the high-order one alone",
    ),
    (
        Event::ResetOfOneKey,
        "RRBE on one key, its code not that of it and the next key together",
    ),
    (
        Event::SetPrefixWithIgnoredBits,
        "SET PREFIX completed with ignored bits on",
    ),
    (
        Event::OtherRecordDamaged,
        "completed while the other record was damaged",
    ),
];

/// Whether each event was met.
struct Met([bool; EVENTS.len()]);

impl Met {
    fn none() -> Self {
        Met([false; EVENTS.len()])
    }

    fn set(&mut self, event: Event, met: bool) {
        self.0[event as usize] = met;
    }
}

/// Whether a real address that the request names is inside storage and its absolute
/// address outside.
fn absolute_outside(request: &Request, prefix: u32, storage_length: usize) -> bool {
    let outside = |real: u32| {
        (real as usize) < storage_length && absolute(real, prefix) as usize >= storage_length
    };
    match *request {
        Request::Access { address, count, .. } => (0..count.min(256))
            .any(|offset| outside((address % ADDRESSES_24 + offset) % ADDRESSES_24)),
        Request::Key(ref instruction) => outside(block_of(instruction).1),
        Request::Prefix(_) => false,
    }
}

/// What a request met, as the test sees it.
fn events_of(
    settings: Settings,
    keys_before: &[u8],
    records_before: &[Processor; 2],
    storage_length: usize,
    asked: &Asked,
    answer: &Answer,
) -> Met {
    let mut met = Met::none();
    let Some(own) = records_before.get(asked.processor as usize) else {
        return met;
    };
    let other = &records_before[1 - asked.processor as usize];
    let completed = answer.is_ok();
    let refused = |reason| outcome(*answer) == Err(reason);
    let place = answer.err().map_or(0, |refusal| refusal.place);
    let two_keys = !settings.four_k;
    met.set(
        Event::PrefixAtEnd,
        refused(Reason::Record)
            && own.prefix as usize == storage_length
            && absolute_outside(&asked.request, own.prefix, storage_length),
    );
    met.set(
        Event::OtherRecordDamaged,
        completed && !is_valid(other, storage_length),
    );
    if let (Request::Key(instruction), true) = (&asked.request, completed) {
        let (operand, block) = block_of(instruction);
        let by_rule = rule(block, own.prefix);
        met.set(
            Event::BlockByRule1,
            by_rule == Rule::Zero && own.prefix != 0,
        );
        met.set(Event::BlockByRule2, by_rule == Rule::Prefix);
        met.set(
            Event::IgnoredBitsUnderAnotherRule,
            rule(operand & 0x7FFF_FFFF, own.prefix) != by_rule,
        );
    }
    match asked.request {
        Request::Access {
            kind,
            address,
            count,
        } => {
            met.set(
                Event::BufferOneShort,
                refused(Reason::Operand)
                    && (1..=256).contains(&count)
                    && address < ADDRESSES_24
                    && asked.buffer_length + 1 == count as usize,
            );
            if !completed && !refused(Reason::Protection) {
                met.set(
                    Event::OutsideAfterFirstByte,
                    refused(Reason::Addressing) && place > 0,
                );
                return met;
            }
            let fetch = kind == AccessKind::Fetch;
            let last = (address + count - 1) % ADDRESSES_24;
            let unit = settings.key_unit() as u32;
            let key = keys_before[(absolute(address, own.prefix) / unit) as usize];
            let last_key = keys_before[(absolute(last, own.prefix) / unit) as usize];
            let keys_match = own.psw_key == 0 || own.psw_key == key >> 4;
            let rule = |real: u32| rule(real, own.prefix);
            let past_end = address + count > ADDRESSES_24;
            let low_store = !fetch && own.low_protection;
            if completed {
                met.set(Event::CompletedPastEnd, past_end);
                met.set(Event::CompletedOverTwoUnits, address / unit != last / unit);
                let by_rule_1 = rule(address) == Rule::Zero;
                met.set(Event::PrefixRule1, by_rule_1 && own.prefix != 0);
                met.set(Event::PrefixRule2, rule(address) == Rule::Prefix);
                met.set(
                    Event::PrefixRule1WithPrefixZero,
                    by_rule_1 && own.prefix == 0,
                );
                met.set(
                    Event::PrefixAtLastBlock,
                    by_rule_1 && own.prefix != 0 && own.prefix as usize + 4096 == storage_length,
                );
                met.set(
                    Event::TwoPrefixRules,
                    rule(address) != rule(last) && own.prefix != 0,
                );
                met.set(Event::StoreAt512, low_store && address == 512);
                met.set(
                    Event::LowAbsoluteByPrefixing,
                    low_store && absolute(address, own.prefix) < 512,
                );
                met.set(Event::FetchWithoutMatch, fetch && !keys_match);
                met.set(Event::FetchClearedBit7, fetch && (key | last_key) & 1 != 0);
                met.set(Event::StoreClearedBit7, !fetch && (key | last_key) & 1 != 0);
                met.set(
                    Event::LongFetchBuffer,
                    fetch && asked.buffer_length > count as usize,
                );
                met.set(
                    Event::LongStoreBuffer,
                    !fetch && asked.buffer_length > count as usize,
                );
            } else {
                met.set(
                    Event::RefusedPastEndByLowAddress,
                    past_end
                        && low_store
                        && own.psw_key == 0
                        && u32::from(place) == ADDRESSES_24 - address,
                );
                met.set(Event::RefusedInSecondUnit, place > 0);
                met.set(
                    Event::LowAddressAgainstKeyZero,
                    low_store && own.psw_key == 0 && address < 512,
                );
                met.set(Event::FetchRefused, fetch);
                met.set(Event::RefusedKeptBit7, (key | last_key) & 1 != 0);
            }
        }
        Request::Key(instruction) if completed => match instruction {
            KeyInstruction::Isk { r2, .. } | KeyInstruction::Ssk { r2, .. } => {
                met.set(
                    Event::IgnoredBitsIn2kRegister,
                    r2 & 0xFF00_0000 != 0 && r2 & 0x0000_07F0 != 0,
                );
                met.set(
                    Event::SecondHalfOf4kUnit,
                    settings.four_k && r2 & 0x800 != 0,
                );
            }
            KeyInstruction::Rrb { address } => {
                let unit = absolute(address, own.prefix) as usize / settings.key_unit();
                let code = (keys_before[unit] >> 1) & 3;
                met.set(
                    Event::ResetWithIgnoredBits,
                    address & 0x7FF != 0 && (code == 1 || code == 2),
                );
            }
            KeyInstruction::Iske { r2, .. }
            | KeyInstruction::Sske { r2, .. }
            | KeyInstruction::Rrbe { r2 } => {
                met.set(Event::ExtendedWithBit0, r2 >> 31 == 1);
                let block = absolute(r2 & 0x7FFF_F000, own.prefix) as usize;
                let unit = block / settings.key_unit();
                let low = (keys_before[unit] >> 1) & 3;
                let next = (keys_before.get(unit + 1).copied().unwrap_or(0) >> 1) & 3;
                let both = low | next;
                let insert = matches!(instruction, KeyInstruction::Iske { .. });
                let reset = matches!(instruction, KeyInstruction::Rrbe { .. });
                met.set(
                    Event::InsertJoinedTwoKeys,
                    insert && two_keys && both != low,
                );
                met.set(
                    Event::ResetOfTwoKeys,
                    reset && two_keys && both != low && both != next,
                );
                met.set(
                    Event::ResetOfChangedHighKey,
                    reset && two_keys && low & 1 == 0 && next & 1 == 1,
                );
                met.set(Event::ResetOfOneKey, reset && !two_keys && both != low);
            }
        },
        Request::Key(
            KeyInstruction::Iske { r2, .. }
            | KeyInstruction::Sske { r2, .. }
            | KeyInstruction::Rrbe { r2 },
        ) => {
            met.set(
                Event::ExtendedOutsideByBits1To7,
                refused(Reason::Addressing)
                    && r2 & 0x7F00_0000 != 0
                    && ((r2 & 0x00FF_FFFF) as usize) < storage_length,
            );
        }
        Request::Prefix(PrefixInstruction::SetPrefix { word }) => {
            met.set(
                Event::SetPrefixWithIgnoredBits,
                completed && word & 0xFF00_0000 != 0 && word & 0x0000_0FFF != 0,
            );
        }
        Request::Key(_) | Request::Prefix(_) => {}
    }
    met
}

/// How often each operation gave each number, and how often each event was met.
struct Counts {
    numbers: [[u64; NUMBERS.len()]; OPERATIONS.len()],
    events: [u64; EVENTS.len()],
    machines: u64,
}

impl Counts {
    fn new() -> Self {
        Counts {
            numbers: [[0; NUMBERS.len()]; OPERATIONS.len()],
            events: [0; EVENTS.len()],
            machines: 0,
        }
    }

    fn total(&self, number: u16) -> u64 {
        let column = column(number);
        self.numbers.iter().map(|row| row[column]).sum()
    }

    fn table(&self, requests: u64) -> String {
        let mut text = format!("{requests} requests on {} machines\n", self.machines);
        write!(text, "{:14}", "").unwrap();
        for number in NUMBERS {
            write!(text, "{number:>9}").unwrap();
        }
        text.push('\n');
        for (name, row) in OPERATIONS.iter().zip(&self.numbers) {
            write!(text, "{name:14}").unwrap();
            for count in row {
                write!(text, "{count:>9}").unwrap();
            }
            text.push('\n');
        }
        for (event, name) in EVENTS {
            let count = self.events[event as usize];
            writeln!(text, "{count:>9}  {name}").unwrap();
        }
        text
    }

    /// Every line of the table was met often, by every operation that can meet it,
    /// and no operation gave a number that it cannot give.
    fn check(&self, requests: u64) {
        if requests < ENOUGH_TO_COUNT {
            return;
        }
        for number in NUMBERS {
            let minimum = requests / 500;
            assert!(
                self.total(number) >= minimum,
                "{number} came back {} times, fewer than {minimum}",
                self.total(number)
            );
        }
        for (operation, row) in self.numbers.iter().enumerate() {
            for (number, count) in NUMBERS.into_iter().zip(row) {
                let possible =
                    [0, 64, 65].contains(&number) || possible_numbers(operation).contains(&number);
                let minimum = if possible { requests / 5_000 } else { 0 };
                assert!(
                    *count >= minimum && (possible || *count == 0),
                    "{} gave {number} {count} times",
                    OPERATIONS[operation]
                );
            }
        }
        for (event, name) in EVENTS {
            let count = self.events[event as usize];
            let minimum = requests / 20_000;
            assert!(
                count >= minimum,
                "\"{name}\" was met {count} times, fewer than {minimum}"
            );
        }
    }
}

fn column(number: u16) -> usize {
    NUMBERS
        .iter()
        .position(|each| *each == number)
        .expect("every number is in the list")
}

/// What is asked in one step, with the lengths that are lent for it.
#[derive(Clone, Copy, Debug)]
struct Asked {
    processor: u32,
    request: Request,
    storage_length: usize,
    keys_length: usize,
    buffer_length: usize,
}

/// One copy of a machine. Storage and keys are longer than the machine has, so that
/// arrays that are too long can be lent.
#[derive(Clone)]
struct Side {
    storage: Vec<u8>,
    keys: Vec<u8>,
    processors: [Processor; 2],
    buffer: Vec<u8>,
}

impl Side {
    fn ask<U: Unit>(&mut self, settings: Settings, asked: &Asked) -> Answer {
        (U::REQUEST)(
            settings,
            &mut self.storage[..asked.storage_length],
            &mut self.keys[..asked.keys_length],
            &mut self.processors,
            asked.processor,
            &asked.request,
            &mut self.buffer,
        )
    }
}

/// Says where a failure happened, also when the implementation under test panics.
struct Position {
    unit: &'static str,
    seed: u64,
    step: u64,
    settings: Settings,
    records: [Processor; 2],
    asked: Option<Asked>,
}

impl Drop for Position {
    fn drop(&mut self) {
        if thread::panicking() {
            eprintln!(
                "{}: STORAGE_UNIT_SEED={}, step {}\n{:?}\nrecords before {:?}\n{:?}",
                self.unit, self.seed, self.step, self.settings, self.records, self.asked
            );
        }
    }
}

/// The length of a storage and the number of requests for its machine. Large
/// machines take longer to set up and get more requests.
fn random_size(random: &mut Random) -> (usize, u64) {
    match random.below(100) {
        0..=39 => {
            let length = random.pick(&[4096, 8192, 12_288, 16_384, 20_480, 65_536]);
            (length, 4_000)
        }
        40..=79 => ((1 + random.below(32) as usize) * 4096, 4_000),
        80..=91 => ((1 + random.below(512) as usize) * 4096, 10_000),
        92 => (MAXIMUM_STORAGE / 2, 20_000),
        93 => (MAXIMUM_STORAGE - 4096, 20_000),
        _ => (MAXIMUM_STORAGE, 50_000),
    }
}

/// Lengths of storage and keys that mostly break the numbers of the machine.
fn random_lengths(random: &mut Random, side: &Side, length: usize, keys: usize) -> (usize, usize) {
    let storage_length = random
        .pick(&[
            0,
            1,
            2048,
            4095,
            4096,
            length - 4096,
            length - 2048,
            length - 1,
            length,
            length,
            length,
            length + 1,
            length + 2048,
            length + 4096,
        ])
        .min(side.storage.len());
    let keys_length = random
        .pick(&[
            0,
            1,
            storage_length / 2048,
            storage_length / 4096,
            keys - 1,
            keys,
            keys + 1,
            keys / 2,
            keys * 2,
        ])
        .min(side.keys.len());
    (storage_length, keys_length)
}

fn compare_storage(expected: &Side, actual: &Side, asked: &Asked, prefix: u32) {
    if let Request::Access { address, count, .. } = asked.request {
        let first = address % ADDRESSES_24;
        let last = first.wrapping_add(count.clamp(1, 256) - 1) % ADDRESSES_24;
        for address in [first, last] {
            compare_around(expected, actual, address);
            if prefix < ADDRESSES_24 {
                compare_around(expected, actual, absolute(address, prefix));
            }
        }
    }
    compare_around(expected, actual, 0);
}

fn compare_around(expected: &Side, actual: &Side, address: u32) {
    let end = (address as usize + NEIGHBOURHOOD).min(expected.storage.len());
    let start = (address as usize).saturating_sub(NEIGHBOURHOOD).min(end);
    assert!(
        expected.storage[start..end] == actual.storage[start..end],
        "storage differs near {address}"
    );
}

/// Runs one machine from its seed and gives the number of requests made.
fn run_machine<U: Unit>(seed: u64, limit: u64, counts: &mut Counts) -> u64 {
    let random = &mut Random::new(seed);
    let (length, requests) = random_size(random);
    let settings = Settings {
        four_k: random.one_in(2),
        extensions: !random.one_in(4),
    };
    let key_count = settings.key_count(length);
    let mut expected = Side {
        storage: random.bytes(length + 4096),
        keys: random.bytes(2 * key_count + 4),
        processors: [(); 2].map(|()| random_processor(random, length)),
        buffer: Vec::new(),
    };
    for key in &mut expected.keys {
        *key = random_key(random);
    }
    let mut actual = expected.clone();
    let whole_comparison = if length > 1 << 20 { 8192 } else { 512 };

    let mut position = Position {
        unit: U::NAME,
        seed,
        step: 0,
        settings,
        records: expected.processors,
        asked: None,
    };
    let mut keys_before = Vec::new();
    let requests = requests.min(limit);
    for step in 0..requests {
        let processor = match random.below(50) {
            0 => random.pick(&[2, 3, 255, 256, 1 << 31, u32::MAX, u32::MAX - 1]),
            number => number as u32 % 2,
        };
        change_records(random, &mut expected.processors, processor, length);
        let records = expected.processors;
        let aim = Aim::new(settings, length, &records, processor);
        let request = random_request(random, &aim);
        if random.one_in(2) {
            change_keys(random, &mut expected.keys[..key_count], &aim, &request);
        }
        random_buffer(random, &request, &mut expected.buffer);
        let (storage_length, keys_length) = if random.one_in(50) {
            random_lengths(random, &expected, length, key_count)
        } else {
            (length, key_count)
        };
        let asked = Asked {
            processor,
            request,
            storage_length,
            keys_length,
            buffer_length: expected.buffer.len(),
        };
        actual.processors = expected.processors;
        actual.keys.copy_from_slice(&expected.keys);
        actual.buffer.clone_from(&expected.buffer);
        keys_before.clone_from(&expected.keys);
        position.step = step;
        position.records = records;
        position.asked = Some(asked);

        let expected_answer = expected.ask::<Reference>(settings, &asked);
        let actual_answer = actual.ask::<U>(settings, &asked);

        assert_eq!(actual_answer, expected_answer, "the answer differs");
        assert_eq!(actual.processors, expected.processors, "the records differ");
        assert!(actual.buffer == expected.buffer, "the buffer differs");
        assert!(actual.keys == expected.keys, "the keys differ");
        compare_storage(&expected, &actual, &asked, aim.own_prefix);
        if step % whole_comparison == whole_comparison - 1 {
            assert!(actual.storage == expected.storage, "the storage differs");
        }

        let (operation, _, _) = boundary::encode_request(&request);
        counts.numbers[operation as usize][column(number(expected_answer))] += 1;
        let met = events_of(
            settings,
            &keys_before,
            &records,
            storage_length,
            &asked,
            &expected_answer,
        );
        for (count, met) in counts.events.iter_mut().zip(met.0) {
            *count += u64::from(met);
        }
    }
    assert!(actual.storage == expected.storage, "the storage differs");
    counts.machines += 1;
    requests
}

/// The host changes records between requests: new values, damage, and repair.
fn change_records(
    random: &mut Random,
    processors: &mut [Processor; 2],
    processor: u32,
    storage_length: usize,
) {
    let own = usize::from(processor == 1);
    if !is_valid(&processors[own], storage_length) {
        if random.one_in(2) {
            processors[own] = random_processor(random, storage_length);
        }
    } else if random.one_in(60) {
        damage(random, &mut processors[own], storage_length);
    } else if random.one_in(3) {
        processors[own] = random_processor(random, storage_length);
    }
    if random.one_in(60) {
        damage(random, &mut processors[1 - own], storage_length);
    }
}

/// The host writes new keys for the units that the request is aimed at.
fn change_keys(random: &mut Random, keys: &mut [u8], aim: &Aim, request: &Request) {
    let (_, first, second) = boundary::encode_request(request);
    let real = match request {
        Request::Access { .. } => first,
        Request::Key(_) => second,
        Request::Prefix(_) => return,
    } % ADDRESSES_24;
    let unit = absolute(real, aim.own_prefix % ADDRESSES_24) as usize / aim.settings.key_unit();
    let next = absolute(
        (real + aim.settings.key_unit() as u32) % ADDRESSES_24,
        aim.own_prefix % ADDRESSES_24,
    ) as usize
        / aim.settings.key_unit();
    for unit in [unit, unit ^ 1, next] {
        if let Some(key) = keys.get_mut(unit) {
            *key = random_key(random);
        }
    }
}

fn run<U: Unit>() {
    let requests = from_environment("STORAGE_UNIT_REQUESTS", DEFAULT_REQUESTS);
    let first_seed = from_environment("STORAGE_UNIT_SEED", DEFAULT_SEED);
    let mut counts = Counts::new();
    let mut made = 0;
    let mut seed = first_seed;
    while made < requests {
        made += run_machine::<U>(seed, requests - made, &mut counts);
        seed += 1;
    }
    println!("{} against the reference, first seed {first_seed}", U::NAME);
    println!("{}", counts.table(made));
    counts.check(made);
}

#[test]
fn plain_against_reference() {
    run::<Plain>();
}

#[test]
fn plain_behind_boundary_against_reference() {
    run::<PlainBehindBoundary>();
}

#[test]
fn plain_short_way_against_reference() {
    run::<PlainShortWay>();
}

#[test]
fn proved_against_reference() {
    run::<Proved>();
}

#[test]
fn proved_short_way_against_reference() {
    run::<ProvedShortWay>();
}

#[test]
fn proved_machine_against_reference() {
    run::<ProvedMachine>();
}

/// The units that `units_named` gives are those whose keys a completed request
/// changes or whose bytes it touches.
#[test]
fn units_named_by_the_reference() {
    let random = &mut Random::new(DEFAULT_SEED);
    for _ in 0..20_000 {
        let length = (1 + random.below(8) as usize) * 4096;
        let settings = Settings {
            four_k: random.one_in(2),
            extensions: true,
        };
        let mut lent = Lent {
            settings,
            storage: vec![0; length],
            keys: vec![0x01; settings.key_count(length)],
            processors: [(); 2].map(|()| random_processor(random, length)),
        };
        let own = lent.processors[0];
        let aim = Aim::new(settings, length, &lent.processors, 0);
        let request = random_request(random, &aim);
        let mut buffer = vec![0; 300];
        let answer = lent.request::<Reference>(0, &request, &mut buffer);
        let named = reference::units_named(settings, &own, &request, &answer);
        // Every key had bit 7 on. The keys where it went off were written.
        let written: Vec<usize> = (0..lent.keys.len())
            .filter(|unit| lent.keys[*unit] & 1 == 0)
            .collect();
        let inserts = matches!(
            request,
            Request::Key(KeyInstruction::Isk { .. } | KeyInstruction::Iske { .. })
        );
        if answer.is_ok() && !inserts {
            assert_eq!(named, written, "{request:?}");
        } else {
            assert_eq!(written, [], "{request:?}");
        }
    }
}
