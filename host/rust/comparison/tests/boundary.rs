//! The C boundary: its encodings, and the C functions called with any numbers and bytes.

mod support;

use std::ptr::null_mut;

use storage_unit::boundary::*;
use storage_unit::{Processor, Reason, Request, Rule, Settings};
use storage_unit_comparison::numbers::*;
use storage_unit_comparison::{self as comparison, reference};

use support::{
    ADDRESSES_24, Aim, COMPLETED, Outcome, Random, outcome, random_buffer, random_key,
    random_processor, random_request,
};

#[test]
fn settings_have_two_bits() {
    for (four_k, extensions, number) in [
        (false, false, 0),
        (true, false, 1),
        (false, true, 2),
        (true, true, 3),
    ] {
        let settings = Settings { four_k, extensions };
        assert_eq!(encode_settings(settings), number);
        assert_eq!(decode_settings(number), Some(settings));
    }
    for bit in 2..32 {
        assert_eq!(decode_settings(1 << bit), None);
    }
}

#[test]
fn records_have_eight_bytes_each() {
    let processors = [
        Processor {
            psw_key: 0x0A,
            problem: true,
            low_protection: false,
            key_control: false,
            prefix: 0x1234_5678,
            code: 3,
        },
        Processor {
            psw_key: 0xFF,
            problem: false,
            low_protection: true,
            key_control: true,
            prefix: 0x00AB_C000,
            code: 0xFE,
        },
    ];
    let bytes = [
        0x0A, 0x01, 0x03, 0x00, 0x78, 0x56, 0x34, 0x12, //
        0xFF, 0x06, 0xFE, 0x00, 0x00, 0xC0, 0xAB, 0x00,
    ];
    assert_eq!(encode_processors(&processors), bytes);
    assert_eq!(decode_processors(&bytes), processors);
    for (place, bit) in reserved_bits() {
        let mut bytes = bytes;
        bytes[place] |= bit;
        assert_eq!(decode_processors(&bytes)[0].psw_key, 255);
        assert_eq!(decode_processors(&bytes)[1], processors[1]);
    }
}

/// The reserved bits of a record, each with its byte.
fn reserved_bits() -> impl Iterator<Item = (usize, u8)> {
    let controls = (3..8).map(|bit| (CONTROLS_AT, 1 << bit));
    controls.chain((0..8).map(|bit| (RESERVED_AT, 1 << bit)))
}

#[test]
fn every_record_comes_back() {
    for flags in 0..8 {
        for field in [0, 1, 15, 16, 0xFF] {
            let record = Processor {
                psw_key: field,
                problem: flags & 1 != 0,
                low_protection: flags & 2 != 0,
                key_control: flags & 4 != 0,
                prefix: u32::from(field) * 0x0101_0101,
                code: !field,
            };
            let processors = [record, Processor::default()];
            assert_eq!(
                decode_processors(&encode_processors(&processors)),
                processors
            );
            let processors = [Processor::default(), record];
            assert_eq!(
                decode_processors(&encode_processors(&processors)),
                processors
            );
        }
    }
}

#[test]
fn requests_have_operation_and_two_operands() {
    let (r1, r2) = (0x1111_1111, 0x2222_2222);
    for (request, encoded) in [
        (Request::fetch(5, 6), (0, 5, 6)),
        (Request::store(5, 6), (1, 5, 6)),
        (Request::isk(r1, r2), (2, r1, r2)),
        (Request::ssk(r1, r2), (3, r1, r2)),
        (Request::rrb(7), (4, 0, 7)),
        (Request::iske(r1, r2), (5, r1, r2)),
        (Request::sske(r1, r2), (6, r1, r2)),
        (Request::rrbe(r2), (7, 0, r2)),
        (Request::set_prefix(8), (8, 8, 0)),
        (Request::store_prefix(), (9, 0, 0)),
    ] {
        assert_eq!(encode_request(&request), encoded);
        let (operation, first, second) = encoded;
        assert_eq!(decode_request(operation, first, second), request);
    }
    for operation in [10, u32::MAX] {
        assert_eq!(decode_request(operation, r1, 4), Request::fetch(r1, 0));
    }
}

#[test]
fn answers_are_packed() {
    for (answer, packed) in [
        (
            comparison::refused(Reason::SpecialOperation, 0xFE),
            0x0013_00FE_0000_0000,
        ),
        (comparison::completed(0x8899_AABB, None), 0x8899_AABB),
        (
            comparison::completed(0x8899_AABB, Some(Rule::Zero)),
            0x0000_0100_8899_AABB,
        ),
        (
            comparison::completed(0, Some(Rule::Prefix)),
            0x0000_0200_0000_0000,
        ),
        (
            comparison::completed(0, Some(Rule::Unchanged)),
            0x0000_0300_0000_0000,
        ),
    ] {
        assert_eq!(encode_answer(answer), packed);
        assert_eq!(decode_answer(packed), Some(answer));
    }
    // The numbers 3 and 67; the rules 4 and 255; completed with a place; refused with a word,
    // and with a rule.
    for unknown in [
        0x0003_0000_0000_0000,
        0x0043_0000_0000_0000,
        0x0000_0400_0000_0000,
        0x0000_FF00_0000_0000,
        0x0000_0001_0000_0000,
        0x0005_0000_0000_0001,
        0x0005_0100_0000_0000,
    ] {
        assert_eq!(decode_answer(unknown), None);
    }
    for number in 1..=u16::MAX {
        let packed = u64::from(number) << 48 | 0xFF << 32;
        let answer = Reason::try_from(number).map(|reason| comparison::refused(reason, 255));
        assert_eq!(decode_answer(packed), answer.ok());
        if let Ok(answer) = answer {
            assert_eq!(encode_answer(answer), packed);
        }
    }
}

/// The bytes that are lent to a call.
#[derive(Clone, Debug, PartialEq, Eq)]
struct Bytes {
    storage: Vec<u8>,
    keys: Vec<u8>,
    records: Vec<u8>,
    buffer: Vec<u8>,
}

impl Bytes {
    /// Two 4K blocks with 2K units. Both records are zero: supervisor state, PSW key 0,
    /// prefix 0. Bit 7 of each key is on, so that a key that is written changes.
    fn new() -> Bytes {
        Bytes {
            storage: vec![0x5A; 8192],
            keys: vec![0x27; 4],
            records: vec![0; RECORDS_LENGTH],
            buffer: vec![0xA5; 8],
        }
    }

    fn record(&mut self, processor: usize) -> &mut [u8] {
        &mut self.records[processor * RECORD_LENGTH..][..RECORD_LENGTH]
    }

    fn call(
        &mut self,
        raw: RawRequest,
        settings: u32,
        processor: u32,
        request: (u32, u32, u32),
    ) -> u64 {
        // SAFETY: the tests call the functions of this crate and of the static library.
        unsafe {
            call_raw(
                raw,
                settings,
                &mut self.storage,
                &mut self.keys,
                &mut self.records,
                processor,
                request,
                &mut self.buffer,
            )
        }
    }

    /// A fetch or store of as many bytes as the buffer has, by its own function.
    fn access(
        &mut self,
        (fetch, store): (RawFetch, RawStore),
        settings: u32,
        record: u64,
        operation: u32,
        address: u32,
    ) -> u64 {
        let (storage, keys) = (&mut self.storage, &mut self.keys);
        let (lengths, bytes) = ((storage.len(), keys.len()), &mut self.buffer);
        let (storage, keys) = (storage.as_mut_ptr(), keys.as_mut_ptr());
        // SAFETY: as above.
        unsafe {
            match operation {
                FETCH => fetch(
                    settings,
                    storage,
                    lengths.0,
                    keys,
                    lengths.1,
                    record,
                    address,
                    bytes.as_mut_ptr(),
                    bytes.len(),
                ),
                _ => store(
                    settings,
                    storage,
                    lengths.0,
                    keys,
                    lengths.1,
                    record,
                    address,
                    bytes.as_ptr(),
                    bytes.len(),
                ),
            }
        }
    }
}

/// One request of each operation that completes with `Bytes::new()` and the extensions,
/// for each processor.
const COMPLETING: [(u32, u32, u32); 10] = [
    (FETCH, 100, 4),
    (STORE, 100, 4),
    (ISK, 0x1234_5678, 0x800),
    (SSK, 0x30, 0x800),
    (RRB, 0, 0x800),
    (ISKE, 0, 0),
    (SSKE, 0x30, 0),
    (RRBE, 0, 0),
    (SET_PREFIX, 4096, 0),
    (STORE_PREFIX, 0, 0),
];

/// The request completes.
fn completes(raw: RawRequest, bytes: &mut Bytes, processor: u32, request: (u32, u32, u32)) {
    let packed = bytes.call(raw, EXTENSIONS, processor, request);
    assert_eq!(
        decode_answer(packed).map(outcome),
        Some(COMPLETED),
        "{request:?}"
    );
}

/// The request is refused for this reason with place 0, and nothing lent changes.
fn refused(
    raw: RawRequest,
    before: &Bytes,
    settings: u32,
    processor: u32,
    request: (u32, u32, u32),
    reason: Reason,
) {
    let mut bytes = before.clone();
    let packed = bytes.call(raw, settings, processor, request);
    assert_eq!(
        decode_answer(packed),
        Some(comparison::refused(reason, 0)),
        "{request:?}, settings {settings}, processor {processor}"
    );
    assert!(bytes == *before, "{request:?}");
}

/// Another bit of the settings: 64, before everything else.
fn other_settings(raw: RawRequest) {
    let good = Bytes::new();
    let mut bad = good.clone();
    bad.records[PSW_KEY_AT] = 16;
    bad.records.pop();
    for bit in 2..32 {
        for settings in [1 << bit, 1 << bit | EXTENSIONS] {
            for request in COMPLETING.into_iter().chain([(10, 0, 0)]) {
                for processor in 0..3 {
                    refused(
                        raw,
                        &good,
                        settings,
                        processor,
                        request,
                        Reason::Configuration,
                    );
                    refused(
                        raw,
                        &bad,
                        settings,
                        processor,
                        request,
                        Reason::Configuration,
                    );
                }
            }
        }
    }
}

/// A number that no operation has: 66, where 64 and 65 do not apply.
fn other_operations(raw: RawRequest) {
    let bytes = Bytes::new();
    let mut bad_record = bytes.clone();
    bad_record.record(0)[PSW_KEY_AT] = 16;
    let mut bad_lengths = bad_record.clone();
    bad_lengths.keys.pop();
    for operation in [10, 11, 255, 256, 257, 65_536, 1 << 31, u32::MAX] {
        for (_, first, second) in COMPLETING {
            let request = (operation, first, second);
            refused(raw, &bytes, EXTENSIONS, 0, request, Reason::Operand);
            refused(raw, &bytes, EXTENSIONS, 1, request, Reason::Operand);
            refused(raw, &bytes, EXTENSIONS, 2, request, Reason::Record);
            refused(raw, &bad_record, EXTENSIONS, 0, request, Reason::Record);
            refused(raw, &bad_record, EXTENSIONS, 1, request, Reason::Operand);
            refused(
                raw,
                &bad_lengths,
                EXTENSIONS,
                0,
                request,
                Reason::Configuration,
            );
        }
    }
}

/// Records of another length than sixteen: 65, where 64 does not apply.
fn other_lengths_of_records(raw: RawRequest) {
    for length in [0, 1, 8, 15, 17, 24, 32] {
        let mut bytes = Bytes::new();
        bytes.records.resize(length, 0);
        let mut bad_lengths = bytes.clone();
        bad_lengths.storage.pop();
        for request in COMPLETING.into_iter().chain([(10, 0, 0)]) {
            for processor in 0..4 {
                refused(raw, &bytes, EXTENSIONS, processor, request, Reason::Record);
                refused(
                    raw,
                    &bad_lengths,
                    EXTENSIONS,
                    processor,
                    request,
                    Reason::Configuration,
                );
            }
        }
    }
}

/// A reserved bit: 65 for that processor, and no matter to the other, whose requests keep
/// it.
fn reserved_bits_of_records(raw: RawRequest) {
    for (place, bit) in reserved_bits() {
        for processor in 0..2 {
            let mut bytes = Bytes::new();
            bytes.record(processor)[place] |= bit;
            for request in COMPLETING {
                refused(
                    raw,
                    &bytes,
                    EXTENSIONS,
                    processor as u32,
                    request,
                    Reason::Record,
                );
                let mut after = bytes.clone();
                completes(raw, &mut after, 1 - processor as u32, request);
                assert_eq!(after.record(processor), bytes.record(processor));
            }
        }
    }
}

/// A completed request writes its own record and no byte of the other, whatever that
/// holds.
fn other_record_is_kept(raw: RawRequest) {
    for processor in 0..2 {
        for fill in [0x00, 0x5A, 0xFF] {
            let mut before = Bytes::new();
            before.record(1 - processor).fill(fill);
            for request in COMPLETING {
                let mut bytes = before.clone();
                completes(raw, &mut bytes, processor as u32, request);
                assert_eq!(bytes.record(1 - processor), [fill; RECORD_LENGTH]);
                let mut own = [0; RECORD_LENGTH];
                match request.0 {
                    RRB | RRBE => own[CODE_AT] = 3,
                    SET_PREFIX => own[PREFIX_AT + 1] = 0x10,
                    _ => {}
                }
                assert_eq!(bytes.record(processor), own, "{request:?}");
            }
        }
    }
}

/// Where a length is 0, the pointer can be null.
fn null_pointers(raw: RawRequest) {
    let mut bytes = Bytes::new();
    let call = |bytes: &mut Bytes, null: [bool; 4], (operation, first, second)| {
        let lent = [
            &mut bytes.storage,
            &mut bytes.keys,
            &mut bytes.records,
            &mut bytes.buffer,
        ];
        let mut pointers = [(null_mut(), 0); 4];
        for ((pointer, bytes), null) in pointers.iter_mut().zip(lent).zip(null) {
            if !null {
                *pointer = (bytes.as_mut_ptr(), bytes.len());
            }
        }
        let [storage, keys, records, buffer] = pointers;
        // SAFETY: each pointer is that of a separate array with its length, or null with
        // length 0.
        let packed = unsafe {
            raw(
                EXTENSIONS, storage.0, storage.1, keys.0, keys.1, records.0, records.1, 0,
                operation, first, second, buffer.0, buffer.1,
            )
        };
        decode_answer(packed).map(outcome)
    };
    for request in COMPLETING.into_iter().chain([(10, 0, 0)]) {
        for choice in 0..16 {
            let null = [0, 1, 2, 3].map(|index| choice >> index & 1 == 1);
            let [no_storage, no_keys, no_records, no_buffer] = null;
            let uses_buffer = matches!(request.0, FETCH | STORE);
            let expected: Outcome = if no_storage || no_keys {
                Err(Reason::Configuration)
            } else if no_records {
                Err(Reason::Record)
            } else if request.0 == 10 || (uses_buffer && no_buffer) {
                Err(Reason::Operand)
            } else {
                COMPLETED
            };
            bytes.clone_from(&Bytes::new());
            assert_eq!(
                call(&mut bytes, null, request),
                Some(expected),
                "{request:?}"
            );
            if expected.is_err() {
                assert!(bytes == Bytes::new(), "{request:?}");
            }
        }
    }
}

/// What a call leaves, by the reference.
fn expected_call(
    bytes: &mut Bytes,
    settings: u32,
    processor: u32,
    (operation, first, second): (u32, u32, u32),
) -> u64 {
    let Some(settings) = decode_settings(settings) else {
        return encode_answer(comparison::refused(Reason::Configuration, 0));
    };
    let (mut processors, processor) = match bytes.records[..].try_into() {
        Ok(records) => (decode_processors(records), processor),
        Err(_) => ([Processor::default(); 2], 2),
    };
    let answer = reference::request(
        settings,
        &mut bytes.storage,
        &mut bytes.keys,
        &mut processors,
        processor,
        &decode_request(operation, first, second),
        &mut bytes.buffer,
    );
    if answer.is_ok() {
        let processor = processor as usize;
        let own = encode_processor(&processors[processor]);
        bytes.record(processor).copy_from_slice(&own);
    }
    encode_answer(answer)
}

/// Random calls, also with settings, records and operations that the typed interface
/// cannot give. Operands that an operation does not use are random.
fn any_numbers_and_bytes(raw: RawRequest) {
    let random = &mut Random::new(1_987);
    let length = 16_384;
    for step in 0..200_000 {
        let settings = Settings {
            four_k: random.one_in(2),
            extensions: !random.one_in(4),
        };
        let mut keys = vec![0; settings.key_count(length)];
        for key in &mut keys {
            *key = random_key(random);
        }
        let processors = [(); 2].map(|()| random_processor(random, length));
        let mut processor = random.pick(&[0, 0, 0, 0, 1, 1, 1, 1, 2]);
        let aim = Aim::new(settings, length, &processors, processor);
        let request = random_request(random, &aim);
        let mut buffer = Vec::new();
        random_buffer(random, &request, &mut buffer);

        let mut expected = Bytes {
            storage: vec![step as u8; length],
            keys,
            records: encode_processors(&processors).to_vec(),
            buffer,
        };
        let mut settings = encode_settings(settings);
        let (mut operation, mut first, mut second) = encode_request(&request);
        match operation {
            RRB | RRBE => first = random.word(),
            SET_PREFIX => second = random.word(),
            STORE_PREFIX => (first, second) = (random.word(), random.word()),
            _ => {}
        }
        match random.below(16) {
            0 => settings |= 1 << (2 + random.below(30)),
            1 => operation = 10 + random.word() % 1_000,
            2 => expected.records.resize(random.below(40) as usize, 0),
            3 => {
                let place = random.pick(&[CONTROLS_AT, RESERVED_AT]);
                expected.record(random.below(2) as usize)[place] ^= 1 << random.below(8);
            }
            4 => {
                let damaged = random.below(2) as usize;
                random.fill(expected.record(damaged));
            }
            5 => processor = random.word(),
            _ => {}
        }

        let mut actual = expected.clone();
        let asked = (operation, first, second);
        let packed = actual.call(raw, settings, processor, asked);
        let expected_packed = expected_call(&mut expected, settings, processor, asked);
        assert_eq!(packed, expected_packed, "step {step}: {request:?}");
        assert!(actual == expected, "step {step}: {request:?}");
    }
}

/// The functions for fetch and store answer and leave what that for every request does, for
/// any settings, lengths, record, address and number of bytes.
fn short_way_as_request(request: RawRequest, fetch: RawFetch, store: RawStore) {
    let random = &mut Random::new(2_026);
    let length = 16_384;
    for step in 0..200_000 {
        let settings = random.below(5) as u32;
        let four_k = settings & FOUR_K != 0;
        let (key_shift, mut own) = (
            if four_k { 12 } else { 11 },
            random_processor(random, length),
        );
        let mut expected = Bytes {
            storage: vec![step as u8; length],
            keys: (0..length >> key_shift)
                .map(|_| random_key(random))
                .collect(),
            records: Vec::new(),
            buffer: vec![0; random.pick(&[0, 1, 2, 8, 16, 17, 100, 255, 256, 257, 300])],
        };
        random.fill(&mut expected.buffer);
        match random.below(16) {
            0 => expected.storage.truncate(random.pick(&[0, 4_095, 8_192])),
            1 => expected.keys.truncate(random.pick(&[0, 1, 3])),
            _ => {}
        }
        own.psw_key = random.pick(&[0, own.psw_key]);
        let mut record = record_value(&own);
        if random.one_in(8) {
            record ^= 1 << random.below(64);
        }
        expected.records = [record.to_le_bytes(), [0xEE; RECORD_LENGTH]].concat();
        let reach = random.pick(&[4_096, length as u64, ADDRESSES_24.into(), 1 << 32]);
        let address = random.below(reach) as u32;
        let operation = random.pick(&[FETCH, STORE]);
        let count = expected.buffer.len();

        let mut actual = expected.clone();
        let packed = actual.access((fetch, store), settings, record, operation, address);
        let expected_packed =
            expected.call(request, settings, 0, (operation, address, count as u32));
        assert_eq!(packed, expected_packed, "step {step}");
        assert!(actual == expected, "step {step}");
    }
}

#[test]
fn plain_short_way_as_request() {
    use storage_unit_comparison::plain::*;
    short_way_as_request(
        storage_unit_request_plain,
        storage_unit_fetch_plain,
        storage_unit_store_plain,
    );
}

#[test]
fn proved_short_way_as_request() {
    short_way_as_request(storage_unit_request, storage_unit_fetch, storage_unit_store);
}

/// Makes one test for each named case and each C function.
macro_rules! for_each_function {
    ($($case:ident)*) => {
        for_each_function!(@module plain, storage_unit_comparison::plain::storage_unit_request_plain: $($case)*);
        for_each_function!(@module proved, storage_unit::boundary::storage_unit_request: $($case)*);
    };
    (@module $module:ident, $function:path: $($case:ident)*) => {
        mod $module {
            $(
                #[test]
                fn $case() {
                    super::$case($function);
                }
            )*
        }
    };
}

for_each_function! {
    other_settings
    other_operations
    other_lengths_of_records
    reserved_bits_of_records
    other_record_is_kept
    null_pointers
    any_numbers_and_bytes
}
