//! Written cases: a state before, a request, and the whole outcome.

use storage_unit::{Answer, Processor, Reason, Request, Settings};
use storage_unit_comparison::{self as comparison, Unit};

use super::{Lent, rule_carried};

/// The state that the cases start from: storage 65,536, 2K units, extensions present,
/// prefix 0, PSW key 0, zero keys, supervisor state, low-address protection off. The
/// storage bytes depend on their address.
pub fn usual() -> Lent {
    with_storage(65_536)
}

pub fn with_storage(length: usize) -> Lent {
    let settings = Settings {
        four_k: false,
        extensions: true,
    };
    Lent {
        settings,
        storage: (0..length).map(content).collect(),
        keys: vec![0; settings.key_count(length)],
        processors: [Processor::default(); 2],
    }
}

/// The byte that storage holds at the start.
pub fn content(address: usize) -> u8 {
    (address % 251) as u8
}

/// The bytes that stores put into storage; none occurs in the storage before.
pub fn new_bytes(length: usize) -> Vec<u8> {
    (0..length).map(|index| 255 - (index % 4) as u8).collect()
}

/// Runs a request of processor 0 and checks answer, buffer and state.
pub fn expect<U: Unit>(
    before: &Lent,
    request: Request,
    buffer: &[u8],
    answer: Answer,
    buffer_after: &[u8],
    after: &Lent,
) {
    let mut lent = before.clone();
    let mut lent_buffer = buffer.to_vec();
    let given = lent.request::<U>(0, &request, &mut lent_buffer);
    assert_eq!(given, answer, "answer of {request:?}");
    assert!(lent_buffer == buffer_after, "buffer of {request:?}");
    assert_eq!(lent.keys, after.keys, "keys after {request:?}");
    assert_eq!(
        lent.processors, after.processors,
        "records after {request:?}"
    );
    assert!(lent.storage == after.storage, "storage after {request:?}");
}

/// The answer to a request of processor 0 that completes with this word.
pub fn completed(before: &Lent, request: Request, word: u32) -> Answer {
    comparison::completed(word, rule_carried(&request, before.processors[0].prefix))
}

/// The request completes with this word and leaves its buffer.
pub fn completes<U: Unit>(before: &Lent, request: Request, buffer: &[u8], word: u32, after: &Lent) {
    let answer = completed(before, request, word);
    expect::<U>(before, request, buffer, answer, buffer, after);
}

/// The fetch completes and leaves this in its buffer.
pub fn fetches<U: Unit>(
    before: &Lent,
    request: Request,
    buffer: &[u8],
    fetched: &[u8],
    after: &Lent,
) {
    let answer = completed(before, request, 0);
    expect::<U>(before, request, buffer, answer, fetched, after);
}

/// The request is refused, and nothing changes.
pub fn refused<U: Unit>(before: &Lent, request: Request, buffer: &[u8], reason: Reason, place: u8) {
    expect::<U>(
        before,
        request,
        buffer,
        comparison::refused(reason, place),
        buffer,
        before,
    );
}

/// The usual state with this prefix for processor 0.
pub fn with_prefix(prefix: u32) -> Lent {
    let mut lent = usual();
    lent.processors[0].prefix = prefix;
    lent
}

/// The answer to one request in this state, with a buffer of this length.
pub fn answer<U: Unit>(before: &Lent, processor: u32, request: Request, buffer: usize) -> Answer {
    let mut lent = before.clone();
    lent.request::<U>(processor, &request, &mut vec![0; buffer])
}

/// Makes one test for each named case and each implementation. A case is a function
/// with the implementation as its type parameter.
#[macro_export]
macro_rules! for_each_unit {
    (@module $module:ident, $unit:ty: $($case:ident)*) => {
        mod $module {
            $(
                #[test]
                fn $case() {
                    super::$case::<$unit>();
                }
            )*
        }
    };
    ($($case:ident)*) => {
        for_each_unit!(@module reference, storage_unit_comparison::units::Reference: $($case)*);
        for_each_unit!(@module plain, storage_unit_comparison::units::Plain: $($case)*);
        for_each_unit!(
            @module plain_behind_boundary,
            storage_unit_comparison::units::PlainBehindBoundary: $($case)*
        );
        for_each_unit!(
            @module plain_short_way,
            storage_unit_comparison::units::PlainShortWay: $($case)*
        );
        for_each_unit!(@module proved, storage_unit_comparison::units::Proved: $($case)*);
        for_each_unit!(
            @module proved_short_way,
            storage_unit_comparison::units::ProvedShortWay: $($case)*
        );
        for_each_unit!(
            @module proved_machine,
            storage_unit_comparison::units::ProvedMachine: $($case)*
        );
    };
}
