//! The C functions of the static library, with their parameters and results as numbers and bytes.
//!
//! The numbers and bytes are those of `host/include/storage_unit.h`, which says what each parameter
//! is. The functions `call...` are for these C functions and for others of the same type. A program
//! that keeps its records as bytes needs none of this crate's types:
//!
//! ```
//! use storage_unit::boundary::{RECORDS_LENGTH, STORE, call_raw, packed_number, storage_unit_request};
//!
//! let (mut storage, mut keys) = (vec![0; 4096], vec![0; 2]);
//! let mut records = [0; RECORDS_LENGTH];
//! let mut buffer = *b"ABCD";
//! let request = (STORE, 100, 4);
//! // SAFETY: it is the C function of the static library.
//! let packed = unsafe {
//!     call_raw(
//!         storage_unit_request,
//!         0,
//!         &mut storage,
//!         &mut keys,
//!         &mut records,
//!         0,
//!         request,
//!         &mut buffer,
//!     )
//! };
//! assert_eq!(packed_number(packed), 0);
//! assert_eq!(&storage[100..104], b"ABCD");
//! ```

use crate::{
    AccessKind, Answer, Chaining, ChannelProgress, ChannelRecord, ChannelRefusal, ChannelRequest,
    ChannelStatus, Completed, KeyInstruction, PlayStatus, Played, Player, PrefixInstruction,
    Processor, Reason, Refusal, Request, Rule, Settings,
};

unsafe extern "C" {
    /// The C function of the static library for every request.
    ///
    /// # Safety
    ///
    /// As for every [`RawRequest`].
    pub fn storage_unit_request(
        settings: u32,
        storage: *mut u8,
        storage_length: usize,
        keys: *mut u8,
        keys_length: usize,
        records: *mut u8,
        records_length: usize,
        processor_number: u32,
        operation: u32,
        first: u32,
        second: u32,
        buffer: *mut u8,
        buffer_length: usize,
    ) -> u64;

    /// The C function of the static library that fetches.
    ///
    /// # Safety
    ///
    /// As for every [`RawFetch`].
    pub fn storage_unit_fetch(
        settings: u32,
        storage: *const u8,
        storage_length: usize,
        keys: *mut u8,
        keys_length: usize,
        record: u64,
        address: u32,
        bytes: *mut u8,
        count: usize,
    ) -> u64;

    /// The C function of the static library that stores.
    ///
    /// # Safety
    ///
    /// As for every [`RawStore`].
    pub fn storage_unit_store(
        settings: u32,
        storage: *mut u8,
        storage_length: usize,
        keys: *mut u8,
        keys_length: usize,
        record: u64,
        address: u32,
        bytes: *const u8,
        count: usize,
    ) -> u64;

    /// The C function of the static library that plays a recording.
    ///
    /// # Safety
    ///
    /// As for every [`RawPlay`].
    pub fn storage_unit_play(
        settings: u32,
        storage: *mut u8,
        storage_length: usize,
        keys: *mut u8,
        keys_length: usize,
        player: *mut u8,
        player_length: usize,
        piece: *const u8,
        piece_length: usize,
        last: u32,
        output: *mut u8,
        output_length: usize,
    ) -> u32;

    /// The C function of the static library that runs a whole request of a channel.
    ///
    /// # Safety
    ///
    /// As for every [`RawChannel`].
    pub fn storage_unit_channel(
        settings: u32,
        storage: *mut u8,
        storage_length: usize,
        keys: *mut u8,
        keys_length: usize,
        key: u32,
        first: u32,
        grant: u32,
        from: *const u8,
        from_length: usize,
        room: *mut u8,
        room_length: usize,
        progress: *mut u8,
        progress_length: usize,
    ) -> u64;

    /// The C function of the static library that does one step of a channel's request: one CCW.
    ///
    /// # Safety
    ///
    /// As for every [`RawChannel`].
    pub fn storage_unit_channel_step(
        settings: u32,
        storage: *mut u8,
        storage_length: usize,
        keys: *mut u8,
        keys_length: usize,
        key: u32,
        first: u32,
        grant: u32,
        from: *const u8,
        from_length: usize,
        room: *mut u8,
        room_length: usize,
        progress: *mut u8,
        progress_length: usize,
    ) -> u64;

    /// The C function of the static library that gives its version:
    /// 10,000 x major + 100 x minor + patch.
    pub safe fn storage_unit_version() -> u32;
}

/// The type of the C function for every request.
///
/// It gives an answer whatever the numbers and the bytes are, and reads and writes only
/// the bytes it is given.
///
/// # Safety
///
/// Each pointer must be valid for reads and writes of as many bytes as the length that
/// follows it, and these ranges must not overlap. Where the length is 0, the pointer is
/// not used and can be null.
pub type RawRequest = unsafe extern "C" fn(
    settings: u32,
    storage: *mut u8,
    storage_length: usize,
    keys: *mut u8,
    keys_length: usize,
    records: *mut u8,
    records_length: usize,
    processor_number: u32,
    operation: u32,
    first: u32,
    second: u32,
    buffer: *mut u8,
    buffer_length: usize,
) -> u64;

/// The type of the C function that fetches: as many bytes as `count`, for a processor
/// with the record `record`, as [`record_value`] gives it.
///
/// # Safety
///
/// As for [`RawRequest`]; the storage is only read.
pub type RawFetch = unsafe extern "C" fn(
    settings: u32,
    storage: *const u8,
    storage_length: usize,
    keys: *mut u8,
    keys_length: usize,
    record: u64,
    address: u32,
    bytes: *mut u8,
    count: usize,
) -> u64;

/// The type of the C function that stores: as many bytes as `count`, for a processor
/// with the record `record`, as [`record_value`] gives it.
///
/// # Safety
///
/// As for [`RawRequest`]; the bytes to store are only read.
pub type RawStore = unsafe extern "C" fn(
    settings: u32,
    storage: *mut u8,
    storage_length: usize,
    keys: *mut u8,
    keys_length: usize,
    record: u64,
    address: u32,
    bytes: *const u8,
    count: usize,
) -> u64;

/// The type of the C function that plays a recording: its next bytes, behind which nothing comes
/// if `last` is not 0. It gives one of the numbers `PLAY_...`.
///
/// # Safety
///
/// As for [`RawRequest`]; the piece is only read.
pub type RawPlay = unsafe extern "C" fn(
    settings: u32,
    storage: *mut u8,
    storage_length: usize,
    keys: *mut u8,
    keys_length: usize,
    player: *mut u8,
    player_length: usize,
    piece: *const u8,
    piece_length: usize,
    last: u32,
    output: *mut u8,
    output_length: usize,
) -> u32;

/// The type of the C functions of a channel, for a whole request and for one step: settings,
/// storage and keys; key, address of the first CCW and grant; the bytes from the device, the room
/// for bytes to it, and the progress. The number of the answer is 0, that of a [`ChannelRefusal`]
/// or, after a step, [`CHANNEL_UNDER_WAY`]; place, word and rule are 0.
///
/// # Safety
///
/// As for [`RawRequest`]; the bytes from the device are only read. A whole request needs the stack
/// that [`Machine::channel`](crate::Machine::channel) names.
pub type RawChannel = unsafe extern "C" fn(
    settings: u32,
    storage: *mut u8,
    storage_length: usize,
    keys: *mut u8,
    keys_length: usize,
    key: u32,
    first: u32,
    grant: u32,
    from: *const u8,
    from_length: usize,
    room: *mut u8,
    room_length: usize,
    progress: *mut u8,
    progress_length: usize,
) -> u64;

/// Setting: the 4K facility is present.
pub const FOUR_K: u32 = 1;
/// Setting: the key-instruction extensions are present.
pub const EXTENSIONS: u32 = 2;

/// The number of bytes of a processor's record.
pub const RECORD_LENGTH: usize = 8;
/// The number of bytes of the two records.
pub const RECORDS_LENGTH: usize = 2 * RECORD_LENGTH;

/// The byte of a record with the PSW key.
pub const PSW_KEY_AT: usize = 0;
/// The byte of a record with the controls.
pub const CONTROLS_AT: usize = 1;
/// The byte of a record with the condition code.
pub const CODE_AT: usize = 2;
/// The byte of a record that is zero.
pub const RESERVED_AT: usize = 3;
/// The first of the four bytes of a record with the prefix, the least significant first.
pub const PREFIX_AT: usize = 4;

/// Control: problem state.
pub const PROBLEM: u8 = 1;
/// Control: bit 3 of control register 0, low-address protection.
pub const LOW_PROTECTION: u8 = 2;
/// Control: bit 7 of control register 0, storage-key-exception control.
pub const KEY_CONTROL: u8 = 4;
/// The controls that must be zero.
const RESERVED_CONTROLS: u8 = !(PROBLEM | LOW_PROTECTION | KEY_CONTROL);

/// Operation number of a fetch.
pub const FETCH: u32 = 0;
/// Operation number of a store.
pub const STORE: u32 = 1;
/// Operation number of INSERT STORAGE KEY.
pub const ISK: u32 = 2;
/// Operation number of SET STORAGE KEY.
pub const SSK: u32 = 3;
/// Operation number of RESET REFERENCE BIT.
pub const RRB: u32 = 4;
/// Operation number of INSERT STORAGE KEY EXTENDED.
pub const ISKE: u32 = 5;
/// Operation number of SET STORAGE KEY EXTENDED.
pub const SSKE: u32 = 6;
/// Operation number of RESET REFERENCE BIT EXTENDED.
pub const RRBE: u32 = 7;
/// Operation number of SET PREFIX.
pub const SET_PREFIX: u32 = 8;
/// Operation number of STORE PREFIX.
pub const STORE_PREFIX: u32 = 9;

/// The number of bytes of a player: the records of both processors, then four numbers of eight
/// bytes each, the least significant byte first.
pub const PLAYER_LENGTH: usize = 48;
/// The place in a player of the number of requests so far.
pub const PLAYER_REQUESTS_AT: usize = 16;
/// The place in a player of the number of records so far, remarks and a bad record included.
pub const PLAYER_RECORDS_AT: usize = 24;
/// The place in a player of the number of bytes of the piece that the call has read.
pub const PLAYER_READ_AT: usize = 32;
/// The place in a player of the number of bytes of text that the call has written.
pub const PLAYER_WRITTEN_AT: usize = 40;

/// What playing gives: every whole record of the piece is played. Never for the last piece.
pub const PLAY_MORE: u32 = 0;
/// What playing gives: the run is at its end. A bad record begins at the first unread byte; where
/// there is none, the recording ends.
pub const PLAY_ENDED: u32 = 1;
/// What playing gives: under [`PLAY_OUTPUT_MINIMUM`] bytes of the output are left, also where
/// nothing is left to be played.
pub const PLAY_ROOM: u32 = 2;
/// What playing gives: an ordinal is the greatest of 64 bits, also where nothing is left to be
/// played.
pub const PLAY_LIMIT: u32 = 3;
/// What playing gives: wrong settings or a player of a wrong length; nothing has changed, and so
/// the numbers of bytes read and written are those from before the call.
pub const PLAY_REFUSED: u32 = 4;

/// The number of bytes of the longest record of a recording, its length included.
pub const PLAY_RECORD_MAXIMUM: usize = 514;
/// The number of bytes of output that any one line has room in.
pub const PLAY_OUTPUT_MINIMUM: usize = 64;

/// The number of bytes of a CCW.
pub const CCW_LENGTH: usize = 8;
/// Command of a CCW: from storage to the device. Other bits than the low two may be on.
pub const CCW_WRITE: u8 = 0x01;
/// Command of a CCW: from the device to storage. Other bits than the low two may be on.
pub const CCW_READ: u8 = 0x02;
/// Command of a CCW: transfer in channel. Other bits than the low four may be on.
pub const CCW_TRANSFER: u8 = 0x08;
/// The flag of a CCW: the program goes on with the CCW behind it.
pub const CCW_CHAIN_COMMAND: u8 = 0x40;
/// The greatest count of a CCW.
pub const CCW_COUNT_MAXIMUM: u16 = u16::MAX;

/// The greatest key of a channel.
pub const CHANNEL_KEY_MAXIMUM: u32 = 15;
/// The greatest number of CCWs that can be granted.
pub const GRANT_MAXIMUM: u32 = 256;

/// The number of bytes of a channel's progress. Numbers in it have the least significant byte
/// first, and bytes that are not named here are zero.
pub const PROGRESS_LENGTH: usize = 32;
/// The first of the four bytes of a progress with the address of the CCW to come.
pub const PROGRESS_ADDRESS_AT: usize = 0;
/// The byte of a progress with the chaining, one of the numbers `CHAINING_...`.
pub const PROGRESS_CHAINING_AT: usize = 4;
/// The byte of a progress with the status: one of the numbers `PROGRESS_...`, or that of a
/// [`ChannelRefusal`].
pub const PROGRESS_STATUS_AT: usize = 5;
/// The first of the four bytes of a progress with the number of CCWs that were fetched.
pub const PROGRESS_FETCHED_AT: usize = 8;
/// The first of the eight bytes of a progress with the number of bytes taken from the device.
pub const PROGRESS_TAKEN_AT: usize = 16;
/// The first of the eight bytes of a progress with the number of bytes given to the device.
pub const PROGRESS_GIVEN_AT: usize = 24;

/// Chaining: the CCW to come is the first.
pub const CHAINING_FIRST: u8 = 0;
/// Chaining: the CCW to come is reached by chain command.
pub const CHAINING_COMMAND: u8 = 1;
/// Chaining: the CCW to come is reached by a transfer in channel.
pub const CHAINING_TRANSFER: u8 = 2;
/// Chaining: the program has ended.
pub const CHAINING_ENDED: u8 = 3;

/// Status of a progress: the request is not begun.
pub const PROGRESS_NOT_BEGUN: u8 = 0;
/// Status of a progress: the request is under way.
pub const PROGRESS_UNDER_WAY: u8 = 1;
/// Status of a progress: the program ended, with the answer 0.
pub const PROGRESS_ENDED: u8 = 2;

/// The number that a step gives while the request is under way.
pub const CHANNEL_UNDER_WAY: u16 = 255;

/// The settings as a number.
#[inline]
#[must_use]
pub const fn encode_settings(settings: Settings) -> u32 {
    (if settings.four_k { FOUR_K } else { 0 }) | (if settings.extensions { EXTENSIONS } else { 0 })
}

/// A byte of a record at its place in the number that the eight bytes make, the least
/// significant first. Records are put together and taken apart as one number, since that
/// takes less time than one byte after another.
const fn at(place: usize, byte: u8) -> u64 {
    (byte as u64) << (8 * place)
}

/// A record as one number: that which its bytes make, the least significant first.
#[inline]
#[must_use]
pub const fn record_value(processor: &Processor) -> u64 {
    let controls = (processor.problem as u8 * PROBLEM)
        | (processor.low_protection as u8 * LOW_PROTECTION)
        | (processor.key_control as u8 * KEY_CONTROL);
    at(PSW_KEY_AT, processor.psw_key)
        | at(CONTROLS_AT, controls)
        | at(CODE_AT, processor.code)
        | (processor.prefix as u64) << (8 * PREFIX_AT)
}

/// A record as bytes.
#[inline]
#[must_use]
pub const fn encode_processor(processor: &Processor) -> [u8; RECORD_LENGTH] {
    record_value(processor).to_le_bytes()
}

/// A record from its bytes. Where a reserved bit is on, the PSW key is taken for 255, so
/// that a request for this processor is refused with [`Reason::Record`].
#[inline]
#[must_use]
pub const fn decode_processor(bytes: &[u8; RECORD_LENGTH]) -> Processor {
    record_from_value(u64::from_le_bytes(*bytes))
}

/// A record from its number. Reserved bits as for [`decode_processor`].
#[inline]
#[must_use]
pub const fn record_from_value(record: u64) -> Processor {
    let reserved = at(CONTROLS_AT, RESERVED_CONTROLS) | at(RESERVED_AT, 0xFF);
    Processor {
        psw_key: if record & reserved == 0 {
            (record >> (8 * PSW_KEY_AT)) as u8
        } else {
            255
        },
        problem: record & at(CONTROLS_AT, PROBLEM) != 0,
        low_protection: record & at(CONTROLS_AT, LOW_PROTECTION) != 0,
        key_control: record & at(CONTROLS_AT, KEY_CONTROL) != 0,
        prefix: (record >> (8 * PREFIX_AT)) as u32,
        code: (record >> (8 * CODE_AT)) as u8,
    }
}

/// The two records as bytes, that of processor 0 first.
#[inline]
#[must_use]
pub fn encode_processors(processors: &[Processor; 2]) -> [u8; RECORDS_LENGTH] {
    let mut bytes = [0; RECORDS_LENGTH];
    let (first, second) = bytes.split_at_mut(RECORD_LENGTH);
    first.copy_from_slice(&encode_processor(&processors[0]));
    second.copy_from_slice(&encode_processor(&processors[1]));
    bytes
}

/// The two records from their bytes, that of processor 0 first.
#[inline]
#[must_use]
pub fn decode_processors(bytes: &[u8; RECORDS_LENGTH]) -> [Processor; 2] {
    [0, RECORD_LENGTH].map(|start| {
        let mut record = [0; RECORD_LENGTH];
        record.copy_from_slice(&bytes[start..start + RECORD_LENGTH]);
        decode_processor(&record)
    })
}

/// Operation number, first and second operand of a request. Operands that are not used
/// are zero here and ignored by the function.
#[inline]
#[must_use]
pub const fn encode_request(request: &Request) -> (u32, u32, u32) {
    match *request {
        Request::Access {
            kind,
            address,
            count,
        } => match kind {
            AccessKind::Fetch => (FETCH, address, count),
            AccessKind::Store => (STORE, address, count),
        },
        Request::Key(instruction) => match instruction {
            KeyInstruction::Isk { r1, r2 } => (ISK, r1, r2),
            KeyInstruction::Ssk { r1, r2 } => (SSK, r1, r2),
            KeyInstruction::Rrb { address } => (RRB, 0, address),
            KeyInstruction::Iske { r1, r2 } => (ISKE, r1, r2),
            KeyInstruction::Sske { r1, r2 } => (SSKE, r1, r2),
            KeyInstruction::Rrbe { r2 } => (RRBE, 0, r2),
        },
        Request::Prefix(instruction) => match instruction {
            PrefixInstruction::SetPrefix { word } => (SET_PREFIX, word, 0),
            PrefixInstruction::StorePrefix => (STORE_PREFIX, 0, 0),
        },
    }
}

/// The bits of a packed answer with the word.
pub const ANSWER_WORD: u64 = 0x0000_0000_FFFF_FFFF;
/// The bits of a packed answer with the place.
pub const ANSWER_PLACE: u64 = 0x0000_00FF_0000_0000;
/// The bits of a packed answer with the rule.
pub const ANSWER_RULE: u64 = 0x0000_FF00_0000_0000;
/// The bits of a packed answer with the number.
pub const ANSWER_NUMBER: u64 = 0xFFFF_0000_0000_0000;

/// The number of an answer in its packed form: 0 if the request is completed, otherwise that
/// of a [`Reason`].
#[inline]
#[must_use]
pub const fn packed_number(packed: u64) -> u16 {
    (packed >> ANSWER_NUMBER.trailing_zeros()) as u16
}

/// The answer from its packed form, or `None` if no answer has this form: its number or its
/// rule is unknown, it is completed with a place, or it is refused with a word or a rule.
///
/// ```
/// use storage_unit::boundary::decode_answer;
/// use storage_unit::{Completed, Reason, Refusal, Rule};
///
/// let completed = Completed { word: 0x8E, rule: Some(Rule::Unchanged) };
/// assert_eq!(decode_answer(0x0000_0300_0000_008E), Some(Ok(completed)));
/// let refusal = Refusal { reason: Reason::Protection, place: 1 };
/// assert_eq!(decode_answer(0x0004_0001_0000_0000), Some(Err(refusal)));
/// assert_eq!(decode_answer(0x0003_0000_0000_0000), None);
/// ```
#[inline]
#[must_use]
pub const fn decode_answer(packed: u64) -> Option<Answer> {
    match completed(packed) {
        Some(completed) => Some(Ok(completed)),
        None => match refusal(packed) {
            Some(refusal) => Some(Err(refusal)),
            None => None,
        },
    }
}

/// What a completed request gives, or `None` if the packed form is not that of one.
#[inline]
const fn completed(packed: u64) -> Option<Completed> {
    if packed & (ANSWER_NUMBER | ANSWER_PLACE) != 0 {
        return None;
    }
    let rule = match (packed >> ANSWER_RULE.trailing_zeros()) as u8 {
        0 => None,
        1 => Some(Rule::Zero),
        2 => Some(Rule::Prefix),
        3 => Some(Rule::Unchanged),
        _ => return None,
    };
    let word = packed as u32;
    Some(Completed { word, rule })
}

/// Why and where a request was refused, or `None` if the packed form is not that of a refusal.
#[inline]
const fn refusal(packed: u64) -> Option<Refusal> {
    if packed & (ANSWER_WORD | ANSWER_RULE) != 0 {
        return None;
    }
    let place = (packed >> ANSWER_PLACE.trailing_zeros()) as u8;
    match Reason::from_number(packed_number(packed)) {
        Some(reason) => Some(Refusal { reason, place }),
        None => None,
    }
}

/// The answer that a C function gave. Refusals are rarer, and are taken apart in one place.
#[inline]
fn answer_given(packed: u64) -> Answer {
    match completed(packed) {
        Some(completed) => Ok(completed),
        None => Err(refusal_given(packed)),
    }
}

/// The refusal that a C function gave.
#[cold]
#[inline(never)]
fn refusal_given(packed: u64) -> Refusal {
    refusal(packed).unwrap_or(Refusal::UNKNOWN)
}

/// Calls a C function with slices: settings, storage, keys, records, processor number,
/// operation with first and second operand, buffer.
///
/// # Safety
///
/// `raw` must be a function as [`RawRequest`] describes it.
#[inline]
#[must_use]
#[allow(clippy::too_many_arguments)]
pub unsafe fn call_raw(
    raw: RawRequest,
    settings: u32,
    storage: &mut [u8],
    keys: &mut [u8],
    records: &mut [u8],
    processor_number: u32,
    (operation, first, second): (u32, u32, u32),
    buffer: &mut [u8],
) -> u64 {
    // SAFETY: every pointer comes with the length of the exclusive slice it was
    // taken from, so the bytes are there, may be written and do not overlap. The
    // caller guarantees what the function does.
    unsafe {
        raw(
            settings,
            storage.as_mut_ptr(),
            storage.len(),
            keys.as_mut_ptr(),
            keys.len(),
            records.as_mut_ptr(),
            records.len(),
            processor_number,
            operation,
            first,
            second,
            buffer.as_mut_ptr(),
            buffer.len(),
        )
    }
}

/// Carries out a fetch through a C function.
///
/// # Safety
///
/// `raw` must be a function as [`RawFetch`] describes it.
#[inline]
pub unsafe fn call_fetch(
    raw: RawFetch,
    settings: Settings,
    storage: &[u8],
    keys: &mut [u8],
    own: &Processor,
    address: u32,
    bytes: &mut [u8],
) -> Answer {
    // SAFETY: every pointer comes with the length of the slice it was taken from; what is
    // written is lent exclusively. The caller guarantees what the function does.
    let packed = unsafe {
        raw(
            encode_settings(settings),
            storage.as_ptr(),
            storage.len(),
            keys.as_mut_ptr(),
            keys.len(),
            record_value(own),
            address,
            bytes.as_mut_ptr(),
            bytes.len(),
        )
    };
    answer_given(packed)
}

/// Carries out a store through a C function.
///
/// # Safety
///
/// `raw` must be a function as [`RawStore`] describes it.
#[inline]
pub unsafe fn call_store(
    raw: RawStore,
    settings: Settings,
    storage: &mut [u8],
    keys: &mut [u8],
    own: &Processor,
    address: u32,
    bytes: &[u8],
) -> Answer {
    // SAFETY: as for `call_fetch`.
    let packed = unsafe {
        raw(
            encode_settings(settings),
            storage.as_mut_ptr(),
            storage.len(),
            keys.as_mut_ptr(),
            keys.len(),
            record_value(own),
            address,
            bytes.as_ptr(),
            bytes.len(),
        )
    };
    answer_given(packed)
}

/// Carries out one request through a C function.
///
/// # Safety
///
/// `raw` must be a function as [`RawRequest`] describes it.
#[inline]
#[allow(clippy::too_many_arguments)]
pub unsafe fn call(
    raw: RawRequest,
    settings: Settings,
    storage: &mut [u8],
    keys: &mut [u8],
    processors: &mut [Processor; 2],
    processor_number: u32,
    request: &Request,
    buffer: &mut [u8],
) -> Answer {
    // Apart from the rest, so that the operation is a constant here where the caller names it.
    let numbers = encode_request(request);
    // SAFETY: the caller guarantees what the function does.
    answer_given(unsafe {
        call_with_records(
            raw,
            settings,
            storage,
            keys,
            processors,
            processor_number,
            numbers,
            buffer,
        )
    })
}

/// Calls a C function with the bytes of the records, and takes the records from them again.
///
/// # Safety
///
/// `raw` must be a function as [`RawRequest`] describes it.
#[inline]
#[allow(clippy::too_many_arguments)]
unsafe fn call_with_records(
    raw: RawRequest,
    settings: Settings,
    storage: &mut [u8],
    keys: &mut [u8],
    processors: &mut [Processor; 2],
    processor_number: u32,
    numbers: (u32, u32, u32),
    buffer: &mut [u8],
) -> u64 {
    let sent = encode_processors(processors);
    let mut records = sent;
    // SAFETY: the caller guarantees what the function does.
    let packed = unsafe {
        call_raw(
            raw,
            encode_settings(settings),
            storage,
            keys,
            &mut records,
            processor_number,
            numbers,
            buffer,
        )
    };
    // Most requests leave the records as they are. Then nothing is written, and the
    // next request does not have to wait for it.
    if records != sent {
        *processors = decode_processors(&records);
    }
    packed
}

/// Plays the next bytes of a recording through a C function with slices: settings, storage, keys,
/// player, piece, whether it is the last, output.
///
/// # Safety
///
/// `raw` must be a function as [`RawPlay`] describes it.
#[must_use]
#[allow(clippy::too_many_arguments)]
pub unsafe fn call_play_raw(
    raw: RawPlay,
    settings: u32,
    storage: &mut [u8],
    keys: &mut [u8],
    player: &mut [u8],
    piece: &[u8],
    last: u32,
    output: &mut [u8],
) -> u32 {
    // SAFETY: every pointer comes with the length of the slice it was taken from; what is
    // written is lent exclusively. The caller guarantees what the function does.
    unsafe {
        raw(
            settings,
            storage.as_mut_ptr(),
            storage.len(),
            keys.as_mut_ptr(),
            keys.len(),
            player.as_mut_ptr(),
            player.len(),
            piece.as_ptr(),
            piece.len(),
            last,
            output.as_mut_ptr(),
            output.len(),
        )
    }
}

/// Plays the next bytes of a recording through a C function.
///
/// # Safety
///
/// `raw` must be a function as [`RawPlay`] describes it.
#[allow(clippy::too_many_arguments)]
pub unsafe fn call_play(
    raw: RawPlay,
    settings: Settings,
    storage: &mut [u8],
    keys: &mut [u8],
    processors: &mut [Processor; 2],
    player: &mut Player,
    piece: &[u8],
    last: bool,
    output: &mut [u8],
) -> Played {
    let mut bytes = encode_player(processors, player);
    // SAFETY: the caller guarantees what the function does.
    let result = unsafe {
        call_play_raw(
            raw,
            encode_settings(settings),
            storage,
            keys,
            &mut bytes,
            piece,
            last.into(),
            output,
        )
    };
    let [read, written];
    (*processors, *player, [read, written]) = decode_player(&bytes);
    Played {
        // Never more, but by a library of another version.
        read: read.min(piece.len()),
        written: written.min(output.len()),
        status: PlayStatus::from_number(result),
    }
}

/// The bytes of a player, with both numbers of a call zero.
fn encode_player(processors: &[Processor; 2], player: &Player) -> [u8; PLAYER_LENGTH] {
    let mut bytes = [0; PLAYER_LENGTH];
    bytes[..RECORDS_LENGTH].copy_from_slice(&encode_processors(processors));
    bytes[PLAYER_REQUESTS_AT..][..8].copy_from_slice(&player.requests.to_le_bytes());
    bytes[PLAYER_RECORDS_AT..][..8].copy_from_slice(&player.records.to_le_bytes());
    bytes
}

/// The records, the ordinals, and the bytes read and written, from the bytes of a player.
fn decode_player(bytes: &[u8; PLAYER_LENGTH]) -> ([Processor; 2], Player, [usize; 2]) {
    let number = |place: usize| {
        let mut number = [0; 8];
        number.copy_from_slice(&bytes[place..place + 8]);
        u64::from_le_bytes(number)
    };
    let mut records = [0; RECORDS_LENGTH];
    records.copy_from_slice(&bytes[..RECORDS_LENGTH]);
    let player = Player {
        requests: number(PLAYER_REQUESTS_AT),
        records: number(PLAYER_RECORDS_AT),
    };
    // A number of bytes of a slice is a usize, which has 64 bits where the library is.
    let counts = [PLAYER_READ_AT, PLAYER_WRITTEN_AT].map(|place| number(place) as usize);
    (decode_processors(&records), player, counts)
}

/// Calls a C function of a channel with slices: settings, storage, keys, the key, the address of
/// the first CCW and the grant, the bytes from the device, the room for bytes to it, progress.
///
/// # Safety
///
/// `raw` must be a function as [`RawChannel`] describes it.
#[inline]
#[must_use]
#[allow(clippy::too_many_arguments)]
pub unsafe fn call_channel_raw(
    raw: RawChannel,
    settings: u32,
    storage: &mut [u8],
    keys: &mut [u8],
    (key, first, grant): (u32, u32, u32),
    from: &[u8],
    room: &mut [u8],
    progress: &mut [u8],
) -> u64 {
    // SAFETY: every pointer comes with the length of the slice it was taken from; what is
    // written is lent exclusively. The caller guarantees what the function does.
    unsafe {
        raw(
            settings,
            storage.as_mut_ptr(),
            storage.len(),
            keys.as_mut_ptr(),
            keys.len(),
            key,
            first,
            grant,
            from.as_ptr(),
            from.len(),
            room.as_mut_ptr(),
            room.len(),
            progress.as_mut_ptr(),
            progress.len(),
        )
    }
}

/// Runs a whole request of a channel, or one step of it, through a C function. Gives the answer,
/// or `None` while the request is under way.
///
/// # Safety
///
/// `raw` must be a function as [`RawChannel`] describes it.
#[allow(clippy::too_many_arguments)]
pub unsafe fn call_channel(
    raw: RawChannel,
    settings: Settings,
    storage: &mut [u8],
    keys: &mut [u8],
    request: &ChannelRequest,
    from: &[u8],
    room: &mut [u8],
    progress: &mut ChannelProgress,
) -> Option<Result<(), ChannelRefusal>> {
    let mut bytes = encode_progress(progress);
    // SAFETY: the caller guarantees what the function does.
    let packed = unsafe {
        call_channel_raw(
            raw,
            encode_settings(settings),
            storage,
            keys,
            (request.key, request.first, request.grant),
            from,
            room,
            &mut bytes,
        )
    };
    *progress = decode_progress(&bytes);
    match packed_number(packed) {
        0 => Some(Ok(())),
        CHANNEL_UNDER_WAY => None,
        number => Some(Err(ChannelRefusal::given(number))),
    }
}

/// The bytes of a CCW: command, address, flags ([`CCW_CHAIN_COMMAND`] or 0) and count. Of the
/// address the low 24 bits are taken.
///
/// ```
/// use storage_unit::boundary::{CCW_CHAIN_COMMAND, CCW_READ, encode_ccw};
///
/// let ccw = encode_ccw(CCW_READ, 0x2000, CCW_CHAIN_COMMAND, 800);
/// assert_eq!(ccw, [0x02, 0x00, 0x20, 0x00, 0x40, 0x00, 0x03, 0x20]);
/// ```
#[inline]
#[must_use]
pub const fn encode_ccw(command: u8, address: u32, flags: u8, count: u16) -> [u8; CCW_LENGTH] {
    let [_, high, middle, low] = address.to_be_bytes();
    let [count_high, count_low] = count.to_be_bytes();
    [command, high, middle, low, flags, 0, count_high, count_low]
}

/// The bytes of a channel's progress.
#[must_use]
pub fn encode_progress(progress: &ChannelProgress) -> [u8; PROGRESS_LENGTH] {
    let record = &progress.record;
    let mut bytes = [0; PROGRESS_LENGTH];
    bytes[PROGRESS_ADDRESS_AT..][..4].copy_from_slice(&record.address.to_le_bytes());
    bytes[PROGRESS_CHAINING_AT] = record.chaining.number();
    bytes[PROGRESS_STATUS_AT] = match progress.status {
        ChannelStatus::NotBegun => PROGRESS_NOT_BEGUN,
        ChannelStatus::UnderWay => PROGRESS_UNDER_WAY,
        ChannelStatus::Answered(Ok(())) => PROGRESS_ENDED,
        ChannelStatus::Answered(Err(refusal)) => refusal as u8,
    };
    bytes[PROGRESS_FETCHED_AT..][..4].copy_from_slice(&record.fetched.to_le_bytes());
    bytes[PROGRESS_TAKEN_AT..][..8].copy_from_slice(&record.taken.to_le_bytes());
    bytes[PROGRESS_GIVEN_AT..][..8].copy_from_slice(&record.given.to_le_bytes());
    bytes
}

/// A channel's progress from its bytes. A chaining that there is not is taken for
/// [`Chaining::Ended`], a status that there is not for [`ChannelRefusal::Configuration`], and
/// bytes that should be zero are not looked at; no function leaves any of these.
#[must_use]
pub fn decode_progress(bytes: &[u8; PROGRESS_LENGTH]) -> ChannelProgress {
    let number = |place: usize, length: usize| {
        let mut number = [0; 8];
        number[..length].copy_from_slice(&bytes[place..place + length]);
        u64::from_le_bytes(number)
    };
    ChannelProgress {
        status: match bytes[PROGRESS_STATUS_AT] {
            PROGRESS_NOT_BEGUN => ChannelStatus::NotBegun,
            PROGRESS_UNDER_WAY => ChannelStatus::UnderWay,
            PROGRESS_ENDED => ChannelStatus::Answered(Ok(())),
            refused => ChannelStatus::Answered(Err(ChannelRefusal::given(refused.into()))),
        },
        record: ChannelRecord {
            address: number(PROGRESS_ADDRESS_AT, 4) as u32,
            chaining: Chaining::from_number(bytes[PROGRESS_CHAINING_AT]),
            fetched: number(PROGRESS_FETCHED_AT, 4) as u32,
            taken: number(PROGRESS_TAKEN_AT, 8),
            given: number(PROGRESS_GIVEN_AT, 8),
        },
    }
}
