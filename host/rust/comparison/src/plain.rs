//! The storage unit as ordinary Rust, for comparison of speed.
//!
//! It is written to be fast: early tests, each key unit of an access checked once, bytes
//! copied as slices, and no value put together that is only taken apart again.

use storage_unit::boundary;
use storage_unit::{
    AccessKind, Answer, KeyInstruction, PrefixInstruction, Processor, Reason, Request, Rule,
    Settings,
};

use crate::numbers::{decode_settings, encode_answer};

const PAGE_OFFSET: u32 = 0xFFF;
const MAXIMUM_STORAGE: usize = 1 << 24;
const ADDRESS_MASK: u32 = 0x00FF_FFFF;
const PAGE_MASK: u32 = 0x7FFF_F000;

const FETCH_PROTECTION: u8 = 0x08;
const REFERENCE: u8 = 0x04;
const CHANGE: u8 = 0x02;
const UNUSED: u8 = 0x01;

/// The end of the real addresses that low-address protection covers.
const LOW_END: u32 = 512;

/// An answer with its parts side by side, in eight bytes.
#[derive(Clone, Copy, Debug)]
pub struct FlatAnswer {
    /// Why it is refused; `None` if it is completed.
    pub reason: Option<Reason>,
    /// The place, 0 to 255.
    pub place: u16,
    /// The word.
    pub word: u32,
    /// The rule.
    pub rule: Option<Rule>,
}

impl FlatAnswer {
    /// The number: 0 if it is completed.
    #[inline]
    pub fn number(self) -> u16 {
        self.reason.map_or(0, Reason::number)
    }
}

impl From<FlatAnswer> for Answer {
    fn from(flat: FlatAnswer) -> Answer {
        match flat.reason {
            None => crate::completed(flat.word, flat.rule),
            Some(reason) => crate::refused(reason, flat.place as u8),
        }
    }
}

/// What a request gives: a [`FlatAnswer`], or the number that the C functions give.
trait Reply {
    fn completed(word: u32, rule: Option<Rule>) -> Self;
    fn refused(reason: Reason, place: u16) -> Self;
}

impl Reply for FlatAnswer {
    #[inline]
    fn completed(word: u32, rule: Option<Rule>) -> Self {
        FlatAnswer {
            reason: None,
            place: 0,
            word,
            rule,
        }
    }

    #[inline]
    fn refused(reason: Reason, place: u16) -> Self {
        FlatAnswer {
            reason: Some(reason),
            place,
            word: 0,
            rule: None,
        }
    }
}

impl Reply for u64 {
    #[inline]
    fn completed(word: u32, rule: Option<Rule>) -> Self {
        encode_answer(crate::completed(word, rule))
    }

    #[inline]
    fn refused(reason: Reason, place: u16) -> Self {
        encode_answer(crate::refused(reason, place as u8))
    }
}

/// A processor's record: a [`Processor`], or the number that its bytes make, whose bits are
/// looked at where they are.
trait Record {
    type Reply: Reply;

    /// Whether it holds a value that no processor has.
    fn is_wrong(&self, length: usize) -> bool;
    fn psw_key(&self) -> u8;
    fn problem(&self) -> bool;
    fn low_protection(&self) -> bool;
    fn key_control(&self) -> bool;
    fn prefix(&self) -> u32;
    fn set_prefix(&mut self, prefix: u32);
    fn set_code(&mut self, code: u8);
}

impl Record for Processor {
    type Reply = FlatAnswer;

    #[inline(always)]
    fn is_wrong(&self, length: usize) -> bool {
        // One test for the three fields.
        let zeros = u32::from(self.psw_key & !15) | u32::from(self.code & !3);
        zeros | self.prefix & PAGE_OFFSET != 0 || self.prefix as usize >= length
    }

    #[inline(always)]
    fn psw_key(&self) -> u8 {
        self.psw_key
    }

    #[inline(always)]
    fn problem(&self) -> bool {
        self.problem
    }

    #[inline(always)]
    fn low_protection(&self) -> bool {
        self.low_protection
    }

    #[inline(always)]
    fn key_control(&self) -> bool {
        self.key_control
    }

    #[inline(always)]
    fn prefix(&self) -> u32 {
        self.prefix
    }

    #[inline(always)]
    fn set_prefix(&mut self, prefix: u32) {
        self.prefix = prefix;
    }

    #[inline(always)]
    fn set_code(&mut self, code: u8) {
        self.code = code;
    }
}

/// The bits of a record's number that are off in every record.
const RECORD_ZEROS: u64 = !boundary::record_value(&Processor {
    psw_key: 15,
    problem: true,
    low_protection: true,
    key_control: true,
    prefix: !PAGE_OFFSET,
    code: 3,
});

impl Record for u64 {
    type Reply = u64;

    #[inline(always)]
    fn is_wrong(&self, length: usize) -> bool {
        self & RECORD_ZEROS != 0 || self.prefix() as usize >= length
    }

    #[inline(always)]
    fn psw_key(&self) -> u8 {
        (self >> (8 * boundary::PSW_KEY_AT)) as u8
    }

    #[inline(always)]
    fn problem(&self) -> bool {
        (self >> (8 * boundary::CONTROLS_AT)) as u8 & boundary::PROBLEM != 0
    }

    #[inline(always)]
    fn low_protection(&self) -> bool {
        (self >> (8 * boundary::CONTROLS_AT)) as u8 & boundary::LOW_PROTECTION != 0
    }

    #[inline(always)]
    fn key_control(&self) -> bool {
        (self >> (8 * boundary::CONTROLS_AT)) as u8 & boundary::KEY_CONTROL != 0
    }

    #[inline(always)]
    fn prefix(&self) -> u32 {
        (self >> (8 * boundary::PREFIX_AT)) as u32
    }

    #[inline(always)]
    fn set_prefix(&mut self, prefix: u32) {
        *self = *self & u64::from(u32::MAX) | u64::from(prefix) << (8 * boundary::PREFIX_AT);
    }

    #[inline(always)]
    fn set_code(&mut self, code: u8) {
        *self =
            *self & !(0xFF << (8 * boundary::CODE_AT)) | u64::from(code) << (8 * boundary::CODE_AT);
    }
}

/// The absolute address of a real address, and the rule that gives it.
#[inline(always)]
fn prefixed(real: u32, prefix: u32) -> (usize, Rule) {
    let page = real & PAGE_MASK;
    let (absolute, rule) = if page == 0 {
        (real | prefix, Rule::Zero)
    } else if page == prefix {
        (real & !PAGE_MASK, Rule::Prefix)
    } else {
        (real, Rule::Unchanged)
    };
    (absolute as usize, rule)
}

/// The number of bits in the offset within a key unit of 2K and of 4K.
const TWO_K: u32 = 11;
const FOUR_K: u32 = 12;

#[inline(always)]
fn unit_shift(settings: Settings) -> u32 {
    if settings.four_k { FOUR_K } else { TWO_K }
}

/// Whether the length of the storage or of the keys is wrong.
#[inline(always)]
pub(crate) fn lengths_wrong(shift: u32, length: usize, key_count: usize) -> bool {
    // A right length is from 4,096 to 16,777,216, in steps of 4,096.
    length.wrapping_sub(4096) & !(MAXIMUM_STORAGE - 4096) != 0 || key_count != length >> shift
}

/// The first reason that refuses an access before its keys are looked at, with its place.
#[inline(always)]
fn access_refused(length: usize, address: u32, count: usize) -> Option<(Reason, usize)> {
    if count == 0 || count > 256 {
        return Some((Reason::Operand, 0));
    }
    let start = address as usize;
    if start + count <= length {
        return None;
    }
    if address > ADDRESS_MASK {
        return Some((Reason::Operand, 0));
    }
    if start >= length {
        return Some((Reason::Addressing, 0));
    }
    // Past the end of a storage of the full size an access goes on at address 0.
    if length < MAXIMUM_STORAGE {
        return Some((Reason::Addressing, length - start));
    }
    None
}

#[inline(always)]
fn may_fetch(own: &impl Record, key: u8) -> bool {
    own.psw_key() == key >> 4 || own.psw_key() == 0 || key & FETCH_PROTECTION == 0
}

#[inline(always)]
fn may_store(own: &impl Record, real: u32, key: u8) -> bool {
    (own.psw_key() == key >> 4 || own.psw_key() == 0) && !(own.low_protection() && real < LOW_END)
}

/// The number of bytes from an address to the end of its key unit.
#[inline(always)]
fn room(shift: u32, address: u32) -> usize {
    (1 << shift) - (address as usize & ((1usize << shift) - 1))
}

/// A fetch into all of `bytes`, for lengths and a record that are right.
#[inline(always)]
fn fetch_from<P: Record>(
    shift: u32,
    storage: &[u8],
    keys: &mut [u8],
    own: &P,
    address: u32,
    bytes: &mut [u8],
) -> P::Reply {
    if let Some((reason, place)) = access_refused(storage.len(), address, bytes.len()) {
        return P::Reply::refused(reason, place as u16);
    }
    if bytes.len() > room(shift, address) {
        return fetch_from_two(shift, storage, keys, own, address, bytes);
    }
    let (start, rule) = prefixed(address, own.prefix());
    let key = &mut keys[start >> shift];
    if !may_fetch(own, *key) {
        return P::Reply::refused(Reason::Protection, 0);
    }
    *key = *key & !UNUSED | REFERENCE;
    bytes.copy_from_slice(&storage[start..start + bytes.len()]);
    P::Reply::completed(0, Some(rule))
}

/// A fetch that goes on in a second unit.
#[inline(always)]
fn fetch_from_two<P: Record>(
    shift: u32,
    storage: &[u8],
    keys: &mut [u8],
    own: &P,
    address: u32,
    bytes: &mut [u8],
) -> P::Reply {
    let room = room(shift, address);
    let (start, rule) = prefixed(address, own.prefix());
    let (second, _) = prefixed((address + room as u32) & ADDRESS_MASK, own.prefix());
    let units = [start >> shift, second >> shift];
    if !may_fetch(own, keys[units[0]]) {
        return P::Reply::refused(Reason::Protection, 0);
    }
    if !may_fetch(own, keys[units[1]]) {
        return P::Reply::refused(Reason::Protection, room as u16);
    }
    for unit in units {
        keys[unit] = keys[unit] & !UNUSED | REFERENCE;
    }
    let (head, tail) = bytes.split_at_mut(room);
    head.copy_from_slice(&storage[start..start + head.len()]);
    tail.copy_from_slice(&storage[second..second + tail.len()]);
    P::Reply::completed(0, Some(rule))
}

/// A store of all of `bytes`, for lengths and a record that are right.
#[inline(always)]
fn store_to<P: Record>(
    shift: u32,
    storage: &mut [u8],
    keys: &mut [u8],
    own: &P,
    address: u32,
    bytes: &[u8],
) -> P::Reply {
    if let Some((reason, place)) = access_refused(storage.len(), address, bytes.len()) {
        return P::Reply::refused(reason, place as u16);
    }
    if bytes.len() > room(shift, address) {
        return store_to_two(shift, storage, keys, own, address, bytes);
    }
    let (start, rule) = prefixed(address, own.prefix());
    let key = &mut keys[start >> shift];
    if !may_store(own, address, *key) {
        return P::Reply::refused(Reason::Protection, 0);
    }
    *key = *key & !UNUSED | REFERENCE | CHANGE;
    storage[start..start + bytes.len()].copy_from_slice(bytes);
    P::Reply::completed(0, Some(rule))
}

/// A store that goes on in a second unit.
#[inline(always)]
fn store_to_two<P: Record>(
    shift: u32,
    storage: &mut [u8],
    keys: &mut [u8],
    own: &P,
    address: u32,
    bytes: &[u8],
) -> P::Reply {
    let room = room(shift, address);
    let next = (address + room as u32) & ADDRESS_MASK;
    let (start, rule) = prefixed(address, own.prefix());
    let (second, _) = prefixed(next, own.prefix());
    let units = [start >> shift, second >> shift];
    if !may_store(own, address, keys[units[0]]) {
        return P::Reply::refused(Reason::Protection, 0);
    }
    if !may_store(own, next, keys[units[1]]) {
        return P::Reply::refused(Reason::Protection, room as u16);
    }
    for unit in units {
        keys[unit] = keys[unit] & !UNUSED | REFERENCE | CHANGE;
    }
    let (head, tail) = bytes.split_at(room);
    storage[start..start + head.len()].copy_from_slice(head);
    storage[second..second + tail.len()].copy_from_slice(tail);
    P::Reply::completed(0, Some(rule))
}

/// A fetch or store of the first `count` bytes of a buffer, for lengths and a record that
/// are right.
#[inline(always)]
fn access<P: Record>(
    shift: u32,
    storage: &mut [u8],
    keys: &mut [u8],
    own: &P,
    kind: AccessKind,
    (address, count): (u32, u32),
    buffer: &mut [u8],
) -> P::Reply {
    let Some(bytes) = buffer.get_mut(..count as usize) else {
        return P::Reply::refused(Reason::Operand, 0);
    };
    match kind {
        AccessKind::Fetch => fetch_from(shift, storage, keys, own, address, bytes),
        AccessKind::Store => store_to(shift, storage, keys, own, address, bytes),
    }
}

/// What a key instruction works on: the keys, the length of the storage they belong to, and
/// whether the extensions are present.
struct KeyArray<'a> {
    keys: &'a mut [u8],
    length: usize,
    extensions: bool,
}

/// The real address of the block that a key instruction designates, and whether the block
/// has two keys; or the reason that refuses the instruction.
#[inline(always)]
fn block(
    shift: u32,
    with: &KeyArray,
    own: &impl Record,
    instruction: KeyInstruction,
) -> Result<(u32, bool), Reason> {
    let (real, extended, low_bits) = match instruction {
        KeyInstruction::Isk { r2, .. } | KeyInstruction::Ssk { r2, .. } => {
            (r2 & ADDRESS_MASK, false, r2 & 0xF)
        }
        KeyInstruction::Rrb { address } => {
            if address > ADDRESS_MASK {
                return Err(Reason::Operand);
            }
            (address, false, 0)
        }
        KeyInstruction::Iske { r2, .. }
        | KeyInstruction::Sske { r2, .. }
        | KeyInstruction::Rrbe { r2 } => (r2 & PAGE_MASK, true, 0),
    };
    if extended && !with.extensions {
        return Err(Reason::Operation);
    }
    if own.problem() {
        return Err(Reason::Privileged);
    }
    if !extended && shift == FOUR_K && !own.key_control() {
        return Err(Reason::SpecialOperation);
    }
    if low_bits != 0 {
        return Err(Reason::Specification);
    }
    if real as usize >= with.length {
        return Err(Reason::Addressing);
    }
    Ok((real, extended && shift == TWO_K))
}

/// A key instruction, for lengths and a record that are right.
#[inline(always)]
fn key_instruction<P: Record>(
    shift: u32,
    with: KeyArray,
    own: &mut P,
    instruction: KeyInstruction,
) -> P::Reply {
    let (real, two) = match block(shift, &with, own, instruction) {
        Ok(found) => found,
        Err(reason) => return P::Reply::refused(reason, 0),
    };
    let (absolute, rule) = prefixed(real, own.prefix());
    let unit = absolute >> shift;
    let last = unit + usize::from(two);
    let keys = with.keys;
    let (low, high) = (keys[unit], keys[last]);
    let recorded = (low | high) & (REFERENCE | CHANGE);
    let word = match instruction {
        KeyInstruction::Isk { r1, .. } | KeyInstruction::Iske { r1, .. } => {
            r1 & !0xFF | u32::from(low & !UNUSED | recorded)
        }
        KeyInstruction::Ssk { r1, .. } | KeyInstruction::Sske { r1, .. } => {
            keys[unit] = r1 as u8 & !UNUSED;
            keys[last] = r1 as u8 & !UNUSED;
            0
        }
        KeyInstruction::Rrb { .. } | KeyInstruction::Rrbe { .. } => {
            keys[unit] = low & !(REFERENCE | UNUSED);
            keys[last] = high & !(REFERENCE | UNUSED);
            own.set_code(recorded >> 1);
            0
        }
    };
    P::Reply::completed(word, Some(rule))
}

/// A prefix instruction, for lengths and a record that are right.
#[inline(always)]
fn prefix_instruction<P: Record>(
    length: usize,
    own: &mut P,
    instruction: PrefixInstruction,
) -> P::Reply {
    if own.problem() {
        return P::Reply::refused(Reason::Privileged, 0);
    }
    match instruction {
        PrefixInstruction::SetPrefix { word } => {
            let prefix = word & ADDRESS_MASK & !PAGE_OFFSET;
            if prefix as usize >= length {
                return P::Reply::refused(Reason::Addressing, 0);
            }
            own.set_prefix(prefix);
            P::Reply::completed(0, None)
        }
        PrefixInstruction::StorePrefix => P::Reply::completed(own.prefix(), None),
    }
}

/// Carries out one request for one processor; the parameters are those of
/// [`RequestFunction`](crate::RequestFunction).
#[inline(never)]
pub fn request(
    settings: Settings,
    storage: &mut [u8],
    keys: &mut [u8],
    processors: &mut [Processor; 2],
    processor_number: u32,
    request: &Request,
    buffer: &mut [u8],
) -> FlatAnswer {
    let shift = unit_shift(settings);
    if lengths_wrong(shift, storage.len(), keys.len()) {
        return FlatAnswer::refused(Reason::Configuration, 0);
    }
    let own = match processors.get_mut(processor_number as usize) {
        Some(own) if !own.is_wrong(storage.len()) => own,
        _ => return FlatAnswer::refused(Reason::Record, 0),
    };
    match *request {
        Request::Access {
            kind,
            address,
            count,
        } => access(shift, storage, keys, own, kind, (address, count), buffer),
        Request::Key(instruction) => {
            let with = KeyArray {
                keys,
                length: storage.len(),
                extensions: settings.extensions,
            };
            key_instruction(shift, with, own, instruction)
        }
        Request::Prefix(instruction) => prefix_instruction(storage.len(), own, instruction),
    }
}

/// A fetch for any lengths and any record.
#[inline(always)]
fn fetch_in<P: Record>(
    settings: Settings,
    storage: &[u8],
    keys: &mut [u8],
    own: &P,
    address: u32,
    bytes: &mut [u8],
) -> P::Reply {
    let shift = unit_shift(settings);
    if lengths_wrong(shift, storage.len(), keys.len()) {
        return P::Reply::refused(Reason::Configuration, 0);
    }
    if own.is_wrong(storage.len()) {
        return P::Reply::refused(Reason::Record, 0);
    }
    fetch_from(shift, storage, keys, own, address, bytes)
}

/// A store for any lengths and any record.
#[inline(always)]
fn store_in<P: Record>(
    settings: Settings,
    storage: &mut [u8],
    keys: &mut [u8],
    own: &P,
    address: u32,
    bytes: &[u8],
) -> P::Reply {
    let shift = unit_shift(settings);
    if lengths_wrong(shift, storage.len(), keys.len()) {
        return P::Reply::refused(Reason::Configuration, 0);
    }
    if own.is_wrong(storage.len()) {
        return P::Reply::refused(Reason::Record, 0);
    }
    store_to(shift, storage, keys, own, address, bytes)
}

/// Fetches as many bytes as `bytes` has, for the processor with this record.
#[inline(never)]
pub fn fetch(
    settings: Settings,
    storage: &[u8],
    keys: &mut [u8],
    own: &Processor,
    address: u32,
    bytes: &mut [u8],
) -> FlatAnswer {
    fetch_in(settings, storage, keys, own, address, bytes)
}

/// Stores the bytes of `bytes`, for the processor with this record.
#[inline(never)]
pub fn store(
    settings: Settings,
    storage: &mut [u8],
    keys: &mut [u8],
    own: &Processor,
    address: u32,
    bytes: &[u8],
) -> FlatAnswer {
    store_in(settings, storage, keys, own, address, bytes)
}

/// The bytes of a processor's record, if there are two records and it is one of them.
#[inline(always)]
fn record_of(
    records: &mut [u8],
    processor_number: u32,
) -> Option<&mut [u8; boundary::RECORD_LENGTH]> {
    if records.len() != boundary::RECORDS_LENGTH {
        return None;
    }
    records.as_chunks_mut().0.get_mut(processor_number as usize)
}

/// A request as numbers: operation, first and second operand.
type Numbers = (u32, u32, u32);

/// [`storage_unit_request_plain`] with slices.
#[inline(always)]
fn request_by_numbers(
    settings: Settings,
    storage: &mut [u8],
    keys: &mut [u8],
    records: &mut [u8],
    processor_number: u32,
    (operation, first, second): Numbers,
    buffer: &mut [u8],
) -> u64 {
    let shift = unit_shift(settings);
    let length = storage.len();
    if lengths_wrong(shift, length, keys.len()) {
        return u64::refused(Reason::Configuration, 0);
    }
    let Some(record) = record_of(records, processor_number) else {
        return u64::refused(Reason::Record, 0);
    };
    let own = u64::from_le_bytes(*record);
    if own.is_wrong(length) {
        return u64::refused(Reason::Record, 0);
    }
    let kind = match operation {
        boundary::FETCH => AccessKind::Fetch,
        boundary::STORE => AccessKind::Store,
        _ => {
            let with = KeyArray {
                keys,
                length,
                extensions: settings.extensions,
            };
            return instruction_by_numbers(shift, with, record, (operation, first, second));
        }
    };
    access(shift, storage, keys, &own, kind, (first, second), buffer)
}

/// A key instruction or prefix instruction by its numbers, for lengths and a record that are
/// right. The compiler makes each a copy of what it calls.
#[inline(always)]
fn instruction_by_numbers(
    shift: u32,
    with: KeyArray,
    record: &mut [u8; boundary::RECORD_LENGTH],
    (operation, first, second): Numbers,
) -> u64 {
    use {KeyInstruction as Key, PrefixInstruction as Prefix};
    let key = |with, own: &mut u64, i| key_instruction(shift, with, own, i);
    let (r1, r2, length) = (first, second, with.length);
    let mut own = u64::from_le_bytes(*record);
    let answer = match operation {
        boundary::ISK => return key(with, &mut own, Key::Isk { r1, r2 }),
        boundary::SSK => return key(with, &mut own, Key::Ssk { r1, r2 }),
        boundary::RRB => key(with, &mut own, Key::Rrb { address: second }),
        boundary::ISKE => return key(with, &mut own, Key::Iske { r1, r2 }),
        boundary::SSKE => return key(with, &mut own, Key::Sske { r1, r2 }),
        boundary::RRBE => key(with, &mut own, Key::Rrbe { r2 }),
        boundary::SET_PREFIX => {
            prefix_instruction(length, &mut own, Prefix::SetPrefix { word: first })
        }
        boundary::STORE_PREFIX => return prefix_instruction(length, &mut own, Prefix::StorePrefix),
        _ => return u64::refused(Reason::Operand, 0),
    };
    // All eight bytes at once, so that the next request can read them at once.
    *record = own.to_le_bytes();
    answer
}

/// The plain implementation behind a C function like that of the proved unit, with the
/// same answers to every number and every byte, so that both can be called and measured
/// in the same way.
///
/// # Safety
///
/// As for every [`boundary::RawRequest`].
#[unsafe(no_mangle)]
#[inline(never)]
#[allow(clippy::too_many_arguments)]
pub unsafe extern "C" fn storage_unit_request_plain(
    settings: u32,
    storage: *mut u8,
    storage_length: usize,
    keys: *mut u8,
    keys_length: usize,
    records: *mut u8,
    records_length: usize,
    processor_number: u32,
    operation: u32,
    first: u32,
    second: u32,
    buffer: *mut u8,
    buffer_length: usize,
) -> u64 {
    // SAFETY: the caller gives valid ranges that do not overlap.
    let (storage, keys, records, buffer) = unsafe {
        (
            lent(storage, storage_length),
            lent(keys, keys_length),
            lent(records, records_length),
            lent(buffer, buffer_length),
        )
    };
    let Some(settings) = decode_settings(settings) else {
        return u64::refused(Reason::Configuration, 0);
    };
    let numbers = (operation, first, second);
    request_by_numbers(
        settings,
        storage,
        keys,
        records,
        processor_number,
        numbers,
        buffer,
    )
}

/// The plain implementation behind a C function like `storage_unit_fetch`.
///
/// # Safety
///
/// As for every [`boundary::RawFetch`].
#[unsafe(no_mangle)]
#[inline(never)]
#[allow(clippy::too_many_arguments)]
pub unsafe extern "C" fn storage_unit_fetch_plain(
    settings: u32,
    storage: *const u8,
    storage_length: usize,
    keys: *mut u8,
    keys_length: usize,
    record: u64,
    address: u32,
    bytes: *mut u8,
    count: usize,
) -> u64 {
    // SAFETY: the caller gives valid ranges that do not overlap.
    let (storage, keys, bytes) = unsafe {
        (
            read_only(storage, storage_length),
            lent(keys, keys_length),
            lent(bytes, count),
        )
    };
    let Some(settings) = decode_settings(settings) else {
        return u64::refused(Reason::Configuration, 0);
    };
    fetch_in(settings, storage, keys, &record, address, bytes)
}

/// The plain implementation behind a C function like `storage_unit_store`.
///
/// # Safety
///
/// As for every [`boundary::RawStore`].
#[unsafe(no_mangle)]
#[inline(never)]
#[allow(clippy::too_many_arguments)]
pub unsafe extern "C" fn storage_unit_store_plain(
    settings: u32,
    storage: *mut u8,
    storage_length: usize,
    keys: *mut u8,
    keys_length: usize,
    record: u64,
    address: u32,
    bytes: *const u8,
    count: usize,
) -> u64 {
    // SAFETY: the caller gives valid ranges that do not overlap.
    let (storage, keys, bytes) = unsafe {
        (
            lent(storage, storage_length),
            lent(keys, keys_length),
            read_only(bytes, count),
        )
    };
    let Some(settings) = decode_settings(settings) else {
        return u64::refused(Reason::Configuration, 0);
    };
    store_in(settings, storage, keys, &record, address, bytes)
}

/// The bytes that a caller in another language lends.
///
/// # Safety
///
/// The pointer must be valid for reads and writes of this many bytes, which nothing else
/// reads or writes meanwhile. Where the length is 0, the pointer is not used.
pub(crate) unsafe fn lent<'a>(pointer: *mut u8, length: usize) -> &'a mut [u8] {
    if length == 0 {
        return &mut [];
    }
    // SAFETY: the caller guarantees it.
    unsafe { std::slice::from_raw_parts_mut(pointer, length) }
}

/// The bytes that a caller in another language lends for reading.
///
/// # Safety
///
/// The pointer must be valid for reads of this many bytes, which nothing else writes
/// meanwhile. Where the length is 0, the pointer is not used.
pub(crate) unsafe fn read_only<'a>(pointer: *const u8, length: usize) -> &'a [u8] {
    if length == 0 {
        return &[];
    }
    // SAFETY: the caller guarantees it.
    unsafe { std::slice::from_raw_parts(pointer, length) }
}
