//! Documents 01 and 02 written down byte by byte.
//!
//! This implementation is for comparison. It follows the table of numbers line by
//! line and treats each byte of an access by itself: its real address, its
//! absolute address, the key of its unit. It is written to be read beside
//! the documents and the manual, not to be fast.

use storage_unit::{
    AccessKind, Answer, KeyInstruction, PrefixInstruction, Processor, Reason, Refusal, Request,
    Rule, Settings,
};

use crate::{completed, refused};

/// The number of 24-bit addresses.
const ADDRESSES_24: u32 = 16_777_216;

/// The bits `first` to `last` of a word, numbered from the left as in the manual,
/// moved to the right end.
fn bits(word: u32, first: u32, last: u32) -> u32 {
    let without_left = word << first >> first;
    without_left >> (31 - last)
}

/// Bit `number` of a key byte, numbered from the left.
fn key_bit(key: u8, number: u32) -> u8 {
    (key >> (7 - number)) & 1
}

const FETCH_PROTECTION: u32 = 4;
const REFERENCE: u32 = 5;
const CHANGE: u32 = 6;

/// The four access-control bits of a key.
fn access_control(key: u8) -> u8 {
    key >> 4
}

/// A key byte as it is written: bit 7 is zero.
fn written_key(access_control: u8, fetch_protection: u8, reference: u8, change: u8) -> u8 {
    access_control << 4 | fetch_protection << 3 | reference << 2 | change << 1
}

/// The real address of byte `offset` of an access that starts at `start`.
fn real_address(start: u32, offset: u32) -> u32 {
    (start + offset) % ADDRESSES_24
}

/// The rule that gives the absolute address of a real address: the first that applies.
fn prefix_rule(real: u32, prefix: u32) -> Rule {
    if bits(real, 1, 19) == 0 {
        Rule::Zero
    } else if bits(real, 1, 19) == bits(prefix, 1, 19) {
        Rule::Prefix
    } else {
        Rule::Unchanged
    }
}

/// The absolute address of a real address.
fn absolute_address(real: u32, prefix: u32) -> u32 {
    let block = match prefix_rule(real, prefix) {
        Rule::Zero => bits(prefix, 1, 19),
        Rule::Prefix => 0,
        Rule::Unchanged => bits(real, 1, 19),
    };
    block * 4096 + bits(real, 20, 31)
}

/// The number of bytes in a key unit.
fn key_unit(settings: Settings) -> u32 {
    if settings.four_k { 4096 } else { 2048 }
}

/// The index of the key for an absolute address.
fn unit_of(settings: Settings, absolute: u32) -> usize {
    (absolute / key_unit(settings)) as usize
}

/// The real address of the block that a key instruction designates.
fn designated_block(instruction: &KeyInstruction) -> u32 {
    match *instruction {
        KeyInstruction::Isk { r2, .. } | KeyInstruction::Ssk { r2, .. } => bits(r2, 8, 20) * 2048,
        KeyInstruction::Rrb { address } => bits(address, 0, 20) * 2048,
        KeyInstruction::Iske { r2, .. }
        | KeyInstruction::Sske { r2, .. }
        | KeyInstruction::Rrbe { r2 } => bits(r2, 1, 19) * 4096,
    }
}

/// Whether the instruction is one of the three extended ones.
fn is_extended(instruction: &KeyInstruction) -> bool {
    matches!(
        instruction,
        KeyInstruction::Iske { .. } | KeyInstruction::Sske { .. } | KeyInstruction::Rrbe { .. }
    )
}

/// The block that SET PREFIX would install.
fn new_prefix(word: u32) -> u32 {
    bits(word, 8, 19) * 4096
}

/// The keys that a key instruction works on: one, or the low-order and the
/// high-order key of a 4K block.
fn keys_of_instruction(
    settings: Settings,
    prefix: u32,
    instruction: &KeyInstruction,
) -> (usize, Option<usize>) {
    let absolute = absolute_address(designated_block(instruction), prefix);
    let first = unit_of(settings, absolute);
    if is_extended(instruction) && !settings.four_k {
        (first, Some(unit_of(settings, absolute + 2048)))
    } else {
        (first, None)
    }
}

/// Everything that the lines of the table look at.
struct Situation<'a> {
    settings: Settings,
    storage_length: usize,
    keys: &'a [u8],
    processors: &'a [Processor; 2],
    processor_number: u32,
    request: &'a Request,
    buffer_length: usize,
}

impl Situation<'_> {
    /// The record of the processor that asks. Used after line 65 only.
    fn own(&self) -> &Processor {
        &self.processors[self.processor_number as usize]
    }

    fn outside(&self, address: u32) -> bool {
        address as usize >= self.storage_length
    }

    fn key_of(&self, absolute: u32) -> u8 {
        self.keys[unit_of(self.settings, absolute)]
    }

    /// Whether the byte at this real address is forbidden.
    fn forbidden(&self, kind: AccessKind, real: u32) -> bool {
        let own = self.own();
        let key = self.key_of(absolute_address(real, own.prefix));
        let keys_match = own.psw_key == 0 || own.psw_key == access_control(key);
        match kind {
            AccessKind::Store => {
                let low_address = own.low_protection && real <= 511;
                low_address || !keys_match
            }
            AccessKind::Fetch => !(keys_match || key_bit(key, FETCH_PROTECTION) == 0),
        }
    }
}

/// A line of the table: the place if the line applies.
type Line = fn(&Situation) -> Option<u8>;

/// The lines of the table that refuse a request, from top to bottom.
const LINES: [(Reason, Line); 9] = [
    (Reason::Configuration, line_64),
    (Reason::Record, line_65),
    (Reason::Operand, line_66),
    (Reason::Operation, line_1),
    (Reason::Privileged, line_2),
    (Reason::SpecialOperation, line_19),
    (Reason::Specification, line_6),
    (Reason::Addressing, line_5),
    (Reason::Protection, line_4),
];

/// Place 0 if the condition holds.
fn place_0_if(condition: bool) -> Option<u8> {
    if condition { Some(0) } else { None }
}

/// Storage length or key array length breaks the numbers.
fn line_64(situation: &Situation) -> Option<u8> {
    let length = situation.storage_length;
    let storage_good = length.is_multiple_of(4096) && (4096..=16_777_216).contains(&length);
    let keys_good = situation.keys.len() == length / key_unit(situation.settings) as usize;
    place_0_if(!storage_good || !keys_good)
}

/// The processor number is not 0 or 1, or that processor's own record is bad.
fn line_65(situation: &Situation) -> Option<u8> {
    if situation.processor_number != 0 && situation.processor_number != 1 {
        return Some(0);
    }
    let own = situation.own();
    let prefix_good =
        own.prefix.is_multiple_of(4096) && (own.prefix as usize) < situation.storage_length;
    place_0_if(own.psw_key > 15 || own.code > 3 || !prefix_good)
}

/// Access count, access or RRB address, or the buffer is bad.
fn line_66(situation: &Situation) -> Option<u8> {
    match *situation.request {
        Request::Access { address, count, .. } => place_0_if(
            count == 0
                || count > 256
                || address >= ADDRESSES_24
                || situation.buffer_length < count as usize,
        ),
        Request::Key(KeyInstruction::Rrb { address }) => place_0_if(address >= ADDRESSES_24),
        Request::Key(_) | Request::Prefix(_) => None,
    }
}

/// An extended instruction without the extensions.
fn line_1(situation: &Situation) -> Option<u8> {
    match situation.request {
        Request::Key(instruction) => {
            place_0_if(is_extended(instruction) && !situation.settings.extensions)
        }
        Request::Access { .. } | Request::Prefix(_) => None,
    }
}

/// A key or prefix instruction in the problem state.
fn line_2(situation: &Situation) -> Option<u8> {
    match situation.request {
        Request::Key(_) | Request::Prefix(_) => place_0_if(situation.own().problem),
        Request::Access { .. } => None,
    }
}

/// ISK, SSK or RRB with the 4K facility and bit 7 of control register 0 zero.
fn line_19(situation: &Situation) -> Option<u8> {
    match situation.request {
        Request::Key(instruction) => place_0_if(
            !is_extended(instruction) && situation.settings.four_k && !situation.own().key_control,
        ),
        Request::Access { .. } | Request::Prefix(_) => None,
    }
}

/// ISK or SSK with any of bits 28-31 of R2 on.
fn line_6(situation: &Situation) -> Option<u8> {
    match *situation.request {
        Request::Key(KeyInstruction::Isk { r2, .. } | KeyInstruction::Ssk { r2, .. }) => {
            place_0_if(bits(r2, 28, 31) != 0)
        }
        _ => None,
    }
}

/// A real address, or the block SET PREFIX would install, lies outside storage.
fn line_5(situation: &Situation) -> Option<u8> {
    match *situation.request {
        Request::Access { address, count, .. } => {
            for offset in 0..count {
                if situation.outside(real_address(address, offset)) {
                    return Some(offset as u8);
                }
            }
            None
        }
        Request::Key(ref instruction) => {
            place_0_if(situation.outside(designated_block(instruction)))
        }
        Request::Prefix(PrefixInstruction::SetPrefix { word }) => {
            place_0_if(situation.outside(new_prefix(word) + 4095))
        }
        Request::Prefix(PrefixInstruction::StorePrefix) => None,
    }
}

/// A byte of an access is forbidden.
fn line_4(situation: &Situation) -> Option<u8> {
    match *situation.request {
        Request::Access {
            kind,
            address,
            count,
        } => {
            for offset in 0..count {
                if situation.forbidden(kind, real_address(address, offset)) {
                    return Some(offset as u8);
                }
            }
            None
        }
        Request::Key(_) | Request::Prefix(_) => None,
    }
}

/// Carries out one request for one processor; the parameters are those of
/// [`RequestFunction`](crate::RequestFunction).
pub fn request(
    settings: Settings,
    storage: &mut [u8],
    keys: &mut [u8],
    processors: &mut [Processor; 2],
    processor_number: u32,
    request: &Request,
    buffer: &mut [u8],
) -> Answer {
    let situation = Situation {
        settings,
        storage_length: storage.len(),
        keys,
        processors,
        processor_number,
        request,
        buffer_length: buffer.len(),
    };
    for (reason, line) in LINES {
        if let Some(place) = line(&situation) {
            return refused(reason, place);
        }
    }

    // No line refuses the request. What follows changes the state.
    let own = &mut processors[processor_number as usize];
    match *request {
        Request::Access {
            kind,
            address,
            count,
        } => {
            for offset in 0..count {
                let real = real_address(address, offset);
                let absolute = absolute_address(real, own.prefix);
                let unit = unit_of(settings, absolute);
                let key = keys[unit];
                match kind {
                    AccessKind::Fetch => {
                        buffer[offset as usize] = storage[absolute as usize];
                        keys[unit] = written_key(
                            access_control(key),
                            key_bit(key, FETCH_PROTECTION),
                            1,
                            key_bit(key, CHANGE),
                        );
                    }
                    AccessKind::Store => {
                        storage[absolute as usize] = buffer[offset as usize];
                        keys[unit] =
                            written_key(access_control(key), key_bit(key, FETCH_PROTECTION), 1, 1);
                    }
                }
            }
            // Byte 0 is the first address that it names.
            completed(0, Some(prefix_rule(real_address(address, 0), own.prefix)))
        }
        Request::Key(ref instruction) => {
            // The block is the first address that it names.
            let rule = prefix_rule(designated_block(instruction), own.prefix);
            let word = complete_key_instruction(settings, keys, own, instruction);
            completed(word, Some(rule))
        }
        Request::Prefix(PrefixInstruction::SetPrefix { word }) => {
            own.prefix = new_prefix(word);
            completed(0, None)
        }
        Request::Prefix(PrefixInstruction::StorePrefix) => {
            completed(bits(own.prefix, 8, 19) * 4096, None)
        }
    }
}

/// The effect and the word of a key instruction that no line refuses.
fn complete_key_instruction(
    settings: Settings,
    keys: &mut [u8],
    own: &mut Processor,
    instruction: &KeyInstruction,
) -> u32 {
    let (low, high) = keys_of_instruction(settings, own.prefix, instruction);
    match *instruction {
        KeyInstruction::Isk { r1, .. } | KeyInstruction::Iske { r1, .. } => {
            let low_key = keys[low];
            let (reference, change) = reference_and_change(keys, low, high);
            let inserted = written_key(
                access_control(low_key),
                key_bit(low_key, FETCH_PROTECTION),
                reference,
                change,
            );
            // Bits 0-23 of R1 stay, bits 24-30 are the key, bit 31 is zero.
            bits(r1, 0, 23) * 256 + u32::from(inserted)
        }
        KeyInstruction::Ssk { r1, .. } | KeyInstruction::Sske { r1, .. } => {
            // Bits 24-30 of R1, with bit 7 of the key zero.
            let key = (bits(r1, 24, 30) * 2) as u8;
            keys[low] = key;
            if let Some(high) = high {
                keys[high] = key;
            }
            0
        }
        KeyInstruction::Rrb { .. } | KeyInstruction::Rrbe { .. } => {
            let (reference, change) = reference_and_change(keys, low, high);
            own.code = 2 * reference + change;
            keys[low] = without_reference(keys[low]);
            if let Some(high) = high {
                keys[high] = without_reference(keys[high]);
            }
            0
        }
    }
}

/// The OR of the reference bits of one key or two, and the OR of their change bits.
fn reference_and_change(keys: &[u8], low: usize, high: Option<usize>) -> (u8, u8) {
    let mut reference = key_bit(keys[low], REFERENCE);
    let mut change = key_bit(keys[low], CHANGE);
    if let Some(high) = high {
        reference |= key_bit(keys[high], REFERENCE);
        change |= key_bit(keys[high], CHANGE);
    }
    (reference, change)
}

/// The key with its reference bit zero.
fn without_reference(key: u8) -> u8 {
    written_key(
        access_control(key),
        key_bit(key, FETCH_PROTECTION),
        0,
        key_bit(key, CHANGE),
    )
}

/// The units that a request names, in ascending order, given the record of its
/// processor before the request and its answer.
///
/// An access that completes or ends with 4 names every unit in its range, a key
/// instruction that completes names its one or two units, and every other request
/// names none.
pub fn units_named(
    settings: Settings,
    own: &Processor,
    request: &Request,
    answer: &Answer,
) -> Vec<usize> {
    let mut units = Vec::new();
    match (request, answer) {
        (
            &Request::Access { address, count, .. },
            Ok(_)
            | Err(Refusal {
                reason: Reason::Protection,
                ..
            }),
        ) => {
            for offset in 0..count {
                let absolute = absolute_address(real_address(address, offset), own.prefix);
                units.push(unit_of(settings, absolute));
            }
        }
        (Request::Key(instruction), Ok(_)) => {
            let (low, high) = keys_of_instruction(settings, own.prefix, instruction);
            units.push(low);
            units.extend(high);
        }
        _ => {}
    }
    units.sort_unstable();
    units.dedup();
    units
}
