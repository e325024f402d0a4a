//! A channel as ordinary Rust, for comparison of speed: each key unit of the data checked once,
//! bytes copied as slices, the record of the channel in registers from the first CCW to the last.

use storage_unit::boundary::{
    ANSWER_NUMBER, CHAINING_COMMAND, CHAINING_ENDED, CHAINING_FIRST, CHAINING_TRANSFER,
    CHANNEL_UNDER_WAY, EXTENSIONS, FOUR_K, PROGRESS_ADDRESS_AT, PROGRESS_CHAINING_AT,
    PROGRESS_ENDED, PROGRESS_FETCHED_AT, PROGRESS_GIVEN_AT, PROGRESS_LENGTH, PROGRESS_NOT_BEGUN,
    PROGRESS_STATUS_AT, PROGRESS_TAKEN_AT, PROGRESS_UNDER_WAY,
};

use crate::plain::{lengths_wrong, lent, read_only};

const FETCH_PROTECTION: u8 = 0x08;
const REFERENCE: u8 = 0x04;
const CHANGE: u8 = 0x02;
const UNUSED: u8 = 0x01;

const CHAIN_COMMAND: u8 = 0x40;
const ADDRESS_MASK: usize = 0x00FF_FFFF;
const GRANT_MAXIMUM: u32 = 256;
const KEY_MAXIMUM: u32 = 15;

const LENGTHS: u16 = 64;
const KEY: u16 = 65;
const GRANT: u16 = 66;
const PROGRAM: u16 = 71;
const PROTECTION: u16 = 72;
const DEVICE: u16 = 73;
const USED_UP: u16 = 74;

/// A request as numbers: key, address of the first CCW, grant.
type Numbers = (u32, u32, u32);

/// The record of the channel.
#[derive(Clone, Copy)]
struct Record {
    address: u32,
    chaining: u8,
    fetched: u32,
    taken: u64,
    given: u64,
}

impl Record {
    #[inline(always)]
    fn start(first: u32) -> Record {
        Record {
            address: first,
            chaining: CHAINING_FIRST,
            fetched: 0,
            taken: 0,
            given: 0,
        }
    }

    #[inline(always)]
    fn from(progress: &[u8; PROGRESS_LENGTH]) -> Record {
        Record {
            address: u32::from_le_bytes(part(progress, PROGRESS_ADDRESS_AT)),
            chaining: progress[PROGRESS_CHAINING_AT],
            fetched: u32::from_le_bytes(part(progress, PROGRESS_FETCHED_AT)),
            taken: u64::from_le_bytes(part(progress, PROGRESS_TAKEN_AT)),
            given: u64::from_le_bytes(part(progress, PROGRESS_GIVEN_AT)),
        }
    }

    /// Leaves the record and the answer, or that there is none yet, as a progress.
    #[inline(always)]
    fn leave(&self, number: u16, progress: &mut [u8; PROGRESS_LENGTH]) {
        let status = match number {
            0 => PROGRESS_ENDED,
            CHANNEL_UNDER_WAY => PROGRESS_UNDER_WAY,
            refused => refused as u8,
        };
        // Numbers of eight bytes, so that the next step can read its parts at once.
        let bytes = [
            u64::from(self.address)
                | u64::from(self.chaining) << (8 * PROGRESS_CHAINING_AT)
                | u64::from(status) << (8 * PROGRESS_STATUS_AT),
            u64::from(self.fetched),
            self.taken,
            self.given,
        ];
        for (chunk, number) in progress.as_chunks_mut().0.iter_mut().zip(bytes) {
            *chunk = number.to_le_bytes();
        }
    }
}

#[inline(always)]
fn part<const N: usize>(progress: &[u8; PROGRESS_LENGTH], at: usize) -> [u8; N] {
    let mut bytes = [0; N];
    bytes.copy_from_slice(&progress[at..at + N]);
    bytes
}

#[inline(always)]
fn may_fetch(access: u8, key: u8) -> bool {
    access == key >> 4 || access == 0 || key & FETCH_PROTECTION == 0
}

#[inline(always)]
fn may_store(access: u8, key: u8) -> bool {
    access == key >> 4 || access == 0
}

/// Tests and writes the keys of data. Gives whether all allow it.
#[inline(always)]
fn pass(keys: &mut [u8], may: impl Fn(u8) -> bool, bits: u8) -> bool {
    if let [key] = keys {
        let good = may(*key);
        if good {
            *key = *key & !UNUSED | bits;
        }
        return good;
    }
    if !keys.iter().all(|key| may(*key)) {
        return false;
    }
    for key in keys {
        *key = *key & !UNUSED | bits;
    }
    true
}

/// The next bytes of a buffer, from a position on.
#[inline(always)]
fn next(length: usize, position: u64, count: usize) -> Option<(usize, usize)> {
    let start = usize::try_from(position).ok()?;
    if length.checked_sub(start)? < count {
        return None;
    }
    Some((start, start + count))
}

/// What the channel works on.
struct Lent<'a> {
    storage: &'a mut [u8],
    keys: &'a mut [u8],
    from: &'a [u8],
    room: &'a mut [u8],
}

/// Does CCWs until there is an answer, or one CCW if `ONE`. Lengths, key and grant are right.
#[inline(always)]
fn run<const SHIFT: u32, const ONE: bool>(
    with: &mut Lent,
    access: u8,
    grant: u32,
    record: &mut Record,
) -> u16 {
    let Lent {
        storage,
        keys,
        from,
        room,
    } = with;
    let length = storage.len();
    loop {
        if record.fetched >= grant {
            return USED_UP;
        }
        let at = record.address as usize;
        if at & 7 != 0 || at >= length {
            return PROGRAM;
        }
        let Some(&bytes) = storage[at..].first_chunk() else {
            return PROGRAM;
        };
        let key = &mut keys[at >> SHIFT];
        if !may_fetch(access, *key) {
            return PROTECTION;
        }
        *key = *key & !UNUSED | REFERENCE;
        record.fetched += 1;

        let ccw = u64::from_be_bytes(bytes);
        let (command, flags) = ((ccw >> 56) as u8, (ccw >> 24) as u8);
        let (address, count) = ((ccw >> 32) as usize & ADDRESS_MASK, ccw as u16 as usize);
        let low = command & 3;
        if low == 0 || low == 3 {
            // A transfer in channel is allowed behind a CCW that chains.
            if command & 15 != 8 || record.chaining != CHAINING_COMMAND {
                return PROGRAM;
            }
            record.address = address as u32;
            record.chaining = CHAINING_TRANSFER;
            if ONE {
                return CHANNEL_UNDER_WAY;
            }
            continue;
        }
        let end = address + count;
        if flags & !CHAIN_COMMAND != 0 || count == 0 || end > length {
            return PROGRAM;
        }
        let units = address >> SHIFT..((end - 1) >> SHIFT) + 1;
        if low == 2 {
            let Some((start, stop)) = next(from.len(), record.taken, count) else {
                return DEVICE;
            };
            if !pass(
                &mut keys[units],
                |key| may_store(access, key),
                REFERENCE | CHANGE,
            ) {
                return PROTECTION;
            }
            storage[address..end].copy_from_slice(&from[start..stop]);
            record.taken = stop as u64;
        } else {
            let Some((start, stop)) = next(room.len(), record.given, count) else {
                return DEVICE;
            };
            if !pass(&mut keys[units], |key| may_fetch(access, key), REFERENCE) {
                return PROTECTION;
            }
            room[start..stop].copy_from_slice(&storage[address..end]);
            record.given = stop as u64;
        }
        record.address += 8;
        if flags & CHAIN_COMMAND == 0 {
            record.chaining = CHAINING_ENDED;
            return 0;
        }
        record.chaining = CHAINING_COMMAND;
        if ONE {
            return CHANNEL_UNDER_WAY;
        }
    }
}

/// Tests what comes before the first CCW, then does CCWs.
#[inline(always)]
fn tested<const ONE: bool>(
    settings: u32,
    with: &mut Lent,
    (key, _, grant): Numbers,
    record: &mut Record,
) -> u16 {
    if wrong_lengths(settings, with.storage.len(), with.keys.len()) {
        return LENGTHS;
    }
    if key > KEY_MAXIMUM {
        return KEY;
    }
    if grant.wrapping_sub(1) >= GRANT_MAXIMUM {
        return GRANT;
    }
    if settings & FOUR_K == 0 {
        run::<11, ONE>(with, key as u8, grant, record)
    } else {
        run::<12, ONE>(with, key as u8, grant, record)
    }
}

/// Whether another bit of the settings is on: then nothing changes.
#[inline(always)]
fn wrong_settings(settings: u32) -> bool {
    settings & !(FOUR_K | EXTENSIONS) != 0
}

#[inline(always)]
fn wrong_lengths(settings: u32, length: usize, key_count: usize) -> bool {
    let shift = if settings & FOUR_K == 0 { 11 } else { 12 };
    lengths_wrong(shift, length, key_count)
}

#[inline(always)]
fn packed(number: u16) -> u64 {
    u64::from(number) << ANSWER_NUMBER.trailing_zeros()
}

/// The answer where the progress is none, with right settings.
#[cold]
fn without_progress(settings: u32, with: &Lent) -> u64 {
    if wrong_lengths(settings, with.storage.len(), with.keys.len()) {
        packed(LENGTHS)
    } else {
        packed(KEY)
    }
}

/// A whole request.
#[inline(always)]
fn whole(settings: u32, mut with: Lent, numbers: Numbers, progress: &mut [u8]) -> u64 {
    if wrong_settings(settings) {
        return packed(LENGTHS);
    }
    let Ok(progress) = progress.try_into() else {
        return without_progress(settings, &with);
    };
    let mut record = Record::start(numbers.1);
    let number = tested::<false>(settings, &mut with, numbers, &mut record);
    record.leave(number, progress);
    packed(number)
}

/// Whether the bytes of a progress that have few values have one of them.
#[inline(always)]
fn is_progress(progress: &[u8; PROGRESS_LENGTH]) -> bool {
    let reserved =
        progress[6] | progress[7] | progress[12..16].iter().fold(0, |or, byte| or | byte);
    reserved == 0
        && progress[PROGRESS_CHAINING_AT] <= CHAINING_ENDED
        && matches!(progress[PROGRESS_STATUS_AT], 0..=2 | 64..=66 | 71..=74)
}

/// One step.
#[inline(always)]
fn step(settings: u32, mut with: Lent, numbers: Numbers, progress: &mut [u8]) -> u64 {
    if wrong_settings(settings) {
        return packed(LENGTHS);
    }
    let progress = match <&mut [u8; PROGRESS_LENGTH]>::try_from(progress) {
        Ok(progress) if is_progress(progress) => progress,
        _ => return without_progress(settings, &with),
    };
    let mut record = match progress[PROGRESS_STATUS_AT] {
        PROGRESS_NOT_BEGUN => Record::start(numbers.1),
        PROGRESS_UNDER_WAY => Record::from(progress),
        PROGRESS_ENDED => return packed(0),
        refused => return packed(refused.into()),
    };
    let number = tested::<true>(settings, &mut with, numbers, &mut record);
    record.leave(number, progress);
    packed(number)
}

/// The plain channel behind a C function like `storage_unit_channel`, with the same answers to
/// every number and every byte.
///
/// # Safety
///
/// As for every [`RawChannel`](storage_unit::boundary::RawChannel).
#[unsafe(no_mangle)]
#[inline(never)]
#[allow(clippy::too_many_arguments)]
pub unsafe extern "C" fn storage_unit_channel_plain(
    settings: u32,
    storage: *mut u8,
    storage_length: usize,
    keys: *mut u8,
    keys_length: usize,
    key: u32,
    first: u32,
    grant: u32,
    from: *const u8,
    from_length: usize,
    room: *mut u8,
    room_length: usize,
    progress: *mut u8,
    progress_length: usize,
) -> u64 {
    // SAFETY: the caller gives valid ranges that do not overlap.
    let (with, progress) = unsafe {
        (
            Lent {
                storage: lent(storage, storage_length),
                keys: lent(keys, keys_length),
                from: read_only(from, from_length),
                room: lent(room, room_length),
            },
            lent(progress, progress_length),
        )
    };
    whole(settings, with, (key, first, grant), progress)
}

/// The plain channel behind a C function like `storage_unit_channel_step`.
///
/// # Safety
///
/// As for every [`RawChannel`](storage_unit::boundary::RawChannel).
#[unsafe(no_mangle)]
#[inline(never)]
#[allow(clippy::too_many_arguments)]
pub unsafe extern "C" fn storage_unit_channel_step_plain(
    settings: u32,
    storage: *mut u8,
    storage_length: usize,
    keys: *mut u8,
    keys_length: usize,
    key: u32,
    first: u32,
    grant: u32,
    from: *const u8,
    from_length: usize,
    room: *mut u8,
    room_length: usize,
    progress: *mut u8,
    progress_length: usize,
) -> u64 {
    // SAFETY: the caller gives valid ranges that do not overlap.
    let (with, progress) = unsafe {
        (
            Lent {
                storage: lent(storage, storage_length),
                keys: lent(keys, keys_length),
                from: read_only(from, from_length),
                room: lent(room, room_length),
            },
            lent(progress, progress_length),
        )
    };
    step(settings, with, (key, first, grant), progress)
}
