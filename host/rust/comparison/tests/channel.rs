//! Random programs of a channel: each implementation against the reference.
//!
//! Every request runs on three copies of the same machine: on one by the reference, on the others
//! by the implementation under test, as a whole and step by step. Compared are the answer, the
//! progress with the channel's record, the keys, the room, and the storage; step by step also the
//! number and the progress after each step, and the keys of a small machine. The storage of a large
//! machine is compared where the program writes, and as a whole from time to time.
//!
//! `STORAGE_UNIT_PROGRAMS` sets the number of requests for each implementation,
//! `STORAGE_UNIT_SEED` the seed of the first machine. Each further machine has the seed of the
//! one before it plus one. A failure prints the seed of its machine; to repeat it, give that seed.

mod support;

use std::fmt::Write;
use std::thread;

use storage_unit::boundary::{
    PROGRESS_LENGTH, RawChannel, call_channel_raw, decode_progress, encode_progress,
    encode_settings, storage_unit_channel,
};
use storage_unit::{
    ChannelProgress, ChannelRefusal, ChannelRequest, ChannelStatus, Machine, Settings,
};
use storage_unit_comparison::ChannelUnit;
use storage_unit_comparison::channel::{
    self, Ccw, Chaining, Lent, Line, Progress, Record, Request, Status, Step,
};
use storage_unit_comparison::units::{Plain, Proved};

use support::channels::*;
use support::*;

const DEFAULT_PROGRAMS: u64 = 200_000;
const DEFAULT_SEED: u64 = 4_370_000;

/// How many requests a machine gets.
const PER_MACHINE: u64 = 256;

/// The counts below are asserted from this number of requests on.
const ENOUGH_TO_COUNT: u64 = 200_000;

/// The longest storage that is compared as a whole after each request, and the most keys that are
/// compared after each step.
const SMALL_STORAGE: usize = 65_536;
const FEW_KEYS: usize = 64;

/// Storage and keys are longer than the machine has, so that arrays that are too long can be lent.
const SPARE_STORAGE: usize = 8192;
const SPARE_KEYS: usize = 4;

/// The lines that a step can come to, each with its name.
const LINES: [(Line, &str); 19] = [
    (Line::Lengths, "64 lengths"),
    (Line::Key, "65 key"),
    (Line::Grant, "66 grant"),
    (Line::UsedUp, "74 grant used up"),
    (Line::NotMultipleOf8, "71 address no multiple of 8"),
    (Line::Outside, "71 CCW outside"),
    (Line::CcwForbidden, "72 CCW forbidden"),
    (Line::Command, "71 command"),
    (Line::Misplaced, "71 misplaced transfer"),
    (Line::Flag, "71 flag"),
    (Line::ZeroCount, "71 count zero"),
    (Line::Range, "71 data outside"),
    (Line::FromShort, "73 bytes short"),
    (Line::RoomShort, "73 room short"),
    (Line::ReadForbidden, "72 read forbidden"),
    (Line::WriteForbidden, "72 write forbidden"),
    (Line::Transferred, "transfer"),
    (Line::Chained, "chained"),
    (Line::Ended, "0 ended"),
];

/// Makes an enumeration of situations, and their texts in the same order.
macro_rules! events {
    ($($event:ident: $text:literal,)*) => {
        /// Situations that the random programs must meet.
        #[derive(Clone, Copy)]
        enum Event {
            $($event,)*
        }

        const EVENTS: &[&str] = &[$($text,)*];
    };
}

events! {
    SettingsOther: "64 by another bit of the settings",
    LengthsBeforeKeyOrGrant: "64 where the key or the grant is wrong too",
    KeyBeforeGrant: "65 where the grant is wrong too",
    KeyWithLowBits: "65, the low four bits a key that would do",
    GrantZero: "66, grant 0",
    Grant257: "66, grant 257",
    GrantGreatest: "66, grant 4,294,967,295",
    FirstOdd: "first address no multiple of 8",
    FirstAtEnd: "first address at the end of storage",
    FirstAt2To24: "first address 16,777,216",
    FirstOver2To24: "first address over 16,777,216, its low 24 bits those of a program",
    OneCcw: "program of one CCW ended",
    Ended256: "ended with the 256th CCW",
    EndedLong: "ended after 200 CCWs or more",
    EndedAtGrant: "ended with the last granted CCW, grant under 256",
    UsedUp1: "used up, grant 1",
    UsedUp256: "used up, grant 256",
    UsedUpInLoop: "used up in a loop",
    UsedUpAtBadAddress: "used up, the CCW to come at no multiple of 8 or outside",
    DeviceInLoop: "bytes or room short in a loop",
    ChainedToEnd: "chained to the end of storage",
    ChainedTo2To24: "chained to 16,777,216",
    TransferOdd: "transfer to no multiple of 8",
    TransferOutside: "transfer to outside",
    TransferOther: "transfer with flags and count that no other CCW may have",
    TwoTransfers: "ended with two transfers or more",
    TransferFirst: "transfer as first CCW",
    TransferTwice: "transfer after a transfer",
    CcwForbiddenFirst: "first CCW forbidden",
    CcwForbiddenLater: "later CCW forbidden",
    CcwForbiddenByTransfer: "CCW that a transfer names forbidden",
    CcwForbiddenByChain: "CCW behind one that chains forbidden, in the next unit",
    CcwWithoutMatch: "CCW fetched without a match",
    CcwBit7: "CCW refused after its fetch cleared bit 7 of its unit's key",
    CommandXx11: "command xxxxxx11",
    Command0000: "command xxxx0000",
    Command0100: "command xxxx0100",
    Command1100: "command xxxx1100",
    FlagWithChain: "another flag beside chain command",
    ReadHighBits: "read with other bits of the command on",
    WriteHighBits: "write with other bits of the command on",
    Ignored: "performed with the ignored byte not zero",
    RangeByOne: "data one byte over the end of storage",
    RangeAll: "data wholly outside",
    RangeWrap: "data that would wrap past 16,777,215, storage ending there",
    RangeAndShort: "data outside where the device is short too",
    DataToEnd: "data to the last byte of storage",
    DataTo2To24: "data to byte 16,777,215",
    FromByOne: "bytes short by one",
    RoomByOne: "room short by one",
    FromEmpty: "no bytes at all",
    RoomEmpty: "no room at all",
    ShortAndForbidden: "bytes or room short where the transfer is forbidden too",
    ReadForbiddenLater: "read forbidden in a later unit, not in the first",
    WriteForbiddenLater: "write forbidden in a later unit, not in the first",
    ForbiddenKept: "forbidden transfer, bit 7 on in a key of its data",
    ReadUnits: "read over two units or more",
    WriteUnits: "write over two units or more",
    Read33: "read over 33 units of 2K",
    Write33: "write over 33 units of 2K",
    Read17: "read over 17 units of 4K",
    Write17: "write over 17 units of 4K",
    Read65535: "read of 65,535 bytes",
    Write65535: "write of 65,535 bytes",
    KeyZero: "read by key 0 where the access control is not 0",
    ReadByMatch: "read by a match of keys, not 0",
    WriteWithoutMatch: "write without a match",
    ReadBit7: "read cleared bit 7 of a key",
    WriteBit7: "write cleared bit 7 of a key",
    ReadOwnUnit: "read into the unit of its CCW",
    OwnOverwritten: "read over its own CCW",
    OwnOverwrittenAgain: "CCW that overwrote itself fetched again",
    Overwritten: "CCW fetched that a read of the program has changed",
    LowAddresses: "read into 0 to 511",
    Stands: "refused after a read or write was performed",
    RoomKept: "room kept behind what was written",
    ReadAlone: "read with no room at all",
    WriteAlone: "write with no bytes at all",
    BothWays: "ended after reads and writes",
}

/// How often each line and each event was met, and each other flag alone.
struct Counts {
    lines: [u64; LINES.len()],
    events: [u64; EVENTS.len()],
    flags: [u64; 8],
    /// Answers by unit: 2K, 4K.
    ended: [u64; 2],
    machines: u64,
    steps: u64,
    bytes: u64,
}

impl Counts {
    fn new() -> Counts {
        Counts {
            lines: [0; LINES.len()],
            events: [0; EVENTS.len()],
            flags: [0; 8],
            ended: [0; 2],
            machines: 0,
            steps: 0,
            bytes: 0,
        }
    }

    fn met(&mut self, event: Event, met: bool) {
        self.events[event as usize] += u64::from(met);
    }

    fn table(&self, programs: u64) -> String {
        let mut text = format!(
            "{programs} programs on {} machines, {} steps, {} bytes moved\n",
            self.machines, self.steps, self.bytes
        );
        for (line, name) in LINES {
            writeln!(text, "{:>9}  {name}", self.lines[line as usize]).unwrap();
        }
        for (count, name) in self.events.iter().zip(EVENTS) {
            writeln!(text, "{count:>9}  {name}").unwrap();
        }
        writeln!(
            text,
            "flags {:?}, ended by unit {:?}",
            self.flags, self.ended
        )
        .unwrap();
        text
    }

    /// Everything was met, and often.
    fn check(&self, programs: u64) {
        if programs < ENOUGH_TO_COUNT {
            return;
        }
        for (line, name) in LINES {
            let (count, minimum) = (self.lines[line as usize], programs / 500);
            assert!(count >= minimum, "{name}: {count}, fewer than {minimum}");
        }
        for (count, name) in self.events.iter().zip(EVENTS) {
            let minimum = programs / 10_000;
            assert!(*count >= minimum, "{name}: {count}, fewer than {minimum}");
        }
        for (bit, count) in self.flags.iter().enumerate() {
            let (minimum, flag) = (programs / 10_000, 1u8 << bit);
            assert!(flag == CHAIN_COMMAND || *count >= minimum, "flag {flag}");
        }
        assert!(self.ended.iter().all(|count| *count >= programs / 20));
    }
}

/// A copy of a machine, with the room and the progress of a request.
struct Side {
    storage: Vec<u8>,
    keys: Vec<u8>,
    room: Vec<u8>,
    progress: Vec<u8>,
}

/// What is lent to a request: settings, and how many bytes of storage and keys.
#[derive(Clone, Copy, Debug)]
struct Lengths {
    settings: u32,
    storage: usize,
    keys: usize,
}

impl Side {
    fn new(storage: &[u8], keys: &[u8]) -> Side {
        Side {
            storage: storage.to_vec(),
            keys: keys.to_vec(),
            room: Vec::new(),
            progress: Vec::new(),
        }
    }

    fn prepare(&mut self, asked: &Asked) {
        asked.write(&mut self.storage, &mut self.keys);
        self.room.clear();
        self.room.extend_from_slice(&asked.room);
    }

    fn call(&mut self, function: RawChannel, lengths: Lengths, asked: &Asked) -> u64 {
        let Request { key, first, grant } = asked.request;
        // SAFETY: the tests call the functions of the comparison and of the static library.
        unsafe {
            call_channel_raw(
                function,
                lengths.settings,
                &mut self.storage[..lengths.storage],
                &mut self.keys[..lengths.keys],
                (key, first, grant),
                &asked.from,
                &mut self.room,
                &mut self.progress,
            )
        }
    }
}

/// A number as the C functions give it.
fn packed(number: u16) -> u64 {
    u64::from(number) << 48
}

/// The bytes that a call leaves where the reference comes to this progress: with wrong settings
/// those from before it.
fn bytes_left(lengths: Lengths, progress: &Progress, before: &[u8]) -> Vec<u8> {
    if lengths.settings > 3 {
        before.to_vec()
    } else {
        channel::progress_bytes(progress).to_vec()
    }
}

/// What the reference did: the progress and the keys after each step.
struct Trace {
    progress: Vec<Progress>,
    keys: Vec<u8>,
    /// The ranges of storage that reads wrote.
    written: Vec<(usize, usize)>,
    /// The addresses of the CCWs that were fetched, and whether each overwrote itself.
    fetched: Vec<(u32, bool)>,
    transfers: u32,
    performed: [u32; 2],
}

/// What a step is given, for the events.
struct Before {
    record: Record,
    /// Of the CCW's unit, if it is inside.
    ccw_key: Option<u8>,
    /// Of the data of the CCW that stands at its address.
    data_keys: Vec<u8>,
}

fn before(side: &Side, lengths: Lengths, record: Record) -> Before {
    let unit = if lengths.settings & 1 == 0 {
        2048
    } else {
        4096
    };
    let at = record.address as usize;
    let mut found = Before {
        record,
        ccw_key: None,
        data_keys: Vec::new(),
    };
    let Some(bytes) = side.storage[..lengths.storage].get(at..at.saturating_add(8)) else {
        return found;
    };
    let ccw = Ccw::from_bytes(bytes.try_into().expect("eight bytes"));
    found.ccw_key = side.keys[..lengths.keys].get(at / unit).copied();
    let (start, count) = (ccw.address as usize, usize::from(ccw.count));
    if matches!(ccw.command & 3, 1 | 2) && count > 0 && start + count <= lengths.storage {
        let units = start / unit..=(start + count - 1) / unit;
        if let Some(keys) = side.keys[..lengths.keys].get(units) {
            found.data_keys.extend_from_slice(keys);
        }
    }
    found
}

/// Runs the request by the reference, and counts what it met.
fn reference(side: &mut Side, lengths: Lengths, asked: &Asked, counts: &mut Counts) -> Trace {
    let mut progress = Progress::NOT_BEGUN;
    let mut trace = Trace {
        progress: Vec::new(),
        keys: Vec::new(),
        written: Vec::new(),
        fetched: Vec::new(),
        transfers: 0,
        performed: [0; 2],
    };
    let at_start = side.storage_of(&asked.ccws);
    loop {
        let record = match progress.status {
            Status::NotBegun => Record {
                address: asked.request.first,
                ..progress.record
            },
            _ => progress.record,
        };
        let before = before(side, lengths, record);
        let mut lent = Lent {
            settings: lengths.settings,
            storage: &mut side.storage[..lengths.storage],
            keys: &mut side.keys[..lengths.keys],
            from: &asked.from,
            room: &mut side.room,
        };
        let Some(step) = channel::step(&mut lent, &asked.request, &mut progress) else {
            break;
        };
        trace.progress.push(progress);
        if lengths.keys <= FEW_KEYS {
            trace.keys.extend_from_slice(&side.keys[..lengths.keys]);
        }
        count_step(
            counts, lengths, asked, &before, &step, &mut trace, &at_start,
        );
    }
    count_end(counts, lengths, asked, &trace);
    trace
}

impl Side {
    /// The CCWs that the host wrote, as they stand before the request.
    fn storage_of(&self, ccws: &[(u32, [u8; 8])]) -> Vec<(u32, [u8; 8])> {
        ccws.iter()
            .map(|&(address, _)| {
                let bytes = &self.storage[address as usize..][..8];
                (address, bytes.try_into().expect("eight bytes"))
            })
            .collect()
    }
}

/// Counts what a step met.
fn count_step(
    counts: &mut Counts,
    lengths: Lengths,
    asked: &Asked,
    before: &Before,
    step: &Step,
    trace: &mut Trace,
    at_start: &[(u32, [u8; 8])],
) {
    let Request { key, first, grant } = asked.request;
    let (record, line) = (before.record, step.line);
    let length = lengths.storage;
    let first_step = record.chaining == Chaining::First;
    let by_transfer = record.chaining == Chaining::Transfer;
    let seen = trace.fetched.iter().any(|&(at, _)| at == record.address);
    let low_first = (first % ADDRESSES_24, first >= ADDRESSES_24);
    counts.lines[line as usize] += 1;
    counts.steps += 1;
    let mut met = |event, condition| counts.met(event, condition);
    match line {
        Line::Lengths => {
            met(Event::SettingsOther, lengths.settings > 3);
            let grant_wrong = grant == 0 || grant > 256;
            met(Event::LengthsBeforeKeyOrGrant, key > 15 || grant_wrong);
        }
        Line::Key => {
            met(Event::KeyBeforeGrant, grant == 0 || grant > 256);
            met(Event::KeyWithLowBits, key & 15 != 0);
        }
        Line::Grant => {
            met(Event::GrantZero, grant == 0);
            met(Event::Grant257, grant == 257);
            met(Event::GrantGreatest, grant == u32::MAX);
        }
        Line::UsedUp => {
            met(Event::UsedUp1, grant == 1);
            met(Event::UsedUp256, grant == 256);
            met(Event::UsedUpInLoop, seen);
            let (address, at) = (record.address, record.address as usize);
            met(Event::UsedUpAtBadAddress, address % 8 != 0 || at >= length);
        }
        Line::NotMultipleOf8 => {
            met(Event::FirstOdd, first_step);
            met(Event::TransferOdd, by_transfer);
        }
        Line::Outside => {
            let at = record.address as usize;
            met(Event::FirstAtEnd, first_step && at == length);
            met(Event::FirstAt2To24, first_step && first == ADDRESSES_24);
            let inside = (low_first.0 as usize) < length && low_first.1;
            met(
                Event::FirstOver2To24,
                first_step && inside && first != ADDRESSES_24,
            );
            met(Event::TransferOutside, by_transfer);
            let chained = record.chaining == Chaining::Command;
            met(Event::ChainedToEnd, chained && at == length);
            met(
                Event::ChainedTo2To24,
                chained && record.address == ADDRESSES_24,
            );
        }
        Line::CcwForbidden => {
            met(Event::CcwForbiddenFirst, first_step);
            met(Event::CcwForbiddenLater, !first_step);
            met(Event::CcwForbiddenByTransfer, by_transfer);
            let chained = record.chaining == Chaining::Command;
            met(
                Event::CcwForbiddenByChain,
                chained && record.address % 2048 == 0,
            );
        }
        _ => {}
    }
    let (Some(ccw), Some(ccw_key)) = (step.ccw, before.ccw_key) else {
        return;
    };
    let without_match = |unit_key: u8| key != 0 && u32::from(unit_key >> 4) != key;
    met(Event::CcwWithoutMatch, without_match(ccw_key));
    let refused = line.number().is_some_and(|number| number != 0);
    met(Event::CcwBit7, refused && ccw_key & 1 == 1);
    let again = trace
        .fetched
        .iter()
        .any(|&(at, overwrote)| at == record.address && overwrote);
    met(Event::OwnOverwrittenAgain, again);
    let changed = at_start
        .iter()
        .rev()
        .find(|&&(at, _)| at == record.address)
        .is_some_and(|&(_, bytes)| bytes != ccw.to_bytes());
    met(Event::Overwritten, changed);

    let (start, count) = (ccw.address as usize, usize::from(ccw.count));
    let end = start + count;
    let read = ccw.command & 3 == 2;
    let from_left = asked.from.len() - record.taken as usize;
    let room_left = asked.room.len() - record.given as usize;
    let left = if read { from_left } else { room_left };
    let own = read && start < record.address as usize + 8 && (record.address as usize) < end;
    let mut overwrote = false;
    match line {
        Line::Command => {
            met(Event::CommandXx11, ccw.command & 3 == 3);
            met(Event::Command0000, ccw.command & 15 == 0);
            met(Event::Command0100, ccw.command & 15 == 4);
            met(Event::Command1100, ccw.command & 15 == 12);
        }
        Line::Misplaced => {
            met(Event::TransferFirst, first_step);
            met(Event::TransferTwice, by_transfer);
        }
        Line::Flag => {
            met(Event::FlagWithChain, ccw.flags & CHAIN_COMMAND != 0);
            let other = ccw.flags & !CHAIN_COMMAND;
            if other.is_power_of_two() {
                counts.flags[other.trailing_zeros() as usize] += 1;
            }
        }
        Line::Range => {
            met(Event::RangeByOne, end == length + 1);
            met(Event::RangeAll, start >= length);
            let full = length == MAXIMUM_STORAGE;
            met(Event::RangeWrap, full && start < length);
            met(Event::RangeAndShort, left < count);
        }
        Line::FromShort | Line::RoomShort => {
            let by_one = left + 1 == count;
            met(Event::FromByOne, read && by_one);
            met(Event::RoomByOne, !read && by_one);
            met(Event::FromEmpty, asked.from.is_empty() && read);
            met(Event::RoomEmpty, asked.room.is_empty() && !read);
            met(Event::DeviceInLoop, seen);
            let forbidden = before
                .data_keys
                .iter()
                .any(|&unit_key| without_match(unit_key) && (read || unit_key & 8 != 0));
            met(Event::ShortAndForbidden, forbidden);
        }
        Line::ReadForbidden | Line::WriteForbidden => {
            let first_key = before.data_keys[0];
            let later = !without_match(first_key) || !read && first_key & 8 == 0;
            met(Event::ReadForbiddenLater, read && later);
            met(Event::WriteForbiddenLater, !read && later);
            let bit7 = before.data_keys.iter().any(|unit_key| unit_key & 1 == 1);
            met(Event::ForbiddenKept, bit7);
        }
        Line::Transferred => {
            trace.transfers += 1;
            let other = ccw.flags & !CHAIN_COMMAND != 0 && ccw.count == 0;
            met(Event::TransferOther, other);
        }
        Line::Chained | Line::Ended => {
            let keys = &before.data_keys;
            let (units, four_k) = (keys.len(), lengths.settings & 1 == 1);
            let high = ccw.command & !3 != 0;
            let bit7 = keys.iter().any(|unit_key| unit_key & 1 == 1);
            let unmatched = keys.iter().any(|&unit_key| without_match(unit_key));
            met(Event::Ignored, ccw.ignored != 0);
            met(Event::DataToEnd, end == length);
            met(Event::DataTo2To24, end == MAXIMUM_STORAGE);
            if read {
                met(Event::ReadHighBits, high);
                met(Event::ReadUnits, units > 1);
                met(Event::Read33, !four_k && units == 33);
                met(Event::Read17, four_k && units == 17);
                met(Event::Read65535, count == 65_535);
                let others = keys.iter().any(|unit_key| unit_key >> 4 != 0);
                met(Event::KeyZero, key == 0 && others);
                met(Event::ReadByMatch, key != 0);
                met(Event::ReadBit7, bit7);
                let unit = if four_k { 4096 } else { 2048 };
                let ccw_unit = record.address as usize / unit;
                met(
                    Event::ReadOwnUnit,
                    (start / unit..=(end - 1) / unit).contains(&ccw_unit),
                );
                met(Event::OwnOverwritten, own);
                met(Event::LowAddresses, start < 512);
                met(Event::ReadAlone, asked.room.is_empty());
                trace.written.push((start, end));
                overwrote = own;
            } else {
                met(Event::WriteHighBits, high);
                met(Event::WriteUnits, units > 1);
                met(Event::Write33, !four_k && units == 33);
                met(Event::Write17, four_k && units == 17);
                met(Event::Write65535, count == 65_535);
                met(Event::WriteWithoutMatch, unmatched);
                met(Event::WriteBit7, bit7);
                met(Event::WriteAlone, asked.from.is_empty());
            }
            trace.performed[usize::from(read)] += 1;
            counts.bytes += count as u64;
        }
        _ => {}
    }
    trace.fetched.push((record.address, overwrote));
}

/// Counts what a whole request met.
fn count_end(counts: &mut Counts, lengths: Lengths, asked: &Asked, trace: &Trace) {
    let last = trace.progress.last().expect("a step");
    let (fetched, grant) = (last.record.fetched, asked.request.grant);
    assert_eq!(fetched as usize, trace.fetched.len());
    let performed = trace.performed != [0; 2];
    if last.status == Status::Answered(0) {
        counts.ended[(lengths.settings & 1) as usize] += 1;
        counts.met(Event::OneCcw, fetched == 1);
        counts.met(Event::Ended256, fetched == 256);
        counts.met(Event::EndedLong, fetched >= 200);
        counts.met(Event::EndedAtGrant, fetched == grant && grant < 256);
        counts.met(Event::TwoTransfers, trace.transfers >= 2);
        let both = trace.performed.iter().all(|count| *count > 0);
        counts.met(Event::BothWays, both);
        let given = last.record.given as usize;
        counts.met(Event::RoomKept, given > 0 && given < asked.room.len());
    } else {
        counts.met(Event::Stands, performed);
    }
}

/// Says where a failure happened, also when the implementation under test panics.
struct Position {
    unit: &'static str,
    seed: u64,
    request: u64,
    lengths: Option<Lengths>,
    asked: Option<Asked>,
}

impl Drop for Position {
    fn drop(&mut self) {
        if thread::panicking() {
            let shown = self.asked.as_ref().map(|asked| {
                let buffers = (asked.from.len(), asked.room.len());
                (asked.request, buffers, &asked.ccws, &asked.keys)
            });
            eprintln!(
                "{}: STORAGE_UNIT_SEED={}, request {}, {:?}\n{:02x?}",
                self.unit, self.seed, self.request, self.lengths, shown
            );
        }
    }
}

fn random_storage_length(random: &mut Random) -> usize {
    match random.below(64) {
        0..=7 => 4096,
        8..=15 => 8192,
        16..=31 => (1 + random.below(16) as usize) * 4096,
        32..=51 => 65_536,
        52..=60 => 131_072,
        61 => 73_728,
        _ => MAXIMUM_STORAGE,
    }
}

/// What is lent: mostly the right lengths and settings.
fn random_lengths(random: &mut Random, right: Lengths) -> Lengths {
    if !random.one_in(40) {
        return Lengths {
            settings: right.settings ^ (random.below(2) as u32 * 2),
            ..right
        };
    }
    let mut lengths = right;
    match random.below(4) {
        0 => lengths.settings |= 4 << random.below(30),
        1 => lengths.settings ^= 1,
        2 => {
            lengths.storage = random.pick(&[
                0,
                1,
                2048,
                right.storage - 1,
                right.storage - 2048,
                right.storage - 4096,
                right.storage + 1,
                right.storage + 2048,
                right.storage + 4096,
            ]);
        }
        _ => lengths.keys = random.pick(&[0, right.keys - 1, right.keys + 1, right.keys + 2]),
    }
    lengths
}

/// Sets a progress that a whole request does not look at.
fn any_progress(random: &mut Random, progress: &mut Vec<u8>) {
    progress.resize(PROGRESS_LENGTH, 0);
    random.fill(progress);
}

/// Sets the progress of a request that is not begun: what does not belong to that is any.
fn progress_not_begun(random: &mut Random, progress: &mut Vec<u8>) {
    any_progress(random, progress);
    progress[4] %= 4;
    progress[5] = 0;
    progress[6..8].fill(0);
    progress[12..16].fill(0);
}

/// Compares a copy with that of the reference.
fn compare(expected: &Side, found: &Side, trace: &Trace, whole: bool, way: &str) {
    assert!(expected.keys == found.keys, "{way}: keys");
    assert!(expected.room == found.room, "{way}: room");
    if whole || expected.storage.len() <= SMALL_STORAGE + SPARE_STORAGE {
        assert!(expected.storage == found.storage, "{way}: storage");
        return;
    }
    for &(start, end) in &trace.written {
        let start = start.saturating_sub(64);
        let end = (end + 64).min(expected.storage.len());
        assert!(
            expected.storage[start..end] == found.storage[start..end],
            "{way}: storage from {start} to {end}"
        );
    }
}

/// Runs the request step by step and compares with the steps of the reference.
fn run_steps<U: ChannelUnit>(side: &mut Side, lengths: Lengths, asked: &Asked, trace: &Trace) {
    let begun_with = side.progress.clone();
    for (number, progress) in trace.progress.iter().enumerate() {
        let given = side.call(U::STEP, lengths, asked);
        assert_eq!(
            given,
            packed(channel::number_given(progress)),
            "step {number}"
        );
        let left = bytes_left(lengths, progress, &begun_with);
        assert_eq!(side.progress, left, "step {number}");
        if lengths.keys <= FEW_KEYS {
            let keys = &trace.keys[number * lengths.keys..][..lengths.keys];
            assert_eq!(&side.keys[..lengths.keys], keys, "step {number}");
        }
    }
    // The request is answered. A further step gives the same, and does nothing.
    let last = trace.progress.last().expect("a step");
    let given = side.call(U::STEP, lengths, asked);
    assert_eq!(given, packed(channel::number_given(last)), "a further step");
    let left = bytes_left(lengths, last, &begun_with);
    assert_eq!(side.progress, left, "a further step");
}

/// The requests of one machine.
fn run_machine<U: ChannelUnit>(seed: u64, requests: u64, counts: &mut Counts, pool: &Pool) {
    let mut position = Position {
        unit: U::NAME,
        seed,
        request: 0,
        lengths: None,
        asked: None,
    };
    let random = &mut Random::new(seed);
    let length = random_storage_length(random);
    let settings = random.below(4) as u32;
    let key_unit = if settings & 1 == 0 { 2048 } else { 4096 };
    let right = Lengths {
        settings,
        storage: length,
        keys: length / key_unit,
    };
    let storage = random.bytes(length + SPARE_STORAGE);
    let keys: Vec<u8> = (0..right.keys + SPARE_KEYS)
        .map(|_| random_key(random))
        .collect();
    let mut sides = [(); 3].map(|()| Side::new(&storage, &keys));
    let place = Place {
        length: length as u32,
        key_unit: key_unit as u32,
    };
    for request in 0..requests {
        let asked = random_asked(random, pool, place);
        let lengths = random_lengths(random, right);
        position.request = request;
        position.lengths = Some(lengths);
        let asked = position.asked.insert(asked);
        for side in &mut sides {
            side.prepare(asked);
        }
        let kept = asked.from.clone();
        let [expected, whole, steps] = &mut sides;
        let trace = reference(expected, lengths, asked, counts);
        let last = trace.progress.last().expect("a step");

        any_progress(random, &mut whole.progress);
        let left = bytes_left(lengths, last, &whole.progress);
        let given = whole.call(U::WHOLE, lengths, asked);
        assert_eq!(given, packed(channel::number_given(last)), "whole");
        assert_eq!(whole.progress, left, "whole");
        progress_not_begun(random, &mut steps.progress);
        run_steps::<U>(steps, lengths, asked, &trace);

        let all = request % 64 == 63 || request + 1 == requests;
        compare(expected, whole, &trace, all, "whole");
        compare(expected, steps, &trace, all, "step by step");
        assert!(
            asked.from == kept,
            "the bytes from the device are only read"
        );
    }
    counts.machines += 1;
}

/// Random programs by an implementation and by the reference.
fn random_programs<U: ChannelUnit>() {
    let programs = from_environment("STORAGE_UNIT_PROGRAMS", DEFAULT_PROGRAMS);
    let first_seed = from_environment("STORAGE_UNIT_SEED", DEFAULT_SEED);
    let mut counts = Counts::new();
    let pool = Pool::new(&mut Random::new(DEFAULT_SEED));
    let (mut made, mut seed) = (0, first_seed);
    while made < programs {
        let requests = PER_MACHINE.min(programs - made);
        run_machine::<U>(seed, requests, &mut counts, &pool);
        made += requests;
        seed += 1;
    }
    println!(
        "{}, first seed {first_seed}: {}",
        U::NAME,
        counts.table(programs)
    );
    counts.check(programs);
}

/// Cases of a single step from any progress.
#[derive(Debug, Default)]
struct AnySteps {
    /// By the number that is given.
    numbers: [u64; STEP_NUMBERS.len()],
    malformed: u64,
    wrong_length: u64,
    answered: u64,
    fetched_over_grant: u64,
    position_over_length: u64,
    transferred: u64,
    ended_under_way: u64,
    settings_other: u64,
    answered_and_lengths_wrong: u64,
}

/// The numbers that a step can give.
const STEP_NUMBERS: [u16; 9] = [0, 64, 65, 66, 71, 72, 73, 74, 255];

/// A progress: mostly of a request that is under way, with any record; or one that is none.
fn random_progress(random: &mut Random, asked: &Asked, seen: &mut AnySteps) -> Vec<u8> {
    let mut bytes = vec![0; PROGRESS_LENGTH];
    let ccw = match asked.ccws.len() {
        0 => 0,
        count => asked.ccws[random.below(count as u64) as usize].0,
    };
    let address = match random.below(16) {
        0 => random.word(),
        1 => ccw + random.below(8) as u32,
        _ => ccw,
    };
    let grant = asked.request.grant;
    let fetched = match random.below(16) {
        0 => grant,
        1 => grant.saturating_add(1),
        2 => u32::MAX,
        3 => grant.saturating_sub(1),
        _ => random.below(u64::from(grant.clamp(1, 256))) as u32,
    };
    let mut position = |length: usize| {
        let length = length as u64;
        match random.below(16) {
            0 => length,
            1 => length + 1,
            2 => random.pick(&[u64::MAX, u64::MAX - 65_534, 1 << 32, 1 << 63]),
            _ => random.below(length / 2 + 1),
        }
    };
    let (taken, given) = (position(asked.from.len()), position(asked.room.len()));
    bytes[0..4].copy_from_slice(&address.to_le_bytes());
    bytes[4] = random.below(4) as u8;
    bytes[5] = match random.below(8) {
        0 => random.pick(&[0, 2, 64, 65, 66, 71, 72, 73, 74]),
        _ => 1,
    };
    bytes[8..12].copy_from_slice(&fetched.to_le_bytes());
    bytes[16..24].copy_from_slice(&taken.to_le_bytes());
    bytes[24..32].copy_from_slice(&given.to_le_bytes());
    seen.fetched_over_grant += u64::from(bytes[5] == 1 && fetched > grant);
    let over = taken > asked.from.len() as u64 || given > asked.room.len() as u64;
    seen.position_over_length += u64::from(bytes[5] == 1 && over);
    match random.below(32) {
        0 => bytes[4] = 4 + random.below(252) as u8,
        1 => bytes[5] = random.byte(),
        2 => bytes[random.pick(&[6, 7, 12, 13, 14, 15])] = 1 << random.below(8),
        3 => {
            let length = random.pick(&[0, 1, 8, 31, 33, 64]);
            bytes.resize(length, 0);
        }
        _ => {}
    }
    bytes
}

/// Steps from any progress, with units of both lengths and several lengths of storage.
fn random_steps<U: ChannelUnit>() {
    let pool = Pool::new(&mut Random::new(DEFAULT_SEED));
    let random = &mut Random::new(from_environment("STORAGE_UNIT_SEED", DEFAULT_SEED));
    for (length, key_unit) in [
        (4096, 4096),
        (8192, 2048),
        (8192, 4096),
        (65_536, 2048),
        (73_728, 4096),
    ] {
        random_steps_in::<U>(random, &pool, Place { length, key_unit });
    }
}

/// Each is one step from any progress, by an implementation and by the reference.
fn random_steps_in<U: ChannelUnit>(random: &mut Random, pool: &Pool, place: Place) {
    let steps = 40_000;
    let mut seen = AnySteps::default();
    let right = Lengths {
        settings: if place.key_unit == 4096 { 3 } else { 2 },
        storage: place.length as usize,
        keys: (place.length / place.key_unit) as usize,
    };
    let storage = random.bytes(right.storage + SPARE_STORAGE);
    let keys = vec![0; right.keys + SPARE_KEYS];
    let mut sides = [(); 2].map(|()| Side::new(&storage, &keys));
    for number in 0..steps {
        let asked = random_asked(random, pool, place);
        let progress = random_progress(random, &asked, &mut seen);
        let known = channel::progress_from(&progress);
        let answered = known.is_some_and(|known| matches!(known.status, Status::Answered(_)));
        let lengths = random_lengths(random, right);
        seen.settings_other += u64::from(lengths.settings > 3);
        let other = (lengths.storage, lengths.keys) != (right.storage, right.keys);
        seen.answered_and_lengths_wrong += u64::from(answered && other);
        seen.malformed += u64::from(known.is_none());
        seen.wrong_length += u64::from(progress.len() != PROGRESS_LENGTH);
        seen.answered += u64::from(answered);
        for side in &mut sides {
            side.prepare(&asked);
            side.progress.clone_from(&progress);
        }
        let ended = known.is_some_and(|known| {
            known.status == Status::UnderWay && known.record.chaining == Chaining::Ended
        });
        let [expected, found] = &mut sides;
        let mut lent = Lent {
            settings: lengths.settings,
            storage: &mut expected.storage[..lengths.storage],
            keys: &mut expected.keys[..lengths.keys],
            from: &asked.from,
            room: &mut expected.room,
        };
        let right_answer =
            channel::step_by_numbers(&mut lent, &asked.request, &mut expected.progress);
        let given = found.call(U::STEP, lengths, &asked);
        let message = || format!("step {number}: {progress:?}, {:?}", asked.request);
        assert_eq!(given, right_answer, "{}", message());
        assert_eq!(found.progress, expected.progress, "{}", message());
        assert!(found.keys == expected.keys, "keys, {}", message());
        assert!(found.room == expected.room, "room, {}", message());
        assert!(found.storage == expected.storage, "storage, {}", message());
        let column = STEP_NUMBERS.iter().position(|each| packed(*each) == given);
        seen.numbers[column.expect("a number of a step")] += 1;
        seen.transferred += u64::from(expected.progress.get(4) == Some(&2) && given == packed(255));
        let at = progress.get(..4).map_or(0, |bytes| {
            u32::from_le_bytes(bytes.try_into().expect("four bytes")) as usize
        });
        // A transfer in channel where the program has ended: none is to come.
        let transfer = expected.storage.get(at).is_some_and(|byte| byte & 15 == 8);
        seen.ended_under_way += u64::from(ended && transfer && given == packed(71));
    }
    println!("{}, {right:?}: {seen:?}", U::NAME);
    let cases = [
        seen.malformed,
        seen.wrong_length,
        seen.answered,
        seen.fetched_over_grant,
        seen.position_over_length,
        seen.transferred,
        seen.ended_under_way,
        seen.settings_other,
    ];
    for count in seen.numbers.iter().chain(&cases) {
        assert!(*count >= steps / 500, "{right:?}: {seen:?}");
    }
    let answered_and_wrong = seen.answered_and_lengths_wrong;
    assert!(answered_and_wrong >= steps / 2_000, "{right:?}: {seen:?}");
}

/// The methods of a machine against the C functions.
#[test]
fn methods_of_a_machine() {
    let pool = Pool::new(&mut Random::new(DEFAULT_SEED));
    let random = &mut Random::new(DEFAULT_SEED);
    let (mut ended, mut refused, mut steps) = (0, 0, 0);
    for _ in 0..100 {
        let settings = Settings {
            four_k: random.one_in(2),
            extensions: random.one_in(2),
        };
        let mut machine = Machine::new(settings, 16_384).expect("a right length");
        random.fill(&mut machine.storage);
        let place = Place {
            length: 16_384,
            key_unit: settings.key_unit() as u32,
        };
        let lengths = Lengths {
            settings: encode_settings(settings),
            storage: 16_384,
            keys: machine.keys.len(),
        };
        let mut raw = Side::new(&machine.storage, &machine.keys);
        for _ in 0..100 {
            let asked = random_asked(random, &pool, place);
            let Request { key, first, grant } = asked.request;
            let request = ChannelRequest { key, first, grant };
            raw.prepare(&asked);
            asked.write(&mut machine.storage, &mut machine.keys);
            let mut stepped = machine.clone();
            let (mut room, mut stepped_room) = (asked.room.clone(), asked.room.clone());

            let reply = machine.channel(&request, &asked.from, &mut room);
            let mut progress = ChannelProgress::default();
            let answer = loop {
                steps += 1;
                let (from, room) = (&asked.from, &mut stepped_room);
                match stepped.channel_step(&request, from, room, &mut progress) {
                    Some(answer) => break answer,
                    None => assert_eq!(progress.status, ChannelStatus::UnderWay),
                }
            };
            raw.progress.resize(PROGRESS_LENGTH, 0xEE);
            let given = raw.call(storage_unit_channel, lengths, &asked);

            let number = reply.answer.map_or_else(ChannelRefusal::number, |()| 0);
            assert_eq!(packed(number), given);
            assert_eq!(progress.status, ChannelStatus::Answered(reply.answer));
            assert_eq!((answer, progress.record), (reply.answer, reply.record));
            assert_eq!(raw.progress, encode_progress(&progress));
            assert_eq!(decode_progress(&encode_progress(&progress)), progress);
            assert!(raw.room == room && room == stepped_room, "room");
            assert!(raw.storage == machine.storage && raw.keys == machine.keys);
            assert!(machine == stepped, "step by step");
            ended += u64::from(reply.answer.is_ok());
            refused += u64::from(reply.answer.is_err());
        }
    }
    println!("{ended} ended, {refused} refused, {steps} steps");
    assert!(ended > 1_000 && refused > 1_000 && steps > 50_000);
}

#[test]
fn plain_random_steps() {
    random_steps::<Plain>();
}

#[test]
fn proved_random_steps() {
    random_steps::<Proved>();
}

#[test]
fn plain_random_programs() {
    random_programs::<Plain>();
}

#[test]
fn proved_random_programs() {
    random_programs::<Proved>();
}
