//! The channel of document 02, W4, written down byte by byte.
//!
//! This implementation is for comparison, as [`reference`](mod@crate::reference) is: it is written
//! to be read beside the document, not to be fast. A step is one CCW. It tests one line after the
//! other, treats each byte of the data by itself, and says which line it came to and which units
//! it names. A whole request is one step after another.

/// The number of 24-bit addresses.
const ADDRESSES_24: u32 = 16_777_216;

/// The number of bytes of a progress.
const PROGRESS_LENGTH: usize = 32;

/// The number that a step gives while its request is under way.
const UNDER_WAY: u16 = 255;

/// A request of the channel, with any numbers.
#[derive(Clone, Copy, Debug, PartialEq, Eq)]
pub struct Request {
    /// The key of the channel.
    pub key: u32,
    /// The address of the first CCW.
    pub first: u32,
    /// How many CCWs are granted.
    pub grant: u32,
}

/// How the CCW to come is reached.
#[derive(Clone, Copy, Debug, PartialEq, Eq)]
pub enum Chaining {
    /// It is the first.
    First,
    /// By chain command.
    Command,
    /// By a transfer in channel.
    Transfer,
    /// There is none.
    Ended,
}

/// The channel's own record.
#[derive(Clone, Copy, Debug, PartialEq, Eq)]
pub struct Record {
    /// The address of the CCW to come.
    pub address: u32,
    /// How the CCW to come is reached.
    pub chaining: Chaining,
    /// How many CCWs were fetched.
    pub fetched: u32,
    /// How many bytes were taken from the device.
    pub taken: u64,
    /// How many bytes were given to the device.
    pub given: u64,
}

/// The record at the start of a request.
fn start_of(request: &Request) -> Record {
    Record {
        address: request.first,
        chaining: Chaining::First,
        fetched: 0,
        taken: 0,
        given: 0,
    }
}

/// Whether a request is begun, under way or answered.
#[derive(Clone, Copy, Debug, PartialEq, Eq)]
pub enum Status {
    /// The next step begins it.
    NotBegun,
    /// The next step goes on.
    UnderWay,
    /// It has the answer with this number.
    Answered(u16),
}

/// How far a request is.
#[derive(Clone, Copy, Debug, PartialEq, Eq)]
pub struct Progress {
    /// Whether it is begun, under way or answered.
    pub status: Status,
    /// The channel's record.
    pub record: Record,
}

impl Progress {
    /// That of a request that is not begun. The record is of no account.
    pub const NOT_BEGUN: Progress = Progress {
        status: Status::NotBegun,
        record: Record {
            address: 0,
            chaining: Chaining::First,
            fetched: 0,
            taken: 0,
            given: 0,
        },
    };
}

/// What the channel works on: the settings, storage and keys of the machine, and the two buffers
/// of its device.
pub struct Lent<'a> {
    /// The settings as a number.
    pub settings: u32,
    /// The storage.
    pub storage: &'a mut [u8],
    /// The keys.
    pub keys: &'a mut [u8],
    /// The bytes from the device.
    pub from: &'a [u8],
    /// The room for bytes to the device.
    pub room: &'a mut [u8],
}

/// The line that a step came to.
#[derive(Clone, Copy, Debug, PartialEq, Eq, PartialOrd, Ord)]
pub enum Line {
    /// 64: wrong settings, or a wrong length of storage or keys.
    Lengths,
    /// 65: the key is over 15.
    Key,
    /// 66: the grant is not 1 to 256.
    Grant,
    /// 74: the granted number of CCWs is used up.
    UsedUp,
    /// 71: the address of the CCW is not a multiple of 8.
    NotMultipleOf8,
    /// 71: the CCW lies outside storage.
    Outside,
    /// 72: fetching the CCW is forbidden.
    CcwForbidden,
    /// 71: bad command.
    Command,
    /// 71: misplaced transfer in channel.
    Misplaced,
    /// 71: bad flag.
    Flag,
    /// 71: zero count.
    ZeroCount,
    /// 71: data range outside storage.
    Range,
    /// 73: bytes from the device short.
    FromShort,
    /// 73: room short.
    RoomShort,
    /// 72: a read is forbidden.
    ReadForbidden,
    /// 72: a write is forbidden.
    WriteForbidden,
    /// A transfer in channel hands control on.
    Transferred,
    /// A read or write is performed, and chains.
    Chained,
    /// 0: a read or write is performed, and the program ends.
    Ended,
}

impl Line {
    /// The number of the answer, or `None` where the request goes on.
    pub fn number(self) -> Option<u16> {
        match self {
            Line::Transferred | Line::Chained => None,
            Line::Ended => Some(0),
            Line::Lengths => Some(64),
            Line::Key => Some(65),
            Line::Grant => Some(66),
            Line::NotMultipleOf8
            | Line::Outside
            | Line::Command
            | Line::Misplaced
            | Line::Flag
            | Line::ZeroCount
            | Line::Range => Some(71),
            Line::CcwForbidden | Line::ReadForbidden | Line::WriteForbidden => Some(72),
            Line::FromShort | Line::RoomShort => Some(73),
            Line::UsedUp => Some(74),
        }
    }
}

/// What a step did.
#[derive(Clone, Debug)]
pub struct Step {
    /// The line it came to.
    pub line: Line,
    /// The CCW, if one was fetched.
    pub ccw: Option<Ccw>,
    /// The unit of the CCW where it was fetched or forbidden, and those of data that go to the
    /// device, or would if it were not forbidden: units that the step names as fetches.
    pub fetches: Vec<usize>,
    /// The units of data that come from the device, or would: units that it names otherwise.
    pub others: Vec<usize>,
}

impl Step {
    fn without_names(line: Line) -> Step {
        Step {
            line,
            ccw: None,
            fetches: Vec::new(),
            others: Vec::new(),
        }
    }
}

/// The parts of a CCW.
#[derive(Clone, Copy, Debug, PartialEq, Eq)]
pub struct Ccw {
    /// The command.
    pub command: u8,
    /// The address, below 16,777,216.
    pub address: u32,
    /// The flags.
    pub flags: u8,
    /// The byte that is ignored.
    pub ignored: u8,
    /// The count.
    pub count: u16,
}

impl Ccw {
    /// The CCW with these eight bytes.
    pub fn from_bytes(bytes: [u8; 8]) -> Ccw {
        let number = |byte: u8| u32::from(byte);
        Ccw {
            command: bytes[0],
            address: number(bytes[1]) * 65_536 + number(bytes[2]) * 256 + number(bytes[3]),
            flags: bytes[4],
            ignored: bytes[5],
            count: u16::from(bytes[6]) * 256 + u16::from(bytes[7]),
        }
    }

    /// Its eight bytes.
    pub fn to_bytes(self) -> [u8; 8] {
        let byte = |number: u32| (number % 256) as u8;
        [
            self.command,
            byte(self.address / 65_536),
            byte(self.address / 256),
            byte(self.address),
            self.flags,
            self.ignored,
            byte(u32::from(self.count) / 256),
            byte(u32::from(self.count)),
        ]
    }
}

/// What a command asks for.
#[derive(Clone, Copy, PartialEq, Eq)]
enum Command {
    /// From storage to the device.
    Write,
    /// From the device to storage.
    Read,
    /// Transfer in channel.
    Transfer,
    Bad,
}

/// The meaning of a command by its low bits.
fn meaning(command: u8) -> Command {
    match (command % 4, command % 16) {
        (1, _) => Command::Write,
        (2, _) => Command::Read,
        (_, 8) => Command::Transfer,
        _ => Command::Bad,
    }
}

/// The number of bytes in a key unit.
fn key_unit(settings: u32) -> usize {
    if settings % 2 == 1 { 4096 } else { 2048 }
}

/// Whether another bit of the settings is on.
fn settings_wrong(lent: &Lent) -> bool {
    lent.settings > 3
}

/// Whether line 64 applies.
fn lengths_wrong(lent: &Lent) -> bool {
    let length = lent.storage.len();
    let storage_good = length.is_multiple_of(4096) && (4096..=16_777_216).contains(&length);
    let keys_good = lent.keys.len() == length / key_unit(lent.settings);
    settings_wrong(lent) || !storage_good || !keys_good
}

/// Whether a byte lies outside storage, for the channel.
fn outside(lent: &Lent, address: u32) -> bool {
    address >= ADDRESSES_24 || address as usize >= lent.storage.len()
}

fn unit_of(lent: &Lent, address: u32) -> usize {
    address as usize / key_unit(lent.settings)
}

fn keys_match(access_key: u32, key: u8) -> bool {
    access_key == 0 || access_key == u32::from(key / 16)
}

fn may_store(access_key: u32, key: u8) -> bool {
    keys_match(access_key, key)
}

fn may_fetch(access_key: u32, key: u8) -> bool {
    let fetch_protection = key / 8 % 2;
    keys_match(access_key, key) || fetch_protection == 0
}

/// A key as a completed fetch writes it.
fn key_after_fetch(key: u8) -> u8 {
    let (access, fetch_protection, change) = (key / 16, key / 8 % 2, key / 2 % 2);
    access * 16 + fetch_protection * 8 + 4 + change * 2
}

/// A key as a completed store writes it.
fn key_after_store(key: u8) -> u8 {
    let (access, fetch_protection) = (key / 16, key / 8 % 2);
    access * 16 + fetch_protection * 8 + 4 + 2
}

/// The three tests before the first CCW.
fn refused_at_start(lent: &Lent, request: &Request) -> Option<Line> {
    if lengths_wrong(lent) {
        Some(Line::Lengths)
    } else if request.key > 15 {
        Some(Line::Key)
    } else if request.grant == 0 || request.grant > 256 {
        Some(Line::Grant)
    } else {
        None
    }
}

/// Does one step of a request: begins it if it is not begun, and does the CCW to come. `None` if
/// it is answered: then nothing is done.
pub fn step(lent: &mut Lent, request: &Request, progress: &mut Progress) -> Option<Step> {
    match progress.status {
        Status::NotBegun => progress.record = start_of(request),
        Status::UnderWay => {}
        Status::Answered(_) => return None,
    }
    let step = match refused_at_start(lent, request) {
        Some(line) => Step::without_names(line),
        None => do_ccw(lent, request, &mut progress.record),
    };
    progress.status = match step.line.number() {
        Some(number) => Status::Answered(number),
        None => Status::UnderWay,
    };
    Some(step)
}

/// Does the CCW to come.
fn do_ccw(lent: &mut Lent, request: &Request, record: &mut Record) -> Step {
    if record.fetched >= request.grant {
        return Step::without_names(Line::UsedUp);
    }
    if !record.address.is_multiple_of(8) {
        return Step::without_names(Line::NotMultipleOf8);
    }
    // It lies in one unit, and is inside as a whole or outside as a whole.
    if outside(lent, record.address) {
        return Step::without_names(Line::Outside);
    }
    let unit = unit_of(lent, record.address);
    let mut step = Step {
        fetches: vec![unit],
        ..Step::without_names(Line::CcwForbidden)
    };
    if !may_fetch(request.key, lent.keys[unit]) {
        return step;
    }
    // The CCW is fetched.
    record.fetched += 1;
    lent.keys[unit] = key_after_fetch(lent.keys[unit]);
    let mut bytes = [0; 8];
    for (place, byte) in bytes.iter_mut().enumerate() {
        *byte = lent.storage[record.address as usize + place];
    }
    let ccw = Ccw::from_bytes(bytes);
    step.ccw = Some(ccw);
    step.line = perform(lent, request, record, &ccw, &mut step);
    step
}

/// Performs a CCW that was fetched, or refuses it. Puts the units of its data into the step.
fn perform(
    lent: &mut Lent,
    request: &Request,
    record: &mut Record,
    ccw: &Ccw,
    step: &mut Step,
) -> Line {
    match meaning(ccw.command) {
        Command::Bad => return Line::Command,
        Command::Transfer => {
            // Only behind a CCW that chains: not first, nor straight after another.
            if record.chaining != Chaining::Command {
                return Line::Misplaced;
            }
            record.address = ccw.address;
            record.chaining = Chaining::Transfer;
            return Line::Transferred;
        }
        Command::Write | Command::Read => {}
    }
    if ccw.flags != 0x00 && ccw.flags != 0x40 {
        return Line::Flag;
    }
    if ccw.count == 0 {
        return Line::ZeroCount;
    }
    let count = u32::from(ccw.count);
    if (0..count).any(|offset| outside(lent, ccw.address + offset)) {
        return Line::Range;
    }
    let moved = match meaning(ccw.command) {
        Command::Read => read(lent, request, record, ccw, &mut step.others),
        _ => write(lent, request, record, ccw, &mut step.fetches),
    };
    if let Err(line) = moved {
        return line;
    }
    record.address += 8;
    if ccw.flags == 0x40 {
        record.chaining = Chaining::Command;
        Line::Chained
    } else {
        record.chaining = Chaining::Ended;
        Line::Ended
    }
}

/// The bytes of the data, each by its address, and its number among them.
fn data_of(ccw: &Ccw) -> impl Iterator<Item = (u32, u64)> {
    let start = ccw.address;
    (0..u32::from(ccw.count)).map(move |offset| (start + offset, u64::from(offset)))
}

/// How many bytes of a buffer are left behind a position.
fn left(length: usize, position: u64) -> u64 {
    (length as u64).saturating_sub(position)
}

/// Puts the units of the data where they are named, each once.
fn name(lent: &Lent, ccw: &Ccw, names: &mut Vec<usize>) {
    for (address, _) in data_of(ccw) {
        let unit = unit_of(lent, address);
        if names.last() != Some(&unit) {
            names.push(unit);
        }
    }
}

/// From the device to storage.
fn read(
    lent: &mut Lent,
    request: &Request,
    record: &mut Record,
    ccw: &Ccw,
    names: &mut Vec<usize>,
) -> Result<(), Line> {
    if left(lent.from.len(), record.taken) < u64::from(ccw.count) {
        return Err(Line::FromShort);
    }
    name(lent, ccw, names);
    for (address, _) in data_of(ccw) {
        if !may_store(request.key, lent.keys[unit_of(lent, address)]) {
            return Err(Line::ReadForbidden);
        }
    }
    for (address, number) in data_of(ccw) {
        let unit = unit_of(lent, address);
        lent.storage[address as usize] = lent.from[(record.taken + number) as usize];
        lent.keys[unit] = key_after_store(lent.keys[unit]);
    }
    record.taken += u64::from(ccw.count);
    Ok(())
}

/// From storage to the device.
fn write(
    lent: &mut Lent,
    request: &Request,
    record: &mut Record,
    ccw: &Ccw,
    names: &mut Vec<usize>,
) -> Result<(), Line> {
    if left(lent.room.len(), record.given) < u64::from(ccw.count) {
        return Err(Line::RoomShort);
    }
    name(lent, ccw, names);
    for (address, _) in data_of(ccw) {
        if !may_fetch(request.key, lent.keys[unit_of(lent, address)]) {
            return Err(Line::WriteForbidden);
        }
    }
    for (address, number) in data_of(ccw) {
        let unit = unit_of(lent, address);
        lent.room[(record.given + number) as usize] = lent.storage[address as usize];
        lent.keys[unit] = key_after_fetch(lent.keys[unit]);
    }
    record.given += u64::from(ccw.count);
    Ok(())
}

/// Runs a whole request from its start, and gives what each step did.
pub fn whole(lent: &mut Lent, request: &Request) -> (Progress, Vec<Step>) {
    let mut progress = Progress::NOT_BEGUN;
    let mut steps = Vec::new();
    while let Some(step) = step(lent, request, &mut progress) {
        steps.push(step);
    }
    (progress, steps)
}

/// A number as the C functions give it.
fn packed(number: u16) -> u64 {
    u64::from(number) << 48
}

/// What the C function for a whole request gives and leaves. Wrong settings are refused with 64, a
/// progress of another length with 65, or with 64 where that applies; then the progress is kept.
pub fn whole_by_numbers(lent: &mut Lent, request: &Request, progress: &mut [u8]) -> u64 {
    if settings_wrong(lent) {
        return packed(64);
    }
    if progress.len() != PROGRESS_LENGTH {
        return packed(if lengths_wrong(lent) { 64 } else { 65 });
    }
    let (reached, _) = whole(lent, request);
    progress.copy_from_slice(&progress_bytes(&reached));
    packed(number_given(&reached))
}

/// What the C function for one step gives and leaves. Wrong settings are refused with 64, a
/// progress that is none with 65, or with 64 where that applies; then the progress is kept.
pub fn step_by_numbers(lent: &mut Lent, request: &Request, progress: &mut [u8]) -> u64 {
    if settings_wrong(lent) {
        return packed(64);
    }
    let Some(mut reached) = progress_from(progress) else {
        return packed(if lengths_wrong(lent) { 64 } else { 65 });
    };
    if step(lent, request, &mut reached).is_some() {
        progress.copy_from_slice(&progress_bytes(&reached));
    }
    packed(number_given(&reached))
}

/// The number that a call gives which leaves this progress.
pub fn number_given(progress: &Progress) -> u16 {
    match progress.status {
        Status::Answered(number) => number,
        Status::NotBegun | Status::UnderWay => UNDER_WAY,
    }
}

/// The bytes of a progress.
pub fn progress_bytes(progress: &Progress) -> [u8; PROGRESS_LENGTH] {
    let record = &progress.record;
    let mut bytes = [0; PROGRESS_LENGTH];
    bytes[0..4].copy_from_slice(&record.address.to_le_bytes());
    bytes[4] = match record.chaining {
        Chaining::First => 0,
        Chaining::Command => 1,
        Chaining::Transfer => 2,
        Chaining::Ended => 3,
    };
    bytes[5] = match progress.status {
        Status::NotBegun => 0,
        Status::UnderWay => 1,
        Status::Answered(0) => 2,
        Status::Answered(number) => number as u8,
    };
    bytes[8..12].copy_from_slice(&record.fetched.to_le_bytes());
    bytes[16..24].copy_from_slice(&record.taken.to_le_bytes());
    bytes[24..32].copy_from_slice(&record.given.to_le_bytes());
    bytes
}

/// The progress with these bytes, or `None` if it is none.
pub fn progress_from(bytes: &[u8]) -> Option<Progress> {
    if bytes.len() != PROGRESS_LENGTH {
        return None;
    }
    let number = |first: usize, last: usize| {
        let upwards = bytes[first..=last].iter().rev();
        upwards.fold(0, |number, byte| number * 256 + u64::from(*byte))
    };
    if number(6, 7) != 0 || number(12, 15) != 0 {
        return None;
    }
    let chaining = match bytes[4] {
        0 => Chaining::First,
        1 => Chaining::Command,
        2 => Chaining::Transfer,
        3 => Chaining::Ended,
        _ => return None,
    };
    let status = match bytes[5] {
        0 => Status::NotBegun,
        1 => Status::UnderWay,
        2 => Status::Answered(0),
        refusal @ (64..=66 | 71..=74) => Status::Answered(refusal.into()),
        _ => return None,
    };
    let record = Record {
        address: number(0, 3) as u32,
        chaining,
        fetched: number(8, 11) as u32,
        taken: number(16, 23),
        given: number(24, 31),
    };
    Some(Progress { status, record })
}
