//! Random programs of a channel, with the keys and the device that they run with.

use storage_unit_comparison::channel::{Ccw, Request};

use super::{ADDRESSES_24, Random, random_access_key, random_key};

pub const CHAIN_COMMAND: u8 = 0x40;

/// What a program is written for.
#[derive(Clone, Copy)]
pub struct Place {
    pub length: u32,
    pub key_unit: u32,
}

/// A request with its device, and what the host writes before it: CCWs by their addresses, and
/// keys by their units.
#[derive(Clone, Debug)]
pub struct Asked {
    pub request: Request,
    pub from: Vec<u8>,
    pub room: Vec<u8>,
    pub ccws: Vec<(u32, [u8; 8])>,
    pub keys: Vec<(usize, u8)>,
}

impl Asked {
    /// Writes the CCWs and the keys. Lengths are those of the place.
    pub fn write(&self, storage: &mut [u8], keys: &mut [u8]) {
        for &(address, bytes) in &self.ccws {
            storage[address as usize..][..8].copy_from_slice(&bytes);
        }
        for &(unit, key) in &self.keys {
            keys[unit] = key;
        }
    }
}

/// Random bytes that buffers take theirs from, so that a long one costs little.
pub struct Pool(Vec<u8>);

impl Pool {
    pub fn new(random: &mut Random) -> Pool {
        Pool(random.bytes(1 << 18))
    }

    fn bytes(&self, random: &mut Random, count: usize) -> &[u8] {
        let start = random.below((self.0.len() - count + 1) as u64) as usize;
        &self.0[start..start + count]
    }

    fn extend(&self, random: &mut Random, bytes: &mut Vec<u8>, mut count: usize) {
        while count > 0 {
            let part = count.min(self.0.len());
            bytes.extend_from_slice(self.bytes(random, part));
            count -= part;
        }
    }
}

/// What is wrong with a program, at one of its CCWs.
#[derive(Clone, Copy, PartialEq)]
enum Fault {
    Command,
    Flag,
    ZeroCount,
    TransferFirst,
    TransferTwice,
    TransferOdd,
    TransferOutside,
    OutsideByOne,
    Outside,
    Wrap,
    Forbidden,
    CcwForbidden,
    Device,
}

const FAULTS: [Fault; 13] = [
    Fault::Command,
    Fault::Flag,
    Fault::ZeroCount,
    Fault::TransferFirst,
    Fault::TransferTwice,
    Fault::TransferOdd,
    Fault::TransferOutside,
    Fault::OutsideByOne,
    Fault::Outside,
    Fault::Wrap,
    Fault::Forbidden,
    Fault::CcwForbidden,
    Fault::Device,
];

/// A program that is being written.
struct Program<'a> {
    random: &'a mut Random,
    pool: &'a Pool,
    place: Place,
    key: u8,
    /// How many CCWs it is to have.
    length: usize,
    /// How many CCWs are executed by plan, and where the next one stands.
    planned: usize,
    next: u32,
    /// The bytes that the planned reads take, and how many the writes give.
    from: Vec<u8>,
    given: usize,
    ccws: Vec<(u32, [u8; 8])>,
    keys: Vec<(usize, u8)>,
    /// The last CCW is a transfer, or there is none.
    after_transfer: bool,
    /// The device is to be too short.
    short: bool,
}

impl Program<'_> {
    /// Whether there is a place for the next CCW.
    fn has_place(&self) -> bool {
        self.next < self.place.length && self.next.is_multiple_of(8)
    }

    /// Puts a CCW at the next place and goes on behind it.
    fn put(&mut self, ccw: Ccw) {
        if self.has_place() {
            self.ccws.push((self.next, ccw.to_bytes()));
        }
        self.after_transfer = ccw.command & 15 == 8;
        self.planned += 1;
        self.next += 8;
    }

    /// A multiple of 8 in storage.
    fn any_place(&mut self) -> u32 {
        self.random.below(u64::from(self.place.length / 8)) as u32 * 8
    }

    fn ignored(&mut self) -> u8 {
        if self.random.one_in(2) {
            0
        } else {
            self.random.byte()
        }
    }

    fn count(&mut self) -> u16 {
        let short = self.length < 16;
        let count = match self.random.below(32) {
            0..=11 => 1 + self.random.below(16),
            12..=17 if short => 1 + self.random.below(256),
            18..=22 if short => 1 + self.random.below(4_096),
            23 if self.length < 4 => self.random.pick(&[65_535, 65_535, 65_534, 40_000, 20_000]),
            24 if self.length < 8 => 1 + self.random.below(20_000),
            _ => self.random.pick(&[1, 2, 8, 8, 16, 64]),
        };
        count.min(u64::from(self.place.length)) as u16
    }

    /// The address of data inside storage.
    fn address(&mut self, count: u16) -> u32 {
        let count = u32::from(count);
        let greatest = self.place.length - count;
        let unit = self.place.key_unit;
        match self.random.below(16) {
            0 => greatest,
            1..=3 => {
                let boundary = self.random.below(u64::from(self.place.length / unit)) as u32 * unit;
                boundary
                    .saturating_sub(self.random.below(u64::from(count.min(unit)) + 1) as u32)
                    .min(greatest)
            }
            4 => (self.random.below(512) as u32).min(greatest),
            5 => self.next.saturating_add(64).min(greatest),
            _ => self.random.below(u64::from(greatest) + 1) as u32,
        }
    }

    /// Whether the range covers a CCW of the program or a place where one may come.
    fn covers_program(&self, address: u32, count: u16) -> bool {
        let end = address + u32::from(count);
        let ahead = self.next..self.next + 8 * (self.length as u32).min(64);
        let hits = |start: u32, stop: u32| address < stop && start < end;
        let mut behind = self.ccws.iter().rev().take(64);
        hits(ahead.start, ahead.end) || behind.any(|&(at, _)| hits(at, at + 8))
    }

    /// The address of data that leaves the program alone, where one is found.
    fn apart(&mut self, count: u16) -> u32 {
        let mut address = self.address(count);
        for _ in 0..4 {
            if !self.covers_program(address, count) {
                break;
            }
            address = self.address(count);
        }
        address
    }

    fn command(&mut self, low: u8) -> u8 {
        let high = if self.random.one_in(2) {
            0
        } else {
            self.random.byte()
        };
        high & !3 | low
    }

    /// A read or write that is good.
    fn data(&mut self) -> Ccw {
        let count = self.count();
        let read = self.random.one_in(2);
        let address = if read {
            self.apart(count)
        } else {
            self.address(count)
        };
        self.planned_data(read, address, count)
    }

    /// A read or write of this range, with chain command; counts its bytes as planned.
    fn planned_data(&mut self, read: bool, address: u32, count: u16) -> Ccw {
        if read {
            self.pool.extend(self.random, &mut self.from, count.into());
        } else {
            self.given += usize::from(count);
        }
        Ccw {
            command: self.command(if read { 2 } else { 1 }),
            address,
            flags: CHAIN_COMMAND,
            ignored: self.ignored(),
            count,
        }
    }

    /// A transfer in channel. Its flags and count are any.
    fn transfer_to(&mut self, address: u32) {
        let ccw = Ccw {
            command: self.random.byte() & 0xF0 | 8,
            address,
            flags: self.random.byte(),
            ignored: self.ignored(),
            count: if self.random.one_in(2) {
                0
            } else {
                self.random.word() as u16
            },
        };
        self.put(ccw);
        self.next = address;
    }

    /// A transfer a few places on, or far away.
    fn transfer(&mut self) {
        let ahead = self.next + 8 * (1 + self.random.below(4) as u32);
        let target = if self.random.one_in(2) && ahead < self.place.length {
            ahead
        } else {
            self.any_place()
        };
        self.transfer_to(target);
    }

    /// A read that overwrites the CCW behind it, and sometimes its own: those that count come
    /// from the device. What stood there before is any bytes.
    fn overwriting(&mut self, last: bool) {
        let (own, at) = (self.random.one_in(2), self.next);
        let start = self.from.len();
        let (address, count) = if own { (at, 16) } else { (at + 8, 8) };
        if u64::from(at) + 16 > u64::from(self.place.length) {
            let ccw = self.data();
            return self.put(ccw);
        }
        let ccw = self.planned_data(true, address, count);
        self.put(ccw);
        let before = self.random.word64().to_le_bytes();
        let (read, small) = (self.random.one_in(2), 1 + self.random.below(16) as u16);
        let target = self.apart(small);
        let mut ccw = self.planned_data(read, target, small);
        if last {
            ccw.flags = 0;
        }
        let behind = start + usize::from(count) - 8;
        self.from[behind..behind + 8].copy_from_slice(&ccw.to_bytes());
        self.ccws.push((self.next, before));
        self.after_transfer = false;
        self.planned += 1;
        self.next += 8;
    }

    /// The last CCW does not chain.
    fn end(&mut self) {
        if let Some((_, bytes)) = self.ccws.last_mut()
            && bytes[0] & 3 != 0
        {
            bytes[4] &= !CHAIN_COMMAND;
        }
    }

    /// Puts a key of this kind on a unit.
    fn forbid(&mut self, address: u32, fetch_protected: bool) {
        if self.key == 0 || address >= self.place.length {
            return;
        }
        let access = (self.key + 1 + self.random.below(15) as u8) % 16;
        let low = self.random.below(16) as u8 & 7 | if fetch_protected { 8 } else { 0 };
        let unit = (address / self.place.key_unit) as usize;
        self.keys.push((unit, access << 4 | low));
    }

    /// A CCW with a fault.
    fn fault(&mut self, fault: Fault) {
        let mut ccw = self.data();
        let unit = self.place.key_unit;
        match fault {
            Fault::Command => {
                let low = self.random.pick(&[3, 7, 11, 15, 0, 4, 12]);
                ccw.command = self.random.byte() & 0xF0 | low;
            }
            Fault::Flag => ccw.flags ^= self.random.pick(&[0x80, 0x20, 0x10, 8, 4, 2, 1]),
            Fault::ZeroCount => ccw.count = 0,
            Fault::TransferFirst | Fault::TransferTwice => {
                let twice = [self.any_place(), self.any_place()];
                for target in twice {
                    self.transfer_to(target);
                }
                return;
            }
            Fault::TransferOdd => {
                let target = self.any_place() + 1 + self.random.below(7) as u32;
                return self.transfer_to(target);
            }
            Fault::TransferOutside => {
                let length = self.place.length;
                let target = self.random.pick(&[length, length + 8, ADDRESSES_24 - 8]);
                return self.transfer_to(target % ADDRESSES_24);
            }
            Fault::OutsideByOne => {
                ccw.address = self.place.length - u32::from(ccw.count) + 1;
            }
            Fault::Outside => {
                let beyond = self.random.below(100_000) as u32;
                ccw.address = (self.place.length + beyond).min(ADDRESSES_24 - 1);
            }
            Fault::Wrap => {
                ccw.address = ADDRESSES_24 - 1 - self.random.below(u64::from(ccw.count)) as u32;
                ccw.count = ccw.count.max(2);
            }
            Fault::Forbidden => {
                let fetch_protected = ccw.command & 3 == 1 || self.random.one_in(2);
                let offset = self.random.below(u64::from(ccw.count)) as u32;
                self.forbid(ccw.address + offset, fetch_protected);
                if ccw.address / unit != self.next / unit && self.random.one_in(8) {
                    self.short = true;
                }
            }
            Fault::CcwForbidden => {
                // Mostly in another unit than those of the CCWs before it.
                if !self.after_transfer && self.random.one_in(2) {
                    let target = self.any_place();
                    self.transfer_to(target);
                }
                self.forbid(self.next, true);
            }
            Fault::Device => self.short = true,
        }
        // An address of 24 bits.
        ccw.address %= ADDRESSES_24;
        self.put(ccw);
    }

    /// A chain of CCWs with a few transfers, and sometimes a fault.
    fn chain(&mut self) {
        let fault_at = match self.random.below(5) {
            0..=2 => None,
            _ => Some(self.random.below(self.length as u64) as usize),
        };
        let fault = self.random.pick(&FAULTS);
        let fault_at = if fault == Fault::TransferFirst {
            fault_at.map(|_| 0)
        } else {
            fault_at
        };
        let transfers = self.random.pick(&[0, 4, 8, 30]);
        let overwrites = self.random.pick(&[0, 0, 4, 20]);
        while self.planned < self.length && self.has_place() {
            let last = self.planned + 2 == self.length;
            if fault_at.is_some_and(|at| at <= self.planned) {
                self.fault(fault);
                break;
            }
            if transfers > 0 && !self.after_transfer && self.random.one_in(transfers) {
                self.transfer();
                continue;
            }
            if overwrites > 0 && self.planned + 2 <= self.length && self.random.one_in(overwrites) {
                self.overwriting(last);
            } else {
                let ccw = self.data();
                self.put(ccw);
            }
        }
        if !self.random.one_in(16) {
            self.end();
        }
    }

    /// A few CCWs and a transfer back to one of them: it ends by the grant or by the device. The
    /// first may become another by what it reads.
    fn round(&mut self) {
        let start = self.next;
        let body = 1 + self.random.below(4);
        if self.random.one_in(3) && start + 8 <= self.place.length {
            let at = self.from.len();
            let ccw = self.planned_data(true, start, 8);
            self.put(ccw);
            let small = 1 + self.random.below(8) as u16;
            let target = self.apart(small);
            let read = self.random.one_in(2);
            let other = self.planned_data(read, target, small);
            self.from[at..at + 8].copy_from_slice(&other.to_bytes());
        }
        for _ in 0..body {
            let count = 1 + self.random.below(16) as u16;
            let read = self.random.one_in(2);
            let address = self.apart(count);
            let ccw = self.planned_data(read, address, count);
            self.put(ccw);
        }
        let back = start + 8 * self.random.below(body) as u32;
        if self.has_place() {
            self.transfer_to(back);
        }
        // Enough for all rounds, or for some.
        let more = self.random.pick(&[10_000, 10_000, 100]);
        self.pool.extend(self.random, &mut self.from, more);
        self.given += more;
        self.planned = 256;
    }
}

/// The grant for a program that is planned to have this many CCWs executed.
fn random_grant(random: &mut Random, planned: usize) -> u32 {
    let planned = (planned as u32).clamp(1, 256);
    match random.below(40) {
        0..=3 => planned,
        4..=5 => (planned - 1).max(1),
        6 => (planned + 1).min(256),
        7 => 1,
        8..=9 => 1 + random.below(256) as u32,
        10 => random.pick(&[0, 257, u32::MAX, 258, 512, 1 << 31, 1 << 16, 65_537]),
        _ => 256,
    }
}

fn random_first(random: &mut Random, place: Place, first: u32) -> u32 {
    match random.below(60) {
        0 => first + 1 + random.below(7) as u32,
        1 => random.pick(&[place.length, place.length + 8, place.length - 8]),
        2 => random.pick(&[ADDRESSES_24, ADDRESSES_24, ADDRESSES_24 + 8, u32::MAX - 7]),
        3 => first | (1 + random.below(255) as u32) << 24,
        4 => random.word(),
        _ => first,
    }
}

/// A key of the channel, sometimes over 15.
fn random_channel_key(random: &mut Random, key: u8) -> u32 {
    let key = u32::from(key);
    match random.below(50) {
        0 => random.pick(&[16, 17, 255, 256, 1 << 31, u32::MAX]),
        1 => key | 1 << (4 + random.below(28)),
        _ => key,
    }
}

/// Keys under which most of the program runs, any keys, or those that are there.
fn random_keys(random: &mut Random, place: Place, key: u8, keys: &mut Vec<(usize, u8)>) {
    let units = (place.length / place.key_unit) as usize;
    match random.below(8) {
        0 => {}
        1 => keys.extend((0..units).map(|unit| (unit, random_key(random)))),
        2..=3 => keys.extend((0..units).map(|unit| {
            let open = random.below(8) as u8;
            let own = key << 4 | random.below(16) as u8;
            // Any may fetch there, and mostly the channel may store.
            let any = random_access_key(random) << 4 | open;
            (unit, if random.one_in(16) { any } else { own })
        })),
        _ => keys.extend((0..units).map(|unit| (unit, key << 4 | random.below(16) as u8))),
    }
}

/// The length of a buffer of which this many bytes are planned for.
fn random_length(random: &mut Random, planned: usize, short: bool) -> usize {
    if short && planned > 0 {
        return match random.below(4) {
            0..=1 => planned - 1,
            2 => random.below(planned as u64) as usize,
            _ => 0,
        };
    }
    match random.below(8) {
        0..=3 => planned,
        4..=6 => planned + 1 + random.below(40) as usize,
        _ if random.one_in(4) => random.below(planned as u64 + 1) as usize,
        _ => planned,
    }
}

/// How many CCWs a program is to have.
fn random_program_length(random: &mut Random) -> usize {
    let length = match random.below(32) {
        0..=11 => 1 + random.below(4),
        12..=25 => 1 + random.below(12),
        26..=29 => 1 + random.below(60),
        30 => 240 + random.below(61),
        _ => random.pick(&[254, 255, 256, 257, 300]),
    };
    length as usize
}

/// Any request for this place.
pub fn random_asked(random: &mut Random, pool: &Pool, place: Place) -> Asked {
    let key = random_access_key(random);
    let length = random_program_length(random);
    let units = u64::from(place.length / 8);
    let steps = 8 * (1 + random.below((length as u64 + 2).min(16)) as u32);
    let boundary = random.below(u64::from(place.length / place.key_unit)) as u32 * place.key_unit;
    let first = match random.below(24) {
        // The program meets the end of storage, or that of a unit.
        0..=1 => place.length - steps,
        2..=3 => boundary.max(steps) - steps,
        _ => random.below(units) as u32 * 8,
    };
    let first = if length > 100 && first > place.length - 8 * 100 {
        first / 4 / 8 * 8
    } else {
        first
    };
    let mut keys = Vec::new();
    random_keys(random, place, key, &mut keys);
    let rounds = random.one_in(10);
    let next_unit_forbidden = first + steps == boundary && random.one_in(2);
    let mut program = Program {
        random,
        pool,
        place,
        key,
        length,
        planned: 0,
        next: first,
        from: Vec::new(),
        given: 0,
        ccws: Vec::new(),
        keys,
        after_transfer: true,
        short: false,
    };
    if next_unit_forbidden {
        program.forbid(boundary, true);
    }
    if rounds {
        program.round();
    } else {
        program.chain();
    }
    let Program {
        planned,
        mut from,
        given,
        ccws,
        keys,
        short,
        ..
    } = program;
    let from_length = random_length(random, from.len(), short);
    let room_length = random_length(random, given, short);
    let there = from.len();
    if from_length > there {
        pool.extend(random, &mut from, from_length - there);
    }
    from.truncate(from_length);
    let mut room = Vec::new();
    pool.extend(random, &mut room, room_length);
    let request = Request {
        key: random_channel_key(random, key),
        first: random_first(random, place, first),
        grant: random_grant(random, planned),
    };
    Asked {
        request,
        from,
        room,
        ccws,
        keys,
    }
}
