//! Written cases for the sentences on the channel: answers, counts, keys, device and record; and
//! the progress of the C functions. Each runs by the reference, by the plain channel and by the
//! proved one, as a whole and step by step.

use std::thread;

use storage_unit::boundary::{RawChannel, call_channel_raw};
use storage_unit_comparison::ChannelUnit;
use storage_unit_comparison::channel::{self, Ccw, Request};
use storage_unit_comparison::units::{Plain, Proved};

/// What is lent to a call.
#[derive(Clone, PartialEq)]
struct Lent {
    settings: u32,
    storage: Vec<u8>,
    keys: Vec<u8>,
    from: Vec<u8>,
    room: Vec<u8>,
}

/// A way to call: as a whole or one step.
#[derive(Clone, Copy)]
enum Function {
    Whole,
    Step,
}

/// An implementation, by calls.
trait Channel {
    fn call(function: Function, lent: &mut Lent, request: Request, progress: &mut [u8]) -> u64;
}

/// The reference.
struct Written;

impl Channel for Written {
    fn call(function: Function, lent: &mut Lent, request: Request, progress: &mut [u8]) -> u64 {
        let mut with = channel::Lent {
            settings: lent.settings,
            storage: &mut lent.storage,
            keys: &mut lent.keys,
            from: &lent.from,
            room: &mut lent.room,
        };
        match function {
            Function::Whole => channel::whole_by_numbers(&mut with, &request, progress),
            Function::Step => channel::step_by_numbers(&mut with, &request, progress),
        }
    }
}

/// An implementation by its C functions.
struct ByFunctions<U>(U);

impl<U: ChannelUnit> Channel for ByFunctions<U> {
    fn call(function: Function, lent: &mut Lent, request: Request, progress: &mut [u8]) -> u64 {
        let function: RawChannel = match function {
            Function::Whole => U::WHOLE,
            Function::Step => U::STEP,
        };
        // SAFETY: the tests call the functions of the comparison and of the static library.
        unsafe {
            call_channel_raw(
                function,
                lent.settings,
                &mut lent.storage,
                &mut lent.keys,
                (request.key, request.first, request.grant),
                &lent.from,
                &mut lent.room,
                progress,
            )
        }
    }
}

const WRITE: u8 = 1;
const READ: u8 = 2;
const TRANSFER: u8 = 8;
const CHAIN: u8 = 0x40;

/// Where programs stand: in unit 2 of 2K.
const FIRST: u32 = 4096;

/// 64K of storage with 2K units, keys all 30 with bit 7 on, and sixteen bytes in each buffer.
fn usual() -> Lent {
    Lent {
        settings: 0,
        storage: (0..65_536).map(|address| (address % 251) as u8).collect(),
        keys: vec![0x31; 32],
        from: (0..16).map(|number| 0xE0 + number).collect(),
        room: vec![0xCC; 16],
    }
}

fn request() -> Request {
    Request {
        key: 3,
        first: FIRST,
        grant: 256,
    }
}

fn ccw(command: u8, address: u32, flags: u8, count: u16) -> [u8; 8] {
    let [_, high, middle, low] = address.to_be_bytes();
    let [count_high, count_low] = count.to_be_bytes();
    [
        command, high, middle, low, flags, 0xFF, count_high, count_low,
    ]
}

/// The usual state with these CCWs one behind the other.
fn with(ccws: &[[u8; 8]]) -> Lent {
    let mut lent = usual();
    put(&mut lent, FIRST, ccws);
    lent
}

fn put(lent: &mut Lent, address: u32, ccws: &[[u8; 8]]) {
    let bytes = ccws.concat();
    lent.storage[address as usize..][..bytes.len()].copy_from_slice(&bytes);
}

/// What is left in a progress.
#[derive(Clone, Copy, Debug, PartialEq)]
struct Reached {
    number: u16,
    address: u32,
    chaining: u8,
    fetched: u32,
    taken: u64,
    given: u64,
}

fn reached(packed: u64, progress: &[u8]) -> Reached {
    let number = |start: usize, end: usize| {
        let upwards = progress[start..end].iter().rev();
        upwards.fold(0u64, |number, byte| number << 8 | u64::from(*byte))
    };
    assert_eq!(packed << 16, 0, "place, word and rule");
    let status = match (packed >> 48) as u16 {
        0 => 2,
        255 => 1,
        refusal => refusal as u8,
    };
    assert_eq!(progress[5], status, "status");
    assert_eq!((number(6, 8), number(12, 16)), (0, 0));
    Reached {
        number: (packed >> 48) as u16,
        address: number(0, 4) as u32,
        chaining: progress[4],
        fetched: number(8, 12) as u32,
        taken: number(16, 24),
        given: number(24, 32),
    }
}

/// Runs a request as a whole, and step by step, which gives and leaves the same.
fn run<C: Channel>(before: &Lent, request: Request) -> (Reached, Lent) {
    let mut whole = before.clone();
    let mut progress = [0xEE; 32];
    let packed = C::call(Function::Whole, &mut whole, request, &mut progress);
    let end = reached(packed, &progress);

    let mut stepped = before.clone();
    let mut progress = [0; 32];
    let mut steps = 0;
    loop {
        let packed = C::call(Function::Step, &mut stepped, request, &mut progress);
        steps += 1;
        let now = reached(packed, &progress);
        if now.number != 255 {
            assert_eq!(now, end, "step by step");
            break;
        }
        assert_eq!(now.fetched, steps, "each step has fetched one");
    }
    // The last step fetched one, or none.
    assert!(end.fetched == steps || end.fetched + 1 == steps);
    assert!(whole == stepped, "step by step");
    (end, whole)
}

/// The request is answered with this number after so many CCWs, and has changed nothing but the
/// keys that are given.
fn refused<C: Channel>(before: &Lent, request: Request, number: u16, fetched: u32, keys: &[usize]) {
    let (end, after) = run::<C>(before, request);
    assert_eq!((end.number, end.fetched), (number, fetched));
    let mut expected = before.clone();
    for &unit in keys {
        expected.keys[unit] = expected.keys[unit] & 0xFE | 4;
    }
    assert_eq!(after.keys, expected.keys);
    assert!(after == expected, "nothing else has changed");
}

/// Refused at its first CCW, which was fetched.
fn refused_first<C: Channel>(before: &Lent, number: u16) {
    refused::<C>(before, request(), number, 1, &[2]);
    let (end, _) = run::<C>(before, request());
    // The record is as before the CCW, but for the number fetched.
    let start = (FIRST, 0, 0, 0);
    assert_eq!((end.address, end.chaining, end.taken, end.given), start);
}

/// Data to the device and from it, their keys, the count and the record.
fn reads_and_writes<C: Channel>() {
    let before = with(&[
        ccw(WRITE, 10_239, CHAIN, 3),
        ccw(READ, 20_000, CHAIN, 4),
        ccw(READ, 20_010, 0, 2),
    ]);
    let (end, after) = run::<C>(&before, request());
    let expected = Reached {
        number: 0,
        address: FIRST + 24,
        chaining: 3,
        fetched: 3,
        taken: 6,
        given: 3,
    };
    assert_eq!(end, expected);
    let mut left = before.clone();
    left.room[..3].copy_from_slice(&before.storage[10_239..10_242]);
    left.storage[20_000..20_004].copy_from_slice(&[0xE0, 0xE1, 0xE2, 0xE3]);
    left.storage[20_010..20_012].copy_from_slice(&[0xE4, 0xE5]);
    for (unit, key) in [(2, 0x34), (4, 0x34), (5, 0x34), (9, 0x36)] {
        left.keys[unit] = key;
    }
    assert!(after == left);
}

/// Line 64, then the key, then the grant, and nothing else: no processor is looked at.
fn tests_before_the_first<C: Channel>() {
    let good = with(&[ccw(WRITE, 0, 0, 1)]);
    let wrong = Request {
        key: 16,
        grant: 0,
        ..request()
    };
    // The keys are those of 2K units.
    let other = Lent {
        settings: 1,
        ..good.clone()
    };
    refused::<C>(&other, wrong, 64, 0, &[]);
    refused::<C>(&other, request(), 64, 0, &[]);
    let mut short = good.clone();
    short.storage.pop();
    refused::<C>(&short, wrong, 64, 0, &[]);
    let mut keys = good.clone();
    keys.keys.push(0);
    refused::<C>(&keys, wrong, 64, 0, &[]);
    for key in [16, 19, 255, 256, 259, 1 << 31, u32::MAX] {
        refused::<C>(&good, Request { key, ..wrong }, 65, 0, &[]);
        refused::<C>(&good, Request { key, ..request() }, 65, 0, &[]);
    }
    for grant in [0, 257, 258, 65_537, 1 << 31, u32::MAX] {
        let asked = Request { grant, ..request() };
        refused::<C>(&good, asked, 66, 0, &[]);
        let (end, _) = run::<C>(&good, asked);
        assert_eq!((end.address, end.chaining), (FIRST, 0));
    }
    for settings in [0, 2] {
        let other = Lent {
            settings,
            ..good.clone()
        };
        assert_eq!(run::<C>(&other, request()).0.number, 0);
    }
}

/// The grant comes before the address of the CCW to come.
fn grants<C: Channel>() {
    let chain = |count: usize| {
        let mut ccws = vec![ccw(WRITE, 0, CHAIN, 1); count];
        ccws[count - 1][4] = 0;
        let mut lent = with(&ccws);
        lent.room.resize(300, 0xCC);
        lent
    };
    let granted = |lent: &Lent, grant| run::<C>(lent, Request { grant, ..request() }).0;
    let end = |lent: &Lent, grant| {
        let end = granted(lent, grant);
        (end.number, end.fetched)
    };
    assert_eq!(end(&chain(1), 1), (0, 1));
    assert_eq!(end(&chain(2), 1), (74, 1));
    assert_eq!(end(&chain(255), 256), (0, 255));
    assert_eq!(end(&chain(256), 256), (0, 256));
    assert_eq!(end(&chain(257), 256), (74, 256));
    let used_up = granted(&chain(257), 256);
    assert_eq!(
        (used_up.address, used_up.chaining, used_up.given),
        (FIRST + 8 * 256, 1, 256)
    );
    // A transfer to no CCW is used up first, where it was the last granted one.
    for target in [FIRST + 1, 65_536, 0xFF_FFF8] {
        let lent = with(&[ccw(WRITE, 0, CHAIN, 1), ccw(TRANSFER, target, 0, 0)]);
        assert_eq!(end(&lent, 2), (74, 2));
        assert_eq!(end(&lent, 3), (71, 2));
        let used_up = granted(&lent, 2);
        assert_eq!((used_up.address, used_up.chaining), (target, 2));
    }
    // A loop.
    let lent = with(&[ccw(READ, 0, CHAIN, 1), ccw(TRANSFER, FIRST, 0, 0)]);
    assert_eq!(end(&lent, 20), (74, 20));
    assert_eq!(end(&lent, 256), (73, 33));
}

/// The address of a CCW: a multiple of 8, inside storage. Nothing is fetched otherwise.
fn addresses_of_ccws<C: Channel>() {
    let good = with(&[ccw(WRITE, 0, 0, 1), ccw(WRITE, 0, 0, 1)]);
    for first in [
        FIRST + 1,
        FIRST + 4,
        FIRST + 7,
        65_536,
        65_544,
        1 << 24,
        (1 << 24) + FIRST,
        u32::MAX - 7,
        u32::MAX,
    ] {
        let asked = Request { first, ..request() };
        refused::<C>(&good, asked, 71, 0, &[]);
        assert_eq!(run::<C>(&good, asked).0.address, first);
    }
    // The last CCW of storage, alone and with chain command.
    for (flags, number) in [(0, 0), (CHAIN, 71)] {
        let mut lent = usual();
        put(&mut lent, 65_528, &[ccw(WRITE, 0, flags, 1)]);
        let asked = Request {
            first: 65_528,
            ..request()
        };
        let (end, _) = run::<C>(&lent, asked);
        assert_eq!((end.number, end.fetched, end.address), (number, 1, 65_536));
        assert_eq!(end.chaining, if number == 0 { 3 } else { 1 });
    }
    // The same where storage ends at 16,777,216: no wrap.
    let mut lent = usual();
    lent.storage.resize(1 << 24, 0);
    lent.keys.resize(8192, 0x31);
    put(&mut lent, 0xFF_FFF8, &[ccw(WRITE, 0, CHAIN, 1)]);
    let asked = Request {
        first: 0xFF_FFF8,
        ..request()
    };
    let (end, _) = run::<C>(&lent, asked);
    assert_eq!((end.number, end.address, end.chaining), (71, 1 << 24, 1));
}

/// Fetching a CCW is forbidden: not counted, and no key is written.
fn forbidden_ccws<C: Channel>() {
    let mut lent = with(&[ccw(0, 0, 0, 0)]);
    for (key, number) in [
        (0x49, 72),
        (0x48, 72),
        (0x4F, 72),
        (0x41, 71),
        (0x47, 71),
        (0x39, 71),
    ] {
        lent.keys[2] = key;
        let (fetched, written) = if number == 72 {
            (0, &[][..])
        } else {
            (1, &[2][..])
        };
        refused::<C>(&lent, request(), number, fetched, written);
        // Key 0 matches all.
        let by_zero = Request {
            key: 0,
            ..request()
        };
        refused::<C>(&lent, by_zero, 71, 1, &[2]);
    }
}

/// Every command: write, read, transfer or bad, by its low bits.
fn commands<C: Channel>() {
    for command in 0..=255 {
        let lent = with(&[ccw(command, 8192, 0, 2)]);
        let (end, after) = run::<C>(&lent, request());
        match command & 15 {
            1 | 5 | 9 | 13 => assert_eq!((end.number, end.given, end.taken), (0, 2, 0)),
            2 | 6 | 10 | 14 => assert_eq!((end.number, end.given, end.taken), (0, 0, 2)),
            _ => refused_first::<C>(&lent, 71),
        }
        // As the second CCW.
        let second = with(&[ccw(WRITE, 8192, CHAIN, 2), ccw(command, FIRST + 24, 0, 2)]);
        let (end, _) = run::<C>(&second, request());
        let transfers = command & 15 == 8;
        assert_eq!(end.address == FIRST + 24, transfers, "{command:02x}");
        assert_eq!(after.keys[2], 0x34);
    }
}

/// Every flag byte: chain command or nothing, and no matter for a transfer.
fn flags<C: Channel>() {
    for flags in 0..=255 {
        for command in [WRITE, READ] {
            let lent = with(&[ccw(command, 8192, flags, 2), ccw(WRITE, 0, 0, 1)]);
            match flags {
                0 => assert_eq!(run::<C>(&lent, request()).0.fetched, 1),
                CHAIN => assert_eq!(run::<C>(&lent, request()).0.fetched, 2),
                _ => refused_first::<C>(&lent, 71),
            }
        }
        let transfer = with(&[
            ccw(WRITE, 0, CHAIN, 1),
            ccw(TRANSFER | flags & 0xF0, FIRST + 24, flags, flags.into()),
            ccw(0, 0, 0, 0),
            ccw(WRITE, 0, 0, 1),
        ]);
        let (end, _) = run::<C>(&transfer, request());
        assert_eq!((end.number, end.fetched, end.given), (0, 3, 2));
    }
    for command in [WRITE, READ] {
        refused_first::<C>(&with(&[ccw(command, 8192, 0, 0)]), 71);
        refused_first::<C>(&with(&[ccw(command, 8192, CHAIN, 0)]), 71);
    }
}

/// A transfer comes neither first nor straight after another.
fn misplaced_transfers<C: Channel>() {
    refused_first::<C>(
        &with(&[ccw(TRANSFER, FIRST + 8, 0, 0), ccw(WRITE, 0, 0, 1)]),
        71,
    );
    let twice = with(&[
        ccw(WRITE, 0, CHAIN, 1),
        ccw(TRANSFER, FIRST + 24, 0, 0),
        ccw(WRITE, 0, 0, 1),
        ccw(TRANSFER, FIRST + 16, 0, 0),
    ]);
    let (end, _) = run::<C>(&twice, request());
    // Both are fetched, and the record is as the first of them left it.
    assert_eq!((end.number, end.fetched), (71, 3));
    assert_eq!((end.address, end.chaining, end.given), (FIRST + 24, 2, 1));
    // A CCW between two is enough.
    let between = with(&[
        ccw(WRITE, 0, CHAIN, 1),
        ccw(TRANSFER, FIRST + 24, 0, 0),
        ccw(WRITE, 0, 0, 1),
        ccw(READ, 0, CHAIN, 1),
        ccw(TRANSFER, FIRST + 16, 0, 0),
    ]);
    let (end, _) = run::<C>(&between, request());
    assert_eq!((end.number, end.fetched), (0, 5));
}

/// Data end at the end of storage at the latest; there is no wrap.
fn data_ranges<C: Channel>() {
    for command in [WRITE, READ] {
        let number = |address, count| {
            let lent = with(&[ccw(command, address, 0, count)]);
            run::<C>(&lent, request()).0.number
        };
        assert_eq!((number(65_520, 16), number(65_535, 1)), (0, 0));
        for (address, count) in [
            (65_521, 16),
            (65_535, 2),
            (65_536, 1),
            (0xFF_FFFF, 1),
            (0xFF_FFFF, 2),
            (2, 65_535),
        ] {
            // 73 comes behind it.
            refused_first::<C>(&with(&[ccw(command, address, 0, count)]), 71);
        }
        assert_eq!(number(1, 65_535), 73);
        let mut full = with(&[ccw(command, 0xFF_FFFF, 0, 2)]);
        full.storage.resize(1 << 24, 0);
        full.keys.resize(8192, 0x31);
        refused_first::<C>(&full, 71);
        put(&mut full, FIRST, &[ccw(command, 0xFF_FFFF, 0, 1)]);
        assert_eq!(run::<C>(&full, request()).0.number, 0);
    }
}

/// Too few bytes, or too little room: before the keys, and nothing is moved in part. The other
/// buffer is not looked at.
fn short_devices<C: Channel>() {
    for (command, other) in [(WRITE, READ), (READ, WRITE)] {
        let mut lent = with(&[ccw(command, 8192, 0, 16)]);
        let buffer = |lent: &mut Lent, command: u8, length: usize| {
            if command == READ {
                lent.from.resize(length, 0x77);
            } else {
                lent.room.resize(length, 0x77);
            }
        };
        buffer(&mut lent, other, 0);
        assert_eq!(run::<C>(&lent, request()).0.number, 0);
        buffer(&mut lent, command, 15);
        refused_first::<C>(&lent, 73);
        lent.keys[4] = 0x48;
        refused_first::<C>(&lent, 73);
        buffer(&mut lent, command, 16);
        refused_first::<C>(&lent, 72);
        // The second of two.
        let mut lent = with(&[ccw(command, 8192, CHAIN, 10), ccw(command, 8192, 0, 7)]);
        buffer(&mut lent, command, 16);
        let (end, _) = run::<C>(&lent, request());
        assert_eq!((end.number, end.fetched), (73, 2));
        assert_eq!((end.address, end.taken + end.given), (FIRST + 8, 10));
    }
}

/// One unit that forbids refuses the whole CCW, and no key of its data is written.
fn forbidden_data<C: Channel>() {
    for unit in 4..=6 {
        for (command, key, number) in [
            (READ, 0x41, 72),
            (READ, 0x49, 72),
            (WRITE, 0x41, 0),
            (WRITE, 0x49, 72),
        ] {
            let mut lent = with(&[ccw(command, 8200, 0, 6000)]);
            lent.from.resize(6000, 0x77);
            lent.room.resize(6000, 0x77);
            lent.keys[unit] = key;
            if number == 0 {
                let (end, after) = run::<C>(&lent, request());
                assert_eq!((end.number, after.keys[unit]), (0, 0x44));
            } else {
                refused_first::<C>(&lent, number);
                let by_zero = Request {
                    key: 0,
                    ..request()
                };
                assert_eq!(run::<C>(&lent, by_zero).0.number, 0);
            }
        }
    }
}

/// 65,535 bytes touch up to 33 units of 2K, or 17 of 4K.
fn many_units<C: Channel>() {
    for (settings, unit, units) in [(0, 2048, 33), (1, 4096, 17)] {
        for (command, bits) in [(READ, 6), (WRITE, 4)] {
            let mut lent = with(&[ccw(command, 8191, 0, 65_535)]);
            lent.settings = settings;
            lent.storage.resize(131_072, 0x5A);
            lent.keys = vec![0x31; 131_072 / unit];
            lent.from = (0..65_535).map(|number| (number % 253) as u8).collect();
            lent.room = vec![0; 65_536];
            let (end, after) = run::<C>(&lent, request());
            assert_eq!((end.number, end.taken + end.given), (0, 65_535));
            let mut keys = lent.keys.clone();
            keys[4096 / unit] = 0x34;
            let data = 8191 / unit..73_726_usize.div_ceil(unit);
            assert_eq!(data.len(), units);
            keys[data].fill(0x30 | bits);
            assert_eq!(after.keys, keys);
            if command == READ {
                assert!(after.storage[8191..73_726] == lent.from);
            } else {
                assert!(after.room[..65_535] == lent.storage[8191..73_726]);
                assert_eq!(after.room[65_535], 0);
            }
        }
    }
}

/// Data that end with a unit, or begin one, touch no other.
fn whole_units<C: Channel>() {
    for (address, count, units) in [
        (8192, 2048, 4..5),
        (8191, 2049, 3..5),
        (8192, 2049, 4..6),
        (63_488, 2048, 31..32),
    ] {
        for (command, key) in [(READ, 0x36), (WRITE, 0x34)] {
            let mut lent = with(&[ccw(command, address, 0, count)]);
            lent.from.resize(2049, 0x77);
            lent.room.resize(2049, 0x77);
            let (end, after) = run::<C>(&lent, request());
            let mut keys = lent.keys.clone();
            keys[2] = 0x34;
            keys[units.clone()].fill(key);
            assert_eq!((end.number, after.keys), (0, keys));
        }
    }
}

/// A CCW is fetched when its step has come: a read before it may have changed it.
fn overwritten_ccws<C: Channel>() {
    let mut next = with(&[ccw(READ, FIRST + 8, CHAIN, 8), ccw(0, 0, 0, 0)]);
    next.from = ccw(WRITE, 0, 0, 3).to_vec();
    let (end, after) = run::<C>(&next, request());
    assert_eq!((end.number, end.fetched, end.given), (0, 2, 3));
    assert_eq!(after.keys[2], 0x36);
    // Its own bytes, flags too: it goes on as it was fetched.
    let mut own = with(&[ccw(READ, FIRST, CHAIN, 8), ccw(WRITE, 0, 0, 3)]);
    own.from = ccw(0, 0, 0, 0).to_vec();
    let (end, after) = run::<C>(&own, request());
    assert_eq!((end.number, end.fetched, end.given), (0, 2, 3));
    assert_eq!(after.storage[4096..4104], own.from);
    // It becomes a write, which the transfer comes back to.
    let mut again = with(&[ccw(READ, FIRST, CHAIN, 8), ccw(TRANSFER, FIRST, 0, 0)]);
    again.from = ccw(WRITE, 0, 0, 5).to_vec();
    let (end, _) = run::<C>(&again, request());
    assert_eq!((end.number, end.fetched, end.given), (0, 3, 5));
}

/// Earlier CCWs stand where a later one is refused; its own unit's key is written if it was
/// fetched.
fn earlier_ccws_stand<C: Channel>() {
    let mut lent = with(&[ccw(READ, 8192, CHAIN, 4), ccw(TRANSFER, 6144, 0, 0)]);
    put(
        &mut lent,
        6144,
        &[ccw(WRITE, 8192, CHAIN, 2), ccw(3, 0, 0, 1)],
    );
    let (end, after) = run::<C>(&lent, request());
    assert_eq!((end.number, end.fetched), (71, 4));
    assert_eq!((end.address, end.chaining), (6152, 1));
    assert_eq!((end.taken, end.given), (4, 2));
    let keys = [(2, 0x34), (3, 0x34), (4, 0x36), (5, 0x31)];
    assert!(keys.iter().all(|&(unit, key)| after.keys[unit] == key));
    assert_eq!(after.storage[8192..8196], [0xE0, 0xE1, 0xE2, 0xE3]);
    assert_eq!(after.room[..3], [0xE0, 0xE1, 0xCC]);
}

/// There is no low-address protection and no prefix: a read into 0 to 511.
fn low_addresses<C: Channel>() {
    let lent = with(&[ccw(READ, 0, 0, 16)]);
    let (end, after) = run::<C>(&lent, request());
    assert_eq!((end.number, after.keys[0]), (0, 0x36));
    assert!(after.storage[..16] == lent.from);
}

/// A progress that is none: 65, or 64 where that applies, and nothing changes.
fn wrong_progress<C: Channel>() {
    let lent = with(&[ccw(WRITE, 0, 0, 1)]);
    let mut wrong = lent.clone();
    wrong.keys.pop();
    let refuses = |function, progress: &[u8]| {
        for (before, number) in [(&lent, 65), (&wrong, 64)] {
            let mut after = before.clone();
            let mut left = progress.to_vec();
            let packed = C::call(function, &mut after, request(), &mut left);
            assert_eq!(packed, number << 48, "{progress:?}");
            assert!(after == *before && left == progress, "nothing changes");
        }
    };
    for length in [0, 1, 31, 33, 64] {
        refuses(Function::Whole, &vec![0; length]);
        refuses(Function::Step, &vec![0; length]);
    }
    for place in [6, 7, 12, 13, 14, 15] {
        for bit in 0..8 {
            for status in [0, 1, 2, 71] {
                let mut progress = [0; 32];
                progress[5] = status;
                progress[place] = 1 << bit;
                refuses(Function::Step, &progress);
            }
        }
    }
    for byte in 0..=255 {
        let mut chaining = [0; 32];
        chaining[4] = byte;
        let mut status = [0; 32];
        status[5] = byte;
        if byte > 3 {
            refuses(Function::Step, &chaining);
        }
        if !matches!(byte, 0..=2 | 64..=66 | 71..=74) {
            refuses(Function::Step, &status);
        }
    }
    // A whole request does not look at it.
    let mut after = lent.clone();
    let mut progress = [0xFF; 32];
    assert_eq!(
        C::call(Function::Whole, &mut after, request(), &mut progress),
        0
    );
    assert_eq!(reached(0, &progress).fetched, 1);
}

/// Settings with another bit on: 64 before all else, whatever the progress is, and nothing changes,
/// not even the progress.
fn wrong_settings<C: Channel>() {
    let good = with(&[ccw(WRITE, 0, 0, 1)]);
    let asked = Request {
        key: 16,
        grant: 0,
        ..request()
    };
    let mut under_way = [0; 32];
    under_way[0..6].copy_from_slice(&[0, 16, 0, 0, 1, 1]);
    let mut answered = [0; 32];
    answered[5] = 71;
    let progresses = [
        &[0; 32][..],
        &under_way,
        &answered,
        &[0xEE; 32],
        &[0; 31],
        &[],
    ];
    for settings in [4, 5, 6, 7, 8, 256, 1 << 31, u32::MAX] {
        for request in [request(), asked] {
            for function in [Function::Whole, Function::Step] {
                for progress in progresses {
                    let before = Lent {
                        settings,
                        ..good.clone()
                    };
                    let (mut after, mut left) = (before.clone(), progress.to_vec());
                    let packed = C::call(function, &mut after, request, &mut left);
                    assert_eq!(packed, 64 << 48, "settings {settings}, {progress:?}");
                    assert!(after == before && left == progress, "nothing changes");
                }
            }
        }
    }
}

/// An answered request: a step does nothing and gives the answer again, whatever the request is.
fn answered<C: Channel>() {
    let lent = with(&[ccw(WRITE, 0, 0, 1)]);
    for status in [2, 64, 65, 66, 71, 72, 73, 74] {
        for request in [
            request(),
            Request {
                key: 16,
                grant: 0,
                ..request()
            },
        ] {
            let mut progress = [0x5A; 32];
            progress[4..8].copy_from_slice(&[3, status, 0, 0]);
            progress[12..16].fill(0);
            let (mut after, kept) = (lent.clone(), progress);
            let packed = C::call(Function::Step, &mut after, request, &mut progress);
            let number = if status == 2 { 0 } else { status };
            assert_eq!(packed, u64::from(number) << 48);
            assert!(after == lent && progress == kept);
        }
    }
}

/// A step that finds other lengths, another key or another grant than the one before it: refused,
/// and the record stays.
fn changed_between_steps<C: Channel>() {
    let lent = with(&[ccw(WRITE, 0, CHAIN, 1), ccw(WRITE, 0, 0, 1)]);
    let mut short = lent.clone();
    short.keys.pop();
    for (before, asked, number) in [
        (&short, request(), 64),
        (
            &lent,
            Request {
                key: 16,
                ..request()
            },
            65,
        ),
        (
            &lent,
            Request {
                grant: 0,
                ..request()
            },
            66,
        ),
        (
            &lent,
            Request {
                grant: 1,
                ..request()
            },
            74,
        ),
    ] {
        let mut progress = [0; 32];
        let packed = C::call(Function::Step, &mut lent.clone(), request(), &mut progress);
        let now = reached(packed, &progress);
        let mut after = before.clone();
        let packed = C::call(Function::Step, &mut after, asked, &mut progress);
        let expected = Reached { number, ..now };
        assert_eq!(reached(packed, &progress), expected);
        assert!(after == *before, "nothing changes");
    }
}

/// A later step with buffers elsewhere, which are longer, and with another first address: positions
/// count from the first bytes of the buffers that it is given. With shorter ones it is refused.
fn other_buffers_between_steps<C: Channel>() {
    let mut lent = with(&[
        ccw(READ, 8192, CHAIN, 10),
        ccw(WRITE, 8192, CHAIN, 10),
        ccw(READ, 10_240, CHAIN, 20),
        ccw(WRITE, 10_240, 0, 20),
    ]);
    let mut progress = [0; 32];
    let mut asked = request();
    for fetched in 1..=2 {
        let packed = C::call(Function::Step, &mut lent, asked, &mut progress);
        assert_eq!(reached(packed, &progress).fetched, fetched);
    }
    let now = reached(255 << 48, &progress);
    assert_eq!((now.number, now.taken, now.given), (255, 10, 10));

    // Too short for 20 more, or shorter than the bytes that were taken or given.
    for length in [29, 9, 0] {
        for (command, from, room) in [(READ, length, 30), (WRITE, 30, length)] {
            let mut short = lent.clone();
            put(&mut short, FIRST + 16, &[ccw(command, 10_240, 0, 20)]);
            short.from.resize(from, 0x77);
            short.room.resize(room, 0x77);
            let mut progress = progress;
            let packed = C::call(Function::Step, &mut short, asked, &mut progress);
            let refused = Reached {
                number: 73,
                fetched: 3,
                ..now
            };
            assert_eq!(reached(packed, &progress), refused, "{length}");
        }
    }

    lent.from = (0..30).collect();
    lent.room = vec![0xDD; 40];
    asked.first = 0;
    let packed = C::call(Function::Step, &mut lent, asked, &mut progress);
    assert_eq!((packed, reached(packed, &progress).taken), (255 << 48, 30));
    assert_eq!(lent.storage[10_240..10_260], lent.from[10..]);
    let packed = C::call(Function::Step, &mut lent, asked, &mut progress);
    assert_eq!((packed, reached(packed, &progress).given), (0, 30));
    assert_eq!(lent.room[..10], [0xDD; 10]);
    assert_eq!(lent.room[10..30], lent.from[10..]);
    assert_eq!(lent.room[30..], [0xDD; 10]);
}

/// Two programs in one storage step by step in turn, each with its own progress and its own device.
fn two_programs<C: Channel>() {
    let second = FIRST + 64;
    let mut lent = usual();
    for (first, data) in [(FIRST, 8192), (second, 20_000)] {
        let ccws = [ccw(READ, data, CHAIN, 4), ccw(WRITE, data, 0, 4)];
        put(&mut lent, first, &ccws);
    }
    let requests = [FIRST, second].map(|first| Request { first, ..request() });
    let mut devices = [[1, 2, 3, 4], [5, 6, 7, 8]].map(|from| (from.to_vec(), vec![0; 4]));
    let mut progress = [[0; 32]; 2];
    for number in [255, 0] {
        for program in 0..2 {
            let (from, room) = devices[program].clone();
            (lent.from, lent.room) = (from, room);
            let asked = requests[program];
            let packed = C::call(Function::Step, &mut lent, asked, &mut progress[program]);
            assert_eq!(packed, number << 48);
            devices[program].1.clone_from(&lent.room);
        }
    }
    assert_eq!(lent.storage[8192..8196], [1, 2, 3, 4]);
    assert_eq!(lent.storage[20_000..20_004], [5, 6, 7, 8]);
    assert!(devices.iter().all(|(from, room)| from == room));
}

/// Ours: a host makes up the progress of a request that is under way with the chaining of one that
/// has ended. A transfer in channel is allowed behind a CCW that chains and nowhere else; data are
/// no matter.
fn made_up_chaining<C: Channel>() {
    for chaining in 0..=3 {
        let step = |ccw| {
            let mut progress = [0; 32];
            progress[0..4].copy_from_slice(&FIRST.to_le_bytes());
            progress[4..6].copy_from_slice(&[chaining, 1]);
            let packed = C::call(Function::Step, &mut with(&[ccw]), request(), &mut progress);
            let end = reached(packed, &progress);
            (end.number, end.chaining, end.fetched)
        };
        let transferred = if chaining == 1 {
            (255, 2, 1)
        } else {
            (71, chaining, 1)
        };
        assert_eq!(step(ccw(TRANSFER, FIRST + 8, 0, 0)), transferred);
        assert_eq!(step(ccw(WRITE, 0, CHAIN, 1)), (255, 1, 1));
        assert_eq!(step(ccw(READ, 0, 0, 1)), (0, 3, 1));
    }
}

/// Ours: an answered request whose lengths have become wrong gives its answer again.
fn answered_and_wrong_lengths<C: Channel>() {
    let mut lent = with(&[ccw(WRITE, 0, 0, 1)]);
    lent.keys.pop();
    for (status, number) in [(2, 0), (71, 71)] {
        let mut progress = [0; 32];
        progress[5] = status;
        let (mut after, kept) = (lent.clone(), progress);
        let packed = C::call(Function::Step, &mut after, request(), &mut progress);
        assert_eq!(packed, number << 48);
        assert!(after == lent && progress == kept);
    }
}

/// Makes one test for each case and each implementation.
macro_rules! for_each_channel {
    (@module $module:ident, $channel:ty: $($case:ident)*) => {
        mod $module {
            use super::*;
            $(
                #[test]
                fn $case() {
                    super::$case::<$channel>();
                }
            )*
        }
    };
    ($($case:ident)*) => {
        for_each_channel!(@module reference, Written: $($case)*);
        for_each_channel!(@module plain, ByFunctions<Plain>: $($case)*);
        for_each_channel!(@module proved, ByFunctions<Proved>: $($case)*);
    };
}

for_each_channel! {
    reads_and_writes
    tests_before_the_first
    grants
    addresses_of_ccws
    forbidden_ccws
    commands
    flags
    misplaced_transfers
    data_ranges
    short_devices
    forbidden_data
    many_units
    whole_units
    overwritten_ccws
    earlier_ccws_stand
    low_addresses
    wrong_progress
    wrong_settings
    answered
    changed_between_steps
    other_buffers_between_steps
    two_programs
    made_up_chaining
    answered_and_wrong_lengths
}

/// For a whole program: what the header asks for.
const STACK: usize = 64 * 1024;

/// For a step, of which the header says that it takes under 1 KB: the least that a thread can have,
/// some KB more than this number, and less than the 64 KB of the data.
const LEAST_STACK: usize = 16 * 1024;

/// Calls the proved channel in a thread with a stack of this length. If the call took more of it,
/// the process would end there.
fn in_a_thread(stack: usize, function: Function, mut lent: Lent) -> Reached {
    let call = move || {
        let mut progress = [0; 32];
        let progress = &mut progress;
        let packed = ByFunctions::<Proved>::call(function, &mut lent, request(), progress);
        reached(packed, progress)
    };
    let thread = thread::Builder::new().stack_size(stack).spawn(call);
    thread.expect("a thread").join().expect("an answer")
}

/// The usual state with these CCWs, 64K more of storage, and buffers for the greatest count.
fn with_most_data(ccws: &[[u8; 8]]) -> Lent {
    let mut lent = with(ccws);
    lent.storage.resize(131_072, 0);
    lent.keys.resize(64, 0x31);
    lent.from.resize(65_535, 0x77);
    lent.room.resize(66_000, 0x77);
    lent
}

/// A program with 128 transfers in channel, the most; and one with 127 before data of the greatest
/// count.
#[test]
fn stack_of_a_whole_program() {
    let mut lent = with(&[ccw(WRITE, 0, CHAIN, 1), ccw(TRANSFER, FIRST, 0, 0)]);
    lent.room.resize(300, 0xCC);
    let end = in_a_thread(STACK, Function::Whole, lent);
    assert_eq!((end.number, end.fetched, end.given), (74, 256, 128));

    for (command, bytes) in [(READ, (65_535, 127)), (WRITE, (0, 65_662))] {
        let mut ccws = Vec::new();
        for number in 1..=127 {
            ccws.push(ccw(WRITE, 0, CHAIN, 1));
            ccws.push(ccw(TRANSFER, FIRST + 16 * number, 0, 0));
        }
        ccws.push(ccw(command, 65_536, 0, 65_535));
        let end = in_a_thread(STACK, Function::Whole, with_most_data(&ccws));
        assert_eq!((end.number, end.fetched), (0, 255));
        assert_eq!((end.taken, end.given), bytes);
    }
}

/// A step with data of the greatest count.
#[test]
fn stack_of_a_step() {
    for (command, bytes) in [(READ, (65_535, 0)), (WRITE, (0, 65_535))] {
        let lent = with_most_data(&[ccw(command, 65_536, 0, 65_535)]);
        let end = in_a_thread(LEAST_STACK, Function::Step, lent);
        assert_eq!((end.number, end.fetched), (0, 1));
        assert_eq!((end.taken, end.given), bytes);
    }
}

/// The bytes of a CCW and its parts.
#[test]
fn parts_of_a_ccw() {
    let bytes = [0x12, 0x34, 0x56, 0x78, 0x40, 0xAB, 0xCD, 0xEF];
    let ccw = Ccw {
        command: 0x12,
        address: 0x34_5678,
        flags: 0x40,
        ignored: 0xAB,
        count: 0xCDEF,
    };
    assert_eq!((Ccw::from_bytes(bytes), ccw.to_bytes()), (ccw, bytes));
}
