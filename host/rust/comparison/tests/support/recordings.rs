//! Recordings: the bytes of each record, random recordings, whole and damaged, and counts of what
//! came up in them.

use std::collections::BTreeMap;

use storage_unit::boundary::encode_request;
use storage_unit::{AccessKind, Machine, PrefixInstruction, Request};
use storage_unit_comparison::numbers::number;
use storage_unit_comparison::player::Run;

use super::{Aim, Random, random_request};

pub const FETCH: u16 = 1;
pub const STORE: u16 = 2;
pub const KEY: u16 = 3;
pub const PREFIX: u16 = 4;
pub const REMARK: u16 = 255;

/// A record: the length, the kind, and what stands behind it.
pub fn record(kind: u16, body: &[u8]) -> Vec<u8> {
    let length = 2 + body.len() as u16;
    [&length.to_le_bytes(), &kind.to_le_bytes(), body].concat()
}

pub fn fetch(processor: u8, address: u32, length: u16) -> Vec<u8> {
    let (address, length) = (address.to_le_bytes(), length.to_le_bytes());
    record(FETCH, &[&[processor][..], &address, &length].concat())
}

pub fn store(processor: u8, address: u32, length: u16, data: &[u8]) -> Vec<u8> {
    let (address, length) = (address.to_le_bytes(), length.to_le_bytes());
    record(STORE, &[&[processor][..], &address, &length, data].concat())
}

pub fn key(processor: u8, instruction: u8, r1: u32, r2: u32) -> Vec<u8> {
    let (r1, r2) = (r1.to_le_bytes(), r2.to_le_bytes());
    record(KEY, &[&[processor, instruction][..], &r1, &r2].concat())
}

pub fn prefix(processor: u8, operation: u8, word: u32) -> Vec<u8> {
    let word = word.to_le_bytes();
    record(PREFIX, &[&[processor, operation][..], &word].concat())
}

pub fn remark(length: usize) -> Vec<u8> {
    record(REMARK, &vec![0x01; length])
}

/// The record of a request. Words that are ignored are random, and so are the data of a store.
/// A length that no record has is made one that the unit refuses.
fn request(random: &mut Random, processor: u8, request: &Request) -> Vec<u8> {
    let (operation, first, second) = encode_request(request);
    match *request {
        Request::Access {
            kind,
            address,
            count,
        } => match kind {
            AccessKind::Fetch => fetch(processor, address, count as u16),
            AccessKind::Store => {
                let count = if count > 503 { 503 } else { count as u16 };
                store(processor, address, count, &random.bytes(count.into()))
            }
        },
        Request::Key(_) => {
            let instruction = operation as u8 - 2;
            let ignores_r1 = matches!(instruction, 2 | 5);
            let r1 = if ignores_r1 { random.word() } else { first };
            key(processor, instruction, r1, second)
        }
        Request::Prefix(PrefixInstruction::SetPrefix { word }) => prefix(processor, 0, word),
        Request::Prefix(PrefixInstruction::StorePrefix) => prefix(processor, 1, random.word()),
    }
}

/// A record, now and then a bad one.
fn random_record(random: &mut Random, machine: &Machine) -> Vec<u8> {
    let processor = match random.below(40) {
        0 => 2,
        1 => 255,
        2 => random.byte(),
        number => (number % 2) as u8,
    };
    match random.below(40) {
        0..=3 => {
            let short = random.below(20) as usize;
            let length = random.pick(&[0, 1, 255, 256, short, short]);
            record(REMARK, &random.bytes(length))
        }
        4 => {
            let length = random.pick(&[0, 256, 257, 503]);
            store(
                processor,
                random.word() % 65_536,
                length,
                &random.bytes(length.into()),
            )
        }
        5 if random.one_in(2) => bad_record(random, processor),
        _ => {
            let aim = Aim::new(
                machine.settings,
                machine.storage.len(),
                &machine.processors,
                processor.into(),
            );
            let asked = random_request(random, &aim);
            request(random, processor, &asked)
        }
    }
}

/// A bad record, but for what stands behind it: then a record of another kind may be a good one.
fn bad_record(random: &mut Random, processor: u8) -> Vec<u8> {
    match random.below(8) {
        0 => key(processor, random.pick(&[6, 7, 255]), random.word(), 0),
        1 => prefix(processor, random.pick(&[2, 3, 255]), random.word()),
        2 => record(REMARK, &random.bytes(257)),
        3 => store(processor, 0, 504, &random.bytes(504)),
        4 => {
            let length = random.pick(&[0u16, 1, 2, 512, 513, 65_535]);
            [&length.to_le_bytes()[..], &random.bytes(520)].concat()
        }
        5 => {
            let length = random.pick(&[510, 511]);
            record(random.pick(&[FETCH, STORE, REMARK]), &random.bytes(length))
        }
        6 => record(random.byte().into(), &random.bytes(7)),
        _ => {
            let kind = random.pick(&[0, 5, 16, 254, 256, 257, 258, 0x01FF, 0xFFFF]);
            let length = random.pick(&[0, 6, 7, 10]);
            record(kind, &random.bytes(length))
        }
    }
}

/// What was done to a recording after it was made.
#[derive(Clone, Copy, Debug)]
pub enum Damage {
    None,
    /// Cut short at any byte.
    Cut,
    /// The length of this record, from 0, is one under.
    Under(usize),
    /// The length of this record, from 0, is one over.
    Over(usize),
    /// The length of this record's data or of its fetch, from 0, is one under or one over.
    Data(usize),
    /// Any byte is another.
    Byte,
    /// Any byte is missing.
    Missing,
    /// Bytes stand behind it.
    Behind,
}

/// A recording of up to seven records for a machine in this state, and what was done to it.
pub fn random_recording(random: &mut Random, machine: &Machine) -> (Vec<u8>, Damage) {
    let mut starts = Vec::new();
    let mut recording = Vec::new();
    for _ in 0..random.below(8) {
        starts.push(recording.len());
        recording.extend(random_record(random, machine));
    }
    let damage = damaged(random, &mut recording, &starts);
    (recording, damage)
}

/// Damages a recording whose records start at these places, in one of three cases.
fn damaged(random: &mut Random, recording: &mut Vec<u8>, starts: &[usize]) -> Damage {
    if recording.is_empty() || !random.one_in(3) {
        return Damage::None;
    }
    let place = random.below(recording.len() as u64) as usize;
    let hit = random.below(starts.len() as u64) as usize;
    let start = starts[hit];
    match random.below(8) {
        0 | 1 => {
            recording.truncate(place);
            Damage::Cut
        }
        2 => {
            add(&mut recording[start..], u16::MAX);
            Damage::Under(hit)
        }
        3 => {
            add(&mut recording[start..], 1);
            Damage::Over(hit)
        }
        4 => {
            if let Some(length) = recording.get_mut(start + 9..start + 11) {
                add(length, random.pick(&[1, u16::MAX]));
            }
            Damage::Data(hit)
        }
        5 => {
            recording[place] = random.byte();
            Damage::Byte
        }
        6 => {
            recording.remove(place);
            Damage::Missing
        }
        _ => {
            let length = random.pick(&[1, 2, 3, 600]);
            recording.extend(random.bytes(length));
            Damage::Behind
        }
    }
}

/// Adds to the number in the first two bytes.
fn add(bytes: &mut [u8], number: u16) {
    let sum = u16::from_le_bytes([bytes[0], bytes[1]]).wrapping_add(number);
    bytes[..2].copy_from_slice(&sum.to_le_bytes());
}

/// How often each case came up: its name and its number.
#[derive(Default)]
pub struct Cases(BTreeMap<(&'static str, usize), u64>);

/// Cases that must come up in random recordings, whatever the machine.
pub const NEEDED: [(&str, &[usize]); 14] = [
    ("records in all", &[0, 1, 7]),
    ("length", &[0, 1, 2, 512, 513]),
    ("kind", &[0, 1, 2, 3, 4, 5, 16, 254, 255, 256, 257]),
    ("fetch of", &[0, 1, 256, 257]),
    ("store of", &[0, 1, 256, 257, 503, 504]),
    ("processor", &[0, 1, 2, 255]),
    ("instruction", &[0, 1, 2, 3, 4, 5, 6]),
    ("operation", &[0, 1, 2]),
    ("remark of", &[0, 256, 257]),
    (
        "cut behind byte",
        &[1, 2, 3, 4, 5, 6, 7, 8, 9, 10, 11, 12, 13, 14],
    ),
    ("one under in record", &[0, 1, 2]),
    ("one over in record", &[0, 1, 2]),
    ("data one off in record", &[0, 1, 2]),
    ("number", &[0, 5, 6, 65, 66]),
];

impl Cases {
    pub fn add(&mut self, name: &'static str, number: usize) {
        *self.0.entry((name, number)).or_default() += 1;
    }

    /// Each of these cases has come up. Gives a line for each name, with how often.
    pub fn check(&self, needed: &[(&'static str, &[usize])]) -> String {
        let mut table = String::new();
        for &(name, numbers) in needed {
            table += name;
            for &number in numbers {
                let times = self.0.get(&(name, number)).copied().unwrap_or(0);
                assert!(times > 0, "{name} {number} never came up");
                table += &format!(" {number}: {times},");
            }
            table += "\n";
        }
        table
    }

    /// Counts what came up in a recording, as far as it was played, and gives the places where
    /// its good records end.
    pub fn count(&mut self, recording: &[u8], damage: Damage, run: &Run) -> Vec<usize> {
        let mut ends = Vec::new();
        let mut start = 0;
        let good = run.records - u64::from(run.fault.is_some());
        for _ in 0..good {
            start += self.record(&recording[start..]);
            ends.push(start);
        }
        if run.fault.is_some() {
            self.record(&recording[start..]);
        }
        self.add("records in all", run.records as usize);
        for answer in &run.answers {
            self.add("number", number(*answer).into());
        }
        let (name, hit) = match damage {
            Damage::Under(hit) => ("one under in record", hit),
            Damage::Over(hit) => ("one over in record", hit),
            Damage::Data(hit) => ("data one off in record", hit),
            _ => return ends,
        };
        if (hit as u64) < run.records {
            self.add(name, hit);
        }
        ends
    }

    /// Counts what the first record of these bytes has, good or bad, and gives the number of its
    /// bytes.
    fn record(&mut self, bytes: &[u8]) -> usize {
        let number = |place: usize| match bytes.get(place..place + 2) {
            Some(&[low, high]) => Some(usize::from(low) + 256 * usize::from(high)),
            _ => None,
        };
        let Some(length) = number(0) else {
            self.add("cut behind byte", bytes.len());
            return bytes.len();
        };
        self.add("length", length);
        if bytes.len() < 2 + length {
            self.add("cut behind byte", bytes.len().min(14));
            return bytes.len();
        }
        let Some(kind) = number(2).filter(|_| length >= 2) else {
            return 2 + length;
        };
        self.add("kind", kind);
        let (processor, operand) = (bytes.get(4), bytes.get(5));
        let (operation, access) = (operand.copied().map_or(0, usize::from), number(9));
        match (kind, access, length) {
            (1, Some(access), 9) => self.add("fetch of", access),
            (2, Some(access), _) if access + 9 == length => self.add("store of", access),
            (3, _, 12) => self.add("instruction", operation),
            (4, _, 8) => self.add("operation", operation),
            (255, _, _) => self.add("remark of", length - 2),
            _ => {}
        }
        if let (1..=4, Some(processor)) = (kind, processor) {
            self.add("processor", usize::from(*processor));
        }
        2 + length
    }
}
