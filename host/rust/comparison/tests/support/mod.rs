//! What the tests share: random numbers, lent state, random requests, recordings and programs of
//! a channel.

#![allow(dead_code)]

pub mod cases;
pub mod channels;
pub mod recordings;

use std::env;
use std::str::FromStr;

use storage_unit::{
    AccessKind, Answer, KeyInstruction, Processor, Reason, Request, Rule, Settings,
};
use storage_unit_comparison::Unit;

/// The number of 24-bit addresses.
pub const ADDRESSES_24: u32 = 16_777_216;

/// The largest storage.
pub const MAXIMUM_STORAGE: usize = 16_777_216;

/// A number from an environment variable, or a default.
pub fn from_environment<T: FromStr>(variable: &str, default: T) -> T {
    match env::var(variable) {
        Err(_) => default,
        Ok(text) => match text.replace('_', "").parse() {
            Ok(number) => number,
            Err(_) => panic!("{variable} is not a number: {text}"),
        },
    }
}

/// Random numbers by SplitMix64. The same seed gives the same numbers.
pub struct Random {
    state: u64,
}

impl Random {
    pub fn new(seed: u64) -> Random {
        Random { state: seed }
    }

    pub fn word64(&mut self) -> u64 {
        self.state = self.state.wrapping_add(0x9E37_79B9_7F4A_7C15);
        let mut mixed = self.state;
        mixed = (mixed ^ (mixed >> 30)).wrapping_mul(0xBF58_476D_1CE4_E5B9);
        mixed = (mixed ^ (mixed >> 27)).wrapping_mul(0x94D0_49BB_1331_11EB);
        mixed ^ (mixed >> 31)
    }

    pub fn word(&mut self) -> u32 {
        self.word64() as u32
    }

    pub fn byte(&mut self) -> u8 {
        self.word64() as u8
    }

    /// A number from 0 to `limit` - 1.
    pub fn below(&mut self, limit: u64) -> u64 {
        ((u128::from(self.word64()) * u128::from(limit)) >> 64) as u64
    }

    /// True once in `times` on average.
    pub fn one_in(&mut self, times: u64) -> bool {
        self.below(times) == 0
    }

    pub fn pick<T: Copy>(&mut self, choices: &[T]) -> T {
        choices[self.below(choices.len() as u64) as usize]
    }

    /// A number near `centre`, often very near.
    pub fn near(&mut self, centre: u32) -> u32 {
        let distance = self.pick(&[1, 8, 260, 260]);
        let number = i64::from(centre) + self.below(2 * distance + 1) as i64 - distance as i64;
        number.clamp(0, i64::from(u32::MAX)) as u32
    }

    pub fn fill(&mut self, bytes: &mut [u8]) {
        for chunk in bytes.chunks_mut(8) {
            let word = self.word64().to_le_bytes();
            chunk.copy_from_slice(&word[..chunk.len()]);
        }
    }

    pub fn bytes(&mut self, length: usize) -> Vec<u8> {
        let mut bytes = vec![0; length];
        self.fill(&mut bytes);
        bytes
    }
}

/// What an answer says without its values: completed, or the reason of the refusal.
pub type Outcome = Result<(), Reason>;

pub const COMPLETED: Outcome = Ok(());

pub fn outcome(answer: Answer) -> Outcome {
    answer.map(|_| ()).map_err(|refusal| refusal.reason)
}

/// Everything that is lent to the unit, with the settings.
#[derive(Clone, PartialEq, Eq)]
pub struct Lent {
    pub settings: Settings,
    pub storage: Vec<u8>,
    pub keys: Vec<u8>,
    pub processors: [Processor; 2],
}

impl Lent {
    pub fn request<U: Unit>(
        &mut self,
        processor: u32,
        request: &Request,
        buffer: &mut [u8],
    ) -> Answer {
        (U::REQUEST)(
            self.settings,
            &mut self.storage,
            &mut self.keys,
            &mut self.processors,
            processor,
            request,
            buffer,
        )
    }
}

/// The absolute address of a real address below 2^31.
pub fn absolute(real: u32, prefix: u32) -> u32 {
    match real / 4096 {
        0 => prefix + real,
        page if page == prefix / 4096 => real % 4096,
        _ => real,
    }
}

/// The rule for a real address below 2^31.
pub fn rule(real: u32, prefix: u32) -> Rule {
    match real / 4096 {
        0 => Rule::Zero,
        page if page == prefix / 4096 => Rule::Prefix,
        _ => Rule::Unchanged,
    }
}

/// The operand of a key instruction that designates its block, and the real address of
/// the block.
pub fn block_of(instruction: &KeyInstruction) -> (u32, u32) {
    match *instruction {
        KeyInstruction::Isk { r2: operand, .. }
        | KeyInstruction::Ssk { r2: operand, .. }
        | KeyInstruction::Rrb { address: operand } => (operand, operand & 0x00FF_F800),
        KeyInstruction::Iske { r2: operand, .. }
        | KeyInstruction::Sske { r2: operand, .. }
        | KeyInstruction::Rrbe { r2: operand } => (operand, operand & 0x7FFF_F000),
    }
}

/// The rule that a completed request of a processor with this prefix carries.
pub fn rule_carried(request: &Request, prefix: u32) -> Option<Rule> {
    match request {
        Request::Access { address, .. } => Some(rule(*address, prefix)),
        Request::Key(instruction) => Some(rule(block_of(instruction).1, prefix)),
        Request::Prefix(_) => None,
    }
}

/// PSW keys and access-control bits are taken from a few values, so that they are
/// often equal.
pub fn random_access_key(random: &mut Random) -> u8 {
    match random.below(8) {
        0..=2 => 0,
        3..=6 => random.pick(&[3, 8, 15]),
        _ => random.below(16) as u8,
    }
}

/// A key byte, with bit 7 on in half of the cases.
pub fn random_key(random: &mut Random) -> u8 {
    random_access_key(random) << 4 | random.below(16) as u8
}

/// A prefix that is valid for a storage of this length.
pub fn random_prefix(random: &mut Random, storage_length: usize) -> u32 {
    let pages = storage_length as u64 / 4096;
    let page = match random.below(8) {
        0..=1 => 0,
        2 => 1,
        3 => 2,
        4 => pages - 1,
        _ => random.below(pages),
    };
    (page.min(pages - 1) * 4096) as u32
}

/// A record that is valid for a storage of this length.
pub fn random_processor(random: &mut Random, storage_length: usize) -> Processor {
    Processor {
        psw_key: random_access_key(random),
        problem: random.one_in(8),
        low_protection: random.one_in(2),
        key_control: !random.one_in(4),
        prefix: random_prefix(random, storage_length),
        code: random.below(4) as u8,
    }
}

/// Puts a value that no processor has into one field of a record.
pub fn damage(random: &mut Random, processor: &mut Processor, storage_length: usize) {
    match random.below(3) {
        0 => processor.psw_key = random.pick(&[16, 17, 128, 255]),
        1 => processor.code = random.pick(&[4, 5, 128, 255]),
        _ => {
            let length = storage_length as u32;
            processor.prefix = match random.below(6) {
                0 => length,
                1 => length.saturating_add(4096 * random.below(16) as u32),
                2 => processor.prefix | (1 << random.below(12)),
                3 => processor.prefix | (1 << (24 + random.below(8))),
                4 => 0xFFFF_F000,
                _ => random.word() | 1,
            }
        }
    }
}

/// Whether line 65 lets this record pass.
pub fn is_valid(processor: &Processor, storage_length: usize) -> bool {
    processor.psw_key <= 15
        && processor.code <= 3
        && processor.prefix.is_multiple_of(4096)
        && (processor.prefix as usize) < storage_length
}

/// What a random request is aimed at.
#[derive(Clone, Copy)]
pub struct Aim {
    pub settings: Settings,
    pub storage_length: u32,
    pub own_prefix: u32,
    pub other_prefix: u32,
}

impl Aim {
    /// The aim of a request by this processor. The number can be a wrong one.
    pub fn new(
        settings: Settings,
        storage_length: usize,
        processors: &[Processor; 2],
        processor: u32,
    ) -> Aim {
        let own = usize::from(processor == 1);
        Aim {
            settings,
            storage_length: storage_length as u32,
            own_prefix: processors[own].prefix,
            other_prefix: processors[1 - own].prefix,
        }
    }
}

/// A real address, often near an edge.
pub fn random_address(random: &mut Random, aim: &Aim) -> u32 {
    let length = aim.storage_length;
    match random.below(20) {
        0..=1 => random.below(600) as u32,
        2 => random.near(512),
        3 => random.near(4096),
        4 => random.near(aim.own_prefix),
        5 => aim.own_prefix.saturating_add(random.below(600) as u32),
        6 => random.near(aim.own_prefix.saturating_add(2048)),
        7 => random.near(aim.own_prefix.saturating_add(4096)),
        8 => random.near(aim.other_prefix),
        9 => random.near(length),
        10 => random.near(ADDRESSES_24),
        11..=13 => {
            let unit = aim.settings.key_unit() as u32;
            let boundary = random.below(u64::from(length / unit).max(1)) as u32 * unit;
            random.near(boundary)
        }
        14..=17 => random.below(u64::from(length.max(1))) as u32,
        18 => random.below(u64::from(ADDRESSES_24)) as u32,
        _ if random.one_in(4) => random.word(),
        _ => random.below(u64::from(length.max(1))) as u32,
    }
}

/// The count of an access, sometimes a wrong one.
pub fn random_count(random: &mut Random) -> u32 {
    match random.below(40) {
        0 => 0,
        1 => 257,
        2 if random.one_in(2) => random.word(),
        2..=6 => 1,
        7..=9 => 2,
        10..=12 => random.pick(&[4, 8, 16]),
        13..=15 => 256,
        16 => 255,
        _ => 1 + random.below(256) as u32,
    }
}

/// Any of the ten operations with operands for this aim.
pub fn random_request(random: &mut Random, aim: &Aim) -> Request {
    match random.below(40) {
        0..=9 => access(random, aim, AccessKind::Fetch),
        10..=19 => access(random, aim, AccessKind::Store),
        20..=22 => Request::isk(random.word(), register_for_2k_block(random, aim)),
        23..=25 => Request::ssk(
            register_with_key(random),
            register_for_2k_block(random, aim),
        ),
        26..=28 => Request::rrb(random_address(random, aim)),
        29..=30 => Request::iske(random.word(), register_for_4k_block(random, aim)),
        31..=32 => Request::sske(
            register_with_key(random),
            register_for_4k_block(random, aim),
        ),
        33..=34 => Request::rrbe(register_for_4k_block(random, aim)),
        35..=37 => Request::set_prefix(word_with_prefix(random, aim)),
        _ => Request::store_prefix(),
    }
}

fn access(random: &mut Random, aim: &Aim, kind: AccessKind) -> Request {
    Request::Access {
        kind,
        address: random_address(random, aim),
        count: random_count(random),
    }
}

/// R1 of SSK and SSKE: the bits that are not part of the key are random.
fn register_with_key(random: &mut Random) -> u32 {
    let key = random_key(random);
    random.word() & 0xFFFF_FF00 | u32::from(key)
}

/// R2 of ISK and SSK: bits 0-7 and 21-27 are often not zero, bits 28-31 rarely.
fn register_for_2k_block(random: &mut Random, aim: &Aim) -> u32 {
    let mut register = random_address(random, aim) & 0xFFFF_F800;
    if random.one_in(2) {
        register |= random.word() & 0x0000_07F0;
    }
    if random.one_in(4) {
        register |= random.word() & 0xFF00_0000;
    }
    if random.one_in(8) {
        register |= 1 << random.below(4);
    }
    register
}

/// R2 of the extended instructions: bits 0 and 20-31 are often not zero, bits 1-7
/// rarely.
fn register_for_4k_block(random: &mut Random, aim: &Aim) -> u32 {
    let mut register = random_address(random, aim) & 0xFFFF_F000;
    if random.one_in(2) {
        register |= random.word() & 0x0000_0FFF;
    }
    if random.one_in(4) {
        register |= 0x8000_0000;
    }
    if random.one_in(12) {
        register |= 1 << (24 + random.below(7));
    }
    register
}

/// The word of SET PREFIX: bits 0-7 and 20-31 are often not zero.
fn word_with_prefix(random: &mut Random, aim: &Aim) -> u32 {
    let mut word = match random.below(6) {
        0 => random_address(random, aim) & 0x00FF_F000,
        1 => aim.storage_length & 0x00FF_F000,
        2 => aim.other_prefix & 0x00FF_F000,
        _ => random_prefix(random, (aim.storage_length as usize).max(4096)),
    };
    if random.one_in(2) {
        word |= random.word() & 0xFF00_0FFF;
    }
    word
}

/// Fills the buffer for a request: of the right length, longer, or too short. The
/// requests that use no buffer get one now and then, to see that it stays.
pub fn random_buffer(random: &mut Random, request: &Request, buffer: &mut Vec<u8>) {
    let length = match *request {
        Request::Access { count, .. } => {
            let needed = u64::from(count.min(300));
            match random.below(20) {
                0 => needed.saturating_sub(1),
                1 if random.one_in(2) => random.below(needed.max(1)),
                1..=6 => needed + 1 + random.below(64),
                7 => needed + random.below(600),
                _ => needed,
            }
        }
        _ if random.one_in(4) => random.below(32),
        _ => 0,
    };
    buffer.clear();
    buffer.resize(length as usize, 0);
    random.fill(buffer);
}
