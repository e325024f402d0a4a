//! Nanoseconds per request of the proved unit and of the plain implementation.
//!
//! Each row is a kind of request. Its batches are new in each round: random addresses over
//! 256 units of 2K, or 128 of 4K, random lengths and splits where the row says so, and random
//! reference and change bits, so that the processor cannot learn the branches. All contenders
//! get the same batch, one after the other, from the same state, and the order changes from
//! round to round. A ratio is the median over the rounds of the ratio within a round.
//!
//! Run it with `cargo run --release --example bench`. `STORAGE_UNIT_RUNS` sets how many times
//! all rows are measured: then medians are printed, and the least and the greatest ratio.
//! `STORAGE_UNIT_ROUNDS` sets the number of rounds, `STORAGE_UNIT_BATCH` the number of requests
//! in a batch, `STORAGE_UNIT_SEED` the seed, and `STORAGE_UNIT_ROWS` a text that the names of the
//! rows contain.

use std::env;
use std::hint::black_box;
use std::str::FromStr;
use std::time::Instant;

use storage_unit::boundary::{
    self, RawFetch, RawRequest, RawStore, storage_unit_fetch, storage_unit_request,
    storage_unit_store,
};
use storage_unit::{AccessKind, Processor, Request, Settings};
use storage_unit_comparison::plain::{
    self, storage_unit_fetch_plain, storage_unit_request_plain, storage_unit_store_plain,
};

/// Storage and keys stay in the second-level cache, which shows the cost of the code.
const STORAGE_LENGTH: u32 = 524_288;
const PREFIX: u32 = 65_536;
const PSW_KEY: u8 = 8;

const COMPLETED: u16 = 0;
const PRIVILEGED: u16 = 2;
const PROTECTION: u16 = 4;
const ADDRESSING: u16 = 5;
const OPERAND: u16 = 66;

/// A generator of random numbers (xorshift); its state is never 0.
struct Random(u64);

impl Random {
    fn below(&mut self, bound: u32) -> u32 {
        self.0 ^= self.0 << 13;
        self.0 ^= self.0 >> 7;
        self.0 ^= self.0 << 17;
        ((self.0 >> 32) % u64::from(bound)) as u32
    }
}

/// Where an access lies.
#[derive(Clone, Copy)]
enum Place {
    OneUnit,
    TwoUnits,
    Anywhere,
    LowAddresses,
    Outside,
}

/// A key instruction with its R1 and R2, or address.
type Instruction = fn(u32, u32) -> Request;

/// A kind of request.
#[derive(Clone, Copy)]
enum Ask {
    /// An access with a length from the first number to the second.
    Access(AccessKind, u32, u32, Place),
    /// A key instruction with any R1 and any block.
    Key(Instruction),
    SetPrefix,
    StorePrefix,
}

/// A row of the table.
struct Row {
    name: String,
    four_k: bool,
    ask: Ask,
    own: Processor,
    /// The access-control and fetch-protection bits of every key, and those bits that are random.
    key: u8,
    random_key: u8,
    /// The two numbers that its requests may be answered with.
    numbers: [u16; 2],
}

impl Row {
    fn new(name: &str, ask: Ask) -> Row {
        Row {
            name: name.to_string(),
            four_k: false,
            ask,
            own: Processor {
                psw_key: PSW_KEY,
                key_control: true,
                prefix: PREFIX,
                ..Processor::default()
            },
            key: PSW_KEY << 4,
            random_key: 0x06,
            numbers: [COMPLETED; 2],
        }
    }

    fn settings(&self) -> Settings {
        Settings {
            four_k: self.four_k,
            extensions: true,
        }
    }

    fn request(&self, random: &mut Random) -> Request {
        match self.ask {
            Ask::Access(kind, least, greatest, place) => {
                let count = least + random.below(greatest - least + 1);
                let address = self.address(place, count, random);
                Request::Access {
                    kind,
                    address,
                    count,
                }
            }
            Ask::Key(instruction) => {
                let r1 = random.below(u32::MAX);
                let block = random.below(STORAGE_LENGTH) & !0xF;
                instruction(r1, block)
            }
            Ask::SetPrefix => Request::set_prefix(random.below(STORAGE_LENGTH)),
            Ask::StorePrefix => Request::store_prefix(),
        }
    }

    fn address(&self, place: Place, count: u32, random: &mut Random) -> u32 {
        let unit = self.settings().key_unit() as u32;
        let units = STORAGE_LENGTH / unit;
        match place {
            Place::OneUnit => random.below(units) * unit + random.below(unit - count + 1),
            Place::TwoUnits => (random.below(units - 1) + 1) * unit - 1 - random.below(count - 1),
            Place::Anywhere => random.below(STORAGE_LENGTH - count + 1),
            Place::LowAddresses => random.below(512),
            Place::Outside => STORAGE_LENGTH + random.below(STORAGE_LENGTH),
        }
    }
}

fn accesses(rows: &mut Vec<Row>, name: &str, kind: AccessKind) {
    let mut add = |four_k: bool, what: &str, least: u32, greatest: u32, place: Place| {
        rows.push(Row {
            four_k,
            ..Row::new(
                &format!("{name} {what}"),
                Ask::Access(kind, least, greatest, place),
            )
        });
    };
    for count in [1, 4, 8, 15, 16, 64, 255, 256] {
        add(false, &count.to_string(), count, count, Place::OneUnit);
    }
    add(false, "1 to 16", 1, 16, Place::OneUnit);
    add(false, "1 to 256", 1, 256, Place::OneUnit);
    add(false, "1 to 16, at any place", 1, 16, Place::Anywhere);
    add(false, "1 to 256, at any place", 1, 256, Place::Anywhere);
    add(false, "2 to 16, two units", 2, 16, Place::TwoUnits);
    add(false, "2 to 256, two units", 2, 256, Place::TwoUnits);
    add(false, "256, two units", 256, 256, Place::TwoUnits);
    add(true, "1 to 16, 4K", 1, 16, Place::OneUnit);
    add(true, "1 to 256, 4K, at any place", 1, 256, Place::Anywhere);
    add(true, "2 to 256, 4K, two units", 2, 256, Place::TwoUnits);
}

fn refusals(rows: &mut Vec<Row>) {
    let access = |name: &str, kind, place| Row::new(name, Ask::Access(kind, 1, 16, place));
    let (fetch, store) = (AccessKind::Fetch, AccessKind::Store);
    for (name, kind, key) in [
        ("fetch 1 to 16, refused by the key", fetch, 0x98),
        ("store 1 to 16, refused by the key", store, 0x90),
    ] {
        rows.push(Row {
            key,
            numbers: [PROTECTION; 2],
            ..access(name, kind, Place::OneUnit)
        });
    }
    for (name, kind) in [
        ("fetch 1 to 16, random keys", fetch),
        ("store 1 to 16, random keys", store),
    ] {
        rows.push(Row {
            random_key: 0x1E,
            numbers: [COMPLETED, PROTECTION],
            ..access(name, kind, Place::OneUnit)
        });
    }
    let low = "store 1 to 16, refused by low-address protection";
    rows.push(Row {
        own: Processor {
            low_protection: true,
            ..access(low, store, Place::LowAddresses).own
        },
        numbers: [PROTECTION; 2],
        ..access(low, store, Place::LowAddresses)
    });
    rows.push(Row {
        numbers: [ADDRESSING; 2],
        ..access("fetch 1 to 16, outside storage", fetch, Place::Outside)
    });
    rows.push(Row {
        numbers: [OPERAND; 2],
        ..Row::new("fetch 0", Ask::Access(fetch, 0, 0, Place::Anywhere))
    });
}

fn key_instructions(rows: &mut Vec<Row>) {
    let instructions: [(&str, Instruction); 6] = [
        ("ISK", Request::isk),
        ("SSK", Request::ssk),
        ("RRB", |_, address| Request::rrb(address)),
        ("ISKE", Request::iske),
        ("SSKE", Request::sske),
        ("RRBE", |_, r2| Request::rrbe(r2)),
    ];
    for four_k in [false, true] {
        for (name, instruction) in instructions {
            let facility = if four_k { ", 4K" } else { "" };
            rows.push(Row {
                four_k,
                ..Row::new(&format!("{name}{facility}"), Ask::Key(instruction))
            });
        }
    }
    let iske = Row::new(
        "ISKE, refused in problem state",
        Ask::Key(instructions[3].1),
    );
    rows.push(Row {
        own: Processor {
            problem: true,
            ..iske.own
        },
        numbers: [PRIVILEGED; 2],
        ..iske
    });
    rows.push(Row::new("SET PREFIX", Ask::SetPrefix));
    rows.push(Row::new("STORE PREFIX", Ask::StorePrefix));
}

fn rows() -> Vec<Row> {
    let mut rows = Vec::new();
    accesses(&mut rows, "fetch", AccessKind::Fetch);
    accesses(&mut rows, "store", AccessKind::Store);
    refusals(&mut rows);
    key_instructions(&mut rows);
    rows
}

/// The requests of a round, the state that each batch starts from, and what it works on.
struct Machine {
    settings: Settings,
    requests: Vec<Request>,
    encoded: Vec<(u32, u32, u32)>,
    start_keys: Vec<u8>,
    start_processors: [Processor; 2],
    numbers: [u16; 2],
    storage: Vec<u8>,
    keys: Vec<u8>,
    processors: [Processor; 2],
    records: [u8; boundary::RECORDS_LENGTH],
    buffer: [u8; 256],
}

impl Machine {
    fn new(row: &Row, count: usize, random: &mut Random) -> Machine {
        let settings = row.settings();
        let requests: Vec<Request> = (0..count).map(|_| row.request(random)).collect();
        let start_keys = (0..settings.key_count(STORAGE_LENGTH as usize))
            .map(|_| row.key ^ (random.below(32) as u8 & row.random_key))
            .collect();
        Machine {
            settings,
            encoded: requests.iter().map(boundary::encode_request).collect(),
            requests,
            start_keys,
            start_processors: [row.own, Processor::default()],
            numbers: row.numbers,
            storage: vec![0x5A; STORAGE_LENGTH as usize],
            keys: Vec::new(),
            processors: [Processor::default(); 2],
            records: [0; boundary::RECORDS_LENGTH],
            buffer: [0xA5; 256],
        }
    }

    /// Nanoseconds per request of a batch that `run` carries out from the start. It gives
    /// the number of answers that the row does not expect.
    fn time(&mut self, run: impl FnOnce(&mut Machine) -> usize) -> f64 {
        self.keys.clone_from(&self.start_keys);
        self.processors = self.start_processors;
        self.records = boundary::encode_processors(&self.start_processors);
        let start = Instant::now();
        let other = run(self);
        let elapsed = start.elapsed();
        assert_eq!(other, 0, "answers of another number");
        elapsed.as_nanos() as f64 / self.requests.len() as f64
    }

    fn unexpected(&self, number: u16) -> usize {
        usize::from(number != self.numbers[0] && number != self.numbers[1])
    }
}

/// A way to make requests: a batch, from the start of its machine. `None` where it does not
/// take such requests.
type Contender = fn(&mut Machine) -> Option<f64>;

/// By a C function with thirteen parameters.
#[inline(always)]
fn by_request(machine: &mut Machine, function: RawRequest) -> Option<f64> {
    let settings = boundary::encode_settings(machine.settings);
    Some(machine.time(|machine| {
        let mut other = 0;
        for &(operation, first, second) in &machine.encoded {
            // SAFETY: the function keeps to the bytes it is given, which do not overlap.
            let packed = unsafe {
                function(
                    settings,
                    machine.storage.as_mut_ptr(),
                    machine.storage.len(),
                    machine.keys.as_mut_ptr(),
                    machine.keys.len(),
                    machine.records.as_mut_ptr(),
                    machine.records.len(),
                    0,
                    operation,
                    first,
                    second,
                    machine.buffer.as_mut_ptr(),
                    machine.buffer.len(),
                )
            };
            other += machine.unexpected(boundary::packed_number(packed));
        }
        other
    }))
}

/// By C functions for fetch and store alone.
#[inline(always)]
fn by_access(machine: &mut Machine, fetch: RawFetch, store: RawStore) -> Option<f64> {
    let settings = boundary::encode_settings(machine.settings);
    let record = boundary::record_value(&machine.start_processors[0]);
    let kind = access_kind(machine)?;
    Some(machine.time(|machine| {
        let mut other = 0;
        for &(_, address, count) in &machine.encoded {
            let storage = machine.storage.as_mut_ptr();
            let bytes = machine.buffer.as_mut_ptr();
            let (lengths, keys) = (
                (machine.storage.len(), machine.keys.len()),
                machine.keys.as_mut_ptr(),
            );
            // SAFETY: as above.
            let packed = unsafe {
                match kind {
                    AccessKind::Fetch => fetch(
                        settings,
                        storage,
                        lengths.0,
                        keys,
                        lengths.1,
                        record,
                        address,
                        bytes,
                        count as usize,
                    ),
                    AccessKind::Store => store(
                        settings,
                        storage,
                        lengths.0,
                        keys,
                        lengths.1,
                        record,
                        address,
                        bytes,
                        count as usize,
                    ),
                }
            };
            other += machine.unexpected(boundary::packed_number(packed));
        }
        other
    }))
}

fn access_kind(machine: &Machine) -> Option<AccessKind> {
    match machine.requests[0] {
        Request::Access { kind, .. } => Some(kind),
        _ => None,
    }
}

fn proved_request(machine: &mut Machine) -> Option<f64> {
    by_request(machine, storage_unit_request)
}

fn plain_request(machine: &mut Machine) -> Option<f64> {
    by_request(machine, storage_unit_request_plain)
}

fn proved_access(machine: &mut Machine) -> Option<f64> {
    by_access(machine, storage_unit_fetch, storage_unit_store)
}

fn plain_access(machine: &mut Machine) -> Option<f64> {
    by_access(machine, storage_unit_fetch_plain, storage_unit_store_plain)
}

/// The plain implementation called with Rust's types: an access by its function for fetch
/// or store.
fn plain_typed(machine: &mut Machine) -> Option<f64> {
    let kind = access_kind(machine);
    Some(machine.time(|machine| {
        let mut other = 0;
        for (request, &(_, address, count)) in machine.requests.iter().zip(&machine.encoded) {
            let answer = match kind {
                Some(AccessKind::Fetch) => plain::fetch(
                    machine.settings,
                    &machine.storage,
                    &mut machine.keys,
                    &machine.processors[0],
                    address,
                    &mut machine.buffer[..count as usize],
                ),
                Some(AccessKind::Store) => plain::store(
                    machine.settings,
                    &mut machine.storage,
                    &mut machine.keys,
                    &machine.processors[0],
                    address,
                    &machine.buffer[..count as usize],
                ),
                None => plain::request(
                    machine.settings,
                    &mut machine.storage,
                    &mut machine.keys,
                    &mut machine.processors,
                    0,
                    request,
                    &mut machine.buffer,
                ),
            };
            other += machine.unexpected(black_box(answer).number());
        }
        other
    }))
}

const CONTENDERS: [Contender; 5] = [
    proved_request,
    plain_request,
    proved_access,
    plain_access,
    plain_typed,
];

/// The ratios that are printed: two contenders.
const RATIOS: [(usize, usize); 3] = [(0, 1), (2, 3), (2, 4)];

#[derive(Clone, Default)]
struct Measured {
    times: [Vec<f64>; CONTENDERS.len()],
    ratios: [Vec<f64>; RATIOS.len()],
}

fn median(values: &mut [f64]) -> Option<f64> {
    values.sort_by(f64::total_cmp);
    values.get(values.len() / 2).copied()
}

/// Measures a row once, and adds the medians of the rounds.
fn measure(row: &Row, rounds: usize, count: usize, random: &mut Random, sum: &mut Measured) {
    let mut one = Measured::default();
    for round in 0..rounds {
        let mut machine = Machine::new(row, count, random);
        let mut times = [None; CONTENDERS.len()];
        for turn in 0..CONTENDERS.len() {
            let index = (turn + round) % CONTENDERS.len();
            let index = if round % 2 == 0 {
                index
            } else {
                CONTENDERS.len() - 1 - index
            };
            times[index] = CONTENDERS[index](&mut machine);
        }
        for (all, time) in one.times.iter_mut().zip(times) {
            all.extend(time);
        }
        for (all, (over, under)) in one.ratios.iter_mut().zip(RATIOS) {
            all.extend(
                times[over]
                    .zip(times[under])
                    .map(|(over, under)| over / under),
            );
        }
    }
    let pairs = sum.times.iter_mut().zip(&mut one.times);
    for (all, times) in pairs.chain(sum.ratios.iter_mut().zip(&mut one.ratios)) {
        all.extend(median(times));
    }
}

/// Medians of the runs; of ratios the least and the greatest too, where there are several.
fn print_row(row: &Row, measured: &mut Measured) {
    print!("| {} ", row.name);
    for times in &mut measured.times {
        match median(times) {
            Some(time) => print!("| {time:.1} "),
            None => print!("| "),
        }
    }
    for ratios in &mut measured.ratios {
        match median(ratios) {
            Some(ratio) if ratios.len() > 1 => print!(
                "| {ratio:.2} ({:.2} to {:.2}) ",
                ratios[0],
                ratios[ratios.len() - 1]
            ),
            Some(ratio) => print!("| {ratio:.2} "),
            None => print!("| "),
        }
    }
    println!("|");
}

/// The value of an environment variable, or what is usual.
fn setting<T: FromStr>(variable: &str, usual: T) -> T {
    match env::var(variable) {
        Ok(text) => match text.parse() {
            Ok(value) => value,
            Err(_) => panic!("{variable}: {text}?"),
        },
        Err(_) => usual,
    }
}

fn main() {
    let runs: usize = setting("STORAGE_UNIT_RUNS", 1);
    let rounds: usize = setting("STORAGE_UNIT_ROUNDS", 51);
    let count: usize = setting("STORAGE_UNIT_BATCH", 16_384);
    let seed = setting("STORAGE_UNIT_SEED", 88_172_645_463_325_252);
    assert!(seed != 0, "STORAGE_UNIT_SEED is not 0");
    let mut random = Random(seed);
    let named: String = setting("STORAGE_UNIT_ROWS", String::new());
    let rows: Vec<Row> = rows()
        .into_iter()
        .filter(|row| row.name.contains(&named))
        .collect();
    let mut measured = vec![Measured::default(); rows.len()];
    for _ in 0..runs {
        for (row, measured) in rows.iter().zip(&mut measured) {
            measure(row, rounds, count, &mut random, measured);
        }
    }
    println!(
        "| Request | request | plain | access | plain | plain typed | request / plain | access / plain | access / typed |"
    );
    println!("|---|---|---|---|---|---|---|---|---|");
    for (row, measured) in rows.iter().zip(&mut measured) {
        print_row(row, measured);
    }
}
