//! Nanoseconds per CCW of the proved channel and of the plain one.
//!
//! Each row is a kind of CCW. Its programs are new in each round: data at random addresses over
//! 512 units of 2K, or 256 of 4K, and random reference and change bits, so that the processor
//! cannot learn the branches. All contenders run the same programs, one after the other, from the
//! same state, and the order changes from round to round: the proved and the plain function for
//! whole requests, and both for steps. A ratio is the median over the rounds of the ratio within a
//! round.
//!
//! Run it with `cargo run --release --example channel`. `STORAGE_UNIT_RUNS` sets how many times
//! all rows are measured: then medians are printed, and the least and the greatest ratio.
//! `STORAGE_UNIT_ROUNDS` sets the number of rounds, `STORAGE_UNIT_SEED` the seed, and
//! `STORAGE_UNIT_ROWS` a text that the names of the rows contain.

use std::env;
use std::str::FromStr;
use std::time::Instant;

use storage_unit::boundary::{
    CHANNEL_UNDER_WAY, FOUR_K, PROGRESS_LENGTH, RawChannel, call_channel_raw, packed_number,
    storage_unit_channel, storage_unit_channel_step,
};
use storage_unit_comparison::channel::Ccw;
use storage_unit_comparison::plain_channel::{
    storage_unit_channel_plain, storage_unit_channel_step_plain,
};

/// The programs stand behind the data, in units of their own.
const DATA_LENGTH: u32 = 1 << 20;
const STORAGE_LENGTH: u32 = DATA_LENGTH + (1 << 18);

const KEY: u32 = 8;
const GRANT: u32 = 256;
const CHAIN_COMMAND: u8 = 0x40;
const WRITE: u8 = 1;
const READ: u8 = 2;
const TRANSFER: u8 = 8;

/// A generator of random numbers (xorshift); its state is never 0.
struct Random(u64);

impl Random {
    fn below(&mut self, bound: u32) -> u32 {
        self.0 ^= self.0 << 13;
        self.0 ^= self.0 >> 7;
        self.0 ^= self.0 << 17;
        ((self.0 >> 32) % u64::from(bound)) as u32
    }
}

/// A row of the table.
struct Row {
    name: String,
    four_k: bool,
    command: u8,
    count: u16,
    /// Each read or write is followed by a transfer in channel.
    transfers: bool,
    /// How many programs are run in a batch, and how many CCWs each has.
    programs: u32,
    length: u32,
}

fn rows() -> Vec<Row> {
    let mut rows = Vec::new();
    for four_k in [false, true] {
        for (command, what) in [(READ, "read"), (WRITE, "write")] {
            let facility = if four_k { ", 4K" } else { "" };
            let mut add = |count: u16, kind: &str, transfers, programs, length| {
                rows.push(Row {
                    name: format!("{what} {count}{kind}{facility}"),
                    four_k,
                    command,
                    count,
                    transfers,
                    programs,
                    length,
                });
            };
            add(8, "", false, 64, 256);
            add(256, "", false, 32, 256);
            add(4_096, "", false, 16, 64);
            add(65_535, "", false, 8, 8);
            add(8, ", one CCW", false, 4096, 1);
            add(8, ", each with a transfer", true, 64, 256);
        }
    }
    rows
}

/// The programs of a round, the state that each batch starts from, and what it works on.
struct Machine {
    settings: u32,
    firsts: Vec<u32>,
    ccws: u32,
    start_keys: Vec<u8>,
    storage: Vec<u8>,
    keys: Vec<u8>,
    from: Vec<u8>,
    room: Vec<u8>,
}

impl Machine {
    fn new(row: &Row, random: &mut Random) -> Machine {
        let unit = if row.four_k { 4096 } else { 2048 };
        let keys = (STORAGE_LENGTH / unit) as usize;
        let mut machine = Machine {
            settings: if row.four_k { FOUR_K } else { 0 },
            firsts: Vec::new(),
            ccws: row.programs * row.length,
            start_keys: (0..keys)
                .map(|_| (KEY as u8) << 4 | random.below(8) as u8 & 6)
                .collect(),
            storage: vec![0x5A; STORAGE_LENGTH as usize],
            keys: Vec::new(),
            from: vec![0xA5; usize::from(row.count) * row.length as usize],
            room: vec![0; usize::from(row.count) * row.length as usize],
        };
        let mut at = DATA_LENGTH;
        for _ in 0..row.programs {
            machine.firsts.push(at);
            for number in 0..row.length {
                let transfer = row.transfers && number % 2 == 1;
                let last = number + if row.transfers { 2 } else { 1 } >= row.length;
                let ccw = Ccw {
                    command: if transfer { TRANSFER } else { row.command },
                    address: if transfer {
                        at + 8
                    } else {
                        random.below(DATA_LENGTH - u32::from(row.count) + 1)
                    },
                    flags: if last { 0 } else { CHAIN_COMMAND },
                    ignored: 0,
                    count: row.count,
                };
                machine.storage[at as usize..][..8].copy_from_slice(&ccw.to_bytes());
                at += 8;
            }
        }
        if row.transfers {
            // The last transfer of each program is not reached.
            machine.ccws -= row.programs;
        }
        machine
    }

    /// Nanoseconds per CCW of all programs, run by `run` from the start, which gives whether a
    /// program ended.
    fn time(&mut self, run: impl Fn(&mut Machine, u32, &mut [u8; PROGRESS_LENGTH]) -> bool) -> f64 {
        self.keys.clone_from(&self.start_keys);
        let (mut ended, mut fetched) = (0, 0);
        let start = Instant::now();
        for number in 0..self.firsts.len() {
            let first = self.firsts[number];
            let mut progress = [0; PROGRESS_LENGTH];
            ended += usize::from(run(self, first, &mut progress));
            fetched += u32::from(progress[8]) + 256 * u32::from(progress[9]);
        }
        let elapsed = start.elapsed();
        assert_eq!((ended, fetched), (self.firsts.len(), self.ccws));
        elapsed.as_nanos() as f64 / f64::from(self.ccws)
    }

    #[inline(always)]
    fn call(
        &mut self,
        function: RawChannel,
        first: u32,
        progress: &mut [u8; PROGRESS_LENGTH],
    ) -> u16 {
        // SAFETY: the function keeps to the bytes it is given, which do not overlap.
        packed_number(unsafe {
            call_channel_raw(
                function,
                self.settings,
                &mut self.storage,
                &mut self.keys,
                (KEY, first, GRANT),
                &self.from,
                &mut self.room,
                progress,
            )
        })
    }
}

/// By the function for whole requests.
fn whole(machine: &mut Machine, function: RawChannel) -> f64 {
    machine.time(|machine, first, progress| machine.call(function, first, progress) == 0)
}

/// By the function for steps.
fn steps(machine: &mut Machine, function: RawChannel) -> f64 {
    machine.time(|machine, first, progress| {
        loop {
            match machine.call(function, first, progress) {
                CHANNEL_UNDER_WAY => {}
                number => return number == 0,
            }
        }
    })
}

/// A way to run programs: a batch, from the start of its machine.
type Contender = fn(&mut Machine) -> f64;

const CONTENDERS: [Contender; 4] = [
    |machine| whole(machine, storage_unit_channel),
    |machine| whole(machine, storage_unit_channel_plain),
    |machine| steps(machine, storage_unit_channel_step),
    |machine| steps(machine, storage_unit_channel_step_plain),
];

/// The ratios that are printed: two contenders.
const RATIOS: [(usize, usize); 2] = [(0, 1), (2, 3)];

#[derive(Clone, Default)]
struct Measured {
    times: [Vec<f64>; CONTENDERS.len()],
    ratios: [Vec<f64>; RATIOS.len()],
}

fn median(values: &mut [f64]) -> f64 {
    values.sort_by(f64::total_cmp);
    values[values.len() / 2]
}

/// Measures a row once, and adds the medians of the rounds.
fn measure(row: &Row, rounds: usize, random: &mut Random, sum: &mut Measured) {
    let mut one = Measured::default();
    for round in 0..rounds {
        let mut machine = Machine::new(row, random);
        let mut times = [0.0; CONTENDERS.len()];
        for turn in 0..CONTENDERS.len() {
            let index = (turn + round) % CONTENDERS.len();
            let index = if round % 2 == 0 {
                index
            } else {
                CONTENDERS.len() - 1 - index
            };
            times[index] = CONTENDERS[index](&mut machine);
        }
        for (all, time) in one.times.iter_mut().zip(times) {
            all.push(time);
        }
        for (all, (over, under)) in one.ratios.iter_mut().zip(RATIOS) {
            all.push(times[over] / times[under]);
        }
    }
    let times = sum.times.iter_mut().zip(&mut one.times);
    for (all, values) in times.chain(sum.ratios.iter_mut().zip(&mut one.ratios)) {
        all.push(median(values));
    }
}

/// Medians of the runs; of ratios the least and the greatest too, where there are several.
fn print_row(row: &Row, measured: &mut Measured) {
    print!("| {} ", row.name);
    for times in &mut measured.times {
        print!("| {:.1} ", median(times));
    }
    for ratios in &mut measured.ratios {
        print!("| {:.2} ", median(ratios));
        if let [least, .., greatest] = ratios[..] {
            print!("({least:.2} to {greatest:.2}) ");
        }
    }
    println!("|");
}

/// The value of an environment variable, or what is usual.
fn setting<T: FromStr>(variable: &str, usual: T) -> T {
    match env::var(variable) {
        Ok(text) => match text.parse() {
            Ok(value) => value,
            Err(_) => panic!("{variable}: {text}?"),
        },
        Err(_) => usual,
    }
}

fn main() {
    let runs: usize = setting("STORAGE_UNIT_RUNS", 1);
    let rounds: usize = setting("STORAGE_UNIT_ROUNDS", 51);
    assert!(runs > 0 && rounds > 0, "there is something to measure");
    let seed = setting("STORAGE_UNIT_SEED", 88_172_645_463_325_252);
    assert!(seed != 0, "STORAGE_UNIT_SEED is not 0");
    let mut random = Random(seed);
    let named: String = setting("STORAGE_UNIT_ROWS", String::new());
    let rows: Vec<Row> = rows()
        .into_iter()
        .filter(|row| row.name.contains(&named))
        .collect();
    let mut measured = vec![Measured::default(); rows.len()];
    for _ in 0..runs {
        for (row, measured) in rows.iter().zip(&mut measured) {
            measure(row, rounds, &mut random, measured);
        }
    }
    println!("| CCW | whole | plain | step | plain | whole / plain | step / plain |");
    println!("|---|---|---|---|---|---|---|");
    for (row, measured) in rows.iter().zip(&mut measured) {
        print_row(row, measured);
    }
}
