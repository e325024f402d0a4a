//! Seconds to play a recording: the program `playback` and the ordinary player, in turn.
//!
//! The recording has 100 MB of small requests: fetches and stores of 1 to 16 bytes at random
//! addresses by both processors, key instructions, prefix instructions, a few refusals and a few
//! remarks. Each player is a process of its own. It reads the recording from a file, then from a
//! pipe, and its lines go to /dev/null; once they are compared.
//!
//! Run it with `cargo run --release --example playing`, after `host/playback` in the
//! repository. `STORAGE_UNIT_PLAYBACK` names another program, `STORAGE_UNIT_BYTES` sets the length
//! of the recording, `STORAGE_UNIT_RUNS` how often each player is run, `STORAGE_UNIT_SEED` the
//! seed. With the word `plain` it is the ordinary player itself; with `write`, it writes the
//! recording to standard output.

use std::env;
use std::fs::{self, File};
use std::io::{self, BufReader, Read, Write};
use std::os::fd::AsFd;
use std::path::{Path, PathBuf};
use std::process::{Child, Command, Stdio};
use std::str::FromStr;
use std::time::Instant;

use storage_unit_comparison::plain_player;

const DEFAULT_BYTES: usize = 100_000_000;
const DEFAULT_RUNS: usize = 5;
const DEFAULT_SEED: u64 = 1_970;
const IN_REPOSITORY: &str = "../../../target/bin/playback";

type Failure = Box<dyn std::error::Error>;

/// A generator of random numbers (xorshift); its state is never 0.
struct Random(u64);

impl Random {
    fn below(&mut self, bound: u32) -> u32 {
        self.0 ^= self.0 << 13;
        self.0 ^= self.0 >> 7;
        self.0 ^= self.0 << 17;
        ((self.0 >> 32) % u64::from(bound)) as u32
    }
}

fn put(recording: &mut Vec<u8>, kind: u16, parts: &[&[u8]]) {
    let body: usize = parts.iter().map(|part| part.len()).sum();
    recording.extend_from_slice(&(2 + body as u16).to_le_bytes());
    recording.extend_from_slice(&kind.to_le_bytes());
    for part in parts {
        recording.extend_from_slice(part);
    }
}

/// A processor and an address. Three in 200 are refused: there is no such processor, the address is
/// outside storage, or it is over 24 bits.
fn processor_and_address(random: &mut Random) -> (u8, u32) {
    let (processor, address) = (random.below(2) as u8, random.below(65_536 - 16));
    match random.below(200) {
        0 => (2, address),
        1 => (processor, 65_536 + address),
        2 => (processor, 1 << 24 | address),
        _ => (processor, address),
    }
}

/// Puts a random record behind the others.
fn put_record(recording: &mut Vec<u8>, random: &mut Random) {
    let (processor, address) = processor_and_address(random);
    let word = random.below(u32::MAX).to_le_bytes();
    match random.below(100) {
        0..40 => {
            let length = 1 + random.below(16) as u16;
            let length = length.to_le_bytes();
            put(
                recording,
                1,
                &[&[processor], &address.to_le_bytes(), &length],
            );
        }
        40..75 => {
            let data = &[word; 4].concat()[..1 + random.below(16) as usize];
            let length = (data.len() as u16).to_le_bytes();
            let parts = [&[processor][..], &address.to_le_bytes(), &length, data];
            put(recording, 2, &parts);
        }
        75..91 => {
            let instruction = random.below(6) as u8;
            let r2 = (address & !0xF).to_le_bytes();
            put(recording, 3, &[&[processor, instruction], &word, &r2]);
        }
        91..98 => {
            let operation = random.below(2) as u8;
            put(
                recording,
                4,
                &[&[processor, operation], &address.to_le_bytes()],
            );
        }
        _ => {
            let text = &b"a remark of a bureau"[..random.below(21) as usize];
            put(recording, 255, &[text]);
        }
    }
}

/// A recording of this many bytes, or of some more.
fn recording(bytes: usize, seed: u64) -> Vec<u8> {
    let random = &mut Random(seed | 1);
    let mut recording = Vec::with_capacity(bytes + 600);
    while recording.len() < bytes {
        put_record(&mut recording, random);
    }
    recording
}

/// A player: its name, its program, and the words that the program is given.
struct Contender {
    name: &'static str,
    program: PathBuf,
    words: &'static [&'static str],
}

impl Contender {
    fn start(&self, input: Stdio, output: Stdio) -> Result<Child, Failure> {
        let mut command = Command::new(&self.program);
        let started = command.args(self.words).stdin(input).stdout(output).spawn();
        started.map_err(|error| format!("{}: {error}", self.program.display()).into())
    }

    fn finish(&self, mut child: Child) -> Result<(), Failure> {
        let status = child.wait()?;
        if status.success() {
            return Ok(());
        }
        Err(format!("{}: {status}", self.name).into())
    }

    /// Seconds with the recording from a file.
    fn time_file(&self, file: &Path) -> Result<f64, Failure> {
        let input = File::open(file)?;
        let start = Instant::now();
        self.finish(self.start(input.into(), Stdio::null())?)?;
        Ok(start.elapsed().as_secs_f64())
    }

    /// Seconds with the recording from a pipe.
    fn time_pipe(&self, recording: &[u8]) -> Result<f64, Failure> {
        let start = Instant::now();
        let mut child = self.start(Stdio::piped(), Stdio::null())?;
        if let Some(mut pipe) = child.stdin.take() {
            pipe.write_all(recording)?;
        }
        self.finish(child)?;
        Ok(start.elapsed().as_secs_f64())
    }
}

/// Both players write the same lines. Gives how many.
fn compared(contenders: &[Contender; 2], file: &Path) -> Result<u64, Failure> {
    let mut children = Vec::new();
    let mut outputs = Vec::new();
    for contender in contenders {
        let mut child = contender.start(File::open(file)?.into(), Stdio::piped())?;
        let output = child.stdout.take().ok_or("no pipe")?;
        outputs.push(BufReader::with_capacity(1 << 16, output));
        children.push(child);
    }
    let [first, second] = &mut outputs[..] else {
        return Err("two players are compared".into());
    };
    let mut lines = 0;
    let (mut one, mut other) = (vec![0; 1 << 16], vec![0; 1 << 16]);
    loop {
        let count = first.read(&mut one)?;
        let same = match count {
            0 => second.read(&mut other)? == 0,
            _ => second.read_exact(&mut other[..count]).is_ok() && one[..count] == other[..count],
        };
        if !same {
            return Err(format!("the players differ behind line {lines}").into());
        }
        if count == 0 {
            break;
        }
        lines += one[..count].iter().filter(|&&byte| byte == b'\n').count() as u64;
    }
    for (contender, child) in contenders.iter().zip(children) {
        contender.finish(child)?;
    }
    Ok(lines)
}

/// The median, the least and the greatest.
fn summary(mut numbers: Vec<f64>) -> (f64, f64, f64) {
    numbers.sort_by(f64::total_cmp);
    let last = numbers.len() - 1;
    (numbers[numbers.len() / 2], numbers[0], numbers[last])
}

/// Times both players in turn, and prints a table.
fn measure(
    name: &str,
    contenders: &[Contender; 2],
    runs: usize,
    requests: u64,
    time: impl Fn(&Contender) -> Result<f64, Failure>,
) -> Result<(), Failure> {
    let mut seconds = [Vec::new(), Vec::new()];
    for run in 0..runs {
        // The order changes from run to run.
        for turn in [run % 2, 1 - run % 2] {
            seconds[turn].push(time(&contenders[turn])?);
        }
    }
    let ratios = seconds[0].iter().zip(&seconds[1]);
    let ratios = ratios.map(|(proved, plain)| proved / plain).collect();
    println!("{name}:");
    for (contender, seconds) in contenders.iter().zip(seconds) {
        let (median, least, greatest) = summary(seconds);
        let nanoseconds = median * 1e9 / requests as f64;
        println!(
            "  {:8} {median:.3} s ({least:.3} to {greatest:.3}), {nanoseconds:.1} ns a request",
            contender.name
        );
    }
    let (median, least, greatest) = summary(ratios);
    println!("  ratio    {median:.2} ({least:.2} to {greatest:.2})");
    Ok(())
}

/// A number from an environment variable, or a default.
fn setting<T: FromStr>(variable: &str, default: T) -> Result<T, Failure> {
    match env::var(variable) {
        Err(_) => Ok(default),
        Ok(text) => match text.replace('_', "").parse() {
            Ok(number) => Ok(number),
            Err(_) => Err(format!("{variable} is not a number: {text}").into()),
        },
    }
}

/// The program `playback`.
fn playback() -> Result<PathBuf, Failure> {
    let named = env::var_os("STORAGE_UNIT_PLAYBACK").filter(|name| !name.is_empty());
    let file = named.map_or_else(|| IN_REPOSITORY.into(), PathBuf::from);
    let program = PathBuf::from(env!("CARGO_MANIFEST_DIR")).join(file);
    if program.is_file() {
        return Ok(program);
    }
    let shown = program.display();
    Err(format!("there is no program {shown}; `host/playback` writes it").into())
}

/// Makes a recording, compares both players on it, and times them.
fn compare() -> Result<(), Failure> {
    let runs = setting("STORAGE_UNIT_RUNS", DEFAULT_RUNS)?.max(1);
    let contenders = [
        Contender {
            name: "proved",
            program: playback()?,
            words: &[],
        },
        Contender {
            name: "plain",
            program: env::current_exe()?,
            words: &["plain"],
        },
    ];
    let recording = made()?;
    let file = env::temp_dir().join(format!("storage_unit_playing_{}", std::process::id()));
    fs::write(&file, &recording)?;
    let measured = compared(&contenders, &file).and_then(|requests| {
        let bytes = recording.len();
        println!("{bytes} bytes, {requests} requests; the lines of both players are the same");
        measure("from a file", &contenders, runs, requests, |contender| {
            contender.time_file(&file)
        })?;
        measure("from a pipe", &contenders, runs, requests, |contender| {
            contender.time_pipe(&recording)
        })
    });
    fs::remove_file(&file)?;
    measured
}

/// The recording that the variables ask for.
fn made() -> Result<Vec<u8>, Failure> {
    let bytes = setting("STORAGE_UNIT_BYTES", DEFAULT_BYTES)?;
    Ok(recording(
        bytes,
        setting("STORAGE_UNIT_SEED", DEFAULT_SEED)?,
    ))
}

/// The ordinary player, on standard input and standard output without their buffers.
fn plain() -> Result<(), Failure> {
    let input = File::from(io::stdin().as_fd().try_clone_to_owned()?);
    let output = File::from(io::stdout().as_fd().try_clone_to_owned()?);
    Ok(plain_player::play(input, output)?)
}

fn main() -> Result<(), Failure> {
    match env::args().nth(1).as_deref() {
        None => compare(),
        Some("plain") => plain(),
        Some("write") => Ok(io::stdout().write_all(&made()?)?),
        Some(word) => Err(format!("the words are plain and write, not {word}").into()),
    }
}
