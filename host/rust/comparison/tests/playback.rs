//! The program `playback` against the player of the reference: recordings from a pipe, written
//! whole, in pieces and one byte at a time.
//!
//! The program is the file that `STORAGE_UNIT_PLAYBACK` names, or that which `host/playback`
//! writes in the repository.

mod support;

use std::env;
use std::io::Write;
use std::path::PathBuf;
use std::process::{Command, Stdio};
use std::sync::LazyLock;
use std::thread;
use std::time::Duration;

use storage_unit_comparison::player;

use support::recordings::*;
use support::*;

const VARIABLE: &str = "STORAGE_UNIT_PLAYBACK";
const IN_REPOSITORY: &str = "../../../target/bin/playback";

/// The program. A relative path is taken from this package.
static PROGRAM: LazyLock<PathBuf> = LazyLock::new(|| {
    let named = env::var_os(VARIABLE).filter(|name| !name.is_empty());
    let file = named.map_or_else(|| IN_REPOSITORY.into(), PathBuf::from);
    let program = PathBuf::from(env!("CARGO_MANIFEST_DIR")).join(file);
    assert!(
        program.is_file(),
        "there is no program {}; `host/playback` in the repository writes it, or set \
         {VARIABLE} to its absolute path",
        program.display()
    );
    program
});

/// What the program writes for a recording that comes in pieces of these lengths.
fn played(recording: &[u8], pieces: impl Iterator<Item = usize>) -> String {
    played_with_pauses(recording, pieces, Duration::ZERO)
}

/// The same with a pause before each piece, so that the program reads one after the other and not
/// all that has come meanwhile. It writes nothing else, and ends with status 0.
fn played_with_pauses(
    recording: &[u8],
    pieces: impl Iterator<Item = usize>,
    pause: Duration,
) -> String {
    let mut program = Command::new(&*PROGRAM)
        .stdin(Stdio::piped())
        .stdout(Stdio::piped())
        .stderr(Stdio::piped())
        .spawn()
        .unwrap_or_else(|error| panic!("{}: {error}", PROGRAM.display()));
    let mut pipe = program.stdin.take().expect("a pipe");
    let output = thread::scope(|scope| {
        let reader = scope.spawn(|| program.wait_with_output());
        let mut rest = recording;
        for piece in pieces {
            let (next, behind) = rest.split_at(piece.min(rest.len()));
            if !pause.is_zero() {
                thread::sleep(pause);
            }
            // A program that has met a bad record reads no further.
            if pipe.write_all(next).and_then(|()| pipe.flush()).is_err() || behind.is_empty() {
                break;
            }
            rest = behind;
        }
        drop(pipe);
        reader.join().expect("a reader").expect("what it wrote")
    });
    assert_eq!(String::from_utf8_lossy(&output.stderr), "");
    assert!(output.status.success(), "{}", output.status);
    String::from_utf8(output.stdout).expect("text")
}

fn whole() -> impl Iterator<Item = usize> {
    std::iter::once(usize::MAX)
}

fn one_byte() -> impl Iterator<Item = usize> {
    std::iter::repeat(1)
}

/// Pieces of random lengths, some of them 0.
fn random_pieces(seed: u64, greatest: u64) -> impl Iterator<Item = usize> {
    let mut random = Random::new(seed);
    std::iter::repeat_with(move || random.below(greatest + 1) as usize)
}

fn expected(recording: &[u8]) -> String {
    player::play(&mut player::start(), recording).lines
}

#[test]
fn case_given_whole() {
    let recording = [
        0x09, 0x00, 0x01, 0x00, 0x00, 0x00, 0x00, 0x00, 0x00, 0x01, 0x00,
    ];
    assert_eq!(played(&recording, whole()), "1 0 0\n");
    assert_eq!(played(&recording, one_byte()), "1 0 0\n");
}

#[test]
fn empty_recording() {
    assert_eq!(played(&[], whole()), "");
}

/// Thousands of random recordings, whole and damaged, in one way each.
#[test]
fn random_recordings() {
    let random = &mut Random::new(from_environment("STORAGE_UNIT_SEED", 1_980));
    let mut cases = Cases::default();
    for seed in 0..4_000 {
        let machine = player::start();
        let (mut recording, damage) = random_recording(random, &machine);
        // The next ones stand behind those that have no bad record.
        while seed % 8 == 0 && recording.len() < 5_000 {
            if player::play(&mut player::start(), &recording)
                .fault
                .is_some()
            {
                break;
            }
            recording.extend(random_recording(random, &machine).0);
        }
        let run = player::play(&mut player::start(), &recording);
        cases.count(&recording, damage, &run);
        let lines = match random.below(4) {
            0 => played(&recording, one_byte()),
            1 => played(&recording, random_pieces(seed, 20)),
            2 => played(&recording, random_pieces(seed, 2_000)),
            _ => played(&recording, whole()),
        };
        assert_eq!(lines, run.lines, "{recording:02x?}");
    }
    // Of thousands, not each number of each case.
    cases.check(&[
        ("number", &[0, 5, 6, 65, 66]),
        ("processor", &[0, 1, 2, 255]),
        ("remark of", &[0, 256, 257]),
        ("store of", &[0, 256, 257, 503, 504]),
        ("one under in record", &[0, 1]),
        ("one over in record", &[0, 1]),
    ]);
}

/// Recordings of which the program reads byte after byte. Most of the time it waits, and so several
/// are played at the same time.
#[test]
fn byte_after_byte() {
    let random = &mut Random::new(1_984);
    let records = [
        fetch(0, 0x100, 16),
        store(1, 0x200, 3, b"ABC"),
        key(0, 5, 1, 0x1000),
        prefix(1, 0, 0x1000),
        remark(5),
    ];
    let mut recordings = vec![Vec::new(), records.concat()];
    for _ in 0..94 {
        let mut recording = random_recording(random, &player::start()).0;
        recording.truncate(200);
        recordings.push(recording);
    }
    for some in recordings.chunks(32) {
        thread::scope(|scope| {
            for recording in some {
                scope.spawn(move || {
                    let lines = played_with_pauses(recording, one_byte(), Duration::from_millis(1));
                    assert_eq!(lines, expected(recording), "{recording:02x?}");
                });
            }
        });
    }
}

/// One record of each kind behind a good one, cut at every byte.
#[test]
fn every_cut() {
    for record in [
        fetch(0, 0x100, 16),
        store(1, 0x200, 3, b"ABC"),
        key(0, 5, 1, 0x1000),
        prefix(1, 0, 0x1000),
        remark(5),
    ] {
        let recording = [fetch(1, 4, 8), record].concat();
        for cut in 0..=recording.len() {
            let recording = &recording[..cut];
            assert_eq!(played(recording, whole()), expected(recording));
            assert_eq!(played(recording, one_byte()), expected(recording));
        }
    }
}

/// Recordings that are longer than a pipe and any buffer: ordinals of seven digits, and records
/// that lie across buffers.
#[test]
fn long_recordings() {
    let random = &mut Random::new(1_981);
    let mut recording = Vec::new();
    while recording.len() < 2_000_000 {
        let (next, _) = random_recording(random, &player::start());
        if player::play(&mut player::start(), &next).fault.is_none() {
            recording.extend(next);
        }
    }
    let lines = expected(&recording);
    assert!(lines.lines().count() > 10_000);
    assert!(played(&recording, whole()) == lines);
    assert!(played(&recording, random_pieces(1_982, 10_000)) == lines);
    assert!(played(&recording, random_pieces(1_983, 100)) == lines);

    let short = fetch(0, 0, 1).repeat(1_000_001);
    let lines = played(&short, whole());
    assert!(lines.starts_with("1 0 0\n2 0 0\n") && lines.ends_with("\n1000001 0 0\n"));
    assert_eq!(lines.lines().count(), 1_000_001);
}
