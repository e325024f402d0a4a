//! Written cases for each sentence of document 02's W1: the player of the reference, and the proved
//! one beside it.

mod support;

use storage_unit::{Machine, Player};
use storage_unit_comparison::player::{self, Fault, Run, start};

use support::recordings::*;

/// Plays the recording by the reference. The proved player writes the same, and leaves the same.
fn play(machine: &mut Machine, recording: &[u8]) -> Run {
    let (mut proved, mut lines) = (machine.clone(), Vec::new());
    let played = proved.play_all(recording, &mut lines).expect("a vector");
    let run = player::play(machine, recording);
    assert_eq!(String::from_utf8_lossy(&lines), run.lines);
    let Player { requests, records } = played.player;
    assert_eq!((requests, records), (run.requests, run.records));
    assert_eq!(played.bad_record, run.fault.is_some());
    assert!(proved == *machine, "{recording:02x?}");
    run
}

/// Plays these records, one behind the other, from the start.
fn run(records: &[Vec<u8>]) -> Run {
    play(&mut start(), &records.concat())
}

/// The record is bad for this reason, and ends the run before the record behind it.
fn bad(record: &[u8], fault: Fault) {
    let records = [fetch(0, 0, 1), remark(3), record.to_vec(), fetch(0, 0, 1)];
    let run = run(&records);
    assert_eq!(run.lines, "1 0 0\nbad record 3\n", "{record:02x?}");
    assert_eq!(run.fault, Some(fault), "{record:02x?}");
    assert_eq!((run.requests, run.records), (1, 3), "{record:02x?}");
}

/// The record is a request of this number, or a remark where there is none; the run goes on.
fn good(record: &[u8], number: Option<u16>) {
    let run = run(&[record.to_vec(), fetch(0, 0, 1)]);
    let expected = match number {
        Some(number) => format!("1 {number} 0\n2 0 0\n"),
        None => "1 0 0\n".to_string(),
    };
    assert_eq!(run.lines, expected, "{record:02x?}");
    assert_eq!((run.fault, run.records), (None, 2), "{record:02x?}");
}

#[test]
fn case_given_whole() {
    let recording = [
        0x09, 0x00, 0x01, 0x00, 0x00, 0x00, 0x00, 0x00, 0x00, 0x01, 0x00,
    ];
    assert_eq!(play(&mut start(), &recording).lines, "1 0 0\n");
    assert_eq!(fetch(0, 0, 1), recording);
}

#[test]
fn empty_recording() {
    assert_eq!(play(&mut start(), &[]), Run::default());
}

#[test]
fn lengths() {
    for length in [0, 1, 2, 3] {
        let fault = match length {
            0 | 1 => Fault::Length,
            _ => Fault::Kind,
        };
        bad(&[&[length, 0][..], &[0; 8]].concat(), fault);
    }
    bad(&record(255, &[0; 510]), Fault::Length);
    bad(&record(255, &[0; 511]), Fault::Over512);
    for good in [
        fetch(0, 0, 1),
        key(0, 0, 0, 0),
        prefix(0, 1, 0),
        store(0, 0, 1, &[7]),
    ] {
        let body = &good[4..];
        let kind = u16::from_le_bytes([good[2], good[3]]);
        bad(&record(kind, &body[1..]), Fault::Length);
        bad(&record(kind, &[body, &[0]].concat()), Fault::Length);
    }
}

#[test]
fn cut_at_every_byte() {
    let all = [
        fetch(0, 0, 1),
        store(1, 0, 2, &[1, 2]),
        key(0, 5, 0, 0),
        prefix(0, 0, 0),
        remark(4),
    ];
    for record in all {
        for cut in 1..record.len() {
            let run = run(&[fetch(0, 0, 1), record[..cut].to_vec()]);
            assert_eq!(run.lines, "1 0 0\nbad record 2\n");
            assert_eq!(run.fault, Some(Fault::CutShort));
        }
    }
}

#[test]
fn other_kinds_instructions_and_operations() {
    for kind in [0, 5, 16, 254, 256, 257, 258, 0x01FF, 0xFF00, 0xFFFF] {
        bad(&record(kind, &[0; 7]), Fault::Kind);
    }
    for instruction in 6..=255 {
        bad(&key(0, instruction, 0, 0), Fault::Instruction);
        bad(&key(2, instruction, 0, 0), Fault::Instruction);
    }
    for operation in 2..=255 {
        bad(&prefix(0, operation, 0), Fault::Operation);
        bad(&prefix(255, operation, 0), Fault::Operation);
    }
}

#[test]
fn stores() {
    good(&store(0, 0, 256, &[7; 256]), Some(0));
    for wrong in [0, 257, 503] {
        good(&store(0, 0, wrong, &vec![7; usize::from(wrong)]), Some(66));
    }
    bad(&store(0, 0, 504, &[7; 504]), Fault::Over512);
    bad(&store(0, 0, 4, &[7; 3]), Fault::Length);
    bad(&store(0, 0, 4, &[7; 5]), Fault::Length);
}

#[test]
fn requests_that_the_unit_refuses() {
    for number in [2, 3, 255] {
        good(&fetch(number, 0, 1), Some(65));
        good(&store(number, 0, 0, &[]), Some(65));
        good(&key(number, 0, 0, 15), Some(65));
        good(&prefix(number, 1, 0), Some(65));
    }
    for length in [0, 257, 65_535] {
        good(&fetch(0, 0, length), Some(66));
    }
    good(&fetch(0, 1 << 24, 1), Some(66));
    good(&key(0, 2, 0, 1 << 24), Some(66));
    good(&key(0, 0, 0, 1), Some(6));
    good(&fetch(0, 65_536, 1), Some(5));
    good(&prefix(0, 0, 0x0001_0000), Some(5));
    assert_eq!(run(&[fetch(1, 65_535, 16)]).lines, "1 5 1\n");
}

#[test]
fn ignored_words() {
    good(&key(0, 2, u32::MAX, 0), Some(0));
    good(&key(0, 5, u32::MAX, 0), Some(0));
    good(&prefix(0, 1, u32::MAX), Some(0));
}

#[test]
fn remarks() {
    for length in [0, 1, 255, 256] {
        good(&remark(length), None);
    }
    bad(&remark(257), Fault::Length);
    // A remark that has a record in it.
    good(&record(255, &fetch(0, 65_536, 1)), None);
}

/// One machine for the whole run: what a request leaves, the next one finds.
#[test]
fn machine_after_the_run() {
    let recording = [
        prefix(1, 0, 0x2000),
        store(1, 4, 4, b"ABCD"),
        key(0, 1, 0x86, 0x1000),
        key(0, 5, 0, 0x1000),
    ];
    let mut machine = start();
    let run = play(&mut machine, &recording.concat());
    assert_eq!(run.lines, "1 0 0\n2 0 0\n3 0 0\n4 0 0\n");
    assert_eq!(&machine.storage[0x2004..0x2008], b"ABCD");
    assert_eq!(machine.keys[2..6], [0x82, 0, 0x06, 0]);
    assert_eq!(machine.processors[1].prefix, 0x2000);
    assert_eq!(machine.processors[0].code, 3);
}
