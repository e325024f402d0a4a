//! The player of document 02, W1, written down record by record.
//!
//! It has the whole recording before it, and its requests are those of the
//! [`reference`](mod@crate::reference). It is written to be read beside the document, not to be
//! fast.

use storage_unit::{Answer, Machine, Processor, Request, Settings};

use crate::numbers::number;
use crate::reference;

/// What is wrong with a bad record. Where several things are, one of them.
#[derive(Clone, Copy, Debug, PartialEq, Eq)]
pub enum Fault {
    /// The recording ends before the record does.
    CutShort,
    /// A length over 512.
    Over512,
    /// A length that a record of this kind does not have, or none with room for a kind.
    Length,
    /// A kind that is none of 1, 2, 3, 4 and 255.
    Kind,
    /// An instruction over 5.
    Instruction,
    /// An operation over 1.
    Operation,
}

/// What a run gives, besides what it leaves in the machine.
#[derive(Clone, Debug, Default, PartialEq, Eq)]
pub struct Run {
    /// The lines, each with its line end.
    pub lines: String,
    /// How many requests were made.
    pub requests: u64,
    /// How many records were read, a bad one included.
    pub records: u64,
    /// The answers to the requests.
    pub answers: Vec<Answer>,
    /// What is wrong with the record that ended the run.
    pub fault: Option<Fault>,
}

/// The machine that a recording is played on: storage of 65,536 zero bytes, 2K units, zero
/// keys, both records zero, extensions present.
pub fn start() -> Machine {
    Machine {
        settings: Settings {
            four_k: false,
            extensions: true,
        },
        storage: vec![0; 65_536],
        keys: vec![0; 32],
        processors: [Processor::default(); 2],
    }
}

/// Plays the recording on the machine.
pub fn play(machine: &mut Machine, recording: &[u8]) -> Run {
    let mut run = Run::default();
    let mut rest = recording;
    while !rest.is_empty() {
        run.records += 1;
        match first_record(rest) {
            Ok((record, behind)) => {
                if let Record::Request(processor, request, data) = record {
                    run.requests += 1;
                    let answer = perform(machine, processor, &request, data);
                    run.lines += &line(run.requests, answer);
                    run.answers.push(answer);
                }
                rest = behind;
            }
            Err(fault) => {
                run.lines += &format!("bad record {}\n", run.records);
                run.fault = Some(fault);
                break;
            }
        }
    }
    run
}

/// The line of a request: ordinal among requests, number, place.
fn line(ordinal: u64, answer: Answer) -> String {
    let place = match answer {
        Ok(_) => 0,
        Err(refusal) => refusal.place,
    };
    format!("{ordinal} {} {place}\n", number(answer))
}

/// Makes the request of the processor. A store's bytes are its data; a fetch has room for as
/// many as a fetch can have.
fn perform(machine: &mut Machine, processor: u8, request: &Request, data: &[u8]) -> Answer {
    let mut buffer = data.to_vec();
    buffer.resize(data.len().max(256), 0);
    reference::request(
        machine.settings,
        &mut machine.storage,
        &mut machine.keys,
        &mut machine.processors,
        u32::from(processor),
        request,
        &mut buffer,
    )
}

/// A record that is not bad.
enum Record<'a> {
    /// Processor number, request, and the data bytes of a store.
    Request(u8, Request, &'a [u8]),
    Remark,
}

/// The first record of what is left of a recording, and what is behind it.
fn first_record(recording: &[u8]) -> Result<(Record<'_>, &[u8]), Fault> {
    let Some((length, behind)) = recording.split_first_chunk() else {
        return Err(Fault::CutShort);
    };
    let length = u16::from_le_bytes(*length);
    if length > 512 {
        return Err(Fault::Over512);
    }
    let Some((counted, behind)) = behind.split_at_checked(length.into()) else {
        return Err(Fault::CutShort);
    };
    let Some((kind, body)) = counted.split_first_chunk() else {
        return Err(Fault::Length);
    };
    let record = match u16::from_le_bytes(*kind) {
        1 => fetch(body),
        2 => store(body),
        3 => key_instruction(body),
        4 => prefix_instruction(body),
        255 => remark(body),
        _ => Err(Fault::Kind),
    };
    Ok((record?, behind))
}

/// Kind 1: processor (1 byte), address (4), length (2).
fn fetch(body: &[u8]) -> Result<Record<'_>, Fault> {
    let &[processor, a0, a1, a2, a3, l0, l1] = body else {
        return Err(Fault::Length);
    };
    let address = u32::from_le_bytes([a0, a1, a2, a3]);
    let length = u16::from_le_bytes([l0, l1]);
    Ok(Record::Request(
        processor,
        Request::fetch(address, length.into()),
        &[],
    ))
}

/// Kind 2: as kind 1, then exactly that many data bytes.
fn store(body: &[u8]) -> Result<Record<'_>, Fault> {
    let &[processor, a0, a1, a2, a3, l0, l1, ref data @ ..] = body else {
        return Err(Fault::Length);
    };
    let address = u32::from_le_bytes([a0, a1, a2, a3]);
    let length = u16::from_le_bytes([l0, l1]);
    if data.len() != usize::from(length) {
        return Err(Fault::Length);
    }
    Ok(Record::Request(
        processor,
        Request::store(address, length.into()),
        data,
    ))
}

/// Kind 3: processor, instruction 0 to 5, R1 (4), R2 or address (4).
fn key_instruction(body: &[u8]) -> Result<Record<'_>, Fault> {
    let &[processor, instruction, a0, a1, a2, a3, b0, b1, b2, b3] = body else {
        return Err(Fault::Length);
    };
    let r1 = u32::from_le_bytes([a0, a1, a2, a3]);
    let r2 = u32::from_le_bytes([b0, b1, b2, b3]);
    let request = match instruction {
        0 => Request::isk(r1, r2),
        1 => Request::ssk(r1, r2),
        2 => Request::rrb(r2),
        3 => Request::iske(r1, r2),
        4 => Request::sske(r1, r2),
        5 => Request::rrbe(r2),
        _ => return Err(Fault::Instruction),
    };
    Ok(Record::Request(processor, request, &[]))
}

/// Kind 4: processor, 0 set or 1 store, word (4).
fn prefix_instruction(body: &[u8]) -> Result<Record<'_>, Fault> {
    let &[processor, operation, w0, w1, w2, w3] = body else {
        return Err(Fault::Length);
    };
    let request = match operation {
        0 => Request::set_prefix(u32::from_le_bytes([w0, w1, w2, w3])),
        1 => Request::store_prefix(),
        _ => return Err(Fault::Operation),
    };
    Ok(Record::Request(processor, request, &[]))
}

/// Kind 255: a remark of up to 256 bytes.
fn remark(body: &[u8]) -> Result<Record<'_>, Fault> {
    if body.len() > 256 {
        return Err(Fault::Length);
    }
    Ok(Record::Remark)
}
