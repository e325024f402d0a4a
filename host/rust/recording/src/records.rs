//! A record as a value, and its bytes.
//!
//! The bytes are a two-byte length, which counts what follows it, a two-byte kind and a body. All
//! numbers are little-endian.

use std::error::Error;
use std::fmt;

/// The greatest number that the length of a record may have.
pub const LENGTH_MAXIMUM: usize = 512;

/// The greatest number of data bytes that fit into the record of a store.
pub const STORE_MAXIMUM: usize = LENGTH_MAXIMUM - 9;

/// The greatest number of bytes of a remark.
pub const REMARK_MAXIMUM: usize = 256;

const FETCH: u16 = 1;
const STORE: u16 = 2;
const KEY: u16 = 3;
const PREFIX: u16 = 4;
const REMARK: u16 = 255;

/// A storage-key instruction.
#[derive(Clone, Copy, Debug, PartialEq, Eq, Hash)]
#[repr(u8)]
pub enum Instruction {
    /// INSERT STORAGE KEY.
    Isk = 0,
    /// SET STORAGE KEY.
    Ssk = 1,
    /// RESET REFERENCE BIT.
    Rrb = 2,
    /// INSERT STORAGE KEY EXTENDED.
    Iske = 3,
    /// SET STORAGE KEY EXTENDED.
    Sske = 4,
    /// RESET REFERENCE BIT EXTENDED.
    Rrbe = 5,
}

impl Instruction {
    /// The six instructions, in the order of their numbers.
    pub const ALL: [Instruction; 6] = [
        Instruction::Isk,
        Instruction::Ssk,
        Instruction::Rrb,
        Instruction::Iske,
        Instruction::Sske,
        Instruction::Rrbe,
    ];

    /// The name of the instruction in the text.
    #[must_use]
    pub const fn name(self) -> &'static str {
        match self {
            Instruction::Isk => "isk",
            Instruction::Ssk => "ssk",
            Instruction::Rrb => "rrb",
            Instruction::Iske => "iske",
            Instruction::Sske => "sske",
            Instruction::Rrbe => "rrbe",
        }
    }

    /// Whether the instruction ignores R1.
    #[must_use]
    pub const fn ignores_r1(self) -> bool {
        matches!(self, Instruction::Rrb | Instruction::Rrbe)
    }
}

/// A record of a recording.
#[derive(Clone, Debug, PartialEq, Eq, Hash)]
pub enum Record {
    /// A fetch.
    Fetch {
        /// The number of the processor that asks.
        processor: u8,
        /// The real address of the first byte.
        address: u32,
        /// The number of bytes.
        length: u16,
    },
    /// A store.
    Store {
        /// The number of the processor that asks.
        processor: u8,
        /// The real address of the first byte.
        address: u32,
        /// The bytes to store, at most [`STORE_MAXIMUM`].
        data: Vec<u8>,
    },
    /// A storage-key instruction.
    Key {
        /// The number of the processor that asks.
        processor: u8,
        /// The instruction.
        instruction: Instruction,
        /// The content of general register R1. RRB and RRBE ignore it.
        r1: u32,
        /// The content of general register R2; for RRB the real address.
        r2: u32,
    },
    /// SET PREFIX.
    SetPrefix {
        /// The number of the processor that asks.
        processor: u8,
        /// The operand.
        word: u32,
    },
    /// STORE PREFIX.
    StorePrefix {
        /// The number of the processor that asks.
        processor: u8,
        /// A word that is ignored.
        word: u32,
    },
    /// A remark, which is skipped: at most [`REMARK_MAXIMUM`] bytes.
    Remark(Vec<u8>),
}

/// A store or a remark has more bytes than its record may have.
#[derive(Clone, Copy, Debug, PartialEq, Eq)]
pub struct TooLong {
    /// The number of bytes.
    pub bytes: usize,
    /// The greatest number that there may be.
    pub maximum: usize,
}

impl fmt::Display for TooLong {
    fn fmt(&self, f: &mut fmt::Formatter) -> fmt::Result {
        let TooLong { bytes, maximum } = self;
        write!(f, "expected at most {maximum} bytes, found {bytes}")
    }
}

impl Error for TooLong {}

impl Record {
    /// Puts the bytes of the record behind those of `recording`.
    ///
    /// # Errors
    ///
    /// The data of a store or the text of a remark are too long; `recording` has not changed.
    pub fn encode(&self, recording: &mut Vec<u8>) -> Result<(), TooLong> {
        match self {
            Record::Fetch {
                processor,
                address,
                length,
            } => {
                put(recording, FETCH, 7);
                put_access(recording, *processor, *address, *length);
            }
            Record::Store {
                processor,
                address,
                data,
            } => {
                let length = limited(data, STORE_MAXIMUM)?;
                put(recording, STORE, 7 + length);
                put_access(recording, *processor, *address, length);
                recording.extend_from_slice(data);
            }
            Record::Key {
                processor,
                instruction,
                r1,
                r2,
            } => {
                put(recording, KEY, 10);
                recording.extend_from_slice(&[*processor, *instruction as u8]);
                recording.extend_from_slice(&r1.to_le_bytes());
                recording.extend_from_slice(&r2.to_le_bytes());
            }
            Record::SetPrefix { processor, word } => put_prefix(recording, *processor, 0, *word),
            Record::StorePrefix { processor, word } => put_prefix(recording, *processor, 1, *word),
            Record::Remark(text) => {
                put(recording, REMARK, limited(text, REMARK_MAXIMUM)?);
                recording.extend_from_slice(text);
            }
        }
        Ok(())
    }

    /// The first record of a recording that is not at its end, and what is behind it.
    ///
    /// # Errors
    ///
    /// What is wrong with the record.
    pub fn decode(recording: &[u8]) -> Result<(Record, &[u8]), Fault> {
        let (length, rest) = recording.split_first_chunk().ok_or(Fault::CutShort)?;
        let length = u16::from_le_bytes(*length);
        if usize::from(length) > LENGTH_MAXIMUM {
            return Err(Fault::TooLong(length));
        }
        let (counted, rest) = rest
            .split_at_checked(length.into())
            .ok_or(Fault::CutShort)?;
        let (kind, body) = counted.split_first_chunk().ok_or(Fault::NoKind(length))?;
        let record = decode_body(u16::from_le_bytes(*kind), length, body)?;
        Ok((record, rest))
    }
}

/// The number of bytes, if it is not over the maximum.
fn limited(bytes: &[u8], maximum: usize) -> Result<u16, TooLong> {
    let length = bytes.len();
    match u16::try_from(length) {
        Ok(fitting) if length <= maximum => Ok(fitting),
        _ => Err(TooLong {
            bytes: length,
            maximum,
        }),
    }
}

/// Puts length and kind of a record whose body has this many bytes.
fn put(recording: &mut Vec<u8>, kind: u16, body: u16) {
    recording.extend_from_slice(&(2 + body).to_le_bytes());
    recording.extend_from_slice(&kind.to_le_bytes());
}

/// Puts what the bodies of fetch and store begin with.
fn put_access(recording: &mut Vec<u8>, processor: u8, address: u32, length: u16) {
    recording.push(processor);
    recording.extend_from_slice(&address.to_le_bytes());
    recording.extend_from_slice(&length.to_le_bytes());
}

/// Puts the record of a prefix instruction.
fn put_prefix(recording: &mut Vec<u8>, processor: u8, operation: u8, word: u32) {
    put(recording, PREFIX, 6);
    recording.extend_from_slice(&[processor, operation]);
    recording.extend_from_slice(&word.to_le_bytes());
}

/// The record of this kind with this body.
fn decode_body(kind: u16, length: u16, body: &[u8]) -> Result<Record, Fault> {
    let wrong = |name, expected| Fault::Length {
        name,
        length,
        expected,
    };
    match kind {
        FETCH => match *body {
            [processor, a, b, c, d, low, high] => Ok(Record::Fetch {
                processor,
                address: u32::from_le_bytes([a, b, c, d]),
                length: u16::from_le_bytes([low, high]),
            }),
            _ => Err(wrong("a fetch", 9)),
        },
        STORE => decode_store(body).ok_or(wrong("a store", 9))?,
        KEY => match *body {
            [processor, number, a, b, c, d, e, f, g, h] => Ok(Record::Key {
                processor,
                instruction: *Instruction::ALL
                    .get(usize::from(number))
                    .ok_or(Fault::Instruction(number))?,
                r1: u32::from_le_bytes([a, b, c, d]),
                r2: u32::from_le_bytes([e, f, g, h]),
            }),
            _ => Err(wrong("a key instruction", 12)),
        },
        PREFIX => match *body {
            [processor, operation, a, b, c, d] => {
                decode_prefix(processor, operation, u32::from_le_bytes([a, b, c, d]))
            }
            _ => Err(wrong("a prefix instruction", 8)),
        },
        REMARK if body.len() > REMARK_MAXIMUM => Err(Fault::Remark(body.len())),
        REMARK => Ok(Record::Remark(body.to_vec())),
        _ => Err(Fault::Kind(kind)),
    }
}

/// A store, or `None` if the body is too short for one.
fn decode_store(body: &[u8]) -> Option<Result<Record, Fault>> {
    let &[processor, a, b, c, d, low, high, ref data @ ..] = body else {
        return None;
    };
    let stated = u16::from_le_bytes([low, high]);
    Some(if data.len() == usize::from(stated) {
        Ok(Record::Store {
            processor,
            address: u32::from_le_bytes([a, b, c, d]),
            data: data.to_vec(),
        })
    } else {
        Err(Fault::Data {
            stated,
            found: data.len(),
        })
    })
}

fn decode_prefix(processor: u8, operation: u8, word: u32) -> Result<Record, Fault> {
    match operation {
        0 => Ok(Record::SetPrefix { processor, word }),
        1 => Ok(Record::StorePrefix { processor, word }),
        _ => Err(Fault::Operation(operation)),
    }
}

/// What is wrong with a bad record.
#[derive(Clone, Copy, Debug, PartialEq, Eq)]
pub enum Fault {
    /// The recording ends before the record does.
    CutShort,
    /// The length is over [`LENGTH_MAXIMUM`].
    TooLong(u16),
    /// The length has no room for a kind.
    NoKind(u16),
    /// There is no such kind.
    Kind(u16),
    /// The length is not that of a record of this kind.
    Length {
        /// What the record is.
        name: &'static str,
        /// The length that the record states.
        length: u16,
        /// The length that such a record has; for a store, without its data.
        expected: u16,
    },
    /// A store has another number of data bytes than it states.
    Data {
        /// The number that the store states.
        stated: u16,
        /// The number of data bytes.
        found: usize,
    },
    /// A remark of this many bytes, over [`REMARK_MAXIMUM`].
    Remark(usize),
    /// There is no such key instruction.
    Instruction(u8),
    /// There is no such prefix instruction.
    Operation(u8),
}

impl fmt::Display for Fault {
    fn fmt(&self, f: &mut fmt::Formatter) -> fmt::Result {
        match self {
            Fault::CutShort => write!(f, "the recording ends inside it"),
            Fault::TooLong(length) => write!(f, "its length is {length}, over {LENGTH_MAXIMUM}"),
            Fault::NoKind(length) => write!(f, "its length is {length}, too short for a kind"),
            Fault::Kind(kind) => write!(f, "its kind is {kind}, which there is not"),
            Fault::Length {
                name,
                length,
                expected,
            } => write!(f, "its length is {length}, and {name} has {expected}"),
            Fault::Data { stated, found } => {
                write!(f, "it states {stated} data bytes and has {found}")
            }
            Fault::Remark(found) => {
                write!(f, "a remark of {found} bytes, over {REMARK_MAXIMUM}")
            }
            Fault::Instruction(number) => {
                write!(f, "its key instruction is {number}, which there is not")
            }
            Fault::Operation(number) => {
                write!(f, "its prefix instruction is {number}, which there is not")
            }
        }
    }
}

impl Error for Fault {}

/// A bad record.
#[derive(Clone, Copy, Debug, PartialEq, Eq)]
pub struct BadRecord {
    /// Its ordinal among all records, from 1.
    pub ordinal: u64,
    /// How many bytes of the recording stand before it.
    pub offset: u64,
    /// What is wrong with it.
    pub fault: Fault,
}

impl fmt::Display for BadRecord {
    fn fmt(&self, f: &mut fmt::Formatter) -> fmt::Result {
        let BadRecord {
            ordinal,
            offset,
            fault,
        } = self;
        write!(f, "bad record {ordinal} at offset {offset}: {fault}")
    }
}

impl Error for BadRecord {}

/// The records of a recording. A bad one is the last.
#[must_use]
pub fn records(recording: &[u8]) -> Records<'_> {
    Records {
        rest: recording,
        ordinal: 0,
        offset: 0,
    }
}

/// The records of a recording, from the function [`records`].
#[derive(Clone, Debug)]
pub struct Records<'a> {
    rest: &'a [u8],
    ordinal: u64,
    offset: u64,
}

impl Iterator for Records<'_> {
    type Item = Result<Record, BadRecord>;

    fn next(&mut self) -> Option<Self::Item> {
        if self.rest.is_empty() {
            return None;
        }
        self.ordinal += 1;
        Some(match Record::decode(self.rest) {
            Ok((record, behind)) => {
                self.offset += (self.rest.len() - behind.len()) as u64;
                self.rest = behind;
                Ok(record)
            }
            Err(fault) => {
                self.rest = &[];
                Err(BadRecord {
                    ordinal: self.ordinal,
                    offset: self.offset,
                    fault,
                })
            }
        })
    }
}
