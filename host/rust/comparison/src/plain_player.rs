//! A player of recordings as ordinary Rust, for comparison of speed: on the [`plain`] unit, with a
//! buffer for the recording and one for the lines.

use std::io::{self, ErrorKind, Read, Write};

use storage_unit::{Processor, Reason, Request, Settings};

use crate::plain::{self, FlatAnswer};

/// How many bytes of the recording are asked for, and of the lines written, at a time.
const BUFFER: usize = 1 << 16;

const LENGTH_MAXIMUM: usize = 512;
const REMARK_MAXIMUM: usize = 256;
const ACCESS_MAXIMUM: usize = 256;
const STORAGE_LENGTH: usize = 65_536;

const SETTINGS: Settings = Settings {
    four_k: false,
    extensions: true,
};

/// Plays the recording on a machine of its own, from the start that document 02 gives, and writes
/// the lines.
///
/// # Errors
///
/// Reading or writing failed.
pub fn play(mut recording: impl Read, lines: impl Write) -> io::Result<()> {
    let mut player = Player::new(lines);
    let mut buffer = vec![0; BUFFER];
    let mut held = 0;
    let bad = loop {
        let count = match recording.read(&mut buffer[held..]) {
            Ok(0) => break held != 0,
            Ok(count) => count,
            Err(error) if error.kind() == ErrorKind::Interrupted => continue,
            Err(error) => return Err(error),
        };
        held += count;
        match player.play(&buffer[..held])? {
            Some(played) => {
                buffer.copy_within(played..held, 0);
                held -= played;
            }
            None => break true,
        }
    };
    if bad {
        player.lines.bad_record(player.records + 1)?;
    }
    player.lines.flush()
}

/// The machine of a run, and how far it has come.
struct Player<W> {
    storage: Vec<u8>,
    keys: Vec<u8>,
    processors: [Processor; 2],
    fetched: [u8; ACCESS_MAXIMUM],
    requests: u64,
    /// The good records.
    records: u64,
    lines: Lines<W>,
}

impl<W: Write> Player<W> {
    fn new(lines: W) -> Player<W> {
        Player {
            storage: vec![0; STORAGE_LENGTH],
            keys: vec![0; SETTINGS.key_count(STORAGE_LENGTH)],
            processors: [Processor::default(); 2],
            fetched: [0; ACCESS_MAXIMUM],
            requests: 0,
            records: 0,
            lines: Lines::new(lines),
        }
    }

    /// Plays the whole records that the bytes begin with, and gives the number of their bytes, or
    /// `None` where one is bad.
    fn play(&mut self, bytes: &[u8]) -> io::Result<Option<usize>> {
        let mut rest = bytes;
        while let Some((length, behind)) = rest.split_first_chunk() {
            let length = usize::from(u16::from_le_bytes(*length));
            if length > LENGTH_MAXIMUM {
                return Ok(None);
            }
            let Some((record, behind)) = behind.split_at_checked(length) else {
                break;
            };
            if !self.record(record)? {
                return Ok(None);
            }
            self.records += 1;
            rest = behind;
        }
        Ok(Some(bytes.len() - rest.len()))
    }

    /// Plays a record, of which the length is taken away. Gives whether it is good.
    #[inline]
    fn record(&mut self, record: &[u8]) -> io::Result<bool> {
        let answer = match *record {
            [1, 0, processor, a, b, c, d, low, high] => {
                let address = u32::from_le_bytes([a, b, c, d]);
                self.fetch(processor, address, u16::from_le_bytes([low, high]))
            }
            [2, 0, processor, a, b, c, d, low, high, ref data @ ..] => {
                if data.len() != usize::from(u16::from_le_bytes([low, high])) {
                    return Ok(false);
                }
                self.store(processor, u32::from_le_bytes([a, b, c, d]), data)
            }
            [3, 0, processor, instruction, a, b, c, d, e, f, g, h] => {
                let r1 = u32::from_le_bytes([a, b, c, d]);
                let r2 = u32::from_le_bytes([e, f, g, h]);
                match key_instruction(instruction, r1, r2) {
                    Some(request) => self.instruction(processor, &request),
                    None => return Ok(false),
                }
            }
            [4, 0, processor, 0, a, b, c, d] => {
                let word = u32::from_le_bytes([a, b, c, d]);
                self.instruction(processor, &Request::set_prefix(word))
            }
            [4, 0, processor, 1, _, _, _, _] => {
                self.instruction(processor, &Request::store_prefix())
            }
            [255, 0, ref text @ ..] => return Ok(text.len() <= REMARK_MAXIMUM),
            _ => return Ok(false),
        };
        self.requests += 1;
        self.lines.request(self.requests, answer)?;
        Ok(true)
    }

    #[inline]
    fn fetch(&mut self, processor: u8, address: u32, length: u16) -> FlatAnswer {
        let Some(own) = self.processors.get(usize::from(processor)) else {
            return refused(Reason::Record);
        };
        let Some(bytes) = self.fetched.get_mut(..usize::from(length)) else {
            return refused(Reason::Operand);
        };
        plain::fetch(SETTINGS, &self.storage, &mut self.keys, own, address, bytes)
    }

    #[inline]
    fn store(&mut self, processor: u8, address: u32, data: &[u8]) -> FlatAnswer {
        let Some(own) = self.processors.get(usize::from(processor)) else {
            return refused(Reason::Record);
        };
        plain::store(
            SETTINGS,
            &mut self.storage,
            &mut self.keys,
            own,
            address,
            data,
        )
    }

    #[inline]
    fn instruction(&mut self, processor: u8, request: &Request) -> FlatAnswer {
        plain::request(
            SETTINGS,
            &mut self.storage,
            &mut self.keys,
            &mut self.processors,
            processor.into(),
            request,
            &mut [],
        )
    }
}

fn refused(reason: Reason) -> FlatAnswer {
    FlatAnswer {
        reason: Some(reason),
        place: 0,
        word: 0,
        rule: None,
    }
}

#[inline]
fn key_instruction(instruction: u8, r1: u32, r2: u32) -> Option<Request> {
    Some(match instruction {
        0 => Request::isk(r1, r2),
        1 => Request::ssk(r1, r2),
        2 => Request::rrb(r2),
        3 => Request::iske(r1, r2),
        4 => Request::sske(r1, r2),
        5 => Request::rrbe(r2),
        _ => return None,
    })
}

/// The longest line, that of a bad record with an ordinal of 20 digits.
const LINE_MAXIMUM: usize = 32;

/// Lines that are written through a buffer.
struct Lines<W> {
    output: W,
    buffer: Vec<u8>,
}

impl<W: Write> Lines<W> {
    fn new(output: W) -> Lines<W> {
        Lines {
            output,
            buffer: Vec::with_capacity(BUFFER),
        }
    }

    #[inline]
    fn request(&mut self, ordinal: u64, answer: FlatAnswer) -> io::Result<()> {
        self.make_room()?;
        put_number(&mut self.buffer, ordinal);
        self.buffer.push(b' ');
        put_number(&mut self.buffer, answer.number().into());
        self.buffer.push(b' ');
        put_number(&mut self.buffer, answer.place.into());
        self.buffer.push(b'\n');
        Ok(())
    }

    fn bad_record(&mut self, ordinal: u64) -> io::Result<()> {
        self.make_room()?;
        self.buffer.extend_from_slice(b"bad record ");
        put_number(&mut self.buffer, ordinal);
        self.buffer.push(b'\n');
        Ok(())
    }

    #[inline]
    fn make_room(&mut self) -> io::Result<()> {
        if BUFFER - self.buffer.len() < LINE_MAXIMUM {
            self.write()?;
        }
        Ok(())
    }

    #[cold]
    fn write(&mut self) -> io::Result<()> {
        self.output.write_all(&self.buffer)?;
        self.buffer.clear();
        Ok(())
    }

    fn flush(&mut self) -> io::Result<()> {
        self.write()?;
        self.output.flush()
    }
}

/// The numbers 0 to 99 in two digits each.
const PAIRS: [[u8; 2]; 100] = {
    let mut pairs = [[0; 2]; 100];
    let mut number = 0;
    while number < 100 {
        pairs[number] = [b'0' + (number / 10) as u8, b'0' + (number % 10) as u8];
        number += 1;
    }
    pairs
};

/// Puts a number in decimal, two digits at a time from the right.
#[inline]
fn put_number(buffer: &mut Vec<u8>, mut number: u64) {
    if number < 10 {
        buffer.push(b'0' + number as u8);
        return;
    }
    let mut digits = [0; 20];
    let mut start = digits.len();
    while number >= 10 {
        start -= 2;
        digits[start..start + 2].copy_from_slice(&PAIRS[(number % 100) as usize]);
        number /= 100;
    }
    if number > 0 {
        start -= 1;
        digits[start] = b'0' + number as u8;
    }
    buffer.extend_from_slice(&digits[start..]);
}
