//! Recordings of requests to the storage unit, as bytes and as text.
//!
//! A recording is a sequence of records: a fetch, a store, a key instruction or a prefix
//! instruction of a processor, or a remark. The program `playback` plays one. In the text, a record
//! is a line:
//!
//! ```
//! let text = "\
//! ## the first job
//! store 0 0x1000 \"HELLO\"
//! fetch 1 0x1000 5
//! ssk 0 0x80 0x2000
//! ";
//! let recording = recording::encode(text.as_bytes())?;
//! assert_eq!(recording[..6], [0x0f, 0x00, 0xff, 0x00, b't', b'h']);
//! let (shown, bad) = recording::decode(&recording);
//! assert_eq!(shown, text);
//! assert_eq!(bad, None);
//! # Ok::<(), recording::TextError>(())
//! ```
//!
//! | Line | |
//! |---|---|
//! | `fetch PROCESSOR ADDRESS LENGTH` | LENGTH is at most 65535; the unit refuses 0 and over 256 |
//! | `store PROCESSOR ADDRESS DATA` | DATA is at most 503 bytes; the unit refuses 0 and over 256 |
//! | `isk PROCESSOR R1 R2` | and `ssk`, `iske`, `sske` |
//! | `rrb PROCESSOR ADDRESS` | and `r1=WORD`, if the ignored word is not zero |
//! | `rrbe PROCESSOR R2` | and `r1=WORD`, if the ignored word is not zero |
//! | `set_prefix PROCESSOR WORD` | |
//! | `store_prefix PROCESSOR` | and `word=WORD`, if the ignored word is not zero |
//! | `# TEXT` | a remark; TEXT is at most 256 bytes |
//!
//! PROCESSOR is a number from 0 to 255, of which the unit refuses 2 and over. ADDRESS, R1, R2 and
//! WORD are at most 0xffffffff. Numbers are decimal, also behind a zero, or hexadecimal behind
//! `0x`. DATA is a text in quotes, as `"ABC"`, or hexadecimal digits behind an x, as `xC1C2C3`. In
//! a text in quotes and in a remark, `\n`, `\r`, `\t`, `\"`, `\\` and `\xHH` stand for one byte;
//! other bytes stand for themselves.
//!
//! Lines that are blank are skipped. Names, `r1=`, `word=`, `0x`, the x of DATA and hexadecimal
//! digits may be in capitals; tabs and more blanks may stand between the words. A line may end with
//! a carriage return, the last without a line end, and the text may begin with a byte order mark.
//! One blank behind `#` is not part of the remark. Behind a record on its line there is no remark.

#![forbid(unsafe_code)]
#![deny(missing_docs)]

mod records;
mod streams;
mod text;

pub use records::{
    BadRecord, Fault, Instruction, LENGTH_MAXIMUM, REMARK_MAXIMUM, Record, Records, STORE_MAXIMUM,
    TooLong, records,
};
pub use streams::{ReadError, show};
pub use text::{TextError, parse_line};

/// What some editors put at the start of a text: U+FEFF in UTF-8.
const BYTE_ORDER_MARK: &[u8] = b"\xef\xbb\xbf";

/// The recording that a text stands for. A byte order mark at its start is skipped.
///
/// # Errors
///
/// The first line that is no record, and what was expected there.
///
/// ```
/// let error = recording::encode(b"fetch 0 0 1\nfetch 0 zero 1\n").unwrap_err();
/// assert_eq!(
///     error.to_string(),
///     "line 2: expected an address, a number up to 0xffffffff, found \"zero\""
/// );
/// ```
pub fn encode(text: &[u8]) -> Result<Vec<u8>, TextError> {
    let text = text.strip_prefix(BYTE_ORDER_MARK).unwrap_or(text);
    let mut recording = Vec::new();
    for (ordinal, line) in (1..).zip(text.split(|&byte| byte == b'\n')) {
        let record = parse_line(line).map_err(|error| error.in_line(ordinal))?;
        if let Some(record) = record {
            record
                .encode(&mut recording)
                .map_err(|error| TextError::from(error).in_line(ordinal))?;
        }
    }
    Ok(recording)
}

/// The text that stands for a recording: a line for each record up to the first bad one; and what
/// is wrong with that.
///
/// ```
/// let recording = [0x09, 0, 1, 0, 0, 0, 0, 0, 0, 1, 0, 0x01];
/// let (text, bad) = recording::decode(&recording);
/// assert_eq!(text, "fetch 0 0x0 1\n");
/// assert_eq!(
///     bad.unwrap().to_string(),
///     "bad record 2 at offset 11: the recording ends inside it"
/// );
/// ```
#[must_use]
pub fn decode(recording: &[u8]) -> (String, Option<BadRecord>) {
    let mut text = String::new();
    for record in records(recording) {
        match record {
            Ok(record) => text.push_str(&format!("{record}\n")),
            Err(bad) => return (text, Some(bad)),
        }
    }
    (text, None)
}
