//! A record as a line of text.

use std::error::Error;
use std::fmt;

use crate::records::{Instruction, REMARK_MAXIMUM, Record, STORE_MAXIMUM, TooLong};

const FETCH: &str = "fetch";
const STORE: &str = "store";
const SET_PREFIX: &str = "set_prefix";
const STORE_PREFIX: &str = "store_prefix";

/// How many bytes of what was found a message shows.
const SHOWN: usize = 40;

/// What is wrong with a text, and in which line.
#[derive(Clone, Debug, PartialEq, Eq)]
pub struct TextError {
    /// The line, from 1; 0 for one that was parsed by itself.
    pub line: u64,
    /// What is wrong with the line.
    pub message: String,
}

impl TextError {
    /// The same in the line with this ordinal.
    #[must_use]
    pub fn in_line(self, line: u64) -> TextError {
        TextError { line, ..self }
    }

    /// Something else was found in place of what was expected.
    fn expected(what: &str, found: &[u8]) -> TextError {
        let found = match found {
            [] => "the end of the line".to_string(),
            word => match word.split_at_checked(SHOWN) {
                None | Some((_, [])) => format!("\"{}\"", Escaped(word)),
                Some((shown, _)) => format!("\"{}\"...", Escaped(shown)),
            },
        };
        TextError {
            line: 0,
            message: format!("expected {what}, found {found}"),
        }
    }

    /// The same with a hint behind it.
    fn hint(mut self, hint: &str) -> TextError {
        self.message.push_str("; ");
        self.message.push_str(hint);
        self
    }
}

impl From<TooLong> for TextError {
    fn from(error: TooLong) -> TextError {
        TextError {
            line: 0,
            message: error.to_string(),
        }
    }
}

impl fmt::Display for TextError {
    fn fmt(&self, f: &mut fmt::Formatter) -> fmt::Result {
        write!(f, "line {}: {}", self.line, self.message)
    }
}

impl Error for TextError {}

/// Bytes as they stand between quotes: those that are no printable character, and `"` and `\`,
/// by escapes.
struct Escaped<'a>(&'a [u8]);

impl fmt::Display for Escaped<'_> {
    fn fmt(&self, f: &mut fmt::Formatter) -> fmt::Result {
        for &byte in self.0 {
            match byte {
                b'"' => f.write_str("\\\"")?,
                _ => write_byte(f, byte)?,
            }
        }
        Ok(())
    }
}

/// A byte as it stands in a remark.
fn write_byte(f: &mut fmt::Formatter, byte: u8) -> fmt::Result {
    match byte {
        b'\\' => f.write_str("\\\\"),
        b'\n' => f.write_str("\\n"),
        b'\r' => f.write_str("\\r"),
        b'\t' => f.write_str("\\t"),
        b' '..=b'~' => write!(f, "{}", char::from(byte)),
        _ => write!(f, "\\x{byte:02x}"),
    }
}

/// The data of a store: in quotes if every byte is a printable character, else in hexadecimal.
struct Data<'a>(&'a [u8]);

impl fmt::Display for Data<'_> {
    fn fmt(&self, f: &mut fmt::Formatter) -> fmt::Result {
        if self.0.iter().all(|byte| (b' '..=b'~').contains(byte)) {
            return write!(f, "\"{}\"", Escaped(self.0));
        }
        f.write_str("x")?;
        self.0.iter().try_for_each(|byte| write!(f, "{byte:02x}"))
    }
}

/// A remark, behind `#`. A blank at its end, which an editor may take away, is an escape.
struct Remark<'a>(&'a [u8]);

impl fmt::Display for Remark<'_> {
    fn fmt(&self, f: &mut fmt::Formatter) -> fmt::Result {
        f.write_str("#")?;
        if self.0.is_empty() {
            return Ok(());
        }
        f.write_str(" ")?;
        match self.0 {
            [most @ .., b' '] => {
                most.iter().try_for_each(|&byte| write_byte(f, byte))?;
                f.write_str("\\x20")
            }
            all => all.iter().try_for_each(|&byte| write_byte(f, byte)),
        }
    }
}

/// The line of the record, without a line end.
impl fmt::Display for Record {
    fn fmt(&self, f: &mut fmt::Formatter) -> fmt::Result {
        match self {
            Record::Fetch {
                processor,
                address,
                length,
            } => write!(f, "{FETCH} {processor} {address:#x} {length}"),
            Record::Store {
                processor,
                address,
                data,
            } => write!(f, "{STORE} {processor} {address:#x} {}", Data(data)),
            Record::Key {
                processor,
                instruction,
                r1,
                r2,
            } => {
                let name = instruction.name();
                if instruction.ignores_r1() {
                    write!(f, "{name} {processor} {r2:#x}")?;
                    write_ignored(f, "r1", *r1)
                } else {
                    write!(f, "{name} {processor} {r1:#x} {r2:#x}")
                }
            }
            Record::SetPrefix { processor, word } => {
                write!(f, "{SET_PREFIX} {processor} {word:#x}")
            }
            Record::StorePrefix { processor, word } => {
                write!(f, "{STORE_PREFIX} {processor}")?;
                write_ignored(f, "word", *word)
            }
            Record::Remark(text) => write!(f, "{}", Remark(text)),
        }
    }
}

/// A word that the unit ignores, unless it is zero.
fn write_ignored(f: &mut fmt::Formatter, name: &str, word: u32) -> fmt::Result {
    match word {
        0 => Ok(()),
        _ => write!(f, " {name}={word:#x}"),
    }
}

/// The record of a line, or `None` if the line is blank. A carriage return at its end is ignored.
///
/// # Errors
///
/// What was expected, and what was found. The number of the line is 0.
///
/// ```
/// use recording::{Record, parse_line};
///
/// let record = Record::Fetch { processor: 1, address: 4096, length: 16 };
/// assert_eq!(parse_line(b"fetch 1 0x1000 16"), Ok(Some(record)));
/// assert_eq!(parse_line(b"  "), Ok(None));
/// ```
pub fn parse_line(line: &[u8]) -> Result<Option<Record>, TextError> {
    let line = line.strip_suffix(b"\r").unwrap_or(line);
    let mut words = Words(line);
    let name = words.next();
    if name.is_empty() {
        return Ok(None);
    }
    if let Some((_, text)) = line.trim_ascii_start().split_first()
        && name.starts_with(b"#")
    {
        return remark(text).map(Some);
    }
    let record = request(name, &mut words)?;
    match words.next() {
        [] => Ok(Some(record)),
        more => Err(TextError::expected("the end of the line", more)),
    }
}

/// A remark, from what stands behind `#`.
fn remark(text: &[u8]) -> Result<Record, TextError> {
    let text = text.strip_prefix(b" ").unwrap_or(text);
    let mut remark = Vec::new();
    let mut rest = text;
    while !rest.is_empty() {
        let byte;
        (byte, rest) = character(rest)
            .map_err(|error| error.hint("in a remark too, a backslash is written \\\\"))?;
        remark.push(byte);
    }
    limited(remark, REMARK_MAXIMUM, "a remark").map(Record::Remark)
}

/// The bytes, if they are not more than the maximum.
fn limited(bytes: Vec<u8>, maximum: usize, what: &str) -> Result<Vec<u8>, TextError> {
    if bytes.len() <= maximum {
        return Ok(bytes);
    }
    Err(TextError {
        line: 0,
        message: format!(
            "expected at most {maximum} bytes in {what}, found {}",
            bytes.len()
        ),
    })
}

/// The request of this name, with operands from the words behind it.
fn request(name: &[u8], words: &mut Words) -> Result<Record, TextError> {
    let named = |expected: &str| name.eq_ignore_ascii_case(expected.as_bytes());
    if named(FETCH) {
        return Ok(Record::Fetch {
            processor: words.processor()?,
            address: words.word("an address")?,
            length: words.length()?,
        });
    }
    if named(STORE) {
        return Ok(Record::Store {
            processor: words.processor()?,
            address: words.word("an address")?,
            data: limited(words.data()?, STORE_MAXIMUM, "a store")?,
        });
    }
    if named(SET_PREFIX) {
        return Ok(Record::SetPrefix {
            processor: words.processor()?,
            word: words.word("a word")?,
        });
    }
    if named(STORE_PREFIX) {
        return Ok(Record::StorePrefix {
            processor: words.processor()?,
            word: words.ignored("word")?,
        });
    }
    let mut instructions = Instruction::ALL.into_iter();
    match instructions.find(|instruction| named(instruction.name())) {
        Some(instruction) => key_instruction(instruction, words),
        None => Err(TextError::expected(
            "fetch, store, isk, ssk, rrb, iske, sske, rrbe, set_prefix, store_prefix or #",
            name,
        )),
    }
}

fn key_instruction(instruction: Instruction, words: &mut Words) -> Result<Record, TextError> {
    let processor = words.processor()?;
    let (r1, r2) = match instruction {
        Instruction::Rrb | Instruction::Rrbe => {
            let designation = match instruction {
                Instruction::Rrb => "an address",
                _ => "R2",
            };
            let r2 = words.word(designation)?;
            (words.ignored("r1")?, r2)
        }
        _ => (words.word("R1")?, words.word("R2")?),
    };
    Ok(Record::Key {
        processor,
        instruction,
        r1,
        r2,
    })
}

/// What is left of a line.
struct Words<'a>(&'a [u8]);

impl<'a> Words<'a> {
    /// The next word, empty at the end of the line.
    fn next(&mut self) -> &'a [u8] {
        let line = self.0.trim_ascii_start();
        let end = line.iter().position(u8::is_ascii_whitespace);
        let (word, rest) = line.split_at(end.unwrap_or(line.len()));
        self.0 = rest;
        word
    }

    /// A number that is not over the maximum.
    fn number(&mut self, what: &str, maximum: u32) -> Result<u32, TextError> {
        let word = self.next();
        match number(word) {
            Some(number) if number <= maximum => Ok(number),
            _ => Err(TextError::expected(
                &format!("{what}, a number up to {}", limit(maximum)),
                word,
            )),
        }
    }

    fn processor(&mut self) -> Result<u8, TextError> {
        let number = self.number("a processor", u8::MAX.into())?;
        Ok(number as u8)
    }

    fn length(&mut self) -> Result<u16, TextError> {
        let number = self.number("a length", u16::MAX.into())?;
        Ok(number as u16)
    }

    fn word(&mut self, what: &str) -> Result<u32, TextError> {
        self.number(what, u32::MAX)
    }

    /// A word that the unit ignores, behind its name and `=`; zero if it is not there.
    fn ignored(&mut self, name: &str) -> Result<u32, TextError> {
        let word = self.next();
        if word.is_empty() {
            return Ok(0);
        }
        let value = match word.split_at_checked(name.len()) {
            Some((start, [b'=', value @ ..])) if start.eq_ignore_ascii_case(name.as_bytes()) => {
                number(value)
            }
            _ => None,
        };
        value.ok_or_else(|| {
            let what = format!("the end of the line or {name}=, a number up to 0xffffffff");
            TextError::expected(&what, word)
        })
    }

    /// The data of a store.
    fn data(&mut self) -> Result<Vec<u8>, TextError> {
        if let Some(text) = self.0.trim_ascii_start().strip_prefix(b"\"") {
            let (data, rest) = quoted(text)?;
            if rest.first().is_some_and(|byte| !byte.is_ascii_whitespace()) {
                return Err(TextError::expected("the end of the line", rest));
            }
            self.0 = rest;
            return Ok(data);
        }
        let word = self.next();
        let digits = word.strip_prefix(b"x").or(word.strip_prefix(b"X"));
        digits.and_then(bytes_of_digits).ok_or_else(|| {
            let what = "data, a text in quotes or pairs of hexadecimal digits behind an x";
            let error = TextError::expected(what, word);
            if number(word).is_some() && !self.0.trim_ascii().is_empty() {
                return error.hint("a store has no length of its own, only its data");
            }
            error
        })
    }
}

/// A greatest number as it is shown: a byte or half a word in decimal, a word in hexadecimal.
fn limit(maximum: u32) -> String {
    if maximum == u32::MAX {
        format!("{maximum:#x}")
    } else {
        maximum.to_string()
    }
}

/// A number in decimal, or in hexadecimal behind `0x`.
fn number(word: &[u8]) -> Option<u32> {
    let (digits, radix) = match word {
        [b'0', b'x' | b'X', digits @ ..] => (digits, 16),
        digits => (digits, 10),
    };
    // A sign is no digit.
    if !digits.iter().all(u8::is_ascii_hexdigit) {
        return None;
    }
    u32::from_str_radix(str::from_utf8(digits).ok()?, radix).ok()
}

/// The bytes that pairs of hexadecimal digits stand for.
fn bytes_of_digits(digits: &[u8]) -> Option<Vec<u8>> {
    let (pairs, []) = digits.as_chunks() else {
        return None;
    };
    pairs.iter().copied().map(byte_of_digits).collect()
}

fn byte_of_digits([high, low]: [u8; 2]) -> Option<u8> {
    let digit = |byte| char::from(byte).to_digit(16);
    u8::try_from(16 * digit(high)? + digit(low)?).ok()
}

/// The bytes up to the next quote, and what is behind it.
fn quoted(text: &[u8]) -> Result<(Vec<u8>, &[u8]), TextError> {
    let mut bytes = Vec::new();
    let mut rest = text;
    loop {
        match rest {
            [] => return Err(TextError::expected("a quote behind the data", rest)),
            [b'"', behind @ ..] => return Ok((bytes, behind)),
            _ => {
                let byte;
                (byte, rest) = character(rest)?;
                bytes.push(byte);
            }
        }
    }
}

/// The byte that a text, which is not empty, begins with, as itself or by an escape, and what is
/// behind it.
fn character(text: &[u8]) -> Result<(u8, &[u8]), TextError> {
    let (byte, behind) = match *text {
        [b'\\', b'\\', ref behind @ ..] => (b'\\', behind),
        [b'\\', b'"', ref behind @ ..] => (b'"', behind),
        [b'\\', b'n', ref behind @ ..] => (b'\n', behind),
        [b'\\', b'r', ref behind @ ..] => (b'\r', behind),
        [b'\\', b't', ref behind @ ..] => (b'\t', behind),
        [b'\\', b'x', high, low, ref behind @ ..] => {
            let byte = byte_of_digits([high, low]).ok_or_else(|| no_escape(text))?;
            (byte, behind)
        }
        [b'\\', ..] | [] => return Err(no_escape(text)),
        [byte, ref behind @ ..] => (byte, behind),
    };
    Ok((byte, behind))
}

/// The text begins with `\` and no escape. Of what it begins with, characters are shown.
fn no_escape(text: &[u8]) -> TextError {
    let shown = match text {
        [b'\\', b'x', digits @ ..] => {
            let digits = digits.iter().take_while(|byte| byte.is_ascii_hexdigit());
            &text[..2 + digits.take(2).count()]
        }
        [b'\\', b'!'..=b'~', ..] => &text[..2],
        _ => b"\\",
    };
    let shown = String::from_utf8_lossy(shown);
    TextError {
        line: 0,
        message: format!(
            "expected one of the escapes \\n, \\r, \\t, \\\", \\\\ and \\x with two hexadecimal \
             digits, found {shown}"
        ),
    }
}
