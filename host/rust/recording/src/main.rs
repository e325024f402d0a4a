//! The program `recording`: writes recordings from text, and shows them as text.

#![forbid(unsafe_code)]

use std::env;
use std::io::{self, BufWriter, ErrorKind, Read, Write};
use std::process::ExitCode;

use recording::{ReadError, encode, show};

const HELP: &str = r#"Writes recordings for the program playback from text, and shows them as text.

usage: recording write < TEXT > RECORDING
       recording read < RECORDING > TEXT

A line of the text is a record. Blank lines are skipped.

  fetch PROCESSOR ADDRESS LENGTH
  store PROCESSOR ADDRESS DATA     the length is that of DATA
  isk PROCESSOR R1 R2              and ssk, iske, sske
  rrb PROCESSOR ADDRESS            r1=WORD behind it, if the ignored word is not zero
  rrbe PROCESSOR R2                likewise
  set_prefix PROCESSOR WORD
  store_prefix PROCESSOR           word=WORD behind it, if the ignored word is not zero
  # TEXT                           a remark

  PROCESSOR              0 to 255; the unit refuses 2 and over with 65
  ADDRESS, R1, R2, WORD  0 to 0xffffffff
  LENGTH                 0 to 65535; the unit refuses 0 and over 256 with 66
  DATA                   "ABC" or xC1C2C3, a text in quotes or hexadecimal digits behind an x;
                         0 to 503 bytes, of which the unit refuses 0 and over 256 with 66
  TEXT                   0 to 256 bytes

Numbers are decimal, 010 too, or hexadecimal behind 0x. In quotes and in remarks, \n \r \t \" \\
and \xHH stand for one byte, and other bytes for themselves. Accepted besides: capitals in names,
r1=, word=, 0x, x and digits; tabs and more blanks; a carriage return at the end of a line; a last
line without its end; a byte order mark at the start. One blank behind # is dropped. A remark is a
line of its own: behind a record there is none.

write  writes nothing if a line is no record, and names the line; holds all in memory
read   shows all records before a bad one, and names it by its ordinal among all records and by
       its offset in bytes; holds one piece at a time

Exit status: 0 done; 1 a line or a record is bad, or reading or writing failed; 2 wrong usage.
"#;

const FAILED: u8 = 1;
const USAGE: u8 = 2;

fn main() -> ExitCode {
    let arguments: Vec<_> = env::args_os().skip(1).collect();
    let words: Vec<_> = arguments.iter().map(|word| word.to_str()).collect();
    match words[..] {
        [Some("write")] => finished(write()),
        [Some("read")] => finished(read()),
        [Some("-h" | "--help")] => finished(print(HELP.as_bytes())),
        [Some("--version")] => finished(print(
            concat!("recording ", env!("CARGO_PKG_VERSION"), "\n").as_bytes(),
        )),
        _ => {
            complain("usage: recording write or recording read; recording --help says more");
            ExitCode::from(USAGE)
        }
    }
}

/// What ended a command, or `None` if whoever reads its output has had enough.
type Failure = Option<String>;

/// The text of standard input as a recording on standard output.
fn write() -> Result<(), Failure> {
    let mut text = Vec::new();
    io::stdin().read_to_end(&mut text).map_err(failure)?;
    let recording = encode(&text).map_err(|error| Some(error.to_string()))?;
    print(&recording)
}

/// The recording of standard input as text on standard output.
fn read() -> Result<(), Failure> {
    let text = BufWriter::new(io::stdout().lock());
    show(io::stdin().lock(), text).map_err(|error| match error {
        ReadError::Io(error) => failure(error),
        // Most inputs of another sort have no good record at all.
        ReadError::Bad(bad) if bad.ordinal == 1 => {
            Some(format!("{bad}; the input may be no recording"))
        }
        ReadError::Bad(bad) => Some(bad.to_string()),
    })
}

fn print(bytes: &[u8]) -> Result<(), Failure> {
    let mut output = io::stdout().lock();
    let written = output.write_all(bytes).and_then(|()| output.flush());
    written.map_err(failure)
}

fn failure(error: io::Error) -> Failure {
    match error.kind() {
        ErrorKind::BrokenPipe => None,
        _ => Some(error.to_string()),
    }
}

fn finished(result: Result<(), Failure>) -> ExitCode {
    match result {
        Ok(()) => ExitCode::SUCCESS,
        Err(failure) => {
            if let Some(failure) = failure {
                complain(&failure);
            }
            ExitCode::from(FAILED)
        }
    }
}

/// A line on standard error. Where that fails too, there is nowhere to say it.
fn complain(message: &str) {
    let _ = writeln!(io::stderr(), "recording: {message}");
}
