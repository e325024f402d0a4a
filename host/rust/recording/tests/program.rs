//! The program: its commands, its messages and its exit statuses.

use std::io::Write;
use std::process::{Command, Output, Stdio};
use std::thread;

/// Runs the program with these words and this standard input.
fn run(words: &[&str], input: &[u8]) -> Output {
    let mut program = Command::new(env!("CARGO_BIN_EXE_recording"))
        .args(words)
        .stdin(Stdio::piped())
        .stdout(Stdio::piped())
        .stderr(Stdio::piped())
        .spawn()
        .expect("the program");
    let mut pipe = program.stdin.take().expect("a pipe");
    let input = input.to_vec();
    // A program that does not read leaves the pipe closed.
    let writer = thread::spawn(move || drop(pipe.write_all(&input)));
    let output = program.wait_with_output().expect("what it wrote");
    writer.join().expect("the input");
    output
}

/// Standard output, standard error and exit status.
fn parts(output: &Output) -> (&[u8], &str, Option<i32>) {
    let errors = str::from_utf8(&output.stderr).expect("text");
    (&output.stdout, errors, output.status.code())
}

const TEXT: &[u8] = b"# a case\nfetch 0 0x0 1\nstore 1 0x2000 x00ff\n";
const RECORDING: &[u8] = b"\x08\x00\xff\x00a case\
    \x09\x00\x01\x00\x00\x00\x00\x00\x00\x01\x00\
    \x0b\x00\x02\x00\x01\x00\x20\x00\x00\x02\x00\x00\xff";

#[test]
fn write_and_read() {
    assert_eq!(parts(&run(&["write"], TEXT)), (RECORDING, "", Some(0)));
    assert_eq!(parts(&run(&["read"], RECORDING)), (TEXT, "", Some(0)));
    for command in ["write", "read"] {
        assert_eq!(parts(&run(&[command], b"")), (&b""[..], "", Some(0)));
    }
}

/// A recording that is longer than any buffer of the program.
#[test]
fn long_recording() {
    let (text, recording) = (TEXT.repeat(20_000), RECORDING.repeat(20_000));
    assert!(run(&["write"], &text).stdout == recording);
    assert!(run(&["read"], &recording).stdout == text);
}

#[test]
fn errors() {
    let wrong = b"fetch 0 0 1\nfetch 0\n";
    assert_eq!(
        parts(&run(&["write"], wrong)),
        (
            &b""[..],
            "recording: line 2: expected an address, a number up to 0xffffffff, \
             found the end of the line\n",
            Some(1)
        )
    );
    let cut = &RECORDING[..RECORDING.len() - 1];
    assert_eq!(
        parts(&run(&["read"], cut)),
        (
            &b"# a case\nfetch 0 0x0 1\n"[..],
            "recording: bad record 3 at offset 21: the recording ends inside it\n",
            Some(1)
        )
    );
}

/// What is no recording has a bad record at its start, most often.
#[test]
fn inputs_that_are_no_recording() {
    for (input, fault) in [
        (TEXT, "its length is 8227, over 512"),
        (b"A", "the recording ends inside it"),
        (b"\x02\x00\x00\x00", "its kind is 0, which there is not"),
    ] {
        let message = format!(
            "recording: bad record 1 at offset 0: {fault}; the input may be no recording\n"
        );
        let output = run(&["read"], input);
        assert_eq!(parts(&output), (&b""[..], message.as_str(), Some(1)));
    }
}

/// The offset counts all bytes of a recording that comes in many pieces.
#[test]
fn offset_in_a_long_recording() {
    let recording = [&RECORDING.repeat(20_000)[..], b"\x00\x00"].concat();
    let output = run(&["read"], &recording);
    assert_eq!(
        parts(&output).1,
        format!(
            "recording: bad record 60001 at offset {}: its length is 0, too short for a kind\n",
            20_000 * RECORDING.len()
        )
    );
}

/// The help has every limit, and each is the greatest that the program takes.
#[test]
fn limits_of_the_help() {
    let help = run(&["--help"], b"").stdout;
    let help = str::from_utf8(&help).expect("text");
    for limit in [
        "0 to 255;",
        "0 to 0xffffffff",
        "0 to 65535;",
        "0 to 503 bytes",
        "0 to 256 bytes",
    ] {
        assert!(help.contains(limit), "{limit}");
    }
    assert!(help.lines().all(|line| line.len() <= 100), "{help}");
    let accepted = |line: &str| run(&["write"], line.as_bytes()).status.success();
    let (data, text) = ("00".repeat(503), "A".repeat(256));
    for (greatest, over) in [
        ("fetch 255 0 0".to_string(), "fetch 256 0 0".to_string()),
        (
            "fetch 0 0xffffffff 0".to_string(),
            "fetch 0 0x100000000 0".to_string(),
        ),
        ("fetch 0 0 65535".to_string(), "fetch 0 0 65536".to_string()),
        (
            "isk 0 0xffffffff 0xffffffff".to_string(),
            "isk 0 0 0x100000000".to_string(),
        ),
        (
            "set_prefix 0 0xffffffff".to_string(),
            "set_prefix 0 0x100000000".to_string(),
        ),
        (format!("store 0 0 x{data}"), format!("store 0 0 x{data}00")),
        (format!("# {text}"), format!("# {text}A")),
    ] {
        assert!(accepted(&greatest), "{greatest}");
        assert!(!accepted(&over), "{over}");
    }
}

#[test]
fn usage() {
    for words in [&[][..], &["wirte"], &["read", "file"], &["--help", "read"]] {
        let output = run(words, b"");
        let (printed, errors, status) = parts(&output);
        assert_eq!((printed, status), (&b""[..], Some(2)));
        assert!(errors.starts_with("recording: usage: "), "{errors}");
    }
    for word in ["-h", "--help"] {
        let output = run(&[word], b"");
        let (printed, errors, status) = parts(&output);
        assert_eq!((errors, status), ("", Some(0)));
        assert!(str::from_utf8(printed).is_ok_and(|help| help.contains("Exit status")));
    }
    let version = concat!("recording ", env!("CARGO_PKG_VERSION"), "\n");
    assert_eq!(run(&["--version"], b"").stdout, version.as_bytes());
}
