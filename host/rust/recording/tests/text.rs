//! Recordings to text and back: written cases, and random recordings, whole and damaged.

use std::io::{self, Read};

use recording::{
    BadRecord, Fault, Instruction, ReadError, Record, TooLong, decode, encode, parse_line, records,
    show,
};

/// Random numbers by SplitMix64.
struct Random(u64);

impl Random {
    fn word(&mut self) -> u32 {
        self.0 = self.0.wrapping_add(0x9E37_79B9_7F4A_7C15);
        let mut mixed = self.0;
        mixed = (mixed ^ (mixed >> 30)).wrapping_mul(0xBF58_476D_1CE4_E5B9);
        mixed = (mixed ^ (mixed >> 27)).wrapping_mul(0x94D0_49BB_1331_11EB);
        (mixed >> 32) as u32
    }

    fn below(&mut self, limit: u32) -> u32 {
        self.word() % limit
    }

    fn bytes(&mut self, limit: u32) -> Vec<u8> {
        let length = match self.below(4) {
            0 => self.below(limit + 1),
            1 => [0, 1, limit - 1, limit][self.below(4) as usize],
            _ => self.below(20),
        };
        // Bytes of all sorts, or characters only, with many that need an escape.
        let all = self.below(2) == 0;
        let mut byte = || match all {
            true => self.word() as u8,
            false => b" #\"\\xn\r\nAZ~"[self.below(11) as usize],
        };
        (0..length).map(|_| byte()).collect()
    }

    fn operand(&mut self) -> u32 {
        [0, 1, 0x1000, u32::MAX, self.word()][self.below(5) as usize]
    }
}

fn random_record(random: &mut Random) -> Record {
    let processor = [0, 1, 2, 255][random.below(4) as usize];
    match random.below(6) {
        0 => Record::Fetch {
            processor,
            address: random.operand(),
            length: random.word() as u16,
        },
        1 => Record::Store {
            processor,
            address: random.operand(),
            data: random.bytes(503),
        },
        2 => Record::Key {
            processor,
            instruction: Instruction::ALL[random.below(6) as usize],
            r1: random.operand(),
            r2: random.operand(),
        },
        3 => Record::SetPrefix {
            processor,
            word: random.operand(),
        },
        4 => Record::StorePrefix {
            processor,
            word: random.operand(),
        },
        _ => Record::Remark(random.bytes(256)),
    }
}

fn random_recording(random: &mut Random) -> (Vec<Record>, Vec<u8>) {
    let count = random.below(8);
    let written: Vec<_> = (0..count).map(|_| random_record(random)).collect();
    let mut recording = Vec::new();
    for record in &written {
        record.encode(&mut recording).expect("a record that fits");
    }
    (written, recording)
}

/// Gives pieces of random lengths, some of one byte.
struct Pieces<'a> {
    rest: &'a [u8],
    random: Random,
}

impl Read for Pieces<'_> {
    fn read(&mut self, buffer: &mut [u8]) -> io::Result<usize> {
        let greatest = [1, 10, 600][self.random.below(3) as usize];
        let count = self
            .rest
            .len()
            .min(1 + self.random.below(greatest) as usize);
        buffer[..count].copy_from_slice(&self.rest[..count]);
        self.rest = &self.rest[count..];
        Ok(count)
    }
}

/// The text of a recording that comes in pieces, and the bad record.
fn shown(recording: &[u8], seed: u64) -> (String, Option<BadRecord>) {
    let mut text = Vec::new();
    let pieces = Pieces {
        rest: recording,
        random: Random(seed),
    };
    let bad = match show(pieces, &mut text) {
        Ok(()) => None,
        Err(ReadError::Bad(bad)) => Some(bad),
        Err(ReadError::Io(error)) => panic!("{error}"),
    };
    (String::from_utf8(text).expect("text"), bad)
}

/// Every recording comes back from its text, which has a line for each record.
#[test]
fn recordings_come_back() {
    let random = &mut Random(1_927);
    for seed in 0..100_000 {
        let (written, recording) = random_recording(random);
        let read: Result<Vec<_>, _> = records(&recording).collect();
        assert_eq!(read.as_ref(), Ok(&written));
        let (text, bad) = decode(&recording);
        assert_eq!(bad, None);
        assert_eq!(text.lines().count(), written.len(), "{text}");
        assert!(text.is_ascii(), "{text}");
        assert_eq!(encode(text.as_bytes()).as_ref(), Ok(&recording), "{text}");
        if seed % 16 == 0 {
            assert_eq!(shown(&recording, seed), (text, None));
        }
    }
}

/// A damaged recording is shown up to its bad record, and what is shown comes back. Any bytes do.
#[test]
fn damaged_recordings() {
    let random = &mut Random(1_931);
    let mut bad_ones = 0;
    for seed in 0..100_000 {
        let (_, mut recording) = random_recording(random);
        match random.below(4) {
            0 => recording.truncate(random.below(recording.len() as u32 + 1) as usize),
            1 => recording.extend_from_slice(&random.bytes(20)),
            _ if recording.is_empty() => {}
            _ => {
                let place = random.below(recording.len().min(40) as u32) as usize;
                recording[place] = recording[place].wrapping_add(random.word() as u8 % 3);
            }
        }
        let (text, bad) = decode(&recording);
        let back = encode(text.as_bytes()).expect("the text of records");
        assert!(recording.starts_with(&back));
        let lines = text.lines().count() as u64;
        match bad {
            None => assert_eq!(back, recording),
            Some(bad) => {
                bad_ones += 1;
                assert_eq!(bad.ordinal, lines + 1);
                assert_eq!(bad.offset, back.len() as u64);
                assert_eq!(Record::decode(&recording[back.len()..]), Err(bad.fault));
            }
        }
        if seed % 16 == 0 {
            assert_eq!(shown(&recording, seed), (text, bad));
        }
    }
    assert!(bad_ones > 10_000, "{bad_ones}");
}

/// Damaged text is refused, or is a record that comes back from its own line.
#[test]
fn damaged_text() {
    let random = &mut Random(1_933);
    let mut refused = 0;
    for _ in 0..100_000 {
        let mut line = random_record(random).to_string().into_bytes();
        for _ in 0..=random.below(2) {
            let place = random.below(line.len() as u32 + 1) as usize;
            let byte = b" #\"\\x0=-\t\r\xC3a9_"[random.below(14) as usize];
            match line.get_mut(place) {
                Some(old) if random.below(2) == 0 => *old = byte,
                _ => line.insert(place, byte),
            }
        }
        match parse_line(&line) {
            Ok(record) => {
                let text = record.as_ref().map_or(String::new(), Record::to_string);
                assert_eq!(parse_line(text.as_bytes()), Ok(record), "{text}");
            }
            Err(error) => {
                refused += 1;
                assert!(error.message.starts_with("expected "), "{error}");
            }
        }
    }
    assert!((10_000..90_000).contains(&refused), "{refused}");
}

/// Text that no program has written: other numbers, blanks, cases and forms.
#[test]
fn forms_of_text() {
    for (text, shown) in [
        ("fetch 0 0x1000 16", "fetch 0 0x1000 16"),
        ("  FETCH\t0x00  4096 0X10 \r", "fetch 0 0x1000 16"),
        (
            "store 1 8192 \"a \\x41\\\" \\\\\"",
            "store 1 0x2000 \"a A\\\" \\\\\"",
        ),
        ("store 1 8192 \"\\x00\\xff\"", "store 1 0x2000 x00ff"),
        ("store 1 8192 x00Ff10", "store 1 0x2000 x00ff10"),
        ("store 1 8192 X4142", "store 1 0x2000 \"AB\""),
        ("store 1 8192 x", "store 1 0x2000 \"\""),
        ("isk 0 1 2", "isk 0 0x1 0x2"),
        ("rrb 0 4096", "rrb 0 0x1000"),
        ("rrb 0 4096 r1=5", "rrb 0 0x1000 r1=0x5"),
        ("rrb 0 4096 R1=0X5", "rrb 0 0x1000 r1=0x5"),
        ("rrbe 255 4096 r1=0", "rrbe 255 0x1000"),
        ("Rrbe 1 4096 R1=7", "rrbe 1 0x1000 r1=0x7"),
        ("set_prefix 0 4294967295", "set_prefix 0 0xffffffff"),
        ("store_prefix 1", "store_prefix 1"),
        ("store_prefix 1 word=0x10", "store_prefix 1 word=0x10"),
        ("STORE_PREFIX 1 Word=16", "store_prefix 1 word=0x10"),
        ("fetch 010 010 010", "fetch 10 0xa 10"),
        ("\u{feff}fetch 0 0 1", "fetch 0 0x0 1"),
        ("\u{feff}\r\n\tfetch 0 0 1\r\n\r\n", "fetch 0 0x0 1"),
        ("\u{feff}# \u{feff}", "# \\xef\\xbb\\xbf"),
        ("# a\r\n", "# a"),
        ("#", "#"),
        ("# ", "#"),
        ("#remark", "# remark"),
        ("#  two blanks ", "#  two blanks\\x20"),
        ("# \u{e9} \\n \" \\\"", "# \\xc3\\xa9 \\n \" \""),
    ] {
        let recording = encode(text.as_bytes()).unwrap_or_else(|error| panic!("{text}: {error}"));
        assert_eq!(decode(&recording), (format!("{shown}\n"), None), "{text}");
        assert_eq!(encode(shown.as_bytes()), Ok(recording), "{shown}");
    }
    for blank in ["", "\n", "  \n\t\r\n", "\u{feff}", "\u{feff}\n"] {
        assert_eq!(encode(blank.as_bytes()), Ok(Vec::new()));
    }
}

#[test]
fn errors_in_text() {
    let names = "expected fetch, store, isk, ssk, rrb, iske, sske, rrbe, set_prefix, \
                 store_prefix or #";
    let escapes =
        "expected one of the escapes \\n, \\r, \\t, \\\", \\\\ and \\x with two hexadecimal digits";
    let data = "expected data, a text in quotes or pairs of hexadecimal digits behind an x";
    let in_a_remark = "; in a remark too, a backslash is written \\\\";
    let no_length = "; a store has no length of its own, only its data";
    let end = "expected the end of the line";
    for (line, message) in [
        (
            "fetch",
            "expected a processor, a number up to 255, found the end of the line",
        ),
        ("fitch 0 0 1", &format!("{names}, found \"fitch\"")),
        (
            "fetch 256 0 1",
            "expected a processor, a number up to 255, found \"256\"",
        ),
        (
            "fetch 0 -1 1",
            "expected an address, a number up to 0xffffffff, found \"-1\"",
        ),
        (
            "fetch 0 +1 1",
            "expected an address, a number up to 0xffffffff, found \"+1\"",
        ),
        (
            "fetch 0 0x 1",
            "expected an address, a number up to 0xffffffff, found \"0x\"",
        ),
        (
            "fetch 0 12ab 1",
            "expected an address, a number up to 0xffffffff, found \"12ab\"",
        ),
        (
            "fetch 0 0x100000000 1",
            "expected an address, a number up to 0xffffffff, found \"0x100000000\"",
        ),
        (
            "fetch 0 0 65536",
            "expected a length, a number up to 65535, found \"65536\"",
        ),
        ("fetch 0 0 1 2", "expected the end of the line, found \"2\""),
        (
            "isk 0 1",
            "expected R2, a number up to 0xffffffff, found the end of the line",
        ),
        (
            "rrb 0 1 2",
            "expected the end of the line or r1=, a number up to 0xffffffff, found \"2\"",
        ),
        (
            "store_prefix 0 r1=2",
            "expected the end of the line or word=, a number up to 0xffffffff, found \"r1=2\"",
        ),
        ("store 0 0", &format!("{data}, found the end of the line")),
        ("store 0 0 41", &format!("{data}, found \"41\"")),
        ("store 0 0 41 ", &format!("{data}, found \"41\"")),
        (
            "store 0 0 3 \"ABC\"",
            &format!("{data}, found \"3\"{no_length}"),
        ),
        (
            "store 0 0 0x3 x414243",
            &format!("{data}, found \"0x3\"{no_length}"),
        ),
        ("store 0 0 ABC \"ABC\"", &format!("{data}, found \"ABC\"")),
        ("fetch 0 0 1 # a remark", &format!("{end}, found \"#\"")),
        (
            &format!("fetch 0 0 1 {}", "A".repeat(40)),
            &format!("{end}, found \"{}\"", "A".repeat(40)),
        ),
        (
            &format!("fetch 0 0 1 {}", "A".repeat(41)),
            &format!("{end}, found \"{}\"...", "A".repeat(40)),
        ),
        (
            &format!("store 0 0 \"A\"{}", "\\".repeat(100_000)),
            &format!("{end}, found \"{}\"...", "\\".repeat(80)),
        ),
        (
            "store_prefix 0 wor",
            "expected the end of the line or word=, a number up to 0xffffffff, found \"wor\"",
        ),
        (
            "rrb 0 1 R1=x",
            "expected the end of the line or r1=, a number up to 0xffffffff, found \"R1=x\"",
        ),
        (
            "\u{feff}fetch 0 0 1",
            &format!("{names}, found \"\\xef\\xbb\\xbffetch\""),
        ),
        ("store 0 0 x414", &format!("{data}, found \"x414\"")),
        (
            "store 0 0 \"A",
            "expected a quote behind the data, found the end of the line",
        ),
        (
            "store 0 0 \"A\"B",
            "expected the end of the line, found \"B\"",
        ),
        ("store 0 0 \"A\\x4\"", &format!("{escapes}, found \\x4")),
        ("store 0 0 \"A\\xg4\"", &format!("{escapes}, found \\x")),
        ("store 0 0 \"\\N\"", &format!("{escapes}, found \\N")),
        ("store 0 0 \"\\", &format!("{escapes}, found \\")),
        ("# \\q", &format!("{escapes}, found \\q{in_a_remark}")),
        (
            "# C:\\temp\\queue",
            &format!("{escapes}, found \\q{in_a_remark}"),
        ),
        ("# \\x4", &format!("{escapes}, found \\x4{in_a_remark}")),
        ("# \\ a", &format!("{escapes}, found \\{in_a_remark}")),
        ("# \\\u{e9}", &format!("{escapes}, found \\{in_a_remark}")),
        ("# \\", &format!("{escapes}, found \\{in_a_remark}")),
        (
            &format!("# {}", "A".repeat(257)),
            "expected at most 256 bytes in a remark, found 257",
        ),
        (
            &format!("store 0 0 x{}", "00".repeat(504)),
            "expected at most 503 bytes in a store, found 504",
        ),
    ] {
        let text = format!("# one\n\n{line}\nfetch 0 0 1\n");
        let error = encode(text.as_bytes()).expect_err(line);
        assert_eq!(error.to_string(), format!("line 3: {message}"));
    }
}

#[test]
fn faults_of_records() {
    let fetch = [9, 0, 1, 0, 0, 0, 0, 0, 0, 1, 0];
    let bodies: [(&[u8], &str); 12] = [
        (&[9], "the recording ends inside it"),
        (&fetch[..10], "the recording ends inside it"),
        (&[0, 0], "its length is 0, too short for a kind"),
        (&[1, 0, 1], "its length is 1, too short for a kind"),
        (&[1, 2], "its length is 513, over 512"),
        (&[2, 0, 5, 0], "its kind is 5, which there is not"),
        (&[3, 0, 1, 0, 0], "its length is 3, and a fetch has 9"),
        (
            &[8, 0, 2, 0, 0, 0, 0, 0, 0, 0],
            "its length is 8, and a store has 9",
        ),
        (
            &[9, 0, 2, 0, 0, 0, 0, 0, 0, 1, 0],
            "it states 1 data bytes and has 0",
        ),
        (
            &[2, 0, 3, 0],
            "its length is 2, and a key instruction has 12",
        ),
        (
            &[12, 0, 3, 0, 2, 6, 0, 0, 0, 0, 0, 0, 0, 0],
            "its key instruction is 6, which there is not",
        ),
        (
            &[8, 0, 4, 0, 2, 2, 0, 0, 0, 0],
            "its prefix instruction is 2, which there is not",
        ),
    ];
    for (bytes, message) in bodies {
        let (text, bad) = decode(&[&fetch, bytes].concat());
        assert_eq!(text, "fetch 0 0x0 1\n");
        let bad = bad.expect(message);
        let message = format!("bad record 2 at offset 11: {message}");
        assert_eq!(bad.to_string(), message);
    }
    let remark = [&[3, 1, 255, 0][..], &[0; 257]].concat();
    assert_eq!(
        decode(&remark).1,
        Some(BadRecord {
            ordinal: 1,
            offset: 0,
            fault: Fault::Remark(257)
        })
    );
}

#[test]
fn records_that_do_not_fit() {
    let store = |length| Record::Store {
        processor: 0,
        address: 0,
        data: vec![0; length],
    };
    for (record, bytes, maximum) in [
        (store(504), 504, 503),
        (store(65_536), 65_536, 503),
        (Record::Remark(vec![0; 257]), 257, 256),
    ] {
        let mut recording = vec![1, 2];
        assert_eq!(
            record.encode(&mut recording),
            Err(TooLong { bytes, maximum })
        );
        assert_eq!(recording, [1, 2]);
    }
}
