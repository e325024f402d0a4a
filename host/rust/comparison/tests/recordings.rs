//! Random recordings, whole and damaged, by the proved player and by that of the reference: the
//! lines, and what is left of storage, keys and records. They are fed whole, in pieces and one byte
//! at a time, with long and with short outputs.
//!
//! `STORAGE_UNIT_RECORDINGS` sets how many recordings there are, `STORAGE_UNIT_SEED` the seed.

mod support;

use std::io::{self, Read, Write};
use std::thread;

use storage_unit::boundary::*;
use storage_unit::{Machine, PlayStatus, PlayedAll, Player, Processor, Settings};
use storage_unit_comparison::numbers::decode_settings;
use storage_unit_comparison::plain_player;
use storage_unit_comparison::player::{self, Run};

use support::recordings::*;
use support::*;

const DEFAULT_RECORDINGS: u64 = 1_000_000;
const DEFAULT_SEED: u64 = 1_970;

/// How many recordings are played on one machine.
const PER_MACHINE: u64 = 64;

/// In as many recordings, every case comes up.
const ENOUGH: u64 = 100_000;

/// Cases that must come up besides those of the recordings: fed whole, in pieces and one byte at a
/// time; each result; the numbers of answers that need another machine than that of the start.
const NEEDED_HERE: [(&str, &[usize]); 3] = [
    ("fed", &[0, 1, 2]),
    (
        "result",
        &[PLAY_MORE as usize, PLAY_ENDED as usize, PLAY_ROOM as usize],
    ),
    ("number", &[1, 2, 4, 19, 64]),
];

/// What an output holds before a call.
const KEPT: u8 = 0xEE;

/// The bytes that the proved player is lent.
struct Bytes {
    settings: u32,
    storage: Vec<u8>,
    keys: Vec<u8>,
    player: [u8; PLAYER_LENGTH],
}

impl Bytes {
    fn number(&self, place: usize) -> u64 {
        let bytes = self.player[place..place + 8].try_into();
        u64::from_le_bytes(bytes.expect("eight bytes"))
    }

    fn put_number(&mut self, place: usize, number: u64) {
        self.player[place..place + 8].copy_from_slice(&number.to_le_bytes());
    }

    fn play(&mut self, piece: &[u8], last: u32, output: &mut [u8]) -> u32 {
        // SAFETY: it is the C function of the static library.
        unsafe {
            call_play_raw(
                storage_unit_play,
                self.settings,
                &mut self.storage,
                &mut self.keys,
                &mut self.player,
                piece,
                last,
                output,
            )
        }
    }
}

/// A machine of the reference, and the same in bytes for the proved player.
struct Pair {
    machine: Machine,
    bytes: Bytes,
    /// The records as bytes, of which a wrong one is never written.
    records: [u8; RECORDS_LENGTH],
}

impl Pair {
    /// The machine that document 02 starts from, or another one.
    fn new(random: &mut Random) -> Pair {
        let machine = match random.below(16) {
            0..=7 => player::start(),
            _ => random_machine(random),
        };
        let bytes = Bytes {
            settings: encode_settings(machine.settings),
            storage: machine.storage.clone(),
            keys: machine.keys.clone(),
            player: [0; PLAYER_LENGTH],
        };
        let mut pair = Pair {
            records: encode_processors(&machine.processors),
            machine,
            bytes,
        };
        assert_eq!(
            decode_settings(pair.bytes.settings),
            Some(pair.machine.settings)
        );
        pair.put_records();
        pair
    }

    /// Other records in both, now and then a wrong one.
    fn change_records(&mut self, random: &mut Random) {
        let length = self.machine.storage.len().max(4096);
        let mut processors = [(); 2].map(|()| random_processor(random, length));
        if random.one_in(16) {
            damage(random, &mut processors[0], length);
        }
        self.records = encode_processors(&processors);
        if random.one_in(16) {
            let place = random.pick(&[CONTROLS_AT, RESERVED_AT, RECORD_LENGTH + RESERVED_AT]);
            self.records[place] ^= 1 << (3 + random.below(5));
        }
        self.machine.processors = decode_processors(&self.records);
        self.put_records();
    }

    fn put_records(&mut self) {
        self.bytes.player[..RECORDS_LENGTH].copy_from_slice(&self.records);
    }

    /// The bytes are those of the machine of the reference.
    fn check(&mut self) -> bool {
        for (number, own) in self.machine.processors.iter().enumerate() {
            let record = &mut self.records[number * RECORD_LENGTH..][..RECORD_LENGTH];
            // A record with a reserved bit on is taken for one with PSW key 255.
            if own.psw_key != 255 {
                record.copy_from_slice(&encode_processor(own));
            }
        }
        self.bytes.player[..RECORDS_LENGTH] == self.records
            && self.bytes.keys == self.machine.keys
            && self.bytes.storage == self.machine.storage
    }
}

/// A machine in any state, now and then with a wrong number of keys.
fn random_machine(random: &mut Random) -> Machine {
    let length = (1 + random.below(4) as usize) * 4096;
    let settings = Settings {
        four_k: random.one_in(2),
        extensions: !random.one_in(4),
    };
    let mut keys = vec![0; settings.key_count(length)];
    keys.fill_with(|| random_key(random));
    if random.one_in(16) {
        keys.pop();
    }
    Machine {
        settings,
        storage: random.bytes(length),
        keys,
        processors: [Processor::default(); 2],
    }
}

/// How a recording is fed: how many bytes more there are with each call, and the least and the
/// greatest length of an output.
#[derive(Clone, Copy)]
struct Feeding {
    pieces: Pieces,
    outputs: (u64, u64),
}

#[derive(Clone, Copy)]
enum Pieces {
    Whole,
    Random(u64),
    OneByte,
}

impl Pieces {
    fn next(self, random: &mut Random) -> usize {
        match self {
            Pieces::Whole => usize::MAX,
            Pieces::Random(greatest) => random.below(greatest + 1) as usize,
            Pieces::OneByte => 1,
        }
    }
}

fn random_feeding(random: &mut Random, cases: &mut Cases) -> Feeding {
    let (name, pieces) = match random.below(8) {
        0..=3 => (0, Pieces::Whole),
        4..=5 => (1, Pieces::Random(random.pick(&[3, 20, 600, 2_000]))),
        6 => (1, Pieces::Random(random.pick(&[3, 20]))),
        _ => (2, Pieces::OneByte),
    };
    cases.add("fed", name);
    // Under 64 bytes there is never room; the next output may be longer.
    let outputs = random.pick(&[(512, 512), (64, 64), (64, 90), (0, 100)]);
    Feeding { pieces, outputs }
}

/// A recording under way.
struct Fed<'a> {
    recording: &'a [u8],
    /// Where its good records end.
    ends: &'a [usize],
    run: &'a Run,
    /// How many of its bytes are read, and how many there are.
    read: usize,
    there: usize,
    lines: Vec<u8>,
}

impl Fed<'_> {
    /// Where the last good record ends of which all bytes are there.
    fn whole_records(&self) -> usize {
        let whole = self.ends.partition_point(|&end| end <= self.there);
        whole.checked_sub(1).map_or(0, |last| self.ends[last])
    }

    /// Whether the end, or a bad record, is decided with the bytes that are there: a bad record is
    /// where its length is over 512, and else where all that the length counts is there.
    fn is_decided(&self, last: bool) -> bool {
        let good = self.ends.last().copied().unwrap_or(0);
        let bad = self.recording.get(good..self.there).unwrap_or_default();
        let bad_there = match *bad {
            [low, high, ref counted @ ..] => {
                let length = usize::from(u16::from_le_bytes([low, high]));
                length > 512 || length <= counted.len()
            }
            _ => false,
        };
        last || self.run.fault.is_some() && bad_there
    }

    /// One call with the bytes that are there. Gives its result.
    fn call(
        &mut self,
        bytes: &mut Bytes,
        last: bool,
        output: &mut [u8],
        random: &mut Random,
    ) -> u32 {
        output.fill(KEPT);
        bytes.put_number(PLAYER_READ_AT, random.word64());
        bytes.put_number(PLAYER_WRITTEN_AT, random.word64());
        let piece = &self.recording[self.read..self.there];
        let last_number = if last {
            random.pick(&[1, 2, u32::MAX])
        } else {
            0
        };
        let result = bytes.play(piece, last_number, output);
        let read = bytes.number(PLAYER_READ_AT) as usize;
        let written = bytes.number(PLAYER_WRITTEN_AT) as usize;
        assert!(read <= piece.len() && written <= output.len());
        assert!(output[written..].iter().all(|&byte| byte == KEPT));
        self.lines.extend_from_slice(&output[..written]);
        self.read += read;
        match result {
            PLAY_MORE => {
                assert!(!last && !self.is_decided(last));
                assert_eq!(self.read, self.whole_records());
                assert!(self.there - self.read < PLAY_RECORD_MAXIMUM);
            }
            PLAY_ENDED => assert!(self.is_decided(last)),
            PLAY_ROOM => assert!(output.len() - written < PLAY_OUTPUT_MINIMUM),
            _ => panic!("result {result}"),
        }
        result
    }

    /// Feeds the recording to its end.
    fn feed(
        &mut self,
        bytes: &mut Bytes,
        feeding: Feeding,
        random: &mut Random,
        output: &mut Vec<u8>,
        cases: &mut Cases,
    ) {
        let mut last = false;
        let mut more = true;
        loop {
            if more {
                let next = feeding.pieces.next(random);
                last = self.there == self.recording.len() || next >= self.recording.len();
                self.there = self.there.saturating_add(next).min(self.recording.len());
            }
            let (least, greatest) = feeding.outputs;
            output.resize((least + random.below(greatest - least + 1)) as usize, KEPT);
            let result = self.call(bytes, last, output, random);
            cases.add("result", result as usize);
            match result {
                PLAY_MORE => more = true,
                PLAY_ROOM => more = false,
                _ => break,
            }
        }
    }
}

/// Plays the recording on both machines of the pair.
fn compare(
    pair: &mut Pair,
    recording: &[u8],
    damage: Damage,
    random: &mut Random,
    output: &mut Vec<u8>,
    cases: &mut Cases,
) {
    let run = player::play(&mut pair.machine, recording);
    let ends = cases.count(recording, damage, &run);
    let feeding = random_feeding(random, cases);
    let kept = recording.to_vec();
    let mut fed = Fed {
        recording,
        ends: &ends,
        run: &run,
        read: 0,
        there: 0,
        lines: Vec::new(),
    };
    pair.bytes.put_number(PLAYER_REQUESTS_AT, 0);
    pair.bytes.put_number(PLAYER_RECORDS_AT, 0);
    fed.feed(&mut pair.bytes, feeding, random, output, cases);

    assert_eq!(str::from_utf8(&fed.lines), Ok(run.lines.as_str()));
    assert_eq!(pair.bytes.number(PLAYER_REQUESTS_AT), run.requests);
    assert_eq!(pair.bytes.number(PLAYER_RECORDS_AT), run.records);
    // A bad record is not read, and at least one byte of it is there.
    assert_eq!(fed.read, ends.last().copied().unwrap_or(0));
    assert_eq!(fed.read < fed.there, run.fault.is_some());
    assert!(pair.check(), "storage, keys or records");
    assert!(recording == kept, "the recording");
}

/// Says on a failure how it is repeated.
struct Repeat {
    seed: u64,
}

impl Drop for Repeat {
    fn drop(&mut self) {
        if thread::panicking() {
            let seed = self.seed;
            eprintln!(
                "repeat it with STORAGE_UNIT_SEED={seed} STORAGE_UNIT_RECORDINGS={PER_MACHINE}"
            );
        }
    }
}

/// Random recordings one after the other on one machine.
fn run_machine(seed: u64, output: &mut Vec<u8>, cases: &mut Cases) {
    let repeat = Repeat { seed };
    let random = &mut Random::new(repeat.seed);
    let mut pair = Pair::new(random);
    for ordinal in 1..=PER_MACHINE {
        let (recording, damage) = random_recording(random, &pair.machine);
        compare(&mut pair, &recording, damage, random, output, cases);
        if ordinal % 4 == 0 {
            pair.change_records(random);
        }
    }
}

#[test]
fn random_recordings() {
    let recordings = from_environment("STORAGE_UNIT_RECORDINGS", DEFAULT_RECORDINGS);
    let first_seed = from_environment("STORAGE_UNIT_SEED", DEFAULT_SEED);
    let (mut cases, mut output) = (Cases::default(), Vec::new());
    for machine in 0..recordings.div_ceil(PER_MACHINE) {
        run_machine(first_seed + machine, &mut output, &mut cases);
    }
    println!("{recordings} recordings, first seed {first_seed}");
    if recordings >= ENOUGH {
        println!("{}{}", cases.check(&NEEDED), cases.check(&NEEDED_HERE));
    }
}

/// One record of each kind behind a good one: cut at every byte, and with each number in it one
/// under and one over, fed in every way.
#[test]
fn every_cut_and_every_number() {
    let random = &mut Random::new(1_971);
    let (mut cases, mut output) = (Cases::default(), Vec::new());
    let records = [
        fetch(0, 0x100, 16),
        store(1, 0x200, 3, b"ABC"),
        store(1, 0x200, 256, &[7; 256]),
        store(1, 0x200, 503, &[7; 503]),
        key(0, 5, 1, 0x1000),
        prefix(1, 0, 0x1000),
        remark(0),
        remark(256),
    ];
    for record in records {
        let good = [fetch(1, 4, 8), record, prefix(0, 1, 0)].concat();
        let cuts = (0..good.len()).map(|cut| good[..cut].to_vec());
        let numbers = (0..good.len()).flat_map(|place| {
            [1u8, 255].map(|added| {
                let mut other = good.clone();
                other[place] = other[place].wrapping_add(added);
                other
            })
        });
        for recording in cuts.chain(numbers) {
            for _ in 0..4 {
                let mut pair = Pair::new(random);
                compare(
                    &mut pair,
                    &recording,
                    Damage::None,
                    random,
                    &mut output,
                    &mut cases,
                );
            }
        }
    }
    cases.check(&NEEDED_HERE[..1]);
}

/// Gives random pieces of what it reads.
struct Parts<'a> {
    rest: &'a [u8],
    random: Random,
}

impl Read for Parts<'_> {
    fn read(&mut self, buffer: &mut [u8]) -> io::Result<usize> {
        let greatest = self.random.pick(&[1, 20, 1_000, 100_000]);
        if self.random.one_in(16) {
            return Err(io::ErrorKind::Interrupted.into());
        }
        let count = 1 + self.random.below(greatest) as usize;
        let count = count.min(self.rest.len()).min(buffer.len());
        let (part, rest) = self.rest.split_at(count);
        buffer[..count].copy_from_slice(part);
        self.rest = rest;
        Ok(count)
    }
}

/// What the method of a machine says of this run.
fn expected(run: &Run) -> PlayedAll {
    PlayedAll {
        player: Player {
            requests: run.requests,
            records: run.records,
        },
        bad_record: run.fault.is_some(),
    }
}

/// The method of a machine that plays all that it reads, on a machine that owns and on one that
/// borrows.
#[test]
fn recordings_that_are_read() {
    let random = &mut Random::new(1_972);
    for seed in 0..40_000 {
        let mut machine = Pair::new(random).machine;
        let mut same = machine.clone();
        let (recording, _) = random_recording(random, &machine);
        let parts = Parts {
            rest: &recording,
            random: Random::new(seed),
        };
        let mut lines = Vec::new();
        let played = if random.one_in(2) {
            same.play_all(parts, &mut lines)
        } else {
            let (storage, keys) = (&mut same.storage[..], &mut same.keys[..]);
            Machine::borrowed(same.settings, storage, keys, &mut same.processors)
                .play_all(parts, &mut lines)
        };
        let run = player::play(&mut machine, &recording);
        assert_eq!(str::from_utf8(&lines), Ok(run.lines.as_str()));
        assert_eq!(played.expect("no error"), expected(&run));
        assert!(machine == same, "{recording:02x?}");
    }
}

/// Gives its bytes, then an error.
struct Failing<'a>(&'a [u8]);

impl Read for Failing<'_> {
    fn read(&mut self, buffer: &mut [u8]) -> io::Result<usize> {
        match self.0.read(buffer) {
            Ok(0) => Err(io::ErrorKind::TimedOut.into()),
            result => result,
        }
    }
}

/// Fails to write, or to flush what is written.
struct Full {
    writes: bool,
}

impl Write for Full {
    fn write(&mut self, bytes: &[u8]) -> io::Result<usize> {
        match self.writes {
            true => Ok(bytes.len()),
            false => Err(io::ErrorKind::StorageFull.into()),
        }
    }

    fn flush(&mut self) -> io::Result<()> {
        Err(io::ErrorKind::StorageFull.into())
    }
}

/// Errors of reading and of writing are given back, and what is played stays so.
#[test]
fn errors_of_streams() {
    let recording = [store(0, 0x800, 1, b"A"), remark(3)].concat();
    for cut in [11, 12, recording.len() - 1, recording.len()] {
        let (mut machine, mut lines) = (player::start(), Vec::new());
        let error = machine.play_all(Failing(&recording[..cut]), &mut lines);
        assert_eq!(
            error.map_err(|error| error.kind()),
            Err(io::ErrorKind::TimedOut)
        );
        let played = cut > 11;
        assert_eq!(lines, &b"1 0 0\n"[..if played { 6 } else { 0 }]);
        assert_eq!(machine.storage[0x800], if played { b'A' } else { 0 });
    }
    for writes in [false, true] {
        let mut machine = player::start();
        let error = machine.play_all(&recording[..], Full { writes });
        assert_eq!(
            error.map_err(|error| error.kind()),
            Err(io::ErrorKind::StorageFull)
        );
        assert_eq!(machine.storage[0x800], b'A');
    }
}

/// The ordinary player, from the start.
#[test]
fn plain_player_against_reference() {
    let random = &mut Random::new(1_975);
    for seed in 0..40_000 {
        let mut machine = player::start();
        let (recording, _) = random_recording(random, &machine);
        let parts = Parts {
            rest: &recording,
            random: Random::new(seed),
        };
        let mut lines = Vec::new();
        plain_player::play(parts, &mut lines).expect("no error");
        let run = player::play(&mut machine, &recording);
        assert_eq!(str::from_utf8(&lines), Ok(run.lines.as_str()));
    }
}

/// The text of a recording: it ends at the record that the player finds bad, and what stands before
/// that comes back from it byte by byte.
#[test]
fn texts_of_recordings() {
    let random = &mut Random::new(1_976);
    let mut bad_ones = 0;
    for _ in 0..100_000 {
        let mut machine = Machine::new(Settings::default(), 4096).expect("a length that is right");
        let (recorded, _) = random_recording(random, &machine);
        let run = player::play(&mut machine, &recorded);
        let (text, bad) = recording::decode(&recorded);
        let ordinal = run.fault.map(|_| run.records);
        assert_eq!(bad.map(|bad| bad.ordinal), ordinal, "{recorded:02x?}");
        let written = recording::encode(text.as_bytes()).expect("the text of records");
        match bad {
            None => assert_eq!(written, recorded),
            Some(bad) => {
                assert!(recorded.starts_with(&written));
                assert_eq!(bad.offset, written.len() as u64);
            }
        }
        bad_ones += u64::from(bad.is_some());
    }
    assert!((10_000..90_000).contains(&bad_ones), "{bad_ones}");
}

/// A recording that is longer than any buffer, so that its records lie across them.
#[test]
fn long_recording() {
    let random = &mut Random::new(1_973);
    let mut machine = player::start();
    let mut recording = Vec::new();
    while recording.len() < 3_000_000 {
        let (next, _) = random_recording(random, &machine);
        // Recordings that have no bad record can stand one behind the other.
        if player::play(&mut player::start(), &next).fault.is_none() {
            recording.extend(next);
        }
    }
    recording.push(0);
    let mut same = machine.clone();
    let mut lines = Vec::new();
    let parts = Parts {
        rest: &recording,
        random: Random::new(1_974),
    };
    let played = same.play_all(parts, &mut lines).expect("no error");
    let run = player::play(&mut machine, &recording);
    assert!(lines == run.lines.as_bytes());
    assert_eq!(played, expected(&run));
    assert!(machine == same);
    let mut plain_lines = Vec::new();
    plain_player::play(&recording[..], &mut plain_lines).expect("no error");
    assert!(plain_lines == lines);
    assert!(run.requests > 20_000 && run.fault.is_some());
}

/// Wrong settings and players of a wrong length are refused, and then nothing changes.
#[test]
fn refused_calls() {
    let recording = [fetch(0, 0, 1), store(1, 0, 1, b"A")].concat();
    let lengths = [0, 1, 16, 47, 49, 64, 96];
    let settings = (2..32).map(|bit| 1 << bit).chain([5, 6, 7, u32::MAX]);
    let wrong_settings = settings.map(|settings| (settings, PLAYER_LENGTH));
    let wrong_lengths = lengths.map(|length| (EXTENSIONS, length));
    let both = lengths.map(|length| (4, length));
    for (settings, length) in wrong_settings.chain(wrong_lengths).chain(both) {
        let (mut storage, mut keys) = (vec![0x5A; 4096], vec![0x27; 2]);
        let (mut player, mut output) = (vec![0x33; length], [KEPT; 256]);
        for last in [0, 1] {
            // SAFETY: it is the C function of the static library.
            let result = unsafe {
                call_play_raw(
                    storage_unit_play,
                    settings,
                    &mut storage,
                    &mut keys,
                    &mut player,
                    &recording,
                    last,
                    &mut output,
                )
            };
            assert_eq!(result, PLAY_REFUSED, "settings {settings}, {length} bytes");
            assert!(storage == [0x5A; 4096] && keys == [0x27; 2]);
            assert!(player.iter().all(|&byte| byte == 0x33) && output == [KEPT; 256]);
        }
    }
}

/// A player whose ordinals are these, on the machine that a recording starts from.
fn counted(requests: u64, records: u64) -> Pair {
    let mut pair = Pair {
        machine: player::start(),
        bytes: Bytes {
            settings: EXTENSIONS,
            storage: vec![0; 65_536],
            keys: vec![0; 32],
            player: [0; PLAYER_LENGTH],
        },
        records: [0; RECORDS_LENGTH],
    };
    pair.bytes.put_number(PLAYER_REQUESTS_AT, requests);
    pair.bytes.put_number(PLAYER_RECORDS_AT, records);
    pair
}

/// Ordinals go on from those of the player up to the greatest of 64 bits, and not further.
#[test]
fn greatest_ordinals() {
    let recording = [fetch(0, 0, 1), fetch(2, 0, 1), fetch(1, 0, 0)].concat();
    let lines = "18446744073709551614 0 0\n18446744073709551615 65 0\n";
    for (requests, records) in [(u64::MAX - 2, 7), (u64::MAX - 2, u64::MAX - 2)] {
        let mut pair = counted(requests, records);
        let mut output = [KEPT; 256];
        let result = pair.bytes.play(&recording, 1, &mut output);
        assert_eq!(result, PLAY_LIMIT);
        assert_eq!(pair.bytes.number(PLAYER_REQUESTS_AT), u64::MAX);
        assert_eq!(pair.bytes.number(PLAYER_RECORDS_AT), records + 2);
        assert_eq!(pair.bytes.number(PLAYER_READ_AT), 22);
        assert_eq!(&output[..lines.len()], lines.as_bytes());
        assert_eq!(pair.bytes.keys[0], 0x04);
        // The third is played neither by this call nor by the next.
        let result = pair.bytes.play(&recording[22..], 1, &mut output);
        assert_eq!(result, PLAY_LIMIT);
        assert_eq!(pair.bytes.number(PLAYER_READ_AT), 0);
        assert_eq!(pair.bytes.number(PLAYER_WRITTEN_AT), 0);
    }
    let mut pair = counted(7, u64::MAX - 2);
    let mut output = [KEPT; 256];
    assert_eq!(pair.bytes.play(&recording, 1, &mut output), PLAY_LIMIT);
    assert_eq!(&output[..12], b"8 0 0\n9 65 0");
    // The greatest ordinal of a bad record.
    let mut pair = counted(7, u64::MAX - 1);
    assert_eq!(pair.bytes.play(&[1], 1, &mut output), PLAY_ENDED);
    assert_eq!(&output[..32], b"bad record 18446744073709551615\n");
}

/// Each status of a machine that plays one piece.
#[test]
fn statuses_of_a_machine() {
    let recording = [fetch(0, 0, 1), remark(2), fetch(0, 65_535, 2)].concat();
    let mut machine = player::start();
    let mut player = Player::default();
    let mut output = [KEPT; 256];
    let mut play = |player: &mut Player, piece: &[u8], last, room| {
        let played = machine.play(player, piece, last, &mut output[..room]);
        let text = String::from_utf8_lossy(&output[..played.written]).into_owned();
        (played.read, text, played.status)
    };
    let first = play(&mut player, &recording[..12], false, 256);
    assert_eq!(first, (11, "1 0 0\n".into(), PlayStatus::More));
    let second = play(&mut player, &recording[11..], true, 256);
    assert_eq!(second, (17, "2 5 1\n".into(), PlayStatus::Ended));
    assert_eq!((player.requests, player.records), (2, 3));
    // Behind a line of six bytes, 63 are left.
    let third = play(&mut player, &fetch(0, 0, 1).repeat(2), true, 69);
    assert_eq!(third, (11, "3 0 0\n".into(), PlayStatus::Room));
    // Behind the last line too.
    let fourth = play(&mut player, &fetch(0, 0, 1), true, 69);
    assert_eq!(fourth, (11, "4 0 0\n".into(), PlayStatus::Room));
    let fifth = play(&mut player, &[], true, 69);
    assert_eq!(fifth, (0, String::new(), PlayStatus::Ended));
    assert_eq!((player.requests, player.records), (4, 5));
    // Where nothing is left, room is wanted first, and then the limit is met.
    player.requests = u64::MAX;
    for piece in [&recording[..], &[]] {
        for last in [false, true] {
            let short = play(&mut player, piece, last, 63);
            assert_eq!(short, (0, String::new(), PlayStatus::Room));
            let long = play(&mut player, piece, last, 64);
            assert_eq!(long, (0, String::new(), PlayStatus::Limit));
        }
    }
}

/// Without output nothing is played and nothing is lost.
#[test]
fn outputs_that_are_too_short() {
    let recording = [fetch(0, 0, 1), store(1, 0x100, 1, b"A")].concat();
    for length in 0..PLAY_OUTPUT_MINIMUM {
        let mut pair = counted(0, 0);
        let mut output = vec![KEPT; length];
        assert_eq!(pair.bytes.play(&recording, 1, &mut output), PLAY_ROOM);
        assert_eq!(pair.bytes.number(PLAYER_READ_AT), 0);
        assert_eq!(pair.bytes.number(PLAYER_WRITTEN_AT), 0);
        assert!(output == vec![KEPT; length] && pair.check());
        let mut output = [KEPT; 256];
        assert_eq!(pair.bytes.play(&recording, 1, &mut output), PLAY_ENDED);
        assert_eq!(&output[..13], b"1 0 0\n2 0 0\n\xEE");
    }
}

/// A null pointer with length 0 is no bytes.
#[test]
fn null_pointers() {
    let null = std::ptr::null_mut;
    let mut player = [0; PLAYER_LENGTH];
    let recording = fetch(0, 0, 1);
    let mut output = [KEPT; 256];
    let (piece, output_pointer) = (recording.as_ptr(), output.as_mut_ptr());
    // SAFETY: each pointer is that of a separate array with its length, or null with length 0.
    let results = unsafe {
        let lent = player.as_mut_ptr();
        let play = storage_unit_play;
        [
            play(2, null(), 0, null(), 0, lent, 48, null(), 0, 0, null(), 0),
            play(2, null(), 0, null(), 0, null(), 0, null(), 0, 1, null(), 0),
            play(2, null(), 0, null(), 0, lent, 48, piece, 11, 1, null(), 0),
            play(
                2,
                null(),
                0,
                null(),
                0,
                lent,
                48,
                piece,
                11,
                1,
                output_pointer,
                256,
            ),
        ]
    };
    // An empty piece without output wants room first.
    assert_eq!(results, [PLAY_ROOM, PLAY_REFUSED, PLAY_ROOM, PLAY_ENDED]);
    assert_eq!(&output[..8], b"1 64 0\n\xEE");
}
