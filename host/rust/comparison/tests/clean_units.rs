//! Random sequences of all parties: a unit that is clean at the end is untouched.
//!
//! Document 02, W7: over any sequence of turns of processor 0, processor 1 and the channel, a unit
//! whose change bit is zero at the end, and to which no completed SSK or SSKE of the sequence was
//! applied, holds the bytes that it held at the start. A turn of a processor is one request, a turn
//! of the channel one step, which is one CCW. The parties share all units, the start is any state,
//! also one that line 64 or 65 refuses or with a request of the channel under way, and a sequence
//! stops anywhere, also between two CCWs.
//!
//! Which units a completed SSK or SSKE was applied to is found from the request, the record of its
//! processor before it and its answer. The law of a single turn is tested too, on every unit after
//! every turn: a turn that changes a byte of a unit leaves its change bit on, and a turn that turns
//! a change bit off is a completed SSK or SSKE that is applied to the unit.
//!
//! `STORAGE_UNIT_SEQUENCES` sets the number of sequences for each implementation,
//! `STORAGE_UNIT_SEED` the seed of the first. Each further sequence has the seed of the one before
//! it plus one. A failure prints the seed of its sequence; to repeat it, give that seed.

mod support;

use std::collections::BTreeMap;
use std::fmt::Write;
use std::ops::Range;

use storage_unit::boundary::{PROGRESS_LENGTH, call_channel_raw, encode_settings, packed_number};
use storage_unit::key::{CHANGE, REFERENCE};
use storage_unit::{
    AccessKind, Answer, KeyInstruction, PrefixInstruction, Processor, Reason, Request, Settings,
};
use storage_unit_comparison::channel::{self, Ccw, Chaining, Progress, Record, Status};
use storage_unit_comparison::numbers::number;
use storage_unit_comparison::reference::units_named;
use storage_unit_comparison::units::{Plain, Proved, ProvedShortWay};
use storage_unit_comparison::{ChannelUnit, Unit, completed, refused};

use support::cases::{new_bytes, usual};
use support::channels::{Asked, CHAIN_COMMAND, Place, Pool, random_asked};
use support::*;

const DEFAULT_SEQUENCES: u64 = 20_000;
const DEFAULT_SEED: u64 = 47_370_000;

/// The counts below are asserted from this number of sequences on.
const ENOUGH_TO_COUNT: u64 = 10_000;

/// The parties, by their places in what is kept of each unit.
const PROCESSORS: usize = 0;
const CHANNEL: usize = 1;

/// The ways in which a key is set, by their places in what is kept of each unit: by SSK, by SSKE
/// as its only or first unit, by SSKE as its second.
const BY_SSK: usize = 0;
const BY_SSKE: usize = 1;
const BY_SSKE_SECOND: usize = 2;

/// Makes an enumeration of situations, and in the same order how often each must be met at least
/// in 10,000 sequences, and its text.
macro_rules! events {
    ($($event:ident: $minimum:literal, $text:literal;)*) => {
        /// Situations that the random sequences must meet.
        #[derive(Clone, Copy)]
        enum Event {
            $($event,)*
        }

        const EVENTS: &[(u64, &str)] = &[$(($minimum, $text),)*];
    };
}

events! {
    Said: 30_000, "units on which the claim says something";
    Said2K: 20_000, "of them with 2K units";
    Said4K: 9_000, "of them with 4K units";
    SaidWithExtensions: 20_000, "of them with the extensions";
    SaidWithoutExtensions: 7_000, "of them without the extensions";
    SaidBesideChanged: 2_500, "of them beside a unit whose bytes were changed";
    SaidBetweenChanged: 200, "of them between two units whose bytes were changed";
    SaidFetched: 900, "of them with the reference bit turned on by a processor";
    SaidFetchedByChannel: 900, "of them with the reference bit turned on by the channel";
    SaidSskRefused: 350, "of them with an SSK that was refused";
    SaidSskeRefused: 400, "of them with an SSKE that was refused";
    SaidReset: 700, "of them with the reference bit turned off by RRB or RRBE";
    CleanAtStart: 30_000, "units with the change bit zero at the start";
    CleanAtEnd: 30_000, "units with the change bit zero at the end";
    OnAtEnd: 15_000, "units with the change bit on at the end: the claim is silent";
    CleanAndSet: 1_300, "units clean at the end with a completed SSK or SSKE: the claim is silent";
    ChangedAndSsk: 120, "of them with other bytes, SSK alone applied";
    ChangedAndSske: 60, "of them with other bytes, SSKE alone applied, as its only or first unit";
    ChangedAndSskeSecond: 25, "of them with other bytes, SSKE alone applied, as its second unit";
    TurnedOn: 3_500, "units whose change bit was off when a turn changed a byte";
    TurnedOff: 800, "units whose change bit a turn turned off";
    OnlyByChannel: 2_000, "units that the channel alone changed";
    OnlyByProcessors: 2_500, "units that processors alone changed";
    BothChanged: 250, "sequences in which a processor and the channel changed the same unit";
    AllThree: 1_300, "sequences in which all three had turns";
    UnderWayAtEnd: 1_600, "sequences that end with a request of the channel under way";
    UnderWayAtStart: 700, "starts with a request under way, of which a further CCW was fetched";
    TwoRequests: 900, "sequences in which the channel came to a second request";
    BothPrefixes: 140, "sequences in which both processors changed their prefix";
    Refused64Keys: 250, "starts that line 64 refuses by the number of keys";
    Refused64Storage: 120, "starts that line 64 refuses by the length of storage";
    Refused65: 350, "starts with a record that line 65 refuses";
    OtherNumber: 1_400, "requests of a processor that is not 0 or 1";
    SetByNewPrefix: 300, "completed SSK or SSKE of a block that a prefix set before it moves";
    BetweenCcws: 5_000, "completed requests of processors with a request of the channel under way";
    Reads: 4_000, "reads of the channel performed";
    Writes: 4_000, "writes of the channel performed";
    Transfers: 900, "transfers in channel made";
}

/// The answers that must be met, by operation and number.
const ANSWERS: &[(&str, &[u16])] = &[
    ("fetch", &[0, 4, 5, 64, 65, 66]),
    ("store", &[0, 4, 5, 64, 65, 66]),
    ("ISK", &[0, 2, 5, 6, 19, 64, 65]),
    ("SSK", &[0, 2, 5, 6, 19, 64, 65]),
    ("RRB", &[0, 2, 5, 19, 64, 65, 66]),
    ("ISKE", &[0, 1, 2, 5, 64, 65]),
    ("SSKE", &[0, 1, 2, 5, 64, 65]),
    ("RRBE", &[0, 1, 2, 5, 64, 65]),
    ("SET PREFIX", &[0, 2, 5, 64, 65]),
    ("STORE PREFIX", &[0, 2, 64, 65]),
    ("channel", &[0, 64, 65, 66, 71, 72, 73, 74, 255]),
];

/// How often each of them must be met at least in 10,000 sequences.
const LEAST_OF_ANSWERS: u64 = 150;

/// How often each event and each answer was met.
struct Counts {
    turns: u64,
    units: u64,
    events: [u64; EVENTS.len()],
    answers: BTreeMap<(&'static str, u16), u64>,
}

impl Counts {
    fn new() -> Counts {
        Counts {
            turns: 0,
            units: 0,
            events: [0; EVENTS.len()],
            answers: BTreeMap::new(),
        }
    }

    fn met(&mut self, event: Event, met: bool) {
        self.events[event as usize] += u64::from(met);
    }

    fn answer(&self, operation: &'static str, number: u16) -> u64 {
        *self.answers.get(&(operation, number)).unwrap_or(&0)
    }

    fn table(&self, sequences: u64) -> String {
        let (turns, units) = (self.turns, self.units);
        let mut text = format!("{sequences} sequences, {turns} turns, {units} units\n");
        for (count, (_, name)) in self.events.iter().zip(EVENTS) {
            writeln!(text, "{count:>9}  {name}").unwrap();
        }
        for &(operation, numbers) in ANSWERS {
            let counts: Vec<String> = numbers
                .iter()
                .map(|number| format!("{number}: {}", self.answer(operation, *number)))
                .collect();
            writeln!(text, "{operation} by answers: {}", counts.join(", ")).unwrap();
        }
        text
    }

    /// Everything was met, and often.
    fn check(&self, sequences: u64) {
        if sequences < ENOUGH_TO_COUNT {
            return;
        }
        for (count, (least, name)) in self.events.iter().zip(EVENTS) {
            let minimum = least * sequences / 10_000;
            assert!(*count >= minimum, "{name}: {count}, fewer than {minimum}");
        }
        let minimum = LEAST_OF_ANSWERS * sequences / 10_000;
        for &(operation, numbers) in ANSWERS {
            for &number in numbers {
                let count = self.answer(operation, number);
                assert!(count >= minimum, "{operation}, {number}: {count}");
            }
        }
    }
}

/// A request of the channel with its two buffers.
struct Program {
    request: channel::Request,
    from: Vec<u8>,
    room: Vec<u8>,
}

/// The channel: its requests, the one that it is at, and how far that one is.
#[derive(Default)]
struct Channel {
    programs: Vec<Program>,
    at: usize,
    progress: [u8; PROGRESS_LENGTH],
}

impl Channel {
    fn status(&self) -> Option<Status> {
        channel::progress_from(&self.progress).map(|progress| progress.status)
    }

    fn under_way(&self) -> bool {
        self.status() == Some(Status::UnderWay)
    }

    /// Whether no step does anything before another request is begun: the request is answered, or
    /// its progress is none.
    fn is_done(&self) -> bool {
        matches!(self.status(), None | Some(Status::Answered(_)))
    }

    /// The next step is to begin this request.
    fn begin(&mut self, program: usize) {
        self.at = program;
        self.progress = [0; PROGRESS_LENGTH];
    }
}

/// A turn, and what it gave.
#[derive(Clone, Copy, Debug)]
enum Turn {
    /// A request of a processor, and the record from before it if a processor has this number.
    Processor {
        number: u32,
        own: Option<Processor>,
        request: Request,
        answer: Answer,
    },
    /// A step of the channel with the request of this place in its list.
    Channel {
        program: usize,
        before: Option<Progress>,
        after: Option<Progress>,
        number: u16,
    },
}

impl Turn {
    fn party(&self) -> usize {
        match self {
            Turn::Processor { .. } => PROCESSORS,
            Turn::Channel { .. } => CHANNEL,
        }
    }

    /// The key instruction, if it is one.
    fn key_instruction(&self) -> Option<KeyInstruction> {
        match *self {
            Turn::Processor {
                request: Request::Key(instruction),
                ..
            } => Some(instruction),
            _ => None,
        }
    }

    fn is_reset(&self) -> bool {
        matches!(
            self.key_instruction(),
            Some(KeyInstruction::Rrb { .. } | KeyInstruction::Rrbe { .. })
        )
    }

    /// The way in which SSK or SSKE sets the key of its first unit, and the key: bits 24-30 of R1.
    /// `None` if it is neither.
    fn setting(&self) -> Option<(usize, u8)> {
        match self.key_instruction()? {
            KeyInstruction::Ssk { r1, .. } => Some((BY_SSK, r1 as u8 & !1)),
            KeyInstruction::Sske { r1, .. } => Some((BY_SSKE, r1 as u8 & !1)),
            _ => None,
        }
    }

    /// The units that it applied an SSK or SSKE to, in ascending order. None where it is another
    /// request or is refused.
    ///
    /// `units_named` is that of the reference, and no part of what is tested. Of a completed SSK
    /// it gives the unit of the 2K block that bits 8-20 of R2 designate, of a completed SSKE the
    /// unit, or with 2K units both units, of the 4K block that bits 1-19 designate; the block made
    /// absolute by the three rules with the prefix of this record, of a refused one none.
    fn units_set(&self, settings: Settings) -> Vec<usize> {
        match self {
            Turn::Processor {
                own: Some(own),
                request,
                answer,
                ..
            } if self.setting().is_some() => units_named(settings, own, request, answer),
            _ => Vec::new(),
        }
    }

    /// The units that a refused SSK or SSKE would have been applied to, had it been completed.
    /// Where it is refused with 5 they do not exist.
    fn units_refused(&self, settings: Settings) -> Vec<usize> {
        match *self {
            Turn::Processor {
                own: Some(own),
                request,
                answer: Err(_),
                ..
            } if self.setting().is_some() => {
                units_named(settings, &own, &request, &completed(0, None))
            }
            _ => Vec::new(),
        }
    }
}

/// What happened to a unit.
#[derive(Clone, Copy, Default)]
struct History {
    /// Its bytes were changed, by party.
    changed: [bool; 2],
    /// Its reference bit was turned on, by party.
    referenced: [bool; 2],
    /// RRB or RRBE turned its reference bit off.
    reset: bool,
    /// Its change bit was off when a turn changed a byte.
    turned_on: bool,
    /// Its change bit was turned off.
    turned_off: bool,
    /// A completed SSK or SSKE was applied to it, by the way in which.
    set: [bool; 3],
    /// An SSK, an SSKE that would have been applied to it was refused.
    refused: [bool; 2],
}

/// A sequence that is being run.
struct Run {
    name: String,
    start: Lent,
    /// The state before the turn. Its records are not kept up.
    before: Lent,
    lent: Lent,
    channel: Channel,
    units: Vec<History>,
    turns: Vec<Turn>,
    /// What the first turn did that broke the law of a single turn. It is said at the end, behind
    /// the claim, so that the claim is tested by itself.
    broken: Option<String>,
}

impl Run {
    fn new(name: String, start: Lent, channel: Channel) -> Run {
        Run {
            name,
            before: start.clone(),
            lent: start.clone(),
            channel,
            units: vec![History::default(); start.keys.len()],
            turns: Vec::new(),
            broken: None,
            start,
        }
    }

    fn fail(&self, what: &str) -> ! {
        let mut text = format!("{}: {what}\n", self.name);
        for (number, program) in self.channel.programs.iter().enumerate() {
            writeln!(text, "program {number}: {:?}", program.request).unwrap();
        }
        writeln!(text, "{:?}, the turns:", self.lent.settings).unwrap();
        for turn in &self.turns {
            writeln!(text, "{turn:?}").unwrap();
        }
        panic!("{text}");
    }

    /// The last turn broke the law of a single turn.
    fn breaks(&mut self, what: &str) {
        let turn = self.turns.len();
        self.broken.get_or_insert(format!("turn {turn}: {what}"));
    }

    /// Where the bytes of a unit are. Where the length of storage or the number of keys is wrong,
    /// a unit that has a key can have fewer bytes, or none.
    fn bytes_of(&self, unit: usize) -> Range<usize> {
        let (size, length) = (self.lent.settings.key_unit(), self.lent.storage.len());
        (unit * size).min(length)..((unit + 1) * size).min(length)
    }

    /// A turn of a processor.
    fn processor<U: Unit>(&mut self, number: u32, request: Request, buffer: &mut [u8]) -> Answer {
        let own = self.lent.processors.get(number as usize).copied();
        let answer = self.lent.request::<U>(number, &request, buffer);
        self.after_turn(Turn::Processor {
            number,
            own,
            request,
            answer,
        });
        answer
    }

    /// A turn of the channel.
    fn step<U: ChannelUnit>(&mut self) -> u16 {
        let lent = &mut self.lent;
        let Channel {
            programs,
            at,
            progress,
        } = &mut self.channel;
        let program = &mut programs[*at];
        let channel::Request { key, first, grant } = program.request;
        let before = channel::progress_from(progress);
        // SAFETY: the tests call the functions of the comparison and of the static library.
        let packed = unsafe {
            call_channel_raw(
                U::STEP,
                encode_settings(lent.settings),
                &mut lent.storage,
                &mut lent.keys,
                (key, first, grant),
                &program.from,
                &mut program.room,
                progress,
            )
        };
        let turn = Turn::Channel {
            program: *at,
            before,
            after: channel::progress_from(progress),
            number: packed_number(packed),
        };
        self.after_turn(turn);
        packed_number(packed)
    }

    /// Tests what a turn did, and keeps what happened to each unit.
    fn after_turn(&mut self, turn: Turn) {
        self.turns.push(turn);
        let set = turn.units_set(self.lent.settings);
        self.test_setting(&turn, &set);
        for unit in 0..self.units.len() {
            self.test_unit(&turn, &set, unit);
        }
        self.before.keys.copy_from_slice(&self.lent.keys);
    }

    /// Keeps which units an SSK or SSKE is applied to, or would be if it were not refused. Those
    /// that it is applied to have its key afterwards, and no other key is changed, so that the
    /// claim leaves out no unit without need.
    fn test_setting(&mut self, turn: &Turn, set: &[usize]) {
        let Some((way, key)) = turn.setting() else {
            return;
        };
        for unit in turn.units_refused(self.lent.settings) {
            if let Some(history) = self.units.get_mut(unit) {
                history.refused[way] = true;
            }
        }
        let mut keys = self.before.keys.clone();
        for (place, &unit) in set.iter().enumerate() {
            if unit >= keys.len() {
                self.fail(&format!("the key of unit {unit} is set, which has none"));
            }
            keys[unit] = key;
            self.units[unit].set[way + place] = true;
        }
        if self.lent.keys != keys {
            self.breaks(&format!("not the keys of {set:?} are set, or not to {key}"));
        }
    }

    /// The law of a single turn, for one unit.
    fn test_unit(&mut self, turn: &Turn, set: &[usize], unit: usize) {
        let bytes = self.bytes_of(unit);
        let changed = self.lent.storage[bytes.clone()] != self.before.storage[bytes.clone()];
        let (old, new) = (self.before.keys[unit], self.lent.keys[unit]);
        if changed && new & CHANGE == 0 {
            self.breaks(&format!(
                "unit {unit} is changed, and its change bit is off"
            ));
        }
        let turned_off = old & !new & CHANGE != 0;
        if turned_off && !set.contains(&unit) {
            self.breaks(&format!("the change bit of unit {unit} is turned off"));
        }
        let history = &mut self.units[unit];
        history.changed[turn.party()] |= changed;
        history.referenced[turn.party()] |= new & !old & REFERENCE != 0;
        history.reset |= turn.is_reset() && old & !new & REFERENCE != 0;
        history.turned_on |= changed && old & CHANGE == 0;
        history.turned_off |= turned_off;
        if changed {
            self.before.storage[bytes.clone()].copy_from_slice(&self.lent.storage[bytes]);
        }
    }

    fn is_clean(&self, unit: usize) -> bool {
        self.lent.keys[unit] & CHANGE == 0
    }

    /// Whether a completed SSK or SSKE was applied to a unit.
    fn is_set(&self, unit: usize) -> bool {
        self.units[unit].set != [false; 3]
    }

    /// Whether the claim says something on a unit.
    fn says(&self, unit: usize) -> bool {
        self.is_clean(unit) && !self.is_set(unit)
    }

    /// Whether a unit holds the bytes that it held at the start.
    fn is_as_at_start(&self, unit: usize) -> bool {
        let bytes = self.bytes_of(unit);
        self.lent.storage[bytes.clone()] == self.start.storage[bytes]
    }

    /// The claim, at the end of the sequence. A change bit that is on stays on, so where the claim
    /// says something it was zero at the start. Then the law of each single turn.
    fn test_end(&self) {
        for unit in (0..self.units.len()).filter(|&unit| self.says(unit)) {
            if !self.is_as_at_start(unit) {
                self.fail(&format!("unit {unit} is clean and not as at the start"));
            }
            if self.start.keys[unit] & CHANGE != 0 {
                self.fail(&format!("unit {unit} is clean and was not at the start"));
            }
        }
        if refused_by_64(&self.start) && self.lent != self.start {
            self.fail("line 64 refuses all, and something is changed");
        }
        if let Some(what) = &self.broken {
            self.fail(what);
        }
    }
}

/// Whether line 64 refuses every request.
fn refused_by_64(lent: &Lent) -> bool {
    let length = lent.storage.len();
    !length.is_multiple_of(4096) || lent.keys.len() != lent.settings.key_count(length)
}

/// A record of the channel with a request under way: at any of its CCWs or anywhere, with any
/// positions, also such as it cannot come to.
fn random_record(random: &mut Random, asked: &Asked) -> Record {
    let ccw = match asked.ccws.len() {
        0 => 0,
        count => asked.ccws[random.below(count as u64) as usize].0,
    };
    let [taken, given] = [asked.from.len(), asked.room.len()].map(|length| {
        let over = [length as u64 + 1, 1 << 32, u64::MAX];
        match random.below(16) {
            0 => random.pick(&over),
            _ => random.below(length as u64 / 2 + 1),
        }
    });
    Record {
        address: match random.below(16) {
            0 => random.word(),
            1 => ccw + random.below(8) as u32,
            _ => ccw,
        },
        chaining: random.pick(&[
            Chaining::First,
            Chaining::Command,
            Chaining::Command,
            Chaining::Transfer,
            Chaining::Ended,
        ]),
        fetched: random.below(u64::from(asked.request.grant) + 2) as u32,
        taken,
        given,
    }
}

/// How far the first request of the channel is at the start: not begun, under way or answered,
/// and now and then no progress.
fn random_progress(random: &mut Random, asked: &Asked) -> [u8; PROGRESS_LENGTH] {
    let status = match random.below(16) {
        0..=6 => Status::NotBegun,
        7 => Status::Answered(random.pick(&[0, 64, 65, 66, 71, 72, 73, 74])),
        _ => Status::UnderWay,
    };
    let record = random_record(random, asked);
    let mut bytes = channel::progress_bytes(&Progress { status, record });
    if random.one_in(40) {
        bytes[random.pick(&[4, 5, 6, 15])] = 200;
    }
    bytes
}

/// A state that line 64 or 65 refuses, from time to time.
fn random_damage(random: &mut Random, lent: &mut Lent) {
    let length = lent.storage.len();
    match random.below(40) {
        0 => lent.keys.push(random_key(random)),
        1 => {
            lent.keys.pop();
        }
        2 => {
            let shorter = length - random.pick(&[1, 100, 2048]);
            lent.storage.truncate(shorter);
            lent.keys.truncate(lent.settings.key_count(shorter));
        }
        3..=5 => {
            let processor = random.below(2) as usize;
            damage(random, &mut lent.processors[processor], length);
        }
        _ => {}
    }
}

/// The requests of the channel, of which there can be none. Their programs, and the keys for the
/// last, are put into the state.
fn random_channel(random: &mut Random, pool: &Pool, lent: &mut Lent) -> Channel {
    let place = Place {
        length: lent.storage.len() as u32,
        key_unit: lent.settings.key_unit() as u32,
    };
    let mut channel = Channel::default();
    for program in 0..random.below(4) {
        let asked = random_asked(random, pool, place);
        asked.write(&mut lent.storage, &mut lent.keys);
        if program == 0 {
            channel.progress = random_progress(random, &asked);
        }
        channel.programs.push(Program {
            request: asked.request,
            from: asked.from,
            room: asked.room,
        });
    }
    // Mostly all have the key of the last.
    if let Some(last) = channel.programs.last()
        && !random.one_in(4)
    {
        let key = last.request.key;
        let programs = channel.programs.iter_mut();
        programs.for_each(|program| program.request.key = key);
    }
    channel
}

/// What a sequence starts from.
fn random_start(random: &mut Random, pool: &Pool) -> (Lent, Channel) {
    let length = random.pick(&[8192, 8192, 16_384, 32_768, 65_536]);
    let settings = Settings {
        four_k: random.one_in(2),
        extensions: !random.one_in(4),
    };
    let mut lent = Lent {
        settings,
        storage: random.bytes(length),
        keys: (0..settings.key_count(length))
            .map(|_| random_key(random))
            .collect(),
        processors: [(); 2].map(|()| random_processor(random, length)),
    };
    let channel = random_channel(random, pool, &mut lent);
    // All units are clean at the start, or any are.
    if random.one_in(2) {
        lent.keys.iter_mut().for_each(|key| *key &= !CHANGE);
    }
    random_damage(random, &mut lent);
    (lent, channel)
}

/// Any request of this processor, or now and then of one that there is not.
fn processor_turn<U: Unit>(random: &mut Random, run: &mut Run, processor: u32) {
    let number = if random.one_in(40) {
        random.pick(&[2, 3, u32::MAX])
    } else {
        processor
    };
    let lent = &run.lent;
    let length = lent.storage.len();
    let aim = Aim::new(lent.settings, length, &lent.processors, processor);
    let request = random_request(random, &aim);
    let mut buffer = Vec::new();
    random_buffer(random, &request, &mut buffer);
    let _ = run.processor::<U>(number, request, &mut buffer);
}

/// A step of the channel. Where its request is answered it mostly begins another; else the step
/// does nothing.
fn channel_turn<U: ChannelUnit>(random: &mut Random, run: &mut Run) {
    if run.channel.is_done() && !random.one_in(8) {
        let programs = run.channel.programs.len() as u64;
        run.channel.begin(random.below(programs) as usize);
    }
    run.step::<U>();
}

/// A sequence from a random start, from turns in single alternation to long stretches of one
/// party; tested at its end.
fn random_sequence<P: Unit, C: ChannelUnit>(seed: u64, name: String, pool: &Pool) -> Run {
    let random = &mut Random::new(seed);
    let (start, channel) = random_start(random, pool);
    let mut run = Run::new(name, start, channel);
    let longest = random.pick(&[3, 8, 30, 80]);
    let stretch = random.pick(&[1, 2, 4, 12]);
    let parties = if run.channel.programs.is_empty() {
        2
    } else {
        3
    };
    let mut party = random.below(parties) as u32;
    for _ in 0..1 + random.below(longest) {
        if random.one_in(stretch) {
            party = random.below(parties) as u32;
        }
        if party < 2 {
            processor_turn::<P>(random, &mut run, party);
        } else {
            channel_turn::<C>(random, &mut run);
        }
    }
    run.test_end();
    run
}

fn operation(request: &Request) -> &'static str {
    match request {
        Request::Access { kind, .. } => match kind {
            AccessKind::Fetch => "fetch",
            AccessKind::Store => "store",
        },
        Request::Key(instruction) => match instruction {
            KeyInstruction::Isk { .. } => "ISK",
            KeyInstruction::Ssk { .. } => "SSK",
            KeyInstruction::Rrb { .. } => "RRB",
            KeyInstruction::Iske { .. } => "ISKE",
            KeyInstruction::Sske { .. } => "SSKE",
            KeyInstruction::Rrbe { .. } => "RRBE",
        },
        Request::Prefix(PrefixInstruction::SetPrefix { .. }) => "SET PREFIX",
        Request::Prefix(PrefixInstruction::StorePrefix) => "STORE PREFIX",
    }
}

/// Counts what a sequence met.
fn count(counts: &mut Counts, run: &Run) {
    let mut under_way = false;
    for turn in &run.turns {
        count_turn(counts, run, turn, under_way);
        if let Turn::Channel { after, .. } = turn {
            under_way = after.is_some_and(|after| after.status == Status::UnderWay);
        }
    }
    count_start(counts, &run.start);
    count_sequence(counts, run);
    if !refused_by_64(&run.start) {
        for unit in 0..run.units.len() {
            count_unit(counts, run, unit);
        }
    }
}

/// Counts what a turn met, with a request of the channel under way before it or not.
fn count_turn(counts: &mut Counts, run: &Run, turn: &Turn, under_way: bool) {
    counts.turns += 1;
    let answered = match turn {
        Turn::Processor {
            number: processor,
            own,
            request,
            answer,
        } => {
            counts.met(Event::OtherNumber, *processor > 1);
            counts.met(Event::BetweenCcws, under_way && answer.is_ok());
            if let (Some(own), Request::Key(instruction), Ok(_)) = (own, request, answer)
                && turn.setting().is_some()
            {
                let (_, real) = block_of(instruction);
                let new = own.prefix != run.start.processors[*processor as usize].prefix;
                let other = absolute(real, own.prefix) != real;
                counts.met(Event::SetByNewPrefix, new && other);
            }
            (operation(request), number(*answer))
        }
        Turn::Channel {
            before,
            after,
            number,
            ..
        } => {
            if let (Some(before), Some(after)) = (before, after) {
                count_step(counts, before, after);
            }
            ("channel", *number)
        }
    };
    *counts.answers.entry(answered).or_default() += 1;
}

/// Counts what a step of the channel did, by the progress before and after it.
fn count_step(counts: &mut Counts, before: &Progress, after: &Progress) {
    let (taken, given) = match before.status {
        // The record of a request that is not begun is of no account.
        Status::NotBegun => (0, 0),
        Status::UnderWay => (before.record.taken, before.record.given),
        Status::Answered(_) => return,
    };
    counts.met(Event::Reads, after.record.taken > taken);
    counts.met(Event::Writes, after.record.given > given);
    let goes_on = after.status == Status::UnderWay;
    let transferred = after.record.chaining == Chaining::Transfer;
    counts.met(Event::Transfers, goes_on && transferred);
}

/// Counts what a sequence started from.
fn count_start(counts: &mut Counts, start: &Lent) {
    let length = start.storage.len();
    let by_length = !length.is_multiple_of(4096);
    let refused = refused_by_64(start);
    counts.met(Event::Refused64Storage, by_length);
    counts.met(Event::Refused64Keys, refused && !by_length);
    let wrong = |processor: &Processor| !is_valid(processor, length);
    let by_65 = !refused && start.processors.iter().any(wrong);
    counts.met(Event::Refused65, by_65);
}

/// Counts what a sequence met as a whole.
fn count_sequence(counts: &mut Counts, run: &Run) {
    let has_turn = |processor: u32| {
        let mut turns = run.turns.iter();
        turns.any(|turn| matches!(turn, Turn::Processor { number, .. } if *number == processor))
    };
    let mut steps = run.turns.iter().filter_map(|turn| match *turn {
        Turn::Channel {
            program,
            before,
            after,
            ..
        } => Some((program, before, after)),
        Turn::Processor { .. } => None,
    });
    let first = steps.next();
    let all_three = has_turn(0) && has_turn(1) && first.is_some();
    counts.met(Event::AllThree, all_three);
    if let Some((program, Some(before), Some(after))) = first {
        let under_way = before.status == Status::UnderWay;
        let fetched = after.record.fetched > before.record.fetched;
        counts.met(Event::UnderWayAtStart, under_way && fetched);
        let second = steps.any(|(other, ..)| other != program);
        counts.met(Event::TwoRequests, second);
    }
    counts.met(Event::UnderWayAtEnd, run.channel.under_way());
    let both = run.units.iter().any(|unit| unit.changed == [true, true]);
    counts.met(Event::BothChanged, both);
    let mut prefixes = run.start.processors.iter().zip(&run.lent.processors);
    let other = prefixes.all(|(start, end)| start.prefix != end.prefix);
    counts.met(Event::BothPrefixes, other);
}

/// Counts what happened to a unit.
fn count_unit(counts: &mut Counts, run: &Run, unit: usize) {
    let history = &run.units[unit];
    let clean = run.is_clean(unit);
    counts.units += 1;
    counts.met(Event::CleanAtStart, run.start.keys[unit] & CHANGE == 0);
    counts.met(Event::CleanAtEnd, clean);
    counts.met(Event::OnAtEnd, !clean);
    counts.met(Event::CleanAndSet, clean && run.is_set(unit));
    let other = clean && !run.is_as_at_start(unit);
    for (way, event) in [
        (BY_SSK, Event::ChangedAndSsk),
        (BY_SSKE, Event::ChangedAndSske),
        (BY_SSKE_SECOND, Event::ChangedAndSskeSecond),
    ] {
        let alone = (0..3).all(|each| history.set[each] == (each == way));
        counts.met(event, other && alone);
    }
    counts.met(Event::TurnedOn, history.turned_on);
    counts.met(Event::TurnedOff, history.turned_off);
    counts.met(Event::OnlyByChannel, history.changed == [false, true]);
    counts.met(Event::OnlyByProcessors, history.changed == [true, false]);
    if run.says(unit) {
        count_said(counts, run, unit);
    }
}

/// Counts a unit on which the claim says something.
fn count_said(counts: &mut Counts, run: &Run, unit: usize) {
    let history = &run.units[unit];
    let settings = run.lent.settings;
    counts.met(Event::Said, true);
    counts.met(Event::Said2K, !settings.four_k);
    counts.met(Event::Said4K, settings.four_k);
    counts.met(Event::SaidWithExtensions, settings.extensions);
    counts.met(Event::SaidWithoutExtensions, !settings.extensions);
    let changed = |beside: Option<usize>| {
        let beside = beside.and_then(|beside| run.units.get(beside));
        beside.is_some_and(|beside| beside.changed != [false, false])
    };
    let beside = [changed(unit.checked_sub(1)), changed(unit.checked_add(1))];
    counts.met(Event::SaidBesideChanged, beside != [false, false]);
    counts.met(Event::SaidBetweenChanged, beside == [true, true]);
    counts.met(Event::SaidFetched, history.referenced[PROCESSORS]);
    counts.met(Event::SaidFetchedByChannel, history.referenced[CHANNEL]);
    counts.met(Event::SaidSskRefused, history.refused[BY_SSK]);
    counts.met(Event::SaidSskeRefused, history.refused[BY_SSKE]);
    counts.met(Event::SaidReset, history.reset);
}

/// Random sequences by an implementation of the processors' requests and one of the channel.
fn random_sequences<P: Unit, C: ChannelUnit>() {
    let sequences = from_environment("STORAGE_UNIT_SEQUENCES", DEFAULT_SEQUENCES);
    let first_seed = from_environment("STORAGE_UNIT_SEED", DEFAULT_SEED);
    let pool = Pool::new(&mut Random::new(DEFAULT_SEED));
    let mut counts = Counts::new();
    for sequence in 0..sequences {
        let seed = first_seed + sequence;
        let name = format!("{}, seed {seed}, sequence {sequence}", P::NAME);
        let run = random_sequence::<P, C>(seed, name, &pool);
        count(&mut counts, &run);
    }
    let table = counts.table(sequences);
    println!("{}, first seed {first_seed}: {table}", P::NAME);
    counts.check(sequences);
}

/// A written sequence. The start has 2K units, zero keys and both prefixes zero, and no byte is one
/// of those that `stores` stores.
fn written() -> Run {
    Run::new("written".into(), usual(), Channel::default())
}

/// Processor 0 stores so many bytes.
fn stores<U: Unit>(run: &mut Run, address: u32, count: u32) {
    let store = Request::store(address, count);
    let answer = run.processor::<U>(0, store, &mut new_bytes(count as usize));
    assert!(answer.is_ok());
}

/// A store to the last bytes of unit 3: units 2 and 4 are clean and untouched. One byte more, and
/// unit 4 is changed too.
fn neighbour_of_a_store<U: Unit>() {
    let mut run = written();
    stores::<U>(&mut run, 8188, 4);
    run.test_end();
    assert!(!run.is_clean(3) && !run.is_as_at_start(3));
    for unit in [2, 4] {
        assert!(run.says(unit) && run.is_as_at_start(unit));
        assert_eq!(run.lent.keys[unit], 0);
    }
    stores::<U>(&mut run, 8188, 5);
    run.test_end();
    assert!(!run.is_clean(4) && !run.is_as_at_start(4));
    assert!(run.says(2) && run.is_as_at_start(2));
}

/// A store and then a completed SSK or SSKE with the change bit zero: the unit is clean and has
/// other bytes, and the claim is silent on it.
fn store_and_set<U: Unit>() {
    // Unit 4 by SSK, which leaves unit 5; unit 5 as the second of SSKE, which has unit 4 as well.
    for (address, request, set) in [
        (8192, Request::ssk(0, 8192), vec![4]),
        (10_240, Request::sske(0, 8192), vec![4, 5]),
    ] {
        let mut run = written();
        stores::<U>(&mut run, address, 4);
        assert!(run.processor::<U>(0, request, &mut []).is_ok());
        run.test_end();
        let unit = address as usize / 2048;
        assert!(run.is_clean(unit) && !run.is_as_at_start(unit));
        for each in 0..32 {
            assert_eq!(run.says(each), !set.contains(&each), "unit {each}");
        }
    }
}

/// The unit of an SSK is that by the prefix at its turn: with prefix 8192 real address 0 is unit 4,
/// and after SET PREFIX to 12,288 it is unit 6.
fn prefix_at_the_turn<U: Unit>() {
    let mut run = written();
    for (prefix, unit) in [(8192, 4), (12_288, 6)] {
        let set_prefix = Request::set_prefix(prefix);
        assert!(run.processor::<U>(0, set_prefix, &mut []).is_ok());
        stores::<U>(&mut run, 600, 4);
        assert!(!run.is_clean(unit) && !run.is_as_at_start(unit));
        assert!(run.processor::<U>(0, Request::ssk(0, 0), &mut []).is_ok());
        assert!(run.is_clean(unit) && !run.says(unit));
    }
    run.test_end();
    assert!(run.says(0) && run.says(5) && run.says(7));
}

/// A refused SSK or SSKE is none: the change bit of a unit that was stored to stays on, and on a
/// unit that was not stored to the claim says something.
fn refused_setting<U: Unit>() {
    let problem = Processor {
        problem: true,
        ..Processor::default()
    };
    for (processor, request, reason) in [
        (
            Processor::default(),
            Request::ssk(0, 8193),
            Reason::Specification,
        ),
        (problem, Request::ssk(0, 8192), Reason::Privileged),
        (problem, Request::sske(0, 8192), Reason::Privileged),
        (
            Processor::default(),
            Request::ssk(0, 65_536),
            Reason::Addressing,
        ),
    ] {
        for stored in [false, true] {
            let mut start = usual();
            start.processors[1] = processor;
            let mut run = Run::new("written".into(), start, Channel::default());
            if stored {
                stores::<U>(&mut run, 8192, 4);
            }
            let answer = run.processor::<U>(1, request, &mut []);
            assert_eq!(answer, refused(reason, 0));
            run.test_end();
            assert_eq!(run.is_clean(4), !stored);
            assert_eq!(run.says(4), !stored);
            assert_eq!(run.is_as_at_start(4), !stored);
        }
    }
}

/// A start with a request of the channel: a read into unit 4, and chained to it a read into unit 6.
/// The CCWs are in unit 2.
fn two_reads() -> (Lent, Channel) {
    let mut start = usual();
    start.keys.fill(0x30);
    for (at, address, flags) in [(4096, 8192, CHAIN_COMMAND), (4104, 12_288, 0)] {
        let read = Ccw {
            command: 2,
            address,
            flags,
            ignored: 0,
            count: 4,
        };
        start.storage[at..at + 8].copy_from_slice(&read.to_bytes());
    }
    let request = channel::Request {
        key: 3,
        first: 4096,
        grant: 256,
    };
    let channel = Channel {
        programs: vec![Program {
            request,
            from: new_bytes(8),
            room: Vec::new(),
        }],
        ..Channel::default()
    };
    (start, channel)
}

/// A program that is cut off after its first CCW: the unit of this read is changed. The unit of the
/// second read and that of the CCWs are clean and untouched.
fn program_cut_off<U: ChannelUnit>() {
    let (start, channel) = two_reads();
    let mut run = Run::new("written".into(), start, channel);
    assert_eq!(run.step::<U>(), 255);
    run.test_end();
    assert!(run.channel.under_way());
    let keys = [2, 4, 6].map(|unit| run.lent.keys[unit]);
    assert_eq!(keys, [0x34, 0x36, 0x30]);
    assert!(!run.is_as_at_start(4));
    for unit in [2, 6] {
        assert!(run.says(unit) && run.is_as_at_start(unit));
    }
    // To the end of the program.
    assert_eq!(run.step::<U>(), 0);
    run.test_end();
    assert!(!run.is_clean(6) && !run.is_as_at_start(6));
}

mod plain {
    use super::*;

    #[test]
    fn random_sequences() {
        super::random_sequences::<Plain, Plain>();
    }

    #[test]
    fn neighbour_of_a_store() {
        super::neighbour_of_a_store::<Plain>();
    }

    #[test]
    fn store_and_set() {
        super::store_and_set::<Plain>();
    }

    #[test]
    fn prefix_at_the_turn() {
        super::prefix_at_the_turn::<Plain>();
    }

    #[test]
    fn refused_setting() {
        super::refused_setting::<Plain>();
    }

    #[test]
    fn program_cut_off() {
        super::program_cut_off::<Plain>();
    }
}

mod proved {
    use super::*;

    #[test]
    fn random_sequences() {
        super::random_sequences::<Proved, Proved>();
    }

    #[test]
    fn neighbour_of_a_store() {
        super::neighbour_of_a_store::<Proved>();
    }

    #[test]
    fn store_and_set() {
        super::store_and_set::<Proved>();
    }

    #[test]
    fn prefix_at_the_turn() {
        super::prefix_at_the_turn::<Proved>();
    }

    #[test]
    fn refused_setting() {
        super::refused_setting::<Proved>();
    }

    #[test]
    fn program_cut_off() {
        super::program_cut_off::<Proved>();
    }
}

mod proved_short_way {
    use super::*;

    #[test]
    fn random_sequences() {
        super::random_sequences::<ProvedShortWay, Proved>();
    }
}
