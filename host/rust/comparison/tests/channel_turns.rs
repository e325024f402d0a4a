//! Orders of turns of three parties: the lists of two processors and that of the channel give the
//! same in every order of turns, where their units are apart.
//!
//! A turn of the channel is one step. Units are apart when every unit that more than one list
//! names is named by fetches only. Lists are made so, as in `turns.rs`: a request is taken if the
//! units it names, by the state that its list alone leads to, belong to its list, or are set aside
//! for fetches and it names them as fetches. That the lists are apart is then found again from all
//! that they name. Each order is compared with the lists run whole one after another, the channel's
//! last: storage, keys and both records at the end; answer and buffer of each request of a
//! processor; answer, count, record and room of each request of the channel.

mod support;

use std::collections::BTreeSet;

use storage_unit::boundary::{
    CCW_LENGTH, PROGRESS_FETCHED_AT, PROGRESS_LENGTH, call_channel_raw, encode_settings,
};
use storage_unit::{AccessKind, Answer, Processor, Request, Settings};
use storage_unit_comparison::channel::{self, Ccw, Line, Progress, Status};
use storage_unit_comparison::reference::units_named;
use storage_unit_comparison::units::{Plain, Proved, Reference};
use storage_unit_comparison::{ChannelUnit, Unit};

use support::channels::CHAIN_COMMAND;
use support::*;

const DEFAULT_SEED: u64 = 42_370_000;

/// Triples of lists. Those with few turns are run in all orders, the others in `ORDERS` random
/// ones.
const APART: u64 = 10_000;
const NOT_APART: u64 = 1_000;
const ORDERS: usize = 30;
const FEW_TURNS: usize = 7;
const LONGEST_LIST: u64 = 12;
const MOST_PROGRAMS: u64 = 6;

/// The channel's place among the lists.
const CHANNEL: usize = 2;

/// A request of a processor. The bytes to be stored, or the content of the buffer before a fetch,
/// belong to it.
#[derive(Clone, Debug)]
struct Turn {
    processor: u32,
    request: Request,
    buffer: Vec<u8>,
}

impl Turn {
    fn is_fetch(&self) -> bool {
        matches!(
            self.request,
            Request::Access {
                kind: AccessKind::Fetch,
                ..
            }
        )
    }
}

/// A request of the channel with its two buffers.
#[derive(Clone, Debug)]
struct Program {
    request: channel::Request,
    from: Vec<u8>,
    room: Vec<u8>,
}

/// The three lists.
#[derive(Clone, Debug, Default)]
struct Lists {
    processors: [Vec<Turn>; 2],
    channel: Vec<Program>,
}

/// What a request of the channel has given so far: number, progress, room.
#[derive(Clone, Debug, PartialEq)]
struct Given {
    packed: u64,
    progress: [u8; PROGRESS_LENGTH],
    room: Vec<u8>,
}

/// What a run leaves.
#[derive(Clone, PartialEq)]
struct Left {
    lent: Lent,
    processors: [Vec<(Answer, Vec<u8>)>; 2],
    channel: Vec<Given>,
}

const UNDER_WAY: u64 = 255 << 48;

impl Given {
    fn under_way(&self) -> bool {
        self.packed == UNDER_WAY
    }

    /// How many CCWs were fetched.
    fn fetched(&self) -> u32 {
        let bytes = &self.progress[PROGRESS_FETCHED_AT..][..4];
        u32::from_le_bytes(bytes.try_into().expect("four bytes"))
    }
}

/// A run that is under way.
struct Run<'a> {
    lists: &'a Lists,
    left: Left,
    /// A request of a processor was completed behind the last CCW of the channel's request that is
    /// under way.
    completed_behind: bool,
    /// How many times that was so where a further CCW of the request was fetched.
    between_ccws: u64,
}

impl Run<'_> {
    fn new<'a>(start: &Lent, lists: &'a Lists) -> Run<'a> {
        let left = Left {
            lent: start.clone(),
            processors: [Vec::new(), Vec::new()],
            channel: Vec::new(),
        };
        Run {
            lists,
            left,
            completed_behind: false,
            between_ccws: 0,
        }
    }

    /// Whether a list has turns left.
    fn has_turns(&self, list: usize) -> bool {
        if list == CHANNEL {
            self.channel_under_way() || self.left.channel.len() < self.lists.channel.len()
        } else {
            self.left.processors[list].len() < self.lists.processors[list].len()
        }
    }

    fn channel_under_way(&self) -> bool {
        self.left.channel.last().is_some_and(Given::under_way)
    }

    /// A turn of a list that has one.
    fn turn<U: Unit + ChannelUnit>(&mut self, list: usize) {
        if list == CHANNEL {
            self.step::<U>();
        } else {
            self.processor::<U>(list);
        }
    }

    fn processor<U: Unit>(&mut self, list: usize) {
        let done = &mut self.left.processors[list];
        let turn = &self.lists.processors[list][done.len()];
        let mut buffer = turn.buffer.clone();
        let (number, request) = (turn.processor, &turn.request);
        let answer = self.left.lent.request::<U>(number, request, &mut buffer);
        let completed = answer.is_ok();
        done.push((answer, buffer));
        self.completed_behind |= completed && self.channel_under_way();
    }

    /// Begins the next request of the channel if none is under way, and gives its number.
    fn begun(&mut self) -> usize {
        if !self.channel_under_way() {
            self.left.channel.push(Given {
                packed: UNDER_WAY,
                progress: [0; PROGRESS_LENGTH],
                room: self.lists.channel[self.left.channel.len()].room.clone(),
            });
        }
        self.left.channel.len() - 1
    }

    fn call(&mut self, function: storage_unit::boundary::RawChannel) {
        let number = self.begun();
        let program = &self.lists.channel[number];
        let (lent, given) = (&mut self.left.lent, &mut self.left.channel[number]);
        let channel::Request { key, first, grant } = program.request;
        // SAFETY: the tests call the functions of the comparison and of the static library.
        given.packed = unsafe {
            call_channel_raw(
                function,
                encode_settings(lent.settings),
                &mut lent.storage,
                &mut lent.keys,
                (key, first, grant),
                &program.from,
                &mut given.room,
                &mut given.progress,
            )
        };
    }

    fn step<U: ChannelUnit>(&mut self) {
        let number = self.begun();
        let before = self.left.channel[number].fetched();
        self.call(U::STEP);
        let fetched = self.left.channel[number].fetched() > before;
        self.between_ccws += u64::from(self.completed_behind && fetched);
        self.completed_behind = false;
    }

    /// The next request of the channel as a whole, by the reference.
    fn whole_by_reference(&mut self) {
        let number = self.begun();
        let program = &self.lists.channel[number];
        let (lent, given) = (&mut self.left.lent, &mut self.left.channel[number]);
        let mut lent = channel::Lent {
            settings: encode_settings(lent.settings),
            storage: &mut lent.storage,
            keys: &mut lent.keys,
            from: &program.from,
            room: &mut given.room,
        };
        given.packed = channel::whole_by_numbers(&mut lent, &program.request, &mut given.progress);
    }
}

/// The lists whole one after another, by the reference.
fn one_after_another(start: &Lent, lists: &Lists) -> Left {
    let mut run = Run::new(start, lists);
    for list in 0..2 {
        while run.has_turns(list) {
            run.processor::<Reference>(list);
        }
    }
    while run.has_turns(CHANNEL) {
        run.whole_by_reference();
    }
    run.left
}

/// The same by an implementation, by its function for whole requests.
fn one_after_another_by<U: Unit + ChannelUnit>(start: &Lent, lists: &Lists) -> Left {
    let mut run = Run::new(start, lists);
    for list in 0..2 {
        while run.has_turns(list) {
            run.processor::<U>(list);
        }
    }
    while run.has_turns(CHANNEL) {
        run.call(U::WHOLE);
    }
    run.left
}

/// A random order, from turns in single alternation to long stretches of one list. Gives the order
/// too.
fn random_order<'a, U: Unit + ChannelUnit>(
    random: &mut Random,
    start: &Lent,
    lists: &'a Lists,
) -> (Run<'a>, Vec<usize>) {
    let mut run = Run::new(start, lists);
    let mut order = Vec::new();
    let stretch = random.pick(&[1, 2, 2, 4, 12]);
    let mut list = random.below(3) as usize;
    loop {
        if random.one_in(stretch) {
            list = random.below(3) as usize;
        }
        if (0..3).all(|list| !run.has_turns(list)) {
            return (run, order);
        }
        while !run.has_turns(list) {
            list = (list + 1) % 3;
        }
        run.turn::<U>(list);
        order.push(list);
    }
}

/// The lists in this order of turns, each element a list that has one.
fn in_order<'a, U: Unit + ChannelUnit>(start: &Lent, lists: &'a Lists, order: &[usize]) -> Run<'a> {
    let mut run = Run::new(start, lists);
    for &list in order {
        assert!(run.has_turns(list), "a turn is left");
        run.turn::<U>(list);
    }
    assert!(
        (0..3).all(|list| !run.has_turns(list)),
        "the order has every turn"
    );
    run
}

/// How many turns each list has, run alone from the start.
fn turns_of(start: &Lent, lists: &Lists) -> [usize; 3] {
    let mut lent = start.clone();
    let of_channel = lists.channel.iter();
    let steps = of_channel
        .map(|program| program_alone(&mut lent, program).steps)
        .sum();
    let [first, second] = &lists.processors;
    [first.len(), second.len(), steps]
}

/// All orders of so many turns.
fn all_orders(left: [usize; 3]) -> Vec<Vec<usize>> {
    if left == [0; 3] {
        return vec![Vec::new()];
    }
    let mut orders = Vec::new();
    for list in 0..3 {
        let mut rest = left;
        if let Some(fewer) = left[list].checked_sub(1) {
            rest[list] = fewer;
            for mut order in all_orders(rest) {
                order.insert(0, list);
                orders.push(order);
            }
        }
    }
    orders
}

/// Units by how they are named: as fetches, otherwise.
#[derive(Clone, Debug, Default)]
struct Names {
    fetches: BTreeSet<usize>,
    others: BTreeSet<usize>,
}

impl Names {
    fn extend(&mut self, other: &Names) {
        self.fetches.extend(&other.fetches);
        self.others.extend(&other.others);
    }
}

/// What a turn of a processor names in this state. The state goes on.
fn names_of_turn(lent: &mut Lent, turn: &Turn) -> Names {
    let before = lent.processors;
    let answer = lent.request::<Reference>(turn.processor, &turn.request, &mut turn.buffer.clone());
    let mut names = Names::default();
    if let Some(own) = before.get(turn.processor as usize) {
        let units = units_named(lent.settings, own, &turn.request, &answer);
        if turn.is_fetch() {
            names.fetches.extend(units);
        } else {
            names.others.extend(units);
        }
    }
    names
}

/// What a request of the channel does alone.
#[derive(Default)]
struct Alone {
    names: Names,
    /// That of the answer.
    number: u16,
    steps: usize,
    transfers: usize,
    /// The CCWs that were fetched, by their addresses.
    fetched: Vec<(u32, Ccw)>,
}

/// Runs a request of the channel by the reference from this state. The state goes on.
fn program_alone(lent: &mut Lent, program: &Program) -> Alone {
    let mut with = channel::Lent {
        settings: encode_settings(lent.settings),
        storage: &mut lent.storage,
        keys: &mut lent.keys,
        from: &program.from,
        room: &mut program.room.clone(),
    };
    let mut progress = Progress::NOT_BEGUN;
    let mut alone = Alone::default();
    loop {
        let address = match progress.status {
            Status::NotBegun => program.request.first,
            _ => progress.record.address,
        };
        let Some(step) = channel::step(&mut with, &program.request, &mut progress) else {
            break;
        };
        alone.steps += 1;
        alone.transfers += usize::from(step.line == Line::Transferred);
        alone.fetched.extend(step.ccw.map(|ccw| (address, ccw)));
        alone.names.fetches.extend(step.fetches);
        alone.names.others.extend(step.others);
    }
    alone.number = channel::number_given(&progress);
    alone
}

/// What each list names, run alone from the start.
fn names_of_lists(start: &Lent, lists: &Lists) -> [Names; 3] {
    let mut all = [(); 3].map(|()| Names::default());
    for (list, turns) in lists.processors.iter().enumerate() {
        let mut lent = start.clone();
        for turn in turns {
            all[list].extend(&names_of_turn(&mut lent, turn));
        }
    }
    let mut lent = start.clone();
    for program in &lists.channel {
        all[CHANNEL].extend(&program_alone(&mut lent, program).names);
    }
    all
}

/// Whether the units are apart, and how many are named by more than one list.
fn apart(names: &[Names; 3]) -> (bool, usize) {
    let units: BTreeSet<usize> = names
        .iter()
        .flat_map(|names| names.fetches.union(&names.others))
        .copied()
        .collect();
    let (mut apart, mut shared) = (true, 0);
    for unit in units {
        let named = |names: &&Names| names.fetches.contains(&unit) || names.others.contains(&unit);
        let otherwise = |names: &Names| names.others.contains(&unit);
        if names.iter().filter(named).count() > 1 {
            shared += 1;
            apart &= !names.iter().any(otherwise);
        }
    }
    (apart, shared)
}

/// Who may name a unit.
#[derive(Clone, Copy, PartialEq)]
enum Owner {
    List(usize),
    Fetches,
}

/// Whether a list may name these units.
fn may(owners: &[Owner], list: usize, names: &Names) -> bool {
    let own = |unit: &usize| owners[*unit] == Owner::List(list);
    let fetched = |unit: &usize| own(unit) || owners[*unit] == Owner::Fetches;
    names.fetches.iter().all(fetched) && names.others.iter().all(own)
}

fn random_start(random: &mut Random) -> Lent {
    let length = random.pick(&[8192, 16_384, 32_768, 65_536]);
    let settings = Settings {
        four_k: random.one_in(2),
        extensions: !random.one_in(6),
    };
    let mut keys: Vec<u8> = (0..settings.key_count(length))
        .map(|_| random_key(random))
        .collect();
    let mut processors: [Processor; 2] = [(); 2].map(|()| random_processor(random, length));
    // Some runs start in a state that line 64 or 65 refuses. The channel looks at no record.
    match random.below(40) {
        0 => keys.push(0),
        1..=3 => damage(random, &mut processors[0], length),
        _ => {}
    }
    Lent {
        settings,
        storage: random.bytes(length),
        keys,
        processors,
    }
}

fn random_owners(random: &mut Random, start: &Lent) -> Vec<Owner> {
    let choices = [
        Owner::List(0),
        Owner::List(1),
        Owner::List(CHANNEL),
        Owner::List(CHANNEL),
        Owner::Fetches,
    ];
    let mut owners: Vec<Owner> = Vec::new();
    for unit in 0..start.settings.key_count(start.storage.len()) {
        // Mostly the same for both units of a block, which the extended instructions name.
        let pair = !start.settings.four_k && unit % 2 == 1 && !random.one_in(3);
        owners.push(if pair {
            owners[unit - 1]
        } else {
            random.pick(&choices)
        });
    }
    owners
}

/// A list for one processor that names only units it may name.
fn random_turns(
    random: &mut Random,
    start: &Lent,
    list: usize,
    length: u64,
    takes: impl Fn(&Names) -> bool,
) -> Vec<Turn> {
    let mut lent = start.clone();
    let mut turns = Vec::new();
    let mut attempts = 0;
    while (turns.len() as u64) < length && attempts < 20 * length {
        attempts += 1;
        let processor = if random.one_in(40) {
            random.pick(&[2, u32::MAX])
        } else {
            list as u32
        };
        let length = lent.storage.len();
        let aim = Aim::new(lent.settings, length, &lent.processors, list as u32);
        let request = random_request(random, &aim);
        let mut buffer = Vec::new();
        random_buffer(random, &request, &mut buffer);
        let turn = Turn {
            processor,
            request,
            buffer,
        };
        let mut next = lent.clone();
        let names = names_of_turn(&mut next, &turn);
        let names_some = !names.fetches.is_empty() || !names.others.is_empty();
        if takes(&names) && (names_some || random.one_in(3)) {
            lent = next;
            turns.push(turn);
        }
    }
    turns
}

/// An address in a unit of one of these owners, or now and then in any unit: then a request that
/// names it is not taken.
fn address_of(random: &mut Random, start: &Lent, owners: &[Owner], of: &[Owner]) -> Option<u32> {
    let any = random.one_in(12);
    let units: Vec<usize> = (0..owners.len())
        .filter(|unit| any || of.contains(&owners[*unit]))
        .collect();
    if units.is_empty() {
        return None;
    }
    let unit = start.settings.key_unit() as u64;
    Some((random.pick(&units) as u64 * unit + random.below(unit)) as u32)
}

/// Writes a program into storage, mostly in units that the channel may name, and gives the
/// request. A CCW is not in storage where the program meets the end, or where the CCW before it
/// reads it from the device.
fn write_program(random: &mut Random, start: &mut Lent, owners: &[Owner]) -> Option<Program> {
    let own = [Owner::List(CHANNEL)];
    let fetched = [Owner::List(CHANNEL), Owner::Fetches];
    let first = address_of(random, start, owners, &fetched)? / 8 * 8;
    let count = 1 + random.below(8);
    let (mut from, mut given) = (Vec::new(), 0);
    let mut at = first as usize;
    let mut after_transfer = true;
    // Where this CCW is among the bytes from the device, if it is read.
    let mut read_at = None;
    for number in 0..count {
        let read = random.one_in(2);
        let length = random.pick(&[1, 8, 16, 16, 100, 2000]);
        let target = if read { &own[..] } else { &fetched[..] };
        let address = address_of(random, start, owners, target)?;
        let last = number + 1 == count;
        let mut ccw = Ccw {
            command: random.byte() & !3 | if read { 2 } else { 1 },
            address,
            flags: if last { 0 } else { CHAIN_COMMAND },
            ignored: random.byte(),
            count: length,
        };
        let transfer = !after_transfer && random.one_in(4);
        after_transfer = transfer;
        let mut behind = at + CCW_LENGTH;
        let mut next_read_at = None;
        if transfer {
            // Onwards, or back to the first.
            let next = address_of(random, start, owners, &fetched)? / 8 * 8;
            ccw.command = 8;
            ccw.address = if random.one_in(4) { first } else { next };
            behind = next as usize;
        } else if random.one_in(20) {
            ccw.command = random.byte();
            ccw.flags ^= random.pick(&[0, 1, 0x40]);
            ccw.count = random.pick(&[0, 16]);
        } else if !last && random.one_in(8) {
            ccw.command = 2;
            ccw.address = behind as u32;
            ccw.count = CCW_LENGTH as u16;
            next_read_at = Some(from.len());
            from.extend([0; CCW_LENGTH]);
        } else if read {
            from.extend(random.bytes(length.into()));
        } else {
            given += usize::from(length);
        }
        let place = match read_at {
            Some(place) => from.get_mut(place..place + CCW_LENGTH),
            None => start.storage.get_mut(at..at + CCW_LENGTH),
        };
        if let Some(bytes) = place {
            bytes.copy_from_slice(&ccw.to_bytes());
        }
        (at, read_at) = (behind, next_read_at);
    }
    let slack = random.pick(&[0, 0, 40, 4000]);
    let short = random.pick(&[0, 0, 0, 0, 0, 1]);
    let request = channel::Request {
        key: match random.below(16) {
            0..=8 => 0,
            9 => 16,
            _ => random_access_key(random).into(),
        },
        first: if random.one_in(20) { first + 4 } else { first },
        grant: random.pick(&[256, 256, 256, 256, 20, 20, 8, 4, 2, 1, 0]),
    };
    from.extend(random.bytes(slack));
    from.truncate(from.len().saturating_sub(short));
    Some(Program {
        request,
        from,
        room: random.bytes((given + slack).saturating_sub(short)),
    })
}

/// What the generated lists contained.
#[derive(Debug, Default)]
struct Seen {
    triples: u64,
    orders: u64,
    /// Run in all orders, each list with a turn at least.
    all_orders: u64,
    processor_requests: u64,
    channel_requests: u64,
    channel_steps: u64,
    empty_channel_lists: u64,
    shared_units: u64,
    shared_with_channel: u64,
    all_three_busy: u64,
    /// Orders in which a request of a processor was completed between two CCWs of one request.
    orders_between_ccws: u64,
    /// Requests of the channel with a transfer in channel that was made.
    transfers: u64,
    /// Requests of the channel with a CCW that a read of the channel had changed.
    overwritten: u64,
    /// Those of them that ended well.
    overwritten_and_ended: u64,
    numbers: [u64; NUMBERS.len()],
}

const NUMBERS: [u16; 8] = [0, 64, 65, 66, 71, 72, 73, 74];

impl Seen {
    fn note_order(&mut self, run: &Run) {
        self.orders += 1;
        self.orders_between_ccws += u64::from(run.between_ccws > 0);
    }

    fn note(&mut self, start: &Lent, lists: &Lists, left: &Left, names: &[Names; 3]) {
        self.triples += 1;
        let turns: usize = lists.processors.iter().map(Vec::len).sum();
        self.processor_requests += turns as u64;
        self.channel_requests += lists.channel.len() as u64;
        self.empty_channel_lists += u64::from(lists.channel.is_empty());
        self.shared_units += u64::from(apart(names).1 > 0);
        let others = names[0].fetches.union(&names[1].fetches);
        let shared = others
            .copied()
            .any(|unit| names[CHANNEL].fetches.contains(&unit));
        self.shared_with_channel += u64::from(shared);
        let busy = |names: &Names| !names.fetches.is_empty() || !names.others.is_empty();
        self.all_three_busy += u64::from(names.iter().all(busy));
        for given in &left.channel {
            let number = (given.packed >> 48) as u16;
            let column = NUMBERS.iter().position(|each| *each == number);
            self.numbers[column.expect("a number of the channel")] += 1;
            self.channel_steps += u64::from(given.fetched());
        }
        let mut lent = start.clone();
        for program in &lists.channel {
            let alone = program_alone(&mut lent, program);
            self.transfers += u64::from(alone.transfers > 0);
            // Alone, nothing but reads of the channel changes storage.
            let overwritten = alone.fetched.iter().any(|(address, ccw)| {
                start.storage[*address as usize..][..CCW_LENGTH] != ccw.to_bytes()
            });
            self.overwritten += u64::from(overwritten);
            self.overwritten_and_ended += u64::from(overwritten && alone.number == 0);
        }
    }

    fn check(&self) {
        for (what, count, minimum) in [
            ("requests of processors", self.processor_requests, 50_000),
            ("requests of the channel", self.channel_requests, 10_000),
            ("CCWs", self.channel_steps, 30_000),
            ("run in all orders", self.all_orders, 200),
            ("empty lists of the channel", self.empty_channel_lists, 500),
            ("shared units", self.shared_units, 1_000),
            ("shared with the channel", self.shared_with_channel, 800),
            ("all three name units", self.all_three_busy, 1_200),
            ("between two CCWs", self.orders_between_ccws, 20_000),
            ("transfers in channel", self.transfers, 1_500),
            ("CCWs overwritten", self.overwritten, 800),
            ("overwritten, ended", self.overwritten_and_ended, 300),
        ] {
            assert!(count >= minimum, "{what}: {count}, fewer than {minimum}");
        }
        for (number, count) in NUMBERS.iter().zip(self.numbers) {
            assert!(count >= 300, "{number}: {count}");
        }
    }
}

/// Three lists and what they start from. Where `restricted`, their units are apart.
fn random_lists(random: &mut Random, restricted: bool) -> (Lent, Lists) {
    let mut start = random_start(random);
    let owners = random_owners(random, &start);
    let takes = |list: usize| {
        let owners = &owners;
        move |names: &Names| !restricted || may(owners, list, names)
    };
    // The programs are in storage before the first turn.
    let mut programs = Vec::new();
    let few = random.one_in(4);
    let most = if few { 1 } else { MOST_PROGRAMS };
    for _ in 0..random.below(most + 1) {
        programs.extend(write_program(random, &mut start, &owners));
    }
    let mut lists = Lists::default();
    for list in 0..2 {
        let length = if few {
            random.below(3)
        } else {
            random.below(LONGEST_LIST + 1)
        };
        lists.processors[list] = random_turns(random, &start, list, length, takes(list));
    }
    let mut lent = start.clone();
    for program in programs {
        let mut next = lent.clone();
        if takes(CHANNEL)(&program_alone(&mut next, &program).names) {
            lent = next;
            lists.channel.push(program);
        }
    }
    (start, lists)
}

/// Where two runs differ, if they do.
fn difference(expected: &Left, found: &Left) -> Option<&'static str> {
    if expected.processors != found.processors {
        Some("an answer or a buffer of a processor")
    } else if expected.channel != found.channel {
        Some("an answer, a record or a room of the channel")
    } else if expected.lent.processors != found.lent.processors {
        Some("the records")
    } else if expected.lent.keys != found.lent.keys {
        Some("the keys")
    } else if expected != found {
        Some("the storage")
    } else {
        None
    }
}

/// Lists that are apart, in random orders.
fn orders_agree<U: Unit + ChannelUnit>() {
    let first_seed = from_environment("STORAGE_UNIT_SEED", DEFAULT_SEED);
    let mut seen = Seen::default();
    for seed in first_seed..first_seed + APART {
        let random = &mut Random::new(seed);
        let (start, lists) = random_lists(random, true);
        let names = names_of_lists(&start, &lists);
        assert!(apart(&names).0, "seed {seed}: the units are apart");
        let expected = one_after_another(&start, &lists);
        let whole = one_after_another_by::<U>(&start, &lists);
        assert_eq!(difference(&expected, &whole), None, "seed {seed}, whole");
        let turns = turns_of(&start, &lists);
        if turns.iter().sum::<usize>() <= FEW_TURNS {
            for order in all_orders(turns) {
                let run = in_order::<U>(&start, &lists, &order);
                let different = difference(&expected, &run.left);
                assert_eq!(different, None, "seed {seed}, order {order:?}");
                seen.note_order(&run);
            }
            seen.all_orders += u64::from(turns.iter().all(|turns| *turns > 0));
        } else {
            for _ in 0..ORDERS {
                let (run, order) = random_order::<U>(random, &start, &lists);
                let different = difference(&expected, &run.left);
                assert_eq!(different, None, "seed {seed}, order {order:?}");
                seen.note_order(&run);
            }
        }
        seen.note(&start, &lists, &expected, &names);
    }
    println!("{}, first seed {first_seed}: {seen:?}", <U as Unit>::NAME);
    seen.check();
}

/// Lists that are not apart: orders differ in many of them. In the order of the comparison they
/// agree with the reference all the same.
fn orders_differ<U: Unit + ChannelUnit>() {
    let first_seed = from_environment("STORAGE_UNIT_SEED", DEFAULT_SEED);
    let (mut not_apart, mut different) = (0, 0);
    for seed in first_seed..first_seed + NOT_APART {
        let random = &mut Random::new(seed);
        let (start, lists) = random_lists(random, false);
        let expected = one_after_another(&start, &lists);
        let whole = one_after_another_by::<U>(&start, &lists);
        assert_eq!(difference(&expected, &whole), None, "seed {seed}, whole");
        if apart(&names_of_lists(&start, &lists)).0 {
            continue;
        }
        not_apart += 1;
        let found = (0..ORDERS).any(|_| {
            let (run, _) = random_order::<U>(random, &start, &lists);
            difference(&expected, &run.left).is_some()
        });
        different += u64::from(found);
    }
    let name = <U as Unit>::NAME;
    println!("{name}: {not_apart} not apart, of which {different} differ");
    assert!(not_apart >= 300 && different >= 200);
}

/// The state of the written lists: 2K units, no protection, prefix 0. A program of the channel
/// stands at 4096, in unit 2; its data are in unit 4 or 5, at 8192 and 10,240.
fn written(ccws: &[Ccw], keys: &[(usize, u8)]) -> Lent {
    let settings = Settings {
        four_k: false,
        extensions: true,
    };
    let mut lent = Lent {
        settings,
        storage: vec![0x5A; 65_536],
        keys: vec![0; 32],
        processors: [Processor::default(); 2],
    };
    for (number, ccw) in ccws.iter().enumerate() {
        lent.storage[4096 + 8 * number..][..8].copy_from_slice(&ccw.to_bytes());
    }
    for &(unit, key) in keys {
        lent.keys[unit] = key;
    }
    lent
}

fn ccw(command: u8, address: u32, flags: u8, count: u16) -> Ccw {
    Ccw {
        command,
        address,
        flags,
        ignored: 0,
        count,
    }
}

/// A case of what a step of the channel names: the program, the keys, its key and grant, and a
/// request of processor 0 between; whether they are apart; the number of the channel alone.
struct Case {
    what: &'static str,
    ccws: Vec<Ccw>,
    keys: Vec<(usize, u8)>,
    request: channel::Request,
    from: usize,
    other: Request,
    apart: bool,
    number: u16,
}

/// The cases of each row: what is named makes a difference to a request that names it otherwise,
/// and what is not named makes none.
fn cases() -> Vec<Case> {
    let usual = channel::Request {
        key: 3,
        first: 4096,
        grant: 256,
    };
    let (write, read) = (ccw(1, 8192, 0, 4), ccw(2, 8192, 0, 4));
    let chained = |ccw: Ccw| Ccw {
        flags: CHAIN_COMMAND,
        ..ccw
    };
    let case = |what, ccws: &[Ccw], other, apart, number| Case {
        what,
        ccws: ccws.to_vec(),
        keys: vec![(2, 0x30), (4, 0x30), (5, 0x30)],
        request: usual,
        from: 100,
        other,
        apart,
        number,
    };
    let store_ccw = Request::store(4096, 4);
    let store_data = Request::store(8192, 4);
    let fetch_data = Request::fetch(8192, 4);
    let (set_ccw, set_data) = (Request::ssk(0x58, 4096), Request::ssk(0x58, 8192));
    let (open_ccw, open_data) = (Request::ssk(0x38, 4096), Request::ssk(0x38, 8192));
    let far = ccw(8, 12_288, 0, 0);
    let forbidden = |case: Case, unit, key| Case {
        keys: vec![(2, 0x30), (4, 0x30), (unit, key)],
        ..case
    };
    let short = |case| Case { from: 3, ..case };
    let odd = |case: Case| Case {
        request: channel::Request {
            first: 4100,
            ..usual
        },
        ..case
    };
    let granted = |case: Case| Case {
        request: channel::Request { grant: 1, ..usual },
        ..case
    };
    vec![
        case("performed write, its CCW", &[write], store_ccw, false, 0),
        case(
            "performed write, key of its CCW",
            &[write],
            set_ccw,
            false,
            0,
        ),
        case("performed write, its data", &[write], store_data, false, 0),
        case(
            "performed write, key of its data",
            &[write],
            set_data,
            false,
            0,
        ),
        case(
            "performed write, a fetch of its data",
            &[write],
            fetch_data,
            true,
            0,
        ),
        case(
            "performed write, a fetch of its CCW",
            &[write],
            Request::fetch(4096, 8),
            true,
            0,
        ),
        case(
            "performed read, a fetch of its data",
            &[read],
            fetch_data,
            false,
            0,
        ),
        case("performed read, its data", &[read], store_data, false, 0),
        case(
            "performed read, a fetch of its CCW",
            &[read],
            Request::fetch(4096, 8),
            true,
            0,
        ),
        forbidden(
            case("72 for the CCW", &[write], open_ccw, false, 72),
            2,
            0x48,
        ),
        forbidden(
            case(
                "72 for the CCW, a fetch",
                &[write],
                Request::fetch(4096, 8),
                true,
                72,
            ),
            2,
            0x48,
        ),
        forbidden(
            case("72 for a write", &[write], open_data, false, 72),
            4,
            0x48,
        ),
        forbidden(
            case("72 for a read", &[read], open_data, false, 72),
            4,
            0x40,
        ),
        case(
            "71 after the fetch",
            &[ccw(0, 8192, 0, 4)],
            set_ccw,
            false,
            71,
        ),
        case(
            "71 after the fetch, the data",
            &[ccw(0, 8192, 0, 4)],
            store_data,
            true,
            71,
        ),
        case(
            "71 for the range",
            &[ccw(2, 65_535, 0, 4)],
            Request::store(65_535, 1),
            true,
            71,
        ),
        short(case("73", &[read], set_ccw, false, 73)),
        short(case("73, the data", &[read], store_data, true, 73)),
        short(case("73, key of the data", &[read], set_data, true, 73)),
        case("transfer", &[chained(write), far], set_ccw, false, 71),
        case(
            "71 for the address",
            &[chained(write), ccw(8, 10_244, 0, 0)],
            Request::store(10_244, 4),
            true,
            71,
        ),
        odd(case(
            "71 for the first address",
            &[write],
            store_ccw,
            true,
            71,
        )),
        granted(case(
            "74",
            &[chained(write), write],
            Request::store(10_240, 4),
            true,
            74,
        )),
    ]
}

/// Each row of what a step names.
fn names_of_steps<U: Unit + ChannelUnit>() {
    for case in cases() {
        let start = written(&case.ccws, &case.keys);
        let buffer = vec![0x77; 256];
        let program = Program {
            request: case.request,
            from: (0..case.from).map(|number| number as u8).collect(),
            room: vec![0; 100],
        };
        let alone = program_alone(&mut start.clone(), &program);
        assert_eq!(alone.number, case.number, "{}", case.what);
        let lists = Lists {
            processors: [
                vec![Turn {
                    processor: 0,
                    request: case.other,
                    buffer,
                }],
                Vec::new(),
            ],
            channel: vec![program],
        };
        let names = names_of_lists(&start, &lists);
        assert_eq!(apart(&names).0, case.apart, "{}", case.what);
        let expected = one_after_another(&start, &lists);
        let random = &mut Random::new(1);
        let different = (0..40).any(|_| {
            let (run, _) = random_order::<U>(random, &start, &lists);
            difference(&expected, &run.left).is_some()
        });
        assert_eq!(different, !case.apart, "{}", case.what);
    }
}

mod plain {
    use super::*;

    #[test]
    fn orders_agree() {
        super::orders_agree::<Plain>();
    }

    #[test]
    fn orders_differ() {
        super::orders_differ::<Plain>();
    }

    #[test]
    fn names_of_steps() {
        super::names_of_steps::<Plain>();
    }
}

mod proved {
    use super::*;

    #[test]
    fn orders_agree() {
        super::orders_agree::<Proved>();
    }

    #[test]
    fn orders_differ() {
        super::orders_differ::<Proved>();
    }

    #[test]
    fn names_of_steps() {
        super::names_of_steps::<Proved>();
    }
}
