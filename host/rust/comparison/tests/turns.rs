//! Orders of turns: two lists of requests, one for each processor, whose units are
//! apart give the same result in every order of turns.
//!
//! Units are apart when every unit that both lists name is named by fetches only. A
//! list is made one request after another: a request is taken if the units it names,
//! by the state that its list alone leads to, belong to its list, or are set aside for
//! fetches and it is a fetch. Short lists are run in all orders, longer ones in random
//! orders. Compared are the storage, the keys and both records at the end, and request
//! by request the answer and the whole buffer.

mod support;

use std::collections::BTreeSet;

use storage_unit::{AccessKind, Answer, PrefixInstruction, Processor, Reason, Request, Settings};
use storage_unit_comparison::Unit;
use storage_unit_comparison::reference::units_named;
use storage_unit_comparison::units::Reference;

use support::*;

const DEFAULT_SEED: u64 = 41_370_000;

/// Pairs of lists with at most four requests each, run in all orders.
const SHORT_PAIRS: u64 = 3_000;
const SHORT_LIST: u64 = 4;

/// Pairs of longer lists, each run in `ORDERS_OF_LONG_LISTS` random orders.
const LONG_PAIRS: u64 = 1_000;
const LONG_LIST: u64 = 24;
const ORDERS_OF_LONG_LISTS: usize = 60;

/// A request in a list. The bytes to be stored, or the content of the buffer before a
/// fetch, belong to it.
#[derive(Clone)]
struct Turn {
    processor: u32,
    request: Request,
    buffer: Vec<u8>,
}

impl Turn {
    fn is_fetch(&self) -> bool {
        matches!(
            self.request,
            Request::Access {
                kind: AccessKind::Fetch,
                ..
            }
        )
    }
}

/// What a run leaves: the state, and for each list the answers and buffers in order.
#[derive(PartialEq)]
struct Left {
    lent: Lent,
    results: [Vec<(Answer, Vec<u8>)>; 2],
}

/// Runs the lists in an order of turns; each element is the list whose turn it is.
fn run<U: Unit>(start: &Lent, lists: &[Vec<Turn>; 2], order: &[usize]) -> Left {
    let mut outcome = Left {
        lent: start.clone(),
        results: [Vec::new(), Vec::new()],
    };
    for &list in order {
        let turn = &lists[list][outcome.results[list].len()];
        let mut buffer = turn.buffer.clone();
        let answer = outcome
            .lent
            .request::<U>(turn.processor, &turn.request, &mut buffer);
        outcome.results[list].push((answer, buffer));
    }
    for (list, results) in lists.iter().zip(&outcome.results) {
        assert_eq!(list.len(), results.len(), "the order has every turn");
    }
    outcome
}

/// All orders of `first` turns of list 0 and `second` turns of list 1.
fn all_orders(first: usize, second: usize) -> Vec<Vec<usize>> {
    if first == 0 {
        return vec![vec![1; second]];
    }
    if second == 0 {
        return vec![vec![0; first]];
    }
    let mut orders = Vec::new();
    for (list, rest) in [
        (0, all_orders(first - 1, second)),
        (1, all_orders(first, second - 1)),
    ] {
        for mut order in rest {
            order.insert(0, list);
            orders.push(order);
        }
    }
    orders
}

/// A random order, from turns in single alternation to long stretches of one list.
fn random_order(random: &mut Random, first: usize, second: usize) -> Vec<usize> {
    let mut left = [first, second];
    let mut order = Vec::new();
    let stretch = random.pick(&[2, 2, 4, 12]);
    let mut list = random.below(2) as usize;
    while left != [0, 0] {
        if random.one_in(stretch) {
            list = 1 - list;
        }
        if left[list] == 0 {
            list = 1 - list;
        }
        left[list] -= 1;
        order.push(list);
    }
    order
}

/// The units a turn names in this state, and its answer. The state goes on.
fn take_turn(lent: &mut Lent, turn: &Turn) -> (Answer, Vec<usize>) {
    let before = lent.processors;
    let answer = lent.request::<Reference>(turn.processor, &turn.request, &mut turn.buffer.clone());
    let named = match before.get(turn.processor as usize) {
        Some(own) => units_named(lent.settings, own, &turn.request, &answer),
        None => Vec::new(),
    };
    (answer, named)
}

/// The units named by a list that runs alone: by fetches, and by other requests.
fn units_of_list(start: &Lent, list: &[Turn]) -> [BTreeSet<usize>; 2] {
    let mut lent = start.clone();
    let mut units = [BTreeSet::new(), BTreeSet::new()];
    for turn in list {
        let (_, named) = take_turn(&mut lent, turn);
        units[usize::from(!turn.is_fetch())].extend(named);
    }
    units
}

/// The units that both lists name, and whether nothing but fetches names them.
fn shared_units(start: &Lent, lists: &[Vec<Turn>; 2]) -> (BTreeSet<usize>, bool) {
    let [first_fetched, first_other] = units_of_list(start, &lists[0]);
    let [second_fetched, second_other] = units_of_list(start, &lists[1]);
    let first: BTreeSet<usize> = first_fetched.union(&first_other).copied().collect();
    let second: BTreeSet<usize> = second_fetched.union(&second_other).copied().collect();
    let shared: BTreeSet<usize> = first.intersection(&second).copied().collect();
    let fetches_only = shared
        .iter()
        .all(|unit| !first_other.contains(unit) && !second_other.contains(unit));
    (shared, fetches_only)
}

/// Who may name a unit.
#[derive(Clone, Copy, PartialEq)]
enum Owner {
    List(usize),
    Fetches,
}

fn random_start(random: &mut Random) -> Lent {
    let length = random.pick(&[4096, 8192, 16_384, 16_384, 32_768, 65_536]);
    let settings = Settings {
        four_k: random.one_in(2),
        extensions: !random.one_in(6),
    };
    let mut keys = vec![0; settings.key_count(length)];
    for key in &mut keys {
        *key = random_key(random);
    }
    let mut processors: [Processor; 2] = [(); 2].map(|()| random_processor(random, length));
    // Some runs start in a state that line 64 or 65 refuses.
    match random.below(40) {
        0 => keys.push(0),
        1 => {
            keys.pop();
        }
        2..=3 => damage(random, &mut processors[0], length),
        4..=5 => damage(random, &mut processors[1], length),
        _ => {}
    }
    Lent {
        settings,
        storage: random.bytes(length),
        keys,
        processors,
    }
}

fn random_owners(random: &mut Random, start: &Lent) -> Vec<Owner> {
    let blocks = start.storage.len() / 4096;
    let mut owners = Vec::new();
    for _ in 0..blocks {
        let choices = [Owner::List(0), Owner::List(1), Owner::Fetches];
        let owner = random.pick(&choices);
        if start.settings.four_k {
            owners.push(owner);
        } else {
            // Mostly the same for both units of a block, since the extended
            // instructions name both.
            let second = if random.one_in(3) {
                random.pick(&choices)
            } else {
                owner
            };
            owners.extend([owner, second]);
        }
    }
    owners
}

/// A list for one processor that names only units it may name.
fn random_list(
    random: &mut Random,
    start: &Lent,
    owners: &[Owner],
    list: usize,
    length: u64,
) -> Vec<Turn> {
    let mut lent = start.clone();
    let mut turns = Vec::new();
    // Most requests that aim at a unit of the other list are dropped; the number of
    // attempts keeps the loop short where nothing can be taken.
    let mut attempts = 0;
    while (turns.len() as u64) < length && attempts < 40 * length {
        attempts += 1;
        let processor = if random.one_in(40) {
            random.pick(&[2, 3, u32::MAX])
        } else {
            list as u32
        };
        let aim = Aim::new(
            lent.settings,
            lent.storage.len(),
            &lent.processors,
            list as u32,
        );
        let request = random_request(random, &aim);
        let mut buffer = Vec::new();
        random_buffer(random, &request, &mut buffer);
        let turn = Turn {
            processor,
            request,
            buffer,
        };
        let mut next = lent.clone();
        let (answer, named) = take_turn(&mut next, &turn);
        let may = named.iter().all(|unit| {
            owners[*unit] == Owner::List(list) || owners[*unit] == Owner::Fetches && turn.is_fetch()
        });
        // Requests that name nothing are thinned out.
        let useful = !named.is_empty() || answer.is_ok();
        if may && (useful || random.one_in(3)) {
            lent = next;
            turns.push(turn);
        }
    }
    turns
}

/// What the generated pairs contained.
#[derive(Debug, Default)]
struct Seen {
    pairs: u64,
    orders: u64,
    requests: u64,
    empty_lists: u64,
    shared_fetched_units: u64,
    completed: u64,
    ended_with_4: u64,
    completed_key_instructions: u64,
    completed_set_prefix: u64,
    wrong_processor_numbers: u64,
    pairs_refused_by_64: u64,
    pairs_refused_by_65: u64,
}

impl Seen {
    fn note(&mut self, lists: &[Vec<Turn>; 2], outcome: &Left, shared: usize, orders: usize) {
        self.pairs += 1;
        self.orders += orders as u64;
        self.shared_fetched_units += u64::from(shared > 0);
        let mut refused_by = [false; 2];
        for (list, results) in lists.iter().zip(&outcome.results) {
            self.empty_lists += u64::from(list.is_empty());
            for (turn, (answer, _)) in list.iter().zip(results) {
                let completed = answer.is_ok();
                let refused = |reason| support::outcome(*answer) == Err(reason);
                self.requests += 1;
                self.completed += u64::from(completed);
                self.ended_with_4 += u64::from(refused(Reason::Protection));
                self.wrong_processor_numbers += u64::from(turn.processor > 1);
                refused_by[0] |= refused(Reason::Configuration);
                refused_by[1] |= refused(Reason::Record) && turn.processor < 2;
                match turn.request {
                    Request::Key(_) => self.completed_key_instructions += u64::from(completed),
                    Request::Prefix(PrefixInstruction::SetPrefix { .. }) => {
                        self.completed_set_prefix += u64::from(completed);
                    }
                    _ => {}
                }
            }
        }
        self.pairs_refused_by_64 += u64::from(refused_by[0]);
        self.pairs_refused_by_65 += u64::from(refused_by[1]);
    }

    fn check(&self) {
        for (what, count, minimum) in [
            ("empty lists", self.empty_lists, 10),
            ("shared units", self.shared_fetched_units, 300),
            ("completed", self.completed, 10_000),
            ("ended with 4", self.ended_with_4, 1_000),
            ("key instructions", self.completed_key_instructions, 3_000),
            ("SET PREFIX", self.completed_set_prefix, 1_000),
            ("wrong numbers", self.wrong_processor_numbers, 300),
            ("64", self.pairs_refused_by_64, 50),
            ("65", self.pairs_refused_by_65, 50),
        ] {
            assert!(count >= minimum, "{what}: {count}, fewer than {minimum}");
        }
    }
}

/// Runs random pairs of lists in many orders. The outcome in each order must be that of
/// the reference with all turns of list 0 first.
fn orders_agree<U: Unit>() {
    let first_seed = from_environment("STORAGE_UNIT_SEED", DEFAULT_SEED);
    let mut seen = Seen::default();
    for pair in 0..SHORT_PAIRS + LONG_PAIRS {
        let seed = first_seed + pair;
        let random = &mut Random::new(seed);
        let start = random_start(random);
        let owners = random_owners(random, &start);
        let short = pair < SHORT_PAIRS;
        let lists = [0, 1].map(|list| {
            let length = if short {
                random.below(SHORT_LIST + 1)
            } else {
                SHORT_LIST + 1 + random.below(LONG_LIST - SHORT_LIST)
            };
            random_list(random, &start, &owners, list, length)
        });
        let (shared, fetches_only) = shared_units(&start, &lists);
        assert!(fetches_only, "seed {seed}: the units are apart");

        let counts = [lists[0].len(), lists[1].len()];
        let one_after_the_other = [vec![0; counts[0]], vec![1; counts[1]]].concat();
        let expected = run::<Reference>(&start, &lists, &one_after_the_other);
        let orders = if short {
            all_orders(counts[0], counts[1])
        } else {
            (0..ORDERS_OF_LONG_LISTS)
                .map(|_| random_order(random, counts[0], counts[1]))
                .collect()
        };
        for order in &orders {
            let outcome = run::<U>(&start, &lists, order);
            compare(&expected, &outcome, seed, order);
        }
        seen.note(&lists, &expected, shared.len(), orders.len());
    }
    println!("{}, first seed {first_seed}: {seen:?}", U::NAME);
    seen.check();
}

fn compare(expected: &Left, outcome: &Left, seed: u64, order: &[usize]) {
    for list in 0..2 {
        for (index, (one, other)) in expected.results[list]
            .iter()
            .zip(&outcome.results[list])
            .enumerate()
        {
            assert!(
                one == other,
                "seed {seed}, order {order:?}: request {index} of list {list} differs"
            );
        }
    }
    assert!(
        expected.lent.processors == outcome.lent.processors,
        "seed {seed}, order {order:?}: the records differ"
    );
    assert!(
        expected.lent.keys == outcome.lent.keys,
        "seed {seed}, order {order:?}: the keys differ"
    );
    assert!(
        expected == outcome,
        "seed {seed}, order {order:?}: the storage differs"
    );
}

/// The state of the written pairs: prefixes 0 and 4096, no protection.
fn two_prefixes() -> Lent {
    let settings = Settings {
        four_k: false,
        extensions: true,
    };
    let mut processors = [Processor::default(); 2];
    processors[1].prefix = 4096;
    Lent {
        settings,
        storage: vec![0; 65_536],
        keys: vec![0; 32],
        processors,
    }
}

fn turn(processor: u32, request: Request, buffer: &[u8]) -> Turn {
    Turn {
        processor,
        request,
        buffer: buffer.to_vec(),
    }
}

/// The lists are not apart, and the two orders of one turn each differ.
fn orders_differ<U: Unit>(lists: [Vec<Turn>; 2]) {
    let start = two_prefixes();
    let (shared, fetches_only) = shared_units(&start, &lists);
    assert!(!shared.is_empty() && !fetches_only);
    let outcomes = [[0, 1], [1, 0]].map(|order| {
        let outcome = run::<U>(&start, &lists, &order);
        let expected = run::<Reference>(&start, &lists, &order);
        compare(&expected, &outcome, 0, &order);
        outcome
    });
    assert!(outcomes[0] != outcomes[1]);
}

/// Fact 20: both processors store at absolute 0.
fn stores_to_one_unit<U: Unit>() {
    orders_differ::<U>([
        vec![turn(0, Request::store(0, 1), &[1])],
        vec![turn(1, Request::store(4096, 1), &[2])],
    ]);
}

/// A fetch turns the reference bit of a unit on and RRB turns it off.
fn fetch_and_reset_of_one_unit<U: Unit>() {
    orders_differ::<U>([
        vec![turn(0, Request::fetch(0, 1), &[0])],
        vec![turn(1, Request::rrb(4096), &[])],
    ]);
}

/// ISK writes nothing, but it does not name its unit as a fetch: its word depends on
/// whether a fetch came first.
fn fetch_and_insert_of_one_unit<U: Unit>() {
    orders_differ::<U>([
        vec![turn(0, Request::fetch(0, 1), &[0])],
        vec![turn(1, Request::isk(0, 4096), &[])],
    ]);
}

/// Two fetches of one unit are apart: all orders agree.
fn fetches_of_one_unit<U: Unit>() {
    let start = two_prefixes();
    let lists = [
        vec![
            turn(0, Request::fetch(0, 4), &[9; 4]),
            turn(0, Request::fetch(2000, 8), &[9; 9]),
        ],
        vec![
            turn(1, Request::fetch(4096, 4), &[9; 4]),
            turn(1, Request::fetch(4100, 200), &[9; 256]),
        ],
    ];
    let (shared, fetches_only) = shared_units(&start, &lists);
    assert!(!shared.is_empty() && fetches_only);
    let expected = run::<Reference>(&start, &lists, &[0, 0, 1, 1]);
    for order in all_orders(2, 2) {
        compare(&expected, &run::<U>(&start, &lists, &order), 0, &order);
    }
}

/// SET PREFIX in a list changes which units its later requests name.
fn set_prefix_between_stores<U: Unit>() {
    let start = two_prefixes();
    let set_prefix = |word| Request::set_prefix(word);
    let lists = [
        vec![
            turn(0, Request::store(0, 1), &[1]),
            turn(0, set_prefix(8192), &[]),
            turn(0, Request::store(0, 1), &[2]),
        ],
        vec![
            turn(1, Request::store(0, 1), &[3]),
            turn(1, set_prefix(12_288), &[]),
            turn(1, Request::store(0, 1), &[4]),
        ],
    ];
    let (shared, _) = shared_units(&start, &lists);
    assert!(shared.is_empty());
    let expected = run::<Reference>(&start, &lists, &[0, 0, 0, 1, 1, 1]);
    for (address, byte) in [(0, 1), (8192, 2), (4096, 3), (12_288, 4)] {
        assert_eq!(expected.lent.storage[address], byte);
    }
    let orders = all_orders(3, 3);
    assert_eq!(orders.len(), 20);
    for order in orders {
        compare(&expected, &run::<U>(&start, &lists, &order), 0, &order);
    }
}

for_each_unit! {
    orders_agree
    stores_to_one_unit
    fetch_and_reset_of_one_unit
    fetch_and_insert_of_one_unit
    fetches_of_one_unit
    set_prefix_between_stores
}
