//! Machines: the methods of one that owns and of one that borrows against the function for every
//! request, at random; and what a new machine holds.

mod support;

use std::borrow::BorrowMut;

use storage_unit::{Machine, Processor, Reason, Refusal, Request, Settings};
use storage_unit_comparison::units::{Proved, by_method};

use support::*;

/// A machine that holds what is lent.
fn owned(lent: &Lent) -> Machine {
    Machine {
        settings: lent.settings,
        storage: lent.storage.clone(),
        keys: lent.keys.clone(),
        processors: lent.processors,
    }
}

fn random_lent(random: &mut Random) -> Lent {
    let length = (1 + random.below(8) as usize) * 4096;
    let settings = Settings {
        four_k: random.one_in(2),
        extensions: !random.one_in(4),
    };
    let mut keys = vec![0; settings.key_count(length)];
    keys.fill_with(|| random_key(random));
    // Some are refused by line 64.
    if random.one_in(16) {
        keys.pop();
    }
    Lent {
        settings,
        storage: random.bytes(length),
        keys,
        processors: [(); 2].map(|()| random_processor(random, length)),
    }
}

/// Random requests by the methods of a machine, and by the function on the same state. `machine`
/// holds what is lent.
fn methods_as_request<B, P>(random: &mut Random, mut lent: Lent, machine: &mut Machine<B, P>)
where
    B: AsRef<[u8]> + AsMut<[u8]>,
    P: BorrowMut<[Processor; 2]>,
{
    let length = lent.storage.len();
    let (mut buffer, mut expected_buffer) = (Vec::new(), Vec::new());
    for _ in 0..200 {
        let number = random.pick(&[0, 0, 0, 0, 1, 1, 1, 1, 2, u32::MAX]);
        let aim = Aim::new(lent.settings, length, &lent.processors, number);
        let request = random_request(random, &aim);
        random_buffer(random, &request, &mut expected_buffer);
        buffer.clone_from(&expected_buffer);
        if let Some(own) = lent.processors.get_mut(number as usize) {
            *own = random_processor(random, length);
            if random.one_in(16) {
                damage(random, own, length);
            }
            *machine.cpu(number).record_mut().expect("a processor") = *own;
        }

        let expected = lent.request::<Proved>(number, &request, &mut expected_buffer);
        let answer = by_method(machine, number, &request, &mut buffer);

        assert_eq!(answer, expected, "processor {number}, {request:?}");
        assert!(buffer == expected_buffer, "buffer of {request:?}");
        assert_eq!(*machine.processors.borrow(), lent.processors);
        assert!(machine.keys.as_ref() == lent.keys, "keys of {request:?}");
        assert!(
            machine.storage.as_ref() == lent.storage,
            "storage of {request:?}"
        );
        let record = lent.processors.get(number as usize);
        assert_eq!(machine.cpu(number).record(), record);
    }
}

#[test]
fn methods_of_a_machine_that_owns() {
    let random = &mut Random::new(3_031);
    for _ in 0..300 {
        let lent = random_lent(random);
        let mut machine = owned(&lent);
        methods_as_request(random, lent, &mut machine);
    }
}

#[test]
fn methods_of_a_machine_that_borrows() {
    let random = &mut Random::new(3_033);
    for _ in 0..300 {
        let lent = random_lent(random);
        let mut held = lent.clone();
        let (storage, keys) = (&mut held.storage, &mut held.keys);
        let mut machine = Machine::borrowed(held.settings, storage, keys, &mut held.processors);
        methods_as_request(random, lent, &mut machine);
    }
}

/// The method for any request takes each of them too, and a buffer longer than an access.
#[test]
fn any_request_by_one_method() {
    let random = &mut Random::new(3_081);
    for _ in 0..20_000 {
        let mut lent = random_lent(random);
        let mut machine = owned(&lent);
        let number = random.pick(&[0, 1, 2]);
        let aim = Aim::new(lent.settings, lent.storage.len(), &lent.processors, number);
        let request = random_request(random, &aim);
        let mut buffer = Vec::new();
        random_buffer(random, &request, &mut buffer);
        let mut expected_buffer = buffer.clone();
        let expected = lent.request::<Proved>(number, &request, &mut expected_buffer);
        assert_eq!(machine.cpu(number).request(&request, &mut buffer), expected);
        assert!(
            buffer == expected_buffer && machine == owned(&lent),
            "{request:?}"
        );
    }
}

/// A new machine is zero, and its requests complete. A length that the unit refuses gives none.
#[test]
fn new_machines() {
    let random = &mut Random::new(3_090);
    let mut lengths: Vec<usize> = vec![0, 1, 4095, 4096, 16_777_216, 16_781_312, usize::MAX];
    lengths.extend((0..200).map(|_| random.below(40) as usize * 1024));
    for length in lengths {
        for four_k in [false, true] {
            let settings = Settings {
                four_k,
                extensions: true,
            };
            // The storage is lent only where it is not too long to be made.
            let lent = Lent {
                settings,
                storage: vec![0; length.min(1 << 25)],
                keys: vec![0; length.min(1 << 25) / settings.key_unit()],
                processors: [Processor::default(); 2],
            };
            let answer = lent
                .clone()
                .request::<Proved>(0, &Request::store_prefix(), &mut []);
            match Machine::new(settings, length) {
                Ok(machine) => {
                    assert_eq!(outcome(answer), COMPLETED);
                    assert!(machine == owned(&lent), "{length}");
                }
                Err(refusal) => {
                    let expected = Refusal {
                        reason: Reason::Configuration,
                        place: 0,
                    };
                    assert_eq!((refusal, answer), (expected, Err(expected)), "{length}");
                }
            }
        }
    }
}

/// What a machine and a processor show does not grow with the storage.
#[test]
fn machines_in_words() {
    let mut machine = Machine::new(Settings::default(), 1 << 24).expect("a length that is right");
    assert!(format!("{machine:?}").contains("storage_length: 16777216, keys_length: 8192"));
    assert!(format!("{machine:?}").len() < 500);
    assert!(format!("{:?}", machine.cpu(1)).contains("number: 1, record: Some(Processor"));
    assert!(format!("{:?}", machine.cpu(1)).len() < 500);
}
