//! A job that stores past the end of its region. The same four requests are made on a machine with
//! 2K key units, where the job's store is refused, and on one with 4K key units, where a single key
//! covers the job's region and its neighbour's, and the store overwrites the neighbour's bytes.
//!
//! `host/example/neighbours.c` is the same program in C and prints the same.

use storage_unit::{Completed, Machine, Processor, Reason, Refusal, Settings, key};

const STORAGE_LENGTH: usize = 65_536;
/// The job's 2K block.
const JOB_BLOCK: u32 = 8192;
/// The next one, its neighbour's.
const NEIGHBOUR_BLOCK: u32 = 10_240;
/// Bytes shown on each side of the boundary.
const SHOWN: u32 = 8;

/// The processor that runs the control program, and the one that runs the regions.
const CONTROL_PROGRAM: u32 = 0;
const REGIONS: u32 = 1;

/// A machine with these settings, its storage full of points.
fn start(settings: Settings) -> Result<Machine, Refusal> {
    let mut machine = Machine::new(settings, STORAGE_LENGTH)?;
    machine.storage.fill(b'.');
    machine.processors[CONTROL_PROGRAM as usize] = Processor {
        key_control: true,
        ..Processor::default()
    };
    machine.processors[REGIONS as usize] = Processor {
        problem: true,
        ..Processor::default()
    };
    Ok(machine)
}

/// Prints an answer. `address` is that of the request, `before` the machine that it found and
/// `after` the one that it left.
fn report(answer: Result<Completed, Refusal>, address: u32, before: &Machine, after: &Machine) {
    let Err(Refusal { reason, place }) = answer else {
        println!("completed");
        return;
    };
    print!("refused\n    {reason} (number {})", reason.number());
    if matches!(reason, Reason::Addressing | Reason::Protection) {
        let first = address + u32::from(place);
        print!(", first at place {place}, which is address {first}");
    }
    let changed = if before == after {
        "no byte"
    } else {
        "SOMETHING"
    };
    println!("\n    {changed} of storage, keys and records has changed");
}

/// The control program sets the access control of a block.
fn set_key(machine: &mut Machine, block: u32, access_control: u8, whose: &str) {
    print!("  SSK, access control {access_control} for the {whose} block at address {block}: ");
    let before = machine.clone();
    let key = u32::from(access_control << 4);
    let answer = machine.cpu(CONTROL_PROGRAM).ssk(key, block);
    report(answer, block, &before, machine);
}

/// A region with this PSW key stores a text.
fn store(machine: &mut Machine, psw_key: u8, address: u32, text: &str) {
    machine.processors[REGIONS as usize].psw_key = psw_key;
    print!("  store with PSW key {psw_key}, \"{text}\" at address {address}: ");
    let before = machine.clone();
    let answer = machine.cpu(REGIONS).store(address, text.as_bytes());
    report(answer, address, &before, machine);
}

/// Bytes at an address, and the key of their unit.
fn show(machine: &Machine, address: u32, whose: &str) {
    let start = address as usize;
    let key = machine.keys[start / machine.settings.key_unit()];
    let bytes = &machine.storage[start..start + SHOWN as usize];
    let bit = |bit: u8| if key & bit != 0 { "one" } else { "zero" };
    println!(
        "  the {whose} bytes at address {address} are \"{}\"",
        bytes.escape_ascii()
    );
    println!(
        "    their key has access control {}, reference bit {}, change bit {}",
        (key & key::ACCESS_CONTROL) >> 4,
        bit(key::REFERENCE),
        bit(key::CHANGE)
    );
}

fn run(settings: Settings) -> Result<(), Refusal> {
    let mut machine = start(settings)?;
    println!("Key units of {} bytes:", settings.key_unit());
    set_key(&mut machine, NEIGHBOUR_BLOCK, 9, "neighbour's");
    store(&mut machine, 9, NEIGHBOUR_BLOCK, "ACCOUNTS");
    set_key(&mut machine, JOB_BLOCK, 8, "job's");
    store(&mut machine, 8, NEIGHBOUR_BLOCK - SHOWN, "SAMPLE 1SAMPLE 2");
    show(&machine, NEIGHBOUR_BLOCK - SHOWN, "job's");
    show(&machine, NEIGHBOUR_BLOCK, "neighbour's");
    Ok(())
}

fn main() -> Result<(), Refusal> {
    println!(
        "\
A sampling job has the 2K block from 8192 to 10239, its neighbour the one from 10240
to 12287. The job stores 16 bytes at 10232, eight of them past the end of its block.
"
    );
    run(Settings::default())?;
    println!("Address 10240 is the first byte of the neighbour's block.\n");
    run(Settings {
        four_k: true,
        ..Settings::default()
    })?;
    println!(
        "\
One key covers both blocks: the second SSK replaced the key of the first, and the job's
store went over its neighbour's bytes. A routine that takes the key unit for 4096 bytes
where it is 2048 does this on the first machine.

Next, install the storage unit with host/install PREFIX and build a program of your own
with it, as host/README.md shows."
    );
    Ok(())
}
