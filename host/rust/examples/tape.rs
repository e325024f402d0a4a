//! A channel reads a block of a tape into a region's 2K unit, under the region's key, and writes the
//! first record of it to a second tape. Under the key of another region the same program is
//! refused. Done CCW by CCW, a processor stores between two of them. A program that goes round by a
//! transfer in channel ends with the grant.
//!
//! `host/example/tape.c` is the same program in C and prints the same.

use storage_unit::boundary::{
    CCW_CHAIN_COMMAND, CCW_LENGTH, CCW_READ, CCW_TRANSFER, CCW_WRITE, CHANNEL_UNDER_WAY,
    GRANT_MAXIMUM, encode_ccw,
};
use storage_unit::{
    ChannelProgress, ChannelRecord, ChannelRefusal, ChannelRequest, Machine, Processor, Refusal,
    Settings, key,
};

const STORAGE_LENGTH: usize = 65_536;
const UNIT: usize = 2048;
/// The CCWs, in a unit that every key may fetch from.
const PROGRAM: u32 = 4096;
/// The region's unit.
const REGION: u32 = 8192;
const REGION_KEY: u8 = 8;
const OTHER_KEY: u8 = 9;

const RECORD_LENGTH: usize = 80;
/// Ten sample records.
const BLOCK_LENGTH: usize = 800;
/// Bytes shown of a record.
const SHOWN: usize = 12;

/// The sample records of the block: a number and points.
fn make_block() -> Vec<u8> {
    let mut block = vec![b'.'; BLOCK_LENGTH];
    for (number, record) in block.chunks_exact_mut(RECORD_LENGTH).enumerate() {
        let text = format!("SAMPLE {}", number + 1);
        record[..text.len()].copy_from_slice(text.as_bytes());
    }
    block
}

/// A machine with 2K units, storage full of points, and the region's key on its unit. Processor 1
/// runs the region. These CCWs stand at [`PROGRAM`].
fn start(ccws: &[[u8; CCW_LENGTH]]) -> Result<Machine, Refusal> {
    let mut machine = Machine::new(Settings::default(), STORAGE_LENGTH)?;
    machine.storage.fill(b'.');
    machine.processors[1] = Processor {
        psw_key: REGION_KEY,
        problem: true,
        ..Processor::default()
    };
    machine.cpu(0).ssk(u32::from(REGION_KEY << 4), REGION)?;
    let ccws = ccws.concat();
    machine.storage[PROGRAM as usize..][..ccws.len()].copy_from_slice(&ccws);
    Ok(machine)
}

/// Two CCWs: the block into the region, and its first record to the second tape.
fn copying() -> [[u8; CCW_LENGTH]; 2] {
    [
        encode_ccw(CCW_READ, REGION, CCW_CHAIN_COMMAND, BLOCK_LENGTH as u16),
        encode_ccw(CCW_WRITE, REGION, 0, RECORD_LENGTH as u16),
    ]
}

/// Two CCWs that go round: the next record into the region, and back.
fn round() -> [[u8; CCW_LENGTH]; 2] {
    [
        encode_ccw(CCW_READ, REGION, CCW_CHAIN_COMMAND, RECORD_LENGTH as u16),
        encode_ccw(CCW_TRANSFER, PROGRAM, 0, 0),
    ]
}

/// The program at [`PROGRAM`] with a key and a grant.
fn program(key: u8, grant: u32) -> ChannelRequest {
    ChannelRequest {
        key: key.into(),
        first: PROGRAM,
        grant,
    }
}

/// Prints an answer, or that there is none yet, and how far the program has come.
fn report(answer: Option<Result<(), ChannelRefusal>>, record: &ChannelRecord) {
    match answer {
        Some(Ok(())) => println!("completed (number 0)"),
        Some(Err(refusal)) => println!("{refusal}"),
        None => println!("under way (number {CHANNEL_UNDER_WAY})"),
    }
    println!(
        "    CCWs fetched: {}, bytes from the tape: {}, to the second tape: {}",
        record.fetched, record.taken, record.given
    );
}

/// The key of the unit at an address.
fn show_key(machine: &Machine, address: u32, whose: &str) {
    let key = machine.keys[address as usize / UNIT];
    let bit = |bit: u8| if key & bit != 0 { "one" } else { "zero" };
    println!(
        "  the {whose} key has access control {}, reference bit {}, change bit {}",
        (key & key::ACCESS_CONTROL) >> 4,
        bit(key::REFERENCE),
        bit(key::CHANGE)
    );
}

/// The first bytes of the region and of the second tape.
fn show_bytes(machine: &Machine, second_tape: &[u8]) {
    println!(
        "  the region begins with \"{}\", the second tape with \"{}\"",
        machine.storage[REGION as usize..][..SHOWN].escape_ascii(),
        second_tape[..SHOWN].escape_ascii()
    );
}

/// What has changed: the bytes of storage, and each key.
fn show_changes(before: &Machine, after: &Machine) {
    let changed = if before.storage == after.storage {
        "no byte"
    } else {
        "SOMETHING"
    };
    print!("  {changed} of storage has changed; keys that have:");
    for (unit, (old, new)) in before.keys.iter().zip(&after.keys).enumerate() {
        if old != new {
            let address = unit * UNIT;
            print!(" that of the unit at {address}, from {old:02X} to {new:02X}");
        }
    }
    println!();
}

/// The whole program under a key. Gives the machine before and after it.
fn run_whole(key: u8, block: &[u8]) -> Result<(Machine, Machine), Refusal> {
    let before = start(&copying())?;
    let mut machine = before.clone();
    let mut second_tape = [b'.'; RECORD_LENGTH];
    print!("The program under key {key}: ");
    let reply = machine.channel(&program(key, GRANT_MAXIMUM), block, &mut second_tape);
    report(Some(reply.answer), &reply.record);
    show_bytes(&machine, &second_tape);
    Ok((before, machine))
}

/// The same CCW by CCW. Between the two, the region stores over what the second will write.
fn run_steps(block: &[u8]) -> Result<(), Refusal> {
    let mut machine = start(&copying())?;
    let mut second_tape = [b'.'; RECORD_LENGTH];
    let mut progress = ChannelProgress::default();
    let request = program(REGION_KEY, GRANT_MAXIMUM);
    print!("Step by step under key {REGION_KEY}:\n  first step: ");
    let answer = machine.channel_step(&request, block, &mut second_tape, &mut progress);
    report(answer, &progress.record);
    machine.cpu(1).store(REGION, b"TESTED")?;
    println!("  processor 1 stores \"TESTED\" at address {REGION}: completed");
    print!("  second step: ");
    let answer = machine.channel_step(&request, block, &mut second_tape, &mut progress);
    report(answer, &progress.record);
    show_bytes(&machine, &second_tape);
    Ok(())
}

/// The program that goes round, with six CCWs granted.
fn run_round(block: &[u8]) -> Result<(), Refusal> {
    let mut machine = start(&round())?;
    let mut second_tape = [b'.'; RECORD_LENGTH];
    let request = program(REGION_KEY, 6);
    print!("Going round, with a grant of {}: ", request.grant);
    let reply = machine.channel(&request, block, &mut second_tape);
    report(Some(reply.answer), &reply.record);
    show_bytes(&machine, &second_tape);
    Ok(())
}

fn main() -> Result<(), Refusal> {
    let block = make_block();
    println!(
        "\
A block of ten sample records, 800 bytes, is on a tape. The region with key 8 has the 2K
unit from 8192 to 10239. Two CCWs at 4096 read the block to 8192, and write its first
record, 80 bytes, to a second tape.
"
    );
    let (_, after) = run_whole(REGION_KEY, &block)?;
    show_key(&after, REGION, "region's");
    show_key(&after, PROGRAM, "CCWs'");
    println!();
    let (before, after) = run_whole(OTHER_KEY, &block)?;
    show_changes(&before, &after);
    println!(
        "\
The first CCW was fetched, as its unit's key says; the transfer of its data is forbidden.
"
    );
    run_steps(&block)?;
    println!(
        "\
What the second CCW wrote is what the processor had stored.

Now two CCWs read one record to 8192 and go back, by a transfer in channel.
"
    );
    run_round(&block)?;
    println!("Of six CCWs three were transfers in channel, and three records were read.");
    Ok(())
}
